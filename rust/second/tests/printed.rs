//! The command `second`, run as a user runs it.
#![forbid(unsafe_code)]

use std::process::Output;

use models::collection;

const SB: &[u8] = b"PR\x02\x02\x02TH\x02IN\x05\x00\x00\x01\x00IN\x06\x00\x01\x00\x00\
      TH\x02IN\x05\x00\x01\x01\x00IN\x06\x00\x00\x00\x00";

const SB_PRINTED: &str = "NR 7 3 2 R 0 0\nST 1 W 0 1\nST 1 R 1 0\nST 2 W 1 1\n";

fn run(arguments: &[&str], input: &[u8]) -> Output {
    run::run(env!("CARGO_BIN_EXE_second"), arguments, input)
}

/// It ends well and prints this, and nothing else.
#[track_caller]
fn prints(arguments: &[&str], input: &[u8], expected: &str) {
    let output = run(arguments, input);
    assert_eq!(String::from_utf8_lossy(&output.stderr), "");
    assert_eq!(String::from_utf8_lossy(&output.stdout), expected);
    assert_eq!(output.status.code(), Some(0));
}

fn model(name: &str) -> Vec<u8> {
    collection::named(name).unwrap().bytes
}

#[test]
fn sb_has_its_output_with_the_access_of_each_step() {
    prints(&[], SB, SB_PRINTED);
}

#[test]
fn the_other_cases_have_theirs() {
    prints(&[], &model("2+2w"), "NR 8 3 2 W 0 0\nST 1 W 0 1\nST 1 W 1 2\nST 2 W 1 1\n");
    prints(&[], &model("mp"), "RB 13\n");
    prints(&[], &model("barrier"), "RB 7\n");
    prints(&[], b"PR\x01\x01\x02TH\x00", "RB 1\n");
    prints(&[], b"", "NO 1\n");
    prints(&[], b"PR\x01\x01\x01TH\x00", "NO 2\n");
    prints(&[], &[SB, b"\x00"].concat(), "NO 9\n");
}

#[test]
fn a_read_modify_write_prints_as_m() {
    // x := 1; FADD(y, 0) ‖ y := 1; FADD(x, 0)
    let program = b"PR\x02\x02\x02TH\x02IN\x05\x00\x00\x01\x00IN\x07\x00\x01\x00\x00\
        TH\x02IN\x05\x00\x01\x01\x00IN\x07\x00\x00\x00\x00";
    prints(&[], program, "NR 7 3 2 M 0 0\nST 1 W 0 1\nST 1 M 1 0\nST 2 W 1 1\n");
}

#[test]
fn the_table_of_49152_bytes_can_be_full() {
    // Eight threads of three local lines have 4^8 situations, and T = 8, L = 1 gives 49,152 / 106 places.
    let thread = [b"TH\x03".as_slice(), &b"IN\x01\x00\x00\x00\x00".repeat(3)].concat();
    prints(&[], &[b"PR\x08\x01\x02".as_slice(), &thread.repeat(8)].concat(), "FU 463\n");
}

#[test]
fn other_lengths_are_arguments() {
    prints(&["455"], SB, SB_PRINTED);
    prints(&["454"], SB, "FU 6\n");
    prints(&["455", "12"], SB, SB_PRINTED);
    prints(&["455", "11"], SB, "NO 10\n");
    prints(&["455", "3"], SB, "NO 10\n");
    for arguments in [&["455", "12", "1"][..], &["many"], &["-1"]] {
        let output = run(arguments, SB);
        assert_eq!(output.status.code(), Some(2));
        assert_eq!(output.stdout, b"");
        assert!(String::from_utf8_lossy(&output.stderr).starts_with("usage: second"));
    }
}

#[test]
fn it_tells_its_version_and_how_it_is_used() {
    prints(&["--version"], b"", &format!("second {}\n", env!("CARGO_PKG_VERSION")));
    let output = run(&["--help"], b"");
    assert!(output.stdout.starts_with(b"usage: second ") && output.status.success());
}
