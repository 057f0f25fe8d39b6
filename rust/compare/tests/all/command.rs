//! The commands `order_read` and `order_compare`.

use std::io::pipe;
use std::process::{Command, Output, Stdio};

fn run(arguments: &[&str], input: &[u8]) -> Output {
    run::run(env!("CARGO_BIN_EXE_order_read"), arguments, input)
}

fn printed(output: &Output) -> &str {
    std::str::from_utf8(&output.stdout).unwrap()
}

#[test]
fn accepts_a_program() {
    let output = run(&[], b"PR\x01\x01\x02TH\x00");
    assert_eq!(printed(&output), "accepted: threads 1, locations 1, values 2\n");
    assert_eq!(output.status.code(), Some(0));
    // The named locations are counted, and not that of the fences.
    let output = run(&[], b"PR\x01\x0f\x02TH\x01IN\x0b\x00\x00\x00\x00");
    assert_eq!(printed(&output), "accepted: threads 1, locations 15, values 2\n");
}

#[test]
fn refuses_with_the_number_of_the_check() {
    let fence = b"PR\x01\x10\x02TH\x01IN\x0b\x00\x00\x00\x00";
    for (input, number) in [(&b""[..], 1), (b"PR\x01\x01\x01TH\x00", 2), (b"PR\x01\x01\x02", 3), (fence, 12)]
    {
        let output = run(&["-"], input);
        assert_eq!(printed(&output), format!("NO {number}\n"));
        assert_eq!(output.status.code(), Some(1));
    }
}

#[test]
fn says_which_file_is_missing() {
    let output = run(&["no/such/file"], b"");
    assert_eq!(printed(&output), "");
    assert!(String::from_utf8_lossy(&output.stderr).contains("no/such/file"));
    assert_eq!(output.status.code(), Some(1));
}

#[test]
fn takes_one_file() {
    let output = run(&["one", "two"], b"");
    assert_eq!(printed(&output), "");
    assert!(String::from_utf8_lossy(&output.stderr).contains("usage"));
    assert_eq!(output.status.code(), Some(2));
}

#[test]
fn each_command_has_help_and_a_version() {
    for (name, command) in [
        ("order_read", env!("CARGO_BIN_EXE_order_read")),
        ("order_compare", env!("CARGO_BIN_EXE_order_compare")),
    ] {
        let output = run::run(command, &["--version"], b"");
        assert_eq!(printed(&output), format!("{name} {}\n", env!("CARGO_PKG_VERSION")));
        assert_eq!(output.status.code(), Some(0));
        let output = run::run(command, &["--help"], b"");
        assert!(printed(&output).starts_with(&format!("usage: {name} [")), "{}", printed(&output));
        assert_eq!(output.status.code(), Some(0));
    }
}

#[test]
fn a_reader_that_goes_away_is_quiet_and_an_endless_input_ends() {
    let (reader, writer) = pipe().unwrap();
    drop(reader);
    let mut command = Command::new(env!("CARGO_BIN_EXE_order_read"));
    let child = command.stdin(Stdio::null()).stdout(writer).stderr(Stdio::piped()).spawn().unwrap();
    let output = child.wait_with_output().unwrap();
    assert_eq!((output.status.code(), output.stderr), (Some(1), vec![]));
    let output = run(&["/dev/zero"], b"");
    assert_eq!(output.stderr, b"order_read: /dev/zero: longer than 1 MiB, which no model is\n");
    assert_eq!(output.status.code(), Some(1));
}
