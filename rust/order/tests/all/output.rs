//! Standard output, and the command line.

use std::ffi::OsStr;
use std::fs::File;
use std::io::pipe;
use std::os::unix::ffi::OsStrExt;
use std::process::{Command, Stdio};

use crate::user::{ends, ends_quietly, finish, order, run};

/// Runs it on SB with this standard output: its status, and what it says.
fn into(command: &mut Command, output: impl Into<Stdio>) -> (Option<i32>, String) {
    let child = command.stdin(Stdio::null()).stdout(output).stderr(Stdio::piped()).spawn().unwrap();
    let output = child.wait_with_output().unwrap();
    (output.status.code(), String::from_utf8(output.stderr).unwrap())
}

#[test]
fn a_full_output_is_a_failure_with_a_message() {
    for arguments in
        [&["sb.order"][..], &["mp.order", "mp.order"], &["--expect", "mp.order"], &["--help"], &["--version"]]
    {
        let full = File::options().write(true).open("/dev/full").unwrap();
        let (status, said) = into(order().args(arguments), full);
        assert_eq!(status, Some(1), "{arguments:?}");
        assert!(said.starts_with("order: standard output: ") && said.lines().count() == 1, "{said}");
    }
}

#[test]
fn a_reader_that_goes_away_is_quiet_and_no_success() {
    for arguments in [&["mp.order"][..], &["mp.order", "mp.order"], &["--help"]] {
        let (reader, writer) = pipe().unwrap();
        drop(reader);
        assert_eq!(into(order().args(arguments), writer), (Some(1), String::new()), "{arguments:?}");
    }
}

#[test]
fn nobody_who_reads_the_messages_changes_nothing() {
    let (reader, writer) = pipe().unwrap();
    drop(reader);
    let mut command = order();
    command.args(["-", "seqlock.order"]).stdin(Stdio::null()).stdout(Stdio::null()).stderr(writer);
    assert_eq!(command.status().unwrap().code(), Some(1));
}

#[test]
fn an_output_that_can_only_be_read_is_a_failure_with_a_message() {
    for arguments in [&["mp.order"][..], &["--json", "mp.order"], &["--version"]] {
        let (status, said) = into(order().args(arguments), File::open("/dev/null").unwrap());
        assert_eq!(status, Some(1), "{arguments:?}");
        assert!(said.starts_with("order: standard output: "), "{said}");
    }
}

#[test]
fn help_and_version_are_no_mistakes() {
    for option in ["--help", "-h"] {
        let output = run(&[option], b"");
        let help = String::from_utf8(output.stdout.clone()).unwrap();
        assert!(
            help.starts_with("order: ") && help.contains("The exit status: 0 for RB, 10 for NR"),
            "{help}"
        );
        assert!(help.lines().all(|line| line.chars().count() <= 80), "{help}");
        ends_quietly(&output, 0, &help);
    }
    ends_quietly(&run(&["--version"], b""), 0, &format!("order {}\n", env!("CARGO_PKG_VERSION")));
    // A file of that name must not get the status of RB.
    for option in ["--help", "-h", "--version"] {
        let said = ends(&run(&["sb.order", option], b""), 2, "");
        assert_eq!(said, format!("order: {option} stands alone; see order --help\n"));
    }
}

#[test]
fn a_wrong_command_line_is_2() {
    for (arguments, what) in [
        (&[][..], "expected a file, or - for standard input"),
        (&["-x", "sb.order"], "-x is no option"),
        (&["--tabel", "4G", "sb.order"], "--tabel is no option"),
        (&["sb.order", "--table"], "expected a size after --table"),
        (&["--table", "--json", "sb.order"], "expected a size after --table, found --json"),
        (&["--table", "4T", "sb.order"], "expected a size such as 49152, 64K, 10M or 4G, found 4T"),
        (&["-", "-"], "standard input can be read once"),
        (&["--table", "1", "--table=2", "sb.order"], "expected one --table"),
        (&["--html", "a", "--html", "b", "sb.order"], "expected one --html"),
        (&["--html", "a", "--dot", "a", "sb.order"], "--html and --dot need a file each"),
        (&["--html", "sb.order", "mp.order"], "sb.order is the name of a model, and not of a page"),
        (&["--dot", "new.order", "mp.order"], "new.order is the name of a model, and not of a graph"),
        (
            &["--html", "README.md", "mp.order"],
            "README.md is no page that order wrote, and would be written over",
        ),
        (
            &["--dot", "README.md", "mp.order"],
            "README.md is no graph that order wrote, and would be written over",
        ),
        (&["--json", "--expect", "sb.order"], "--explain, --json and --expect exclude each other"),
    ] {
        assert_eq!(ends(&run(arguments, b""), 2, ""), format!("order: {what}; see order --help\n"));
    }
}

#[test]
fn a_file_name_that_is_no_text_is_named_as_one() {
    for (argument, shown) in
        [(&b"caf\xe9\n.order"[..], "file name 'caf\u{fffd}\\n.order'"), (b"-\xe9", "argument '-\u{fffd}'")]
    {
        let output = finish(order().arg("sb.order").arg(OsStr::from_bytes(argument)), b"");
        assert_eq!(
            ends(&output, 2, ""),
            format!("order: the {shown} is not valid UTF-8; see order --help\n")
        );
    }
}
