//! The printing program where a read or a write fails: it says so on standard error, and there is no report.

use std::fs::{File, OpenOptions};
use std::process::{Command, Output, Stdio};

const PROGRAM: &[u8] = b"PR\x01\x01\x02TH\x00";

fn run(input: Stdio, output: Stdio) -> Output {
    Command::new(compare::printing::program())
        .stdin(input)
        .stdout(output)
        .stderr(Stdio::piped())
        .output()
        .unwrap()
}

#[test]
fn a_failed_read_is_no_end() {
    // To read a folder fails, and so does a read of what was opened for writing.
    let folder = File::open("/").unwrap();
    let closed = OpenOptions::new().write(true).open("/dev/null").unwrap();
    for input in [folder, closed] {
        let said = run(Stdio::from(input), Stdio::piped());
        assert_eq!(said.stdout, b"");
        assert_eq!(said.stderr, b"order_check: standard input can't be read to its end\n");
        assert_eq!(said.status.code(), Some(1));
    }
}

#[test]
fn a_failed_write_is_told() {
    let path = std::env::temp_dir().join(format!("order_check-failures-{}", std::process::id()));
    std::fs::write(&path, PROGRAM).unwrap();
    let full = OpenOptions::new().write(true).open("/dev/full").unwrap();
    let said = run(Stdio::from(File::open(&path).unwrap()), Stdio::from(full));
    let right = run(Stdio::from(File::open(&path).unwrap()), Stdio::piped());
    std::fs::remove_file(&path).unwrap();
    assert_eq!(said.stderr, b"order_check: standard output can't be written\n");
    assert_eq!((said.status.code(), right.status.code()), (Some(1), Some(0)));
    assert_eq!((right.stdout.as_slice(), right.stderr.as_slice()), (b"RB 1\n".as_slice(), b"".as_slice()));
}
