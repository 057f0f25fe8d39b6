//! Running the command, and what it leaves.

use std::env;
use std::fs;
use std::io::Write;
use std::path::{Path, PathBuf};
use std::process::{Command, Output, Stdio};

use models::collection;

/// x := 1; read y ‖ y := 1; read x; K = 2.
pub const SB: &[u8] = b"PR\x02\x02\x02TH\x02IN\x05\x00\x00\x01\x00IN\x06\x00\x01\x00\x00\
    TH\x02IN\x05\x00\x01\x01\x00IN\x06\x00\x00\x00\x00";

/// Its report.
pub const SB_LINES: &str = "NR 7 3 2 R 0 0\nST 1 W 0 1\nST 1 R 1 0\nST 2 W 1 1\n";

/// The command, with the printing program of this repository, or that of `ORDER_CHECK`.
pub fn order() -> Command {
    let mut command = Command::new(env!("CARGO_BIN_EXE_order"));
    command.env("ORDER_CHECK", checker()).current_dir(models());
    command
}

/// The printing program.
pub fn checker() -> PathBuf {
    let made = Path::new(env!("CARGO_MANIFEST_DIR")).join("../../crates/order_check/out/order_check");
    env::var_os("ORDER_CHECK").map_or(made, PathBuf::from)
}

/// Where the models stand, and where the command is run.
pub fn models() -> PathBuf {
    collection::directory()
}

/// Runs it with these arguments and this standard input.
pub fn run(arguments: &[&str], input: &[u8]) -> Output {
    finish(order().args(arguments), input)
}

/// Runs a command with this standard input to its end.
pub fn finish(command: &mut Command, input: &[u8]) -> Output {
    command.stdin(Stdio::piped()).stdout(Stdio::piped()).stderr(Stdio::piped());
    let mut child = command.spawn().unwrap();
    // It may be gone before it has read all.
    let _ = child.stdin.take().unwrap().write_all(input);
    child.wait_with_output().unwrap()
}

/// It ends with this status and writes this to standard output; what it says on standard error.
#[track_caller]
pub fn ends(output: &Output, status: i32, stdout: &str) -> String {
    let said = String::from_utf8_lossy(&output.stderr).into_owned();
    assert_eq!(String::from_utf8_lossy(&output.stdout), stdout, "{said}");
    assert_eq!(output.status.code(), Some(status), "{said}");
    assert!(!said.contains("panicked"), "{said}");
    said
}

/// The same, and it says nothing.
#[track_caller]
pub fn ends_quietly(output: &Output, status: i32, stdout: &str) {
    assert_eq!(ends(output, status, stdout), "");
}

/// What it prints, with this status and nothing said.
#[track_caller]
pub fn printed(arguments: &[&str], input: &[u8], status: i32) -> String {
    let output = run(arguments, input);
    let text = String::from_utf8(output.stdout.clone()).unwrap();
    ends_quietly(&output, status, &text);
    text
}

/// An empty folder of the test's own.
pub fn folder(test: &str) -> PathBuf {
    let folder = Path::new(env!("CARGO_TARGET_TMPDIR")).join(test);
    let _ = fs::remove_dir_all(&folder);
    fs::create_dir_all(&folder).unwrap();
    folder
}
