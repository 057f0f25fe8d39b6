//! Programs in C call the library by its header. The compiler is the one that links Rust programs.
#![forbid(unsafe_code)]

use std::fs;
use std::path::{Path, PathBuf};
use std::process::{Command, Output};

/// The folder of the header.
fn headers() -> PathBuf {
    Path::new(env!("CARGO_MANIFEST_DIR")).join("../../crates/order_check_c")
}

fn header() -> String {
    fs::read_to_string(headers().join("order_check.h")).unwrap()
}

/// Compiles a program and runs it.
fn run(source: &Path, name: &str) -> Output {
    let program = Path::new(env!("CARGO_TARGET_TMPDIR")).join(name);
    let compiled = Command::new("cc")
        .args(["-std=c99", "-Wall", "-Wextra", "-pedantic", "-Werror", "-I"])
        .arg(headers())
        .arg(source)
        .arg(env!("ORDER_CHECK_ARCHIVE"))
        .arg("-o")
        .arg(&program)
        .output()
        .expect("cc is there, since cargo links by it");
    assert!(compiled.status.success(), "{}", String::from_utf8_lossy(&compiled.stderr));
    Command::new(&program).output().unwrap()
}

#[test]
fn a_program_in_c_gets_the_answers_of_the_documents() {
    let source = Path::new(env!("CARGO_MANIFEST_DIR")).join("tests/caller.c");
    let run = run(&source, "caller");
    let printed = String::from_utf8_lossy(&run.stdout);
    assert!(run.status.success(), "{printed}");
    let sb = "ST 1 W 0 1\nST 1 R 1 0\nST 2 W 1 1\n";
    let fenced = "ST 1 W 0 1\nST 1 M 2 0\nST 1 R 1 0\nST 2 W 1 1\n";
    assert_eq!(printed, format!("{sb}ST 1 L 0 0\n{sb}{fenced}"));
}

#[test]
fn the_example_of_the_header_runs() {
    let header = header();
    let (_, example) = header.split_once("prints the answer:\n").expect("an example");
    let (example, _) = example.split_once("\n */").expect("its end");
    let code: Vec<&str> = example
        .lines()
        .map(|line| line.strip_prefix(" *").unwrap())
        .map(|line| line.get(5..).unwrap_or(""))
        .collect();
    let source = Path::new(env!("CARGO_TARGET_TMPDIR")).join("example.c");
    fs::write(&source, code.join("\n") + "\n").unwrap();
    let run = run(&source, "example");
    let steps =
        "thread 1: W of 1 at location 0\nthread 1: R of 0 at location 1\nthread 2: W of 1 at location 1\n";
    let last = "not robust: then thread 2 may use the old 0 of location 0\n";
    assert_eq!(String::from_utf8_lossy(&run.stdout), format!("{steps}{last}"));
    assert_eq!(run.status.code(), Some(1));
}

#[test]
fn the_line_of_the_header_compiles_a_caller() {
    let header = header();
    let line = header.lines().find_map(|line| line.strip_prefix(" *     cc -I")).expect("a line with cc");
    let here = Path::new(env!("CARGO_MANIFEST_DIR"));
    let arguments = line.split(' ').map(|argument| match argument {
        "caller.c" => here.join("tests/caller.c"),
        "crates/order_check_c/out/liborder_check_c.a" => PathBuf::from(env!("ORDER_CHECK_ARCHIVE")),
        _ => PathBuf::from(argument),
    });
    let program = Path::new(env!("CARGO_TARGET_TMPDIR")).join("by-line");
    let mut compiler = Command::new("cc");
    compiler.arg("-I").args(arguments).arg("-o").arg(program).current_dir(here.join("../.."));
    let compiled = compiler.output().unwrap();
    assert!(compiled.status.success(), "{}", String::from_utf8_lossy(&compiled.stderr));
}

#[test]
fn the_version_is_that_of_the_crates() {
    let version = env!("CARGO_PKG_VERSION_MINOR");
    assert!(header().contains(&format!("#define ORDER_CHECK_VERSION {version}\n")), "{version}");
    let format = Path::new(env!("CARGO_MANIFEST_DIR")).join("../../docs/FORMAT.md");
    let format = fs::read_to_string(format).unwrap();
    let whole = env!("CARGO_PKG_VERSION");
    for said in [format!("version {version} ("), format!(", {whole})."), format!("| `version` | {version},")]
    {
        assert!(format.contains(&said), "{said}");
    }
}
