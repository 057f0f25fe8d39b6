//! The reader's C header, by a program in C that is compiled against it and linked with the static library.

use std::env;
use std::path::{Path, PathBuf};
use std::process::Command;

#[test]
fn a_program_in_c_reads_programs() {
    let here = Path::new(env!("CARGO_MANIFEST_DIR"));
    let archives =
        env::var_os("ORDER_STATICLIB").map_or(here.join("../../crates/order_read_c/out"), PathBuf::from);
    let caller = Path::new(env!("CARGO_TARGET_TMPDIR")).join("reader_caller");
    let compiled = Command::new("cc")
        .args(["-std=c99", "-Wall", "-Wextra", "-pedantic", "-Werror", "-I"])
        .arg(here.join("../../crates/order_read_c"))
        .arg(here.join("tests/reader_caller.c"))
        .arg(archives.join("liborder_read_c.a"))
        .arg("-o")
        .arg(&caller)
        .output()
        .expect("cc is there, since cargo links by it");
    assert!(compiled.status.success(), "{}", String::from_utf8_lossy(&compiled.stderr));
    let run = Command::new(&caller).output().unwrap();
    assert!(run.status.success(), "{}", String::from_utf8_lossy(&run.stdout));
}
