//! What comes of a printing program that fails.

use std::fs;
use std::os::unix::fs::PermissionsExt;
use std::path::Path;

use crate::user::{checker, ends, finish, folder, order, SB, SB_LINES};

/// What `order` says where the printing program is this script.
fn said(test: &str, script: &str) -> String {
    let program = folder(test).join("printing");
    fs::write(&program, format!("#!/bin/sh\n{script}\n")).unwrap();
    fs::set_permissions(&program, PermissionsExt::from_mode(0o755)).unwrap();
    ends(&finish(order().env("ORDER_CHECK", &program).arg("-"), SB), 1, "")
}

/// The same, where it blames the printing program.
fn said_of(test: &str, script: &str) -> String {
    let said = said(test, script);
    assert!(said.starts_with(&format!("order: {}: ", named(test))), "{said}");
    said
}

/// What messages call it.
fn named(test: &str) -> String {
    let program = Path::new(env!("CARGO_TARGET_TMPDIR")).join(test).join("printing");
    format!("{} (named by ORDER_CHECK)", program.display())
}

#[test]
fn a_report_that_is_not_whole_is_no_success() {
    for script in
        ["cat >/dev/null", "cat >/dev/null; echo RB", "cat >/dev/null; printf 'RB 13'", "cat; echo RB 13"]
    {
        assert!(said_of("not-whole", script).ends_with("it wrote no whole report\n"), "{script}");
    }
    let cut = "cat >/dev/null; printf 'NR 7 3 2 R 0 0\\nST 1 W 0 1\\n'";
    assert!(said_of("cut", cut).ends_with("it wrote no whole report\n"));
}

#[test]
fn a_program_that_fails_is_no_success() {
    let said = said_of("fails", "cat >/dev/null; echo RB 13; exit 3");
    assert!(said.contains("it ended with exit status: 3"), "{said}");
    let said = said_of("killed", "cat >/dev/null; echo RB 13; kill -9 $$");
    assert!(said.contains("it ended with signal: 9"), "{said}");
    let missing = folder("missing").join("none");
    let said = ends(&finish(order().env("ORDER_CHECK", &missing).arg("-"), SB), 1, "");
    assert!(said.starts_with(&format!("order: {} (named by ORDER_CHECK): ", missing.display())), "{said}");
}

#[test]
fn a_report_that_is_not_the_library_s_is_no_success() {
    for (test, lines) in [("lies", "RB 13"), ("lies-of-steps", &SB_LINES.trim_end().replace("ST 2", "ST 1"))]
    {
        let script = format!("cat >/dev/null; cat <<'END'\n{lines}\nEND");
        let said = said(test, &script);
        assert!(said.starts_with("order: standard input: the printing program reports "), "{said}");
        let end =
            "the library NR 7 3 2 R 0 0 with as long a table: they are not of one build. The program is";
        assert!(said.ends_with(&format!("{end} {}\n", named(test))), "{said}");
    }
}

#[test]
fn a_program_that_writes_before_it_has_read_is_waited_for() {
    let bytes = vec![0; 900_000];
    let output = finish(order().env("ORDER_CHECK", "/bin/cat").arg("-"), &bytes);
    assert!(ends(&output, 1, "").ends_with("it wrote no whole report\n"));
}

#[test]
fn the_program_beside_the_command_serves() {
    let folder = folder("beside");
    fs::copy(env!("CARGO_BIN_EXE_order"), folder.join("order")).unwrap();
    fs::copy(checker(), folder.join("order_check")).unwrap();
    let mut command = std::process::Command::new(folder.join("order"));
    ends(&finish(command.env_remove("ORDER_CHECK").arg("-"), SB), 10, SB_LINES);
    ends(&finish(command.env("ORDER_CHECK", ""), SB), 10, SB_LINES);
    fs::remove_file(folder.join("order_check")).unwrap();
    let said = ends(&finish(command.env_remove("ORDER_CHECK"), SB), 1, "");
    assert!(said.contains("beside/order_check: ") && !said.contains("ORDER_CHECK"), "{said}");
}
