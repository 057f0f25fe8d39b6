//! The script `./order`: what it builds, and what it hands on. It stands here in a tree of its own, with stand-ins for
//! the tools that build.

use std::env;
use std::fs::{self, File};
use std::os::unix::fs::{symlink, PermissionsExt};
use std::path::{Path, PathBuf};
use std::process::{self, Command};
use std::thread::sleep;
use std::time::{Duration, SystemTime};

use crate::user::{checker, ends, ends_quietly, finish, SB, SB_LINES};

/// What the script uses of the system, beside what builds.
const TOOLS: [&str; 17] = [
    "bash", "cat", "cp", "dirname", "env", "find", "mkdir", "mktemp", "mv", "readlink", "rm", "sed", "sh",
    "sleep", "tac", "tee", "touch",
];

/// Longer than the clock of any file system stands still.
const TICK: Duration = Duration::from_millis(100);

/// An `rt` that only writes down what it is asked for, and for which crate.
const CALLED: &str = "echo \"$* ${PWD##*/}\" >> ../../calls";

/// A tree with the script, and with all that it builds unless `bare`. It stands outside the repository, in which `rt ci`
/// takes one `crates.txt` only, and goes with its test.
struct Tree {
    root: PathBuf,
}

impl Drop for Tree {
    fn drop(&mut self) {
        let _ = fs::remove_dir_all(&self.root);
    }
}

impl Tree {
    fn new(test: &str, bare: bool) -> Tree {
        let tree = Tree { root: env::temp_dir().join(format!("order-script-{}-{test}", process::id())) };
        fs::create_dir_all(&tree.root).unwrap();
        let script = Path::new(env!("CARGO_MANIFEST_DIR")).join("../../order");
        fs::copy(script, tree.root.join("order")).unwrap();
        fs::write(tree.root.join("sb"), SB).unwrap();
        for source in [
            "crates/a",
            "crates.txt",
            "crates/order_check/src/main.rt",
            "crates/order_check_c/src/lib.rt",
            "rust/Cargo.toml",
            "tools/none",
        ] {
            tree.write(source, "");
        }
        for tool in TOOLS {
            let found = ["/usr/bin", "/bin"]
                .map(|folder| Path::new(folder).join(tool))
                .into_iter()
                .find(|it| it.exists());
            symlink(found.unwrap_or_else(|| panic!("no {tool}")), tree.root.join("tools").join(tool))
                .unwrap();
        }
        if !bare {
            tree.copy(&checker(), "crates/order_check/out/order_check");
            tree.write("crates/order_check_c/out/liborder_check_c.a", "");
            tree.copy(Path::new(env!("CARGO_BIN_EXE_order")), "rust/target/release/order");
            tree.write("rust/target/release/order_asm", "");
            for stamp in ["checker", "library", "command"] {
                tree.write(&format!("target/order/{stamp}"), "");
            }
        }
        tree
    }

    fn write(&self, name: &str, text: &str) {
        let path = self.root.join(name);
        fs::create_dir_all(path.parent().unwrap()).unwrap();
        fs::write(path, text).unwrap();
    }

    /// Writes a source anew, late enough that its time differs from that of what was there before.
    fn change(&self, name: &str) {
        sleep(TICK);
        self.write(name, "changed");
    }

    fn copy(&self, from: &Path, name: &str) {
        self.write(name, "");
        fs::copy(from, self.root.join(name)).unwrap();
    }

    /// Puts a tool on the path of [`Tree::shell`].
    fn tool(&self, name: &str, script: &str) {
        let name = format!("tools/{name}");
        self.write(&name, &format!("#!/bin/sh\n{script}\n"));
        fs::set_permissions(self.root.join(name), PermissionsExt::from_mode(0o755)).unwrap();
    }

    /// A shell that knows no other tools than [`TOOLS`] and those of this tree.
    fn shell(&self, line: &str) -> Command {
        let mut command = Command::new("/bin/sh");
        let path = self.root.join("tools");
        command.args(["-c", line]).env_remove("ORDER_CHECK").env("PATH", path).current_dir(&self.root);
        command
    }
}

#[test]
fn nothing_is_asked_for_where_nothing_must_be_built() {
    let tree = Tree::new("built", false);
    for tool in ["cargo", "rt"] {
        tree.tool(tool, "echo called >&2; exit 1");
    }
    ends_quietly(&finish(&mut tree.shell("./order sb"), b""), 10, SB_LINES);
    ends_quietly(&finish(&mut tree.shell("./order - < sb"), b""), 10, SB_LINES);
    ends_quietly(&finish(&mut tree.shell("cat sb | ./order -"), b""), 10, SB_LINES);
    tree.change("rust/README.md");
    tree.change("crates/a.md");
    ends_quietly(&finish(&mut tree.shell("./order sb"), b""), 10, SB_LINES);
}

#[test]
fn it_works_from_anywhere_and_by_a_link() {
    let tree = Tree::new("linked", false);
    fs::create_dir(tree.root.join("elsewhere")).unwrap();
    symlink("../order", tree.root.join("elsewhere/check")).unwrap();
    fs::copy(tree.root.join("sb"), tree.root.join("elsewhere/mine")).unwrap();
    ends_quietly(&finish(&mut tree.shell("cd elsewhere && ./check mine"), b""), 10, SB_LINES);
    ends_quietly(&finish(&mut tree.shell("cd elsewhere && ../order mine"), b""), 10, SB_LINES);
    ends_quietly(
        &finish(&mut tree.shell("cd / && \"$OLDPWD\"/elsewhere/check \"$OLDPWD\"/sb"), b""),
        10,
        SB_LINES,
    );
}

#[test]
fn a_closed_output_is_a_failure_with_a_message() {
    let tree = Tree::new("closed", false);
    assert_eq!(
        ends(&finish(&mut tree.shell("./order sb >&-"), b""), 1, ""),
        "order: standard output is closed\n"
    );
    ends_quietly(&finish(&mut tree.shell("./order sb >/dev/null"), b""), 10, "");
    ends_quietly(&finish(&mut tree.shell("./order sb 2>&-"), b""), 10, SB_LINES);
}

#[test]
fn a_missing_tool_is_named_with_where_it_comes_from() {
    let tree = Tree::new("no-tools", true);
    tree.write("rust/Cargo.toml", "version = \"1.2.3\"\n");
    tree.write("rust/order/src/help.txt", "the help\n");
    ends_quietly(&finish(&mut tree.shell("./order --version"), b""), 0, "order 1.2.3\n");
    ends_quietly(&finish(&mut tree.shell("./order --help"), b""), 0, "the help\n");
    let said = ends(&finish(&mut tree.shell("./order sb"), b""), 1, "");
    assert_eq!(
        said,
        "order: rt is missing, and something must be built with it: it comes with the Rattle kit\n"
    );
    let tree = Tree::new("no-cargo", false);
    fs::remove_file(tree.root.join("rust/target/release/order")).unwrap();
    let said = ends(&finish(&mut tree.shell("./order sb"), b""), 1, "");
    assert_eq!(said, "order: cargo is missing, and something must be built with it: it comes with Rust\n");
}

#[test]
fn what_is_missing_is_built_crate_by_crate() {
    let tree = Tree::new("builds", true);
    tree.write("crates.txt", "# NAME: what it stands on\na:\nb:\norder_check: a\norder_check_c:\n");
    tree.copy(&checker(), "made/order_check");
    tree.copy(Path::new(env!("CARGO_BIN_EXE_order")), "made/order");
    let rt = "cat; mkdir -p out; case $1 in
        run) echo 'crate a: modules loaded=0 checked=33'; cp ../../made/order_check out/;;
        lib) echo 'crate b: modules loaded=33 checked=0'; echo > out/liborder_check_c.a;;
      esac; echo 'logic=proved functions=1'; echo noise; echo noise >&2";
    tree.tool("rt", rt);
    tree.tool("cargo", "cat; mkdir -p rust/target/release; cp made/order rust/target/release/; echo > rust/target/release/order_asm; echo noise");
    let said = ends(&finish(&mut tree.shell("./order - < sb"), b""), 10, SB_LINES);
    for line in ["proving and building the checker", "building the library"] {
        assert!(said.contains(&format!("order: {line}")), "{said}");
    }
    for line in ["1 of at most 2: a proved in ", "1 of at most 1: b proved in "] {
        let (_, rest) = said.split_once(&format!("order:   {line}")).expect(&said);
        let time = rest.lines().next().and_then(|time| time.strip_suffix(" s"));
        assert!(time.is_some_and(|seconds| seconds.parse::<u32>().is_ok()), "{said}");
    }
    ends_quietly(&finish(&mut tree.shell("./order sb"), b""), 10, SB_LINES);
}

#[test]
fn a_build_that_fails_or_is_broken_off_does_not_count() {
    let tree = Tree::new("fails", false);
    tree.change("crates/a");
    for reason in ["echo 'the reason'; exit 3", "touch out/order_check; echo 'the reason'; kill -9 $$"] {
        tree.tool("rt", reason);
        for _ in 0..2 {
            let said = ends(&finish(&mut tree.shell("./order sb"), b""), 1, "");
            assert!(said.contains("the reason\n"), "{said}");
            assert!(said.ends_with("order: that failed, and nothing was checked\n"), "{said}");
        }
    }
    tree.tool("rt", "echo made");
    ends(&finish(&mut tree.shell("./order sb"), b""), 10, SB_LINES);
}

#[test]
fn what_changes_while_it_is_built_is_built_again() {
    let tree = Tree::new("changes", false);
    tree.change("crates/a");
    tree.tool(
        "rt",
        "case $1 in run) sleep 0.1; echo changed > ../a;; esac; sleep 0.1; echo \"$* ${PWD##*/}\" >> ../../calls",
    );
    ends(&finish(&mut tree.shell("./order sb"), b""), 10, SB_LINES);
    tree.tool("rt", CALLED);
    ends(&finish(&mut tree.shell("./order sb"), b""), 10, SB_LINES);
    ends_quietly(&finish(&mut tree.shell("./order sb"), b""), 10, SB_LINES);
    let calls = fs::read_to_string(tree.root.join("calls")).unwrap();
    assert_eq!(calls, "run order_check\nlib order_check_c\nrun order_check\n");
}

#[test]
fn what_the_user_has_set_for_other_builds_is_not_meant_here() {
    let tree = Tree::new("set", false);
    tree.change("rust/Cargo.toml");
    tree.tool("cargo", "echo \"$CARGO_TARGET_DIR$ORDER_STATICLIB$RUSTFLAGS\" > seen; echo \"$@\" > given");
    let mut shell = tree.shell("./order sb");
    shell.env("CARGO_TARGET_DIR", "elsewhere").env("ORDER_STATICLIB", "mine").env("RUSTFLAGS", "-g");
    ends(&finish(&mut shell, b""), 10, SB_LINES);
    assert_eq!(fs::read_to_string(tree.root.join("seen")).unwrap(), "\n");
    assert!(fs::read_to_string(tree.root.join("given")).unwrap().contains(" --target-dir rust/target "));
}

#[test]
fn what_can_not_be_looked_at_counts_as_changed() {
    let tree = Tree::new("unseen", false);
    fs::remove_file(tree.root.join("tools/find")).unwrap();
    tree.tool("find", "exit 1");
    tree.tool("rt", CALLED);
    tree.tool("cargo", "echo cargo >> calls");
    ends(&finish(&mut tree.shell("./order sb"), b""), 10, SB_LINES);
    let calls = fs::read_to_string(tree.root.join("calls")).unwrap();
    assert_eq!(calls, "run order_check\nlib order_check_c\ncargo\n");
    // A source that was put there with an older time.
    let tree = Tree::new("older", false);
    tree.tool("rt", CALLED);
    ends_quietly(&finish(&mut tree.shell("./order sb"), b""), 10, SB_LINES);
    sleep(TICK);
    let source = File::options().write(true).open(tree.root.join("crates/a")).unwrap();
    source.set_modified(SystemTime::UNIX_EPOCH).unwrap();
    ends(&finish(&mut tree.shell("./order sb"), b""), 10, SB_LINES);
    assert!(fs::read_to_string(tree.root.join("calls")).unwrap().starts_with("run order_check\n"));
}
