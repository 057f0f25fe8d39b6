//! The command `order_asm`, run as a user runs it.
#![forbid(unsafe_code)]

use std::fs;
use std::io::Write;
use std::path::{Path, PathBuf};
use std::process::{Command, Output, Stdio};

use program::limits::LONGEST_INPUT;

const SB: &str = "values 2\nlocations x y\nthread\n  x := 1\n  r0 := y\nthread\n  y := 1\n  r0 := x\n";
const SB_BYTES: &[u8] = b"PR\x02\x02\x02TH\x02IN\x05\x00\x00\x01\x00IN\x06\x00\x01\x00\x00\
      TH\x02IN\x05\x00\x01\x01\x00IN\x06\x00\x00\x00\x00";

/// Runs it in a directory of the test's own, with this standard input.
fn run(test: &str, arguments: &[&str], input: &[u8]) -> Output {
    run::run_at(&directory(test), Path::new(env!("CARGO_BIN_EXE_order_asm")), arguments, input)
}

fn directory(test: &str) -> PathBuf {
    let directory = PathBuf::from(env!("CARGO_TARGET_TMPDIR")).join(test);
    fs::create_dir_all(&directory).unwrap();
    directory
}

/// It ends well and writes this to standard output, and nothing else.
#[track_caller]
fn good(output: &Output, expected: &[u8]) {
    assert_eq!(String::from_utf8_lossy(&output.stderr), "");
    assert_eq!(output.status.code(), Some(0));
    assert_eq!(output.stdout, expected);
}

/// It ends with this status and this message on standard error, and writes nothing else.
#[track_caller]
fn bad(output: &Output, status: i32, message: &str) {
    assert_eq!(String::from_utf8_lossy(&output.stderr), message);
    assert_eq!(output.status.code(), Some(status));
    assert_eq!(output.stdout, b"");
}

#[test]
fn it_assembles_a_file_or_standard_input() {
    let test = "assembles";
    fs::write(directory(test).join("sb.order"), SB).unwrap();
    good(&run(test, &["sb.order"], b""), SB_BYTES);
    good(&run(test, &["-"], SB.as_bytes()), SB_BYTES);
    good(&run(test, &[], SB.as_bytes()), SB_BYTES);
}

#[test]
fn it_disassembles_a_file_or_standard_input() {
    let test = "disassembles";
    fs::write(directory(test).join("sb"), SB_BYTES).unwrap();
    good(&run(test, &["--dis", "sb"], b""), SB.as_bytes());
    good(&run(test, &["sb", "--dis"], b""), SB.as_bytes());
    good(&run(test, &["--dis"], SB_BYTES), SB.as_bytes());
}

#[test]
fn it_writes_the_file_that_o_names() {
    let test = "writes";
    let file = directory(test).join("out");
    let _ = fs::remove_file(&file);
    good(&run(test, &["-o", "out"], SB.as_bytes()), b"");
    assert_eq!(fs::read(&file).unwrap(), SB_BYTES);
    good(&run(test, &["--dis", "-o", "out"], SB_BYTES), b"");
    assert_eq!(fs::read(&file).unwrap(), SB.as_bytes());
}

/// A symbolic link that goes with its test: `rt ci` takes none in the repository, whoever left it there.
struct Link(PathBuf);

impl Link {
    fn new(original: &str, link: PathBuf) -> Link {
        std::os::unix::fs::symlink(original, &link).unwrap();
        Link(link)
    }
}

impl Drop for Link {
    fn drop(&mut self) {
        let _ = fs::remove_file(&self.0);
    }
}

/// It would be lost: the output is no model, and what the input said in comments is nowhere else.
#[test]
fn an_output_that_is_the_input_is_refused() {
    let test = "same";
    let folder = directory(test);
    let input = folder.join("sb.order");
    for name in ["hard", "soft", "other"] {
        let _ = fs::remove_file(folder.join(name));
    }
    fs::write(&input, SB).unwrap();
    fs::hard_link(&input, folder.join("hard")).unwrap();
    let _soft = Link::new("sb.order", folder.join("soft"));
    for out in ["sb.order", "./sb.order", "../same/sb.order", "hard", "soft", input.to_str().unwrap()] {
        let message = format!("expected another file than the input after -o, found {out}");
        let message = format!("order_asm: {message}; see order_asm --help\n");
        bad(&run(test, &["sb.order", "-o", out], b""), 2, &message);
        bad(&run(test, &["-o", out, "--dis", "sb.order"], b""), 2, &message);
        assert_eq!(fs::read(&input).unwrap(), SB.as_bytes(), "{out}");
    }
    // Another file with the same bytes is no such file; neither is a device, nor a file - beside standard input.
    fs::write(folder.join("other"), SB_BYTES).unwrap();
    good(&run(test, &["sb.order", "-o", "other"], b""), b"");
    assert_eq!(fs::read(folder.join("other")).unwrap(), SB_BYTES);
    bad(
        &run(test, &["/dev/null", "-o", "/dev/null"], b""),
        1,
        "/dev/null:1:1: expected 'values', found the end of the file\n",
    );
    fs::write(folder.join("-"), SB_BYTES).unwrap();
    good(&run(test, &["-o", "-"], SB.as_bytes()), b"");
    assert_eq!(fs::read(folder.join("-")).unwrap(), SB_BYTES);
}

#[test]
fn bytes_replace_no_text() {
    let test = "no-text";
    let file = directory(test).join("other.order");
    for text in [SB, "# notes\n", "PROGRAM\n"] {
        fs::write(&file, text).unwrap();
        let message = "order_asm: other.order holds no program bytes, and would be written over";
        let output = run(test, &["-o", "other.order"], SB.as_bytes());
        bad(&output, 2, &format!("{message}; see order_asm --help\n"));
        assert_eq!(fs::read(&file).unwrap(), text.as_bytes());
        good(&run(test, &["--dis", "-o", "other.order"], SB_BYTES), b"");
    }
    for bytes in [&b""[..], SB_BYTES, b"PR\x08"] {
        fs::write(&file, bytes).unwrap();
        good(&run(test, &["-o", "other.order"], SB.as_bytes()), b"");
        assert_eq!(fs::read(&file).unwrap(), SB_BYTES);
    }
}

#[test]
fn a_mistake_has_its_file_line_and_column_and_leaves_no_output() {
    let test = "mistake";
    let text = SB.replace("r0 := x", "r0 := z");
    fs::write(directory(test).join("bad.order"), &text).unwrap();
    let what =
        "8:9: expected a value from 0 to 1, a register (r0 to r3), a location (x, y), 'FADD' or 'CAS', \
                found 'z'\n";
    bad(&run(test, &["bad.order"], b""), 1, &format!("bad.order:{what}"));
    bad(&run(test, &[], text.as_bytes()), 1, &format!("standard input:{what}"));

    bad(&run(test, &["bad.order", "-o", "never"], b""), 1, &format!("bad.order:{what}"));
    assert!(!directory(test).join("never").exists());
    fs::write(directory(test).join("kept"), "PR\x01 as it was").unwrap();
    bad(&run(test, &["bad.order", "-o", "kept"], b""), 1, &format!("bad.order:{what}"));
    assert_eq!(fs::read(directory(test).join("kept")).unwrap(), b"PR\x01 as it was");
}

#[test]
fn a_fence_beside_sixteen_locations_leaves_no_output() {
    let test = "full";
    let text = "values 2\nlocations a b c d e f g h i j k l m n o p\nthread\n  fence\n";
    let what = "4:3: expected at most 15 locations beside a fence, found 16\n  \
        hint: a fence has a location of its own, and 16 are the most: leave one out of 'locations'\n";
    bad(&run(test, &["-", "-o", "never"], text.as_bytes()), 1, &format!("standard input:{what}"));
    assert!(!directory(test).join("never").exists());
    let bytes = b"PR\x01\x0f\x02TH\x01IN\x0b\x00\x00\x00\x00";
    good(&run(test, &[], text.replace(" p", "").as_bytes()), bytes);
}

#[test]
fn refused_bytes_get_the_check_that_failed_in_words_and_leave_no_output() {
    let test = "refused";
    let message = |check| {
        format!("standard input: no program: check {check}; docs/FORMAT.md has the bytes of a program\n")
    };
    let first = message("1 failed, the input must start with a whole PR record");
    bad(&run(test, &["--dis"], b""), 1, &first);
    bad(&run(test, &["--dis"], SB.as_bytes()), 1, &first);
    let second = message("2 failed, T must be 1 to 8, L 1 to 16 and K 2 to 16");
    for bytes in [b"PR\x01\x01\x01TH\x00", b"PR\x01\x00\x02TH\x00", b"PR\x01\x11\x02TH\x00"] {
        bad(&run(test, &["--dis"], bytes), 1, &second);
    }
    let full = message("12 failed, a program with op 11, a fence, must have an L of at most 15");
    bad(&run(test, &["--dis"], b"PR\x01\x10\x02TH\x01IN\x0b\x00\x00\x00\x00"), 1, &full);
    let last = message("9 failed, the input must end after the last record");
    bad(&run(test, &["--dis", "-o", "never"], &[SB_BYTES, b"\n"].concat()), 1, &last);
    assert!(!directory(test).join("never").exists());
}

#[test]
fn a_file_that_is_not_there_is_named() {
    let output = run("missing", &["missing.order"], b"");
    assert_eq!(output.status.code(), Some(1));
    assert_eq!(output.stdout, b"");
    assert!(String::from_utf8_lossy(&output.stderr).starts_with("missing.order: "));
    let output = run("missing", &["-o", "no/such/directory"], SB.as_bytes());
    assert_eq!(output.status.code(), Some(1));
    assert!(String::from_utf8_lossy(&output.stderr).starts_with("no/such/directory: "));
}

#[test]
fn a_directory_is_no_model() {
    let output = run("directory", &["."], b"");
    assert_eq!(output.status.code(), Some(1));
    assert!(String::from_utf8_lossy(&output.stderr).starts_with(".: "));
}

#[test]
fn an_input_of_more_than_1_mib_is_refused() {
    let test = "long";
    let message = |name: &str| format!("{name}: longer than 1 MiB, which no model is\n");
    let zeros = vec![0; 2 << 20];
    fs::write(directory(test).join("zeros"), &zeros).unwrap();
    bad(&run(test, &["zeros"], b""), 1, &message("zeros"));
    bad(&run(test, &["--dis", "zeros"], b""), 1, &message("zeros"));
    bad(&run(test, &[], &zeros), 1, &message("standard input"));
    // One byte decides.
    let model = [SB.as_bytes(), &vec![b' '; LONGEST_INPUT - SB.len()]].concat();
    good(&run(test, &[], &model), SB_BYTES);
    bad(&run(test, &[], &[&model[..], b" "].concat()), 1, &message("standard input"));
}

/// The first bytes decide: a command that read to the end would not come back.
#[cfg(unix)]
#[test]
fn an_input_without_end_is_refused_at_once() {
    let message = "/dev/zero: longer than 1 MiB, which no model is\n";
    bad(&run("endless", &["/dev/zero"], b""), 1, message);
    bad(&run("endless", &["--dis", "/dev/zero"], b""), 1, message);
}

#[cfg(unix)]
#[test]
fn a_reader_who_goes_away_is_no_mistake() {
    for (arguments, input) in [([].as_slice(), SB.as_bytes()), (&["--dis"], SB_BYTES)] {
        let mut child = Command::new(env!("CARGO_BIN_EXE_order_asm"))
            .args(arguments)
            .stdin(Stdio::piped())
            .stdout(Stdio::piped())
            .stderr(Stdio::piped())
            .spawn()
            .unwrap();
        // It writes only after it has read all, so nobody reads it any more by then.
        drop(child.stdout.take());
        child.stdin.take().unwrap().write_all(input).unwrap();
        let output = child.wait_with_output().unwrap();
        assert_eq!(String::from_utf8_lossy(&output.stderr), "");
        assert_eq!(output.status.code(), Some(1));
    }
}

#[test]
fn it_says_its_version() {
    let version = format!("order_asm {}\n", env!("CARGO_PKG_VERSION"));
    good(&run("version", &["--version"], b""), version.as_bytes());
}

#[test]
fn a_hint_stands_on_the_line_after_the_message() {
    let text = SB.replace("r0 := x", "r0 = x");
    let message = "standard input:8:6: expected ':=', found '='\n  hint: ':=' assigns, '=' compares\n";
    bad(&run("hint", &[], text.as_bytes()), 1, message);
}

#[test]
fn a_command_line_that_says_nothing_known_is_2() {
    let message = |what: &str| format!("order_asm: {what}; see order_asm --help\n");
    let found = message("expected --dis, -o or a file name, found --das");
    bad(&run("usage", &["--das"], b""), 2, &found);
    bad(&run("usage", &["-o"], b""), 2, &message("expected a file name after -o"));
    bad(&run("usage", &["-o", "a", "-o", "b"], b""), 2, &message("expected one -o"));
    bad(&run("usage", &["a", "b"], b""), 2, &message("expected one file name, found b after a"));
}

#[test]
fn help_shows_a_model_that_assembles() {
    let output = run("help", &["--help"], b"");
    assert_eq!(output.status.code(), Some(0));
    let help = String::from_utf8(output.stdout).unwrap();
    let start = help.find("    # store buffering").expect("a model in the help");
    let end = help.find("The lines").expect("text after it");
    good(&run("help", &[], &help.as_bytes()[start..end]), SB_BYTES);
    assert_eq!(run("help", &["-h"], b"").stdout, help.as_bytes());
    // Every short form that it names is one.
    let lines = [
        "goto again",
        "fence\n",
        "'thread * 3'",
        "constants empty = 0 full = 1",
        "registers mine = r0 other = r1",
    ];
    assert!(lines.iter().all(|line| help.contains(line)));
    assert!(help.lines().all(|line| line.chars().count() < 96));
}
