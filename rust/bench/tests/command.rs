//! The command `order_bench`.
#![forbid(unsafe_code)]

use std::fs;
use std::io::pipe;
use std::path::Path;
use std::process::{Command, Output, Stdio};

use bench::families::ALL;
use bench::measure::stack;

fn run(arguments: &[&str]) -> Output {
    run::run(env!("CARGO_BIN_EXE_order_bench"), arguments, b"")
}

#[test]
fn prints_a_line_for_each_program() {
    let output = run(&["82", "counters-2", "news"]);
    let printed = String::from_utf8(output.stdout).unwrap();
    let lines: Vec<&str> = printed.lines().collect();
    let fronts = [
        "| news-2     |         13 |    65 |",
        "| news-2     |         31 |    65 |",
        "| news-2     |         82 |    65 |",
        "| news-3     |         13 |    80 |",
    ];
    assert_eq!(lines.len(), 14, "{printed}");
    assert!(fronts.iter().zip(&lines[2..]).all(|(front, line)| line.starts_with(front)), "{printed}");
    assert!(lines[..10].iter().all(|line| line.len() == lines[0].len()), "{printed}");
    let columns =
        "steps and made: successors a situation has, and those that the proved checker's search makes";
    assert_eq!(lines[10], format!("{columns}, on average"));
    assert!(lines[11].starts_with("below 7500 situations, geometric mean of the ratio: "), "{printed}");
    assert!(lines[13].starts_with("stack of the proved checker: at most "), "{printed}");
}

#[test]
fn families_with_fences_are_summed_up_apart() {
    let mean = |lines: &[String], front: &str| {
        let front = format!("{front}geometric mean of the ");
        lines.iter().filter(|line| line.starts_with(&front)).count()
    };
    let printed = |arguments: &[&str]| -> Vec<String> {
        String::from_utf8(run(arguments).stdout).unwrap().lines().map(String::from).collect()
    };
    let small = "below 7500 situations, ";
    let both = printed(&["8", "fence"]);
    let rows: Vec<&str> = both[2..8].iter().map(|line| &line[2..12]).collect();
    assert_eq!(rows, ["fenced-2  ", "fenced-3  ", "fenced-4  ", "fence-2   ", "fence-3   ", "fence-4   "]);
    assert_eq!((mean(&both, small), mean(&both, &format!("with fences, {small}"))), (1, 1), "{both:?}");
    let only = printed(&["8", "fence-"]);
    assert_eq!((mean(&only, small), mean(&only, &format!("with fences, {small}"))), (0, 1), "{only:?}");
    let beside = printed(&["--index", "64", "8", "fence"]);
    assert_eq!((mean(&beside, ""), mean(&beside, "with fences, ")), (1, 1), "{beside:?}");
}

#[test]
fn the_steps_of_a_thread_alone_are_all_made() {
    let output = run(&["13", "news-2"]);
    let printed = String::from_utf8(output.stdout).unwrap();
    // 13 situations one after the other.
    assert!(printed.lines().nth(2).unwrap().ends_with(" |  0.92 |  0.92 |"), "{printed}");
}

#[test]
fn measures_beside_an_index_of_any_length() {
    for slots in ["0", "2097152"] {
        let output = run(&["--index", slots, "82", "news-2"]);
        let printed = String::from_utf8(output.stdout).unwrap();
        let lines: Vec<&str> = printed.lines().collect();
        assert_eq!((output.status.code(), lines.len()), (Some(0), 7), "{printed}");
        assert!(lines[0].contains(&format!(" {slots} slots, ")), "{printed}");
        assert!(lines[4].starts_with("| news-2     |         82 |"), "{printed}");
        assert!(lines[..5].iter().all(|line| line.len() == lines[0].len()), "{printed}");
        assert!(lines[6].starts_with("largest: ") && lines[6].ends_with(" (news-2)"), "{printed}");
    }
}

#[test]
fn the_header_says_how_much_stack_suffices() {
    let path = Path::new(env!("CARGO_MANIFEST_DIR")).join("../../crates/order_check_c/order_check.h");
    let header = fs::read_to_string(path).unwrap();
    let line =
        header.lines().find_map(|line| line.strip_prefix("#define ORDER_CHECK_STACK ")).expect("the macro");
    let suffices: usize = line.parse().unwrap();
    for family in ALL {
        let used = stack(family);
        assert!(used > 1_000 && used <= suffices, "{}: {used} bytes", family.name);
    }
}

#[test]
fn a_reader_that_goes_away_is_quiet() {
    let (reader, writer) = pipe().unwrap();
    drop(reader);
    let mut command = Command::new(env!("CARGO_BIN_EXE_order_bench"));
    let child = command.args(["100", "news"]).stdout(writer).stderr(Stdio::piped()).spawn().unwrap();
    let output = child.wait_with_output().unwrap();
    assert_eq!((output.status.code(), output.stderr), (Some(1), vec![]));
}

#[test]
fn an_index_that_is_too_long_is_refused() {
    for slots in ["72057594037927936", "18446744073709551615", "100000000000000000000"] {
        let output = run(&["--index", slots, "13", "news-2"]);
        let said = (output.status.code(), String::from_utf8(output.stderr).unwrap(), output.stdout);
        let message = "order_bench: no memory for an index of so many slots\n";
        assert_eq!(said, (Some(1), message.into(), vec![]), "{slots}");
    }
}

#[test]
fn says_that_no_program_is_so_small() {
    for arguments in [&["0"][..], &["12", "news"], &["--index", "64", "7"]] {
        let output = run(arguments);
        let said = (output.status.code(), String::from_utf8(output.stdout).unwrap(), output.stderr);
        assert_eq!(said, (Some(0), "no program has so few situations\n".into(), vec![]), "{arguments:?}");
    }
}

#[test]
fn says_what_is_wrong_before_how_it_is_used() {
    let usage = String::from_utf8(run(&["--help"]).stdout).unwrap();
    let wrong = [
        (&["spin"][..], "MOST is a number of situations, not 'spin'"),
        (&["-1"], "MOST is a number of situations, not '-1'"),
        (&["1\n2"], "MOST is a number of situations, not '1\\n2'"),
        (&["100", "nofamily"], "no family starts with 'nofamily'"),
        (&["100", "news", "nofamily", "spin"], "no family starts with 'nofamily'"),
        (&["--index"], "--index takes a number of slots"),
        (&["--index", "x"], "--index takes a number of slots, not 'x'"),
        (&["--index", "64", "spin"], "MOST is a number of situations, not 'spin'"),
        (&["--index", "64", "9", "nofamily"], "no family starts with 'nofamily'"),
        (&["9", "--index", "9"], "--index comes first, and once"),
    ];
    for (arguments, message) in wrong {
        let output = run(arguments);
        let said = (output.status.code(), String::from_utf8(output.stderr).unwrap(), output.stdout);
        assert_eq!(said, (Some(2), format!("order_bench: {message}\n{usage}"), vec![]), "{arguments:?}");
    }
}

#[test]
fn says_how_it_is_used() {
    for option in ["--help", "-h"] {
        let output = run(&[option]);
        assert_eq!((output.status.code(), output.stderr), (Some(0), vec![]));
        let printed = String::from_utf8(output.stdout).unwrap();
        assert!(printed.starts_with("usage: order_bench [--index SLOTS] [MOST [FAMILY..]]\n"), "{printed}");
        assert!(printed.contains("\nfamilies: ticket-2 ") && printed.ends_with(" counters-4\n"), "{printed}");
    }
    let output = run(&["--version"]);
    assert_eq!(output.stdout, format!("order_bench {}\n", env!("CARGO_PKG_VERSION")).as_bytes());
    assert_eq!(output.status.code(), Some(0));
}
