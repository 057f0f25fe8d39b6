//! The explanation in words, as data, on a page and for graphviz.

use std::fs;

use crate::user::{ends, ends_quietly, finish, folder, order, printed, run, SB, SB_LINES};

#[test]
fn not_robust_is_explained_by_a_run_and_a_cycle() {
    let text = printed(&["--explain", "peterson-sc.order"], b"", 10);
    assert!(text.starts_with("NR 12 4 2 W 2 0\n\nThe run"), "{text}");
    assert!(text.lines().count() <= 40, "{text}");
    assert!(text.lines().all(|line| line.chars().count() <= 80), "{text}");
    for part in [
        "Step 5 (thread 2, line 24) is not SC: release/acquire lets it write turn\ndirectly after turn = 0",
        "writes turn = 0  written before   2  writes turn = 1",
        "reads b = 0      read older than  4  writes b = 1",
        "  robust      fences directly after lines ",
    ] {
        assert!(text.contains(part), "{part}\n{text}");
    }
}

#[test]
fn a_long_run_has_a_short_cycle() {
    let text = printed(&["-q", "--explain", "ring-buffer-sc.order"], b"", 10);
    let steps: usize = text.split(' ').nth(2).unwrap().parse().unwrap();
    assert!(steps >= 40, "{text}");
    let cycle: Vec<&str> = text
        .lines()
        .skip_while(|line| !line.starts_with("No SC run can do this"))
        .skip(1)
        .take_while(|line| !line.is_empty())
        .collect();
    assert!((2..=5).contains(&cycle.len()), "{text}");
    let all = printed(&["-q", "-v", "--explain", "ring-buffer-sc.order"], b"", 10);
    assert!(
        all.lines().count() > text.lines().count() + 20,
        "lines without an access are shown with -v\n{all}"
    );
    assert!(all.contains("917 situations in a table of "), "{all}");
}

#[test]
fn lines_of_bytes_are_those_of_their_disassembly() {
    let text = printed(&["--explain", "-"], SB, 10);
    assert!(text.contains("disassembl") && text.contains("x := 1"), "{text}");
    assert!(!printed(&["--explain", "sb.order"], b"", 10).contains("disassembl"));
}

#[test]
fn robust_is_explained_by_what_it_allows() {
    let text = printed(&["--explain", "mp.order"], b"", 0);
    assert!(text.starts_with("RB 13\n\nRobust: every release/acquire run"), "{text}");
    assert!(text.contains("to release") && text.contains("to acquire and release"), "{text}");
    assert!(!text.contains("modulo") && !text.contains("situations"), "{text}");
    let text = printed(&["-q", "-v", "--explain", "seqlock.order"], b"", 0);
    assert!(text.contains("modulo 5") && text.contains("17823 situations in a table of 3 MiB"), "{text}");
}

#[test]
fn fences_stay_fences() {
    let many = |lines: &str| format!("    fences: {lines:<40} stay seq_cst fences");
    let one = |line: &str| format!("    fence: {line:<41} stays a seq_cst fence");
    let text = printed(&["--explain", "sb+rmws.order"], b"", 0);
    assert_eq!(fences(&text), [many("lines 9 and 13 (FADD of 0 on f)")]);
    assert!(fences(&printed(&["--explain", "page-queue-cas.order"], b"", 0)).is_empty());
    let model = "values 2\nlocations x\nthread * 2\n  fence\n";
    assert_eq!(fences(&printed(&["--explain", "-"], model.as_bytes(), 0)), [one("line 4")]);
    // Every form on every location of its own; an unused location has none.
    let model =
        "values 2\nlocations f g h spare\nthread\n  r0 := FADD(f, 0)\n  BCAS(g, 0 -> 0)\nthread * 2\n\
        \x20 r0 := CAS(g, 0 -> 0)\n  r0 := FADD(h, 1)\n";
    let text = printed(&["--explain", "-"], model.as_bytes(), 0);
    let both = "lines 5 and 7 (BCAS from 0 to 0, CAS";
    let rows = [one("line 4 (FADD of 0 on f)"), format!("    fences: {both}"), many("from 0 to 0 on g)")];
    assert_eq!(
        fences(&text),
        [&rows[0], &rows[1], &rows[2].replace("fences:", "       ")].map(String::as_str)
    );
}

/// The lines about fences.
fn fences(text: &str) -> Vec<&str> {
    let starts = text.lines().skip_while(|line| !line.starts_with("    fence"));
    starts.take_while(|line| !line.is_empty()).collect()
}

#[test]
fn many_fences_are_named_in_several_lines() {
    let lines = "  fence\n".repeat(30);
    let text = printed(&["--explain", "-"], format!("values 2\nlocations x\nthread\n{lines}").as_bytes(), 0);
    let found = fences(&text);
    assert_eq!(
        found,
        [
            "    fences: lines 4, 5, 6, 7, 8, 9, 10, 11, 12, 13,",
            "            14, 15, 16, 17, 18, 19, 20, 21, 22, 23,",
            "            24, 25, 26, 27, 28, 29, 30, 31, 32 and",
            "            33                                       stay seq_cst fences",
        ]
    );
}

#[test]
fn what_no_run_reaches_is_named() {
    // Store buffering that never begins.
    let model =
        "values 3\nlocations go x y\nthread\n  wait(go = 2)\n  x := 1\n  r0 := y\nthread\n  wait(go = 2)\n\
        \x20 y := 1\n  r0 := x\nthread\n  go := 1\n";
    let gaps = "a thread waits for ever at lines 4 and 8, and no run reaches lines 5, 6, 9 and 10: \
        nothing is said of what would come then";
    let said = ends(&run(&["-"], model.as_bytes()), 0, "RB 2\n");
    assert_eq!(said, format!("order: standard input: {gaps}\n"));
    let text = printed(&["--explain", "-"], model.as_bytes(), 0);
    assert!(text.replace("\n  ", " ").ends_with(&format!("- In this model {gaps}.\n")), "{text}");
    assert!(text.lines().all(|line| line.chars().count() <= 80), "{text}");
    ends_quietly(&run(&["mp.order"], b""), 0, "RB 13\n");
}

#[test]
fn undecided_and_refused_are_explained_too() {
    let output = run(&["--explain", "--table", "100", "mp.order"], b"");
    let text = String::from_utf8(output.stdout).unwrap();
    assert!(text.starts_with("FU 1\n\nUndecided: there is no witness in the first situation, "), "{text}");
    let output = run(&["--explain", "-"], b"PR");
    assert_eq!(output.status.code(), Some(1));
    let text = String::from_utf8(output.stdout).unwrap();
    assert_eq!(text, "NO 1\n\nNo program: check 1 failed, the input must start with a whole PR record.\n");
}

#[test]
fn several_are_explained_one_after_the_other() {
    let text = printed(&["--explain", "sb.order", "mp.order"], b"", 10);
    assert!(text.starts_with("sb.order: NR 7 3 2 R 0 0\n\nThe run:\n"), "{text}");
    assert!(text.contains("\n\nmp.order: RB 13\n\nRobust: "), "{text}");
}

#[test]
fn each_file_is_a_line_of_data() {
    let output = run(&["--json", "sb.order", "missing.order", "mp.order"], b"");
    assert_eq!(output.status.code(), Some(1));
    let text = String::from_utf8(output.stdout).unwrap();
    let lines: Vec<&str> = text.lines().collect();
    let version = env!("CARGO_PKG_VERSION_MINOR");
    let start = |file, verdict| format!("{{\"version\":{version},\"file\":\"{file}\",\"verdict\":{verdict},");
    assert_eq!(lines.len(), 3, "{text}");
    assert!(lines[0].starts_with(&start("sb.order", "\"NR\"")), "{text}");
    assert!(lines[0]
        .contains("\"report\":\"NR 7 3 2 R 0 0\",\"steps\":[\"ST 1 W 0 1\",\"ST 1 R 1 0\",\"ST 2 W 1 1\"]"));
    assert!(lines[0].contains("\"situations\":7,\"table_bytes\":49152,\"index_bytes\":0,"), "{text}");
    assert!(
        lines[0].contains("\"explanation\":{\"format\":2,") && lines[0].contains("\"cycle\":[{\"from\":"),
        "{text}"
    );
    assert!(lines[1].starts_with(&start("missing.order", "null")), "{text}");
    assert!(
        lines[2].starts_with(&start("mp.order", "\"RB\""))
            && lines[2].ends_with("\"explanation\":null,\"gaps\":null,\"error\":null}"),
        "{text}"
    );
}

#[test]
fn a_page_and_a_graph_are_written_beside_the_report() {
    let folder = folder("drawn");
    let [page, graph] = ["page.html", "graph.dot"].map(|name| folder.join(name));
    let both = ["--html", page.to_str().unwrap(), "--dot", graph.to_str().unwrap()];
    ends_quietly(&finish(order().args(both).arg("sb.order"), b""), 10, SB_LINES);
    let page_text = fs::read_to_string(&page).unwrap();
    assert!(page_text.contains("Not robust") && page_text.contains("<svg") && page_text.contains("sb.order"));
    assert!(page_text.contains("No SC run can do this"), "the words stand on the page");
    let graph_text = fs::read_to_string(&graph).unwrap();
    assert!(graph_text.starts_with("digraph") && graph_text.contains("penwidth"), "{graph_text}");

    ends_quietly(&finish(order().args(both).arg("mp.order"), b""), 0, "RB 13\n");
    assert!(!fs::read_to_string(&page).unwrap().contains("<svg"), "RB has no graph");
    assert_eq!(
        fs::read_to_string(&graph).unwrap(),
        "digraph order {\n  label=\"RB 13: only NR has a graph\";\n}\n"
    );
    assert_eq!(printed(&["--html", "-", "sb.order"], b"", 10), page_text);
    assert_eq!(printed(&["--dot", "-", "sb.order"], b"", 10), graph_text);
}

#[test]
fn a_page_that_can_not_be_written_is_a_failure_and_costs_no_report() {
    let said = ends(&run(&["--html", "no/such/folder", "mp.order"], b""), 1, "RB 13\n");
    assert!(said.starts_with("order: no/such/folder: "), "{said}");
    let said = ends(&run(&["--dot", "/dev/full", "sb.order"], b""), 1, SB_LINES);
    assert!(said.starts_with("order: /dev/full: "), "{said}");
    // Nor the other file, nor what takes the report's place.
    let graph = folder("half-drawn").join("graph.dot");
    let both = ["--html", "no/such/folder", "--dot", graph.to_str().unwrap(), "sb.order"];
    ends(&run(&both, b""), 1, SB_LINES);
    let text = fs::read_to_string(&graph).unwrap();
    ends(&run(&["--html", "no/such/folder", "--dot", "-", "sb.order"], b""), 1, &text);
    let data = run(&["--json", "--html", "no/such/folder", "mp.order"], b"");
    assert_eq!(data.status.code(), Some(1));
    assert!(String::from_utf8(data.stdout).unwrap().contains("\"report\":\"RB 13\","));
}

#[test]
fn a_page_or_a_graph_that_does_not_fit_is_a_wrong_command_line() {
    for (arguments, what) in [
        (&["--html"][..], "expected a file to write after --html"),
        (&["--html", "--explain", "sb.order"], "expected a file to write after --html, found --explain"),
        (&["--html", "-", "--dot", "-", "sb.order"], "only one thing can take the report's place"),
        (&["--dot", "-", "--json", "sb.order"], "only one thing can take the report's place"),
        (&["--html", "a", "sb.order", "mp.order"], "--html and --dot are for one model"),
        (&["--dot", "a", "--expect", "sb.order"], "--expect goes with neither --html nor --dot"),
    ] {
        assert_eq!(ends(&run(arguments, b""), 2, ""), format!("order: {what}; see order --help\n"));
    }
}

#[test]
fn only_what_order_wrote_is_written_over() {
    let folder = folder("own");
    let at = |arguments: &[&str]| finish(order().current_dir(&folder).args(arguments).arg("-"), SB);
    ends_quietly(&at(&["--html", "page", "--dot", "graph"]), 10, SB_LINES);
    fs::write(folder.join("my-page"), "<!DOCTYPE html>\n<html lang=\"en\">mine</html>\n").unwrap();
    fs::write(folder.join("my-graph"), "digraph order {\n  a -> b;\n}\n").unwrap();
    for (option, what, files) in
        [("--html", "page", ["graph", "my-page"]), ("--dot", "graph", ["page", "my-graph"])]
    {
        for file in files {
            let before = fs::read(folder.join(file)).unwrap();
            let message = format!(
                "order: {file} is no {what} that order wrote, and would be written over; see order --help\n"
            );
            assert_eq!(ends(&at(&[option, file]), 2, ""), message);
            assert_eq!(fs::read(folder.join(file)).unwrap(), before);
        }
    }
    fs::write(folder.join("empty"), "").unwrap();
    ends_quietly(&at(&["--html", "page", "--dot", "empty"]), 10, SB_LINES);
    ends_quietly(&at(&["--html", "/dev/null"]), 10, SB_LINES);
}

#[test]
fn what_is_no_program_leaves_no_older_page() {
    let page = folder("no-program").join("page.html");
    ends_quietly(&finish(order().arg("--html").arg(&page).arg("sb.order"), b""), 10, SB_LINES);
    ends(&finish(order().arg("--html").arg(&page).arg("-"), b"PR"), 1, "NO 1\n");
    let text = fs::read_to_string(&page).unwrap();
    assert!(text.contains("No program") && !text.contains("Not robust"), "{text}");
}
