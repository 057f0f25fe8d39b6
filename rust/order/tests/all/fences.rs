//! Models with fences.

use std::fs;

use models::collection::{self, Model};

use crate::user::{ends, ends_quietly, folder, models, printed, run};

/// A program of one thread with one line, a fence, beside so many locations.
fn one_fence(locations: u8) -> Vec<u8> {
    [b"PR\x01".as_slice(), &[locations], b"\x02TH\x01IN\x0b\x00\x00\x00\x00"].concat()
}

/// Store buffering between the first and the last of these locations, with a fence in each thread.
fn fenced(names: &str) -> String {
    let (first, last) = (names.split(' ').next().unwrap(), names.rsplit(' ').next().unwrap());
    format!(
        "values 2\nlocations {names}\nthread\n  {first} := 1\n  fence\n  r0 := {last}\n\
         thread\n  {last} := 1\n  fence\n  r0 := {first}\n"
    )
}

const FIFTEEN: &str = "a b c d e f g h i j k l m n o";

#[test]
fn a_fence_in_each_thread_makes_store_buffering_robust() {
    for name in ["sb+fence", "sb+fences", "2+2w+fences"] {
        let Model { report, .. } = collection::named(name).unwrap();
        let status = if report.starts_with("RB") { 0 } else { 10 };
        ends_quietly(&run(&[&format!("{name}.order")], b""), status, &report);
    }
}

#[test]
fn a_place_has_room_for_the_location_of_the_fences() {
    // With it a place of two threads and two named locations has 98 bytes, and 26 situations are there.
    ends_quietly(&run(&["--table", "2548", "sb+fences.order"], b""), 0, "RB 26\n");
    let said = ends(&run(&["--table", "2547", "sb+fences.order"], b""), 11, "FU 25\n");
    assert!(
        said.ends_with("a smaller model: fewer threads, rounds, values, locations or fences\n"),
        "{said}"
    );
    let one = one_fence(1);
    ends_quietly(&run(&["--table", "100", "-"], &one), 0, "RB 2\n");
    ends(&run(&["--table", "99", "-"], &one), 11, "FU 1\n");
    ends_quietly(&run(&["-"], fenced(FIFTEEN).as_bytes()), 0, "RB 26\n");
}

#[test]
fn bytes_with_a_fence_and_sixteen_locations_are_no_program() {
    let why = "check 12 failed, a program with op 11, a fence, must have an L of at most 15";
    let said = ends(&run(&["-"], &one_fence(16)), 1, "NO 12\n");
    assert_eq!(said, format!("order: standard input: no program: {why}\n"));
    let said = ends(&run(&["--explain", "-"], &one_fence(16)), 1, &format!("NO 12\n\nNo program: {why}.\n"));
    assert!(said.contains(why), "{said}");
    let data = String::from_utf8(run(&["--json", "-"], &one_fence(16)).stdout).unwrap();
    assert!(data.contains("\"report\":\"NO 12\","), "{data}");
    assert!(data.ends_with(&format!("\"error\":\"{why}\"}}\n")), "{data}");
    // Asked after check 5 and before 6.
    let with = |place: usize, byte: u8, mut bytes: Vec<u8>| {
        bytes[place] = byte;
        bytes
    };
    ends(&run(&["-"], &with(11, 1, one_fence(16))), 1, "NO 12\n");
    ends(&run(&["-"], &with(10, 12, one_fence(16))), 1, "NO 5\n");
    ends(&run(&["-"], &with(11, 1, one_fence(15))), 1, "NO 6\n");
    ends_quietly(&run(&["-"], &one_fence(15)), 0, "RB 2\n");
}

#[test]
fn a_text_with_a_fence_and_sixteen_locations_has_a_mistake() {
    let text = fenced(&format!("{FIFTEEN} p"));
    let said = ends(&run(&["-"], text.as_bytes()), 1, "");
    assert_eq!(
        said,
        "standard input:5:3: expected at most 15 locations beside a fence, found 16\n  \
         hint: a fence has a location of its own, and 16 are the most: leave one out of 'locations'\n"
    );
}

#[test]
fn a_run_with_a_fence_is_told_in_words() {
    let text = printed(&["--explain", "sb+fence.order"], b"", 10);
    for part in [
        "     2       1     8  fence      a fence, the first\n",
        "What would help, and what the checker says of the model with it:\n  robust      \
         a fence directly after line 11 (y := 1), before line 12 (r0 := x)\n",
    ] {
        assert!(text.contains(part), "{part}\n{text}");
    }
    assert_eq!(text.matches("a fence directly after").count(), 1, "{text}");
    // The lines of bytes are those of their disassembly.
    let bytes = collection::named("sb+fence").unwrap().bytes;
    let text = printed(&["--explain", "-"], &bytes, 10);
    assert!(text.contains("     2       1     5  fence      a fence, the first\n"), "{text}");
}

#[test]
fn fences_of_both_forms_stay_fences() {
    let text = printed(&["--explain", "sb+fences.order"], b"", 0);
    let line = format!("    {:<48} stay seq_cst fences\n", "fences: lines 8 and 12");
    assert!(text.contains(&line), "{text}");
    let model = "values 2\nlocations f x\nthread\n  fence\n  r0 := FADD(f, 0)\n  x := 1\nthread\n  fence\n";
    let text = printed(&["--explain", "-"], model.as_bytes(), 0);
    let own = format!("    {:<48} stay seq_cst fences\n", "fences: lines 4 and 8");
    let older = format!("    {:<48} stays a seq_cst fence\n", "fence: line 5 (FADD of 0 on f)");
    assert!(text.contains(&(own + &older)), "{text}");
}

#[test]
fn the_location_of_the_fences_has_a_name_in_the_data() {
    let data = printed(&["--json", "sb+fence.order"], b"", 10);
    assert!(data.contains("\"locations\":[\"x\",\"y\",\"fence\"]"), "{data}");
    assert!(data.contains("\"ST 1 M 2 0\""), "{data}");
    let event = "\"step\":2,\"thread\":1,\"line\":8,\"kind\":\"update\",\"location\":\"fence\",\"read\":0,\"written\":0";
    assert!(data.contains(event), "{data}");
}

#[test]
fn a_page_and_a_graph_show_fences_by_name() {
    let folder = folder("fences");
    let [page, graph] = ["page.html", "graph.dot"].map(|name| folder.join(name));
    let arguments = ["--html", page.to_str().unwrap(), "--dot", graph.to_str().unwrap(), "sb+fence.order"];
    ends_quietly(&run(&arguments, b""), 10, &collection::named("sb+fence").unwrap().report);
    let page = fs::read_to_string(page).unwrap();
    assert!(page.contains("Step 2 of thread 1, line 8 (fence): fence"), "{page}");
    assert!(page.contains("below 2 starting writes"), "{page}");
    let graph = fs::read_to_string(graph).unwrap();
    assert!(graph.contains(r#"label="fence\nstep 2, line 8""#), "{graph}");
    assert_eq!(graph.matches("starting write").count(), 2, "{graph}");
}

/// The place of each situation is found where a fence makes it longer.
#[test]
fn lines_that_no_run_reaches_are_named_beside_fences() {
    let model =
        "values 2\nlocations x y\nthread\n  fence\n  wait(x = 1)\n  fence\nthread\n  fence\n  y := 1\n";
    let gaps = "a thread waits for ever at line 5, and no run reaches line 6: \
        nothing is said of what would come then";
    let said = ends(&run(&["-"], model.as_bytes()), 0, "RB 8\n");
    assert_eq!(said, format!("order: standard input: {gaps}\n"));
    // A fence in a line that no run reaches has its location all the same.
    let model = "values 2\nlocations x\nthread\n  goto end\n  fence\nend:\n";
    let said = ends(&run(&["--table", "100", "-"], model.as_bytes()), 0, "RB 2\n");
    assert!(said.contains("no run reaches line 5: "), "{said}");
    ends(&run(&["--table", "99", "-"], model.as_bytes()), 11, "FU 1\n");
}

#[test]
fn every_model_with_fences_is_as_it_expects() {
    let has_fence = |name: &str| {
        let text = fs::read_to_string(models().join(format!("{name}.order"))).unwrap();
        text.lines().any(|line| line.trim() == "fence")
    };
    let all = collection::load(&models()).unwrap();
    let files: Vec<String> = all
        .iter()
        .filter(|model| has_fence(&model.name))
        .map(|model| format!("{}.order", model.name))
        .collect();
    assert!(files.len() >= 15, "{files:?}");
    let arguments = [vec!["--expect", "-q"], files.iter().map(String::as_str).collect()].concat();
    let output = run(&arguments, b"");
    assert_eq!(output.status.code(), Some(0), "{output:?}");
    let text = String::from_utf8(output.stdout).unwrap();
    assert!(text.lines().all(|line| line.ends_with(", as expected")), "{text}");
    assert_eq!(text.lines().count(), files.len());
}
