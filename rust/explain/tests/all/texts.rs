//! The explanation in words.

use models::Source;
use program::encode;

use crate::reported::{check_in, explained, explained_by, model};
use crate::reported::{models_not_robust, of_source, random_not_robust, source};

#[test]
fn store_buffering_is_explained_so() {
    let expected = "\
The run:
  step  thread  line  statement  what it does
     1       1     7  x := 1     writes x = 1
     2       1     8  r0 := y    reads y = 0 (starting value)
     3       2    10  y := 1     writes y = 1
     4       2    11  r0 := x    reads x = 0 (starting value)

Step 4 (thread 2, line 11) is not SC: release/acquire lets it read x = 0, the
starting value, although the newest write is x = 1 of step 1 (thread 1, line 7).

No SC run can do this, as each of these would have to come before the next:
  4  thread 2  line 11  reads x = 0   read older than  1  writes x = 1
  1  thread 1  line 7   writes x = 1  program order    2  reads y = 0
  2  thread 1  line 8   reads y = 0   read older than  3  writes y = 1
  3  thread 2  line 10  writes y = 1  program order    4  reads x = 0

What would help, and what the checker says of the model with it:
  robust      fences directly after lines 7 and 10
  not robust  a fence directly after line 7 (x := 1), before line 8 (r0 := y)
  not robust  a fence directly after line 10 (y := 1), before line 11 (r0 := x)
  not robust  FADD(y, 0) in place of line 8 (r0 := y)
  not robust  FADD(x, 0) in place of line 11 (r0 := x)
  not robust  read-modify-writes in place of lines 8 and 11
  not tried   atomic exchanges in place of the writes in lines 7 and 10: the
              language has none
";
    assert_eq!(explained(&model("sb")).words(false), expected);
}

/// The words on a model, each part between blank lines.
fn parts(name: &str, verbose: bool) -> [String; 4] {
    let words = explained(&model(name)).words(verbose);
    let parts: Vec<String> = words.split("\n\n").map(String::from).collect();
    parts.try_into().unwrap_or_else(|parts| panic!("{parts:?}"))
}

#[test]
fn a_stale_write_goes_after_an_older_one() {
    let [run, stale, cycle, _] = parts("peterson-sc", false);
    assert!(run.starts_with("The run (* marks the cycle):\n"), "{run}");
    assert!(run.contains("\n      1       1     8  a := 1     writes a = 1\n"), "{run}");
    assert!(run.contains("\n*     2       1     9  turn := 1  writes turn = 1\n"), "{run}");
    let expected = "\
Step 5 (thread 2, line 24) is not SC: release/acquire lets it write turn
directly after turn = 0, the starting value, although the newest write is
turn = 1 of step 2 (thread 1, line 9).";
    assert_eq!(stale, expected);
    let first = "5  thread 2  line 24  writes turn = 0  written before   2  writes turn = 1\n";
    assert!(cycle.contains(first), "{cycle}");
}

#[test]
fn a_read_says_whose_write_it_reads() {
    let [run, _, cycle, _] = parts("iriw", false);
    assert!(run.contains("r0 := x    reads x = 1 of step 1\n"), "{run}");
    assert!(
        cycle.contains("1  thread 1  line 7   writes x = 1  read by          2  reads x = 1\n"),
        "{cycle}"
    );
}

#[test]
fn a_read_modify_write_has_both_values() {
    let [run, _, cycle, _] = parts("every-op", false);
    assert!(run.contains("r3 := FADD(x, 2)        x: 2 -> 1 (from step 2)\n"), "{run}");
    assert!(run.contains("r0 := CAS(x, 1 -> 0)    reads x = 2 of step 2\n"), "{run}");
    assert!(
        cycle.contains("11  thread 1  line 20  x: 1 -> 0     program order    13  reads y = 0\n"),
        "{cycle}"
    );
}

/// Two fences too many, as docs/MODELLING.md has them.
const FENCES: &str = "values 2\nlocations x y\nthread\nx := 1\nr0 := y\nthread\ny := 1\nfence\n\
    thread\nfence\nr0 := x\n";

#[test]
fn a_fence_is_said_to_be_one_and_comes_after_another() {
    let words = explained(&of_source("fences", source(FENCES)).unwrap()).words(false);
    let run = "\
The run:
  step  thread  line  statement  what it does
     1       1     4  x := 1     writes x = 1
     2       1     5  r0 := y    reads y = 0 (starting value)
     3       2     7  y := 1     writes y = 1
     4       2     8  fence      a fence, the first
     5       3    10  fence      a fence, after that of step 4
     6       3    11  r0 := x    reads x = 0 (starting value)
";
    assert!(words.starts_with(run), "{words}");
    let cycle = "
  6  thread 3  line 11  reads x = 0   read older than  1  writes x = 1
  1  thread 1  line 4   writes x = 1  program order    2  reads y = 0
  2  thread 1  line 5   reads y = 0   read older than  3  writes y = 1
  3  thread 2  line 7   writes y = 1  program order    4  a fence
  4  thread 2  line 8   a fence       fence order      5  a fence
  5  thread 3  line 10  a fence       program order    6  reads x = 0
";
    assert!(words.contains(cycle), "{words}");
    // The other two threads have theirs.
    let help = "
What would help, and what the checker says of the model with it:
  robust      a fence directly after line 4 (x := 1), before line 5 (r0 := y)
";
    assert!(words.contains(help), "{words}");
    assert_eq!(words.matches("a fence directly after").count(), 1, "{words}");
}

/// Both threads take x from 0 to 1: the second one's step is stale.
#[test]
fn a_stale_read_modify_write_uses_an_older_write() {
    let text = "values 3\nlocations x y\nthread\nx := 2\nr0 := y\nthread\ny := 1\nr0 := FADD(x, 1)\n";
    let words = explained(&of_source("stale", source(text)).unwrap()).words(false);
    let stale = "\
Step 4 (thread 2, line 8) is not SC: release/acquire lets it read x = 0, the
starting value, and write directly after it, although the newest write is x = 2
of step 1 (thread 1, line 4).
";
    assert!(words.contains(stale), "{words}");
    assert!(
        words.contains("  4  thread 2  line 8  x: 0 -> 1     written before   1  writes x = 2\n"),
        "{words}"
    );
}

#[test]
fn local_lines_are_shown_when_asked_for() {
    let reported = model("long-run");
    let [run, ..] = parts("long-run", false);
    assert!(
        run.starts_with("The run (* marks the cycle; -v shows the lines without access too):\n"),
        "{run}"
    );
    assert!(!run.contains("r0 := r0 + 1"), "{run}");
    let accesses = reported.steps.iter().filter(|step| step.access.is_some()).count();
    assert_eq!(run.lines().count(), 2 + accesses + 1);
    assert!(run.contains("r2 := FADD(y, 7)  y: 0 -> 7 (from the starting value)\n"), "{run}");
    let [run, ..] = parts("long-run", true);
    assert!(run.starts_with("The run (* marks the cycle):\n"), "{run}");
    assert!(run.contains("\n      1       1     9  r0 := r0 + 1\n"), "{run}");
    assert_eq!(run.lines().count(), 2 + reported.steps.len() + 1);
}

#[test]
fn a_model_of_bytes_says_which_lines_are_meant() {
    let source = Source::of_bytes(&encode(&model("sb").program)).unwrap();
    let explanation = explained(&of_source("bytes", source).unwrap());
    let note = "line numbers are those of the disassembly";
    assert!(!explanation.words(false).contains(note));
    assert_eq!(explanation.of_disassembly().words(false).matches(note).count(), 1);
}

#[test]
fn every_model_fits_on_a_screen_but_for_its_steps() {
    for reported in models_not_robust() {
        let words = explained(&reported).words(false);
        let steps = reported.steps.iter().filter(|step| step.access.is_some()).count() + 1;
        assert!(words.lines().count() <= steps + 28, "{}: {words}", reported.name);
        assert!(words.ends_with('\n') && !words.ends_with("\n\n"), "{}", reported.name);
        assert!(words.lines().all(|line| !line.ends_with(' ')), "{}: {words}", reported.name);
        let widest = |text: &str| text.lines().map(|line| line.chars().count()).max().unwrap();
        assert!(widest(&words) <= 90, "{}: {words}", reported.name);
        let advice = words.split("\n\n").last().unwrap();
        assert!(widest(advice) <= 80, "{}: {words}", reported.name);
    }
    assert!(explained(&model("peterson-sc")).words(false).lines().count() <= 30);
}

#[test]
fn blanks_and_values_are_as_they_are_written() {
    let text =
        "values 3\nlocations x y\nthread\n  x\t:=   2\nr0 := y\nthread\ny := 1\nr1 := 0\nwait( x  =  r1 )\n";
    let words = explained(&of_source("blanks", source(text)).unwrap()).words(false);
    assert!(words.contains("     1       1     4  x := 2          writes x = 2\n"), "{words}");
    assert!(words.contains("BCAS(x, r1 -> r1) in place of line 9 (wait( x = r1 ))\n"), "{words}");
}

#[test]
fn random_programs_are_explained_whole() {
    for reported in random_not_robust(100) {
        let words = explained_by(&reported, &mut |program| check_in(100_000, program)).words(true);
        assert_eq!(words.matches("\n\n").count(), 3, "{}: {words}", reported.name);
        let [orders, fences] =
            ["program order", "a fence directly after"].map(|it| words.matches(it).count());
        let is_fenced = reported.program.has_fence();
        assert!(orders == fences || is_fenced && (1..orders).contains(&fences), "{words}");
    }
}
