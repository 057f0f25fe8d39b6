//! What is said to help does, by the checker.

use explain::{changed, Change, Checked, Edge, Help, Relation, Trial, Verdict, MOST_CHECKS};
use models::Source;
use program::{Line, Program};

use crate::reported::{
    check, check_in, explained, explained_by, model, models_not_robust, of_source, random_fenced, source,
    Reported,
};

fn fence(thread: usize, after: usize) -> Change {
    Change::Fence { thread, after, before: after + 1 }
}

fn update(thread: usize, line: usize) -> Change {
    Change::Update { thread, line }
}

fn verdict_on(program: &Program, changes: &[Change]) -> Checked {
    check(&changed(program, changes).unwrap().program)
}

#[test]
fn store_buffering_needs_both_fences() {
    let explanation = explained(&model("sb"));
    let Help { fences, updates, enough, checks } = explanation.help();
    let trial = |changes: &[Change], verdict| Trial { changes: changes.to_vec(), verdict };
    let both = trial(&[fence(0, 0), fence(1, 0)], Verdict::Robust);
    let [one, other] = [fence(0, 0), fence(1, 0)].map(|fence| trial(&[fence], Verdict::NotRobust));
    assert_eq!(*fences, [one, other, both.clone()]);
    assert_eq!(*enough, both);
    let reads = [update(0, 1), update(1, 1)];
    let [one, other] = reads.map(|update| trial(&[update], Verdict::NotRobust));
    let writes = [update(0, 0), update(1, 0)].map(|update| trial(&[update], Verdict::NoLine));
    assert_eq!(updates[..2], [one, other]);
    assert_eq!(updates[2], trial(&reads, Verdict::NotRobust));
    assert_eq!(updates[3..], writes);
    assert_eq!(*checks, 6);
}

/// Fences that the run of the report does not ask for come from the runs of the changed models.
#[test]
fn the_fences_of_more_cycles_are_added() {
    let explanation = explained(&model("peterson-sc"));
    let Help { fences, enough, .. } = explanation.help();
    assert!(fences.iter().all(|trial| trial.verdict == Verdict::NotRobust));
    let four = [fence(0, 0), fence(0, 1), fence(1, 0), fence(1, 1)];
    assert_eq!(*enough, Trial { changes: four.to_vec(), verdict: Verdict::Robust });
}

/// The cycle goes through three threads, and a fence in the first and in one of the others breaks it.
#[test]
fn a_fence_that_is_not_needed_is_left_out() {
    let text = "values 2\nlocations x y z\nthread\nx := 1\nr0 := y\nthread\ny := 1\nz := 1\n\
        thread\nr0 := z\nr1 := x\n";
    let explanation = explained(&of_source("three", source(text)).unwrap());
    let Help { fences, enough, .. } = explanation.help();
    let all = vec![fence(0, 0), fence(1, 0), fence(2, 0)];
    assert_eq!(fences.last(), Some(&Trial { changes: all, verdict: Verdict::Robust }));
    assert_eq!(*enough, Trial { changes: vec![fence(0, 0), fence(2, 0)], verdict: Verdict::Robust });
    let words = explanation.words(false);
    let best = "  robust      fences directly after lines 4 and 10\n  robust      fences directly after lines 4, 7 and 10\n";
    assert!(words.contains(best), "{words}");
}

#[test]
fn every_verdict_on_the_models_is_the_checkers() {
    for reported in models_not_robust() {
        let explanation = explained(&reported);
        let Help { fences, updates, enough, checks } = explanation.help();
        assert!(*checks <= MOST_CHECKS, "{}", reported.name);
        for Trial { changes, verdict } in fences.iter().chain(updates).chain([enough]) {
            let expected = match verdict {
                Verdict::NoLine => continue,
                Verdict::Robust => Checked::Robust,
                Verdict::NotRobust => match verdict_on(&reported.program, changes) {
                    Checked::NotRobust { .. } => continue,
                    other => panic!("{}: {changes:?} {other:?}", reported.name),
                },
                other => panic!("{}: {changes:?} {other:?}", reported.name),
            };
            assert_eq!(verdict_on(&reported.program, changes), expected, "{}: {changes:?}", reported.name);
        }
    }
}

#[test]
fn the_models_have_fences_that_are_enough_and_none_too_many() {
    for reported in models_not_robust() {
        let explanation = explained(&reported);
        let Trial { changes, verdict } = &explanation.help().enough;
        assert_eq!(*verdict, Verdict::Robust, "{}: {changes:?}", reported.name);
        for left_out in changes {
            let fewer: Vec<Change> = changes.iter().copied().filter(|change| change != left_out).collect();
            assert_ne!(
                verdict_on(&reported.program, &fewer),
                Checked::Robust,
                "{}: {fewer:?}",
                reported.name
            );
        }
    }
}

/// Where a fence comes between two accesses already, none more is tried; but never everywhere on a cycle.
#[test]
fn no_fence_is_tried_beside_another_and_always_some() {
    let programs = random_fenced(300);
    assert_eq!(programs.len(), 300);
    let mut left_out = 0;
    for reported in programs {
        let explanation = explained_by(&reported, &mut |program| check_in(1_000_000, program));
        let threads = &reported.program.threads;
        let Help { fences, enough, .. } = explanation.help();
        assert!(!fences.is_empty() && !enough.changes.is_empty(), "{}", reported.name);
        for change in fences.iter().flat_map(|trial| &trial.changes) {
            let Change::Fence { thread, after, before } = *change else { panic!("{change:?}") };
            let is_fence = |line: usize| threads[thread][line] == Line::Fence;
            assert!(!is_fence(after) && !is_fence(before), "{}: {change:?}", reported.name);
        }
        let is_order = |edge: &&Edge| edge.relation == Relation::ProgramOrder;
        let edges = explanation.cycle().iter().filter(is_order).count();
        let alone = fences.iter().filter(|trial| trial.changes.len() == 1).count();
        left_out += usize::from(alone < edges);
    }
    assert!(left_out > 20, "{left_out}");
}

#[test]
fn a_checker_that_does_not_decide_is_believed() {
    let explanation = explained_by(&model("sb"), &mut |_| Checked::Undecided);
    let Help { fences, updates, enough, checks } = explanation.help();
    assert!(fences.iter().chain([enough]).all(|trial| trial.verdict == Verdict::Undecided));
    assert!(updates[..3].iter().all(|trial| trial.verdict == Verdict::Undecided));
    assert_eq!(*checks, 6);
    let undecided =
        "\n  undecided   fences directly after lines 7 and 10: the table of the quick check\n              \
        was too small\n";
    assert!(explanation.words(false).contains(undecided), "{}", explanation.words(false));
}

/// What is not robust whatever is changed, and a report that is not on the changed model, end the search.
#[test]
fn a_checker_that_reports_nonsense_ends_the_search() {
    let reported = model("sb");
    let Reported { report, steps, .. } = &reported;
    let mut nonsense = |_: &Program| Checked::NotRobust { report: *report, steps: steps[1..].to_vec() };
    let explanation = explained_by(&reported, &mut nonsense);
    let Help { enough, checks, .. } = explanation.help();
    assert_eq!(*enough, Trial { changes: vec![fence(0, 0), fence(1, 0)], verdict: Verdict::NotRobust });
    assert_eq!(*checks, 6);
}

#[test]
fn what_has_no_room_is_said_in_words() {
    // Store buffering, and a thread that uses all other locations.
    let explanation = |locations: usize| {
        let others = &["a", "b", "c", "d", "e", "f", "g", "h", "i", "j", "k", "l", "m", "n"][..locations - 2];
        let writes: String = others.iter().map(|name| format!("{name} := 1\n")).collect();
        let threads = "thread\nx := 1\nr0 := y\nthread\ny := 1\nr0 := x\nthread\n";
        let text = format!("values 2\nlocations x y {}\n{threads}{writes}", others.join(" "));
        explained(&of_source("all locations used", source(&text)).unwrap())
    };
    let [fits, full] = [15, 16].map(explanation);
    assert_eq!(fits.help().enough.verdict, Verdict::Robust);
    let Help { fences, enough, .. } = full.help();
    assert!(fences.iter().chain([enough]).all(|trial| trial.verdict == Verdict::NoRoom));
    let [fits, full] = [fits, full].map(|explanation| explanation.words(false));
    let change = "a fence directly after line 4 (x := 1), before line 5 (r0 := y)";
    assert!(fits.contains(&format!("not robust  {change}")), "{fits}");
    says_no_room(&full, change, "a model with a fence has at most 15 locations");
}

/// The words have the change as one that was not tried, for this reason and no other.
fn says_no_room(words: &str, change: &str, reason: &str) {
    let unwrapped = words.split_whitespace().collect::<Vec<_>>().join(" ");
    assert!(unwrapped.contains(&format!("not tried {change}: {reason}")), "{words}");
    assert_eq!(unwrapped.matches("at most").count(), unwrapped.matches(reason).count(), "{words}");
}

#[test]
fn a_thread_with_all_its_lines_has_no_room_for_a_fence() {
    let more = "x := 1\n".repeat(62);
    let threads = format!("thread\nx := 1\nr0 := y\n{more}thread\ny := 1\nr0 := x\n");
    let text = format!("values 2\nlocations x y\n{threads}");
    let words = explained(&of_source("all lines used", source(&text)).unwrap()).words(false);
    let change = "a fence directly after line 4 (x := 1), before line 5 (r0 := y)";
    says_no_room(&words, change, "a thread has at most 64 lines");
}

/// Threads that are written once share their lines: a change of a line is one of each of them.
#[test]
fn a_line_that_threads_share_is_changed_in_all_of_them() {
    let mut source = source("values 2\nlocations x y\nthread\nx := 1\nr0 := y\nthread\ny := 1\nr0 := x\n");
    let thread = source.program.threads[0].clone();
    let statements = source.statements[0].clone();
    source.program.threads.insert(1, thread);
    source.statements.insert(1, statements);
    let explanation = explained(&of_source("shared", source).unwrap());
    let shared = vec![fence(0, 0), fence(1, 0)];
    let alone = vec![fence(2, 0)];
    let Help { fences, enough, .. } = explanation.help();
    assert_eq!(fences[0].changes, shared);
    assert_eq!(fences[1].changes, alone);
    assert_eq!(*enough, Trial { changes: [shared, alone].concat(), verdict: Verdict::Robust });
    assert!(explanation.words(false).contains("robust      fences directly after lines 4 and 7\n"));
}

#[test]
fn a_source_without_its_text_is_refused() {
    let whole: Source = source("values 2\nlocations x y\nthread\nx := 1\nr0 := y\nthread\ny := 1\nr0 := x\n");
    let Reported { report, steps, .. } = of_source("sb", whole.clone()).unwrap();
    let refused = |source: &Source| {
        let found = explain::Explanation::of(source, &report, &steps, &mut check);
        assert_eq!(found.unwrap_err(), explain::Unexplained::AnotherText);
    };
    refused(&Source { locations: vec!["x".into()], ..whole.clone() });
    refused(&Source { statements: whole.statements[1..].to_vec(), ..whole.clone() });
    let mut shorter = whole;
    shorter.statements[1].pop();
    refused(&shorter);
}
