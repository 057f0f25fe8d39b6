//! The advice is followed to the letter, in the text of the model: each verdict that the words give is the checker's.

use explain::{changed, Change, Changed, Checked};
use models::{disassemble, Source};
use program::encode;

use crate::edits::{advice, edited, lines_of, Advice};
use crate::reported::{check_in, explained, explained_by, of_source, source, text_of_model};
use crate::reported::{models_not_robust, random_fenced, random_not_robust, Reported};

/// The length of a table in which the models are decided.
const TABLE: usize = 10_000_000;

/// How often the words gave each verdict, and how often there was no room.
#[derive(Debug, Default)]
struct Met {
    robust: usize,
    not_robust: usize,
    undecided: usize,
    no_room: usize,
    /// How many models had fences.
    own: usize,
}

/// Follows every advice on the model, in a table of this length.
fn follow(reported: &Reported, text: &str, table: usize, met: &mut Met) {
    let explanation = explained_by(reported, &mut |program| check_in(table, program));
    let words = explanation.words(false);
    let (_, entries) = advice(&words);
    met.own += usize::from(reported.program.has_fence());
    for Advice { verdict, change } in entries {
        if change.ends_with(": the language has none") || change.ends_with(": enough others were") {
            continue;
        }
        let text = edited(text, &change);
        let what = || format!("{}: {verdict}: {change}\n{text}\n{words}", reported.name);
        let checked = Source::of_text(text.as_bytes()).map(|edited| check_in(table, &edited.program));
        match (verdict.as_str(), checked) {
            ("robust", Ok(Checked::Robust)) => met.robust += 1,
            ("not robust", Ok(Checked::NotRobust { .. })) => met.not_robust += 1,
            ("undecided", Ok(Checked::Undecided)) => met.undecided += 1,
            ("not tried", Err(_)) => met.no_room += 1,
            (_, other) => panic!("{}\n{other:?}", what()),
        }
    }
}

#[test]
fn the_advice_on_every_model_holds_in_its_text() {
    let mut met = Met::default();
    for reported in models_not_robust() {
        follow(&reported, &text_of_model(&reported.name), TABLE, &mut met);
    }
    assert!(met.robust > 20 && met.not_robust > 50 && met.own >= 4, "{met:?}");
}

#[test]
fn the_advice_on_random_programs_holds_in_their_text() {
    let mut met = Met::default();
    for reported in random_not_robust(200) {
        let text = disassemble(&encode(&reported.program)).unwrap();
        follow(&reported, &text, 1_000_000, &mut met);
    }
    assert!(met.robust > 100 && met.not_robust > 500 && met.undecided > 0 && met.own > 0, "{met:?}");
}

/// The same with a fence after the first line, where that is not enough.
#[test]
fn the_advice_on_random_programs_with_a_fence_holds_in_their_text() {
    let mut met = Met::default();
    let first = Change::Fence { thread: 0, after: 0, before: 1 };
    for reported in random_not_robust(200) {
        let Some(Changed { program, .. }) = changed(&reported.program, &[first]) else { continue };
        let text = disassemble(&encode(&program)).unwrap();
        if let Some(fenced) = of_source(&reported.name, source(&text)) {
            follow(&fenced, &text, 1_000_000, &mut met);
        }
    }
    assert!(met.robust > 100 && met.not_robust > 500 && met.own > 100, "{met:?}");
}

#[test]
fn the_advice_on_random_programs_of_fences_holds_in_their_text() {
    let mut met = Met::default();
    for reported in random_fenced(200) {
        let text = disassemble(&encode(&reported.program)).unwrap();
        follow(&reported, &text, 1_000_000, &mut met);
    }
    assert!(met.robust > 100 && met.not_robust > 200 && met.own == 200, "{met:?}");
}

/// The words on a model, all of whose advice holds.
fn followed(text: &str) -> String {
    let reported = of_source("text", source(text)).unwrap();
    follow(&reported, text, TABLE, &mut Met::default());
    explained(&reported).words(false)
}

/// The verdict of each entry that names fences after these lines.
fn verdicts_on(words: &str, lines: &[usize]) -> Vec<String> {
    let entries = advice(words).1.into_iter();
    let fences = entries.filter(|entry| entry.change.contains("fence") && lines_of(&entry.change) == lines);
    fences.map(|entry| entry.verdict).collect()
}

#[test]
fn a_fence_of_the_model_needs_only_one_more() {
    let words = followed(&text_of_model("sb+fence"));
    assert_eq!(verdicts_on(&words, &[11]), ["robust"], "{words}");
    assert_eq!(verdicts_on(&words, &[7]), Vec::<String>::new(), "there is one already: {words}");
}

#[test]
fn fences_of_an_older_form_are_apart() {
    let words = followed(&text_of_model("sb+rmw"));
    let title = "\nWhat would help, and what the checker says of the model with it (a fence is the\n\
        line 'fence'; those on f are not ordered with it, and are best written so too):\n";
    assert!(words.contains(title), "{words}");
    assert_eq!(verdicts_on(&words, &[11]), ["not robust"], "{words}");
    assert_eq!(verdicts_on(&words, &[7, 11]), ["robust"], "{words}");
}

/// Without the fence of the first thread two would be enough; beside it they are not.
#[test]
fn fences_beside_those_of_the_model_may_need_more() {
    let text = "values 2\nlocations x y z\nthread\nfence\nr0 := x\nthread\nx := 1\nr0 := y\n\
        thread\ny := 1\nr0 := z\nthread\nz := 1\nr0 := y\n";
    let words = followed(text);
    assert_eq!(verdicts_on(&words, &[10, 13]), ["not robust"], "{words}");
    assert_eq!(verdicts_on(&words, &[7, 10, 13]), ["robust"], "{words}");
    let words = followed(&text.replace("fence\n", "\n"));
    assert_eq!(verdicts_on(&words, &[10, 13]), ["robust"], "{words}");
}

/// Store buffering with this line in the second thread, and a third one that uses so many other locations.
fn beside(others: usize, line: &str) -> String {
    let names = &["a", "b", "c", "d", "e", "f", "g", "h", "i", "j", "k", "l", "m", "n"][..others];
    let writes: String = names.iter().map(|name| format!("{name} := 1\n")).collect();
    format!(
        "values 2\nlocations x y {}\nthread\nx := 1\nr0 := y\nthread\ny := 1\n{line}\nr0 := x\nthread\n{writes}",
        names.join(" ")
    )
}

/// The location of the fences is one of sixteen. Without it only a read-modify-write can be tried.
#[test]
fn a_model_of_sixteen_locations_has_no_room_for_fences() {
    let full = followed(&beside(14, ""));
    assert_eq!(verdicts_on(&full, &[4]), ["not tried"]);
    assert_eq!(verdicts_on(&full, &[4, 7]), ["not tried"]);
    assert!(full.contains("\n  not robust  FADD(y, 0) in place of line 5 (r0 := y)\n"), "{full}");
    let fits = followed(&beside(13, ""));
    assert_eq!(verdicts_on(&fits, &[4]), ["not robust"]);
    assert_eq!(verdicts_on(&fits, &[4, 7]), ["robust"]);
    let own = followed(&beside(13, "fence"));
    assert_eq!(verdicts_on(&own, &[4]), ["robust"], "{own}");
}
