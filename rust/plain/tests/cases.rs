//! The plain checker on the cases of document 01, with the lent lengths of document 02, and on the models. `rust/compare` holds it to every byte.
#![forbid(unsafe_code)]

use answer::{steps_in, Kind, Report, Step};
use models::collection::{self, Verdict};
use plain::check;

/// The answer with so much lent, and the trace after it, which was lent with 9s.
fn answer(bytes: &[u8], table: usize, trace: usize) -> (Report, Vec<u8>) {
    let (mut table, mut trace) = (vec![7; table], vec![9; trace]);
    (check(bytes, &mut table, &mut trace), trace)
}

fn model(name: &str) -> Vec<u8> {
    collection::named(name).unwrap().bytes
}

#[test]
fn of_document_01() {
    let sb = model("sb");
    let of_sb = [1, 2, 0, 1, 1, 1, 1, 0, 2, 2, 1, 1];
    let of_2_2w = [1, 2, 0, 1, 1, 2, 1, 2, 2, 2, 1, 1];
    let not_robust =
        |count, kind| Report::NotRobust { count, steps: 3, thread: 2, kind, location: 0, value: 0 };
    for more in 0..4 {
        let trace = [of_sb.as_slice(), &vec![9; more]].concat();
        assert_eq!(answer(&sb, 455, 12 + more), (not_robust(7, Kind::Read), trace));
    }
    assert_eq!(answer(&sb, 454, 12), (Report::Full { count: 6 }, vec![9; 12]));
    for short in 0..12 {
        assert_eq!(answer(&sb, 455, short), (Report::Short { wanted: 12 }, vec![9; short]));
    }
    assert_eq!(answer(&model("mp"), 845, 1), (Report::Robust { count: 13 }, vec![9]));
    assert_eq!(answer(&model("mp"), 844, 1), (Report::Full { count: 12 }, vec![9]));
    assert_eq!(answer(&model("2+2w"), 520, 12), (not_robust(8, Kind::Write), of_2_2w.to_vec()));
    assert_eq!(answer(&model("barrier"), 455, 0).0, Report::Robust { count: 7 });
    assert_eq!(answer(b"PR\x01\x01\x02TH\x00", 29, 0).0, Report::Robust { count: 1 });
    assert_eq!(answer(b"PR\x01\x01\x02TH\x00", 28, 0).0, Report::Full { count: 0 });
    assert_eq!(answer(b"", 500, 3), (Report::Refused { number: 1 }, vec![9; 3]));
}

#[test]
fn every_model_has_its_verdict() {
    for model in collection::load(&collection::directory()).unwrap() {
        let found = match answer(&model.bytes, 10_000_000, 8_192).0 {
            Report::Robust { .. } => Some(Verdict::Robust),
            Report::NotRobust { .. } => Some(Verdict::NotRobust),
            Report::Full { .. } | Report::Short { .. } | Report::Refused { .. } => None,
            other => panic!("{}: {other}", model.name),
        };
        assert_eq!(found, Some(model.expected), "{}", model.name);
    }
}

#[test]
fn every_model_has_its_report() {
    for model in collection::load(&collection::directory()).unwrap() {
        let (report, trace) = answer(&model.bytes, 49_152, 8_192);
        let steps = if let Report::NotRobust { steps, .. } = report { steps } else { 0 };
        let (front, rest) = trace.split_at(Step::BYTES * steps);
        let steps = steps_in(front).unwrap_or_else(|| panic!("{}: {front:?}", model.name));
        let steps: String = steps.iter().map(|step| format!("{step}\n")).collect();
        assert_eq!(format!("{report}\n{steps}"), model.report, "{}", model.name);
        assert!(rest.iter().all(|&byte| byte == 9), "{}", model.name);
    }
}
