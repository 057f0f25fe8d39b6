//! A host that gets 10 lends the wanted length and calls again: the library alone, without the second program.

use compare::checker::random_program;
use models::collection;
use order_check::{check, check_indexed, steps_in, Report, Step};
use program::encode;
use random::{program, Numbers, Shape};

/// Long enough for most small programs.
const TABLE: usize = 20_000;

/// The report, and table and trace as they are left.
type HandedBack = (Report, Vec<u8>, Vec<u8>);

/// What a call hands back that gets a table and so long a trace, both filled with that byte.
fn lend(trace: usize, filling: u8, call: impl FnOnce(&mut [u8], &mut [u8]) -> Report) -> HandedBack {
    let (mut table, mut trace) = (vec![filling; TABLE], vec![filling; trace]);
    (call(&mut table, &mut trace), table, trace)
}

/// What the library hands back: the same with an index.
fn call(bytes: &[u8], trace: usize, filling: u8) -> HandedBack {
    let handed_back = lend(trace, filling, |table, trace| check(bytes, table, trace));
    let mut index = [filling.into(); 100];
    let indexed = lend(trace, filling, |table, trace| check_indexed(bytes, table, trace, &mut index));
    assert_eq!(indexed, handed_back, "{bytes:?}");
    handed_back
}

/// The wanted length with a trace of no bytes, where the report is 10.
fn wanted(bytes: &[u8]) -> Option<usize> {
    match call(bytes, 0, 0).0 {
        Report::Short { wanted } => Some(wanted),
        _ => None,
    }
}

/// The wanted length gets NR and is filled with its steps. A byte more stays as it was. The shorter lengths that are
/// tried get 10 with the same wanted length, and the table of NR.
fn is_exact(bytes: &[u8], wanted: usize) {
    for filling in [0, 9, 0xff] {
        let (report, table, trace) = call(bytes, wanted, filling);
        let Report::NotRobust { steps, .. } = report else {
            panic!("{wanted} bytes for {bytes:?}: {report:?}");
        };
        assert_eq!(wanted, Step::BYTES * steps, "{bytes:?}");
        assert_eq!(steps_in(&trace).map(|steps| steps.len()), Some(steps), "{bytes:?}");
        let longer = [trace.as_slice(), &[filling]].concat();
        assert_eq!(call(bytes, wanted + 1, filling), (report, table.clone(), longer), "{bytes:?}");
        for short in [0, 1, steps, wanted - 1] {
            let withheld = (Report::Short { wanted }, table.clone(), vec![filling; short]);
            assert_eq!(call(bytes, short, filling), withheld, "{short} for {bytes:?}");
        }
    }
}

#[test]
fn on_the_models() {
    let models = collection::load(&collection::directory()).unwrap();
    let wanted = models.iter().filter_map(|model| {
        let wanted = wanted(&model.bytes)?;
        is_exact(&model.bytes, wanted);
        Some((model.name.as_str(), wanted))
    });
    let wanted: Vec<(&str, usize)> = wanted.collect();
    assert!(wanted.contains(&("sb", 12)) && wanted.len() >= 20, "{wanted:?}");
}

#[test]
fn on_random_programs() {
    let mut numbers = Numbers::new(7);
    let (mut exact, mut longest) = (0, 0);
    for number in 0..4_000 {
        let drawn = match number % 2 {
            0 => program(&mut numbers, &Shape::winding()),
            _ => random_program(&mut numbers),
        };
        let bytes = encode(&drawn);
        if let Some(wanted) = wanted(&bytes) {
            is_exact(&bytes, wanted);
            exact += 1;
            longest = longest.max(wanted);
        }
    }
    assert!(exact >= 500 && longest >= 60, "{exact} programs, the longest trace {longest}");
}
