//! The two checkers on every model, in tables that just suffice and in others.

use compare::checker::{difference, difference_in_one_call, index_lengths, trace_lengths, Expected, Lengths};
use models::collection;
use random::Numbers;
use second::Ending;

/// More places than any model needs.
const PLACES: usize = 100_000;

/// A search in a longer table takes its time.
const LONG: usize = 500_000;

#[test]
fn on_every_model() {
    let models = collection::load(&collection::directory()).unwrap();
    assert!(models.len() >= 50, "only {} models", models.len());
    let mut numbers = Numbers::new(1);
    for model in models {
        let expected = Expected::new(&model.bytes, PLACES);
        let search = expected.search().expect("models are accepted");
        let just = search.places.len() * expected.place_size();
        let traces = trace_lengths(&mut numbers, search.steps_to(search.places.len()).len());
        // The first two are just long enough and just too short; the others count only where a trace is written.
        let traces = if let Ending::Witness(_) = search.ending { &traces[..] } else { &traces[..2] };
        let indexes = index_lengths(&mut numbers, search.places.len());
        if just > LONG {
            let lengths = Lengths { table: just, trace: traces[0] };
            // The shorter ones would make it no faster than none does.
            let difference =
                difference_in_one_call(&model.bytes, &expected, lengths, &indexes[4..], &mut numbers);
            assert_eq!(difference, None, "{} with {lengths:?}", model.name);
            continue;
        }
        for table in [just, just - 1, just / 2, 49_152, just + 1_000] {
            for &trace in traces {
                let indexes = if trace == traces[0] { &indexes[..] } else { &[] };
                let lengths = Lengths { table, trace };
                let difference = difference(&model.bytes, &expected, lengths, indexes, &mut numbers);
                assert_eq!(difference, None, "{} with {lengths:?}", model.name);
            }
        }
    }
}
