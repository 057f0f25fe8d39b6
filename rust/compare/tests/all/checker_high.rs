//! Programs of sixteen locations.

#[path = "../../../second/tests/high/cases.rs"]
mod cases;

use compare::checker::{difference, index_lengths, Expected, Lengths};
use order_check::numbers;
use program::Operand::Constant;
use program::{encode, Line, Program};
use random::Numbers;

/// The checkers agree on it, place by place, in a table of just so many places. Handed back is what the second says.
#[track_caller]
fn same(bytes: &[u8], name: &str) -> Expected {
    let mut numbers = Numbers::new(1);
    let expected = Expected::new(bytes, 1_000);
    let table = expected.places() * expected.place_size();
    let indexes = index_lengths(&mut numbers, expected.places());
    for lengths in [Lengths { table, trace: 100 }, Lengths { table: table - 1, trace: 100 }] {
        let difference = difference(bytes, &expected, lengths, &indexes, &mut numbers);
        assert_eq!(difference, None, "{name}");
    }
    expected
}

#[test]
fn each_report_is_the_one_worked_out_by_hand() {
    for case in cases::all() {
        let expected = same(&case.bytes, case.name);
        let lengths = Lengths { table: 1_000_000, trace: 100 };
        assert_eq!(expected.report(lengths).to_string(), case.report, "{}", case.name);
    }
}

const THREADS: u8 = 8;
const LOCATIONS: u8 = 16;

/// Location 0 says whose turn it is. No other thread has a step then, so that there is one run.
const TURN: u8 = 0;

/// What a thread does in its first turn with every other location. Each write leaves the value before it stale, small
/// ones and large ones in turn, also to be written after; before the read-modify-writes nothing can be placed.
fn access(thread: u8, location: u8) -> Line {
    let reg = location % 4;
    match thread {
        0 => Line::Write { location, a: Constant(1) },
        1 => Line::Write { location, a: Constant(9) },
        2 => Line::Write { location, a: Constant(2) },
        3 => Line::Write { location, a: Constant(10) },
        4 => Line::Write { location, a: Constant(3) },
        5 if location.is_multiple_of(2) => Line::Read { reg, location },
        5 => Line::Wait { location, a: Constant(3) },
        6 => Line::Fadd { reg, location, a: Constant(5) },
        _ => Line::Cas { reg, location, a: Constant(8), b: Constant(4) },
    }
}

/// A thread takes its turn twice: 0 to 7 and 8 to 15 are the turns of all threads in their order.
fn thread(thread: u8) -> Vec<Line> {
    let wait = |turn| Line::Wait { location: TURN, a: Constant(turn) };
    let hand_on = |turn: u8| Line::Write { location: TURN, a: Constant((turn + 1) % 16) };
    let registers = (0..4).map(|reg| Line::Sum { reg, a: Constant(reg), b: Constant(1) });
    let first = [wait(thread)].into_iter().chain(registers);
    let first = first.chain((1..LOCATIONS).map(|location| access(thread, location)));
    let second = [hand_on(thread), wait(thread + 8), hand_on(thread + 8)];
    first.chain(second).collect()
}

/// The bytes of a place that are always 0: the newest write of a location could have seen no older one there.
fn own_sets() -> impl Iterator<Item = usize> {
    let (t, l) = (usize::from(THREADS), usize::from(LOCATIONS));
    let readable_by_newest = 9 + (1 + 4) * t + l + 2 * (t + 2 * l) + 2 * t * l;
    let writable_by_newest = readable_by_newest + 2 * l * l + 2 * t * l;
    let own = move |rows: usize| (0..l).map(move |x| rows + 2 * (l * x + x)).flat_map(|set| [set, set + 1]);
    own(readable_by_newest).chain(own(writable_by_newest))
}

#[test]
fn every_part_of_the_largest_place_is_used() {
    let threads: Vec<Vec<Line>> = (0..THREADS).map(thread).collect();
    // One run, and each of its steps takes another line: all happens one after the other, so that it is robust.
    let places = 1 + threads.iter().map(Vec::len).sum::<usize>();
    let bytes = encode(&Program { threads, locations: LOCATIONS, values: 16 });
    assert_eq!(same(&bytes, "turns").places(), places);
    let mut table = vec![0; places * 1_681];
    assert_eq!(numbers(&bytes, &mut table, &mut []), [0, 0, places as u64, 0, 0, 0, 0, 0]);
    let differs = |at: &usize| table.chunks(1_681).any(|place| place[*at] != table[*at]);
    let unused: Vec<usize> = (9..1_681).filter(|at| !differs(at)).collect();
    assert_eq!(unused, own_sets().collect::<Vec<_>>());
}
