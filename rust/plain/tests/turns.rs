//! The steps at the places of a search that has ended.
#![forbid(unsafe_code)]

use answer::Report;
use models::collection;
use plain::{check, turns};
use program::{read, Line, Program};

/// A model with its table, which has 961 places.
struct Searched {
    program: Program,
    size: usize,
    table: Vec<u8>,
}

impl Searched {
    fn new() -> Searched {
        let bytes = collection::named("ticketlock").unwrap().bytes;
        let program = read(&bytes).unwrap();
        let size = program.place_size();
        let mut table = vec![0; 961 * size];
        assert_eq!(check(&bytes, &mut table, &mut []), Report::Robust { count: 961 });
        Searched { program, size, table }
    }

    /// A place, counted from 1.
    fn place(&self, number: usize) -> &[u8] {
        &self.table[(number - 1) * self.size..][..self.size]
    }

    /// From where and by which thread a place was reached: docs/LAYOUT.md.
    fn back(&self, number: usize) -> (usize, u8) {
        let [a, b, c, d, by] = self.place(number)[..5] else { panic!("five bytes") };
        (u32::from_le_bytes([a, b, c, d]) as usize, by)
    }

    /// The next line of a thread, counted from 1.
    fn line(&self, number: usize, thread: u8) -> Option<Line> {
        let t = usize::from(thread) - 1;
        self.program.threads[t].get(usize::from(self.place(number)[9 + t])).copied()
    }
}

#[test]
fn a_turn_has_its_line_and_the_one_before() {
    let searched = Searched::new();
    let mut order = Vec::new();
    turns(&searched.program, &searched.table, |turn| {
        let last = match searched.back(turn.place) {
            (0, _) => None,
            (from, by) => Some((by, searched.line(from, by).unwrap())),
        };
        assert_eq!((turn.last, Some(turn.line)), (last, searched.line(turn.place, turn.thread)));
        order.push((turn.place, turn.thread));
    });
    assert!(order.len() > 961 && order.is_sorted_by(|one, next| one < next));
}

#[test]
fn every_place_but_the_first_is_reached_by_a_turn() {
    let searched = Searched::new();
    let mut reached = Vec::new();
    turns(&searched.program, &searched.table, |turn| {
        reached.push(((turn.place, turn.thread), turn.next.to_vec()));
    });
    for number in 2..=961 {
        let due = (searched.back(number), searched.place(number)[9..].to_vec());
        assert!(reached.contains(&due), "place {number}");
    }
}
