//! Indexes that grow in a call: models with more places than half of the first slots, and than half of four times as
//! many, in indexes about as long as there are slots in use.

use answer::EightNumbers;
use compare::checker::{decode, difference_in_one_call, index_after, Expected, Lengths};
use models::collection;
use order_check::{numbers, numbers_indexed};
use program::read;
use random::Numbers;

const SLOTS: [usize; 8] = [1_023, 1_024, 1_025, 4_095, 4_096, 4_097, 5_000, 20_000];

/// Models with their places.
const SMALL: (&str, usize) = ("ticketlock", 961);
const LARGE: (&str, usize) = ("treiber-stack", 3_024);

/// What the library leaves of a program without an index.
struct Found {
    program: Vec<u8>,
    answer: EightNumbers,
    table: Vec<u8>,
    prints: Vec<u32>,
}

impl Found {
    /// In a table of so many places, all of which are written.
    fn new(name: &str, places: usize) -> Found {
        let program = collection::named(name).unwrap().bytes;
        let read = read(&program).unwrap();
        let (threads, locations) = (read.threads.len(), read.all_locations().into());
        let size = read.place_size();
        let mut table = vec![0; places * size];
        let answer = numbers(&program, &mut table, &mut []);
        assert_eq!(answer[2], places as u64, "{name}");
        let print = |place| decode(place, threads, locations).unwrap().fingerprint;
        let prints = table.chunks(size).map(print).collect();
        Found { program, answer, table, prints }
    }

    /// A call with the index has to give the same answer and leave the same table, and in every slot what is due. It hands back the index.
    fn again(&self, mut index: Vec<u64>) -> Vec<u64> {
        let due = index_after(&index, &self.prints);
        let mut table = vec![7; self.table.len()];
        let answer = numbers_indexed(&self.program, &mut table, &mut [], &mut index);
        assert_eq!(answer, self.answer);
        assert!(table == self.table, "{} places, {} slots", self.prints.len(), index.len());
        let wrong = (0..due.len()).find(|&slot| index[slot] != due[slot]);
        assert_eq!(wrong, None, "{} places, {} slots", self.prints.len(), index.len());
        index
    }
}

#[test]
fn every_slot_is_as_due_whatever_was_lent() {
    let mut numbers = Numbers::new(4);
    let of_small = [512, 513, SMALL.1].map(|places| (SMALL.0, places));
    let of_large = [2_048, 2_049, LARGE.1].map(|places| (LARGE.0, places));
    for (name, places) in of_small.into_iter().chain(of_large) {
        let found = Found::new(name, places);
        for slots in SLOTS {
            let left = found.again((0..slots).map(|_| numbers.draw()).collect());
            found.again(left);
            found.again(vec![u64::MAX; slots]);
        }
    }
}

#[test]
fn the_second_checker_has_the_same_places() {
    let mut numbers = Numbers::new(5);
    for (name, places) in [SMALL, LARGE] {
        let bytes = collection::named(name).unwrap().bytes;
        let expected = Expected::new(&bytes, places + 1);
        assert_eq!(expected.places(), places, "{name}");
        let lengths = Lengths { table: places * expected.place_size(), trace: 0 };
        let difference = difference_in_one_call(&bytes, &expected, lengths, &SLOTS, &mut numbers);
        assert_eq!(difference, None, "{name}");
    }
}
