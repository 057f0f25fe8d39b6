//! The index at exit, written out by hand.

use compare::checker::{index_after, index_of, slots_in_use};
use order_check::numbers_indexed;

/// An entry as Index.antt has it.
fn entry(print: u64, number: u64) -> u64 {
    print * 4_294_967_296 + number
}

#[test]
fn a_place_takes_the_first_empty_slot_from_its_own_on() {
    let prints = [13, 6, 20, 3];
    // 13 and 6 have the last slot for their own, and so has 20: two of them go on at the first slot. 3 is not entered.
    assert_eq!(index_of(7, &prints), [entry(6, 2), entry(20, 3), 0, 0, 0, 0, entry(13, 1)]);
    assert_eq!(index_of(8, &prints)[3..], [entry(3, 4), entry(20, 3), entry(13, 1), entry(6, 2), 0]);
    assert_eq!(index_of(2, &prints), [0, entry(13, 1)]);
    assert_eq!(index_of(1, &prints), [0]);
    assert_eq!(index_of(0, &prints), []);
}

#[test]
fn a_fingerprint_of_0_has_an_entry_too() {
    assert_eq!(index_of(4, &[0, 0, 0]), [entry(0, 1), entry(0, 2), 0, 0]);
}

#[test]
fn slots_are_used_as_there_are_places() {
    let used = |lent, places: &[usize]| places.iter().map(|&places| slots_in_use(lent, places)).collect();
    let one_by_one: Vec<usize> = used(1_000_000, &[0, 1, 512, 513, 2_048, 2_049, 8_192, 8_193]);
    assert_eq!(one_by_one, [1_024, 1_024, 1_024, 4_096, 4_096, 16_384, 16_384, 65_536]);
    let of_5_000: Vec<usize> = used(5_000, &[0, 512, 513, 2_048, 2_049, 1_000_000]);
    assert_eq!(of_5_000, [1_024, 1_024, 4_096, 4_096, 5_000, 5_000]);
    for few in [0, 1, 7, 1_023, 1_024] {
        assert_eq!(used(few, &[0, 511, 513, 10_000]), vec![few; 4]);
    }
}

#[test]
fn slots_behind_those_in_use_are_as_they_were() {
    let lent: Vec<u64> = (1..=2_000).collect();
    let index = index_after(&lent, &[1_025, 5]);
    assert_eq!(index[..6], [0, entry(1_025, 1), 0, 0, 0, entry(5, 2)]);
    assert!(index[6..1_024].iter().all(|&slot| slot == 0));
    assert_eq!(index[1_024..], lent[1_024..]);
    let grown = index_after(&lent, &[1_025; 513]);
    assert_eq!(grown[1_024..1_026], [0, entry(1_025, 1)]);
}

/// The fingerprint of the only situation of one thread without lines: `checker_place.rs` has its bytes.
fn only_print() -> u64 {
    1_187_011_u32.wrapping_mul(33_u32.wrapping_pow(9)).into()
}

/// What is in every slot before a call.
const LENT: u64 = 0x1234_5678_9abc_def0;

#[test]
fn the_library_leaves_this_index() {
    for slots in (0..100).chain(1_000..1_100).chain([5_000, 1 << 21]) {
        let mut index = vec![LENT; slots];
        numbers_indexed(b"PR\x01\x01\x02TH\x00", &mut [7; 29], &mut [], &mut index);
        let used = slots.min(1_024);
        let mut expected = vec![LENT; slots];
        expected[..used].fill(0);
        if slots >= 2 {
            expected[only_print() as usize % used] = entry(only_print(), 1);
        }
        assert!(index == expected, "{slots} slots");
    }
}

#[test]
fn without_a_place_it_is_empty_and_without_a_program_unchanged() {
    let mut index = [5; 10];
    numbers_indexed(b"PR\x01\x01\x01TH\x00", &mut [7; 29], &mut [], &mut index);
    assert_eq!(index, [5; 10]);
    numbers_indexed(b"PR\x01\x01\x02TH\x00", &mut [7; 28], &mut [], &mut index);
    assert_eq!(index, [0; 10]);
}
