//! The index at exit: `indexAfter` of `crates/checker/specs/Indexed.antt`, once more.

/// How many slots of an index are used at first, where it has so many.
const FIRST: usize = 1_024;

/// The index that a call leaves of the one that was lent, for an accepted program with places of these fingerprints.
///
/// The slots in use are the index of all of the places, and those behind them are as they were lent.
pub fn index_after(lent: &[u64], prints: &[u32]) -> Vec<u64> {
    let mut index = lent.to_vec();
    let slots = slots_in_use(lent.len(), prints.len());
    index[..slots].copy_from_slice(&index_of(slots, prints));
    index
}

/// How many of the lent slots are in use beside so many places.
///
/// Whenever a place comes that is one more than half of the slots, they become four times as many, as far as there are.
pub fn slots_in_use(lent: usize, places: usize) -> usize {
    let mut slots = lent.min(FIRST);
    for place in 1..=places {
        if place > slots / 2 {
            slots = lent.min(4 * slots);
        }
    }
    slots
}

/// The index of so many slots for places with these fingerprints, in the order of their numbers.
///
/// The first places are entered, half as many as there are slots. A place takes the first empty slot from its
/// fingerprint modulo the number of slots on, where the first slot follows the last. Its entry has the fingerprint in
/// the upper half and the number of the place, from 1, in the lower one; an empty slot is 0.
pub fn index_of(slots: usize, prints: &[u32]) -> Vec<u64> {
    let mut index = vec![0; slots];
    for (place, &print) in prints.iter().take(slots / 2).enumerate() {
        let mut slot = print as usize % slots;
        while index[slot] != 0 {
            slot = (slot + 1) % slots;
        }
        index[slot] = u64::from(print) << 32 | (place as u64 + 1);
    }
    index
}
