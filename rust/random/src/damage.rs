//! Bytes that are almost a program, or none at all.

use crate::Numbers;

/// Bytes at which a field of a program turns from good to bad, and the letters of the marks.
const TELLING: &[u8] = &[
    0, 1, 2, 3, 4, 7, 8, 9, 10, 11, 12, 15, 16, 17, 63, 64, 65, 127, 128, 131, 132, 255, b'P', b'R', b'T',
    b'H', b'I', b'N',
];

/// Damages the bytes, mostly in one place. Of two faults a reader must find the first.
pub fn damage(numbers: &mut Numbers, bytes: &mut Vec<u8>) {
    damage_once(numbers, bytes);
    while numbers.once_in(3) {
        damage_once(numbers, bytes);
    }
}

fn damage_once(numbers: &mut Numbers, bytes: &mut Vec<u8>) {
    let choice = if bytes.is_empty() { 0 } else { numbers.below(8) };
    let place = numbers.below(bytes.len() + 1);
    let old = place.saturating_sub(1);
    match choice {
        // A byte more, mostly in the middle.
        0 => bytes.insert(place, telling(numbers)),
        // A byte less.
        1 => drop(bytes.remove(old)),
        // Cut short.
        2 => bytes.truncate(old),
        // Something after the end.
        3 => bytes.extend_from_within(..place),
        // One up or one down.
        4 => bytes[old] = bytes[old].wrapping_add(numbers.pick(&[1, 255])),
        // Another byte.
        _ => bytes[old] = telling(numbers),
    }
}

fn telling(numbers: &mut Numbers) -> u8 {
    if numbers.once_in(4) {
        numbers.byte()
    } else {
        numbers.pick(TELLING)
    }
}

/// Fewer than `end` bytes without plan, where `end` is not 0. Half of the time the mark of a program stands before
/// them.
pub fn noise(numbers: &mut Numbers, end: usize) -> Vec<u8> {
    let mut bytes: Vec<u8> = (0..numbers.below(end)).map(|_| telling(numbers)).collect();
    if numbers.once_in(2) {
        bytes.splice(..0, *b"PR");
    }
    bytes
}
