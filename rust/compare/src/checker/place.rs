//! The bytes of a place.

use second::{LocationPart, Situation, ThreadPart};

/// What stands in a place.
#[derive(Clone, Debug, PartialEq, Eq)]
pub struct Written {
    /// The place that it was reached from.
    pub from: usize,
    /// The thread of the step.
    pub by: usize,
    /// The fingerprint.
    pub fingerprint: u32,
    /// The fingerprint that belongs to the bytes of the situation.
    pub due: u32,
    /// The situation.
    pub situation: Situation,
}

/// Takes a place apart: the order of its bytes, as docs/LAYOUT.md has it, is in this function alone. Nothing where
/// bytes are missing or left over.
pub fn decode(place: &[u8], threads: usize, locations: usize) -> Option<Written> {
    let mut bytes = Bytes(place);
    let from = u32::from_le_bytes(bytes.take()?) as usize;
    let by = bytes.byte()?.into();
    let fingerprint = u32::from_le_bytes(bytes.take()?);
    let due = mixed(bytes.0);

    let lines = bytes.all(threads, Bytes::byte)?;
    let registers = bytes.all(threads, Bytes::take)?;
    let values = bytes.all(locations, Bytes::byte)?;

    let known_to_thread = bytes.all(threads, Bytes::set)?;
    let known_to_newest = bytes.all(locations, Bytes::set)?;
    let known_to_access = bytes.all(locations, Bytes::set)?;

    let row = |bytes: &mut Bytes| bytes.sets(locations);
    let readable_by_thread = bytes.all(threads, row)?;
    let readable_by_newest = bytes.all(locations, row)?;
    let writable_by_thread = bytes.all(threads, row)?;
    let writable_by_newest = bytes.all(locations, row)?;

    let thread = |t: usize| ThreadPart {
        line: lines[t],
        registers: registers[t],
        seen: known_to_thread[t],
        readable: readable_by_thread[t],
        writable: writable_by_thread[t],
    };
    let location = |x: usize| LocationPart {
        value: values[x],
        seen_by_newest: known_to_newest[x],
        seen_by_any: known_to_access[x],
        readable: readable_by_newest[x],
        writable: writable_by_newest[x],
    };
    let situation = Situation {
        threads: (0..threads).map(thread).collect(),
        locations: (0..locations).map(location).collect(),
    };
    bytes.0.is_empty().then_some(Written { from, by, fingerprint, due, situation })
}

/// The fingerprint "starts at 0 and becomes 33 times itself plus the byte, modulo 2^32, for each byte of the
/// situation".
fn mixed(situation: &[u8]) -> u32 {
    let next = |print: u32, byte: &u8| print.wrapping_mul(33).wrapping_add((*byte).into());
    situation.iter().fold(0, next)
}

/// The bytes that are still to be taken.
struct Bytes<'a>(&'a [u8]);

impl Bytes<'_> {
    fn take<const N: usize>(&mut self) -> Option<[u8; N]> {
        let (taken, rest) = self.0.split_first_chunk()?;
        self.0 = rest;
        Some(*taken)
    }

    fn byte(&mut self) -> Option<u8> {
        self.take().map(|[byte]| byte)
    }

    /// A set, of locations or of values.
    fn set(&mut self) -> Option<u16> {
        self.take().map(u16::from_le_bytes)
    }

    /// A set of values for each location.
    fn sets<const N: usize>(&mut self, locations: usize) -> Option<[u16; N]> {
        let mut sets = [0; N];
        for set in sets.iter_mut().take(locations) {
            *set = self.set()?;
        }
        Some(sets)
    }

    /// So many things, one after the other.
    fn all<T>(&mut self, count: usize, take: impl Fn(&mut Self) -> Option<T>) -> Option<Vec<T>> {
        (0..count).map(|_| take(self)).collect()
    }
}
