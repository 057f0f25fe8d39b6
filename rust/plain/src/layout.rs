//! Where the parts of a place stand: docs/LAYOUT.md.

use program::Program;

/// The thread, after the place it was reached from.
pub const BY: usize = 4;

/// The fingerprint.
pub const PRINT: usize = 5;

/// The situation. It starts with the lines.
pub const LINES: usize = 9;

/// Registers of a thread.
pub const REGISTERS: usize = 4;

/// Bytes of a set, of locations or of values.
pub const SET: usize = 2;

/// The set that starts at a byte of a place.
pub fn set(place: &[u8], at: usize) -> u16 {
    u16::from_le_bytes([place[at], place[at + 1]])
}

/// Puts a set to where it starts.
pub fn put(place: &mut [u8], at: usize, set: u16) {
    place[at..][..SET].copy_from_slice(&set.to_le_bytes());
}

/// The places of a program: for each part the byte at which it starts.
///
/// Parts of the same kind stand one after the other, so that some rules run through several of them: the three families
/// of known locations, and the rows of threads and of newest writes.
pub struct Layout {
    pub threads: usize,
    /// The named ones and, where the program has a fence, its own.
    pub locations: usize,
    pub registers: usize,
    pub values: usize,
    pub known_to_thread: usize,
    pub known_to_newest: usize,
    pub known_to_access: usize,
    pub readable_by_thread: usize,
    pub readable_by_newest: usize,
    pub writable_by_thread: usize,
    pub writable_by_newest: usize,
    /// Of a whole place.
    pub size: usize,
}

impl Layout {
    pub fn of(program: &Program) -> Layout {
        let (threads, locations) = (program.threads.len(), usize::from(program.all_locations()));
        let row = SET * locations;
        let registers = LINES + threads;
        let values = registers + REGISTERS * threads;
        let known_to_thread = values + locations;
        let known_to_newest = known_to_thread + SET * threads;
        let known_to_access = known_to_newest + SET * locations;
        let readable_by_thread = known_to_access + SET * locations;
        let readable_by_newest = readable_by_thread + row * threads;
        let writable_by_thread = readable_by_newest + row * locations;
        let writable_by_newest = writable_by_thread + row * threads;
        Layout {
            threads,
            locations,
            registers,
            values,
            known_to_thread,
            known_to_newest,
            known_to_access,
            readable_by_thread,
            readable_by_newest,
            writable_by_thread,
            writable_by_newest,
            size: program.place_size(),
        }
    }

    /// The bytes of a row.
    pub fn row(&self) -> usize {
        SET * self.locations
    }

    /// Puts the situation in which every run starts into a place of zeros: each thread knows all starting writes, each
    /// of which knows itself, and nothing is stale.
    pub fn start(&self, place: &mut [u8]) {
        let all = u16::MAX >> (16 - self.locations);
        for t in 0..self.threads {
            put(place, self.known_to_thread + SET * t, all);
        }
        for x in 0..self.locations {
            put(place, self.known_to_newest + SET * x, 1 << x);
            put(place, self.known_to_access + SET * x, 1 << x);
        }
    }
}

#[cfg(test)]
mod tests {
    use super::Layout;
    use program::{Line, Program};

    #[test]
    fn the_last_row_ends_the_place() {
        for threads in 1..=8 {
            for locations in 1..=16 {
                let empty = Program { threads: vec![Vec::new(); threads], locations, values: 2 };
                let layout = Layout::of(&empty);
                assert_eq!(layout.writable_by_newest + layout.row() * layout.locations, layout.size);
            }
        }
    }

    #[test]
    fn a_fence_has_the_room_of_one_location_more() {
        for locations in 1..=15 {
            let with = |locations, lines| Program { threads: vec![lines], locations, values: 2 };
            let fenced = Layout::of(&with(locations, vec![Line::Fence]));
            let more = Layout::of(&with(locations + 1, Vec::new()));
            assert_eq!((fenced.locations, fenced.size), (more.locations, more.size));
            assert_eq!(fenced.writable_by_newest, more.writable_by_newest);
        }
    }
}
