//! The places of a lent table: document 01, section "Table", and document 02, Points 3 and 5.

use crate::data::Program;

/// "A place has 9 + T × (7 + 4L) + L × (5 + 4L) bytes", where L counts the location of a program's fences too.
pub const fn place_size(threads: usize, locations: usize) -> usize {
    9 + threads * (7 + 4 * locations) + locations * (5 + 4 * locations)
}

/// "N, the places available, is the lent length divided by the place size, at most 1,000,000,000."
pub fn places_available(table: usize, threads: usize, locations: usize) -> usize {
    (table / place_size(threads, locations)).min(MOST_PLACES)
}

impl Program {
    /// The size of a place of this program, its fences' location "counted in the place size when the program has an op
    /// 11".
    pub fn place_size(&self) -> usize {
        place_size(self.threads.len(), self.all_locations().into())
    }
}

const MOST_PLACES: usize = 1_000_000_000;
