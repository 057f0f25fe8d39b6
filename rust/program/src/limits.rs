//! The limits of document 01, section "Program bytes", and document 02, Points 3 and 5, each in one place.

use std::ops::RangeInclusive;

/// T: "threads 1 to 8".
pub const THREADS: RangeInclusive<u8> = 1..=8;

/// L: "L may be 1 to 16" (document 02, Point 3).
pub const LOCATIONS: RangeInclusive<u8> = 1..=16;

/// L of a program with a fence: "12 when op 11 stands in a program whose L is 16" (document 02, Point 5).
pub const LOCATIONS_BESIDE_A_FENCE: RangeInclusive<u8> = 1..=15;

/// K: "values 0 to K−1 with K from 2 to 16".
pub const VALUES: RangeInclusive<u8> = 2..=16;

/// n: "a thread of n lines, 0 to 64".
pub const LINES: RangeInclusive<u8> = 0..=64;

/// "reg is 0 to 3": the number of registers.
pub const REGISTERS: u8 = 4;

/// The most bytes that commands take for a program or its text: 1 MiB. A program has at most 3,613, and its text hardly
/// more than ten times as many without comments.
pub const LONGEST_INPUT: usize = 1 << 20;
