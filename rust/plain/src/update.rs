//! What an access changes of a situation: the update rules of `crates/rules/specs/Update.antt`, on the bytes of a place.

use crate::layout::{put, set, Layout, SET};

impl Layout {
    /// Thread t reads x: it learns what the newest write knows, and can still read what both could.
    pub fn read(&self, place: &mut [u8], t: usize, x: usize) {
        let (thread, access) = (self.known_to_thread + SET * t, self.known_to_access + SET * x);
        let known = set(place, thread) | set(place, self.known_to_newest + SET * x);
        put(place, thread, known);
        put(place, access, set(place, access) | known);
        self.see(place, t, x);
    }

    /// Thread t writes v to x.
    pub fn write(&self, place: &mut [u8], t: usize, x: usize, v: u8) {
        let old = place[self.values + x];
        self.make_stale(place, self.writable_by_thread, x, old);
        self.overwrite(place, t, x, v);
    }

    /// Thread t updates x to v: no write may go directly after the one that it read.
    pub fn update(&self, place: &mut [u8], t: usize, x: usize, v: u8) {
        self.see(place, t, x);
        self.overwrite(place, t, x, v);
    }

    /// The rows of thread t are met with those of the newest write of x.
    fn see(&self, place: &mut [u8], t: usize, x: usize) {
        self.meet(place, self.readable_by_thread, t, self.readable_by_newest, x);
        self.meet(place, self.writable_by_thread, t, self.writable_by_newest, x);
    }

    /// Row t of the threads' rows is met with row x of the newest writes' rows, which come after them.
    fn meet(&self, place: &mut [u8], threads: usize, t: usize, newest: usize, x: usize) {
        let (front, back) = place.split_at_mut(newest);
        let row = &mut front[threads + t * self.row()..][..self.row()];
        let other = &back[x * self.row()..][..self.row()];
        row.iter_mut().zip(other).for_each(|(byte, other)| *byte &= other);
    }

    /// What a write and an update share.
    fn overwrite(&self, place: &mut [u8], t: usize, x: usize, v: u8) {
        let old = place[self.values + x];
        place[self.values + x] = v;
        self.make_stale(place, self.readable_by_thread, x, old);
        self.own(place, self.readable_by_thread, t, self.readable_by_newest, x);
        self.own(place, self.writable_by_thread, t, self.writable_by_newest, x);
        self.make_known(place, t, x);
    }

    /// The value u at x is stale from now on: it joins entry x of each thread's row and, after these, of each newest
    /// write's.
    fn make_stale(&self, place: &mut [u8], rows: usize, x: usize, u: u8) {
        let byte = SET * x + usize::from(u / 8);
        let rows = &mut place[rows..][..self.row() * (self.threads + self.locations)];
        rows.chunks_exact_mut(self.row()).for_each(|row| row[byte] |= 1 << (u % 8));
    }

    /// Thread t and its write to x can use nothing older there; else the write can use what the thread can.
    fn own(&self, place: &mut [u8], threads: usize, t: usize, newest: usize, x: usize) {
        let (row, length) = (threads + t * self.row(), self.row());
        place[row + SET * x..][..SET].fill(0);
        place.copy_within(row..row + length, newest + x * length);
    }

    /// Only thread t knows its write to x, and what it knows is known to that write.
    fn make_known(&self, place: &mut [u8], t: usize, x: usize) {
        let (thread, access) = (self.known_to_thread + SET * t, self.known_to_access + SET * x);
        let known = set(place, thread) | set(place, access) | 1 << x;
        let sets = &mut place[self.known_to_thread..self.readable_by_thread];
        sets.chunks_exact_mut(SET).for_each(|set| set[x / 8] &= !(1 << (x % 8)));
        put(place, thread, known);
        put(place, self.known_to_newest + SET * x, known);
        put(place, access, known);
    }
}
