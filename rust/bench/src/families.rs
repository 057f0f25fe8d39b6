//! Families of robust programs, each from a few situations to about a million.

mod counters;
mod locks;
mod messages;
mod sizes;

use program::read;

pub use sizes::ALL;

/// Programs of one kind. They have the same threads and locations, so that their places have the same size.
pub struct Family {
    /// Its name, with the number of threads.
    pub name: &'static str,
    /// Its programs, the smallest first.
    pub sizes: &'static [Size],
    /// The text of the program in which each thread takes so many rounds.
    text: fn(&[usize]) -> String,
}

/// The size of a program: how many rounds each thread takes. Small programs of many threads have some that take none.
pub struct Size {
    /// Rounds of each thread.
    pub rounds: &'static [usize],
    /// How many situations the program has.
    pub situations: usize,
}

impl Family {
    /// The text of the program of a size.
    pub fn text(&self, size: &Size) -> String {
        (self.text)(size.rounds)
    }

    /// Whether its programs have fences. What is measured of those that have none is compared with what was measured
    /// when no program had any.
    pub fn has_fences(&self) -> bool {
        self.sizes.first().is_some_and(|size| read(&self.program(size)).is_ok_and(|it| it.has_fence()))
    }

    /// The bytes of the program of a size.
    pub fn program(&self, size: &Size) -> Vec<u8> {
        let text = self.text(size);
        models::assemble(text.as_bytes()).unwrap_or_else(|mistake| panic!("{}:{mistake}\n{text}", self.name))
    }
}
