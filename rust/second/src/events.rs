//! Sets of events and relations between them, as bits. Events are numbers below the size of the graph.

/// A set of events.
#[derive(Clone)]
pub struct Events {
    words: Vec<u64>,
}

impl Events {
    /// No event, of a graph of `size` events.
    pub fn none(size: usize) -> Events {
        Events { words: vec![0; words(size)] }
    }

    pub fn insert(&mut self, event: usize) {
        self.words[event / 64] |= 1 << (event % 64);
    }

    pub fn contains(&self, event: usize) -> bool {
        bit(&self.words, event)
    }

    /// The events of either set.
    pub fn or(mut self, other: &Events) -> Events {
        join(&mut self.words, &other.words);
        self
    }
}

/// A relation between events. For each event it has a row: those that the relation puts before it.
#[derive(Clone)]
pub struct Relation {
    size: usize,
    width: usize,
    rows: Vec<u64>,
}

impl Relation {
    /// The relation of `size` events that relates none.
    pub fn none(size: usize) -> Relation {
        let width = words(size);
        Relation { size, width, rows: vec![0; size * width] }
    }

    /// Puts `a` before `b`.
    pub fn put(&mut self, a: usize, b: usize) {
        self.rows[b * self.width + a / 64] |= 1 << (a % 64);
    }

    /// The closure: `a` before `b` by one step or more.
    ///
    /// Warshall's: after the turn of `middle`, paths through it count.
    pub fn closed(mut self) -> Relation {
        let mut through = vec![0; self.width];
        for middle in 0..self.size {
            through.copy_from_slice(self.row(middle));
            for row in self.rows.chunks_exact_mut(self.width) {
                if bit(row, middle) {
                    join(row, &through);
                }
            }
        }
        self
    }

    /// The events that come before some event of the set.
    pub fn before(&self, events: &Events) -> Events {
        let mut found = Events::none(self.size);
        for event in (0..self.size).filter(|&event| events.contains(event)) {
            join(&mut found.words, self.row(event));
        }
        found
    }

    fn row(&self, event: usize) -> &[u64] {
        &self.rows[event * self.width..][..self.width]
    }
}

fn words(size: usize) -> usize {
    size.div_ceil(64)
}

fn bit(words: &[u64], place: usize) -> bool {
    words[place / 64] >> (place % 64) & 1 == 1
}

fn join(words: &mut [u64], others: &[u64]) {
    for (word, other) in words.iter_mut().zip(others) {
        *word |= other;
    }
}
