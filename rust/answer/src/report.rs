//! What the checker reports.

use crate::kind::Kind;

/// The answer to a program in a lent table. Later versions may have further ones, and none of those says RB.
#[non_exhaustive]
#[derive(Clone, Copy, Debug, PartialEq, Eq)]
pub enum Report {
    /// RB: the program is robust. Every release/acquire run of it, of any length, ends in thread states and an
    /// execution graph that some SC run reaches too; and the timestamp machine, by which the board's maker documents
    /// its cores, reaches exactly the thread states that SC runs reach. The trace is unchanged.
    Robust {
        /// How many situations the program has; each has its place in the table.
        count: usize,
    },
    /// NR: the program is not robust. The trace starts with the steps of an SC run, [`Step::BYTES`] bytes each, which
    /// [`steps_in`] reads; its other bytes are unchanged. After these steps the next line of `thread` may go by a write
    /// that is no longer the newest, and no SC run builds the graph that it leaves.
    ///
    /// [`Step::BYTES`]: crate::Step::BYTES
    /// [`steps_in`]: crate::steps_in
    NotRobust {
        /// How many places are written. The last one is where the run ends.
        count: usize,
        /// How many steps the run has. Four times as many bytes of the trace are written.
        steps: usize,
        /// The lowest thread, from 1, that has a witness there, which is such an access.
        thread: usize,
        /// What kind of access it is.
        kind: Kind,
        /// The location of the access: a named one, never that of the fences.
        location: usize,
        /// The smallest value of an older write that it may read, or may come directly after.
        value: u8,
    },
    /// 11, printed as FU: undecided, for want of places. All are written, none shows the program not to be robust, and
    /// it has more situations: a larger table may decide. The trace is unchanged.
    Full {
        /// How many places are written: as many as the table has.
        count: usize,
    },
    /// 10: the program is not robust, but the trace is too short for the steps of the run, and unchanged. The table is
    /// written as for [`Report::NotRobust`]. Its text, `NO 10`, looks like that of a refusal.
    Short {
        /// Exactly the bytes that the trace needs. To see the run, call again with as many, or more, and a table as long
        /// as before: the report is [`Report::NotRobust`]. Every shorter trace gets this report, with this length.
        wanted: usize,
    },
    /// The bytes are no program. All that was lent is unchanged.
    Refused {
        /// The first check that failed, 1 to 9 or 12, as docs/FORMAT.md at the root of the repository lists them.
        number: u8,
    },
}

impl Report {
    /// The refusal by a check of the reader; nothing for a number that none of them has. 10 and 11 are asked after the
    /// search.
    pub(crate) fn refused(number: u8) -> Option<Report> {
        matches!(number, 1..=9 | 12).then_some(Report::Refused { number })
    }
}
