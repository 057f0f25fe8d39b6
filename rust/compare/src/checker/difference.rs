//! Where the library, or the plain checker, answers or writes otherwise than the second program.

use answer::EightNumbers;
use order_check::numbers_indexed;
use random::Numbers;
use second::Report;

use super::expected::{Expected, Lengths};
use super::index::index_after;
use super::lent::Lent;
use super::run::Run;

/// A checker: it gets program, table and trace, and answers with the numbers of the exported function.
type Checker = fn(&[u8], &mut [u8], &mut [u8]) -> EightNumbers;

/// Those that are compared with the second program, each by its name, the proved one first.
const CHECKERS: [(&str, Checker); 2] = [("proved", order_check::numbers), ("plain", plain_numbers)];

fn plain_numbers(program: &[u8], table: &mut [u8], trace: &mut [u8]) -> EightNumbers {
    plain::check(program, table, trace).numbers()
}

/// Where a checker differs with these lengths, if one does: in its answer, in a byte of table or trace, or in a byte
/// beside them. What was lent must not matter: it is called with two fillings of which each is the other's complement,
/// and once more in the memory that a call left, where the table has places already. The proved one is called with
/// indexes of these lengths, too, filled with random numbers, and must leave in them what is due.
pub fn difference(
    bytes: &[u8],
    expected: &Expected,
    lengths: Lengths,
    indexes: &[usize],
    numbers: &mut Numbers,
) -> Option<String> {
    Compared::new(bytes, expected, lengths).difference(Compared::thrice, indexes, numbers)
}

/// The same by one call of each checker, for tables in which a search takes seconds.
pub fn difference_in_one_call(
    bytes: &[u8],
    expected: &Expected,
    lengths: Lengths,
    indexes: &[usize],
    numbers: &mut Numbers,
) -> Option<String> {
    Compared::new(bytes, expected, lengths).difference(Compared::once, indexes, numbers)
}

/// What is lent differs from byte to byte.
fn filling(at: usize) -> u8 {
    (at.wrapping_mul(37).wrapping_add(11) >> 1) as u8
}

/// Program bytes, how much is lent, and what the second program says of them.
struct Compared<'a> {
    bytes: &'a [u8],
    expected: &'a Expected,
    lengths: Lengths,
    report: Report,
}

impl<'a> Compared<'a> {
    fn new(bytes: &'a [u8], expected: &'a Expected, lengths: Lengths) -> Compared<'a> {
        Compared { bytes, expected, lengths, report: expected.report(lengths) }
    }

    /// The difference of the first checker that has one; each is called as `called` says.
    fn difference(
        &self,
        called: fn(&Self, Checker) -> Result<Run, String>,
        indexes: &[usize],
        numbers: &mut Numbers,
    ) -> Option<String> {
        let runs = CHECKERS.map(|(name, checker)| {
            called(self, checker).map_err(|difference| format!("{name}: {difference}"))
        });
        match runs {
            [Ok(proved), Ok(_)] => {
                let prints = proved.prints(&self.report, self.expected);
                indexes.iter().find_map(|&slots| {
                    let difference = self.indexed(&proved, &prints, slots, numbers)?;
                    Some(format!("proved with an index of {slots}: {difference}"))
                })
            }
            [proved, plain] => proved.err().or(plain.err()),
        }
    }

    /// One call.
    fn once(&self, checker: Checker) -> Result<Run, String> {
        let run = Run::filled(|table, trace| checker(self.bytes, table, trace), self.lengths, filling);
        run.difference(&self.report, self.expected).map_or(Ok(run), Err)
    }

    /// Three calls, each with another filling. The first is that of one call.
    fn thrice(&self, checker: Checker) -> Result<Run, String> {
        let first = self.once(checker)?;
        let call = |table: &mut [u8], trace: &mut [u8]| checker(self.bytes, table, trace);
        let others = [Run::filled(call, self.lengths, |at| !filling(at)), first.again(call)];
        let difference = |run: &Run| run.difference_from(&first, &self.report, self.expected);
        others.iter().find_map(difference).map_or(Ok(first), Err)
    }

    /// The difference of a call with an index of so many slots from the first one without.
    fn indexed(&self, first: &Run, prints: &[u32], slots: usize, numbers: &mut Numbers) -> Option<String> {
        let mut index = Lent::filled(slots, |_| numbers.draw());
        let call =
            |table: &mut [u8], trace: &mut [u8]| numbers_indexed(self.bytes, table, trace, index.lend());
        let run = Run::filled(call, self.lengths, filling);
        run.difference_from(first, &self.report, self.expected)
            .or_else(|| self.index_difference(&index, prints))
    }

    /// Where the index is not what is due: as it was where the program is refused, else that of the places, with what
    /// was lent behind the slots in use.
    fn index_difference(&self, index: &Lent<u64>, prints: &[u32]) -> Option<String> {
        let lent = index.before();
        let due = match self.expected.search() {
            Some(_) => index_after(lent, prints),
            None => lent.to_vec(),
        };
        let found = index.front(due.len());
        let wrong = (0..due.len()).find(|&slot| found[slot] != due[slot]);
        let wrong = wrong.map(|slot| format!("slot {slot}: expected {}, found {}", due[slot], found[slot]));
        wrong.or_else(|| Some(format!("slot {} changed", index.changed(due.len())?)))
    }
}
