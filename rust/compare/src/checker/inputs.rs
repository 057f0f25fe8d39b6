//! Which programs and lengths are compared.

use std::fmt::{self, Display, Formatter};

use models::disassemble;
use program::Program;
use random::{program, scattered, Numbers, Shape};
use second::{Answer, Ending, Kind, Report, Step};

use super::difference::difference;
use super::expected::{Expected, Lengths};

/// The search of a random program ends at so many places: without an index the proved one compares each with all before
/// it. The models have up to some 30,000.
const PLACES: usize = 200;

/// A random program for the comparison. One in four is scattered among more than eight locations, and about half have a
/// fence.
pub fn random_program(numbers: &mut Numbers) -> Program {
    let shape = Shape::mixed(numbers);
    let drawn = program(numbers, &shape);
    if numbers.once_in(4) {
        scattered(numbers, drawn)
    } else {
        drawn
    }
}

/// Several lengths at which something changes for a program: places that just suffice or just don't, none, some, and
/// more than enough; where the trace is written, all those of [`trace_lengths`].
pub fn lengths(numbers: &mut Numbers, expected: &Expected) -> Vec<Lengths> {
    let size = expected.place_size();
    let Some(search) = expected.search() else {
        return vec![Lengths { table: 100, trace: 10 }, Lengths { table: 0, trace: 0 }];
    };
    let found = search.places.len();
    let just = found * size;
    let steps = search.steps_to(found).len();
    let whole = Step::BYTES * steps;
    // Where the search was cut short, more places would find more.
    let spare = if search.ending == Ending::Full { size - 1 } else { 3 * size + 5 };
    let some = numbers.below(found + 1) * size + numbers.below(size);
    let mut all = vec![
        Lengths { table: just, trace: whole },
        Lengths { table: just - 1, trace: whole },
        Lengths { table: just + numbers.below(spare + 1), trace: whole + 1 + numbers.below(9) },
        Lengths { table: some.min(just), trace: 0 },
        Lengths { table: numbers.below(size), trace: numbers.below(5) },
    ];
    if let Ending::Witness(_) = search.ending {
        let traces = trace_lengths(numbers, steps);
        all.extend(traces.map(|trace| Lengths { table: just + numbers.below(spare + 1), trace }));
    }
    all
}

/// Lengths of a trace for so many steps: four bytes for each, a byte less, one to three more, a byte for each, some
/// more, which do not suffice either, and none.
pub fn trace_lengths(numbers: &mut Numbers, steps: usize) -> [usize; 8] {
    let whole = Step::BYTES * steps;
    let some = steps + numbers.below((whole - steps).max(1));
    [whole, whole.saturating_sub(1), whole + 1, whole + 2, whole + 3, steps, some, 0]
}

/// How many lengths of an index there are, no more than twice the lengths of a table.
const INDEXES: usize = 8;

/// Lengths of an index for so many places: none, one that takes no place, one that takes three, one that never grows,
/// one that grows twice, one that takes some or all, one that has room for more, and one of which some slots are not
/// even used. The last two make a long search fast.
pub fn index_lengths(numbers: &mut Numbers, places: usize) -> [usize; INDEXES] {
    let some = numbers.below(2 * places + 1);
    let all = 2 * places + 1 + numbers.below(100);
    let more = 8 * places + 2_000 + numbers.below(100);
    [0, 1, 7, 1_000, 5_000, some, all, more]
}

/// How often each answer was compared.
#[derive(Clone, Copy, Debug, Default, PartialEq, Eq)]
pub struct Tally {
    /// Programs compared.
    pub programs: usize,
    /// Those with more than eight locations that are not robust.
    pub not_robust_above_8: usize,
    /// Those with a fence.
    pub fenced: usize,
    /// Those with a fence that are not robust.
    pub not_robust_fenced: usize,
    /// RB
    pub robust: usize,
    /// NR
    pub not_robust: usize,
    /// FU
    pub full: usize,
    /// 10
    pub short_trace: usize,
    /// 1 to 9, and 12
    pub refused: usize,
    /// 12
    pub fence_refused: usize,
    /// Places compared, once for each time that they were due.
    pub places: usize,
    /// Steps compared in the same way, by their kinds: L, R, W, M.
    pub steps: [usize; 4],
    /// Calls with an index, and indexes compared.
    pub indexed: usize,
}

impl Display for Tally {
    fn fmt(&self, to: &mut Formatter) -> fmt::Result {
        let Tally { programs, not_robust_above_8, places, steps: [l, r, w, m], indexed, .. } = self;
        let Tally { fenced, not_robust_fenced, fence_refused, .. } = self;
        let Tally { robust, not_robust, full, short_trace, refused, .. } = self;
        write!(to, "{programs} programs, {places} places, {indexed} indexes; ")?;
        write!(to, "not robust with more than 8 locations: {not_robust_above_8} programs; ")?;
        write!(to, "with a fence: {fenced}, of which {not_robust_fenced} are not robust; ")?;
        write!(to, "answers: RB {robust}, NR {not_robust}, FU {full}, 10 {short_trace}, ")?;
        write!(to, "refused {refused}, of these by 12 {fence_refused}; ")?;
        write!(to, "steps: L {l}, R {r}, W {w}, M {m}")
    }
}

impl Tally {
    fn note(&mut self, report: &Report) {
        self.places += report.places.len();
        for step in &report.steps {
            self.steps[match step.access.map(|access| access.kind) {
                None => 0,
                Some(Kind::Read) => 1,
                Some(Kind::Write) => 2,
                Some(Kind::Update) => 3,
            }] += 1;
        }
        *match report.answer {
            Answer::Robust { .. } => &mut self.robust,
            Answer::NotRobust { .. } => &mut self.not_robust,
            Answer::Full { .. } => &mut self.full,
            Answer::ShortTrace { .. } => &mut self.short_trace,
            Answer::Refused { .. } => &mut self.refused,
        } += 1;
        self.fence_refused += usize::from(report.answer == Answer::Refused { number: 12 });
    }
}

/// Compares the two checkers on program bytes with several lengths, or says how they differ. Each table and trace comes
/// with two lengths of an index, so that a program meets all; what is refused at once is compared with each of them.
pub fn compare_program(bytes: &[u8], numbers: &mut Numbers, tally: &mut Tally) -> Result<(), String> {
    let expected = Expected::new(bytes, PLACES);
    let is_refused = expected.search().is_none();
    let start = numbers.below(INDEXES / 2);
    tally.programs += 1;
    tally.not_robust_above_8 += usize::from(expected.sizes().1 > 8 && expected.is_not_robust());
    tally.fenced += usize::from(expected.has_fence());
    tally.not_robust_fenced += usize::from(expected.has_fence() && expected.is_not_robust());
    for (turn, lengths) in lengths(numbers, &expected).into_iter().enumerate() {
        let all = index_lengths(numbers, expected.places());
        let two = 2 * ((start + turn) % (INDEXES / 2));
        let indexes = if is_refused { &all[..] } else { &all[two..][..2] };
        if let Some(difference) = difference(bytes, &expected, lengths, indexes, numbers) {
            let text = disassemble(bytes).unwrap_or_else(|number| format!("refused by check {number}"));
            return Err(format!("{difference}\nwith {lengths:?} for {bytes:?}\n{text}"));
        }
        tally.note(&expected.report(lengths));
        tally.indexed += indexes.len();
    }
    Ok(())
}
