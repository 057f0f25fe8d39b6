//! What the checkers need for a program: time, and stack.

use std::time::Duration;

use crate::checkers::{plain, proved};
use crate::families::{Family, Size};
use crate::lent::{fitting, Lent};
use crate::stack::used;
use crate::successors::Successors;

/// Short runs are repeated until those of the first kind took this long together, and the shortest counts.
const ENOUGH: Duration = Duration::from_millis(500);

/// But so often at most.
const MOST_RUNS: usize = 50;

/// What was measured of a program.
pub struct Measured {
    /// How many situations it has.
    pub situations: usize,
    /// How many bytes its places have.
    pub place: usize,
    /// The plain checker's time.
    pub plain: Duration,
    /// The proved checker's time.
    pub proved: Duration,
    /// The steps from its situations.
    pub successors: Successors,
}

/// Measures both checkers on a program, in turns, so that what else the machine does meets both.
///
/// # Panics
///
/// Where a checker doesn't find it robust with the situations that its size names, or the two leave different bytes.
pub fn measure(family: &Family, size: &Size) -> Measured {
    let mut lent = Lent::new(family, size);
    let mut index = vec![0; fitting(size)];
    lent.run(plain, &mut index);
    let expected = lent.table.clone();
    let [plain, proved] = shortest(size, |turn| {
        index.fill(0);
        let time = lent.run([plain, proved][turn], &mut index);
        assert!(lent.table == expected, "{}, {:?}: the tables differ", family.name, size.rounds);
        time
    });
    let successors = Successors::of(&lent.program, &expected);
    Measured { situations: size.situations, place: lent.place, plain, proved, successors }
}

/// The shortest times of two kinds of runs, which take turns.
pub fn shortest(size: &Size, mut run: impl FnMut(usize) -> Duration) -> [Duration; 2] {
    let mut times = [Vec::new(), Vec::new()];
    while !is_enough(&times[0], size) {
        times.iter_mut().enumerate().for_each(|(turn, times)| times.push(run(turn)));
    }
    times.map(|times| times.into_iter().min().expect("a run"))
}

/// Whether these are runs enough: five at least, and three of the largest programs.
fn is_enough(times: &[Duration], size: &Size) -> bool {
    let least = if size.situations < 500_000 { 5 } else { 3 };
    let took: Duration = times.iter().sum();
    times.len() >= least && (took >= ENOUGH || times.len() >= MOST_RUNS)
}

/// In programs of so many situations the index grows.
const GROWS: usize = 3_000;

/// How many bytes of stack the proved checker uses for the smallest program of a family in which the index grows, also
/// among as many locations as there may be. By its machine code the frames have fixed sizes and no function calls itself, so that
/// larger programs need no more.
pub fn stack(family: &Family) -> usize {
    let size = family.sizes.iter().find(|size| size.situations >= GROWS).expect("families grow");
    let lent = Lent::new(family, size);
    let mut index = vec![0; fitting(size)];
    let mut stack_of = |mut lent: Lent| {
        used(|| {
            lent.call(proved, &mut index);
        })
    };
    stack_of(lent.at_last_locations()).max(stack_of(lent))
}
