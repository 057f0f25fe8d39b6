//! The families are what the benchmark takes them for.
#![forbid(unsafe_code)]

use answer::Report;
use bench::checkers::{plain, proved, Checker};
use bench::families::{Family, Size, ALL};
use program::{read, Program};
use second::{Ending, Search};

/// Larger programs are searched by the benchmark only, which holds them to the same.
const LARGEST: usize = 150_000;

/// The second one goes by graphs.
const LARGEST_FOR_SECOND: usize = 600;

/// Every program up to so many situations.
fn programs(largest: usize) -> impl Iterator<Item = (&'static Family, &'static Size)> {
    let sizes = |family: &'static Family| family.sizes.iter().map(move |size| (family, size));
    ALL.iter().flat_map(sizes).filter(move |(_, size)| size.situations <= largest)
}

/// The table after the search, in which the program has to be robust with the situations of its size.
fn robust(checker: Checker, family: &Family, size: &Size) -> Vec<u8> {
    let bytes = family.program(size);
    let program = read(&bytes).unwrap();
    let place = program.place_size();
    let mut table = vec![0; place * size.situations];
    let answer = checker(&bytes, &mut table, &mut [], &mut vec![0; 2 * size.situations]);
    let expected = Report::Robust { count: size.situations }.numbers();
    assert_eq!(answer, expected, "{}, {:?}\n{}", family.name, size.rounds, family.text(size));
    table
}

#[test]
fn programs_are_robust_and_as_large_as_they_say_and_both_checkers_leave_the_same_table() {
    for (family, size) in programs(LARGEST) {
        let same = robust(plain, family, size) == robust(proved, family, size);
        assert!(same, "{}, {:?}", family.name, size.rounds);
    }
}

#[test]
fn the_second_checker_says_so_too() {
    for (family, size) in programs(LARGEST_FOR_SECOND) {
        let search = Search::new(&read(&family.program(size)).unwrap(), size.situations);
        assert_eq!((search.ending, search.places.len()), (Ending::Whole, size.situations), "{}", family.name);
    }
}

#[test]
fn a_fence_takes_the_place_of_the_update() {
    let [updates, fences] = ["fenced-", "fence-"].map(|name| {
        let is_one = move |family: &&Family| family.name.starts_with(name);
        ALL.iter().filter(is_one).collect::<Vec<_>>()
    });
    assert_eq!((updates.len(), fences.len()), (3, 3));
    let fenced: Vec<&str> = ALL.iter().filter(|it| it.has_fences()).map(|it| it.name).collect();
    assert_eq!(fenced, ["fence-2", "fence-3", "fence-4"]);
    for (update, fence) in updates.into_iter().zip(fences) {
        for (size, same) in update.sizes.iter().zip(fence.sizes) {
            let [update, fence] = [update.program(size), fence.program(same)].map(|it| read(&it).unwrap());
            assert_eq!(update.place_size(), fence.place_size());
            let accessed = |program: &Program| -> Vec<Option<u8>> {
                program.threads.iter().flatten().map(|&line| program.accessed(line)).collect()
            };
            assert_eq!(accessed(&update), accessed(&fence));
        }
    }
}

#[test]
fn each_family_has_small_programs() {
    for family in ALL {
        let small: Vec<usize> = family.sizes.iter().take(2).map(|size| size.situations).collect();
        assert!((8..15).contains(&small[0]) && (25..50).contains(&small[1]), "{}: {small:?}", family.name);
    }
}

#[test]
fn places_of_a_family_have_one_size_and_programs_grow() {
    for family in ALL {
        let shape =
            |size| read(&family.program(size)).map(|it| (it.threads.len(), it.locations, it.has_fence()));
        assert!(family.sizes.iter().all(|size| shape(size) == shape(&family.sizes[0])), "{}", family.name);
        assert!(family.sizes.is_sorted_by(|less, more| less.situations < more.situations), "{}", family.name);
        assert_eq!(ALL.iter().filter(|other| other.name == family.name).count(), 1, "{}", family.name);
    }
}
