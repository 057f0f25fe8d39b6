//! The sizes of places, and how many a table has.
#![forbid(unsafe_code)]

use program::{place_size, places_available};

#[test]
fn a_place_has_the_size_of_document_02() {
    assert_eq!(place_size(2, 2), 65);
    assert_eq!(place_size(1, 1), 29);
    assert_eq!(place_size(8, 8), 617);
    assert_eq!(place_size(8, 16), 1_681);
}

#[test]
fn a_place_has_a_head_of_9_bytes_and_a_situation() {
    for threads in 1..=8 {
        for locations in 1..=16 {
            let (line, registers, value, set) = (1, 4, 1, 2);
            let of_thread = line + registers + set + 2 * set * locations;
            let of_location = value + 2 * set + 2 * set * locations;
            let size = 9 + threads * of_thread + locations * of_location;
            assert_eq!(place_size(threads, locations), size, "T = {threads}, L = {locations}");
        }
    }
}

#[test]
fn a_table_has_the_places_that_fit_into_it() {
    assert_eq!(places_available(65 * 7 - 1, 2, 2), 6);
    assert_eq!(places_available(65 * 7, 2, 2), 7);
    assert_eq!(places_available(usize::MAX, 1, 1), 1_000_000_000);
}
