//! Witnesses that need bits 8 to 15 of sets of locations.
#![forbid(unsafe_code)]

mod cases;

use second::check;

#[test]
fn each_report_is_the_one_worked_out_by_hand() {
    for case in cases::all() {
        assert_eq!(check(&case.bytes, 1_000_000, 8_192).to_string(), case.report, "{}", case.name);
    }
}
