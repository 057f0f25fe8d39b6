//! Values, numbers and sums.

use models::assemble;

use crate::{headers, lines};

#[test]
fn values_that_are_too_large() {
    lines("the value 3 takes 'values 4' or more", &["x := 3", "r0 := 3", "r0 := r0 + 3", "wait(x = 3)"]);
    lines("the value 15 takes 'values 16' or more", &["r0 := CAS(x, 15 -> 1)", "if 15 goto again"]);
    lines(
        "the largest value is 15, with 'values 16'",
        &["x := 16", "x := 255", "x := 256", "x := 99999999999"],
    );
    headers("the value 3 takes 'values 4' or more", &["values 3\nconstants a = 3\n"]);
    lines("sums wrap: with 'values 3', '+ 2' takes 1 away", &["r0 := r0 - 1", "r0 := full - 1"]);
    lines("sums wrap: with 'values 3', '+ 1' takes 2 away", &["r0 := r0 -2"]);
}

#[test]
fn numbers_of_c() {
    let wraps = "sums wrap: with 'values 3', '+ 2' takes 1 away";
    lines(wraps, &["r0 := r1 + -1", "r0 := FADD(x, -1)"]);
    let none = "no value is negative";
    lines(none, &["x := -1", "r0 := -1", "wait(x = -1)", "r0 := CAS(x, 0 -> -1)", "BCAS(x, -1 -> 0)"]);
    lines(none, &["r0 := r1 = -1", "if -1 goto again"]);
    headers(none, &["values 2\nconstants a = -1\n"]);
    let decimal = "numbers are written in decimal";
    lines(
        decimal,
        &["x := 0x1", "r0 := r1 + 0X01", "wait(x = 0b1)", "r0 := CAS(x, 0 -> 0x0F)", "if 0x1 goto again"],
    );
    headers(
        decimal,
        &["values 0x2\n", "values 2\nconstants a = 0x1 b = 0\n", "values 2\nlocations x\nthread * 0x2\n"],
    );
}

#[test]
fn a_number_in_another_base_is_one_piece() {
    let message = |line: &str| {
        let text = format!("values 2\nlocations x y\nthread\n{line}\n");
        assemble(text.as_bytes()).unwrap_err().to_string()
    };
    assert!(message("x := 0x1")
        .starts_with("4:6: expected a value from 0 to 1 or a register (r0 to r3), found '0x1'"));
    // A 0 and a name.
    assert_eq!(message("x := 0x"), "4:7: expected the end of the line, found 'x'");
    assert_eq!(message("x := 0y1"), "4:7: expected the end of the line, found 'y1'");
    assert_eq!(message("x := 0b2"), "4:7: expected the end of the line, found 'b2'");
}

#[test]
fn one_sum_stands_on_a_line() {
    let next =
        |line: &str| format!("one sum or comparison stands on a line: go on with '{line}' on the next");
    lines(&next("r0 := r0 + r3"), &["r0 := r1 + r2 + r3"]);
    lines(&next("r1 := r1 + 2"), &["r1 := r1 + full + 2 + 1"]);
    lines(&next("mine := mine = 2"), &["mine := r1 + 1 = 2"]);
    lines(&next("r1 := r1 < mine"), &["r1 := r2 + 1 < mine"]);
    // The register that is added was changed by the first sum; a sum after a comparison would come before it in C.
    let one = "one sum or comparison stands on a line";
    lines(one, &["r0 := r1 + r2 + r0", "mine := r1 + r2 + r0", "r0 := r1 = r2 + 1", "r0 := 0 < r1 < 2"]);
    lines(one, &["r0 := r1 + r2 = r3 + 1"]);
    lines(one, &["r0 := r1 + r2 - 1", "r0 := r1 + 1 + x", "r0 := r1 + 1 + 3", "r0 := r1 + 1 +"]);
}
