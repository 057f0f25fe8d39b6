//! The header, and where threads start.

use crate::{headers, hint, lines};

#[test]
fn headers_of_other_forms() {
    let commas = "no commas between the names";
    headers(commas, &["values 2\nlocations x, y\n", "values 2\nconstants a = 0, b = 1\n"]);
    headers(commas, &["values 2\nregisters a = r0, b = r1\n"]);
    let start = "every location starts with 0: give 0 the meaning of the value that you start with";
    headers(start, &["values 2\nlocations x = 1\n", "values 2\nlocations x y := 0\n"]);
    headers(start, &["values 2\nlocations x=0, y=0\n"]);
    let early = "definitions stand after 'values'";
    headers(
        early,
        &["constants a = 1\nvalues 2\n", "# first\n  registers a = r0\nvalues 2\n", "constants\n"],
    );
    let late = "definitions stand in the header, or directly after 'thread'";
    lines(late, &["x := 1\nregisters a = r0", "x := 1\nconstants a = 1", "constants a = 1"]);
}

#[test]
fn threads_of_other_forms() {
    let alone = "'thread' stands alone on its line; 'thread * 3' is three equal threads";
    for line in [
        "thread 1",
        "thread producer",
        "thread producer:",
        "thread:",
        "thread {",
        "thread x := 1",
        "thread(a)",
        "thread 0x1",
    ] {
        headers(alone, &[&format!("values 2\nlocations x\n{line}\n")]);
        lines(alone, &[line]);
    }
    lines("a line ends without ';', and only one stands on a line", &["thread;"]);
    lines("a comment starts with #", &["thread // the producer"]);
}

#[test]
fn lines_before_the_first_thread() {
    let header = "values 2\nlocations x flag\nregisters mine = r0\n";
    let first = "a line 'thread' stands before the lines of each thread";
    for line in [
        "x := 1",
        "x = 1",
        "x++",
        "r0 := x",
        "mine := x",
        "z := 1",
        "again:",
        "wait(x = 1)",
        "CAS(x, 0 -> 1)",
        "fence",
    ] {
        headers(first, &[&format!("{header}{line}\nthread\n")]);
    }
    headers("did you mean 'thread'?", &[&format!("{header}Thread:\n"), &format!("{header}tread\n")]);
    for line in ["", "z", "locations y", "values 2"] {
        assert_eq!(hint(&format!("{header}{line}\n")), None, "{line}");
    }
}
