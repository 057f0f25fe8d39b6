//! Where what stands there is nearly right, a hint says what was meant; elsewhere there is none.
#![forbid(unsafe_code)]

mod accesses;
mod from_c;
mod headers;
mod values;

use models::assemble;

/// The hint for the first mistake of a text, which has one.
#[track_caller]
fn hint(text: &str) -> Option<String> {
    match assemble(text.as_bytes()) {
        Ok(bytes) => panic!("{text}\nwas assembled to {bytes:?}"),
        Err(mistake) => mistake.hint,
    }
}

/// The hint for a line among 3 values, locations x, flag and counter, constant full, register mine and label again.
#[track_caller]
fn line(line: &str) -> Option<String> {
    let header = "values 3\nlocations x flag counter\nconstants full = 1\nregisters mine = r0\n";
    hint(&format!("{header}thread\nagain:\n{line}\n"))
}

#[track_caller]
fn lines(expected: &str, of: &[&str]) {
    for text in of {
        assert_eq!(line(text).as_deref(), Some(expected), "{text}");
    }
}

#[track_caller]
fn headers(expected: &str, of: &[&str]) {
    for text in of {
        assert_eq!(hint(text).as_deref(), Some(expected), "{text}");
    }
}

/// The lines that stand in quotes in a hint, all of which assemble with free registers.
#[track_caller]
fn offered(line: &str) -> Vec<String> {
    let hint = self::line(line).unwrap();
    let hint = hint.replace("rN", "r2").replace("rM", "r3");
    let quoted: Vec<String> = hint.split('\'').skip(1).step_by(2).map(String::from).collect();
    for line in &quoted {
        let text = format!("values 3\nlocations x f\nregisters mine = r0\nthread\n{line}\n");
        assert!(assemble(text.as_bytes()).is_ok(), "{line}");
    }
    quoted
}

/// The hint for a change of x in place by so much.
fn three(a: &str) -> String {
    format!(
        "write 'rN := x', 'rN := rN + {a}' and 'x := rN', on three lines; \
         if it is one atomic step, 'rN := FADD(x, {a})', where rN is a free register"
    )
}

#[test]
fn a_hint_stands_on_a_second_line() {
    let mistake = assemble(b"values 2\nlocations x\nthread\n  x = 1\n").unwrap_err();
    assert_eq!(mistake.to_string(), "4:5: expected ':=', found '='\n  hint: ':=' assigns, '=' compares");
    let mistake = assemble(b"values 2\nlocations x\nthread\n  x\n").unwrap_err();
    assert_eq!(mistake.to_string(), "4:4: expected ':=', found the end of the line");
}

#[test]
fn comparisons_of_other_languages() {
    lines("a comparison has one '='", &["r0 := r1 == 2", "wait(x == 1)", "again2: mine := 1 == full"]);
    lines("':=' assigns, '=' compares", &["x = 1", "r0 = x", "mine == 1"]);
    lines("there is no '<=': for a <= b write 'r0 := b < a', then 'r0 := r0 = 0'", &["r0 := r1 <= 2"]);
    lines("there is no '>=': for a >= b write 'r0 := a < b', then 'r0 := r0 = 0'", &["r0 := r1 >= 2"]);
    lines("there is no '>': for a > b write 'r0 := b < a'", &["r0 := r1 > 2"]);
    lines("there is no '!=': for a != b write 'r0 := a = b', then 'r0 := r0 = 0'", &["r0 := r1 != 2"]);
    lines(
        "there is no '!=': for a != b write 'mine := a = b', then 'mine := mine = 0'",
        &["mine := 1 != full"],
    );
    lines("there is no '>': for a > b write 'rN := b < a', where rN is a free register", &["x := r1 > 2"]);
    lines(
        "there is no '>=': for a >= b write 'rN := a < b', then 'rN := rN = 0', where rN is a free register",
        &["x := r1 >= 2"],
    );
    lines(
        "a wait is for one value; where several will do, write a loop: read, compare, jump back",
        &[
            "wait(x != 0)",
            "wait(x < 2)",
            "again2: wait(x <= 1)",
            "wait(x > 0)",
            "wait(x >= full)",
            "wait(x ! 1)",
        ],
    );
    lines(
        "compare in a line of its own: 'rN := r0 = 2', then 'if rN goto ..', where rN is a free register",
        &["if r0 = 1 goto again", "if mine == 1 goto again", "if r0 != 1 goto again", "if r0 < 2 goto again"],
    );
    lines(
        "'if' takes a value or a register, without brackets",
        &["if (r0 == 1) goto again", "if (r0) goto again"],
    );
}

#[test]
fn the_ends_of_lines() {
    lines(
        "a line ends without ';', and only one stands on a line",
        &["x := 1;", "x := 1; flag := 1", "r0 := x;"],
    );
    lines(
        "a comment starts with #",
        &["x := 1 // why", "-- why", "// why", "r0 := x /* why */", "/* why */"],
    );
    headers("a comment starts with #", &["--r0\n"]);
}

#[test]
fn words_that_are_nearly_right() {
    lines("did you mean 'CAS'?", &["r0 := cas(x, 0, 1)", "cas(x, 0 -> 1)", "r0 := Cas(x, 0 -> 1)"]);
    lines("did you mean 'FADD'?", &["r0 := fadd(x, 1)", "r0 := FAD(x, 1)"]);
    lines("did you mean 'wait'?", &["Wait(x = 1)", "wiat(x = 1)"]);
    lines("did you mean 'thread'?", &["x := 1\nThread", "x := 1\ntread", "x := 1\nthreads"]);
    lines("did you mean 'flag'?", &["r0 := falg", "Flag := 1", "wait(flags = 1)", "r0 := CAS(flg, 0 -> 1)"]);
    lines("did you mean 'counter'?", &["r0 := coutner", "cuonetr := 1", "r0 := conuter"]);
    lines("did you mean 'x'?", &["X := 1", "r0 := X"]);
    lines("did you mean 'full'?", &["x := ful", "if Full goto again"]);
    lines("did you mean 'mine'?", &["mien := 1"]);
    lines("did you mean 'again'?", &["goto agian", "if r0 goto Again", "goto agai"]);
    lines("the registers are r0 to r3", &["r4 := 1", "x := r17", "r0 := r1 + r4", "r0 := r00"]);
    headers("did you mean 'values'?", &["value 2\n", "Values 2\n"]);
    headers("did you mean 'locations'?", &["values 2\nlocation x\n", "values 2\nlocatoins x\n"]);
    headers("did you mean 'constants'?", &["values 2\nlocations x\nconstant a = 1\n"]);
}

#[test]
fn where_nothing_is_nearly_right_there_is_no_hint() {
    for text in [
        "r0 := z",
        "z := 1",
        "x",
        "x :=",
        "x := 1 2",
        "x := 1 flga",
        "x := 1 Thread",
        "r0 := x @",
        "@",
        "goto 3",
        "goto flag",
        "goto end",
        "if r0 x",
        "wait x = 1",
        "wait(x = 1",
        "r0 := FADD(x)",
        "r0 := CAS(x, 0 - 1)",
        "again: x := 1",
        "r9:",
        "mine: x := 1",
        "fort",
        "cow := 1",
        "r0 := r0 - 0",
        "r0 := r0 - 3",
        "r0 := FADD(x, 1 -> 2)",
        "values 2",
        "x / 1",
        "r0 := FADD(x, -3)",
        "r1 := 1 --",
        "r0 := r1--",
        "x += flag",
        "x += 3",
        "x -= r1",
        "x -= 3",
        "z++",
        "++z",
        "wait(r0)",
        "r0 := FADD(r0, 1)",
        "r0 := FADD(x + 1)",
        "x += r1 + 1",
        "r0 := !z",
        "r0 := ! 1",
        "thread * 3 4",
        // These may be weaker than an atomic step that both reads and writes.
        "r0 := ADD(x, 1)",
        "r0 := add(x, 1)",
        "r0 := XADD(x, 1)",
        "r0 := CASA(x, 0 -> 1)",
        "r0 := casl(x, 0 -> 1)",
    ] {
        assert_eq!(line(text), None, "{text}");
    }
    for text in [
        "",
        "thread\n",
        "values\n",
        "values = 2\n",
        "values 17\n",
        "values 2 3\n",
        "values 2\nlocations x goto\n",
        "values 2\nlocations x r17\n",
        "values 2\nlocations x\nconstants y = x\n",
        "values 2\nlocations flag flag\n",
        "values 2\nlocations x\nregisters y = 7\n",
        "values 2\nlocations {x}\n",
        "values {\n",
        "values -1\n",
        "++r0\n",
        "while (1) {\n",
        "values 2\nfence\n",
    ] {
        assert_eq!(hint(text), None, "{text}");
    }
}

#[test]
fn two_names_that_are_equally_near_get_no_hint() {
    let text = |name: &str| format!("values 2\nlocations lock1 lock2\nthread\nr0 := {name}\n");
    assert_eq!(hint(&text("lock3")), None);
    assert_eq!(hint(&text("Lock1")).as_deref(), Some("did you mean 'lock1'?"));
    assert_eq!(hint(&text("lokc1")).as_deref(), Some("did you mean 'lock1'?"));
}

#[test]
fn very_long_words_are_not_compared() {
    let name = "n".repeat(300_000);
    let text = format!("values 2\nlocations {name}\nthread\nr0 := {name}m\n");
    assert_eq!(hint(&text), None);
}

#[test]
fn very_long_names_are_not_repeated() {
    let text = |name: &str| format!("values 2\nlocations {name}\nthread\n{name} := {name} + 1\n");
    assert!(hint(&text(&"n".repeat(50))).is_some());
    assert_eq!(hint(&text(&"n".repeat(3_000))), None);
}
