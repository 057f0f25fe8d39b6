//! Short forms: each assembles to the bytes of the text that it is short for.
#![forbid(unsafe_code)]

use models::{assemble, Source};

#[track_caller]
fn bytes(text: &str) -> Vec<u8> {
    assemble(text.as_bytes()).unwrap_or_else(|mistake| panic!("{mistake}\n{text}"))
}

#[track_caller]
fn equal(short: &str, long: &str) {
    assert_eq!(bytes(short), bytes(long), "{short}");
}

#[track_caller]
fn mistake(text: &str, expected: &str) {
    let mistake = assemble(text.as_bytes()).map(|bytes| panic!("{text}\nwas assembled to {bytes:?}"));
    assert_eq!(mistake.unwrap_err().to_string().lines().next(), Some(expected), "{text}");
}

const HEADER: &str = "values 3\nlocations x y\n";

#[test]
fn equal_threads_are_written_once() {
    let spin = "again:\n r0 := FADD(x, 1)\n if r0 goto again\n";
    let last = "thread\ny := 1\n";
    let long = format!("{HEADER}thread\n{}{last}", [spin; 3].join("thread\n"));
    equal(&format!("{HEADER}thread * 3\n{spin}{last}"), &long);
    equal(&format!("{HEADER}thread*3 # three\n\n{spin}thread * 1\ny := 1\n"), &long);
    equal(&format!("{HEADER}thread * 8\n"), &format!("{HEADER}{}", "thread\n".repeat(8)));
}

#[test]
fn equal_threads_share_the_lines_of_the_text() {
    let text = format!("{HEADER}thread * 2\n  x := 1\nthread\n  y := 1\n");
    let source = Source::of_text(text.as_bytes()).unwrap();
    let lines: Vec<_> =
        source.statements.iter().map(|thread| (thread[0].line, &thread[0].text[..])).collect();
    assert_eq!(lines, [(4, "x := 1"), (4, "x := 1"), (6, "y := 1")]);
    assert_eq!(source.program.threads.len(), 3);
}

#[test]
fn there_are_8_threads_in_all() {
    let at = |threads: &str| format!("{HEADER}{threads}\n");
    mistake(
        &at("thread * 9"),
        "3:10: expected a number from 1 to 8, for at most 8 threads in all, found '9'",
    );
    mistake(
        &at("thread * 6\nthread * 3"),
        "4:10: expected a number from 1 to 2, for at most 8 threads in all, found '3'",
    );
    mistake(
        &at("thread * 0"),
        "3:10: expected a number from 1 to 8, for at most 8 threads in all, found '0'",
    );
    mistake(
        &at("thread *"),
        "3:9: expected a number from 1 to 8, for at most 8 threads in all, found the end of the line",
    );
    mistake(&at("thread * 8\nthread"), "4:1: expected the end of the file after 8 threads, found 'thread'");
    mistake(&at("thread * 2 3"), "3:12: expected the end of the line, found '3'");
    mistake(&at("thread * 2\nz"), &format!("4:1: expected {START}, found 'z'"));
}

const START: &str =
    "a line that starts with a register (r0 to r3), a location (x, y), 'if', 'goto', 'wait', 'BCAS' or 'fence'";

#[test]
fn goto_alone_is_a_jump_that_is_always_taken() {
    let at = |lines: &str| format!("{HEADER}thread\n{lines}\n");
    equal(&at("again: goto again"), &at("again: if 1 goto again"));
    equal(&at("goto end\nx := 1\nend:"), &at("if 1 goto end\nx := 1\nend:"));
}

#[test]
fn a_constant_stands_for_its_value() {
    let lines = "thread\nx := full\nr0 := FADD(y, full)\nr0 := r0 = torn\nwait(y = none)\nif full goto end\n\
        r0 := full < torn\nr1 := CAS(x, full -> none)\nBCAS(x, none -> torn)\nend:\nthread\ny := full\n";
    let long = lines.replace("full", "1").replace("torn", "2").replace("none", "0");
    let names = "constants none = 0 full = 1 torn = 2\n";
    let long = format!("{HEADER}{long}");
    equal(&format!("{HEADER}{names}{lines}"), &long);
    equal(&format!("values 3\n{names}locations x y\n{lines}"), &long);
    let apart = "constants none = 0\n\nconstants full = 1 # one\nlocations x y\nconstants torn=2\n";
    equal(&format!("values 3\n{apart}{lines}"), &long);
    equal(&format!("{HEADER}constants none = 0 full = 1 torn = 2 two = torn\n{lines}"), &long);
}

#[test]
fn a_register_may_have_names() {
    let lines = "thread\nmine := x\nother := mine + mine\nx := other\nif mine goto end\n\
        mine := CAS(y, mine -> other)\nwait(x = mine)\nend:\nthread\nother := 1\n";
    let long = format!("{HEADER}{}", lines.replace("mine", "r0").replace("other", "r3"));
    equal(&format!("{HEADER}registers mine = r0 other = r3\n{lines}"), &long);
    equal(&format!("values 3\nregisters mine = r0\nlocations x y\nregisters other = r3\n{lines}"), &long);
    equal(&format!("{HEADER}registers first = r0 mine = first other = r3\n{lines}"), &long);
}

#[test]
fn a_name_of_a_thread_holds_there_alone() {
    let text = format!(
        "{HEADER}thread\nregisters head = r0\nconstants put = 1\nhead := put\nthread * 2\n\
         registers tail = r0 head = r2\ntail := head\nput: goto put\n"
    );
    let last = "thread\nr0 := r2\nput: goto put\n".repeat(2);
    equal(&text, &format!("{HEADER}thread\nr0 := 1\n{last}"));
    let late = format!("{HEADER}thread\nregisters head = r0\nthread\nhead := 1\n");
    mistake(&late, &format!("6:1: expected {START}, found 'head'"));
}

#[test]
fn a_definition_is_a_new_name_and_what_it_stands_for() {
    let at = |definition: &str| format!("{HEADER}{definition}\nthread\n");
    mistake(&at("constants"), "3:10: expected a name for a constant, found the end of the line");
    mistake(&at("constants full"), "3:15: expected '=', found the end of the line");
    mistake(&at("constants full := 1"), "3:16: expected '=', found ':='");
    mistake(&at("constants full = 3"), "3:18: expected a value from 0 to 2, found '3'");
    mistake(&at("constants a = 1 b = c"), "3:21: expected a value from 0 to 2 (a), found 'c'");
    mistake(&at("constants full = r0"), "3:18: expected a value from 0 to 2, found 'r0'");
    mistake(&at("constants full = 1 2"), "3:20: expected the end of the line, found '2'");
    mistake(&at("registers mine = 0"), "3:18: expected a register (r0 to r3), found '0'");
    mistake(&at("registers a = r1 b = r4"), "3:22: expected a register (r0 to r3, a), found 'r4'");
    let taken = "3:11: expected a name for";
    mistake(
        &at("constants x = 1"),
        &format!("{taken} a constant, found 'x', the name of a location on line 2"),
    );
    mistake(&at("registers r1 = r0"), &format!("{taken} a register, found 'r1', kept for registers"));
    mistake(&at("registers wait = r0"), &format!("{taken} a register, found 'wait', a word of the language"));
    mistake(
        &at("constants a = 1\nregisters a = r0"),
        "4:11: expected a name for a register, found 'a', the name of a constant on line 3",
    );
    mistake(
        "values 2\nregisters x = r0\nlocations x\nthread\n",
        "3:11: expected a name for a location, found 'x', the name of a register on line 2",
    );
    mistake(
        &at("constants a = 1\nthread\na: x := 1"),
        "5:1: expected a name for a label, found 'a', the name of a constant on line 3",
    );
}

#[test]
fn messages_list_the_names_that_could_stand_there() {
    let names = "constants no = 0 yes = 1\nregisters mine = r0\n";
    mistake(
        &format!("{HEADER}{names}thread\nx := z\n"),
        "6:6: expected a value from 0 to 2 (no, yes) or a register (r0 to r3, mine), found 'z'",
    );
}
