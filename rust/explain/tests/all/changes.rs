//! Fences and read-modify-writes in a program.

use explain::{changed, fence_locations, Change, Changed};
use models::Source;
use program::{Line, Operand, Program};

fn source(text: &str) -> Source {
    Source::of_text(text.as_bytes()).unwrap_or_else(|mistake| panic!("{mistake}"))
}

/// The program of the threads, with two values and these locations.
fn program(locations: &str, threads: &str) -> Program {
    source(&format!("values 2\nlocations {locations}\nthread\n{threads}")).program
}

fn fence(thread: usize, after: usize) -> Change {
    Change::Fence { thread, after, before: after + 1 }
}

fn changed_program(program: &Program, changes: &[Change]) -> Option<Program> {
    changed(program, changes).map(|changed| changed.program)
}

#[test]
fn a_fence_stands_directly_after_its_line() {
    let before = program("x y", "x := 1\nr0 := y\nthread\ny := 1\nr0 := x\n");
    let after = program("x y", "x := 1\nfence\nr0 := y\nthread\ny := 1\nr0 := x\n");
    let Changed { program, lines } = changed(&before, &[fence(0, 0)]).unwrap();
    assert_eq!(program, after);
    assert_eq!(lines, [vec![Some(0), None, Some(1)], vec![Some(0), Some(1)]]);
}

#[test]
fn a_line_gets_one_fence() {
    let before = program("x y", "x := 1\nr0 := y\nthread\ny := 1\nr0 := x\n");
    let after = "x := 1\nfence\nr0 := y\nfence\nthread\ny := 1\nfence\nr0 := x\n";
    let fences = [fence(1, 0), fence(0, 1), fence(0, 0), fence(0, 0)];
    assert_eq!(changed_program(&before, &fences), Some(program("x y", after)));
}

#[test]
fn fences_stand_beside_those_of_the_model() {
    let lines = |fence: &str| format!("x := 1\n{fence}r0 := y\nthread\nfence\nr0 := FADD(f, 0)\n");
    let [before, after] = ["", "fence\n"].map(|fence| program("f x y", &lines(fence)));
    assert_eq!(changed_program(&before, &[fence(0, 0)]), Some(after));
}

#[test]
fn locations_of_older_fences_have_no_other_access() {
    let lines = "x := 1\nr0 := FADD(g, 0)\nBCAS(h, 0 -> 0)\nfence\nthread\nr0 := CAS(g, 0 -> 0)\n";
    assert_eq!(fence_locations(&program("e x g h", lines)), [2, 3]);
}

#[test]
fn a_location_with_any_other_access_is_none_for_fences() {
    for line in [
        "r0 := f",
        "f := 0",
        "r0 := FADD(f, 1)",
        "r0 := FADD(f, r1)",
        "r0 := CAS(f, 0 -> 1)",
        "wait(f = 0)",
        "BCAS(f, 0 -> 1)",
        "BCAS(f, 1 -> 0)",
        "BCAS(f, r0 -> 0)",
    ] {
        let program = program("x f", &format!("x := 1\nr3 := FADD(f, 0)\nthread\n{line}\n"));
        assert_eq!(fence_locations(&program), [], "{line}");
    }
}

#[test]
fn a_jump_goes_where_it_went_and_passes_no_fence_there() {
    let lines = |fences: [&str; 2]| {
        let [first, second] = fences;
        format!(
            "a: x := 1\n{first}b: r0 := x\n{second}c: r1 := r0\n\
             if 1 goto a\nif 1 goto b\nif 1 goto c\nif r1 goto end\nend:\n"
        )
    };
    let before = program("x", &lines(["", ""]));
    let fenced = program("x", &lines(["fence\n"; 2]));
    assert_eq!(changed_program(&before, &[fence(0, 0), fence(0, 1)]), Some(fenced));
    let fenced = program("x", &lines(["", "fence\n"]));
    assert_eq!(changed_program(&before, &[fence(0, 1)]), Some(fenced));
}

#[test]
fn a_fence_takes_no_register() {
    let lines = "x := r3\nr0 := r1 + r2\n";
    let before = program("x", &format!("x := 1\n{lines}"));
    let after = program("x", &format!("x := 1\nfence\n{lines}"));
    assert_eq!(changed_program(&before, &[fence(0, 0)]), Some(after));
}

#[test]
fn there_is_no_room_past_the_limits() {
    let all = ["a", "b", "c", "d", "e", "g", "h", "i", "j", "k", "l", "m", "n", "o", "p", "q"];
    let of = |names: &[&str]| {
        let others: String = names[2..].iter().map(|name| format!("{name} := 1\n")).collect();
        program(&names.join(" "), &format!("a := 1\nr0 := b\n{others}"))
    };
    let fenced = changed_program(&of(&all[..15]), &[fence(0, 0)]).unwrap();
    assert_eq!((fenced.locations, fenced.all_locations(), fenced.threads[0][1]), (15, 16, Line::Fence));
    assert_eq!(changed(&of(&all), &[fence(0, 0)]), None);
    assert!(changed(&of(&all), &[Change::Update { thread: 0, line: 1 }]).is_some());
    let long = |lines: usize| program("x", &("x := 1\n".repeat(lines) + "if r0 goto end\nend:\n"));
    let fenced = changed_program(&long(62), &[fence(0, 3)]).unwrap();
    assert_eq!(fenced.threads[0].len(), 64);
    assert_eq!(fenced.threads[0][63], Line::Jump { target: 64, a: Operand::Register(0) });
    assert_eq!(changed(&long(63), &[fence(0, 3)]), None);
}

#[test]
fn a_read_and_a_wait_become_read_modify_writes() {
    let before = program("x y", "r2 := y\nwait(x = r1)\nwait(y = 1)\n");
    let after = program("x y", "r2 := FADD(y, 0)\nBCAS(x, r1 -> r1)\nBCAS(y, 1 -> 1)\n");
    let updates = [0, 1, 2].map(|line| Change::Update { thread: 0, line });
    let Changed { program, lines } = changed(&before, &updates).unwrap();
    assert_eq!(program, after);
    assert_eq!(lines, [vec![Some(0), Some(1), Some(2)]]);
}

#[test]
fn no_other_line_becomes_a_read_modify_write() {
    for line in ["x := 1", "r0 := CAS(x, 0 -> 1)", "r0 := FADD(x, 1)", "BCAS(x, 0 -> 1)", "r0 := 1", "fence"]
    {
        let program = program("x", &format!("{line}\n"));
        assert_eq!(changed(&program, &[Change::Update { thread: 0, line: 0 }]), None, "{line}");
    }
}

#[test]
fn a_line_that_is_not_there_is_not_changed() {
    let program = program("x", "x := 1\nr0 := x\n");
    for (thread, line) in [(0, 2), (1, 0)] {
        assert_eq!(changed(&program, &[Change::Update { thread, line }]), None);
        assert_eq!(changed(&program, &[fence(thread, line)]), None);
    }
}
