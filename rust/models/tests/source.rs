//! The names and lines of a model's text.
#![forbid(unsafe_code)]

use models::{assemble, Source, Statement};

fn statement(line: usize, text: &str) -> Statement {
    Statement { line, text: text.into() }
}

#[test]
fn a_line_is_known_by_its_place_and_its_words() {
    let text = "# comment\nvalues 2\nlocations flag_1 y\n\nthread\n  again: flag_1  :=  1   # why\n\
        end:\nthread\nthread\n\n\ta: b:\n  r0 := y#c\n  if r0 goto a";
    let source = Source::of_text(text.as_bytes()).unwrap();
    assert_eq!(source.locations, ["flag_1", "y"]);
    let last = vec![statement(12, "r0 := y"), statement(13, "if r0 goto a")];
    assert_eq!(source.statements, [vec![statement(6, "flag_1  :=  1")], vec![], last]);
    assert_eq!(program::encode(&source.program), assemble(text.as_bytes()).unwrap());
}

/// No location of the text has its name.
#[test]
fn the_location_of_the_fences_comes_after_the_others() {
    let names = |lines: &str| {
        let source = Source::of_text(format!("values 2\nlocations x y\nthread\n{lines}").as_bytes()).unwrap();
        assert_eq!(source.locations, ["x", "y"]);
        let all: Vec<Option<String>> = (0..4).map(|it| source.name(it).map(String::from)).collect();
        assert_eq!(all.iter().flatten().collect::<Vec<_>>(), source.names().collect::<Vec<_>>());
        (all, [0, 1, 2, 3].map(|location| source.is_fence(location)))
    };
    let [x, y, fence] = ["x", "y", "fence"].map(|name| Some(name.into()));
    assert_eq!(names("x := 1\n"), (vec![x.clone(), y.clone(), None, None], [false; 4]));
    assert_eq!(names("goto end\nfence\nend:\n"), (vec![x, y, fence, None], [false, false, true, false]));
}

#[test]
fn bytes_are_known_by_their_disassembly() {
    let bytes = b"PR\x01\x02\x02TH\x02IN\x05\x00\x01\x01\x00IN\x04\x00\x00\x01\x00";
    let source = Source::of_bytes(bytes).unwrap();
    assert_eq!(source.locations, ["x", "y"]);
    assert_eq!(source.statements, [[statement(5, "y := 1"), statement(6, "if 1 goto L0")]]);
    assert_eq!(program::encode(&source.program), bytes);
    assert_eq!(Source::of_bytes(b"PR").map(|source| source.locations), Err(1));
}
