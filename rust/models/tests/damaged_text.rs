//! Texts that are almost a model: whatever the assembler accepts the reader accepts, and it never breaks down.
#![forbid(unsafe_code)]

use models::{assemble, disassemble};
use program::encode;
use random::{program, Numbers, Shape};

/// What stands in models, and some things that do not.
const SCRAPS: &[&str] = &[
    "x",
    "y",
    "q",
    "r0",
    "r3",
    "r4",
    "0",
    "1",
    "2",
    "17",
    "256",
    ":=",
    ":",
    "=",
    "+",
    "<",
    "->",
    "(",
    ")",
    ",",
    "\n",
    "\n\n",
    "#",
    "if",
    "goto",
    "L0",
    "L1",
    "L0:",
    "\nthread\n",
    "wait",
    "CAS",
    "BCAS",
    "FADD",
    "values",
    "locations",
    "*",
    "\nthread * 2\n",
    "\nconstants a = 1\n",
    "\nregisters b = r1\n",
    "a",
    "b",
    "cas",
    "thraed",
    "++",
    "--",
    "!",
    "-",
    "0x1",
    "{",
    "while",
    "fence",
    "load(",
    "\t",
    "é",
    "@",
    "\r",
    "\u{2028}",
    "\u{feff}",
];

/// Removes, doubles, moves or replaces a piece of the text, where pieces stand between blanks.
fn damage(numbers: &mut Numbers, text: &str) -> String {
    let mut pieces: Vec<&str> = text.split_inclusive([' ', '\n']).collect();
    loop {
        let place = numbers.below(pieces.len());
        match numbers.below(4) {
            0 if pieces.len() > 1 => drop(pieces.remove(place)),
            1 => pieces.insert(place, pieces[place]),
            2 => pieces.swap(place, 0),
            _ => pieces[place] = numbers.pick(SCRAPS),
        }
        if !numbers.once_in(3) {
            return pieces.concat();
        }
    }
}

#[test]
fn a_damaged_text_is_accepted_by_the_reader_or_has_a_mistake_in_it() {
    let mut numbers = Numbers::new(5);
    let (mut accepted, mut refused) = (0, 0);
    for _ in 0..20_000 {
        let text = disassemble(&encode(&program(&mut numbers, &Shape::small()))).unwrap();
        let text = damage(&mut numbers, &text);
        match assemble(text.as_bytes()) {
            Ok(bytes) => {
                assert!(program::read(&bytes).is_ok(), "{text}");
                accepted += 1;
            }
            Err(mistake) => {
                let line = text.split('\n').nth(mistake.place.line - 1);
                let length = line.unwrap_or_else(|| panic!("{mistake} in\n{text}")).chars().count();
                assert!((1..=length + 1).contains(&mistake.place.column), "{mistake} in\n{text}");
                refused += 1;
            }
        }
    }
    assert!(accepted > 1_000 && refused > 10_000, "{accepted} accepted, {refused} refused");
}

#[test]
fn any_bytes_have_a_mistake_in_them() {
    let mut numbers = Numbers::new(6);
    for _ in 0..2_000 {
        let bytes = random::noise(&mut numbers, 40);
        assert!(assemble(&bytes).is_err(), "{bytes:?}");
    }
}
