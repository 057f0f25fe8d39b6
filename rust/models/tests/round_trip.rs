//! Assembling, disassembling and assembling again gives the same bytes, and the reader sees the program that was
//! meant.
#![forbid(unsafe_code)]

use models::{assemble, collection, disassemble};
use program::{encode, read};
use random::{damage, program, Numbers, Shape};

/// The bytes are an accepted program, and its text assembles to them.
#[track_caller]
fn goes_round(bytes: &[u8]) {
    let text = disassemble(bytes).unwrap_or_else(|number| panic!("check {number} of {bytes:?}"));
    let again = assemble(text.as_bytes()).unwrap_or_else(|mistake| panic!("{mistake} in\n{text}"));
    assert_eq!(again, bytes, "{text}");
}

#[test]
fn every_model_goes_round() {
    let models = collection::load(&collection::directory()).unwrap();
    assert!(!models.is_empty());
    for model in models {
        goes_round(&model.bytes);
    }
}

#[test]
fn random_programs_go_round_and_are_read_as_they_were_meant() {
    let mut numbers = Numbers::new(20_190_622);
    for shape in [Shape::any(), Shape::small()] {
        for _ in 0..2_500 {
            let program = program(&mut numbers, &shape);
            let bytes = encode(&program);
            assert_eq!(read(&bytes).as_ref(), Ok(&program));
            goes_round(&bytes);
        }
    }
}

#[test]
fn damaged_bytes_go_round_or_get_the_number_of_the_reader() {
    let mut numbers = Numbers::new(40);
    let (mut accepted, mut refused) = (0, 0);
    for _ in 0..10_000 {
        let mut bytes = encode(&program(&mut numbers, &Shape::small()));
        damage(&mut numbers, &mut bytes);
        match read(&bytes) {
            Ok(_) => {
                goes_round(&bytes);
                accepted += 1;
            }
            Err(number) => {
                assert_eq!(disassemble(&bytes), Err(number));
                refused += 1;
            }
        }
    }
    assert!(accepted > 200 && refused > 5_000, "{accepted} accepted, {refused} refused");
}

#[test]
fn the_text_of_a_program_is_laid_out_as_a_model() {
    let text = "\
values 5
locations x y z w v u t s q p n m k j h g
thread
L0:
  r0 := r1 + 4
  r1 := r2 = 3
  r2 := r3 < r0
  if r2 goto L0
  if 1 goto L12
  x := 1
L6:
  r0 := y
  r0 := FADD(z, 1)
  r0 := CAS(w, 0 -> r1)
  if 2 goto L6
  wait(v = 1)
  BCAS(s, r0 -> 1)
L12:
thread
  u := 1
  t := 1
  q := 1
  p := 1
  n := 1
  m := 1
  k := 1
  j := 1
  h := 1
  g := r0
thread
thread
  if r0 goto L1
L1:
";
    let bytes = assemble(text.as_bytes()).unwrap();
    assert_eq!(disassemble(&bytes).as_deref(), Ok(text));
}

#[test]
fn a_fence_is_written_as_one() {
    let text = "values 2\nlocations x\nthread\n  x := 1\n  fence\nthread\n  fence\n";
    let bytes = assemble(text.as_bytes()).unwrap();
    assert_eq!(disassemble(&bytes).as_deref(), Ok(text));
    let fences = [b"PR\x01\x0f\x02TH\x02".as_slice(), &b"IN\x0b\x00\x00\x00\x00".repeat(2)].concat();
    goes_round(&fences);
    let full = [b"PR\x01\x10\x02TH\x02".as_slice(), &fences[8..]].concat();
    assert_eq!(disassemble(&full), Err(12));
}

#[test]
fn an_operand_alone_is_written_out() {
    let bytes = assemble(b"values 2\nlocations flag\nthread\nr0 := 1\nflag := r0\n").unwrap();
    let text = "values 2\nlocations x\nthread\n  r0 := 1 + 0\n  x := r0\n";
    assert_eq!(disassemble(&bytes).as_deref(), Ok(text));
}
