//! The Rattle reader and the second reader give the same number or the same program.

use compare::reader::difference;
use models::collection::{self, Model};
use program::{encode, read};
use random::{damage, noise, program, with_fences, Numbers, Shape};

fn models() -> Vec<Model> {
    let models = collection::load(&collection::directory()).unwrap();
    assert!(models.len() >= 12, "only {} models", models.len());
    models
}

#[track_caller]
fn same(bytes: &[u8]) {
    if let Some(difference) = difference(bytes) {
        panic!("{difference}\nof the bytes {bytes:?}");
    }
}

/// The same on inputs of a seed. Of these each number of `numbers` must be the answer to at least 20, where 0 stands
/// for accepted ones.
#[track_caller]
fn same_on(seed: u64, inputs: usize, numbers: &[u8], make: impl Fn(&mut Numbers) -> Vec<u8>) {
    let mut row = Numbers::new(seed);
    let mut answers = [0; 13];
    for _ in 0..inputs {
        let bytes = make(&mut row);
        same(&bytes);
        answers[usize::from(read(&bytes).err().unwrap_or(0))] += 1;
    }
    for &number in numbers {
        assert!(answers[usize::from(number)] >= 20, "answer {number} is too rare in {answers:?}");
    }
}

const ALL: &[u8] = &[0, 1, 2, 3, 4, 5, 6, 7, 8, 9];

#[test]
fn on_every_model() {
    models().iter().for_each(|model| same(&model.bytes));
}

#[test]
fn on_every_change_of_one_byte_of_a_model() {
    for mut bytes in models().into_iter().map(|model| model.bytes) {
        for place in 0..bytes.len() {
            let old = bytes[place];
            for new in 0..=255 {
                bytes[place] = new;
                same(&bytes);
            }
            bytes[place] = old;
        }
    }
}

#[test]
fn on_every_cut_of_a_model() {
    for model in models() {
        for length in 0..model.bytes.len() {
            same(&model.bytes[..length]);
        }
    }
}

#[test]
fn on_every_byte_after_a_model() {
    for model in models() {
        for byte in 0..=255 {
            same(&[model.bytes.as_slice(), &[byte]].concat());
        }
    }
}

#[test]
fn on_random_programs() {
    same_on(1, 4_000, &[0], |numbers| encode(&program(numbers, &Shape::any())));
    same_on(2, 6_000, &[0], |numbers| encode(&program(numbers, &Shape::small())));
}

#[test]
fn on_every_op_beside_every_number_of_locations() {
    for (op, locations) in (0..=255).flat_map(|op| (0..=17).map(move |locations| (op, locations))) {
        let line = |fields: [u8; 4]| {
            same(&[b"PR\x01".as_slice(), &[locations, 2], b"TH\x01IN", &[op], &fields].concat());
        };
        line([0; 4]);
        for field in 0..4 {
            for value in [1, 2, 3, 4, 14, 15, 16, 127, 128, 131, 132, 255] {
                let mut fields = [0; 4];
                fields[field] = value;
                line(fields);
            }
        }
    }
}

/// A few lines beside fourteen to sixteen locations, with a fence.
fn fenced(numbers: &mut Numbers) -> Vec<u8> {
    let drawn = program(numbers, &Shape { locations: 14..=16, lines: 0..=6, ..Shape::any() });
    encode(&with_fences(numbers, drawn))
}

#[test]
fn on_fences_beside_fourteen_to_sixteen_locations() {
    same_on(6, 3_000, &[0, 12], fenced);
    same_on(7, 10_000, &[0, 1, 2, 3, 4, 5, 6, 7, 8, 9, 12], |numbers| {
        let mut bytes = fenced(numbers);
        damage(numbers, &mut bytes);
        bytes
    });
}

#[test]
fn on_damaged_programs() {
    let damaged = |numbers: &mut Numbers, shape: &Shape| {
        let mut bytes = encode(&program(numbers, shape));
        damage(numbers, &mut bytes);
        bytes
    };
    same_on(3, 15_000, ALL, |numbers| damaged(numbers, &Shape::small()));
    same_on(4, 5_000, &[0, 3, 5, 6, 7, 8, 9], |numbers| damaged(numbers, &Shape::any()));
}

#[test]
fn on_noise() {
    same_on(5, 10_000, &[1, 2, 3], |numbers| noise(numbers, 60));
}
