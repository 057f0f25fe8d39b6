//! The cases of document 01 as the library answers them, in numbers, with the lent lengths of document 02, Point 3.

use models::collection;
use order_check::numbers;

/// The bytes of a model.
fn model(name: &str) -> Vec<u8> {
    collection::named(name).unwrap().bytes
}

/// The answer with so much lent, as eight numbers, and the trace after it, which was lent with 9s.
fn answer(bytes: &[u8], table: usize, trace: usize) -> ([u64; 8], Vec<u8>) {
    let (mut table, mut trace) = (vec![7; table], vec![9; trace]);
    (numbers(bytes, &mut table, &mut trace), trace)
}

/// The trace of SB: x := 1; read y ‖ y := 1.
const OF_SB: [u8; 12] = [1, 2, 0, 1, 1, 1, 1, 0, 2, 2, 1, 1];

/// The trace of 2+2W: x := 1; y := 2 ‖ y := 1.
const OF_2_2W: [u8; 12] = [1, 2, 0, 1, 1, 2, 1, 2, 2, 2, 1, 1];

const RB: u64 = 0;
const NR: u64 = 1;
const FU: u64 = 2;
const REFUSED: u64 = 3;

#[test]
fn sb() {
    let sb = model("sb");
    for more in 0..=4 {
        let trace = [OF_SB.as_slice(), &vec![9; more]].concat();
        assert_eq!(answer(&sb, 455, 12 + more), ([NR, 0, 7, 3, 2, 1, 0, 0], trace));
        assert_eq!(answer(&sb, 454, 12 + more), ([FU, 11, 6, 0, 0, 0, 0, 0], vec![9; 12 + more]));
    }
    for short in 0..12 {
        assert_eq!(answer(&sb, 455, short), ([REFUSED, 10, 0, 12, 0, 0, 0, 0], vec![9; short]));
    }
}

#[test]
fn mp() {
    assert_eq!(answer(&model("mp"), 845, 1), ([RB, 0, 13, 0, 0, 0, 0, 0], vec![9]));
    assert_eq!(answer(&model("mp"), 844, 1), ([FU, 11, 12, 0, 0, 0, 0, 0], vec![9]));
}

#[test]
fn two_writes_barrier_and_the_empty_thread() {
    assert_eq!(answer(&model("2+2w"), 520, 12), ([NR, 0, 8, 3, 2, 2, 0, 0], OF_2_2W.to_vec()));
    assert_eq!(answer(&model("barrier"), 455, 0).0, [RB, 0, 7, 0, 0, 0, 0, 0]);
    assert_eq!(answer(b"PR\x01\x01\x02TH\x00", 29, 0).0, [RB, 0, 1, 0, 0, 0, 0, 0]);
    assert_eq!(answer(b"PR\x01\x01\x02TH\x00", 28, 0).0, [FU, 11, 0, 0, 0, 0, 0, 0]);
}

#[test]
fn refused_programs_and_their_neighbours() {
    let jump = |target| [b"PR\x01\x01\x02TH\x01IN\x04\x00".as_slice(), &[target], b"\x01\x00"].concat();
    let more = [model("sb").as_slice(), b"\x00"].concat();
    let k_is_1 = b"PR\x01\x01\x01TH\x00".to_vec();
    let locations = |count| [b"PR\x01", [count, 2].as_slice(), b"TH\x00"].concat();
    let write_to = |target| [b"PR\x01\x10\x02TH\x01IN\x05\x00", [target].as_slice(), b"\x01\x00"].concat();
    for (bytes, number) in [
        (vec![], 1),
        (k_is_1, 2),
        (locations(0), 2),
        (locations(17), 2),
        (more, 9),
        (jump(2), 7),
        (write_to(16), 7),
    ] {
        assert_eq!(answer(&bytes, 500, 3), ([REFUSED, number, 0, 0, 0, 0, 0, 0], vec![9; 3]));
    }
    assert_eq!(answer(&jump(1), 500, 0).0, [RB, 0, 2, 0, 0, 0, 0, 0]);
    // Places of one thread and sixteen locations have 1,184 bytes.
    assert_eq!(answer(&locations(16), 1_184, 0).0, [RB, 0, 1, 0, 0, 0, 0, 0]);
    assert_eq!(answer(&write_to(15), 2 * 1_184, 0).0, [RB, 0, 2, 0, 0, 0, 0, 0]);
    assert_eq!(answer(&write_to(15), 2 * 1_184 - 1, 0).0, [FU, 11, 1, 0, 0, 0, 0, 0]);
}
