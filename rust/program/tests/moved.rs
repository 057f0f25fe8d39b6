//! Programs at other locations.
#![forbid(unsafe_code)]

use program::Operand::Constant;
use program::{Line, Program};

#[test]
fn a_program_is_moved_to_other_locations() {
    // A jump and a local line have none.
    let lines = |x, y| {
        let (a, b) = (Constant(0), Constant(1));
        vec![
            Line::Read { reg: 0, location: x },
            Line::Jump { target: 1, a },
            Line::Sum { reg: 1, a, b },
            Line::Cas { reg: 2, location: y, a, b },
        ]
    };
    let program = |locations, x, y| Program { threads: vec![vec![], lines(x, y)], locations, values: 2 };
    assert_eq!(program(2, 0, 1).moved(16, |location| 15 - 6 * location), program(16, 15, 9));
}
