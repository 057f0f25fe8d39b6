//! Why a model is not robust.

use answer::Report;
use explain::{Checked, Explanation};
use order_check::{check_in, Lent};
use program::{encode, Program};

use crate::decide::Decided;
use crate::input::Input;

/// The table of a quick check of a changed model, in bytes.
const QUICK: usize = 16 << 20;

/// The explanation of a report NR; nothing for another report.
pub fn explanation(input: &Input, decided: &Decided) -> Result<Option<Explanation>, String> {
    let (Some(source), Report::NotRobust { .. }) = (&input.source, decided.report) else {
        return Ok(None);
    };
    let explained = Explanation::of(source, &decided.report, &decided.steps, &mut quick_check)
        .map_err(|why| format!("{}: the report can't be explained: {why}", input.name))?;
    Ok(Some(if input.is_text { explained } else { explained.of_disassembly() }))
}

/// What the proved checker says of a changed model.
fn quick_check(program: &Program) -> Checked {
    let bytes = encode(program);
    match check_in(&bytes, Lent::with_table(&bytes, QUICK)) {
        Ok(checked) => match checked.report {
            Report::Robust { .. } => Checked::Robust,
            report @ Report::NotRobust { .. } => Checked::NotRobust { report, steps: checked.steps },
            _ => Checked::Undecided,
        },
        Err(_) => Checked::Undecided,
    }
}
