//! The two checkers that are measured, each behind one function.

use answer::EightNumbers;

/// A checker: it gets program, table, trace and index, and answers with the numbers of the exported function.
pub type Checker = fn(&[u8], &mut [u8], &mut [u8], &mut [u64]) -> EightNumbers;

/// The proved checker.
pub fn proved(program: &[u8], table: &mut [u8], trace: &mut [u8], index: &mut [u64]) -> EightNumbers {
    order_check::numbers_indexed(program, table, trace, index)
}

/// The plain checker, which allocates an index of its own.
pub fn plain(program: &[u8], table: &mut [u8], trace: &mut [u8], _index: &mut [u64]) -> EightNumbers {
    plain::check(program, table, trace).numbers()
}
