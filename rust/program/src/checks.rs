//! The checks of documents 01 and 02 in words.

/// What a check asks of the bytes, as docs/FORMAT.md lists them.
pub fn what_check_asks(number: u8) -> &'static str {
    match number {
        1 => "the input must start with a whole PR record",
        2 => "T must be 1 to 8, L 1 to 16 and K 2 to 16",
        3 => "the record that is due must stand there, whole and with its mark",
        4 => "a thread must have at most 64 lines",
        5 => "the op must be 1 to 11",
        6 => "a used register must be 0 to 3, and every unused field 0",
        7 => "a used target must be in range",
        8 => "each used operand must be in range",
        9 => "the input must end after the last record",
        12 => "a program with op 11, a fence, must have an L of at most 15",
        _ => "which is one of a later version",
    }
}
