//! The text form of programs: `assemble` turns a model into program bytes, `disassemble` turns them back.
//! `models/README.md` at the root of the repository describes the text form.
//!
//! Only `disassemble` uses the reader of `program`; what `assemble` writes is tested against that reader.
#![forbid(unsafe_code)]

pub mod collection;
mod cursor;
mod disassemble;
mod hints;
mod instruction;
mod lexer;
mod mistake;
mod names;
mod nearest;
mod parser;
mod source;
mod text;

pub use disassemble::disassemble;
pub use mistake::{Mistake, Place};
pub use source::{Source, Statement};
pub use text::is_hidden;

/// The program bytes of a model, or its first mistake.
pub fn assemble(text: &[u8]) -> Result<Vec<u8>, Mistake> {
    Ok(program::encode(&Source::of_text(text)?.program))
}
