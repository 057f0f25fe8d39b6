//! From the text of a model to its program: the header, the threads and their labels.

use program::limits::{LINES, LOCATIONS, THREADS, VALUES};
use program::{Line, Program};

use crate::cursor::Cursor;
use crate::hints;
use crate::instruction::{Instruction, Scope};
use crate::lexer::Piece;
use crate::mistake::Mistake;
use crate::names::Kind;
use crate::source::{Source, Statement};

/// The model that the text is, or its first mistake.
pub fn parse(text: &str) -> Result<Source, Mistake> {
    let mut cursor = Cursor::new(text);
    let mut scope = Scope::default();
    header(&mut cursor, &mut scope).map_err(|mistake| hints::add(mistake, &cursor, &scope))?;
    let (threads, statements) = threads(&mut cursor, &scope)?.into_iter().unzip();
    let locations: Vec<_> = scope.names.of_kind(Kind::Location).into_iter().map(String::from).collect();
    let program = Program { threads, locations: locations.len() as u8, values: scope.values };
    Ok(Source { program, locations, statements })
}

/// `values 2` and `locations x y`, each on its line, with definitions before and after the locations.
fn header<'a>(cursor: &mut Cursor<'a>, scope: &mut Scope<'a>) -> Result<(), Mistake> {
    cursor.skip_empty_lines();
    cursor.expect("values")?;
    let token = cursor.take();
    let expected = || format!("a number from {} to {}", VALUES.start(), VALUES.end());
    scope.values = token.piece.number_in(&VALUES).ok_or_else(|| token.mistake(expected()))?;
    cursor.expect_end_of_line()?;

    definitions(cursor, scope)?;
    cursor.expect("locations")?;
    location(cursor, scope, 0)?;
    let mut count = 1;
    while let Piece::Word(_) = cursor.peek().piece {
        if count == *LOCATIONS.end() {
            return Err(cursor.mistake(format!("the end of the line after {count} locations")));
        }
        location(cursor, scope, count)?;
        count += 1;
    }
    cursor.expect_end_of_line()?;
    definitions(cursor, scope)
}

fn location<'a>(cursor: &mut Cursor<'a>, scope: &mut Scope<'a>, number: u8) -> Result<(), Mistake> {
    let name = scope.names.unused(cursor.take(), Kind::Location)?;
    scope.names.add(name, number);
    Ok(())
}

/// `constants empty = 0 full = 1` and `registers mine = r0`, on as many lines as there are.
fn definitions<'a>(cursor: &mut Cursor<'a>, scope: &mut Scope<'a>) -> Result<(), Mistake> {
    loop {
        cursor.skip_empty_lines();
        let kind = if cursor.take_if("constants") {
            Kind::Constant
        } else if cursor.take_if("registers") {
            Kind::Register
        } else {
            return Ok(());
        };
        definition(cursor, scope, kind)?;
        while let Piece::Word(_) = cursor.peek().piece {
            definition(cursor, scope, kind)?;
        }
        cursor.expect_end_of_line()?;
    }
}

/// `full = 1` or `mine = r0`.
fn definition<'a>(cursor: &mut Cursor<'a>, scope: &mut Scope<'a>, kind: Kind) -> Result<(), Mistake> {
    let name = scope.names.unused(cursor.take(), kind)?;
    cursor.expect("=")?;
    let number = if kind == Kind::Constant { scope.value(cursor)? } else { scope.register(cursor)? };
    scope.names.add(name, number);
    Ok(())
}

/// The lines of a thread, each also as it is written.
type Thread = (Vec<Line>, Vec<Statement>);

/// The threads up to the end of the file, of which there is one at least.
fn threads<'a>(cursor: &mut Cursor<'a>, scope: &Scope<'a>) -> Result<Vec<Thread>, Mistake> {
    let mut threads = Vec::new();
    loop {
        let mut local = scope.clone();
        let equal = equal_threads(cursor, &mut local, threads.len() as u8)
            .map_err(|mistake| hints::add(mistake, cursor, &local))?;
        threads.extend(equal);
        if cursor.peek().piece == Piece::EndOfFile {
            return Ok(threads);
        }
        if threads.len() == usize::from(*THREADS.end()) {
            return Err(cursor.mistake(format!("the end of the file after {} threads", THREADS.end())));
        }
    }
}

/// `thread`, or `thread * 3` for three equal threads, on a line of its own, and then the thread. So many were there
/// before.
fn equal_threads<'a>(
    cursor: &mut Cursor<'a>,
    scope: &mut Scope<'a>,
    before: u8,
) -> Result<Vec<Thread>, Mistake> {
    cursor.expect("thread")?;
    let mut count = 1;
    if cursor.take_if("*") {
        let (token, most) = (cursor.take(), *THREADS.end());
        let expected = || format!("a number from 1 to {}, for at most {most} threads in all", most - before);
        count = token.piece.number_in(&(1..=most - before)).ok_or_else(|| token.mistake(expected()))?;
    }
    cursor.expect_end_of_line()?;
    definitions(cursor, scope)?;
    let thread = thread(cursor, scope)?;
    Ok(vec![thread; count.into()])
}

/// The lines up to the next `thread` or the end of the file.
fn thread<'a>(cursor: &mut Cursor<'a>, scope: &mut Scope<'a>) -> Result<Thread, Mistake> {
    let (mut instructions, mut statements) = (Vec::new(), Vec::new());
    loop {
        cursor.skip_empty_lines();
        if matches!(cursor.peek().piece, Piece::Word("thread") | Piece::EndOfFile) {
            let lines: Result<_, _> =
                instructions.iter().map(|instruction| resolve(instruction, scope)).collect();
            return Ok((lines?, statements));
        }
        while cursor.at_label() {
            let name = scope.names.unused(cursor.take(), Kind::Label)?;
            cursor.expect(":")?;
            scope.names.add(name, instructions.len() as u8);
        }
        if !matches!(cursor.peek().piece, Piece::EndOfLine | Piece::EndOfFile) {
            if instructions.len() == usize::from(*LINES.end()) {
                return Err(cursor.mistake(format!("the end of the thread after {} lines", LINES.end())));
            }
            statements.push(cursor.statement());
            instructions.push(scope.instruction(cursor)?);
        }
        cursor.expect_end_of_line()?;
    }
}

/// The line, with the label of a jump replaced by the line that it names.
fn resolve(instruction: &Instruction, scope: &Scope) -> Result<Line, Mistake> {
    match *instruction {
        Instruction::Line(line) => Ok(line),
        Instruction::Jump { a, label } => match scope.names.find(Kind::Label, label.piece) {
            Some(target) => Ok(Line::Jump { target, a }),
            None => Err(label.mistake(scope.a_label())),
        },
    }
}
