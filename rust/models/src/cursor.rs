//! A walk over the tokens of a text that says what it expected where it stops.

use crate::lexer::{tokens, Piece, Token};
use crate::mistake::{Mistake, Place};
use crate::source::Statement;

/// The tokens from the next one on.
pub struct Cursor<'a> {
    text: &'a str,
    tokens: Vec<Token<'a>>,
    next: usize,
}

impl<'a> Cursor<'a> {
    /// At the start of the text.
    pub fn new(text: &'a str) -> Cursor<'a> {
        Cursor { text, tokens: tokens(text), next: 0 }
    }

    /// The next token. After the end of the file comes the end of the file.
    pub fn peek(&self) -> Token<'a> {
        self.tokens[self.next.min(self.tokens.len() - 1)]
    }

    /// The next token, which is passed.
    pub fn take(&mut self) -> Token<'a> {
        let token = self.peek();
        self.next += 1;
        token
    }

    /// Passes the word or sign if it comes next.
    pub fn take_if(&mut self, text: &str) -> bool {
        let comes = matches!(self.peek().piece, Piece::Word(next) | Piece::Sign(next) if next == text);
        if comes {
            self.next += 1;
        }
        comes
    }

    /// Passes the word or sign, which must come next.
    pub fn expect(&mut self, text: &str) -> Result<(), Mistake> {
        if self.take_if(text) {
            Ok(())
        } else {
            Err(self.mistake(format!("'{text}'")))
        }
    }

    /// Passes the end of the line, which must come next; the last line may end with the file.
    pub fn expect_end_of_line(&mut self) -> Result<(), Mistake> {
        match self.peek().piece {
            Piece::EndOfLine => self.next += 1,
            Piece::EndOfFile => {}
            _ => return Err(self.mistake("the end of the line")),
        }
        Ok(())
    }

    /// Passes lines with nothing on them.
    pub fn skip_empty_lines(&mut self) {
        while self.peek().piece == Piece::EndOfLine {
            self.next += 1;
        }
    }

    /// A word and a colon come next.
    pub fn at_label(&self) -> bool {
        let after = self.tokens.get(self.next + 1).map(|token| token.piece);
        matches!(self.peek().piece, Piece::Word(_)) && after == Some(Piece::Sign(":"))
    }

    /// The line of a thread that starts with the next token, as it is written, without a comment and blanks around it.
    pub fn statement(&self) -> Statement {
        let token = self.peek();
        let rest = self.text[token.offset..].split(['\n', '#']).next().unwrap_or_default();
        Statement { line: token.place.line, text: rest.trim_end().into() }
    }

    /// The pieces of the line of a text in which the place is: those before it, and those from it on.
    pub fn line_at(&self, place: Place) -> [Vec<Piece<'a>>; 2] {
        let first = self.tokens.partition_point(|token| token.place.line < place.line);
        let line = self.tokens[first..].iter().take_while(|token| token.place.line == place.line);
        let (before, rest): (Vec<_>, Vec<_>) = line.partition(|token| token.place.column < place.column);
        [before, rest].map(|tokens: Vec<&Token>| tokens.into_iter().map(|token| token.piece).collect())
    }

    /// The mistake that the next token is.
    pub fn mistake(&self, expected: impl Into<String>) -> Mistake {
        self.peek().mistake(expected)
    }
}

impl Token<'_> {
    /// The mistake that the token is where something else was expected.
    pub fn mistake(&self, expected: impl Into<String>) -> Mistake {
        Mistake { place: self.place, expected: expected.into(), found: self.piece.to_string(), hint: None }
    }
}
