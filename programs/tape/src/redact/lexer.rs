//! The words and literals of SQL.

use super::literal::{blank_len, Quotes};
use std::ops::Range;

/// A lexeme of SQL.
#[derive(Clone, Debug, PartialEq, Eq)]
pub enum Lexeme {
    Word(Range<usize>),
    /// The inside of a name in double quotes.
    Name(Range<usize>),
    /// The inside of a string. One that goes on after a new line is one lexeme.
    Text(Range<usize>, Quotes),
    Number(Range<usize>),
    /// Anything else but space and comments, by its first byte.
    Mark(u8),
}

/// The lexemes of a text, from its front on.
pub struct Lexer<'s> {
    sql: &'s [u8],
    at: usize,
    /// The quotes of a string without a letter before it.
    plain: Quotes,
}

impl<'s> Lexer<'s> {
    /// Reads SQL in which plain strings are of this kind: they have escapes where `standard_conforming_strings` is off.
    pub fn new(sql: &'s [u8], plain: Quotes) -> Lexer<'s> {
        Lexer { sql, at: 0, plain }
    }

    fn rest(&self) -> &'s [u8] {
        self.sql.get(self.at..).unwrap_or_default()
    }

    /// Goes on while bytes are of a kind, and gives where they are.
    fn run(&mut self, is_one: impl Fn(u8) -> bool) -> Range<usize> {
        let start = self.at;
        self.at += self.rest().iter().take_while(|it| is_one(**it)).count();
        start..self.at
    }

    /// Goes on after some bytes, or to the end where they aren't there. Gives what stands before them.
    fn until(&mut self, end: &[u8]) -> Range<usize> {
        let start = self.at;
        let found = self.rest().windows(end.len()).position(|it| it == end);
        let stop = found.map_or(self.sql.len(), |it| start + it);
        self.at = found.map_or(stop, |_| stop + end.len());
        start..stop
    }

    /// A string whose first quote stands there.
    fn string(&mut self, at: usize, quotes: Quotes) -> Lexeme {
        self.at = at + 1;
        let start = self.at;
        loop {
            match self.rest() {
                [] => return Lexeme::Text(start..self.sql.len(), quotes),
                [b'\\', _, ..] if quotes == Quotes::Escapes => self.at += 2,
                [b'\'', b'\'', ..] => self.at += 2,
                [b'\'', after @ ..] => {
                    self.at += 1;
                    match continuation(after) {
                        Some(len) => self.at += len,
                        None => return Lexeme::Text(start..self.at - 1, quotes),
                    }
                }
                _ => self.at += 1,
            }
        }
    }

    /// A name whose first quote stands there.
    fn name(&mut self, at: usize) -> Lexeme {
        self.at = at + 1;
        Lexeme::Name(self.until(b"\""))
    }

    /// A word, or the string or the name whose prefix it is.
    fn word(&mut self) -> Lexeme {
        let range = self.run(is_of_word);
        match (&self.sql[range.clone()], self.rest()) {
            (b"e" | b"E", [b'\'', ..]) => self.string(range.end, Quotes::Escapes),
            (b"n" | b"N" | b"b" | b"B" | b"x" | b"X", [b'\'', ..]) => {
                self.string(range.end, self.plain)
            }
            (b"u" | b"U", [b'&', b'\'', ..]) => self.string(range.end + 1, Quotes::Unicode),
            (b"u" | b"U", [b'&', b'"', ..]) => self.name(range.end + 1),
            _ => Lexeme::Word(range),
        }
    }

    /// The tag of a dollar quote at the front, with its dollars.
    fn tag(&self) -> Option<&'s [u8]> {
        let rest = self.rest();
        let len =
            1 + rest.get(1..)?.iter().take_while(|it| is_of_word(**it) && **it != b'$').count();
        let is_quote = rest.get(len) == Some(&b'$') && !rest[1].is_ascii_digit();
        rest.get(..len + 1).filter(|_| is_quote)
    }

    /// A text in dollar quotes, or a parameter.
    fn dollar(&mut self) -> Lexeme {
        match self.tag() {
            Some(tag) => {
                self.at += tag.len();
                Lexeme::Text(self.until(tag), Quotes::Dollars)
            }
            None => {
                self.at += 1;
                self.run(|it| it.is_ascii_digit());
                Lexeme::Mark(b'$')
            }
        }
    }

    /// Goes on after a comment, which may have others inside.
    fn comment(&mut self) {
        let mut depth = 0_usize;
        while let Some([first, rest @ ..]) = self.sql.get(self.at..) {
            let (step, now) = match (first, rest.first()) {
                (b'/', Some(b'*')) => (2, depth + 1),
                (b'*', Some(b'/')) => (2, depth - 1),
                _ => (1, depth),
            };
            self.at += step;
            depth = now;
            if depth == 0 {
                return;
            }
        }
    }

    /// The lexeme at the front, where one begins there.
    fn lexeme(&mut self) -> Option<Lexeme> {
        let rest = self.rest();
        match rest {
            [b'\'', ..] => return Some(self.string(self.at, self.plain)),
            [b'"', ..] => return Some(self.name(self.at)),
            [b'-', b'-', ..] => drop(self.until(b"\n")),
            [b'/', b'*', ..] => self.comment(),
            [b'$', ..] => return Some(self.dollar()),
            [first, ..] if first.is_ascii_digit() => {
                return Some(Lexeme::Number(self.run(|it| it.is_ascii_digit() || it == b'.')));
            }
            [first, ..] if is_of_word(*first) => return Some(self.word()),
            _ => {
                self.at += 1;
                return rest
                    .first()
                    .filter(|it| !it.is_ascii_whitespace())
                    .map(|it| Lexeme::Mark(*it));
            }
        }
        None
    }
}

/// Whether a byte may be in a word.
pub fn is_of_word(byte: u8) -> bool {
    byte.is_ascii_alphanumeric() || matches!(byte, b'_' | b'$' | 0x80..)
}

/// How many bytes lead from the end of a string to the inside of its next part, where it goes on after a new line.
fn continuation(after: &[u8]) -> Option<usize> {
    let len = blank_len(after);
    let goes_on = after.get(len) == Some(&b'\'') && after[..len].contains(&b'\n');
    Some(len + 1).filter(|_| goes_on)
}

impl Iterator for Lexer<'_> {
    type Item = Lexeme;

    fn next(&mut self) -> Option<Lexeme> {
        while self.at < self.sql.len() {
            if let Some(lexeme) = self.lexeme() {
                return Some(lexeme);
            }
        }
        None
    }
}
