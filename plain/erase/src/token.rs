//! The tokens of a source.

use crate::Refusal;
use std::ops::Range;

/// What a token is.
#[derive(Clone, Copy, Debug, PartialEq, Eq)]
pub(crate) enum Kind {
    Word,
    Number,
    /// A string or a character.
    Literal,
    Lifetime,
    /// One character, or one of `::`, `->` and `=>`.
    Mark,
    Open,
    Close,
}

/// A token, with its place in the source.
#[derive(Clone, Copy, Debug)]
pub(crate) struct Token<'a> {
    pub kind: Kind,
    pub text: &'a str,
    pub at: usize,
    /// Where the comments begin that stand right above the token, or the token where none do.
    pub leads: usize,
    /// The index of the bracket that closes this one.
    pub close: usize,
}

impl Token<'_> {
    pub fn end(&self) -> usize {
        self.at + self.text.len()
    }
}

const LONG_MARKS: [&str; 3] = ["::", "->", "=>"];

/// The tokens of a source without its comments. Brackets must match.
pub(crate) fn tokens(source: &str) -> Result<Vec<Token<'_>>, Refusal> {
    tokens_and_docs(source).map(|(tokens, _)| tokens)
}

/// The tokens, and the places of doc comments.
pub(crate) fn tokens_and_docs(
    source: &str,
) -> Result<(Vec<Token<'_>>, Vec<Range<usize>>), Refusal> {
    let (mut scan, mut at) = (Scan { source, ..Scan::default() }, 0);
    while at < source.len() {
        let rest = &source[at..];
        at += if rest.starts_with(char::is_whitespace) {
            scan.space(rest)
        } else if rest.starts_with("//") || rest.starts_with("/*") {
            scan.comment(at)?
        } else {
            scan.token(at)?
        };
    }
    match scan.opened.pop() {
        Some(open) => scan.refuse(scan.tokens[open].at, "a bracket that nothing closes"),
        None => Ok((scan.tokens, scan.docs)),
    }
}

/// What was found up to a place.
#[derive(Default)]
struct Scan<'a> {
    source: &'a str,
    tokens: Vec<Token<'a>>,
    docs: Vec<Range<usize>>,
    /// Brackets that aren't closed yet.
    opened: Vec<usize>,
    /// Where the comments begin that stand right above what comes next.
    leads: Option<usize>,
}

impl<'a> Scan<'a> {
    fn refuse<T>(&self, at: usize, why: &str) -> Result<T, Refusal> {
        Err(Refusal::at(self.source, at, why))
    }

    /// The length of the space at the front. Comments above a blank line lead nothing.
    fn space(&mut self, rest: &str) -> usize {
        let len = rest.len() - rest.trim_start().len();
        if rest[..len].matches('\n').count() > 1 {
            self.leads = None;
        }
        len
    }

    fn comment(&mut self, at: usize) -> Result<usize, Refusal> {
        let rest = &self.source[at..];
        let after_code =
            self.tokens.last().is_some_and(|last| !self.source[last.end()..at].contains('\n'));
        let leads_nothing = rest.starts_with("//!") || after_code;
        self.leads = if leads_nothing { None } else { self.leads.or(Some(at)) };
        let Some(len) = comment(rest) else {
            return self.refuse(at, "a comment without an end");
        };
        if rest.starts_with("///") || rest.starts_with("//!") {
            self.docs.push(at..at + len);
        }
        Ok(len)
    }

    fn token(&mut self, at: usize) -> Result<usize, Refusal> {
        let rest = &self.source[at..];
        let Some((kind, len)) = token(rest) else {
            return self.refuse(at, "a literal without an end");
        };
        let (text, index) = (&rest[..len], self.tokens.len());
        match kind {
            Kind::Open => self.opened.push(index),
            Kind::Close => self.close(at, text)?,
            _ => {}
        }
        let leads = self.leads.take().unwrap_or(at);
        self.tokens.push(Token { kind, text, at, leads, close: index });
        Ok(len)
    }

    /// Notes in the bracket that was opened last that this one closes it.
    fn close(&mut self, at: usize, text: &str) -> Result<(), Refusal> {
        let Some(open) = self.opened.pop() else {
            return self.refuse(at, "a bracket that closes none");
        };
        if !matches!((self.tokens[open].text, text), ("(", ")") | ("[", "]") | ("{", "}")) {
            return self.refuse(at, "a bracket that closes another kind");
        }
        self.tokens[open].close = self.tokens.len();
        Ok(())
    }
}

/// The length of the comment at the front.
fn comment(rest: &str) -> Option<usize> {
    if rest.starts_with("//") {
        return Some(rest.find('\n').unwrap_or(rest.len()));
    }
    let (mut depth, mut at) = (0, 0);
    loop {
        let here = &rest[at..];
        match here.as_bytes() {
            [b'/', b'*', ..] => (depth, at) = (depth + 1, at + 2),
            [b'*', b'/', ..] => (depth, at) = (depth - 1, at + 2),
            _ => at += here.chars().next()?.len_utf8(),
        }
        if depth == 0 {
            return Some(at);
        }
    }
}

/// The token at the front, which is no comment and no space.
fn token(rest: &str) -> Option<(Kind, usize)> {
    if let Some(len) = literal(rest)? {
        return Some((Kind::Literal, len));
    }
    let first = rest.chars().next()?;
    Some(match first {
        '\'' => (Kind::Lifetime, 1 + word(&rest[1..])),
        '(' | '[' | '{' => (Kind::Open, 1),
        ')' | ']' | '}' => (Kind::Close, 1),
        _ if first.is_ascii_digit() => (Kind::Number, number(rest)),
        _ if word(rest) > 0 => (Kind::Word, word(rest)),
        _ => match LONG_MARKS.iter().any(|mark| rest.starts_with(mark)) {
            true => (Kind::Mark, 2),
            false => (Kind::Mark, first.len_utf8()),
        },
    })
}

/// The length of the word at the front, 0 where there is none. In a contract a word may have primes.
fn word(rest: &str) -> usize {
    let is_first = |c: char| c == '_' || c.is_alphabetic();
    if !rest.starts_with(is_first) {
        return 0;
    }
    rest.find(|c: char| !is_first(c) && !c.is_numeric() && c != '\'').unwrap_or(rest.len())
}

/// The length of the number at the front. A dot belongs to it where a digit follows.
fn number(rest: &str) -> usize {
    let digits = |from: usize| {
        let is_part = |c: char| c == '_' || c.is_ascii_alphanumeric();
        rest[from..].find(|c| !is_part(c)).map_or(rest.len(), |len| from + len)
    };
    let end = digits(0);
    match rest.as_bytes().get(end..end + 2) {
        Some([b'.', digit]) if digit.is_ascii_digit() => digits(end + 1),
        _ => end,
    }
}

/// The length of the string or character at the front: `Some(None)` where there is neither.
fn literal(rest: &str) -> Option<Option<usize>> {
    let prefix = ["br", "b", "r", ""].into_iter().find(|prefix| {
        let after = rest.strip_prefix(prefix).unwrap_or_default();
        after.starts_with('"') || after.starts_with('\'') || prefix.ends_with('r') && is_raw(after)
    });
    let Some(prefix) = prefix else { return Some(None) };
    let after = &rest[prefix.len()..];
    if prefix.ends_with('r') {
        let marks = after.len() - after.trim_start_matches('#').len();
        let close = format!("\"{}", "#".repeat(marks));
        let inner = after[marks..].strip_prefix('"')?;
        return Some(Some(rest.len() - inner.len() + inner.find(&close)? + close.len()));
    }
    if after.starts_with('\'') {
        return Some(character(after).map(|len| prefix.len() + len));
    }
    quoted(after, '"').map(|len| Some(prefix.len() + len))
}

fn is_raw(after: &str) -> bool {
    after.trim_start_matches('#').starts_with('"')
}

/// The length of the character at the front, unless what begins there is a lifetime or a prime.
fn character(rest: &str) -> Option<usize> {
    let mut inner = rest.chars().skip(1);
    match inner.next()? {
        '\\' => quoted(rest, '\''),
        '\'' => None,
        one => (inner.next()? == '\'').then_some(2 + one.len_utf8()),
    }
}

/// The length of what is quoted at the front, with its escapes.
fn quoted(rest: &str, quote: char) -> Option<usize> {
    let mut is_escaped = false;
    for (at, c) in rest.char_indices().skip(1) {
        if is_escaped {
            is_escaped = false;
        } else if c == '\\' {
            is_escaped = true;
        } else if c == quote {
            return Some(at + c.len_utf8());
        }
    }
    None
}

#[cfg(test)]
mod tests {
    use super::*;

    fn texts(source: &str) -> Vec<&str> {
        tokens(source).unwrap().iter().map(|token| token.text).collect()
    }

    #[test]
    fn words_and_marks() {
        assert_eq!(
            texts("a::b -> x.0..=9 1.5"),
            ["a", "::", "b", "->", "x", ".", "0", ".", ".", "=", "9", "1.5"]
        );
    }

    #[test]
    fn literals() {
        assert_eq!(
            texts(r##"b"a\"}" r#"}"# '{' b'\'' '\u{7d}'"##),
            [r#"b"a\"}""#, r##"r#"}"#"##, "'{'", r"b'\''", r"'\u{7d}'"]
        );
    }

    #[test]
    fn lifetimes_and_primes() {
        assert_eq!(texts("&'a x' 'b"), ["&", "'a", "x'", "'b"]);
    }

    #[test]
    fn comments_are_no_tokens() {
        assert_eq!(texts("a // }\n/* { /* } */ */ b"), ["a", "b"]);
    }

    #[test]
    fn comments_lead_what_they_stand_above() {
        let source = "//! doc\n\n// far\n\n/// near\n// too\nx // after\ny";
        let tokens = tokens(source).unwrap();
        assert!(source[tokens[0].leads..].starts_with("/// near"));
        assert!(source[tokens[1].leads..].starts_with('y'));
    }

    #[test]
    fn brackets_match() {
        for source in ["(", ")", "(]", "\"", "/*"] {
            assert!(tokens(source).is_err(), "{source}");
        }
    }
}
