//! The text of SQL as it is compared: names that it makes or takes stand for what they name, and literals of some kinds
//! are left out.

use super::names::{NameAction, NameEffect, SessionNames};
use super::LiteralKind;
use regex::bytes::{Captures, Regex};
use std::borrow::Cow;
use std::ops::Range;

/// Stands before what isn't text of SQL, in which it can't be.
const MARK: u8 = 0;

/// The parts of a text, as PostgreSQL's lexer has them, but for comments in comments.
const TOKENS: &str = r#"(?x-u)
    (?P<space> \s+ | --[^\n]* | /\*(?s:.*?)\*/ )
  | (?P<text> [eE]'(?:[^'\\]|\\(?s:.)|'')*' | (?:[bBnNxX]|[uU]&)?'(?:[^']|'')*' )
  | (?P<quoted> (?:[uU]&)?"(?:[^"]|"")*" )
  | (?P<dollar> \$(?:[A-Za-z_\x80-\xff][A-Za-z0-9_\x80-\xff]*)?\$ )
  | (?P<parameter> \$[0-9]+ )
  | (?P<number> (?:[0-9]+\.?[0-9]*|\.[0-9]+)(?:[eE][+-]?[0-9]+)? )
  | (?P<word> [A-Za-z_\x80-\xff][A-Za-z0-9_$\x80-\xff]* )
  | (?P<semicolon> ; )
  | (?s:.)
"#;

/// A statement that makes or takes a name, up to that name.
const NAMING: &str = r#"(?xi-u)
  ^ (?:SP)* (?:
      SAVEPOINT (?:SP)+ (?P<savepoint>ID)
    | RELEASE (?:SP)+ (?:SAVEPOINT (?:SP)+)? (?P<release>ID)
    | ROLLBACK (?:(?:SP)+ (?:WORK|TRANSACTION))? (?:SP)+ TO (?:SP)+ (?:SAVEPOINT (?:SP)+)? (?P<back>ID)
    | DECLARE (?:SP)+ (?P<declare>ID)
    | PREPARE (?:SP)+ (?P<prepare>ID)
    | EXECUTE (?:SP)+ (?P<execute>ID)
    | DEALLOCATE (?:SP)+ (?:PREPARE (?:SP)+)? (?P<deallocate>ID)
    | CLOSE (?:SP)+ (?P<close>ID)
    | (?:FETCH|MOVE) (?s:.*?) (?P<fetch>ID) (?:SP)* $
  )
"#;

pub(super) const SPACE: &str = r"\s|--[^\n]*\n|/\*(?s:.*?)\*/";
const IDENTIFIER: &str = r#""(?:[^"]|"")+"|[A-Za-z_\x80-\xff][A-Za-z0-9_$\x80-\xff]*"#;

/// The first words of such statements.
const VERBS: &str =
    r"(?i-u)\b(?:SAVEPOINT|RELEASE|ROLLBACK|DECLARE|PREPARE|EXECUTE|DEALLOCATE|CLOSE|FETCH|MOVE)\b";

/// A pattern of this folder, which is compiled once.
macro_rules! pattern {
    ($text:expr) => {{
        static PATTERN: once_cell::sync::OnceCell<regex::bytes::Regex> =
            once_cell::sync::OnceCell::new();
        PATTERN.get_or_init(|| regex::bytes::Regex::new($text).expect("a pattern of this folder"))
    }};
}
pub(super) use pattern;

pub(super) fn naming() -> &'static Regex {
    pattern!(&NAMING.replace("SP", SPACE).replace("ID", &format!("(?:{IDENTIFIER})")))
}

/// Whether a text begins by undoing a transaction or a part of it.
pub fn is_rollback(text: &[u8]) -> bool {
    pattern!(&r"(?i-u)^(?:SP)*(?:ROLLBACK|ABORT)\b".replace("SP", SPACE)).is_match(text)
}

/// Adds a text as it is compared. What its names do is added to `effects`.
pub fn put(
    out: &mut Vec<u8>,
    text: &[u8],
    literals: &[LiteralKind],
    names: &SessionNames,
    effects: &mut Vec<NameEffect>,
) {
    if literals.is_empty() && !pattern!(VERBS).is_match(text) {
        out.extend_from_slice(text);
        return;
    }
    let mut rest = 0;
    for end in ends_of_statements(text) {
        put_statement(out, &text[rest..end], literals, names, effects);
        rest = end;
    }
    put_statement(out, &text[rest..], literals, names, effects);
}

/// Where the statements of a text end that a semicolon ends.
pub(super) fn ends_of_statements(text: &[u8]) -> Vec<usize> {
    let mut ends = Vec::new();
    for (token, range) in Tokenizer::of(text) {
        if token == TokenKind::Semicolon {
            ends.push(range.end);
        }
    }
    ends
}

#[derive(Clone, Copy, PartialEq, Eq)]
enum TokenKind {
    Text,
    Number,
    Semicolon,
    Other,
}

/// The tokens of a text one by one.
struct Tokenizer<'t> {
    text: &'t [u8],
    at: usize,
}

impl<'t> Tokenizer<'t> {
    fn of(text: &'t [u8]) -> Tokenizer<'t> {
        Tokenizer { text, at: 0 }
    }

    /// Where a text between dollars ends, of which the first tag is at a place.
    fn end_of_dollars(&self, tag: &Range<usize>) -> usize {
        let mark = &self.text[tag.clone()];
        let inner = &self.text[tag.end..];
        let found = inner.windows(mark.len()).position(|it| it == mark);
        found.map_or(self.text.len(), |at| tag.end + at + mark.len())
    }
}

impl Iterator for Tokenizer<'_> {
    type Item = (TokenKind, Range<usize>);

    fn next(&mut self) -> Option<(TokenKind, Range<usize>)> {
        let found = pattern!(TOKENS).captures(&self.text[self.at..])?;
        let mut range = self.at..self.at + found.get(0)?.end();
        let is = |name| found.name(name).is_some();
        let token = if is("semicolon") {
            TokenKind::Semicolon
        } else if is("text") {
            TokenKind::Text
        } else if is("number") {
            TokenKind::Number
        } else if is("dollar") {
            range.end = self.end_of_dollars(&range);
            TokenKind::Text
        } else {
            TokenKind::Other
        };
        self.at = range.end;
        Some((token, range))
    }
}

fn put_statement(
    out: &mut Vec<u8>,
    text: &[u8],
    literals: &[LiteralKind],
    names: &SessionNames,
    effects: &mut Vec<NameEffect>,
) {
    let body = text.strip_suffix(b";").unwrap_or(text);
    let Some((action, place)) = naming().captures(body).and_then(|it| name_of(&it)) else {
        put_text(out, text, literals);
        return;
    };
    let name = folded(&body[place.clone()]);
    put_text(out, &text[..place.start], literals);
    out.push(MARK);
    names.put_taken(out, action, &name, effects);
    put_text(out, &text[place.end..], literals);
    let holds = action == NameAction::Declare && pattern!(r"(?i-u)\bWITH\s+HOLD\b").is_match(text);
    effects.push(NameEffect::of(action, name.into_owned(), holds));
}

/// What a statement does with which name.
pub(super) fn name_of(found: &Captures<'_>) -> Option<(NameAction, Range<usize>)> {
    let actions = [
        ("savepoint", NameAction::Savepoint),
        ("release", NameAction::Release),
        ("back", NameAction::Back),
        ("declare", NameAction::Declare),
        ("prepare", NameAction::Prepare),
        ("execute", NameAction::Execute),
        ("deallocate", NameAction::Deallocate),
        ("close", NameAction::Close),
        ("fetch", NameAction::Fetch),
    ];
    actions.into_iter().find_map(|(name, action)| Some((action, found.name(name)?.range())))
}

/// An identifier as the server takes it.
pub(super) fn folded(identifier: &[u8]) -> Cow<'_, [u8]> {
    let quoted = identifier.strip_prefix(b"\"").and_then(|it| it.strip_suffix(b"\""));
    match quoted {
        None => Cow::Owned(identifier.to_ascii_lowercase()),
        Some(inner) if !inner.contains(&b'"') => Cow::Borrowed(inner),
        Some(inner) => Cow::Owned(pattern!("\"\"").replace_all(inner, &b"\""[..]).into_owned()),
    }
}

/// Adds a text whose literals of these kinds are left out.
fn put_text(out: &mut Vec<u8>, text: &[u8], literals: &[LiteralKind]) {
    if literals.is_empty() {
        out.extend_from_slice(text);
        return;
    }
    for (token, range) in Tokenizer::of(text) {
        let bytes = &text[range];
        match literals.iter().find(|kind| is_of(**kind, token, bytes)) {
            Some(kind) => out.extend_from_slice(&[MARK, *kind as u8]),
            None => out.extend_from_slice(bytes),
        }
    }
}

/// Whether a token is a literal of a kind.
fn is_of(kind: LiteralKind, token: TokenKind, bytes: &[u8]) -> bool {
    let matches = |pattern: &Regex| token == TokenKind::Text && pattern.is_match(bytes);
    match kind {
        LiteralKind::Number => {
            token == TokenKind::Number || matches(pattern!(r"(?-u)^'[+-]?[0-9]+(?:\.[0-9]*)?'$"))
        }
        LiteralKind::Text => token == TokenKind::Text,
        LiteralKind::Time => matches(pattern!(
            r"(?-u)^'(?:[0-9]{4}-[0-9]{2}-[0-9]{2}|[0-9]{2}:[0-9]{2})[0-9T :.+Z-]*'$"
        )),
        LiteralKind::Uuid => matches(pattern!(
            r"(?i-u)^'\{?[0-9a-f]{8}-?[0-9a-f]{4}-?[0-9a-f]{4}-?[0-9a-f]{4}-?[0-9a-f]{12}\}?'$"
        )),
    }
}

#[cfg(test)]
mod tests {
    use super::*;

    fn fingerprint(text: &str, literals: &[LiteralKind]) -> Vec<u8> {
        let mut out = Vec::new();
        put(&mut out, text.as_bytes(), literals, &SessionNames::default(), &mut Vec::new());
        out
    }

    fn are_alike(one: &str, other: &str, literals: &[LiteralKind]) -> bool {
        fingerprint(one, literals) == fingerprint(other, literals)
    }

    #[test]
    fn rollbacks_are_found() {
        for text in ["ROLLBACK", " /* all */ rollback to savepoint a", "-- all\nAbort;"] {
            assert!(is_rollback(text.as_bytes()), "{text}");
        }
        for text in ["", "ROLLBACKS", "SELECT 'ROLLBACK'", "RELEASE a; ROLLBACK"] {
            assert!(!is_rollback(text.as_bytes()), "{text}");
        }
    }

    #[test]
    fn names_that_are_made_are_no_part_of_the_text() {
        for (one, other) in [
            ("SAVEPOINT \"s139_x1\"", "SAVEPOINT \"s7_x1\""),
            ("declare c_1 cursor for select 1", "declare c_2 cursor for select 1"),
            ("PREPARE a (int) AS SELECT $1", "PREPARE b (int) AS SELECT $1"),
            ("BEGIN; SAVEPOINT a; SELECT ';'", "BEGIN; SAVEPOINT b; SELECT ';'"),
            ("/* x */ SAVEPOINT a", "/* x */ SAVEPOINT b"),
        ] {
            assert!(are_alike(one, other, &[]), "{one} and {other}");
        }
        for (one, other) in [
            ("SELECT 'SAVEPOINT a'", "SELECT 'SAVEPOINT b'"),
            ("SELECT 1; SELECT 'x; SAVEPOINT a'", "SELECT 1; SELECT 'x; SAVEPOINT b'"),
            ("DO $$ BEGIN; SAVEPOINT a; $$", "DO $$ BEGIN; SAVEPOINT b; $$"),
            ("DECLARE a CURSOR FOR SELECT 1", "DECLARE a CURSOR FOR SELECT 2"),
            ("FETCH 5 FROM a", "FETCH 6 FROM a"),
            ("FETCH 5 FROM a", "FETCH 5 FROM b"),
        ] {
            assert!(!are_alike(one, other, &[]), "{one} and {other}");
        }
    }

    #[test]
    fn literals_of_a_kind_are_left_out() {
        use LiteralKind::*;
        let time = ("SELECT '2026-01-02 03:04:05+00'", "SELECT '2027-11-12T13:14:15.16Z'");
        let uuid = (
            "SELECT '01234567-89ab-cdef-0123-456789abcdef'",
            "SELECT 'FFFFFFFF-89ab-cdef-0123-456789abcdef'",
        );
        let number = ("SELECT 1, a1", "SELECT 2.5e3, a1");
        let text = ("SELECT E'it\\'s'", "SELECT 'it''s; not'");
        for (kind, (one, other)) in [(Time, time), (Uuid, uuid), (Number, number), (Text, text)] {
            assert!(are_alike(one, other, &[kind]), "{one} and {other}");
            assert!(!are_alike(one, other, &[]), "{one} and {other}");
        }
        assert!(!are_alike("SELECT a1", "SELECT a2", &[Number]));
        assert!(!are_alike("SELECT 'one'", "SELECT 'two'", &[Time, Uuid, Number]));
    }
}
