//! The literals of SQL, and the secrets that stand in them without a rule.

use super::lexer::{is_of_word, Lexeme, Lexer};
use super::literal::{LiteralValue, Quotes};
use super::mask::Mask;
use super::masked_ranges::MaskedRanges;
use once_cell::sync::Lazy;
use regex::bytes::Regex;
use std::ops::Range;

/// Verifiers of passwords, whose prefix and number of turns stay.
static VERIFIERS: Lazy<Vec<Regex>> = Lazy::new(|| {
    let patterns = [
        r"SCRAM-SHA-256\$[0-9]+:([A-Za-z0-9+/=]+\$[A-Za-z0-9+/=]+:[A-Za-z0-9+/=]+)",
        r"\bmd5([0-9a-f]{32})\b",
    ];
    patterns.iter().filter_map(|it| Regex::new(it).ok()).collect()
});

/// The word before a password.
const ASKED: &[u8] = b"password";

/// How deep texts in SQL are looked into.
const DEEPEST: usize = 4;

/// How much is looked at behind each word PASSWORD of a text that is no SQL, in which any number of them may stand.
const FAR: usize = 4 << 10;

/// A password: where the parts of its string are, and their value.
struct PasswordLiteral {
    parts: Vec<Range<usize>>,
    value: Vec<u8>,
}

impl PasswordLiteral {
    /// That of a string which begins there.
    fn of(start: usize, value: LiteralValue) -> PasswordLiteral {
        let parts = value.parts().map(|it| start + it.start..start + it.end).collect();
        PasswordLiteral { parts, value: value.bytes }
    }

    /// The same in a string that begins there.
    fn within(self, start: usize, outer: &LiteralValue) -> PasswordLiteral {
        let parts = self.parts.iter().map(|it| {
            let written = outer.written(it);
            start + written.start..start + written.end
        });
        PasswordLiteral { parts: parts.collect(), value: self.value }
    }

    /// Has it masked as a whole: the first part, without the others.
    fn hide(self, sql: &[u8], ranges: &mut MaskedRanges<'_>) {
        let mut parts = self.parts.into_iter();
        if let Some(first) = parts.next() {
            ranges.add_string(&sql[first], &self.value, Mask::Whole);
        }
        parts.for_each(|it| ranges.put(&sql[it], Mask::Bytes(Vec::new())));
    }
}

/// Has verifiers of passwords masked in any text.
pub fn secrets(text: &[u8], ranges: &mut MaskedRanges<'_>) {
    let is_candidate = text.windows(3).any(|it| matches!(it, b"SCR" | b"md5"));
    if !is_candidate {
        return;
    }
    for found in VERIFIERS.iter().flat_map(|it| it.captures_iter(text)) {
        if let Some(secret) = found.get(1) {
            ranges.add(secret.as_bytes(), Mask::Whole);
        }
    }
}

/// Has the passwords masked of SQL that stands somewhere in a text, as in the words of an error.
pub fn quoted_passwords(words: &[u8], ranges: &mut MaskedRanges<'_>) {
    for rest in asked(words) {
        // The word may be a name in quotes.
        let rest = rest.strip_prefix(b"\"").unwrap_or(rest);
        let rest = &rest[..rest.len().min(FAR)];
        if let Some(password) = first_password(rest) {
            password.hide(rest, ranges);
        }
    }
}

/// What follows each word PASSWORD of a text.
fn asked(text: &[u8]) -> impl Iterator<Item = &[u8]> {
    memchr::memchr2_iter(b'p', b'P', text).filter_map(move |at| {
        let (before, rest) = text.split_at(at);
        let (word, after) = rest.split_at(rest.len().min(ASKED.len()));
        let is_longer = before.last().into_iter().chain(after.first()).any(|it| is_of_word(*it));
        Some(after).filter(|_| word.eq_ignore_ascii_case(ASKED) && !is_longer)
    })
}

/// The string at the front, after a sign of equality. Where the text is the inside of a string, its quotes are doubled.
fn first_password(rest: &[u8]) -> Option<PasswordLiteral> {
    let mut lexemes = Lexer::new(rest, Quotes::Plain);
    match lexemes.find(|it| !is_equality(it))? {
        Lexeme::Text(range, _) if range.is_empty() => {
            let after = rest.get(range.end + 1..)?;
            let len = after.iter().position(|it| *it == b'\'')?;
            let is_doubled = len > 0 && after[len..].starts_with(b"''");
            let start = range.end + 1;
            is_doubled
                .then(|| PasswordLiteral::of(start, LiteralValue::of(&after[..len], Quotes::Plain)))
        }
        Lexeme::Text(range, quotes) => {
            Some(PasswordLiteral::of(range.start, LiteralValue::of(&rest[range], quotes)))
        }
        _ => None,
    }
}

fn is_equality(lexeme: &Lexeme) -> bool {
    matches!(lexeme, Lexeme::Mark(b'=' | b'>' | b':'))
}

/// The ways in which the server may read SQL: where a quote follows a backslash, that depends on a setting.
fn readings(sql: &[u8]) -> impl Iterator<Item = Lexer<'_>> {
    let is_open = sql.windows(2).any(|it| it == br"\'");
    let escapes = Some(Quotes::Escapes).filter(|_| is_open);
    [Some(Quotes::Plain), escapes].into_iter().flatten().map(move |it| Lexer::new(sql, it))
}

/// Has the passwords of SQL masked: strings that follow the word PASSWORD, or that word and `=`, `=>` or `:=`.
pub fn passwords(sql: &[u8], ranges: &mut MaskedRanges<'_>) {
    passwords_in(sql, 0).into_iter().for_each(|it| it.hide(sql, ranges));
}

fn passwords_in(sql: &[u8], depth: usize) -> Vec<PasswordLiteral> {
    if depth > DEEPEST || asked(sql).next().is_none() {
        return Vec::new();
    }
    readings(sql).flat_map(|lexemes| passwords_of(sql, lexemes, depth)).collect()
}

fn passwords_of(sql: &[u8], lexemes: Lexer<'_>, depth: usize) -> Vec<PasswordLiteral> {
    let (mut found, mut is_asked) = (Vec::new(), false);
    for lexeme in lexemes {
        is_asked = match lexeme {
            Lexeme::Text(range, quotes) => {
                let value = LiteralValue::of(&sql[range.clone()], quotes);
                match is_asked {
                    true => found.push(PasswordLiteral::of(range.start, value)),
                    false => {
                        let inside = passwords_in(&value.bytes, depth + 1).into_iter();
                        found.extend(inside.map(|it| it.within(range.start, &value)));
                    }
                }
                false
            }
            Lexeme::Word(range) | Lexeme::Name(range) => sql[range].eq_ignore_ascii_case(ASKED),
            lexeme => is_asked && is_equality(&lexeme),
        };
    }
    found
}

/// Has all literals of SQL masked.
pub fn literals(sql: &[u8], ranges: &mut MaskedRanges<'_>) {
    for lexeme in readings(sql).flatten() {
        match lexeme {
            Lexeme::Text(range, quotes) => {
                let value = LiteralValue::of(&sql[range.clone()], quotes);
                ranges.add_string(&sql[range], &value.bytes, Mask::Text);
            }
            Lexeme::Number(range) => ranges.add(&sql[range], Mask::Text),
            Lexeme::Word(_) | Lexeme::Name(_) | Lexeme::Mark(_) => {}
        }
    }
}

#[cfg(test)]
mod tests {
    use super::*;
    use crate::redact::known_secrets::KnownSecrets;
    use rand::rngs::SmallRng;
    use rand::{Rng, SeedableRng};

    fn masked(sql: &str, mark: impl Fn(&[u8], &mut MaskedRanges<'_>)) -> String {
        let mut known = KnownSecrets::default();
        let mut ranges = MaskedRanges::new(sql.as_bytes(), &mut known);
        mark(sql.as_bytes(), &mut ranges);
        String::from_utf8(ranges.masked(sql.as_bytes().into(), None).into_owned()).unwrap()
    }

    /// Tests texts in which what stands as `<..>` is masked as a whole, and `{..}` is left out.
    fn test(table: &[&str], mark: impl Fn(&[u8], &mut MaskedRanges<'_>)) {
        let secret = regex::Regex::new(r"(?s)<(.*?)>|\{(.*?)\}").unwrap();
        let mask = |it: &regex::Captures<'_>| if it.get(1).is_some() { "xxxxxxxx" } else { "" };
        for text in table {
            let wanted = secret.replace_all(text, mask);
            assert_eq!(masked(&secret.replace_all(text, "$1$2"), &mark), wanted);
        }
    }

    #[test]
    fn passwords_are_found_however_they_are_quoted() {
        let table = [
            "ALTER ROLE a PASSWORD '<Secret1>'",
            "create user b encrypted password '<it''s>'",
            r"CREATE ROLE c PASSWORD E'<a\'b>' LOGIN",
            "ALTER USER d PASSWORD $$<pw>$$",
            "ALTER USER d PASSWORD $a$<p$$w>$a$ VALID",
            "DO $$BEGIN ALTER ROLE e PASSWORD '<pw>'; END$$",
            "DO $$BEGIN EXECUTE 'ALTER ROLE e PASSWORD ''<pw>'''; END$$",
            "DO $$BEGIN EXECUTE 'ALTER ROLE e PASSWORD ''<p''''w>'''; END$$",
            r"DO $$BEGIN EXECUTE E'ALTER ROLE e PASSWORD \'<pw>\''; END$$",
            "DO $$BEGIN EXECUTE 'EXECUTE ''ALTER ROLE e PASSWORD ''''<pw>'''' '' '; END$$",
            "ALTER ROLE a PASSWORD NULL; SELECT 'b'",
            "SELECT password, 'b' -- password 'c'",
            "CREATE USER MAPPING FOR a SERVER b OPTIONS (user 'u', password '<p>')",
            "CREATE USER MAPPING FOR a SERVER b OPTIONS (user 'u', \"password\" '<p>')",
            "ALTER ROLE a PASSWORD U&'<p>'",
            "ALTER ROLE a PASSWORD '<cut>",
            "ALTER ROLE a PASSWORD U&'<\\00>'\n'",
            "UPDATE t SET password = '<p>', a = 'b'",
            "UPDATE t SET \"password\" = '<p>', a = 'b'",
            "SELECT f(password := E'<p>', \"password\" '<b>', U&\"password\" '<c>')",
            "ALTER ROLE a PASSWORD '<a>'\n'{b}' VALID UNTIL 'infinity'",
            "ALTER ROLE a PASSWORD '<a>' -- it's\n\t'{b}'\r\n'{c}', 'd'",
            "ALTER ROLE a PASSWORD E'<a\\'>'\n'{\\'b}' LOGIN",
            "EXECUTE 'ALTER ROLE e PASSWORD ''<p>''\n''{w}'''",
            "ALTER ROLE a PASSWORD /* 'a' /* b */ 'c' */ '<d>'",
            "ALTER ROLE a PASSWORD -- 'a'\n'<b>'",
            r"ALTER ROLE a PASSWORD '<a\'b>'",
            r"SELECT '\', 'ALTER ROLE a PASSWORD ''<b>'''",
        ];
        test(&table, passwords);
    }

    #[test]
    fn what_a_password_means_is_a_secret() {
        let table = [
            ("PASSWORD 'it''s'", "it's"),
            (r"PASSWORD E'\x61bcd'", "abcd"),
            (r"PASSWORD U&'\0061bcd'", "abcd"),
            ("PASSWORD 'ab'\n'cd'", "abcd"),
            (r"PASSWORD 'a\'bc'", "a'bc"),
            ("EXECUTE 'ALTER ROLE a PASSWORD ''ab''''c'''", "ab'c"),
        ];
        for (sql, secret) in table {
            let mut known = KnownSecrets::default();
            passwords(sql.as_bytes(), &mut MaskedRanges::new(sql.as_bytes(), &mut known));
            known.complete();
            assert_eq!(known.find(secret.as_bytes(), false), [(0..4, Mask::Whole)], "{sql}");
        }
    }

    #[test]
    fn literals_are_found_and_nothing_else() {
        let table = [
            ("SELECT 'Ann', 41 FROM t1 WHERE a=$1", "SELECT 'Xxx', 10 FROM t1 WHERE a=$1"),
            ("SELECT \"a'b\" /* 'c' */ , 'd' -- 5", "SELECT \"a'b\" /* 'c' */ , 'x' -- 5"),
            (
                "INSERT INTO t VALUES ('a', E'\\'b', $x$c$x$)",
                "INSERT INTO t VALUES ('x', E'\\'x', $x$x$x$)",
            ),
            ("SELECT '1971-03-21'::date, 1.50", "SELECT '2000-01-01'::date, 1.00"),
            ("", ""),
            ("'", "'"),
            ("$", "$"),
            ("\"", "\""),
            ("/*", "/*"),
            ("E'\\", "E'\\"),
        ];
        for (sql, wanted) in table {
            assert_eq!(masked(sql, literals), wanted);
        }
    }

    #[test]
    fn verifiers_are_found_in_any_text() {
        let scram = "rolpassword=SCRAM-SHA-256$4096:<ab+/==$cd:ef=> md5<";
        test(&[&format!("{scram}{}>", "0a".repeat(16))], secrets);
    }

    #[test]
    fn passwords_are_found_in_the_words_of_an_error() {
        let table = [
            "SQL statement \"ALTER ROLE a PASSWORD '<it''s>' LOGIN\" of 'b'",
            "SQL statement \"ALTER ROLE a PASSWORD '<a>'\n'{b}' LOGIN\" of 'b'",
            "SQL statement \"ALTER ROLE a PASSWORD /* /* 'a' */ */ '<b>' LOGIN\" of 'c'",
            "EXECUTE 'ALTER ROLE a PASSWORD ''<pw>''' isn't 'b'",
            "SQL statement \"UPDATE t SET \"password\" = '<a>', b = 'c'\"",
            "PASSWORD '' LOGIN; SELECT 'a''b'",
            "the password isn't 'a'",
            "password",
            "password '",
            "password $$",
        ];
        test(&table, quoted_passwords);
    }

    #[test]
    fn any_words_and_quotes_are_read() {
        const WORDS: [&str; 18] = [
            "password", "'", "''", "$$", "$a$", "E'", "U&'", "u&\"", "\"", "\\", "\\x", "\\00",
            "\n", "--", "/*", "*/", "=", "a1 ",
        ];
        let marks: [fn(&[u8], &mut MaskedRanges<'_>); 3] = [passwords, literals, quoted_passwords];
        let mut random = SmallRng::seed_from_u64(1);
        for _ in 0..20_000 {
            let count = random.gen_range(1..14);
            let words = (0..count).map(|_| WORDS[random.gen_range(0..WORDS.len())]);
            let text: String = words.collect();
            marks.iter().for_each(|mark| drop(masked(&text, mark)));
        }
    }
}
