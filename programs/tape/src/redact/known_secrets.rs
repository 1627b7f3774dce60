//! The secrets of a recording, which are masked wherever they stand in it.

use super::mask::{Mask, WHOLE};
use std::collections::BTreeSet;
use std::ops::{Bound, Range};

/// The shortest secret that is looked for elsewhere.
const LEAST: usize = 4;
/// The shortest password that is looked for in Base64, of which most words are digits.
const LEAST_IN_BASE64: usize = 6;
/// The shortest password of letters and digits that is no word.
const LEAST_STRONG: usize = 8;
/// How many bits tell with which bytes no secret begins.
const FRONTS: usize = 1 << 20;

/// How a text writes some characters of a value.
type EscapeTable = &'static [(u8, &'static [u8])];

/// In a string of SQL, without escapes or with them, as people write it and as libpq does; in data of COPY; in JSON or an
/// array; in a row.
const ESCAPE_TABLES: [EscapeTable; 6] = [
    &[(b'\'', b"''")],
    &[(b'\'', b"''"), (b'\\', b"\\\\")],
    &[(b'\'', b"\\'"), (b'\\', b"\\\\")],
    &[
        (b'\\', b"\\\\"),
        (b'\n', b"\\n"),
        (b'\t', b"\\t"),
        (b'\r', b"\\r"),
        (8, b"\\b"),
        (11, b"\\v"),
        (12, b"\\f"),
    ],
    &[
        (b'\\', b"\\\\"),
        (b'"', b"\\\""),
        (b'\n', b"\\n"),
        (b'\t', b"\\t"),
        (b'\r', b"\\r"),
        (8, b"\\b"),
        (12, b"\\f"),
    ],
    &[(b'\\', b"\\\\"), (b'"', b"\"\"")],
];

/// What was masked as a secret.
#[derive(Default)]
pub struct KnownSecrets {
    passwords: SecretSet,
    values: SecretSet,
    /// Digits of Base64 of passwords.
    base64: SecretSet,
    /// All are known, so that they can be looked for.
    is_complete: bool,
}

impl KnownSecrets {
    /// Notes a secret.
    pub fn add(&mut self, secret: &[u8], is_password: bool) {
        if self.is_complete || secret.len() < LEAST {
            return;
        }
        let set = if is_password { &mut self.passwords } else { &mut self.values };
        if set.all.contains(secret) {
            return;
        }
        for escapes in ESCAPE_TABLES {
            if escapes.iter().any(|it| secret.contains(&it.0)) {
                set.insert(escaped(secret, escapes));
            }
        }
        set.insert(secret.to_vec());
        if is_password && secret.len() >= LEAST_IN_BASE64 {
            (0..3).for_each(|it| self.base64.insert(base64_digits(secret, it)));
        }
    }

    /// From here on no secret is new.
    pub fn complete(&mut self) {
        self.is_complete = true;
    }

    pub fn is_complete(&self) -> bool {
        self.is_complete
    }

    /// Where secrets stand in a text, and how they are masked: a password, and a value that isn't a part of a longer word or
    /// number; both also in hexadecimal digits, and a password in those of Base64.
    pub fn find(&self, text: &[u8], is_tight: bool) -> Vec<(Range<usize>, Mask)> {
        let mut found = Vec::new();
        if !self.is_complete || self.passwords.all.is_empty() && self.values.all.is_empty() {
            return found;
        }
        self.plain(text, |range, mask| found.push((range, mask)));
        self.hexadecimal(text, is_tight, &mut found);
        for digits in self.base64.find(text, |_| true, |_| true) {
            // The digits beside them may be of their bytes too.
            let digits = digits.start.saturating_sub(1)..text.len().min(digits.end + 1);
            found.push((digits.clone(), Mask::Bytes(vec![WHOLE[0]; digits.len()])));
        }
        found
    }

    /// Adds where secrets stand in hexadecimal digits.
    fn hexadecimal(&self, text: &[u8], is_tight: bool, found: &mut Vec<(Range<usize>, Mask)>) {
        let mut at = 0;
        for run in text.split(|it| !it.is_ascii_hexdigit()) {
            let starts = if run.len() < 2 * LEAST { 0..0 } else { 0..2 };
            for start in starts {
                let even = (run.len() - start) / 2 * 2;
                let bytes = hex::decode(&run[start..start + even]).unwrap_or_default();
                self.plain(&bytes, |range, mask| {
                    let digits = at + start + range.start * 2..at + start + range.end * 2;
                    let with = hex_mask(&bytes[range], &mask, is_tight);
                    found.push((digits, Mask::Bytes(with)));
                });
            }
            at += run.len() + 1;
        }
    }

    fn plain(&self, text: &[u8], mut take: impl FnMut(Range<usize>, Mask)) {
        let fits = |it: &Range<usize>| !is_word(&text[it.clone()]) || stands_alone(text, it);
        let passwords = self.passwords.find(text, |_| true, fits);
        passwords.into_iter().for_each(|it| take(it, Mask::Whole));
        let values = self.values.find(text, |at| !goes_on(text, at), |it| stands_alone(text, it));
        values.into_iter().for_each(|it| take(it, Mask::Text));
    }
}

/// A secret as a text writes it.
fn escaped(text: &[u8], escapes: EscapeTable) -> Vec<u8> {
    let with = |byte: &u8| escapes.iter().find(|it| it.0 == *byte).map(|it| it.1.to_vec());
    text.iter().flat_map(|it| with(it).unwrap_or_else(|| vec![*it])).collect()
}

/// Texts, of which the longest is found that stands at a place.
#[derive(Default)]
struct SecretSet {
    all: BTreeSet<Vec<u8>>,
    /// Whether some may begin with four bytes, by their hash.
    fronts: Vec<u64>,
}

/// The bit of four bytes: in which number it is, and that bit.
#[inline]
fn front(text: &[u8]) -> (usize, u64) {
    let bytes = [text[0], text[1], text[2], text[3]];
    let hash = u32::from_ne_bytes(bytes).wrapping_mul(0x9e37_79b1) as usize;
    let bit = (hash >> 8) % FRONTS;
    (bit / 64, 1 << (bit % 64))
}

impl SecretSet {
    fn insert(&mut self, text: Vec<u8>) {
        self.fronts.resize(FRONTS / 64, 0);
        let (at, bit) = front(&text);
        self.fronts[at] |= bit;
        self.all.insert(text);
    }

    /// Where a text has some of them, each the longest one that fits, at places where one may begin.
    fn find(
        &self,
        text: &[u8],
        begins: impl Fn(usize) -> bool,
        fits: impl Fn(&Range<usize>) -> bool,
    ) -> Vec<Range<usize>> {
        if self.all.is_empty() {
            return Vec::new();
        }
        let starts = text.windows(LEAST).enumerate().filter(|(place, four)| {
            let (at, bit) = front(four);
            self.fronts[at] & bit != 0 && begins(*place)
        });
        starts.filter_map(|(at, _)| self.longest(text, at, &fits)).collect()
    }

    /// The longest that stands there and fits. The last one that isn't greater than the rest of the text is either its front,
    /// or has as much in common with it as any can have.
    fn longest(
        &self,
        text: &[u8],
        at: usize,
        fits: impl Fn(&Range<usize>) -> bool,
    ) -> Option<Range<usize>> {
        let mut rest = &text[at..];
        while rest.len() >= LEAST {
            let bounds = (Bound::Unbounded, Bound::Included(rest));
            let found = self.all.range::<[u8], _>(bounds).next_back()?;
            let len = found.iter().zip(rest).take_while(|(one, other)| one == other).count();
            let range = at..at + len;
            let is_front = len == found.len();
            if is_front && fits(&range) {
                return Some(range);
            }
            rest = &rest[..len - usize::from(is_front)];
        }
        None
    }
}

/// Whether a password is a word, or short and of letters and digits: it may be a part of longer words.
fn is_word(password: &[u8]) -> bool {
    password.iter().all(|it| it.is_ascii_alphabetic() || *it == b'_')
        || password.len() < LEAST_STRONG && password.iter().all(u8::is_ascii_alphanumeric)
}

/// Whether a part isn't in the middle of a word or a number.
fn stands_alone(text: &[u8], part: &Range<usize>) -> bool {
    !goes_on(text, part.start) && !goes_on(text, part.end)
}

/// Whether a word or a number goes on at a place.
fn goes_on(text: &[u8], at: usize) -> bool {
    let kind = |at: usize| match text.get(at) {
        Some(b'0'..=b'9') => 1,
        Some(b'a'..=b'z' | b'A'..=b'Z' | b'_' | 0x80..) => 2,
        _ => 0,
    };
    kind(at) != 0 && kind(at) == kind(at.wrapping_sub(1))
}

/// What stands in the place of a secret's hexadecimal digits.
fn hex_mask(secret: &[u8], mask: &Mask, is_tight: bool) -> Vec<u8> {
    let mut bytes = secret.to_vec();
    match mask {
        Mask::Whole if is_tight => bytes.fill(WHOLE[0]),
        Mask::Whole => bytes = WHOLE.to_vec(),
        mask => mask.put(&mut bytes),
    }
    hex::encode(bytes).into_bytes()
}

/// The digits of Base64 that some bytes alone decide, after so many bytes before them.
fn base64_digits(bytes: &[u8], before: usize) -> Vec<u8> {
    let end = before + bytes.len();
    let padded = [&[0; 2][..before], bytes, &[0; 2][..(3 - end % 3) % 3]].concat();
    base64::encode(padded).into_bytes()[(before * 4).div_ceil(3)..end * 4 / 3].to_vec()
}

#[cfg(test)]
mod tests {
    use super::*;

    /// What stands in the place of a text, with `#` for a password.
    fn masked(known: &KnownSecrets, text: &str) -> String {
        let mut found = known.find(text.as_bytes(), false);
        found.sort_by_key(|it| it.0.start);
        let (mut out, mut end) = (String::new(), 0);
        for (range, mask) in found {
            let mut with = text.as_bytes()[range.clone()].to_vec();
            match mask {
                Mask::Whole => with = b"#".to_vec(),
                Mask::Bytes(bytes) => with = bytes,
                mask => mask.put(&mut with),
            }
            out += &text[end..range.start];
            out += std::str::from_utf8(&with).unwrap();
            end = range.end;
        }
        out + &text[end..]
    }

    #[test]
    fn secrets_are_found_wherever_they_stand() {
        let mut known = KnownSecrets::default();
        for password in ["P@ssw0rd!", "it's", "a'b\\c", "test", "n3xt", "abc"] {
            known.add(password.as_bytes(), true);
        }
        for value in
            ["ann@example.org", "ann@example.org.uk", "4711", "O'Brien\n", "a\"b\\c", "\"d\"\r\x08"]
        {
            known.add(value.as_bytes(), false);
        }
        assert_eq!(masked(&known, "P@ssw0rd!"), "P@ssw0rd!");
        known.complete();
        let table = [
            ("xP@ssw0rd!y P@ssw0rd", "x#y P@ssw0rd"),
            ("'it''s' it\\'s", "'#' #"),
            (r"'a''b\c' E'a''b\\c' E'a\'b\\c'", "'#' E'#' E'#'"),
            ("test latest test_a n3xt, n3xts abc", "# latest test_a #, n3xts abc"),
            ("<ann@example.org>", "<xxx@xxxxxxx.xxx>"),
            ("ann@example.org.uk", "xxx@xxxxxxx.xxx.xx"),
            ("joann@example.org ann@example.orgs", "joann@example.org ann@example.orgs"),
            ("4711 a4711, 14711 4711.5", "1000 a1000, 14711 1000.5"),
            (r"O'Brien\n E'O\'Brien'", r"X'Xxxxx\x E'O\'Brien'"),
            (r#"{"a\"b\\c"} ("a""b\\c")"#, r#"{"x\"x\\x"} ("x""x\\x")"#),
            (r#"{"\"d\"\r\b"}"#, r#"{"\"x\"\x\x"}"#),
            (r"\x005040737377307264 21", r"\x005040737377307264 21"),
            (r"\x00504073737730726421ff", r"\x007878787878787878ff"),
            ("a50407373773072 6421", "a50407373773072 6421"),
            ("34373131", "31303030"),
            // `a:P@ssw0rd!`, `ab:P@ssw0rd!` and `P@ssw0rd!b`.
            ("YTpQQHNzdzByZCE=", "YTxxxxxxxxxxxxx="),
            ("YWI6UEBzc3cwcmQh", "YWIxxxxxxxxxxxxx"),
            ("UEBzc3cwcmQhYg==", "xxxxxxxxxxxxxg=="),
            ("", ""),
        ];
        for (text, wanted) in table {
            assert_eq!(masked(&known, text), wanted);
        }
    }
}
