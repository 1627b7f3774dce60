//! What stands in the place of the names of statements and portals. A replay finds by them what a Bind or an Execute is of, so
//! that a name has the same substitute throughout its session, and names that a mask alone would make the same stay different,
//! as far as their ASCII letters and digits reach. Where SQL names a statement or a cursor, that is a text as any other.

use super::masked_ranges::MaskedRanges;
use std::collections::HashMap;

/// The names of a session that have secrets, each with its number among those that a mask alone would make the same.
#[derive(Default)]
pub struct MaskedNames(HashMap<Vec<u8>, HashMap<Vec<u8>, usize>>);

impl MaskedNames {
    /// What stands in the place of a name of which some parts are masked: the mask, counted up by the name's number.
    pub fn substitute(&mut self, name: &[u8], parts: MaskedRanges<'_>) -> Vec<u8> {
        let (mut bytes, is_masked) = parts.masked_name(name);
        let alike = self.0.entry(bytes.clone()).or_default();
        let next = alike.len();
        let number = *alike.entry(name.to_vec()).or_insert(next);
        let masked = bytes.iter_mut().zip(is_masked).filter(|(_, is_masked)| *is_masked);
        count_up(masked.map(|(byte, _)| byte).rev(), number);
        bytes
    }
}

/// Adds to a number that is written in digits and letters, from the last one on.
fn count_up<'b>(bytes: impl Iterator<Item = &'b mut u8>, mut number: usize) {
    for byte in bytes {
        let (first, count) = match byte {
            b'0'..=b'9' => (b'0', 10),
            b'a'..=b'z' => (b'a', 26),
            b'A'..=b'Z' => (b'A', 26),
            _ => continue,
        };
        let sum = usize::from(*byte - first) + number % count;
        *byte = first + (sum % count) as u8;
        number = number / count + sum / count;
    }
}

#[cfg(test)]
mod tests {
    use super::*;
    use crate::redact::known_secrets::KnownSecrets;
    use crate::redact::mask::Mask;

    /// The substitute of a name of which everything after `_` is masked.
    fn substitute(names: &mut MaskedNames, name: &str) -> String {
        let mut known = KnownSecrets::default();
        let mut parts = MaskedRanges::new(name.as_bytes(), &mut known);
        parts.add(name.split_once('_').unwrap().1.as_bytes(), Mask::Text);
        String::from_utf8(names.substitute(name.as_bytes(), parts)).unwrap()
    }

    #[test]
    fn names_stay_different_and_each_stays_the_same() {
        let table = [
            ("s_ann", "s_xxx"),
            ("s_bob", "s_xxy"),
            ("s_eve", "s_xxz"),
            ("s_tom", "s_xya"),
            ("S_tom", "S_xxx"),
            ("s_Ann", "s_Xxx"),
            ("s_47", "s_10"),
            ("s_48", "s_11"),
            ("s_a 7", "s_x 0"),
            ("s_b.7", "s_x.0"),
            ("s_c 8", "s_x 1"),
            ("s_\u{e9}", "s_\u{f8}"),
        ];
        let mut names = MaskedNames::default();
        for (name, wanted) in table.iter().chain(&table) {
            assert_eq!(substitute(&mut names, name), *wanted, "{name}");
        }
        let all: Vec<String> = (0..100).map(|it| format!("p_{it:02}")).collect();
        let mut found: Vec<String> = all.iter().map(|it| substitute(&mut names, it)).collect();
        found.sort_unstable();
        assert_eq!(found, all);
    }
}
