//! Connections that are named by their numbers: `3`, or `5-7`.

use std::collections::HashSet;
use std::ops::RangeInclusive;
use std::str::FromStr;

/// A number, or the first and the last of some.
#[derive(Clone, Debug, PartialEq, Eq)]
pub struct ConnectionRange(pub RangeInclusive<u32>);

impl FromStr for ConnectionRange {
    type Err = String;

    fn from_str(text: &str) -> Result<ConnectionRange, String> {
        let (first, last) = text.split_once('-').unwrap_or((text, text));
        let number = |text: &str| text.parse().ok().filter(|it| *it > 0);
        match (number(first), number(last)) {
            (Some(first), Some(last)) if first <= last => Ok(ConnectionRange(first..=last)),
            _ => Err("it is a number from 1 on, or two as 5-7".to_owned()),
        }
    }
}

/// The connections that are named, of which some are met.
pub struct ConnectionSelection<'c> {
    named: &'c [ConnectionRange],
    met: HashSet<usize>,
}

impl<'c> ConnectionSelection<'c> {
    pub fn new(named: &'c [ConnectionRange]) -> ConnectionSelection<'c> {
        ConnectionSelection { named, met: HashSet::new() }
    }

    /// Whether a connection is named.
    pub fn has(&mut self, connection: u32) -> bool {
        let before = self.named.iter().enumerate();
        let fits = before.filter(|(_, it)| it.0.contains(&connection)).map(|(at, _)| at);
        let mut is_named = false;
        for at in fits {
            self.met.insert(at);
            is_named = true;
        }
        is_named
    }

    /// Those of which no connection was met.
    pub fn missing(&self) -> Vec<String> {
        let missing = self.named.iter().enumerate().filter(|(at, _)| !self.met.contains(at));
        missing.map(|(_, it)| show(&it.0)).collect()
    }
}

fn show(range: &RangeInclusive<u32>) -> String {
    match range.start() == range.end() {
        true => range.start().to_string(),
        false => format!("{}-{}", range.start(), range.end()),
    }
}

#[cfg(test)]
mod tests {
    use super::*;

    #[test]
    fn numbers_and_ranges() {
        assert_eq!("3".parse(), Ok(ConnectionRange(3..=3)));
        assert_eq!("5-7".parse(), Ok(ConnectionRange(5..=7)));
        for wrong in ["", "0", "0-3", "7-5", "a", "1-", "-1", "4294967296"] {
            assert!(wrong.parse::<ConnectionRange>().is_err(), "{wrong}");
        }
        let named = [ConnectionRange(1..=2), ConnectionRange(9..=9), ConnectionRange(4..=5)];
        let mut selection = ConnectionSelection::new(&named);
        assert!(selection.has(2) && !selection.has(3) && selection.has(5));
        assert_eq!(selection.missing(), ["9"]);
    }
}
