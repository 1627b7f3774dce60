//! The rule that would let a difference be.

use super::diff::{by_name, common, compared, PartsByName};
use super::{AllowedDifferences, ReportedMessage};
use lines::is_obeyed;
use once_cell::sync::OnceCell;
use regex::bytes::Regex;
use std::ops::Range;

/// Dates, times, both, and what is written of them without a separator.
const TIMES: &str = r"(?xi-u) (?:
      [0-9]{1,4} [-/.] (?:[0-9]{1,2}|[a-z]{3}) [-/.] [0-9]{1,4}
    | (?: jan|feb|mar|apr|may|jun|jul|aug|sep|oct|nov|dec )[a-z]* \.? \ + [0-9]{1,2} (?: ,?\ + [0-9]{4} )?
    | [0-9]{1,2}:[0-9]{2}
    | [0-9]{8,}
    ) (?: [T\ ]* [0-9]{1,2}:[0-9]{2} )? (?: :[0-9]{2} )? (?: [.,][0-9]+ )? (?: \ ?[-+][0-9]{1,2}(?::?[0-9]{2})? | Z )?";
const ANY_TIME: &str = r"[\w :.,/+-]+";

/// How much of a text before and after a difference makes it known.
const CONTEXT: usize = 32;

/// The rule that lets one side be as the other, where one does: as a part of a file of rules.
pub fn of(
    allowed: &AllowedDifferences<'_>,
    recorded: &ReportedMessage,
    received: &ReportedMessage,
) -> Option<String> {
    let (one, other) = (compared(allowed, recorded)?, compared(allowed, received)?);
    let (one, other) = (by_name(&one), by_name(&other));
    let rules = allowed.rules;
    match recorded {
        ReportedMessage::Startup(_) => Some(of_settings(&one, &other)),
        _ if one.get("kind") != other.get("kind") => None,
        _ => match (one.get("query"), other.get("query")) {
            (Some(one), Some(other)) => of_texts(&rules.text(one), &rules.text(other)),
            _ => of_parameters(allowed.statement.as_deref()?, &one, &other),
        },
    }
}

/// A text of TOML in quotes.
fn quoted(text: &str) -> String {
    match text.contains(|it: char| it == '\'' || is_obeyed(it)) {
        true => escaped(text),
        false => format!("'{text}'"),
    }
}

/// A text of TOML in double quotes, with escapes for all control characters: the library has them for those of ASCII alone.
fn escaped(text: &str) -> String {
    let text = toml::Value::String(text.to_owned()).to_string();
    let escape = |it: char| match is_obeyed(it) {
        true => format!("\\u{:04X}", it as u32),
        false => it.to_string(),
    };
    text.chars().map(escape).collect()
}

fn of_settings(one: &PartsByName<'_>, other: &PartsByName<'_>) -> String {
    let mut names: Vec<_> = one.keys().chain(other.keys()).copied().collect();
    names.sort_unstable();
    names.dedup();
    names.retain(|name| one.get(name) != other.get(name));
    let names: Vec<_> = names.into_iter().map(escaped).collect();
    format!("[settings]\nignore = [{}]", names.join(", "))
}

fn of_parameters(
    statement: &[u8],
    one: &PartsByName<'_>,
    other: &PartsByName<'_>,
) -> Option<String> {
    let text = std::str::from_utf8(statement).ok()?;
    let texts = times_in(text).fold((String::new(), 0), |(pattern, at), time| {
        (pattern + &regex::escape(&text[at..time.start]) + ANY_TIME, time.end)
    });
    let differing = one.iter().filter(|(name, text)| other.get(*name) != Some(*text));
    let mut positions: Vec<u32> =
        differing.filter_map(|(name, _)| name.strip_prefix("parameter ")?.parse().ok()).collect();
    positions.sort_unstable();
    let positions: Vec<_> = positions.iter().map(u32::to_string).collect();
    let pattern = format!("^{}{}$", texts.0, regex::escape(&text[texts.1..]));
    (!positions.is_empty()).then(|| {
        format!(
            "[[parameter]]\nstatement = {}\npositions = [{}]",
            quoted(&pattern),
            positions.join(", ")
        )
    })
}

/// A replacement that makes two texts the same.
fn of_texts(one: &[u8], other: &[u8]) -> Option<String> {
    let (one, other) = (std::str::from_utf8(one).ok()?, std::str::from_utf8(other).ok()?);
    let (front, back) = of_whole_times(one, other, common(one, other));
    let (gone, come) = (&one[front..one.len() - back], &other[front..other.len() - back]);
    let (before, after) = (&one[..front], &one[one.len() - back..]);
    let before = near(&before[times_in(before).last().map_or(0, |it| it.end)..], true);
    let after = near(&after[..times_in(after).next().map_or(after.len(), |it| it.start)], false);
    // Where nothing is the same around the difference, the rule would fit other texts too.
    if before.is_empty() && after.is_empty() {
        return None;
    }
    let pattern = format!("{}{}{}", regex::escape(before), like(gone, come)?, regex::escape(after));
    let with = format!("{before}..{after}").replace('$', "$$");
    let regex = Regex::new(&pattern).ok()?;
    let replaced = |text: &str| regex.replace_all(text.as_bytes(), with.as_bytes()).into_owned();
    (replaced(one) == replaced(other))
        .then(|| format!("[[replace]]\npattern = {}\nwith = {}", quoted(&pattern), quoted(&with)))
}

/// The dates and times in a text, as they are written in most places.
fn times_in(text: &str) -> impl Iterator<Item = Range<usize>> + '_ {
    static TIME: OnceCell<Regex> = OnceCell::new();
    let time = TIME.get_or_init(|| Regex::new(TIMES).expect("a pattern of this file"));
    time.find_iter(text.as_bytes()).map(|it| it.range())
}

/// What two texts have in common at their fronts and at their ends, without parts of dates and times that they don't.
fn of_whole_times(one: &str, other: &str, (front, back): (usize, usize)) -> (usize, usize) {
    let times = [one, other].into_iter().flat_map(|text| {
        let times =
            times_in(text).filter(move |it| it.start <= text.len() - back && front <= it.end);
        times.map(move |it| (it.start, text.len() - it.end))
    });
    times.fold((front, back), |(front, back), (before, after)| (front.min(before), back.min(after)))
}

/// The end or the front of a text, in whole letters.
fn near(text: &str, is_end: bool) -> &str {
    if text.len() <= CONTEXT {
        return text;
    }
    let mut places = text.char_indices().map(|(at, _)| at);
    match is_end {
        true => places.find(|at| text.len() - at <= CONTEXT).map_or("", |at| &text[at..]),
        false => places.take_while(|at| *at <= CONTEXT).last().map_or("", |at| &text[..at]),
    }
}

/// The narrowest pattern of a few that two texts have. None fits all texts: a rule by it would compare nothing.
fn like(one: &str, other: &str) -> Option<&'static str> {
    let patterns =
        [r"\d+", r"[0-9a-f]+", r"\w+", r"[0-9a-f-]+", r"[\d :.+TZ-]+", r"[^' ]*", r"[^']*"];
    let fits = |text: &str, pattern: &str| {
        Regex::new(&format!("^(?:{pattern})$")).is_ok_and(|it| it.is_match(text.as_bytes()))
    };
    patterns.into_iter().find(|pattern| fits(one, pattern) && fits(other, pattern))
}

#[cfg(test)]
mod tests {
    use super::*;

    /// A rule lets times differ, and has none of those of the recording.
    #[test]
    fn a_rule_has_no_time_of_the_recording() {
        for (one, other) in [
            ("2026-12-01 06:27:02.25+00", "2026-12-01 06:27:13.5+00"),
            ("2026-12-01T06:27:02Z", "2026-12-02T06:27:02Z"),
            ("2026-12-01", "2026-12-02"),
            ("01-Dec-2026 06:27", "01-Dec-2026 06:28"),
            ("Dec 1, 2026 06:27:02", "Dec 1, 2026 06:28:02"),
            ("20261201062702", "20261201062703"),
        ] {
            for (before, after) in
                [("", ""), ("2026-12-01 06:27', '", "', '06:27:01"), ("a', '", "', 'b")]
            {
                let text = |time: &str| format!("INSERT INTO log VALUES ('{before}{time}{after}')");
                let rule = of_texts(text(one).as_bytes(), text(other).as_bytes());
                let rule = rule.unwrap_or_else(|| panic!("{} and {}", text(one), text(other)));
                assert!(
                    !["2026", "12-01", "06", "27", "Dec"].iter().any(|it| rule.contains(it)),
                    "{rule}"
                );
            }
        }
        let statement = b"SELECT $1 WHERE at > '2026-12-01 06:27:02'";
        let value = |value: &'static [u8]| [("parameter 1", value)].into_iter().collect();
        let rule = of_parameters(statement, &value(b"1"), &value(b"2")).expect("a rule");
        assert!(!rule.contains("2026") && !rule.contains("06:27"), "{rule}");
        let pattern = rule.lines().nth(1).and_then(|it| it.split('"').nth(1)).expect("a pattern");
        let pattern = Regex::new(&pattern.replace("\\\\", "\\")).expect("a pattern");
        assert!(pattern.is_match(statement), "{rule}");
    }

    #[test]
    fn a_rule_has_what_stands_around_the_difference() {
        assert!(of_texts(b"select 'a1'", b"select 'a2'").is_some());
        assert_eq!(of_texts(b"BEGIN", b"begin"), None);
    }
}
