//! The parts of two messages that differ, as git shows words that do.

use super::{AllowedDifferences, ReportedMessage};
use crate::recorded::HEAD;
use lines::escape as escaped;
use once_cell::sync::OnceCell;
use pgmsg::frontend::{Message, Target};
use regex::Regex;
use std::collections::HashMap;

/// Longer texts are cut.
const SHOWN: usize = 1000;
/// So many parts are shown.
const PARTS_MOST: usize = 40;

/// Parts of a message with their names.
pub type MessageParts = Vec<(String, Vec<u8>)>;

/// The same by their names.
pub type PartsByName<'p> = HashMap<&'p str, &'p [u8]>;

/// Finds parts by their names, of two with one name the first.
pub fn by_name(parts: &MessageParts) -> PartsByName<'_> {
    parts.iter().rev().map(|(name, text)| (&name[..], &text[..])).collect()
}

/// A line for each part that differs.
pub fn lines(
    allowed: &AllowedDifferences<'_>,
    recorded: &ReportedMessage,
    received: &ReportedMessage,
) -> String {
    let (Some(one), Some(other)) = (compared(allowed, recorded), compared(allowed, received))
    else {
        return String::new();
    };
    let line = |name: &str, words: String| format!("\n  {}: {words}", escaped(name.as_bytes()));
    let (before, after) = (by_name(&one), by_name(&other));
    let changed = one.iter().filter_map(|(name, text)| match after.get(&name[..]) {
        Some(text_there) if *text_there == text => None,
        Some(text_there) => Some(line(name, words(&escaped(text), &escaped(text_there)))),
        None => Some(line(name, format!("[-{}-]", escaped(text)))),
    });
    let added = other.iter().filter(|(name, _)| !before.contains_key(&name[..]));
    let added = added.map(|(name, text)| line(name, format!("{{+{}+}}", escaped(text))));
    let mut all = changed.chain(added);
    let shown: String = all.by_ref().take(PARTS_MOST).map(cut).collect();
    match all.count() {
        0 => shown,
        more => format!("{shown}\n  and {more} more"),
    }
}

fn cut(mut line: String) -> String {
    if line.len() > SHOWN {
        let end = (0..=SHOWN).rev().find(|at| line.is_char_boundary(*at));
        line.truncate(end.unwrap_or_default());
        line.push_str(" ..");
    }
    line
}

fn words_of(text: &str) -> Vec<&str> {
    static WORD: OnceCell<Regex> = OnceCell::new();
    let word = WORD.get_or_init(|| Regex::new(r"\w+|\s+|[^\w\s]").expect("a pattern of this file"));
    word.find_iter(text).map(|it| it.as_str()).collect()
}

/// How many bytes two texts have in common at their fronts and at their ends, in whole words.
pub fn common(one: &str, other: &str) -> (usize, usize) {
    let (one, other) = (words_of(one), words_of(other));
    let len = |words: &[&str]| words.iter().map(|it| it.len()).sum();
    let front = one.iter().zip(&other).take_while(|(one, other)| one == other).count();
    let rest = one[front..].iter().rev().zip(other[front..].iter().rev());
    let back = rest.take_while(|(one, other)| one == other).count();
    (len(&one[..front]), len(&one[one.len() - back..]))
}

/// Two texts in one, with what is missing and what is more.
fn words(one: &str, other: &str) -> String {
    let (front, back) = common(one, other);
    let (gone, come) = (&one[front..one.len() - back], &other[front..other.len() - back]);
    let mut words = one[..front].to_owned();
    if !gone.is_empty() {
        words.push_str(&format!("[-{gone}-]"));
    }
    if !come.is_empty() {
        words.push_str(&format!("{{+{come}+}}"));
    }
    words + &one[one.len() - back..]
}

/// The parts of a side that is a message, but for those that may differ.
pub fn compared(allowed: &AllowedDifferences<'_>, side: &ReportedMessage) -> Option<MessageParts> {
    let mut all = parts(side)?;
    let position = |name: &str| name.strip_prefix("parameter ").and_then(|it| it.parse().ok());
    let is_any_value = allowed.any_value();
    match side {
        ReportedMessage::Startup(_) => {
            all.retain(|(name, _)| !allowed.rules.is_any_setting(name.as_bytes()))
        }
        _ => all.retain(|(name, _)| !position(name).is_some_and(&is_any_value)),
    }
    Some(all)
}

fn parts(side: &ReportedMessage) -> Option<MessageParts> {
    match side {
        ReportedMessage::Startup(bytes) => match Message::read_body(None, &bytes[4..]) {
            Ok(Message::Startup(it)) => Some(
                it.settings.iter().map(|it| part(&it.name.to_str_lossy(), &it.value)).collect(),
            ),
            _ => None,
        },
        ReportedMessage::Message(bytes) => {
            let Ok(message) = Message::read_body(Some(bytes[0]), &bytes[HEAD..]) else {
                let kind = format!("{:?} that can't be read", char::from(bytes[0]));
                return Some(vec![part("kind", kind.as_bytes())]);
            };
            let mut all = vec![part("kind", message.name().as_bytes())];
            all.extend(of_message(&message));
            Some(all)
        }
        _ => None,
    }
}

fn part(name: &str, text: &[u8]) -> (String, Vec<u8>) {
    (name.to_owned(), text.to_vec())
}

fn of_message(message: &Message<'_>) -> MessageParts {
    match message {
        Message::Query(query) => vec![part("query", query)],
        Message::Parse(parse) => {
            let types = format!("{:?}", parse.types);
            vec![
                part("statement", &parse.statement),
                part("query", &parse.query),
                part("types", types.as_bytes()),
            ]
        }
        Message::Bind(bind) => {
            let values = bind.values.iter().enumerate().map(|(place, value)| {
                part(&format!("parameter {}", place + 1), value.bytes().unwrap_or(b"NULL"))
            });
            let names = [part("portal", &bind.portal), part("statement", &bind.statement)];
            names.into_iter().chain(values).collect()
        }
        Message::Describe(target) | Message::Close(target) => match target {
            Target::Statement(name) => vec![part("statement", name)],
            Target::Portal(name) => vec![part("portal", name)],
        },
        Message::Execute(execute) => {
            let most = execute.max_rows.to_string();
            vec![part("portal", &execute.portal), part("most rows", most.as_bytes())]
        }
        Message::CopyData(data) => vec![part("data", data)],
        Message::CopyFail(reason) => vec![part("reason", reason)],
        _ => Vec::new(),
    }
}
