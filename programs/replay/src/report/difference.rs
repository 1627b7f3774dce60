//! Where two messages of a client part.

use super::{AllowedDifferences, ReportedMessage};
use crate::recorded::HEAD;
use pgmsg::frontend::{Bind, Execute, Message, Parse, Settings, Startup, Target};

/// A part of a message, and its place in the recorded and in the received one, from the tag on.
#[derive(Clone, Copy, Debug, PartialEq, Eq)]
pub struct Difference {
    part: &'static str,
    position: usize,
    recorded: usize,
    received: usize,
}

const EXCERPT: usize = 23;

impl Difference {
    /// In a part at a place that both have.
    pub fn at(part: &'static str, place: usize) -> Difference {
        Difference { part, position: 0, recorded: place, received: place }
    }

    pub fn words(&self, recorded: &ReportedMessage, received: &ReportedMessage) -> String {
        let position =
            if self.position > 0 { format!(" {}", self.position) } else { String::new() };
        let mut words = format!("they part in {}{position}, at byte {}", self.part, self.recorded);
        if self.recorded != self.received {
            words.push_str(&format!(
                " of the recorded one and {} of the received one",
                self.received
            ));
        }
        let (one, other) = (excerpt(recorded, self.recorded), excerpt(received, self.received));
        if !one.is_empty() || !other.is_empty() {
            words.push_str(&format!(", before '{one}' and '{other}'"));
        }
        words
    }
}

/// The next bytes of a message from a place on, as far as they are of ASCII and are printed.
fn excerpt(side: &ReportedMessage, at: usize) -> String {
    let (bytes, head) = match side {
        ReportedMessage::Message(bytes) => (bytes, HEAD),
        ReportedMessage::Startup(bytes) => (bytes, 4),
        _ => return String::new(),
    };
    let rest = if at < head { &[] } else { bytes.get(at..).unwrap_or_default() };
    let shown = rest.iter().take(EXCERPT);
    shown.map(|byte| if (b' '..0x7f).contains(byte) { char::from(*byte) } else { '.' }).collect()
}

/// Where two sides part that are messages.
pub fn difference(
    allowed: &AllowedDifferences<'_>,
    recorded: &ReportedMessage,
    received: &ReportedMessage,
) -> Option<Difference> {
    match (recorded, received) {
        (ReportedMessage::Startup(one), ReportedMessage::Startup(other)) => {
            Some(BodyComparison::new(allowed, None, one, other).difference())
        }
        (ReportedMessage::Words(_), _) | (_, ReportedMessage::Words(_)) => None,
        _ => {
            let (one, other) = (tag_of(recorded)?, tag_of(received)?);
            if one != other {
                return Some(Difference::at("the kind", 0));
            }
            match (recorded, received) {
                (ReportedMessage::Message(a), ReportedMessage::Message(b)) => {
                    Some(BodyComparison::new(allowed, Some(one), a, b).difference())
                }
                _ => Some(Difference::at("the length", 1)),
            }
        }
    }
}

fn tag_of(side: &ReportedMessage) -> Option<u8> {
    match side {
        ReportedMessage::Message(bytes) => bytes.first().copied(),
        ReportedMessage::Long { tag, .. } => Some(*tag),
        _ => None,
    }
}

/// The bodies of two messages of a kind, after heads of a length.
struct BodyComparison<'a> {
    allowed: &'a AllowedDifferences<'a>,
    tag: Option<u8>,
    head: usize,
    one: &'a [u8],
    other: &'a [u8],
}

/// The place of a part in the body that it is of.
fn place(body: &[u8], part: &[u8]) -> usize {
    (part.as_ptr() as usize).saturating_sub(body.as_ptr() as usize).min(body.len())
}

/// How many bytes two texts begin with that are the same.
fn same(one: &[u8], other: &[u8]) -> usize {
    one.iter().zip(other).take_while(|(one, other)| one == other).count()
}

impl<'a> BodyComparison<'a> {
    fn new(
        allowed: &'a AllowedDifferences<'a>,
        tag: Option<u8>,
        one: &'a [u8],
        other: &'a [u8],
    ) -> BodyComparison<'a> {
        let head = if tag.is_some() { HEAD } else { 4 };
        BodyComparison { allowed, tag, head, one: &one[head..], other: &other[head..] }
    }

    fn part(&self, part: &'static str, position: usize, one: usize, other: usize) -> Difference {
        Difference { part, position, recorded: self.head + one, received: self.head + other }
    }

    /// Where two parts differ, if they do.
    fn differ(&self, part: &'static str, one: &[u8], other: &[u8]) -> Option<Difference> {
        let shared = same(one, other);
        let at = |body, text| place(body, text) + shared;
        (one != other).then(|| self.part(part, 0, at(self.one, one), at(self.other, other)))
    }

    fn whole(&self) -> Difference {
        let part = match self.tag {
            Some(b'Q') => "the query",
            Some(b'd') => "the data",
            Some(b'f') => "the reason",
            _ => "the body",
        };
        let at = same(self.one, self.other);
        self.part(part, 0, at, at)
    }

    fn difference(&self) -> Difference {
        let read =
            (Message::read_body(self.tag, self.one), Message::read_body(self.tag, self.other));
        let found = match &read {
            (Ok(Message::Startup(one)), Ok(Message::Startup(other))) => {
                self.of_startups(one, other)
            }
            (Ok(Message::Parse(one)), Ok(Message::Parse(other))) => {
                Some(self.of_parses(one, other))
            }
            (Ok(Message::Bind(one)), Ok(Message::Bind(other))) => Some(self.of_binds(one, other)),
            (Ok(Message::Execute(one)), Ok(Message::Execute(other))) => {
                Some(self.of_executes(one, other))
            }
            (Ok(Message::Describe(one)), Ok(Message::Describe(other)))
            | (Ok(Message::Close(one)), Ok(Message::Close(other))) => self.of_targets(*one, *other),
            _ => None,
        };
        found.unwrap_or_else(|| self.whole())
    }

    fn names(&self, part: &'static str, one: &[u8], other: &[u8]) -> Difference {
        self.part(part, 0, place(self.one, one), place(self.other, other))
    }

    fn of_parses(&self, one: &Parse<'_>, other: &Parse<'_>) -> Difference {
        let types = one.types != other.types;
        self.differ("the query", &one.query, &other.query)
            .or_else(|| {
                types.then(|| self.after("the types of the parameters", &one.query, &other.query))
            })
            .unwrap_or_else(|| {
                self.names("the name of the statement", &one.statement, &other.statement)
            })
    }

    /// A part that follows a text and its NUL.
    fn after(&self, part: &'static str, one: &[u8], other: &[u8]) -> Difference {
        let end = |body: &[u8], text: &[u8]| place(body, text) + text.len() + 1;
        self.part(part, 0, end(self.one, one), end(self.other, other))
    }

    fn of_binds(&self, one: &Bind<'_>, other: &Bind<'_>) -> Difference {
        if one.formats != other.formats {
            return self.after("the formats of the values", &one.statement, &other.statement);
        }
        if one.values.len() != other.values.len() {
            return self.after("the number of values", &one.statement, &other.statement);
        }
        let is_any_value = self.allowed.any_value();
        let mut pairs = one.values.iter().zip(other.values.iter()).enumerate();
        let differing =
            pairs.find(|(place, (one, other))| one != other && !is_any_value(place + 1));
        if let Some((position, _)) = differing {
            return self.of_values(position, one, other);
        }
        if one.result_formats != other.result_formats {
            let at = same(self.one, self.other);
            return self.part("the formats of the result", 0, at, at);
        }
        if one.portal.is_empty() != other.portal.is_empty() {
            return self.names("the name of the portal", &one.portal, &other.portal);
        }
        self.names("the name of the statement", &one.statement, &other.statement)
    }

    /// Where two values differ that have a place in the list, with the lengths before them.
    fn of_values(&self, position: usize, one: &Bind<'_>, other: &Bind<'_>) -> Difference {
        let at = |body: &[u8], bind: &Bind<'_>| {
            let formats = 2 + 2 * bind.formats.len();
            let begin = place(body, &bind.statement) + bind.statement.len() + 1 + formats + 2;
            let before =
                bind.values.iter().take(position).map(|it| 4 + it.bytes().map_or(0, <[u8]>::len));
            begin + before.sum::<usize>()
        };
        let (one_at, other_at) = (at(self.one, one), at(self.other, other));
        let shared = same(
            &self.one[one_at.min(self.one.len())..],
            &self.other[other_at.min(self.other.len())..],
        );
        self.part("the value of parameter", position + 1, one_at + shared, other_at + shared)
    }

    fn of_executes(&self, one: &Execute<'_>, other: &Execute<'_>) -> Difference {
        match one.max_rows == other.max_rows {
            true => self.names("the name of the portal", &one.portal, &other.portal),
            false => self.after("the most rows", &one.portal, &other.portal),
        }
    }

    fn of_targets(&self, one: Target<'_>, other: Target<'_>) -> Option<Difference> {
        match (one, other) {
            (Target::Statement(one), Target::Statement(other)) => {
                Some(self.names("the name of the statement", &one, &other))
            }
            (Target::Portal(one), Target::Portal(other)) => {
                Some(self.names("the name of the portal", &one, &other))
            }
            _ => None,
        }
    }

    /// Where two Startups part, whose settings have no order.
    fn of_startups(&self, one: &Startup<'_>, other: &Startup<'_>) -> Option<Difference> {
        if one.minor != other.minor {
            return Some(self.part("the version of the protocol", 0, 0, 0));
        }
        let compared = |it: &&[u8]| !self.allowed.rules.is_any_setting(it);
        let missing = missing_of(&one.settings, &other.settings).find(compared);
        let more = missing_of(&other.settings, &one.settings).find(compared);
        let changed = one.settings.iter().filter(|it| compared(&it.name.0)).find_map(|it| {
            let value = other.settings.value(it.name.0)?;
            self.differ("a setting", &it.value, &value)
        });
        let end = |body: &[u8]| body.len().saturating_sub(1);
        let (ours, theirs) = (self.one, self.other);
        let added =
            |name| self.part("a setting that wasn't recorded", 0, end(ours), place(theirs, name));
        let gone = |name| self.part("a setting that is missing", 0, place(ours, name), end(theirs));
        changed.or_else(|| more.map(added)).or_else(|| missing.map(gone))
    }
}

/// The names of settings that the others don't have.
fn missing_of<'a, 's>(
    of: &'s Settings<'a>,
    others: &'s Settings<'_>,
) -> impl Iterator<Item = &'a [u8]> + 's {
    of.iter().map(|it| it.name.0).filter(|name| others.value(name).is_none())
}
