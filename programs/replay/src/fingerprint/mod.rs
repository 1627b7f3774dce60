//! What of a client's messages is compared: their fingerprint, in which names stand for what they name, and what may differ is
//! left out. Two messages fit where their fingerprints are the same.

mod fingerprints;
mod names;
mod read_only;
mod sql;

pub use fingerprints::{Fingerprints, UNRECORDED};
pub use read_only::{imported, is_read_only, statement_effects, StatementEffect};
pub use sql::is_rollback;

use crate::rules::ReplayRules;
use names::{NameEffect, SessionNames, StatementRules};
use pgmsg::frontend::{Bind, Message, Parse, Startup, Target};
use std::sync::Arc;

/// Literals of SQL that may differ.
#[derive(Clone, Copy, Debug, PartialEq, Eq, clap::ValueEnum)]
pub enum LiteralKind {
    /// Dates and times in quotes
    Time,
    /// UUIDs in quotes
    Uuid,
    /// Numbers, also in quotes
    Number,
    /// Any quoted text
    Text,
}

/// How a message is answered whose statement the rules let a client say though it isn't recorded.
#[derive(Clone, Debug, PartialEq, Eq)]
pub enum IgnoredRequest {
    Query(String),
    Parse,
    Bind,
    Describe { is_statement: bool },
    Execute(String),
    Close,
}

/// Makes the fingerprints of a session's messages.
pub struct Fingerprinter {
    rules: Arc<ReplayRules>,
    names: SessionNames,
    fingerprint: Vec<u8>,
    effects: Vec<NameEffect>,
    ignored: Option<IgnoredRequest>,
}

/// A value that may differ, and one that is NULL, in the place of a length.
const FREE: u32 = u32::MAX - 1;
const NULL: u32 = u32::MAX;

impl Fingerprinter {
    pub fn new(rules: Arc<ReplayRules>) -> Fingerprinter {
        Fingerprinter {
            rules,
            names: SessionNames::default(),
            fingerprint: Vec::new(),
            effects: Vec::new(),
            ignored: None,
        }
    }

    /// The fingerprint of a message by its tag, of which a Startup has none. What it does takes effect once it is settled.
    pub fn message(&mut self, tag: Option<u8>, body: &[u8]) -> &[u8] {
        self.fingerprint.clear();
        self.effects.clear();
        self.ignored = None;
        self.fingerprint.push(tag.unwrap_or(0));
        match Message::read_body(tag, body) {
            Ok(message) => self.put(&message, body),
            // What can't be read as what its tag says is compared as it is.
            Err(_) => self.fingerprint.extend_from_slice(body),
        }
        &self.fingerprint
    }

    /// How the last message is answered where the rules let a client say it.
    pub fn ignored(&self) -> Option<&IgnoredRequest> {
        self.ignored.as_ref()
    }

    /// The place of the savepoint that the last message goes back to, where it does, among those that there are.
    pub fn undone(&self) -> Option<usize> {
        self.names.undone(&self.effects)
    }

    /// How many savepoints there are.
    pub fn savepoints(&self) -> usize {
        self.names.savepoints()
    }

    /// Lets the last message take effect, whose fingerprint has this number.
    pub fn settle(&mut self, fingerprint: u32) {
        self.names.settle(fingerprint, &mut self.effects);
    }

    /// Whether names stand for the same here and there.
    pub fn has_names_of(&self, other: &Fingerprinter) -> bool {
        self.names == other.names
    }

    /// Forgets the names that a transaction takes along when it ends.
    pub fn end_transaction(&mut self) {
        self.names.end_transaction();
    }

    fn put(&mut self, message: &Message<'_>, body: &[u8]) {
        match message {
            Message::Startup(startup) => self.put_startup(startup),
            Message::Query(query) => self.put_query(query),
            Message::Parse(parse) => self.put_parse(parse),
            Message::Bind(bind) => self.put_bind(bind),
            Message::Describe(target) => self.put_describe(*target),
            Message::Close(target) => self.put_close(*target),
            Message::Execute(execute) => {
                let about = self.names.rules_of_portal(&execute.portal);
                self.ignored = about.ignored.clone().map(IgnoredRequest::Execute);
                self.names.put_portal(&mut self.fingerprint, &execute.portal, false);
                self.fingerprint.extend_from_slice(&execute.max_rows.to_be_bytes());
            }
            _ => self.fingerprint.extend_from_slice(body),
        }
    }

    /// Adds the settings as a set.
    fn put_startup(&mut self, startup: &Startup<'_>) {
        let settings = startup.settings.iter().filter(|it| !self.rules.is_any_setting(&it.name));
        let mut settings: Vec<_> = settings.map(|it| (it.name, it.value)).collect();
        settings.sort_unstable();
        self.fingerprint.extend_from_slice(&startup.minor.to_be_bytes());
        for (name, value) in settings {
            put_text(&mut self.fingerprint, &name);
            put_text(&mut self.fingerprint, &value);
        }
    }

    fn put_sql(&mut self, text: &[u8]) {
        let literals = self.rules.literals();
        sql::put(&mut self.fingerprint, text, literals, &self.names, &mut self.effects);
    }

    fn put_query(&mut self, query: &[u8]) {
        let rules = self.rules.clone();
        let text = rules.text(query);
        self.ignored = rules.ignored(&text).map(|it| IgnoredRequest::Query(it.to_owned()));
        self.put_sql(&text);
    }

    fn put_parse(&mut self, parse: &Parse<'_>) {
        let rules = self.rules.clone();
        let text = rules.text(&parse.query);
        let about = StatementRules {
            free: rules.free_parameters(&text),
            ignored: rules.ignored(&text).map(str::to_owned),
            holds: false,
        };
        self.ignored = about.ignored.is_some().then_some(IgnoredRequest::Parse);
        self.fingerprint.push(u8::from(parse.statement.is_empty()));
        put_numbers(&mut self.fingerprint, parse.types.iter().copied());
        self.put_sql(&text);
        self.effects.push(NameEffect::MakeStatement(parse.statement.to_vec(), Arc::new(about)));
    }

    fn put_bind(&mut self, bind: &Bind<'_>) {
        let about = self.names.rules_of_statement(&bind.statement);
        self.ignored = about.ignored.is_some().then_some(IgnoredRequest::Bind);
        self.fingerprint.push(u8::from(bind.portal.is_empty()));
        self.names.put_statement(&mut self.fingerprint, &bind.statement, false);
        put_numbers(&mut self.fingerprint, bind.formats.iter().map(|it| it.0 as u32));
        put_numbers(&mut self.fingerprint, bind.result_formats.iter().map(|it| it.0 as u32));
        for (place, value) in bind.values.iter().enumerate() {
            let is_free =
                about.free.contains(&(place + 1)) || self.rules.is_any_parameter(place + 1);
            match value.bytes() {
                _ if is_free => self.fingerprint.extend_from_slice(&FREE.to_be_bytes()),
                None => self.fingerprint.extend_from_slice(&NULL.to_be_bytes()),
                Some(value) => put_text(&mut self.fingerprint, value),
            }
        }
        self.effects.push(NameEffect::MakePortal(bind.portal.to_vec(), about));
    }

    fn put_describe(&mut self, target: Target<'_>) {
        let (is_statement, about) = match target {
            Target::Statement(name) => (true, self.names.rules_of_statement(&name)),
            Target::Portal(name) => (false, self.names.rules_of_portal(&name)),
        };
        self.ignored = about.ignored.is_some().then_some(IgnoredRequest::Describe { is_statement });
        self.put_target(target, false);
    }

    fn put_close(&mut self, target: Target<'_>) {
        let (about, effect) = match target {
            Target::Statement(it) => {
                (self.names.rules_of_statement(&it), NameEffect::DropStatement(it.to_vec()))
            }
            Target::Portal(it) => {
                (self.names.rules_of_portal(&it), NameEffect::DropPortal(it.to_vec()))
            }
        };
        self.ignored = about.ignored.is_some().then_some(IgnoredRequest::Close);
        self.put_target(target, true);
        self.effects.push(effect);
    }

    fn put_target(&mut self, target: Target<'_>, is_dropped: bool) {
        match target {
            Target::Statement(name) => {
                self.fingerprint.push(b'S');
                self.names.put_statement(&mut self.fingerprint, &name, is_dropped);
            }
            Target::Portal(name) => {
                self.fingerprint.push(b'P');
                self.names.put_portal(&mut self.fingerprint, &name, is_dropped);
            }
        }
    }
}

/// Adds a text with its length before it.
fn put_text(fingerprint: &mut Vec<u8>, text: &[u8]) {
    fingerprint.extend_from_slice(&(text.len() as u32).to_be_bytes());
    fingerprint.extend_from_slice(text);
}

/// Adds numbers with their count before them.
fn put_numbers(fingerprint: &mut Vec<u8>, numbers: impl Iterator<Item = u32>) {
    let begin = fingerprint.len();
    fingerprint.extend_from_slice(&[0; 4]);
    let mut count = 0u32;
    for number in numbers {
        fingerprint.extend_from_slice(&number.to_be_bytes());
        count += 1;
    }
    fingerprint[begin..begin + 4].copy_from_slice(&count.to_be_bytes());
}
