//! Names that clients invent, as variables: each stands for what it names. Statements and portals of the protocol share
//! their names with those that SQL prepares and declares.

use std::collections::HashMap;
use std::sync::Arc;

/// What SQL does with a name.
#[derive(Clone, Copy, Debug, PartialEq, Eq)]
pub enum NameAction {
    Savepoint,
    Release,
    Back,
    Declare,
    Prepare,
    Execute,
    Deallocate,
    Close,
    Fetch,
}

/// What a message does with names once it fits.
#[derive(Clone, Debug)]
pub enum NameEffect {
    MakeStatement(Vec<u8>, Arc<StatementRules>),
    MakePortal(Vec<u8>, Arc<StatementRules>),
    MakeSavepoint(Vec<u8>),
    DropStatement(Vec<u8>),
    DropStatements,
    DropPortal(Vec<u8>),
    DropPortals,
    /// The savepoint goes, and those after it.
    Release(Vec<u8>),
    /// Those after it go.
    Back(Vec<u8>),
    Nothing,
}

impl NameEffect {
    /// What a statement of SQL does.
    pub fn of(action: NameAction, name: Vec<u8>, holds: bool) -> NameEffect {
        let about = || Arc::new(StatementRules { holds, ..StatementRules::default() });
        match action {
            NameAction::Savepoint => NameEffect::MakeSavepoint(name),
            NameAction::Release => NameEffect::Release(name),
            NameAction::Back => NameEffect::Back(name),
            NameAction::Declare => NameEffect::MakePortal(name, about()),
            NameAction::Prepare => NameEffect::MakeStatement(name, about()),
            NameAction::Deallocate if name == b"all" => NameEffect::DropStatements,
            NameAction::Deallocate => NameEffect::DropStatement(name),
            NameAction::Close if name == b"all" => NameEffect::DropPortals,
            NameAction::Close => NameEffect::DropPortal(name),
            NameAction::Execute | NameAction::Fetch => NameEffect::Nothing,
        }
    }
}

/// What the rules say of a statement, or of a portal of it.
#[derive(Debug, Default, PartialEq, Eq)]
pub struct StatementRules {
    /// The parameters whose values may differ, from 1 on.
    pub free: Vec<usize>,
    /// The tag of the command by which it is answered where it isn't recorded.
    pub ignored: Option<String>,
    /// It stays when the transaction ends.
    pub holds: bool,
}

/// What a name stands for.
#[derive(Clone, Debug, PartialEq, Eq)]
struct NameDefinition {
    /// The fingerprint of the message that made it.
    fingerprint: u32,
    /// How many others that the same fingerprint made were there.
    nth: u32,
    about: Arc<StatementRules>,
}

/// What the names of a session stand for.
#[derive(Clone, Debug, Default, PartialEq, Eq)]
pub struct SessionNames {
    statements: HashMap<Vec<u8>, NameDefinition>,
    portals: HashMap<Vec<u8>, NameDefinition>,
    savepoints: Vec<(Vec<u8>, NameDefinition)>,
}

/// How a name is put that stands for something, that nothing has, and that the same text has made.
const KNOWN: u8 = 1;
const UNKNOWN: u8 = 2;
const UNKNOWN_AND_GONE: u8 = 3;
const MADE_HERE: u8 = 4;
const ALL: u8 = 5;

impl NameDefinition {
    fn put(&self, out: &mut Vec<u8>) {
        out.push(KNOWN);
        out.extend_from_slice(&self.fingerprint.to_be_bytes());
        out.extend_from_slice(&self.nth.to_be_bytes());
    }
}

/// Adds a name by what it stands for. One that nothing made counts by its letters, unless it is dropped here: a client
/// may drop what it invents before it makes it.
fn put_name(out: &mut Vec<u8>, found: Option<&NameDefinition>, name: &[u8], is_dropped: bool) {
    match found {
        Some(definition) => definition.put(out),
        None if is_dropped && !name.is_empty() => out.push(UNKNOWN_AND_GONE),
        None => {
            out.push(UNKNOWN);
            out.extend_from_slice(&(name.len() as u32).to_be_bytes());
            out.extend_from_slice(name);
        }
    }
}

impl SessionNames {
    pub fn put_statement(&self, out: &mut Vec<u8>, name: &[u8], is_dropped: bool) {
        put_name(out, self.statements.get(name), name, is_dropped);
    }

    pub fn put_portal(&self, out: &mut Vec<u8>, name: &[u8], is_dropped: bool) {
        put_name(out, self.portals.get(name), name, is_dropped);
    }

    /// What the rules say of a statement.
    pub fn rules_of_statement(&self, name: &[u8]) -> Arc<StatementRules> {
        self.statements.get(name).map(|it| it.about.clone()).unwrap_or_default()
    }

    /// What the rules say of a portal.
    pub fn rules_of_portal(&self, name: &[u8]) -> Arc<StatementRules> {
        self.portals.get(name).map(|it| it.about.clone()).unwrap_or_default()
    }

    /// Adds a name of SQL, as it is before the text takes effect but for the effects so far.
    pub fn put_taken(
        &self,
        out: &mut Vec<u8>,
        action: NameAction,
        name: &[u8],
        effects: &[NameEffect],
    ) {
        let made = effects.iter().rposition(|effect| match effect {
            NameEffect::MakeStatement(it, _) => {
                matches!(action, NameAction::Execute | NameAction::Deallocate) && it == name
            }
            NameEffect::MakePortal(it, _) => {
                matches!(action, NameAction::Fetch | NameAction::Close) && it == name
            }
            NameEffect::MakeSavepoint(it) => {
                matches!(action, NameAction::Release | NameAction::Back) && it == name
            }
            _ => false,
        });
        if let Some(place) = made {
            out.extend_from_slice(&[MADE_HERE, place as u8]);
            return;
        }
        match action {
            NameAction::Savepoint | NameAction::Declare | NameAction::Prepare => {
                out.push(MADE_HERE)
            }
            NameAction::Deallocate | NameAction::Close if name == b"all" => out.push(ALL),
            NameAction::Execute => self.put_statement(out, name, false),
            NameAction::Deallocate => self.put_statement(out, name, true),
            NameAction::Fetch => self.put_portal(out, name, false),
            NameAction::Close => self.put_portal(out, name, true),
            NameAction::Release | NameAction::Back => {
                let found = self.savepoints.iter().rev().find(|(it, _)| it == name);
                put_name(out, found.map(|(_, it)| it), name, false);
            }
        }
    }

    /// The place of the savepoint that these effects go back to first.
    pub fn undone(&self, effects: &[NameEffect]) -> Option<usize> {
        let name = effects.iter().find_map(|it| match it {
            NameEffect::Back(name) => Some(name),
            _ => None,
        });
        self.savepoints.iter().rposition(|(it, _)| Some(it) == name)
    }

    pub fn savepoints(&self) -> usize {
        self.savepoints.len()
    }

    /// Does what a message with a fingerprint does.
    pub fn settle(&mut self, fingerprint: u32, effects: &mut Vec<NameEffect>) {
        for (place, effect) in effects.drain(..).enumerate() {
            self.apply(fingerprint, place as u32, effect);
        }
    }

    fn apply(&mut self, fingerprint: u32, place: u32, effect: NameEffect) {
        let made =
            |nth: usize, about| NameDefinition { fingerprint, nth: place + nth as u32, about };
        match effect {
            NameEffect::MakeStatement(name, about) => {
                self.statements.insert(name, made(0, about));
            }
            NameEffect::MakePortal(name, about) => {
                // The unnamed one is made anew each time.
                self.portals.remove(&name);
                let alike =
                    self.portals.values().filter(|it| it.fingerprint == fingerprint).count();
                self.portals.insert(name, made(alike, about));
            }
            NameEffect::MakeSavepoint(name) => {
                let alike = self.savepoints.len();
                self.savepoints.push((name, made(alike, Arc::default())));
            }
            NameEffect::DropStatements => self.statements.clear(),
            NameEffect::DropStatement(name) => drop(self.statements.remove(&name)),
            NameEffect::DropPortals => self.portals.clear(),
            NameEffect::DropPortal(name) => drop(self.portals.remove(&name)),
            NameEffect::Release(name) => self.cut_savepoints(&name, 0),
            NameEffect::Back(name) => self.cut_savepoints(&name, 1),
            NameEffect::Nothing => {}
        }
    }

    fn cut_savepoints(&mut self, name: &[u8], kept: usize) {
        if let Some(place) = self.savepoints.iter().rposition(|(it, _)| it == name) {
            self.savepoints.truncate(place + kept);
        }
    }

    /// Forgets what a transaction takes along when it ends.
    pub fn end_transaction(&mut self) {
        self.savepoints.clear();
        self.portals.retain(|_, it| it.about.holds);
    }
}
