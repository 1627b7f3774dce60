//! Transactions that read a snapshot which other connections read, too, as the jobs of a dump do. Which connection gets which
//! job is a matter of timing, so that each may be asked what another one was:
//!
//! - The transaction only reads, and imports the snapshot by its name: its data are those of the others that import it.
//! - All connections that import the snapshot said the same from their Startups up to there: settings, names and all else that
//!   a session has are the same.
//! - The transaction has several turns. One ends where nothing that was said since the import matters to what comes later: it
//!   takes no cursor, portal, savepoint or large object that was made before. Once a setting or the like may have changed,
//!   or the transaction has failed, no turn ends before the transaction does.
//!
//! So the answers of a turn are the same on any of these connections that is between two turns, but for what shows the time or
//! the connection itself. Prepared statements don't matter to that: what takes one is compared by its text.

use super::connection_builder::{ConnectionBuilder, ExchangeEnd};
use super::requests::{CompareBy, Requests};
use crate::fingerprint::{imported, is_read_only, statement_effects, StatementEffect};
use pgmsg::frontend::{Message, Target};
use std::collections::{HashMap, HashSet};

/// Reads the transactions of a connection.
#[derive(Default)]
pub struct SnapshotTracker {
    is_read_only: bool,
    /// The snapshot that the exchange at hand imports.
    imported: Option<Vec<u8>>,
    open: Option<SnapshotTransaction>,
    over: Vec<SnapshotTransaction>,
}

/// A transaction that reads a snapshot.
struct SnapshotTransaction {
    snapshot: Vec<u8>,
    /// The last message of the exchange that imported it.
    import: u32,
    exchanges: Vec<SnapshotExchange>,
    /// The first message of which the exchange at hand takes something, of those that made it.
    needs: u32,
    made: HashMap<Resource, u32>,
    /// Statements that were prepared since, which only read.
    statements: HashSet<Vec<u8>>,
    /// Something may have been left that isn't among these.
    has_left: bool,
}

/// What one message makes and another takes.
#[derive(PartialEq, Eq, Hash)]
enum Resource {
    /// A portal, which a cursor is.
    Portal(Vec<u8>),
    Savepoints,
    /// What is called by FunctionCalls, as large objects are.
    Calls,
}

/// An exchange after the import.
struct SnapshotExchange {
    end: u32,
    needs: u32,
    /// Another one can follow that takes nothing: the transaction goes on, and has neither failed nor left anything.
    is_clean: bool,
}

/// Nothing is taken.
const NOTHING: u32 = u32::MAX;

impl SnapshotTracker {
    /// Takes a message by its number in the connection.
    pub fn say(&mut self, request: u32, tag: Option<u8>, body: &[u8]) {
        if let Some(transaction) = &mut self.open {
            return transaction.say(request, tag, body);
        }
        if let Some(text) = text_of(tag, body) {
            self.is_read_only = is_read_only(text).unwrap_or(self.is_read_only);
            if self.is_read_only {
                self.imported = imported(text).map(<[u8]>::to_vec).or(self.imported.take());
            }
        }
    }

    /// Ends an exchange.
    pub fn end(&mut self, end: ExchangeEnd) {
        let imported = self.imported.take().filter(|_| self.is_read_only && end.status == b'T');
        match (&mut self.open, imported) {
            (Some(transaction), _) => transaction.end(end),
            (None, Some(snapshot)) => {
                self.open = Some(SnapshotTransaction::new(snapshot, end.request))
            }
            (None, None) => {}
        }
        if end.status == b'I' {
            self.is_read_only = false;
            self.close();
        }
    }

    /// Ends the transaction at hand.
    pub fn close(&mut self) {
        self.over.extend(self.open.take());
    }
}

impl SnapshotTransaction {
    fn new(snapshot: Vec<u8>, import: u32) -> SnapshotTransaction {
        SnapshotTransaction {
            snapshot,
            import,
            exchanges: Vec::new(),
            needs: NOTHING,
            made: HashMap::new(),
            statements: HashSet::new(),
            has_left: false,
        }
    }

    fn say(&mut self, request: u32, tag: Option<u8>, body: &[u8]) {
        match Message::read_body(tag, body) {
            Ok(Message::Query(text)) => self.run(request, &text),
            Ok(Message::Parse(parse)) => {
                self.run(request, &parse.query);
                self.statements.insert(parse.statement.to_vec());
            }
            Ok(Message::Bind(bind)) => {
                self.take_statement(&bind.statement);
                self.made.insert(Resource::Portal(bind.portal.to_vec()), request);
            }
            Ok(Message::Execute(execute)) => self.take(Resource::Portal(execute.portal.to_vec())),
            Ok(Message::Describe(Target::Portal(name)) | Message::Close(Target::Portal(name))) => {
                self.take(Resource::Portal(name.to_vec()))
            }
            Ok(Message::FunctionCall(_)) => self.make_or_take(Resource::Calls, request),
            Ok(Message::Describe(_) | Message::Close(_) | Message::Sync) => {}
            _ => self.has_left = true,
        }
    }

    fn run(&mut self, request: u32, text: &[u8]) {
        for effect in statement_effects(text) {
            match effect {
                StatementEffect::Reads => {}
                StatementEffect::MakesCursor(name) => {
                    self.made.insert(Resource::Portal(name), request);
                }
                StatementEffect::TakesCursor(name) if name == b"all" => self.needs = self.import,
                StatementEffect::TakesCursor(name) => self.take(Resource::Portal(name)),
                StatementEffect::MakesStatement(name) => drop(self.statements.insert(name)),
                StatementEffect::TakesStatement(name) => self.take_statement(&name),
                StatementEffect::Savepoint => self.make_or_take(Resource::Savepoints, request),
                StatementEffect::Leaves => self.has_left = true,
            }
        }
    }

    /// Takes what was made by a message. What none is known to have made was there at the import.
    fn take(&mut self, thing: Resource) {
        self.needs = self.needs.min(self.made.get(&thing).copied().unwrap_or(self.import));
    }

    /// Takes what the first message makes that names it.
    fn make_or_take(&mut self, thing: Resource, request: u32) {
        let made = *self.made.entry(thing).or_insert(request);
        self.needs = self.needs.min(made);
    }

    /// Runs a statement, of which it isn't known what it does where it was prepared before the import.
    fn take_statement(&mut self, name: &[u8]) {
        self.has_left |= !self.statements.contains(name);
    }

    fn end(&mut self, end: ExchangeEnd) {
        self.exchanges.push(SnapshotExchange {
            end: end.request,
            needs: std::mem::replace(&mut self.needs, NOTHING),
            is_clean: end.status == b'T' && !self.has_left,
        });
    }

    /// The messages that end the turns after which the transaction goes on.
    fn ends(&self) -> Vec<u32> {
        // What the last exchange takes that isn't over.
        let (mut ends, mut needs) = (Vec::new(), self.needs);
        for exchange in self.exchanges.iter().rev() {
            if exchange.is_clean && needs > exchange.end {
                ends.push(exchange.end);
            }
            needs = needs.min(exchange.needs);
        }
        ends.extend((needs > self.import).then_some(self.import));
        ends
    }

    /// Whether two connections said the same up to their imports, and nothing since that is compared as bytes.
    fn is_like(&self, requests: &Requests, other: &SnapshotTransaction, others: &Requests) -> bool {
        let last = self.exchanges.last().map_or(self.import, |it| it.end);
        let compare_by = |it: u32| requests.compare_by(it as usize);
        self.import == other.import
            && (0..=last).all(|it| matches!(compare_by(it), CompareBy::Fingerprint(_)))
            && (0..=self.import).all(|it| compare_by(it) == others.compare_by(it as usize))
    }
}

/// Has turns end within the transactions that read a snapshot which others read, too. Where the connections that import one
/// didn't all say the same before, its transactions stay whole: those that begin alike can be taken for each other still.
pub fn share(mut builders: Vec<&mut ConnectionBuilder>) {
    let mut all: HashMap<Vec<u8>, Vec<(usize, SnapshotTransaction)>> = HashMap::new();
    for (number, builder) in builders.iter_mut().enumerate() {
        for transaction in std::mem::take(&mut builder.tracker.over) {
            all.entry(transaction.snapshot.clone()).or_default().push((number, transaction));
        }
    }
    let requests = |number: usize| &builders[number].requests;
    all.retain(|_, transactions| {
        let (first, one) = &transactions[0];
        transactions.len() > 1
            && transactions
                .iter()
                .all(|(it, transaction)| transaction.is_like(requests(*it), one, requests(*first)))
    });
    for (snapshot, transactions) in all.into_values().enumerate() {
        for (number, transaction) in transactions {
            let ends = transaction.ends().into_iter().map(|end| (end, snapshot as u32));
            builders[number].snapshots.extend(ends);
        }
    }
}

/// The text of SQL in a message.
fn text_of(tag: Option<u8>, body: &[u8]) -> Option<&[u8]> {
    let text = match tag {
        Some(b'Q') => body,
        Some(b'P') => &body[body.iter().position(|it| *it == 0)? + 1..],
        _ => return None,
    };
    text.split(|it| *it == 0).next()
}

#[cfg(test)]
mod tests {
    use super::*;

    /// Where turns end in a transaction in which these exchanges follow its import, the first of which has the number 3. Each
    /// is a text, before which the letter stands in which its ReadyForQuery ends, or a FunctionCall where it is empty.
    fn ends(exchanges: &[&str]) -> Vec<u32> {
        let mut tracker = SnapshotTracker::default();
        let begin = ["TBEGIN READ ONLY", "TSET TRANSACTION SNAPSHOT '1'"];
        for (text, request) in begin.iter().chain(exchanges).zip(1..) {
            let (status, text) = text.split_at(1);
            match text {
                "" => tracker.say(request, Some(b'F'), b"\0\0\x03\xb8\0\0\0\0\0\x01"),
                text => tracker.say(request, Some(b'Q'), format!("{text}\0").as_bytes()),
            }
            tracker.end(ExchangeEnd { request, status: status.as_bytes()[0] });
        }
        tracker.close();
        let mut ends = tracker.over.first().map(SnapshotTransaction::ends).unwrap_or_default();
        ends.sort_unstable();
        ends
    }

    #[test]
    fn a_turn_ends_after_each_exchange_that_only_reads() {
        assert_eq!(ends(&[]), [2]);
        assert_eq!(ends(&["TLOCK TABLE a", "TCOPY a TO STDOUT", "TSELECT 1"]), [2, 3, 4, 5]);
        assert_eq!(ends(&["TSELECT 1", "ICOMMIT", "ISELECT 1"]), [2, 3]);
    }

    #[test]
    fn what_is_taken_later_is_of_one_turn() {
        let cursor = ["TSELECT 1", "TDECLARE a CURSOR FOR SELECT 1", "TFETCH a", "TFETCH a"];
        assert_eq!(ends(&cursor), [2, 3, 6]);
        assert_eq!(ends(&[&cursor[..], &cursor].concat()), [2, 3, 6, 7, 10]);
        assert_eq!(ends(&["TSELECT 1", "TFETCH of_before"]), [4]);
        assert_eq!(ends(&["TSELECT 1", "T", "T", "TSELECT 1"]), [2, 3, 5, 6]);
        assert_eq!(ends(&["TSAVEPOINT a", "TSELECT 1", "TRELEASE a", "TSELECT 1"]), [2, 5, 6]);
    }

    #[test]
    fn no_turn_ends_once_something_is_left() {
        for left in ["TSET a = 1", "TSELECT set_config('a', '1', true)", "TEXECUTE of_before"] {
            assert_eq!(ends(&["TSELECT 1", left, "TSELECT 1", "TRESET a"]), [2, 3], "{left}");
        }
        let failed = ["TSELECT 1", "TSAVEPOINT a", "ESELECT 1/0", "TROLLBACK TO a", "TSELECT 1"];
        assert_eq!(ends(&failed), [2, 3, 6, 7]);
    }

    #[test]
    fn only_an_import_of_what_only_reads_counts() {
        let is_reading = |texts: &[(&str, u8)]| {
            let mut tracker = SnapshotTracker::default();
            for ((text, status), request) in texts.iter().zip(1..) {
                tracker.say(request, Some(b'Q'), format!("{text}\0").as_bytes());
                tracker.end(ExchangeEnd { request, status: *status });
            }
            tracker.open.is_some()
        };
        let import = "SET TRANSACTION SNAPSHOT '1'";
        assert!(is_reading(&[("BEGIN READ ONLY", b'T'), (import, b'T')]));
        assert!(!is_reading(&[("BEGIN READ ONLY", b'T'), (import, b'E')]));
        assert!(!is_reading(&[("BEGIN", b'T'), (import, b'T')]));
        assert!(!is_reading(&[("BEGIN READ ONLY", b'T'), ("COMMIT", b'I'), (import, b'T')]));
    }
}
