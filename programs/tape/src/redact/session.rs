//! Which columns a row has, and which statement a Bind is of: sessions are followed so far.

use super::followed_session::FollowedSession;
use super::masked_names::MaskedNames;
use super::request_queue::{PendingRequest, RequestQueue};
use pgmsg::backend::{self, Column};
use pgmsg::frontend::{self, Target};
use pgmsg::Format;
use std::cell::RefCell;
use std::collections::{BTreeMap, BTreeSet, HashMap};
use std::rc::Rc;

/// The name, the type and the format of a column.
#[derive(Clone, Debug, PartialEq, Eq)]
pub struct ColumnDescription {
    pub name: Vec<u8>,
    pub type_id: u32,
    pub format: Format,
}

impl ColumnDescription {
    fn of(column: &Column<'_>) -> ColumnDescription {
        ColumnDescription {
            name: column.name.to_vec(),
            type_id: column.type_id,
            format: column.format,
        }
    }
}

pub type SharedColumns = Rc<RefCell<Vec<ColumnDescription>>>;

/// A prepared statement. What isn't known of it comes with the server's answers.
#[derive(Clone, Debug, Default)]
pub struct PreparedStatement {
    pub sql: Rc<Vec<u8>>,
    types: Rc<RefCell<Vec<u32>>>,
    columns: SharedColumns,
}

impl PreparedStatement {
    /// The type of a parameter, by its position from 0 on; 0 where it isn't known.
    pub fn type_of(&self, position: usize) -> u32 {
        self.types.borrow().get(position).copied().unwrap_or_default()
    }
}

/// A portal, with the formats of its results.
#[derive(Clone, Debug, Default)]
pub struct Portal {
    columns: SharedColumns,
    formats: Vec<Format>,
}

/// What is known of a session.
#[derive(Default)]
pub struct SessionState {
    statements: HashMap<Vec<u8>, PreparedStatement>,
    /// Statements of Parses that the server refuses, by their names: a client may have sent the values of theirs too.
    refused: HashMap<Vec<u8>, PreparedStatement>,
    portals: HashMap<Vec<u8>, Portal>,
    pending: RequestQueue,
    followed: FollowedSession,
    /// The server's message is a ReadyForQuery for one of the Syncs of a COPY that failed.
    is_of_group: bool,
    /// How many Parses and Binds the client has sent.
    made: u32,
    /// The columns of the rows of a Query.
    columns: Vec<ColumnDescription>,
    /// The names of statements and portals that have secrets.
    pub names: MaskedNames,
}

/// The format of a value by its position: none is text, one is that of all.
pub fn format_of(formats: &[Format], position: usize) -> Format {
    match formats {
        [one] => *one,
        many => many.get(position).copied().unwrap_or(Format::TEXT),
    }
}

impl SessionState {
    /// The statement of a name.
    fn statement(&self, name: &[u8]) -> PreparedStatement {
        self.statements.get(name).cloned().unwrap_or_default()
    }

    /// The statements that a client may mean by a name: the server's, and one that the server refuses.
    pub fn meant(&self, name: &[u8]) -> Vec<PreparedStatement> {
        let all = [self.statements.get(name), self.refused.get(name)];
        all.into_iter().flatten().cloned().collect()
    }

    /// Whether the server makes nothing of the next Parse or Bind, as far as that is known.
    fn is_refused(&mut self) -> bool {
        self.made += 1;
        self.pending.push(PendingRequest::Make(self.made));
        self.pending.refused().contains(&self.made)
    }

    /// The columns of a row that comes now.
    pub fn columns(&self) -> Vec<ColumnDescription> {
        match self.pending.front() {
            Some(PendingRequest::Execute(portal)) => {
                let mut columns = portal.columns.borrow().clone();
                let formats = columns.iter_mut().enumerate();
                formats.for_each(|(at, it)| it.format = format_of(&portal.formats, at));
                columns
            }
            _ => self.columns.clone(),
        }
    }

    /// Takes the bytes of what a client says.
    pub fn said(&mut self, tag: Option<u8>, body: &[u8]) {
        self.followed.said(tag, body);
    }

    /// Takes the bytes of what a server answers.
    pub fn heard(&mut self, tag: Option<u8>, body: &[u8]) {
        self.is_of_group = self.followed.heard(tag, body);
    }

    /// Notes what a client says.
    pub fn client(&mut self, message: &frontend::Message<'_>) {
        use frontend::Message as M;
        let pending = match message {
            M::Parse(parse) => {
                let statement = PreparedStatement {
                    sql: Rc::new(parse.query.to_vec()),
                    types: Rc::new(RefCell::new(parse.types.to_vec())),
                    columns: SharedColumns::default(),
                };
                let name = parse.statement.to_vec();
                match self.is_refused() {
                    true => self.refused.insert(name, statement),
                    false => self.statements.insert(name, statement),
                };
                return;
            }
            M::Bind(bind) => {
                let columns = self.statement(&bind.statement).columns;
                let portal = Portal { columns, formats: bind.result_formats.to_vec() };
                if !self.is_refused() {
                    self.portals.insert(bind.portal.to_vec(), portal);
                }
                return;
            }
            M::Describe(Target::Statement(name)) => PendingRequest::Describe(self.statement(name)),
            M::Describe(Target::Portal(name)) => {
                PendingRequest::DescribePortal(self.portal(name).columns)
            }
            M::Execute(execute) => PendingRequest::Execute(self.portal(&execute.portal)),
            M::Startup(_) | M::Query(_) | M::FunctionCall(_) => PendingRequest::Query,
            M::Sync => PendingRequest::Sync,
            M::CopyDone | M::CopyFail(_) => PendingRequest::DataEnd,
            _ => return,
        };
        self.pending.push(pending);
    }

    fn portal(&self, name: &[u8]) -> Portal {
        self.portals.get(name).cloned().unwrap_or_default()
    }

    /// Notes what a server answers.
    pub fn server(&mut self, message: &backend::Message<'_>) {
        use backend::Message as M;
        match (message, self.pending.front()) {
            (M::ParameterDescription(types), Some(PendingRequest::Describe(statement))) => {
                *statement.types.borrow_mut() = types.to_vec();
            }
            (M::RowDescription(columns), _) => {
                self.describe(columns.iter().map(ColumnDescription::of).collect())
            }
            (M::ParseComplete | M::BindComplete, Some(PendingRequest::Make(_)))
            | (M::NoData, Some(PendingRequest::Describe(_) | PendingRequest::DescribePortal(_)))
            | (
                M::CommandComplete(_) | M::EmptyQueryResponse | M::PortalSuspended,
                Some(PendingRequest::Execute(_)),
            ) => self.pending.pop(),
            (M::CopyInResponse(_) | M::CopyBothResponse(_), _) => self.pending.begin_copy(),
            (M::ErrorResponse(_), _) => self.pending.fail(),
            (M::ReadyForQuery(_), _) if self.is_of_group => self.pending.ready_of_group(),
            (M::ReadyForQuery(_), _) => self.pending.ready(),
            _ => {}
        }
    }

    /// Notes the columns of a statement or a portal that is described, or of the rows of a Query.
    fn describe(&mut self, columns: Vec<ColumnDescription>) {
        match self.pending.front() {
            Some(
                PendingRequest::Describe(PreparedStatement { columns: known, .. })
                | PendingRequest::DescribePortal(known),
            ) => {
                *known.borrow_mut() = columns;
                self.pending.pop();
            }
            _ => self.columns = columns,
        }
    }
}

/// The sessions that are open, and what the server refuses in each that is closed.
#[derive(Default)]
pub struct SessionStates {
    open: HashMap<u32, SessionState>,
    refused: BTreeMap<u32, BTreeSet<u32>>,
}

impl SessionStates {
    pub fn of(&mut self, connection: u32) -> &mut SessionState {
        let refused = &mut self.refused;
        self.open.entry(connection).or_insert_with(|| {
            let pending = RequestQueue::knowing(refused.remove(&connection).unwrap_or_default());
            SessionState { pending, ..SessionState::default() }
        })
    }

    pub fn close(&mut self, connection: u32) {
        if let Some(session) = self.open.remove(&connection) {
            let refused = session.pending.refused();
            if !refused.is_empty() {
                self.refused.insert(connection, refused.clone());
            }
        }
    }

    /// Closes all. Gives how many Parses and Binds the server refuses.
    pub fn end(&mut self) -> usize {
        let open: Vec<u32> = self.open.keys().copied().collect();
        open.into_iter().for_each(|it| self.close(it));
        self.refused.values().map(BTreeSet::len).sum()
    }
}

#[cfg(test)]
mod tests {
    use super::*;
    use pgmsg::backend::{CopyResponse, TransactionStatus};
    use pgmsg::frontend::{Bind, Execute, Parse, Startup};

    fn parse(name: &'static str) -> frontend::Message<'static> {
        frontend::Message::Parse(Parse {
            statement: name.into(),
            query: name.into(),
            ..Parse::default()
        })
    }

    fn described(name: &'static str) -> backend::Message<'static> {
        backend::Message::RowDescription([Column::new(name, 25)].into())
    }

    /// The names and the formats of the columns that a row has now.
    fn found(session: &SessionState) -> Vec<(String, i16)> {
        let columns = session.columns().into_iter();
        columns.map(|it| (String::from_utf8(it.name).unwrap(), it.format.0)).collect()
    }

    #[test]
    fn rows_of_a_pipeline_have_the_columns_of_their_statements() {
        use backend::Message as B;
        use frontend::Message as F;
        let ready = || B::ReadyForQuery(TransactionStatus::Idle);
        let bind = |portal: &'static str, statement: &'static str, formats: &'static [Format]| {
            let (portal, statement, result_formats) =
                (portal.into(), statement.into(), formats.into());
            F::Bind(Bind { portal, statement, result_formats, ..Bind::default() })
        };
        let execute =
            |portal: &'static str| F::Execute(Execute { portal: portal.into(), max_rows: 0 });
        let describe = |name: &'static str| F::Describe(Target::Statement(name.into()));
        let mut session = SessionState::default();
        for said in [parse("a"), describe("a"), parse("b"), describe("b"), F::Sync] {
            session.client(&said);
        }
        for said in [
            bind("p", "b", &[Format::BINARY]),
            execute("p"),
            bind("", "a", &[]),
            execute(""),
            F::Sync,
        ] {
            session.client(&said);
        }
        for answer in [
            B::ParseComplete,
            B::ParameterDescription([7].into()),
            described("a"),
            B::ParseComplete,
        ] {
            session.server(&answer);
        }
        for answer in [B::ParameterDescription([].into()), described("b"), ready(), B::BindComplete]
        {
            session.server(&answer);
        }
        assert_eq!(
            (session.statement(b"a").type_of(0), session.statement(b"b").type_of(0)),
            (7, 0)
        );
        assert_eq!(found(&session), [("b".to_owned(), 1)]);
        session.server(&B::CommandComplete("SELECT 1".into()));
        session.server(&B::BindComplete);
        assert_eq!(found(&session), [("a".to_owned(), 0)]);
    }

    /// Has both sides say messages, a letter each by their tags; `_` is a Startup, and `>` and `<` change the side.
    fn say(session: &mut SessionState, text: &str) {
        use backend::Message as B;
        use frontend::Message as F;
        let copy = || CopyResponse { format: 0, columns: [Format::TEXT].into() };
        let mut is_client = true;
        for letter in text.chars() {
            match (is_client, letter) {
                (_, '>' | '<') => is_client = letter == '>',
                (true, '_') => session.client(&F::Startup(Startup::default())),
                (true, 'Q') => session.client(&F::Query("COPY".into())),
                (true, 'E') => session.client(&F::Execute(Execute::default())),
                (true, 'H') => session.client(&F::Flush),
                (true, 'S') => session.client(&F::Sync),
                (true, 'd') => session.client(&F::CopyData("1".into())),
                (true, 'c') => session.client(&F::CopyDone),
                (true, 'f') => session.client(&F::CopyFail("".into())),
                (false, '1') => session.server(&B::ParseComplete),
                (false, '2') => session.server(&B::BindComplete),
                (false, 'G') => session.server(&B::CopyInResponse(copy())),
                (false, 'W') => session.server(&B::CopyBothResponse(copy())),
                (false, 'd') => session.server(&B::CopyData("1".into())),
                (false, 'c') => session.server(&B::CopyDone),
                (false, 'C') => session.server(&B::CommandComplete("COPY 1".into())),
                (false, 'E') => session.server(&B::ErrorResponse([].into())),
                (false, 'Z') => session.server(&B::ReadyForQuery(TransactionStatus::Idle)),
                other => panic!("{other:?}"),
            }
        }
    }

    #[test]
    fn rows_have_their_columns_whatever_was_copied_before() {
        let table = [
            // A Sync is sent with the Execute, and another one after the data.
            "ES<G>ddcS<CZ",
            "EHS<G>dHSdcS<CZ",
            "ESdcS<GCZ",
            "ES<G>dfS<EZ",
            "ESdfS<GEZ",
            // One alone is sent, after the data.
            "E<G>dcS<CZ",
            "EdcS<GCZ",
            "EH<G>dfS<EZ",
            // The server reports an error while it takes data.
            "ES<G>d<E>dcS<Z",
            "ES<G>d<E>S<Z",
            "ES<G>d<E>QfS<Z",
            "ES<GEZ>dcS<Z",
            "E<G>ddcS<EZ",
            // The server doesn't take any.
            "ES<EZ>cS<Z",
            "ESdcS<EZZ",
            // What comes in place of data is an error that ends them.
            "EESE<GEZ>S<CZ",
            "ES<G>QS<EZ",
            "Q<G>Q<EZ",
            // A Query has several of them, or one that fails.
            "Q<G>dc<CG>dSHdc<CZ",
            "Qdcdc<GCGCZ",
            "Q<G>d<EZ>dc",
            "Qdf<GEZ",
            "QS<G>dc<CZ",
            // Data go both ways.
            "Q<W>d<dd>dc<cCZ",
            "Q<W>d<E>dc<Z",
            // The login is over, and what was sent with the Startup.
            "_Q<ZCZ",
        ];
        for said in table {
            let mut session = SessionState::default();
            session.client(&parse("a"));
            session.client(&frontend::Message::Describe(Target::Statement("a".into())));
            say(&mut session, "S<1");
            session.server(&described("a"));
            say(&mut session, "<Z");
            say(&mut session, said);
            session.client(&frontend::Message::Bind(Bind {
                statement: "a".into(),
                ..Bind::default()
            }));
            say(&mut session, "ES<2");
            assert_eq!(found(&session), [("a".to_owned(), 0)], "{said}");
        }
    }

    #[test]
    fn the_rows_of_a_query_that_is_sent_with_the_startup_have_its_columns() {
        let mut session = SessionState::default();
        say(&mut session, "_QES<Z");
        session.server(&described("q"));
        assert_eq!(found(&session), [("q".to_owned(), 0)]);
    }

    #[test]
    fn an_error_passes_over_what_is_asked_up_to_the_sync() {
        use backend::Message as B;
        use frontend::Message as F;
        let mut session = SessionState::default();
        let execute = F::Execute(Execute::default());
        for said in [
            parse(""),
            F::Describe(Target::Portal("".into())),
            execute,
            F::Sync,
            F::Query("SELECT".into()),
        ] {
            session.client(&said);
        }
        session.server(&B::ErrorResponse([].into()));
        session.server(&B::ReadyForQuery(TransactionStatus::Idle));
        session.server(&described("c"));
        assert_eq!(found(&session), [("c".to_owned(), 0)]);
    }
}
