//! Recordings for tests: sessions of messages of all kinds, cut anywhere, with sides that break the protocol.

use crate::event::{EventKind, RawMessage};
use pgmsg::backend::{
    self, Authentication, Column, CopyResponse, Field, FieldKind, TransactionStatus,
};
use pgmsg::frontend::{
    self, Bind, CancelRequest, Execute, FunctionCall, Parse, Password, Startup, Target,
};
use pgmsg::{ByteStr, Format, Secret, Value};
use rand::rngs::SmallRng;
use rand::{Rng, SeedableRng};
use recording::{RecordKind, Side, Writer};
use std::path::{Path, PathBuf};

/// A file of a test, which is taken away with it.
pub struct TempFile(pub PathBuf);

impl TempFile {
    pub fn new(name: &str) -> TempFile {
        let number = std::process::id();
        TempFile(std::env::temp_dir().join(format!("pg_tape.{number}.{name}")))
    }

    pub fn with(name: &str, bytes: &[u8]) -> TempFile {
        let file = TempFile::new(name);
        std::fs::write(&file.0, bytes).unwrap();
        file
    }

    pub fn bytes(&self) -> Vec<u8> {
        std::fs::read(&self.0).unwrap()
    }

    pub fn path(&self) -> &Path {
        &self.0
    }
}

impl Drop for TempFile {
    fn drop(&mut self) {
        let _ = std::fs::remove_file(&self.0);
    }
}

/// A client's messages of all kinds.
pub fn client_messages() -> Vec<frontend::Message<'static>> {
    use frontend::Message as M;
    let values =
        || [Value::new(b"5"), Value::NULL, Value::new(b"\0\0\0\x07"), Value::new(b"")].into();
    vec![
        M::Startup(Startup::new(&[("user", "ann"), ("database", "d\u{e9}")])),
        M::Password(Password(b"secret\0")),
        M::Password(Password(b"SCRAM-SHA-256\0\0\0\0\x0bn,,n=,r=abc")),
        M::Password(Password(b"c=biws,r=abc,p=AAAA")),
        M::Parse(Parse { statement: "s".into(), query: "SELECT $1".into(), types: [23, 0].into() }),
        M::Bind(Bind {
            portal: "p".into(),
            statement: "s".into(),
            formats: [Format(1)].into(),
            values: values(),
            result_formats: [Format(0), Format(1)].into(),
        }),
        M::Describe(Target::Statement("s".into())),
        M::Close(Target::Portal("p".into())),
        M::Execute(Execute { portal: "p".into(), max_rows: u32::MAX }),
        M::FunctionCall(FunctionCall {
            object_id: 7,
            formats: [Format(0)].into(),
            arguments: values(),
            result_format: Format(1),
        }),
        M::Flush,
        M::Query(ByteStr(b"SELECT 'caf\xe9'")),
        M::CopyData(ByteStr(b"1\ta\n")),
        M::CopyDone,
        M::CopyFail("no <more>\u{2028}".into()),
        M::Sync,
        M::Terminate,
    ]
}

/// A server's messages of all kinds.
pub fn server_messages() -> Vec<backend::Message<'static>> {
    use backend::Message as M;
    let fields = || {
        [Field::new(FieldKind::Severity, "ERROR"), Field::new(FieldKind::Other(b'!'), "x")].into()
    };
    let copy = || CopyResponse { format: 1, columns: [Format(1), Format(0)].into() };
    vec![
        M::Authentication(Authentication::Sasl([ByteStr(b"SCRAM-SHA-256")].into())),
        M::Authentication(Authentication::SaslContinue(Secret(b"r=abcd"))),
        M::Authentication(Authentication::SaslFinal(Secret(b"v=abcd"))),
        M::Authentication(Authentication::Md5Password([0, 1, 2, 255])),
        M::Authentication(Authentication::CleartextPassword),
        M::Authentication(Authentication::GssContinue(Secret(b"\x60"))),
        M::Authentication(Authentication::Ok),
        M::BackendKeyData(backend::BackendKeyData {
            process_id: 12,
            secret_key: Secret(b"\0\x01ab"),
        }),
        M::ParameterStatus(backend::ParameterStatus {
            name: "TimeZone".into(),
            value: "UTC".into(),
        }),
        M::NegotiateProtocolVersion(backend::NegotiateProtocolVersion {
            options: ["_pq_.a".into()].into(),
            ..Default::default()
        }),
        M::ReadyForQuery(TransactionStatus::Idle),
        M::RowDescription(
            [Column::new("a\"b", 25), Column { type_size: 4, ..Column::new("", 23) }].into(),
        ),
        M::DataRow(["1".into(), Value::NULL, Value::new(b"\xff\0")].into()),
        M::CommandComplete("SELECT 1".into()),
        M::CopyInResponse(copy()),
        M::CopyOutResponse(copy()),
        M::CopyBothResponse(copy()),
        M::CopyData(ByteStr(b"w\0\0")),
        M::CopyDone,
        M::ErrorResponse(fields()),
        M::NoticeResponse(fields()),
        M::FunctionCallResponse(backend::FunctionCallResponse(Value::NULL)),
        M::NotificationResponse(backend::NotificationResponse {
            process_id: 1,
            channel: "c".into(),
            payload: "".into(),
        }),
        M::ParameterDescription([23, 25].into()),
        M::ParseComplete,
        M::BindComplete,
        M::CloseComplete,
        M::NoData,
        M::EmptyQueryResponse,
        M::PortalSuspended,
        M::Other(backend::Other { tag: b'?', body: ByteStr(b"\0") }),
        M::ReadyForQuery(TransactionStatus::Failed),
    ]
}

/// The bytes of a side of a session.
pub fn stream(side: Side) -> Vec<u8> {
    let mut out = Vec::new();
    match side {
        Side::Client => client_messages().iter().for_each(|it| it.write(&mut out).unwrap()),
        Side::Server => server_messages().iter().for_each(|it| it.write(&mut out).unwrap()),
    }
    out
}

/// The events of a session whose messages a text has, a letter each by their tags: `_` is a Startup, `r` one that asks for
/// replication, `R` an AuthenticationOk, and `>` and `<` change the side, which is the client at first.
pub fn session_of(text: &str) -> Vec<EventKind<'static>> {
    let (mut side, mut events) = (Side::Client, vec![EventKind::Opened(b""[..].into())]);
    for letter in text.bytes() {
        let mut bytes = Vec::new();
        let of_client = |tag| client_messages().into_iter().find(|it| it.tag() == tag);
        match (side, letter) {
            (_, b'>') => side = Side::Client,
            (_, b'<') => side = Side::Server,
            (Side::Client, b'r') => {
                Startup::new(&[("replication", "true")]).write(&mut bytes).unwrap()
            }
            (Side::Client, b'_') => of_client(None).unwrap().write(&mut bytes).unwrap(),
            (Side::Client, tag) => of_client(Some(tag)).unwrap().write(&mut bytes).unwrap(),
            (Side::Server, b'R') => Authentication::Ok.write(&mut bytes).unwrap(),
            (Side::Server, tag) => {
                let message = server_messages().into_iter().find(|it| it.tag() == Some(tag));
                message.unwrap().write(&mut bytes).unwrap();
            }
        }
        if !bytes.is_empty() {
            let tag = bytes.first().copied().filter(|_| !matches!(letter, b'_' | b'r'));
            let (here, bytes) = (bytes.len(), bytes.into());
            events.push(EventKind::Message { side, message: RawMessage { tag, bytes }, here });
        }
    }
    events
}

/// A connection that asks for a query to be cancelled.
pub fn cancel() -> Vec<u8> {
    let mut out = Vec::new();
    let cancel = CancelRequest { process_id: 12, secret_key: Secret(b"\0\x01ab") };
    frontend::Message::CancelRequest(cancel).write(&mut out).unwrap();
    out
}

/// A connection's streams, with what is left of them.
struct SampleSession {
    number: u32,
    rests: [(Side, Vec<u8>); 2],
}

/// A recording of sessions at once, whose records are cut at random, and whose bytes are changed at random.
pub fn recording(seed: u64, changes: bool) -> Vec<u8> {
    let mut random = SmallRng::seed_from_u64(seed);
    let mut file = Vec::new();
    let mut out = Writer::new(&mut file, 1_700_000_000_000_000).unwrap();
    let (mut open, mut opened, mut time) = (Vec::new(), 0, 0);
    while opened < 5 || !open.is_empty() {
        time += random.gen_range(0..3);
        if opened < 5 && (open.is_empty() || random.gen_ratio(1, 8)) {
            opened += 1;
            open.push(session(&mut random, opened, changes));
            out.add(RecordKind::Opened, opened, time, b"[local]").unwrap();
            continue;
        }
        let at = random.gen_range(0..open.len());
        if !step(&mut random, &mut open[at], time, &mut out) {
            let closed = open.swap_remove(at);
            out.add(RecordKind::Closed, closed.number, time, b"F").unwrap();
        }
    }
    out.end().unwrap();
    file
}

fn session(random: &mut SmallRng, number: u32, changes: bool) -> SampleSession {
    let rests = [Side::Client, Side::Server].map(|side| {
        let mut bytes = stream(side);
        if number == 3 && side == Side::Client {
            bytes = cancel();
        }
        while changes && random.gen_ratio(1, 2) {
            let at = random.gen_range(0..bytes.len());
            bytes[at] = random.gen();
        }
        (side, bytes)
    });
    SampleSession { number, rests }
}

/// Adds a record of a session, or tells that there is no more.
fn step(
    random: &mut SmallRng,
    session: &mut SampleSession,
    time: u64,
    out: &mut Writer<&mut Vec<u8>>,
) -> bool {
    let (side, rest) = &mut session.rests[random.gen_range(0..2)];
    if rest.is_empty() {
        let all = session.rests.iter().map(|(_, rest)| rest.len()).sum::<usize>();
        return all > 0;
    }
    let most = if random.gen_ratio(1, 3) { 400 } else { 12 };
    let count = random.gen_range(0..most).min(rest.len());
    if random.gen_ratio(1, 40) {
        out.add(RecordKind::LeftOut(*side), session.number, time, b"p\0\0\0\x28").unwrap();
    }
    out.add(RecordKind::Bytes(*side), session.number, time, &rest[..count]).unwrap();
    rest.drain(..count);
    true
}
