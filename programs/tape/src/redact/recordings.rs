//! Recordings of sessions from which secrets are taken out.

use super::redact;
use crate::export::export;
use crate::failure::TapeStatus;
use crate::samples::TempFile;
use pgmsg::backend::{self, Column, CopyResponse, Field, FieldKind, TransactionStatus};
use pgmsg::frontend::{self, Bind, Execute, Parse, Startup, Target};
use pgmsg::{ByteStr, Value};
use recording::{RecordKind, Side, Writer};
use SideMessage::{Client as C, Server as S};

const RULES: &str = r#"
    [[redact.column]]
    name = "email"
    [[redact.parameter]]
    statement = "phone ="
    positions = [1]
"#;

/// What a side says.
#[derive(Clone)]
enum SideMessage {
    Client(frontend::Message<'static>),
    Server(backend::Message<'static>),
}

impl SideMessage {
    fn side(&self) -> Side {
        match self {
            SideMessage::Client(_) => Side::Client,
            SideMessage::Server(_) => Side::Server,
        }
    }

    fn bytes(&self) -> Vec<u8> {
        let mut out = Vec::new();
        match self {
            SideMessage::Client(message) => message.write(&mut out).unwrap(),
            SideMessage::Server(message) => message.write(&mut out).unwrap(),
        }
        out
    }
}

/// A recording of a session, whose records have so many bytes at most.
fn recording(said: &[SideMessage], most: usize) -> Vec<u8> {
    let mut file = Vec::new();
    let mut out = Writer::new(&mut file, 0).unwrap();
    out.add(RecordKind::Opened, 1, 0, b"").unwrap();
    let startup = C(frontend::Message::Startup(Startup::new(&[("user", "ann")])));
    for (time, said) in std::iter::once(&startup).chain(said).enumerate() {
        for part in said.bytes().chunks(most) {
            out.add(RecordKind::Bytes(said.side()), 1, time as u64, part).unwrap();
        }
    }
    out.end().unwrap();
    file
}

/// Takes secrets out, and gives the status and the lines of what is left.
fn redacted(name: &str, rules: &str, tape: &[u8]) -> (TapeStatus, String) {
    let file = |kind: &str| format!("redact.{name}.{kind}");
    let tape = TempFile::with(&file("tape"), tape);
    let rules = TempFile::with(&file("toml"), rules.as_bytes());
    let (to, lines) = (TempFile::new(&file("to")), TempFile::new(&file("jsonl")));
    let status = redact(tape.path(), Some(rules.path()), to.path()).unwrap();
    export(to.path(), Some(lines.path())).unwrap();
    (status, String::from_utf8(lines.bytes()).unwrap())
}

fn parse(name: &'static str, sql: &'static str) -> SideMessage {
    let (statement, query) = (name.into(), sql.into());
    C(frontend::Message::Parse(Parse { statement, query, ..Parse::default() }))
}

fn bind(portal: &'static str, statement: &'static str, value: &'static str) -> SideMessage {
    let (portal, statement, values) = (portal.into(), statement.into(), [value.into()].into());
    C(frontend::Message::Bind(Bind { portal, statement, values, ..Bind::default() }))
}

fn execute(portal: &'static str) -> SideMessage {
    C(frontend::Message::Execute(Execute { portal: portal.into(), max_rows: 0 }))
}

fn query(sql: &'static str) -> SideMessage {
    C(frontend::Message::Query(sql.into()))
}

fn sync() -> SideMessage {
    C(frontend::Message::Sync)
}

fn row(values: &[&'static str]) -> SideMessage {
    S(backend::Message::DataRow(values.iter().map(|it| Value::from(*it)).collect()))
}

fn described(name: &'static str) -> SideMessage {
    S(backend::Message::RowDescription([Column::new(name, 25)].into()))
}

fn error() -> SideMessage {
    S(backend::Message::ErrorResponse([Field::new(FieldKind::Code, "42P05")].into()))
}

fn complete() -> SideMessage {
    S(backend::Message::CommandComplete("SELECT 1".into()))
}

fn ready() -> SideMessage {
    S(backend::Message::ReadyForQuery(TransactionStatus::Idle))
}

const PARSED: SideMessage = S(backend::Message::ParseComplete);
const BOUND: SideMessage = S(backend::Message::BindComplete);

/// Tests a session that has secrets `secret..`: both as its sides speak in turn, and where the client says all at once.
fn test(name: &str, rules: &str, said: &[SideMessage], wanted: TapeStatus) {
    let mut at_once = said.to_vec();
    at_once.sort_by_key(|it| it.side() == Side::Server);
    for said in [said, &at_once] {
        let (status, lines) = redacted(name, rules, &recording(said, 1 << 20));
        assert_eq!(status, wanted, "{name}: {lines}");
        let left = lines.lines().filter(|it| it.contains("secret-")).count();
        assert_eq!(left, usize::from(wanted == TapeStatus::Untold), "{name}: {lines}");
    }
}

#[test]
fn a_statement_stays_where_the_server_refuses_another_of_its_name() {
    let describe = || C(frontend::Message::Describe(Target::Statement("s".into())));
    let types = || S(backend::Message::ParameterDescription([25].into()));
    let made =
        [parse("s", "SELECT email FROM t WHERE phone = $1"), describe(), sync(), ready(), PARSED];
    let said = [
        &made[..],
        &[types(), described("email"), ready(), parse("s", "SELECT $1"), sync(), error(), ready()],
        &[bind("", "s", "secret-phone"), execute(""), sync()],
        &[BOUND, row(&["secret-email"]), complete(), ready()],
        // What was meant for a statement that the server refuses.
        &[parse("s", "SELECT a FROM t WHERE phone = $1 AND b"), bind("", "s", "secret-other")],
        &[execute(""), sync(), error(), ready()],
    ];
    test("statement", RULES, &said.concat(), TapeStatus::Ok);
}

#[test]
fn a_portal_stays_where_the_server_refuses_another_of_its_name() {
    let describe =
        |name: &'static str| C(frontend::Message::Describe(Target::Statement(name.into())));
    let types = || S(backend::Message::ParameterDescription([25].into()));
    let said = [
        &[ready(), parse("s", "SELECT email"), describe("s"), parse("o", "SELECT o")][..],
        &[describe("o"), bind("p", "s", "a"), sync(), PARSED, types(), described("email")],
        &[PARSED, types(), described("o"), BOUND, ready()],
        &[bind("p", "o", "a"), sync(), error(), ready()],
        &[execute("p"), sync(), row(&["secret-email"]), complete(), ready()],
    ];
    test("portal", RULES, &said.concat(), TapeStatus::Ok);
}

/// The server answers the Sync before the data of a COPY too, where the COPY fails before it takes them.
#[test]
fn a_statement_stays_where_another_is_refused_behind_a_copy_that_fails() {
    let begun = [
        ready(),
        parse("s", "SELECT a FROM t WHERE phone = $1"),
        parse("c", "COPY t FROM STDIN"),
        bind("", "c", "a"),
        execute(""),
        sync(),
        PARSED,
        PARSED,
        BOUND,
        S(backend::Message::CopyInResponse(CopyResponse { format: 0, columns: [].into() })),
        C(frontend::Message::CopyDone),
        sync(),
    ];
    let (failed, refused) = ([error(), ready()], [parse("s", "SELECT $1"), sync()]);
    let used =
        [error(), ready(), bind("", "s", "secret-phone"), execute(""), sync(), BOUND, complete()];
    for said in [
        [&begun[..], &failed, &refused, &used],
        [&begun[..], &failed, &refused, &[&[ready()][..], &used].concat()],
        [&begun[..], &failed, &[&[ready()][..], &refused].concat(), &used],
    ] {
        let tape = recording(&said.concat(), 1 << 20);
        let (status, lines) = redacted("copy", RULES, &tape);
        assert_eq!((status, lines.contains("secret-")), (TapeStatus::Ok, false), "{lines}");
    }
}

#[test]
fn what_cannot_be_told_has_a_status() {
    let never_described = [
        &[ready(), parse("s", "SELECT email"), bind("", "s", "a"), execute(""), sync()][..],
        &[PARSED, BOUND, row(&["secret-email"]), complete(), ready()],
    ];
    test("described", RULES, &never_described.concat(), TapeStatus::Untold);
    let never_parsed = [ready(), bind("", "s", "secret-phone"), execute(""), sync(), ready()];
    test("parsed", RULES, &never_parsed, TapeStatus::Untold);
    let other = [ready(), bind("", "s", "a"), execute(""), sync(), BOUND, row(&["b"]), ready()];
    test("no_rule", "", &other, TapeStatus::Ok);
}

#[test]
fn a_value_that_is_masked_once_is_masked_everywhere() {
    let copied = |data: &'static [u8]| S(backend::Message::CopyData(ByteStr(data)));
    let notified = backend::NotificationResponse {
        process_id: 1,
        channel: "c".into(),
        payload: "mail to secret-email!".into(),
    };
    let said = [
        &[ready(), query("SELECT email"), described("email"), row(&["secret-email"]), complete()][..],
        &[ready(), query("SELECT email AS e"), described("e"), row(&["secret-email"])],
        &[row(&["\\x7365637265742d656d61696c"]), complete()],
        &[S(backend::Message::NotificationResponse(notified)), described("secret-email")],
        &[S(backend::Message::CopyOutResponse(CopyResponse { format: 0, columns: [].into() }))],
        &[
            copied(b"1\tsecret-email\n"),
            ready(),
            query("SELECT 'secret-email' AS \"secret-email\""),
        ],
    ];
    test("everywhere", RULES, &said.concat(), TapeStatus::Ok);
    let (_, lines) = redacted("shape", RULES, &recording(&said.concat(), 1 << 20));
    assert_eq!(lines.matches("xxxxxx-xxxxx").count(), 7, "{lines}");
    assert!(lines.contains(r#""values":["\\x7878787878782d7878787878"]"#), "{lines}");
}

#[test]
fn a_password_is_masked_whole_and_frames_stay_whole() {
    // An array, and a row of binary COPY, have lengths inside.
    const ARRAY: &[u8] = b"\0\0\0\x01\0\0\0\0\0\0\0\x19\0\0\0\x01\0\0\0\x01\0\0\0\x09P@ssw0rd!";
    const COPIED: &[u8] = b"\0\x01\0\0\0\x09P@ssw0rd!";
    let startup = frontend::Message::Password(frontend::Password(b"P@ssw0rd!\0"));
    let row = backend::Message::DataRow(
        [Value::from("a P@ssw0rd!b"), Value::new(ARRAY), "\\x504073737730726421".into()].into(),
    );
    let said = [
        &[C(startup), ready(), query("ALTER ROLE a PASSWORD 'P@ssw0rd!' LOGIN"), described("a")][..],
        &[bind("P@ssw0rd!", "s", "P@ssw0rd!"), execute("P@ssw0rd!"), sync(), S(row), ready()],
        &[S(backend::Message::CopyData(ByteStr(COPIED)))],
    ];
    for most in [1 << 20, 7, 1] {
        let (status, lines) = redacted("whole", "", &recording(&said.concat(), most));
        assert_eq!(status, TapeStatus::Ok);
        for line in [
            r#""kind":"PasswordMessage","password":"xxxxxxxx""#,
            r#""kind":"Query","query":"ALTER ROLE a PASSWORD 'xxxxxxxx' LOGIN""#,
            r#""kind":"Bind","portal":"xxxxxxxx","statement":"s","formats":[],"values":["xxxxxxxx"]"#,
            r#""kind":"Execute","portal":"xxxxxxxx""#,
            r#""values":["a xxxxxxxxb",{"base64":"AAAAAQAAAAAAAAAZAAAAAQAAAAEAAAAJeHh4eHh4eHh4"}"#,
            r#","\\x7878787878787878"]"#,
            r#""data":{"base64":"AAEAAAAJeHh4eHh4eHh4"}"#,
        ] {
            assert!(lines.contains(line), "{line} of {lines}");
        }
    }
}
