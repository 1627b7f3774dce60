//! Connections of both sides, by the sessions of the documentation's "Message Flow", and by peers that break the order.

use pgmsg::backend::{
    self, Authentication, BackendKeyData, Column, CopyResponse, Field, FieldKind, ParameterStatus,
    TransactionStatus,
};
use pgmsg::connection::{ClientSide, Connection, Error, ServerSide};
use pgmsg::flow::{Fault as OrderFault, Heard, Mode};
use pgmsg::frontend::{self, Bind, Execute, Parse, Password, SaslInitialResponse, Startup, Target};
use pgmsg::{Format, Refusal};

type Client = Connection<ClientSide>;
type Server = Connection<ServerSide>;

/// A client's message by its tag; `_` is a Startup.
fn asks(tag: char) -> frontend::Message<'static> {
    use frontend::Message as M;
    match tag {
        '_' => M::Startup(Startup::new(&[("user", "ann")])),
        'p' => M::Password(Password(b"secret\0")),
        'Q' => M::Query("SELECT 1".into()),
        'P' => M::Parse(Parse::default()),
        'B' => M::Bind(Bind::default()),
        'D' => M::Describe(Target::Statement("".into())),
        'd' => M::CopyData("1\n".into()),
        'c' => M::CopyDone,
        'f' => M::CopyFail("no".into()),
        'E' => M::Execute(Execute::default()),
        'C' => M::Close(Target::Portal("".into())),
        'H' => M::Flush,
        'S' => M::Sync,
        'X' => M::Terminate,
        other => panic!("{other}"),
    }
}

/// A server's message by its tag.
fn answers(tag: char) -> backend::Message<'static> {
    use backend::Message as M;
    let copy = || CopyResponse { format: 0, columns: [Format::TEXT].into() };
    match tag {
        'R' => M::Authentication(Authentication::Ok),
        'K' => {
            M::BackendKeyData(BackendKeyData { process_id: 1, secret_key: (&b"1234"[..]).into() })
        }
        'S' => M::ParameterStatus(ParameterStatus { name: "a".into(), value: "b".into() }),
        '1' => M::ParseComplete,
        '2' => M::BindComplete,
        '3' => M::CloseComplete,
        't' => M::ParameterDescription([23].into()),
        'T' => M::RowDescription([Column::new("a", 23)].into()),
        'n' => M::NoData,
        'D' => M::DataRow(["1".into()].into()),
        'C' => M::CommandComplete("SELECT 1".into()),
        'I' => M::EmptyQueryResponse,
        's' => M::PortalSuspended,
        'G' => M::CopyInResponse(copy()),
        'H' => M::CopyOutResponse(copy()),
        'd' => M::CopyData("1\n".into()),
        'c' => M::CopyDone,
        'E' => M::ErrorResponse([Field::new(FieldKind::Message, "no")].into()),
        'N' => M::NoticeResponse([Field::new(FieldKind::Message, "so")].into()),
        'Z' => M::ReadyForQuery(TransactionStatus::Idle),
        other => panic!("{other}"),
    }
}

/// Whose a message is, in short: the number of the request, with `!` where it is the last for it.
fn short(whose: Heard) -> String {
    match whose {
        Heard::Answer { request, is_last } => {
            format!("{request}{}", if is_last { "!" } else { "" })
        }
        Heard::Group { first, last } => format!("{first}-{last}"),
        Heard::ByItself => "-".into(),
        Heard::Login => "login".into(),
        Heard::End => "end".into(),
    }
}

/// Both ends of a connection, and the bytes on their way from the client.
#[derive(Debug)]
struct Ends {
    client: Client,
    server: Server,
    way: Vec<u8>,
}

impl Ends {
    /// Ends that are logged in.
    fn ready() -> Ends {
        Ends { client: Connection::ready(), server: Connection::ready_server(), way: Vec::new() }
    }

    fn new() -> Ends {
        Ends { client: Connection::client(), server: Connection::server(), way: Vec::new() }
    }

    /// The server takes what it may now.
    fn take(&mut self) {
        let mut came = &self.way[..];
        while self.server.receive(&mut came).expect("what a client may say").is_some() {}
        let left = came.len();
        self.way.drain(..self.way.len() - left);
    }

    /// The server sends a message, which the client receives. Both must agree whose it is.
    fn answer(&mut self, message: &backend::Message<'_>) -> Result<Heard, Error> {
        self.take();
        let mut out = Vec::new();
        let told = self.server.send(message, &mut out)?;
        let mut came = &out[..];
        let answer = self.client.receive(&mut came)?.expect("a whole message");
        assert_eq!((answer.message().as_ref(), came), (Ok(message), &b""[..]));
        match answer.whose {
            Heard::Group { first, last } => {
                assert!(
                    matches!(told, Heard::Answer { request, .. } if (first..=last).contains(&request))
                )
            }
            whose => assert_eq!(whose, told),
        }
        Ok(answer.whose)
    }

    /// Both say messages, a letter each by their tags; `>` and `<` change the side. Whose the answers are.
    fn say(&mut self, text: &str) -> String {
        let (mut whose, mut is_client) = (Vec::new(), true);
        for letter in text.chars() {
            let said = match letter {
                '>' | '<' => {
                    is_client = letter == '>';
                    continue;
                }
                _ if is_client => self.client.send(&asks(letter), &mut self.way).map(drop),
                _ => self.answer(&answers(letter)).map(|heard| whose.push(short(heard))),
            };
            said.unwrap_or_else(|why| panic!("{letter} of {text}: {why}"));
        }
        self.take();
        whose.join(" ")
    }
}

/// Sessions after the login, and whose each answer is.
const SESSIONS: [(&str, &str, &str); 21] = [
    ("a query", ">Q<TDDCZ", "0 0 0 0 0!"),
    ("a query of several statements", ">Q<TDCCTDCZ", "0 0 0 0 0 0 0 0!"),
    ("an empty query", ">Q<IZ", "0 0!"),
    ("an error in a query", ">Q<TDEZ", "0 0 0 0!"),
    ("a notice and a setting in between", ">Q<NTSDNCSZ", "- 0 - 0 - 0 - 0!"),
    ("an extended query", ">PBDES<12tTDCZ", "0! 1! 2 2! 3 3! 4!"),
    ("a statement without rows", ">PDBES<1tn2CZ", "0! 1 1! 2! 3! 4!"),
    ("a portal that is suspended", ">BEES<2DsDCZ", "0! 1 1! 2 2! 3!"),
    ("a Flush", ">PH<1>BES<2DCZ", "0! 1! 2 2! 3!"),
    ("a Close", ">CS<3Z", "0! 1!"),
    ("a pipeline", ">PBESBES<12DCZ2CZ", "0! 1! 2 2! 3! 4! 5! 6!"),
    ("an error in a pipeline", ">PBESBESQ<1EZ2CZTDCZ", "0! 1! 3! 4! 5! 6! 7 7 7 7!"),
    ("an error before what is said next", ">PB<1E>ES<Z>Q<CZ", "0! 1! 3! 4 4!"),
    ("an error where a Sync commits", ">PBES<12CEZ", "0! 1! 2! 3 3!"),
    ("a COPY out", ">Q<HddcCZ", "0 0 0 0 0 0!"),
    ("a COPY out in the extended protocol", ">BES<2HdcCZ", "0! 1 1 1 1! 2!"),
    ("a COPY in", ">Q<G>ddc<CZ", "0 0 0!"),
    ("a COPY in that the client gives up", ">Q<G>df<EZ", "0 0 0!"),
    ("a COPY in that fails as its data come", ">Q<G>d<E>dc<Z>Q<CZ", "0 0 0! 1 1!"),
    ("a COPY in in the extended protocol", ">BE<2G>dcS<CZ", "0! 1 1! 2!"),
    ("a Sync before the data of a COPY", ">PBES<12G>dcS<CZ>Q<CZ", "0! 1! 2 2! 4! 5 5!"),
];

#[test]
fn sessions_are_followed_alike_by_both_ends() {
    for (name, said, wanted) in SESSIONS {
        let mut ends = Ends::ready();
        assert_eq!(ends.say(said), wanted, "{name}");
        assert_eq!((ends.client.waits(), ends.client.mode()), (0, Mode::Idle), "{name}");
        assert_eq!((ends.server.waits(), ends.server.mode()), (0, Mode::Idle), "{name}");
        assert_eq!(ends.client.status(), Some(TransactionStatus::Idle), "{name}");
    }
}

#[test]
fn early_syncs_of_a_copy_that_fails_are_a_group() {
    let mut ends = Ends::ready();
    // A server drops the Sync that it reads as data, and answers the one after them.
    assert_eq!(ends.say(">PBES<12G>dcS<E"), "0! 1! 2 2!");
    assert_eq!(ends.say("<Z>Q<CZ"), "3-4 5 5!");
}

#[test]
fn modes_and_numbers_say_what_may_be_done() {
    let mut ends = Ends::new();
    assert_eq!((ends.client.mode(), ends.client.status()), (Mode::Login, None));
    ends.say(">_<RKSZ>QQ<");
    assert_eq!((ends.client.mode(), ends.client.first(), ends.client.waits()), (Mode::Busy, 0, 2));
    ends.say("<CZG");
    assert_eq!(
        (ends.client.mode(), ends.client.first(), ends.client.waits()),
        (Mode::CopyIn, 1, 1)
    );
    ends.say(">dc<CZ>X");
    assert_eq!((ends.client.mode(), ends.server.mode()), (Mode::Ended, Mode::Ended));
}

/// A login by SCRAM up to the server's verifier.
fn prove(ends: &mut Ends) {
    ends.say(">_");
    let initial =
        SaslInitialResponse { mechanism: "SCRAM-SHA-256".into(), response: Some("n,,".into()) };
    let steps = [
        (Authentication::Sasl(["SCRAM-SHA-256".into()].into()), Some(initial.response)),
        (Authentication::SaslContinue("r=".into()), Some(None)),
        (Authentication::SaslFinal("v=".into()), None),
    ];
    for (step, response) in steps {
        let heard = ends.answer(&backend::Message::Authentication(step));
        assert_eq!(heard, Ok(Heard::Login));
        let mut password = Vec::new();
        match response {
            Some(Some(_)) => initial.write(&mut password).expect("no refusal"),
            Some(None) => Password(b"c=biws,p=").write(&mut password).expect("no refusal"),
            None => {}
        }
        ends.client.send_frames(&password, &mut ends.way).expect("it is asked for");
    }
}

#[test]
fn a_login_by_scram_goes_step_by_step() {
    let mut ends = Ends::new();
    prove(&mut ends);
    assert_eq!(ends.say("<RSSKZ>Q<CZ"), "login login login login login 0 0!");
}

/// A client that has sent messages, and what it says to those of a server that isn't bound to the order.
fn after(said: &str, step: &[Authentication<'_>]) -> (Client, Vec<u8>) {
    let (mut client, mut out, mut came) = (Connection::client(), Vec::new(), Vec::new());
    for letter in said.chars() {
        client.send(&asks(letter), &mut out).expect("what a client may say");
    }
    for step in step {
        came.clear();
        backend::Message::Authentication(step.clone()).write(&mut came).expect("no refusal");
        client.receive(&mut &came[..]).expect("what a server may say");
    }
    (client, out)
}

fn fault_of<T: core::fmt::Debug>(result: Result<T, Error>) -> OrderFault {
    match result {
        Err(Error::Order { fault, .. }) => fault,
        other => panic!("{other:?}"),
    }
}

/// What a client says to a message of a server.
fn hears(client: &mut Client, message: &backend::Message<'_>) -> Result<Heard, Error> {
    let mut came = Vec::new();
    message.write(&mut came).expect("no refusal");
    client.receive(&mut &came[..]).map(|answer| answer.expect("a whole message").whose)
}

#[test]
fn a_server_that_knows_no_password_gets_no_further() {
    let offer = || Authentication::Sasl(["SCRAM-SHA-256".into()].into());
    let initial =
        SaslInitialResponse { mechanism: "SCRAM-SHA-256".into(), response: Some("n".into()) };
    // Neither ReadyForQuery nor AuthenticationOk nor a row comes within the exchange.
    for forged in ['Z', 'R', 'D', 'C', 'T', 'K', 'S', 'N', 'd'] {
        let (mut client, mut out) = after("_", &[offer()]);
        let mut password = Vec::new();
        initial.write(&mut password).expect("no refusal");
        client.send_frames(&password, &mut out).expect("it is asked for");
        assert_eq!(
            fault_of(hears(&mut client, &answers(forged))),
            OrderFault::NotReady,
            "{forged}"
        );
        assert_eq!(client.mode(), Mode::Login);
    }
    // A second offer, of SCRAM or of a password in clear, is refused; so is a password that nobody asks for.
    for second in [offer(), Authentication::CleartextPassword, Authentication::Md5Password([0; 4])]
    {
        let (mut client, mut out) = after("_", &[offer()]);
        assert!(hears(&mut client, &backend::Message::Authentication(second)).is_err());
        let mut password = Vec::new();
        initial.write(&mut password).expect("no refusal");
        client.send_frames(&password, &mut out).expect("it is asked for");
        let before = out.clone();
        assert_eq!(fault_of(client.send_frames(&password, &mut out)), OrderFault::NotReady);
        assert_eq!(out, before);
    }
    // Once the session is open the password isn't asked for again.
    let (mut client, _) = after("_", &[Authentication::Ok]);
    hears(&mut client, &answers('Z')).expect("the login is over");
    let asked = backend::Message::Authentication(Authentication::CleartextPassword);
    assert_eq!(fault_of(hears(&mut client, &asked)), OrderFault::Unknown);
}

#[test]
fn a_message_out_of_turn_is_not_sent_and_changes_nothing() {
    let table = [
        ("", "Q", OrderFault::NotReady),
        ("", "p", OrderFault::NotReady),
        (">_", "_", OrderFault::NotReady),
        (">_<R", "Q", OrderFault::NotReady),
        (">_<RZ", "p", OrderFault::Unknown),
        (">_<RZ>Q<G", "Q", OrderFault::InCopy),
        (">_<RZ>Q<G", "P", OrderFault::InCopy),
        (">_<RZ>Q<G>c", "d", OrderFault::NotInCopy),
        (">_<RZ>Q", "c", OrderFault::NotInCopy),
        (">_<RZ>X", "Q", OrderFault::AfterEnd),
    ];
    for (said, wrong, wanted) in table {
        let mut ends = Ends::new();
        ends.say(said);
        let letter = wrong.chars().next().expect("a letter");
        let (mut out, before) = (b"before".to_vec(), format!("{:?}", ends.client));
        assert_eq!(fault_of(ends.client.send(&asks(letter), &mut out)), wanted, "{said} {wrong}");
        assert_eq!(
            (&out[..], format!("{:?}", ends.client)),
            (&b"before"[..], before),
            "{said} {wrong}"
        );
    }
}

#[test]
fn a_server_is_kept_from_answers_that_are_not_due() {
    let table = [
        (">_<RZ", "C", OrderFault::Unasked),
        (">_<RZ", "Z", OrderFault::Unasked),
        (">_<RZ>Q", "1", OrderFault::NotAnAnswer),
        (">_<RZ>Q", "D", OrderFault::NotAnAnswer),
        (">_<RZ>Q<T", "Z", OrderFault::NotAnAnswer),
        (">_<RZ>P", "2", OrderFault::NotAnAnswer),
        (">_<RZ>S", "C", OrderFault::NotAnAnswer),
        (">_<RZ>X", "E", OrderFault::AfterEnd),
        (">_", "Z", OrderFault::NotReady),
        ("", "R", OrderFault::NotReady),
    ];
    for (said, wrong, wanted) in table {
        let mut ends = Ends::new();
        ends.say(said);
        let letter = wrong.chars().next().expect("a letter");
        let (mut out, before) = (b"before".to_vec(), format!("{:?}", ends.server));
        assert_eq!(
            fault_of(ends.server.send(&answers(letter), &mut out)),
            wanted,
            "{said} {wrong}"
        );
        assert_eq!(
            (&out[..], format!("{:?}", ends.server)),
            (&b"before"[..], before),
            "{said} {wrong}"
        );
    }
}

#[test]
fn a_server_takes_a_request_once_the_one_before_is_answered() {
    let mut ends = Ends::ready();
    ends.say(">Q");
    ends.client.send(&asks('P'), &mut ends.way).expect("what a client may say");
    assert_eq!(ends.server.receive(&mut &ends.way[..]), Ok(None));
    ends.say("<CZ");
    assert_eq!((ends.server.first(), ends.server.waits()), (1, 1));
}

#[test]
fn a_request_before_a_terminate_is_answered() {
    // A COPY whose data the client gives is left in its midst.
    let table = [
        (">QX<TDCZ", "0 0 0 0!", Mode::Ended),
        (">QX<TDC", "0 0 0", Mode::Busy),
        (">QX<Hd", "0 0", Mode::CopyOut),
        (">PSX<1Z", "0! 1!", Mode::Ended),
        (">PSX<E", "0!", Mode::Busy),
        (">Q<G>dX", "0", Mode::Ended),
    ];
    for (said, wanted, mode) in table {
        let mut ends = Ends::ready();
        assert_eq!((ends.say(said), ends.server.mode()), (wanted.to_owned(), mode), "{said}");
        assert_eq!(ends.way.is_empty(), mode == Mode::Ended, "{said}");
    }
}

#[test]
fn a_message_is_not_taken_for_the_byte_that_answers_a_request_for_encryption() {
    for asked in [frontend::Message::SslRequest, frontend::Message::GssEncRequest] {
        let (mut ends, mut out) = (Ends::new(), Vec::new());
        ends.client.send(&asked, &mut ends.way).expect("it comes first");
        ends.take();
        for letter in ['S', 'N', 'R'] {
            let message = answers(letter);
            assert_eq!(fault_of(hears(&mut ends.client, &message)), OrderFault::NotReady);
            let sent = ends.server.send(&message, &mut out);
            assert_eq!((fault_of(sent), out.len()), (OrderFault::NotReady, 0));
        }
        assert!(ends.server.send_encryption(b'E', &mut out).is_err());
        ends.server.send_encryption(b'N', &mut out).expect("it is asked for");
        assert_eq!((ends.client.receive_encryption(b'N'), &out[..]), (Ok(false), &b"N"[..]));
        assert_eq!(ends.say(">_<RSZ"), "login login login");
    }
    let mut ends = Ends::new();
    ends.client.send(&frontend::Message::SslRequest, &mut ends.way).expect("it comes first");
    assert_eq!(ends.say("<E"), "end");
}

#[test]
fn a_byte_is_not_taken_for_a_message() {
    let mut ends = Ends::new();
    ends.say(">_<R");
    for byte in *b"SNK" {
        assert_eq!(fault_of(ends.client.receive_encryption(byte)), OrderFault::NotReady);
        assert_eq!(
            fault_of(ends.server.send_encryption(byte, &mut Vec::new())),
            OrderFault::NotReady
        );
    }
    ends.say("<KSZ>P");
    let (mut out, before) = (Vec::new(), format!("{ends:?}"));
    assert!(ends.server.send_encryption(b'1', &mut out).is_err());
    assert!(ends.client.receive_encryption(b'1').is_err());
    assert_eq!((out.len(), format!("{ends:?}")), (0, before));
    assert_eq!(ends.say("<1"), "0!");
}

#[test]
fn encryption_is_answered_by_a_byte() {
    for (byte, is_given) in [(b'S', true), (b'N', false)] {
        let (mut ends, mut out) = (Ends::new(), Vec::new());
        ends.client.send(&frontend::Message::SslRequest, &mut ends.way).expect("it comes first");
        assert!(ends.client.send(&asks('_'), &mut out).is_err());
        ends.take();
        ends.server.send_encryption(byte, &mut out).expect("it is asked for");
        assert_eq!(out, [byte]);
        assert_eq!(ends.client.receive_encryption(byte), Ok(is_given));
        assert_eq!(ends.say(">_<RZ"), "login login");
    }
    let mut client = Connection::client();
    client.send(&frontend::Message::SslRequest, &mut Vec::new()).expect("it comes first");
    assert!(client.receive_encryption(b'E').is_err());
    assert!(Connection::client().receive_encryption(b'S').is_err());
}

#[test]
fn messages_that_are_not_sound_are_refused_for_that() {
    let (mut client, mut out) = (Connection::ready(), Vec::new());
    let refused = client.send(&frontend::Message::Query("a\0b".into()), &mut out);
    assert!(
        matches!(refused, Err(Error::Message(fault)) if fault.refusal == Refusal::TextHoldsNul)
    );
    assert_eq!((out.len(), client.waits()), (0, 0));
    let refused = client.send_frames(b"S\0\0\0", &mut out);
    assert!(matches!(refused, Err(Error::Message(fault)) if fault.refusal == Refusal::NotFrames));
    let mut client = Connection::ready().with_limit(10);
    let mut came = &b"N\0\0\0\x10"[..];
    assert!(
        matches!(client.receive(&mut came), Err(Error::Message(fault)) if fault.refusal == Refusal::FrameTooLong)
    );
    assert_eq!(client.receive(&mut &b"Z\0\0"[..]), Ok(None));
}
