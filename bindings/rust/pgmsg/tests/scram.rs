//! SCRAM-SHA-256 of both sides, by the example of RFC 7677, with wrong passwords, and with changed messages.

use pgmsg::backend::Authentication;
use pgmsg::frontend::{Password, SaslInitialResponse};
use pgmsg::scram::{Client, Credentials, Digest, Error, Key, Server, Sha256};
use std::cell::Cell;

/// The messages of section 3 of RFC 7677.
const FIRST: &[u8] = b"n,,n=user,r=rOprNGfwEbeRWgbNEkqO";
const CHALLENGE: &[u8] = b"r=rOprNGfwEbeRWgbNEkqO%hvYDpWUa2RaTCAfuxFIlj)hNlF$k0,\
    s=W22ZaJ0SNY7soEsUEjb6gQ==,i=4096";
const ANSWER: &[u8] = b"c=biws,r=rOprNGfwEbeRWgbNEkqO%hvYDpWUa2RaTCAfuxFIlj)hNlF$k0,\
    p=dHzbZapWIk4jUhN+Ute9ytag9zjfMHgsqmmiz7AndVQ=";
const LAST: &[u8] = b"v=6rriTRBi23WpRR/wtup+mMhUZUn/dB5nLTJRsjl95G4=";

const SALT: &[u8] = b"\x5b\x6d\x99\x68\x9d\x12\x35\x8e\xec\xa0\x4b\x14\x12\x36\xfa\x81";
const SERVER_NONCE: &str = "%hvYDpWUa2RaTCAfuxFIlj)hNlF$k0";

fn client(password: &[u8]) -> Client<'_, Sha256> {
    Client::new(password, "rOprNGfwEbeRWgbNEkqO").with_user("user")
}

fn kept() -> Credentials {
    Credentials::new::<Sha256>(b"pencil", SALT, 4096)
}

#[test]
fn the_example_of_the_rfc() {
    let kept = kept();
    let (mut client, mut server) = (client(b"pencil"), Server::<Sha256>::new(&kept, SERVER_NONCE));
    assert_eq!(client.first(), FIRST);
    assert_eq!(server.challenge(FIRST).as_deref(), Ok(CHALLENGE));
    assert_eq!(client.answer(CHALLENGE).as_deref(), Ok(ANSWER));
    assert_eq!(server.verify(ANSWER).as_deref(), Ok(LAST));
    assert!(!client.is_finished());
    assert_eq!(client.finish(LAST), Ok(()));
    assert!(client.is_finished() && server.is_finished());
}

#[test]
fn an_exchange_in_messages() {
    let mut out = Vec::new();
    let mut client = client(b"pencil");
    let offer = Authentication::Sasl(["SCRAM-SHA-256-PLUS".into(), "SCRAM-SHA-256".into()].into());
    client.respond(&offer, &mut out).expect("it is offered");
    let initial = SaslInitialResponse::read(&out[5..]).expect("no fault");
    let due =
        SaslInitialResponse { mechanism: "SCRAM-SHA-256".into(), response: Some(FIRST.into()) };
    assert_eq!(initial, due);
    out.clear();
    let challenge = Authentication::SaslContinue(CHALLENGE.into());
    client.respond(&challenge, &mut out).expect("no fault");
    let mut due = Vec::new();
    Password(ANSWER).write(&mut due).expect("no refusal");
    assert_eq!(out, due);
    client.respond(&Authentication::SaslFinal(LAST.into()), &mut out).expect("no fault");
    assert!(client.is_finished() && out == due);
    let again = client.respond(&Authentication::Ok, &mut out);
    assert_eq!(again, Err(Error::OutOfTurn));
    let none = client.respond(&Authentication::Sasl(["PLAIN".into()].into()), &mut out);
    assert_eq!(none, Err(Error::NoMechanism));
}

#[test]
fn messages_out_of_turn() {
    let offer = Authentication::Sasl(["SCRAM-SHA-256".into()].into());
    let challenge = Authentication::SaslContinue(CHALLENGE.into());
    let last = Authentication::SaslFinal(LAST.into());
    let each = [&offer, &challenge, &last];
    for count in 1..=each.len() {
        for wrong in [&offer, &challenge, &last, &Authentication::CleartextPassword] {
            let (mut client, mut out) = (client(b"pencil"), Vec::new());
            for request in &each[..count] {
                client.respond(request, &mut out).expect("no fault");
            }
            if each.get(count) != Some(&wrong) {
                let begun = out.len();
                assert_eq!(client.respond(wrong, &mut out), Err(Error::OutOfTurn), "{wrong:?}");
                assert_eq!(out.len(), begun);
            }
        }
    }
}

/// SHA-256 that counts how often HMAC gets a key.
struct Counting;

thread_local! {
    static KEYS: Cell<u32> = const { Cell::new(0) };
}

impl Digest for Counting {
    type Keyed = <Sha256 as Digest>::Keyed;

    fn hash(bytes: &[u8]) -> Key {
        Sha256::hash(bytes)
    }

    fn keyed(key: &[u8]) -> Self::Keyed {
        KEYS.with(|count| count.set(count.get() + 1));
        Sha256::keyed(key)
    }

    fn mac(keyed: &Self::Keyed, message: &[u8]) -> Key {
        Sha256::mac(keyed, message)
    }
}

#[test]
fn a_password_keys_hmac_once() {
    let keys = || KEYS.with(|count| count.replace(0));
    for iterations in [1, 2, 10_000] {
        assert_eq!(
            Counting::salted(b"pencil", SALT, iterations),
            Sha256::salted(b"pencil", SALT, iterations)
        );
        assert_eq!(keys(), 1);
    }
    // More iterations than the limit aren't begun.
    for count in [10_000_001, u32::MAX] {
        let mut client = Client::<Counting>::new(b"pencil", "nonce");
        let challenge = format!("r=nonce-of-both,s=AAEC,i={count}");
        assert_eq!(client.answer(challenge.as_bytes()), Err(Error::Iterations(count)));
        assert_eq!(keys(), 0);
    }
}

#[test]
fn channels_that_are_bound() {
    let first_of = |offered: &[&'static str]| {
        let mut client = client(b"pencil").with_channel_binding(b"hash");
        let offered = offered.iter().map(|&name| name.into()).collect();
        let mut out = Vec::new();
        client.respond(&Authentication::Sasl(offered), &mut out).expect("it is offered");
        let initial = SaslInitialResponse::read(&out[5..]).expect("no fault");
        let first = initial.response.expect("a response").0.to_vec();
        let answer = client.answer(CHALLENGE).expect("no fault");
        (initial.mechanism.to_vec(), first, answer)
    };
    let (mechanism, first, answer) = first_of(&["SCRAM-SHA-256", "SCRAM-SHA-256-PLUS"]);
    assert_eq!(mechanism, b"SCRAM-SHA-256-PLUS");
    assert!(first.starts_with(b"p=tls-server-end-point,,n=user,r="));
    // The header and the hash in base64.
    assert!(answer.starts_with(b"c=cD10bHMtc2VydmVyLWVuZC1wb2ludCwsaGFzaA==,r="));
    let (mechanism, first, answer) = first_of(&["SCRAM-SHA-256"]);
    assert_eq!(mechanism, b"SCRAM-SHA-256");
    assert!(first.starts_with(b"y,,n=user,r="));
    assert!(answer.starts_with(b"c=eSws,r="));
}

#[test]
fn channels_that_have_to_be_bound() {
    let client = || client(b"pencil").requiring_channel_binding(b"hash");
    let offer = |offered: &[&'static str]| {
        Authentication::Sasl(offered.iter().map(|&name| name.into()).collect())
    };
    let mut bound = client();
    let both = offer(&["SCRAM-SHA-256", "SCRAM-SHA-256-PLUS"]);
    assert_eq!(bound.respond(&both, &mut Vec::new()), Ok(()));
    assert!(bound.first().starts_with(b"p=tls-server-end-point,,"));
    assert!(bound.answer(CHALLENGE).is_ok());
    let without = client().respond(&offer(&["SCRAM-SHA-256"]), &mut Vec::new());
    assert_eq!(without, Err(Error::NoMechanism));
    // No mechanism was chosen.
    assert_eq!(client().answer(CHALLENGE), Err(Error::NoMechanism));
}

#[test]
fn wrong_passwords() {
    let kept = kept();
    let mut server = Server::<Sha256>::new(&kept, SERVER_NONCE);
    server.challenge(FIRST).expect("no fault");
    let mut client = client(b"pencils");
    let answer = client.answer(CHALLENGE).expect("no fault");
    assert_eq!(server.verify(&answer), Err(Error::WrongProof));
    assert!(!server.is_finished());
    // A server that doesn't know the password has another signature.
    assert_eq!(client.finish(LAST), Err(Error::WrongVerifier));
    assert_eq!(client.finish(b"e=invalid-proof"), Err(Error::WrongVerifier));
    assert!(!client.is_finished());
}

#[test]
fn challenges_that_are_refused() {
    let refused = |challenge: &[u8]| client(b"pencil").answer(challenge).expect_err("a fault");
    let text = String::from_utf8(CHALLENGE.into()).expect("ASCII");
    for changed in [
        text.replace("r=rOpr", "r=xOpr"),
        text.replace(SERVER_NONCE, ""),
        text.replace("s=W22ZaJ0SNY7soEsUEjb6gQ==", "s="),
        format!("m=ext,{text}"),
        String::from("r=other"),
    ] {
        assert_eq!(refused(changed.as_bytes()), Error::Nonce, "{changed}");
    }
    for count in [0, 10_000_001, u32::MAX] {
        let changed = text.replace("4096", &count.to_string());
        assert_eq!(refused(changed.as_bytes()), Error::Iterations(count));
    }
    assert!(matches!(refused(b""), Error::Fault(_)));
    assert!(matches!(refused(text.replace("s=W", "s=?").as_bytes()), Error::Fault(_)));
    let mut comma = Client::<Sha256>::new(b"pencil", "a,b");
    assert_eq!(comma.answer(b"r=a,bc,s=AAEC,i=1"), Err(Error::Nonce));
}

#[test]
fn every_byte_of_each_answer_matters() {
    let kept = Credentials::new::<Sha256>(b"pencil", SALT, 1);
    for at in 0..ANSWER.len() {
        let mut server = Server::<Sha256>::new(&kept, SERVER_NONCE);
        let challenge = server.challenge(FIRST).expect("no fault");
        let mut answer = client(b"pencil").answer(&challenge).expect("no fault");
        answer[at] ^= 1;
        assert!(server.verify(&answer).is_err(), "{at}");
        assert!(!server.is_finished());
    }
}

#[test]
fn first_messages_that_are_refused() {
    let kept = kept();
    let first = |message: &[u8]| Server::<Sha256>::new(&kept, SERVER_NONCE).challenge(message);
    assert_eq!(first(b"p=tls-server-end-point,,n=,r=a"), Err(Error::WrongProof));
    for message in
        [&b"n,,n=user"[..], b"n,,n=,r=", b"n,,m=ext,n=,r=a", b"n,,r=a,n=", b"n,,n=,r=\x7f"]
    {
        assert_eq!(first(message), Err(Error::Nonce));
    }
    assert!(first(b"y,,n=,r=a,ext=1").is_ok());
    let mut server = Server::<Sha256>::new(&kept, SERVER_NONCE);
    assert_eq!(server.verify(ANSWER), Err(Error::OutOfTurn));
    server.challenge(FIRST).expect("no fault");
    assert_eq!(server.challenge(FIRST), Err(Error::OutOfTurn));
}

#[test]
fn users_are_escaped_and_secrets_not_shown() {
    let client = Client::<Sha256>::new(b"pencil", "nonce").with_user("a,b=c");
    assert_eq!(client.first(), b"n,,n=a=2Cb=3Dc,r=nonce");
    let kept = kept();
    let shown = format!("{client:?} {kept:?} {:?}", Server::<Sha256>::new(&kept, "nonce"));
    assert_eq!(shown, "Client { .. } Credentials { iterations: 4096, .. } Server { .. }");
}
