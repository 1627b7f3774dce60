//! Each message of either side in both directions.

mod common;

use common::samples::{of_client, of_server};
use pgmsg::{backend, frontend, Decoder};

macro_rules! assert_both_ways {
    ($side:ident, $messages:expr, $decoder:expr) => {
        for (bytes, message) in $messages {
            let mut out = b"before".to_vec();
            assert_eq!(message.write(&mut out), Ok(()));
            assert_eq!(out, [b"before", bytes].concat(), "{message:?}");
            let mut decoder = match message.tag() {
                Some(_) => $decoder,
                None => Decoder::of_client(),
            };
            let frame = decoder.next(bytes).expect("no fault");
            let frame = frame.frame().expect("it is whole");
            assert_eq!((frame.bytes, frame.tag), (bytes, message.tag()));
            assert_eq!($side::Message::read(&frame), Ok(message.clone()));
            let shown = format!("{message:?}");
            assert!(shown.starts_with(message.name()), "{shown}");
        }
    };
}

#[test]
fn messages_of_a_server() {
    assert_both_ways!(backend, of_server(), Decoder::of_server());
}

#[test]
fn messages_of_a_client() {
    assert_both_ways!(frontend, of_client(), Decoder::of_open_client());
}

#[test]
fn each_tag_has_a_message() {
    let tags: Vec<_> = of_server().iter().filter_map(|it| it.1.tag()).collect();
    for tag in 0..=u8::MAX {
        let is_other =
            matches!(backend::Message::read_body(Some(tag), b""), Ok(backend::Message::Other(_)));
        assert_eq!(is_other, !tags.contains(&tag) || tag == b'!', "{tag}");
    }
    let tags: Vec<_> = of_client().iter().filter_map(|it| it.1.tag()).collect();
    for tag in 0..=u8::MAX {
        let frame = Decoder::of_open_client().next(&[tag, 0, 0, 0, 4]).map(drop);
        assert_eq!(frame.is_ok(), tags.contains(&tag), "{tag}");
        let read = frontend::Message::read_body(Some(tag), b"").map_err(|fault| fault.refusal);
        let is_unknown = read == Err(pgmsg::Refusal::UnknownMessageType);
        assert_eq!(is_unknown, !tags.contains(&tag), "{tag}");
    }
    assert!(backend::Message::read_body(None, b"").is_err());
}

#[test]
fn secrets_are_named_and_not_shown() {
    let secret_tags: Vec<_> = of_server()
        .iter()
        .filter(|it| it.1.is_secret())
        .map(|(bytes, message)| {
            let shown = format!("{message:?}");
            assert!(
                shown.contains("Secret(") && !shown.contains("token") && !shown.contains("r=a")
            );
            (bytes[0], bytes[8])
        })
        .collect();
    assert_eq!(secret_tags, [(b'R', 11), (b'R', 12), (b'R', 8), (b'R', 99), (b'K', 0xd2)]);
    let secrets: Vec<_> =
        of_client().iter().filter(|it| it.1.is_secret()).map(|it| format!("{:?}", it.1)).collect();
    assert_eq!(
        secrets,
        [
            "CancelRequest(CancelRequest { process_id: 1234, secret_key: Secret(4 bytes) })",
            "Password(Password(3 bytes))",
            "Password(Password(20 bytes))",
        ]
    );
}

#[test]
#[rustfmt::skip]
fn answers_to_a_request_for_authentication() {
    let mut out = Vec::new();
    let password = frontend::PasswordMessage(b"p\xff".into());
    assert_eq!(password.write(&mut out), Ok(()));
    assert_eq!(out, b"p\0\0\0\x07p\xff\0");
    assert_eq!(frontend::Password(&out[5..]).password(), Ok(&b"p\xff"[..]));
    out.clear();
    let digest = [0, 0x11, 0x22, 0x33, 0x44, 0x55, 0x66, 0x77, 0x88, 0x99, 0xaa, 0xbb, 0xcc, 0xdd, 0xee, 0xff];
    assert_eq!(frontend::Md5Password(digest).write(&mut out), Ok(()));
    assert_eq!(out, b"p\0\0\0\x28md500112233445566778899aabbccddeeff\0");
    let cases: [(&[u8], Option<&[u8]>); 3] = [
        (b"p\0\0\0\x0aX\0\xff\xff\xff\xff", None),
        (b"p\0\0\0\x0aX\0\0\0\0\0", Some(b"")),
        (b"p\0\0\0\x0cX\0\0\0\0\x02\0\xff", Some(b"\0\xff")),
    ];
    for (bytes, response) in cases {
        let initial = frontend::SaslInitialResponse {
            mechanism: "X".into(),
            response: response.map(Into::into),
        };
        out.clear();
        assert_eq!(initial.write(&mut out), Ok(()));
        assert_eq!(out, bytes);
        assert_eq!(frontend::Password(&bytes[5..]).sasl_initial(), Ok(initial));
    }
}

#[test]
fn a_server_may_send_the_minor_version_alone() {
    let newest = backend::NegotiateProtocolVersion::read(b"\0\0\0\x01\0\0\0\0");
    assert_eq!(newest.map(|it| it.minor), Ok(1));
}

#[test]
fn the_last_setting_of_a_name_holds() {
    let startup = frontend::Startup::new(&[("user", "ann"), ("options", ""), ("user", "bob")]);
    assert_eq!(startup.settings.value("user"), Some("bob".into()));
    assert_eq!(startup.settings.value("database"), None);
    assert_eq!(startup.settings.into_vec().len(), 3);
}

#[test]
fn codes_of_a_copy_below_zero_are_none() {
    let read = backend::CopyResponse::read(b"\x01\xff\xff").expect("it is complete");
    assert_eq!((read.format, read.columns.len()), (1, 0));
}

#[test]
fn limits_of_an_execute() {
    let limit = |max_rows| frontend::Execute { portal: "".into(), max_rows }.limit().map(u32::from);
    let limits = [0, 1, i32::MAX as u32, 1 << 31, u32::MAX].map(limit);
    assert_eq!(limits, [None, Some(1), Some(i32::MAX as u32), None, None]);
}
