//! Messages of both sides with their bytes, which are written by hand in the layouts of "Message Formats" in the
//! PostgreSQL documentation. Each is read as it is written.

use pgmsg::backend::{
    self, Authentication as Asked, Column, CopyResponse, Field, TransactionStatus,
};
use pgmsg::frontend::{self, Setting, Target};
use pgmsg::{Format, Value};

/// Messages of a server.
#[rustfmt::skip]
pub fn of_server() -> Vec<(&'static [u8], backend::Message<'static>)> {
    use backend::Message::*;
    let key = backend::BackendKeyData { process_id: 1234, secret_key: b"\xff\0\0\x01".into() };
    let copy = |format, columns: &[i16]| CopyResponse { format, columns: columns.iter().copied().map(Format).collect() };
    let fields = [(b'S', "ERROR"), (b'C', "42601"), (b'!', "")].map(|(letter, text)| Field { letter, value: text.into() });
    let newest = backend::NegotiateProtocolVersion { major: 3, minor: 2, options: ["_p.a".into(), "".into()].into() };
    let alone = backend::NegotiateProtocolVersion { major: 0, minor: 2, options: [].into() };
    let note = backend::NotificationResponse { process_id: 42, channel: "jobs".into(), payload: b"\xff".into() };
    let status = backend::ParameterStatus { name: "TimeZone".into(), value: b"\xff".into() };
    let id = Column { table: 16385, attribute: -2, type_size: 4, format: Format::BINARY, ..Column::new("id", 23) };
    let result = |value| FunctionCallResponse(backend::FunctionCallResponse(value));
    vec![
        (b"R\0\0\0\x08\0\0\0\0", Authentication(Asked::Ok)),
        (b"R\0\0\0\x08\0\0\0\x03", Authentication(Asked::CleartextPassword)),
        (b"R\0\0\0\x0c\0\0\0\x05abcd", Authentication(Asked::Md5Password(*b"abcd"))),
        (b"R\0\0\0\x11\0\0\0\x0aPLAIN\0\xff\0\0", Authentication(Asked::Sasl(["PLAIN".into(), b"\xff".into()].into()))),
        (b"R\0\0\0\x09\0\0\0\x0a\0", Authentication(Asked::Sasl([].into()))),
        (b"R\0\0\0\x0b\0\0\0\x0br=a", Authentication(Asked::SaslContinue("r=a".into()))),
        (b"R\0\0\0\x0b\0\0\0\x0c\0\xff=", Authentication(Asked::SaslFinal(b"\0\xff=".into()))),
        (b"R\0\0\0\x08\0\0\0\x02", Authentication(Asked::KerberosV5)),
        (b"R\0\0\0\x08\0\0\0\x06", Authentication(Asked::ScmCredential)),
        (b"R\0\0\0\x08\0\0\0\x07", Authentication(Asked::Gss)),
        (b"R\0\0\0\x0d\0\0\0\x08token", Authentication(Asked::GssContinue("token".into()))),
        (b"R\0\0\0\x08\0\0\0\x09", Authentication(Asked::Sspi)),
        (b"R\0\0\0\x09\0\0\0\x63!", Authentication(Asked::Other(99, "!".into()))),
        (b"K\0\0\0\x0c\0\0\x04\xd2\xff\0\0\x01", BackendKeyData(key)),
        (b"2\0\0\0\x04", BindComplete),
        (b"3\0\0\0\x04", CloseComplete),
        (b"C\0\0\0\x0fINSERT 0 1\0", CommandComplete("INSERT 0 1".into())),
        (b"C\0\0\0\x05\0", CommandComplete("".into())),
        (b"d\0\0\0\x081\t2\n", CopyData("1\t2\n".into())),
        (b"c\0\0\0\x04", CopyDone),
        (b"G\0\0\0\x0b\0\0\x02\0\0\xff\xff", CopyInResponse(copy(0, &[0, -1]))),
        (b"H\0\0\0\x07\x01\0\0", CopyOutResponse(copy(1, &[]))),
        (b"W\0\0\0\x09\0\0\x01\0\x01", CopyBothResponse(copy(0, &[1]))),
        (b"D\0\0\0\x14\0\x03\0\0\0\x02ab\xff\xff\xff\xff\0\0\0\0", DataRow(["ab".into(), Value::NULL, "".into()].into())),
        (b"D\0\0\0\x06\0\0", DataRow([].into())),
        (b"I\0\0\0\x04", EmptyQueryResponse),
        (b"E\0\0\0\x15SERROR\0C42601\0!\0\0", ErrorResponse(fields.into())),
        (b"E\0\0\0\x05\0", ErrorResponse([].into())),
        (b"n\0\0\0\x04", NoData),
        (b"N\0\0\0\x15SERROR\0C42601\0!\0\0", NoticeResponse(fields.into())),
        (b"A\0\0\0\x0f\0\0\0\x2ajobs\0\xff\0", NotificationResponse(note)),
        (b"t\0\0\0\x0e\0\x02\0\0\0\x17\xff\xff\xff\xff", ParameterDescription([23, u32::MAX].into())),
        (b"S\0\0\0\x0fTimeZone\0\xff\0", ParameterStatus(status)),
        (b"1\0\0\0\x04", ParseComplete),
        (b"s\0\0\0\x04", PortalSuspended),
        (b"Z\0\0\0\x05I", ReadyForQuery(TransactionStatus::Idle)),
        (b"Z\0\0\0\x05T", ReadyForQuery(TransactionStatus::InTransaction)),
        (b"Z\0\0\0\x05E", ReadyForQuery(TransactionStatus::Failed)),
        (
            b"T\0\0\0\x2f\0\x02\
                id\0\0\0\x40\x01\xff\xfe\0\0\0\x17\0\x04\xff\xff\xff\xff\0\x01\
                \xff\0\0\0\0\0\0\0\0\0\0\x19\xff\xff\xff\xff\xff\xff\0\0",
            RowDescription([id, Column::new(b"\xff", 25)].into()),
        ),
        (b"V\0\0\0\x0a\0\0\0\x02ab", result("ab".into())),
        (b"V\0\0\0\x08\0\0\0\0", result("".into())),
        (b"V\0\0\0\x08\xff\xff\xff\xff", result(Value::NULL)),
        (b"v\0\0\0\x12\0\x03\0\x02\0\0\0\x02_p.a\0\0", NegotiateProtocolVersion(newest)),
        (b"v\0\0\0\x0c\0\0\0\x02\0\0\0\0", NegotiateProtocolVersion(alone)),
        (b"v\0\0\0\x0c\0\x03\0\0\0\0\0\0", NegotiateProtocolVersion(Default::default())),
        (b"!\0\0\0\x06\0\xff", Other(backend::Other { tag: b'!', body: b"\0\xff".into() })),
    ]
}

/// Messages of a client.
#[rustfmt::skip]
pub fn of_client() -> Vec<(&'static [u8], frontend::Message<'static>)> {
    use frontend::Message::*;
    let startup = |minor, settings: &[(&'static [u8], &'static [u8])]| {
        let settings = settings.iter().map(|&(name, value)| Setting { name: name.into(), value: value.into() });
        Startup(frontend::Startup { minor, settings: settings.collect() })
    };
    let cancel = frontend::CancelRequest { process_id: 1234, secret_key: b"\xff\0\0\x01".into() };
    let bind = frontend::Bind {
        portal: "p".into(),
        statement: b"\xff".into(),
        formats: [Format::BINARY, Format(-1)].into(),
        values: ["ab".into(), Value::NULL, "".into()].into(),
        result_formats: [Format(2)].into(),
    };
    let call = frontend::FunctionCall {
        object_id: 16385,
        formats: [Format::TEXT].into(),
        arguments: ["a".into(), Value::NULL].into(),
        result_format: Format(-1),
    };
    let parse = frontend::Parse { statement: "s".into(), query: b"q\xff".into(), types: [23, u32::MAX].into() };
    vec![
        (b"\0\0\0\x1b\0\x03\0\0user\0bob\0options\0\0\0", startup(0, &[(b"user", b"bob"), (b"options", b"")])),
        (b"\0\0\0\x14\0\x03\0\x02\xffuser\0caf\xe9\0\0", startup(2, &[(b"\xffuser", b"caf\xe9")])),
        (b"\0\0\0\x09\0\x03\xff\xfe\0", startup(65534, &[])),
        (b"\0\0\0\x10\x04\xd2\x16\x2e\0\0\x04\xd2\xff\0\0\x01", CancelRequest(cancel)),
        (b"\0\0\0\x08\x04\xd2\x16\x2f", SslRequest),
        (b"\0\0\0\x08\x04\xd2\x16\x30", GssEncRequest),
        (b"B\0\0\0\x22p\0\xff\0\0\x02\0\x01\xff\xff\0\x03\0\0\0\x02ab\xff\xff\xff\xff\0\0\0\0\0\x01\0\x02", Bind(bind)),
        (b"B\0\0\0\x0c\0\0\0\0\0\0\0\0", Bind(Default::default())),
        (b"C\0\0\0\x07Ss\0", Close(Target::Statement("s".into()))),
        (b"C\0\0\0\x07P\xff\0", Close(Target::Portal(b"\xff".into()))),
        (b"d\0\0\0\x081\t2\n", CopyData("1\t2\n".into())),
        (b"c\0\0\0\x04", CopyDone),
        (b"f\0\0\0\x08no\xff\0", CopyFail(b"no\xff".into())),
        (b"D\0\0\0\x06S\0", Describe(Target::Statement("".into()))),
        (b"D\0\0\0\x07P\xff\0", Describe(Target::Portal(b"\xff".into()))),
        (b"E\0\0\0\x0ap\0\0\0\0\x64", Execute(frontend::Execute { portal: "p".into(), max_rows: 100 })),
        (b"H\0\0\0\x04", Flush),
        (b"F\0\0\0\x19\0\0\x40\x01\0\x01\0\0\0\x02\0\0\0\x01a\xff\xff\xff\xff\xff\xff", FunctionCall(call)),
        (b"P\0\0\0\x13s\0q\xff\0\0\x02\0\0\0\x17\xff\xff\xff\xff", Parse(parse)),
        (b"p\0\0\0\x07pw\0", Password(frontend::Password(b"pw\0"))),
        (b"p\0\0\0\x18SCRAM-SHA-256\0\0\0\0\x02n,", Password(frontend::Password(b"SCRAM-SHA-256\0\0\0\0\x02n,"))),
        (b"Q\0\0\0\x0dSELECT 1\0", Query("SELECT 1".into())),
        (b"Q\0\0\0\x06\xff\0", Query(b"\xff".into())),
        (b"S\0\0\0\x04", Sync),
        (b"X\0\0\0\x04", Terminate),
    ]
}
