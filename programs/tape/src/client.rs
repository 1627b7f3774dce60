//! A client's messages with their fields.

use crate::conversions::{format_list, formats, json_bytes, list, other, values};
use crate::fields::{
    kinds, BindFields, CopyFailFields, DataFields, ExecuteFields, FunctionCallFields, KeyFields,
    NoFields, OtherFields, ParseFields, PasswordFields, QueryFields, SaslInitialFields,
    SettingFields, StartupFields, TargetFields, TargetKind,
};
use pgmsg::frontend::{self, Message, PasswordMessage, SaslInitialResponse};
use pgmsg::{ByteStr, Format, List, Refusal, Secret};

kinds! {
    /// A message from a client.
    ClientMessage of a "client" {
        StartupMessage(StartupFields<'a>),
        CancelRequest(KeyFields<'a>),
        SSLRequest(NoFields),
        GSSENCRequest(NoFields),
        Bind(BindFields<'a>),
        Close(TargetFields<'a>),
        CopyData(DataFields<'a>),
        CopyDone(NoFields),
        CopyFail(CopyFailFields<'a>),
        Describe(TargetFields<'a>),
        Execute(ExecuteFields<'a>),
        Flush(NoFields),
        FunctionCall(FunctionCallFields<'a>),
        Parse(ParseFields<'a>),
        PasswordMessage(PasswordFields<'a>),
        SASLInitialResponse(SaslInitialFields<'a>),
        SASLResponse(DataFields<'a>),
        Query(QueryFields<'a>),
        Sync(NoFields),
        Terminate(NoFields),
        Other(OtherFields<'a>),
    }
}

impl<'a> ClientMessage<'a> {
    /// The fields of a message.
    pub fn of(message: &Message<'a>) -> Option<ClientMessage<'a>> {
        Some(match message {
            Message::Startup(startup) => ClientMessage::StartupMessage(startup_of(startup)),
            Message::CancelRequest(cancel) => ClientMessage::CancelRequest(KeyFields {
                process_id: cancel.process_id,
                secret_key: cancel.secret_key.0.into(),
            }),
            Message::SslRequest => ClientMessage::SSLRequest(NoFields {}),
            Message::GssEncRequest => ClientMessage::GSSENCRequest(NoFields {}),
            Message::Bind(bind) => ClientMessage::Bind(bind_of(bind)),
            Message::Close(target) => ClientMessage::Close(target_of(target)),
            Message::CopyData(data) => {
                ClientMessage::CopyData(DataFields { data: json_bytes(*data) })
            }
            Message::CopyDone => ClientMessage::CopyDone(NoFields {}),
            Message::CopyFail(reason) => {
                ClientMessage::CopyFail(CopyFailFields { reason: json_bytes(*reason) })
            }
            Message::Describe(target) => ClientMessage::Describe(target_of(target)),
            Message::Execute(execute) => ClientMessage::Execute(ExecuteFields {
                portal: json_bytes(execute.portal),
                max_rows: execute.max_rows,
            }),
            Message::Flush => ClientMessage::Flush(NoFields {}),
            Message::FunctionCall(call) => ClientMessage::FunctionCall(call_of(call)),
            Message::Parse(parse) => ClientMessage::Parse(ParseFields {
                statement: json_bytes(parse.statement),
                query: json_bytes(parse.query),
                types: parse.types.to_vec(),
            }),
            Message::Password(answer) => answer_of(*answer),
            Message::Query(query) => {
                ClientMessage::Query(QueryFields { query: json_bytes(*query) })
            }
            Message::Sync => ClientMessage::Sync(NoFields {}),
            Message::Terminate => ClientMessage::Terminate(NoFields {}),
            _ => return None,
        })
    }

    /// Appends the message.
    pub fn write(&self, out: &mut Vec<u8>) -> Result<(), Refusal> {
        let message = match self {
            ClientMessage::PasswordMessage(it) => {
                return PasswordMessage(Secret(&it.password.0)).write(out)
            }
            ClientMessage::SASLInitialResponse(it) => return initial(it).write(out),
            ClientMessage::SASLResponse(it) => Message::Password(frontend::Password(&it.data.0)),
            ClientMessage::Other(it) => return other(it, out),
            ClientMessage::StartupMessage(it) => Message::Startup(startup(it)),
            ClientMessage::CancelRequest(it) => Message::CancelRequest(frontend::CancelRequest {
                process_id: it.process_id,
                secret_key: Secret(&it.secret_key.0),
            }),
            ClientMessage::SSLRequest(_) => Message::SslRequest,
            ClientMessage::GSSENCRequest(_) => Message::GssEncRequest,
            ClientMessage::Bind(it) => Message::Bind(bind(it)),
            ClientMessage::Close(it) => Message::Close(target(it)),
            ClientMessage::CopyData(it) => Message::CopyData(ByteStr(&it.data.0)),
            ClientMessage::CopyDone(_) => Message::CopyDone,
            ClientMessage::CopyFail(it) => Message::CopyFail(ByteStr(&it.reason.0)),
            ClientMessage::Describe(it) => Message::Describe(target(it)),
            ClientMessage::Execute(it) => Message::Execute(frontend::Execute {
                portal: ByteStr(&it.portal.0),
                max_rows: it.max_rows,
            }),
            ClientMessage::Flush(_) => Message::Flush,
            ClientMessage::FunctionCall(it) => Message::FunctionCall(call(it)),
            ClientMessage::Parse(it) => Message::Parse(parse(it)),
            ClientMessage::Query(it) => Message::Query(ByteStr(&it.query.0)),
            ClientMessage::Sync(_) => Message::Sync,
            ClientMessage::Terminate(_) => Message::Terminate,
        };
        message.write(out)
    }
}

fn startup_of<'a>(it: &frontend::Startup<'a>) -> StartupFields<'a> {
    let settings = it
        .settings
        .iter()
        .map(|it| SettingFields { name: json_bytes(it.name), value: json_bytes(it.value) });
    StartupFields { minor: it.minor, settings: settings.collect() }
}

fn startup<'t>(it: &'t StartupFields<'_>) -> frontend::Startup<'t> {
    let settings = it
        .settings
        .iter()
        .map(|it| frontend::Setting { name: ByteStr(&it.name.0), value: ByteStr(&it.value.0) });
    frontend::Startup { minor: it.minor, settings: settings.collect() }
}

fn bind_of<'a>(it: &frontend::Bind<'a>) -> BindFields<'a> {
    BindFields {
        portal: json_bytes(it.portal),
        statement: json_bytes(it.statement),
        formats: formats(&it.formats),
        values: values(&it.values),
        result_formats: formats(&it.result_formats),
    }
}

fn bind<'t>(it: &'t BindFields<'_>) -> frontend::Bind<'t> {
    frontend::Bind {
        portal: ByteStr(&it.portal.0),
        statement: ByteStr(&it.statement.0),
        formats: format_list(&it.formats),
        values: list(&it.values),
        result_formats: format_list(&it.result_formats),
    }
}

fn target_of<'a>(it: &frontend::Target<'a>) -> TargetFields<'a> {
    let target = match it {
        frontend::Target::Statement(_) => TargetKind::Statement,
        frontend::Target::Portal(_) => TargetKind::Portal,
    };
    TargetFields { target, name: json_bytes(it.name()) }
}

fn target<'t>(it: &'t TargetFields<'_>) -> frontend::Target<'t> {
    let name = ByteStr(&it.name.0);
    match it.target {
        TargetKind::Statement => frontend::Target::Statement(name),
        TargetKind::Portal => frontend::Target::Portal(name),
    }
}

fn call_of<'a>(it: &frontend::FunctionCall<'a>) -> FunctionCallFields<'a> {
    FunctionCallFields {
        object_id: it.object_id,
        formats: formats(&it.formats),
        arguments: values(&it.arguments),
        result_format: it.result_format.0,
    }
}

fn call<'t>(it: &'t FunctionCallFields<'_>) -> frontend::FunctionCall<'t> {
    frontend::FunctionCall {
        object_id: it.object_id,
        formats: format_list(&it.formats),
        arguments: list(&it.arguments),
        result_format: Format(it.result_format),
    }
}

fn parse<'t>(it: &'t ParseFields<'_>) -> frontend::Parse<'t> {
    frontend::Parse {
        statement: ByteStr(&it.statement.0),
        query: ByteStr(&it.query.0),
        types: List::from(&it.types[..]),
    }
}

fn initial<'t>(it: &'t SaslInitialFields<'_>) -> SaslInitialResponse<'t> {
    SaslInitialResponse {
        mechanism: ByteStr(&it.mechanism.0),
        response: it.response.as_ref().map(|response| Secret(&response.0)),
    }
}

/// An answer to a request for authentication, by what its bytes can be: the request isn't looked at.
fn answer_of(answer: frontend::Password<'_>) -> ClientMessage<'_> {
    let data = ClientMessage::SASLResponse(DataFields { data: answer.0.into() });
    if let Ok(initial) = answer.sasl_initial() {
        let response = initial.response.map(|response| response.0.into());
        return ClientMessage::SASLInitialResponse(SaslInitialFields {
            mechanism: json_bytes(initial.mechanism),
            response,
        });
    }
    match answer.password() {
        Ok(password) if answer.0.len() == password.len() + 1 => {
            ClientMessage::PasswordMessage(PasswordFields { password: password.into() })
        }
        _ => data,
    }
}
