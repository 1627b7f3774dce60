//! A server's messages with their fields.

use crate::conversions::{format_list, formats, json_bytes, list, other, values};
use crate::error_fields::ErrorFields;
use crate::fields::{
    kinds, AuthenticationFields, ColumnFields, CommandCompleteFields, CopyResponseFields,
    DataFields, DataRowFields, FunctionResultFields, KeyFields, MechanismsFields,
    NegotiationFields, NoFields, NotificationFields, OtherFields, ParameterDescriptionFields,
    ReadyForQueryFields, RowDescriptionFields, SaltFields, SettingFields, StatusLetter,
};
use crate::json_bytes::JsonBytes;
use pgmsg::backend::{self, Authentication, CopyResponse, Message, TransactionStatus};
use pgmsg::{ByteStr, Format, List, Refusal, Secret};
use std::borrow::Cow;

/// The fields of an error or a notice.
#[derive(Debug, PartialEq, serde::Serialize, serde::Deserialize)]
#[serde(deny_unknown_fields, bound(deserialize = "'de: 'a"))]
pub struct ResponseFields<'a> {
    pub fields: ErrorFields<'a>,
}

kinds! {
    /// A message from a server.
    ServerMessage of a "server" {
        AuthenticationOk(NoFields),
        AuthenticationCleartextPassword(NoFields),
        AuthenticationMD5Password(SaltFields<'a>),
        AuthenticationSASL(MechanismsFields<'a>),
        AuthenticationSASLContinue(DataFields<'a>),
        AuthenticationSASLFinal(DataFields<'a>),
        Authentication(AuthenticationFields<'a>),
        BackendKeyData(KeyFields<'a>),
        BindComplete(NoFields),
        CloseComplete(NoFields),
        CommandComplete(CommandCompleteFields<'a>),
        CopyData(DataFields<'a>),
        CopyDone(NoFields),
        CopyInResponse(CopyResponseFields),
        CopyOutResponse(CopyResponseFields),
        CopyBothResponse(CopyResponseFields),
        DataRow(DataRowFields<'a>),
        EmptyQueryResponse(NoFields),
        ErrorResponse(ResponseFields<'a>),
        FunctionCallResponse(FunctionResultFields<'a>),
        NegotiateProtocolVersion(NegotiationFields<'a>),
        NoData(NoFields),
        NoticeResponse(ResponseFields<'a>),
        NotificationResponse(NotificationFields<'a>),
        ParameterDescription(ParameterDescriptionFields),
        ParameterStatus(SettingFields<'a>),
        ParseComplete(NoFields),
        PortalSuspended(NoFields),
        ReadyForQuery(ReadyForQueryFields),
        RowDescription(RowDescriptionFields<'a>),
        Other(OtherFields<'a>),
    }
}

impl<'a> ServerMessage<'a> {
    /// The fields of a message.
    pub fn of(message: &Message<'a>) -> Option<ServerMessage<'a>> {
        Some(match message {
            Message::Authentication(it) => authentication_of(it)?,
            Message::BackendKeyData(it) => ServerMessage::BackendKeyData(key_of(it)),
            Message::BindComplete => ServerMessage::BindComplete(NoFields {}),
            Message::CloseComplete => ServerMessage::CloseComplete(NoFields {}),
            Message::CommandComplete(it) => {
                ServerMessage::CommandComplete(CommandCompleteFields { command: json_bytes(*it) })
            }
            Message::CopyData(it) => ServerMessage::CopyData(DataFields { data: json_bytes(*it) }),
            Message::CopyDone => ServerMessage::CopyDone(NoFields {}),
            Message::CopyInResponse(it) => ServerMessage::CopyInResponse(copy_of(it)),
            Message::CopyOutResponse(it) => ServerMessage::CopyOutResponse(copy_of(it)),
            Message::CopyBothResponse(it) => ServerMessage::CopyBothResponse(copy_of(it)),
            Message::DataRow(it) => ServerMessage::DataRow(DataRowFields { values: values(it) }),
            Message::EmptyQueryResponse => ServerMessage::EmptyQueryResponse(NoFields {}),
            Message::ErrorResponse(it) => ServerMessage::ErrorResponse(response_of(it)?),
            Message::FunctionCallResponse(it) => ServerMessage::FunctionCallResponse(result_of(it)),
            Message::NegotiateProtocolVersion(it) => {
                ServerMessage::NegotiateProtocolVersion(negotiation_of(it))
            }
            Message::NoData => ServerMessage::NoData(NoFields {}),
            Message::NoticeResponse(it) => ServerMessage::NoticeResponse(response_of(it)?),
            Message::NotificationResponse(it) => {
                ServerMessage::NotificationResponse(notification_of(it))
            }
            Message::ParameterDescription(it) => {
                ServerMessage::ParameterDescription(ParameterDescriptionFields {
                    types: it.to_vec(),
                })
            }
            Message::ParameterStatus(it) => ServerMessage::ParameterStatus(SettingFields {
                name: json_bytes(it.name),
                value: json_bytes(it.value),
            }),
            Message::ParseComplete => ServerMessage::ParseComplete(NoFields {}),
            Message::PortalSuspended => ServerMessage::PortalSuspended(NoFields {}),
            Message::ReadyForQuery(it) => {
                ServerMessage::ReadyForQuery(ReadyForQueryFields { status: status_of(*it)? })
            }
            Message::RowDescription(it) => ServerMessage::RowDescription(RowDescriptionFields {
                columns: it.iter().map(column_of).collect(),
            }),
            _ => return None,
        })
    }

    /// Appends the message.
    pub fn write(&self, out: &mut Vec<u8>) -> Result<(), Refusal> {
        let message = match self {
            ServerMessage::Other(it) => return other(it, out),
            ServerMessage::BackendKeyData(it) => Message::BackendKeyData(key(it)),
            ServerMessage::BindComplete(_) => Message::BindComplete,
            ServerMessage::CloseComplete(_) => Message::CloseComplete,
            ServerMessage::CommandComplete(it) => Message::CommandComplete(ByteStr(&it.command.0)),
            ServerMessage::CopyData(it) => Message::CopyData(ByteStr(&it.data.0)),
            ServerMessage::CopyDone(_) => Message::CopyDone,
            ServerMessage::CopyInResponse(it) => Message::CopyInResponse(copy(it)),
            ServerMessage::CopyOutResponse(it) => Message::CopyOutResponse(copy(it)),
            ServerMessage::CopyBothResponse(it) => Message::CopyBothResponse(copy(it)),
            ServerMessage::DataRow(it) => Message::DataRow(list(&it.values)),
            ServerMessage::EmptyQueryResponse(_) => Message::EmptyQueryResponse,
            ServerMessage::ErrorResponse(it) => Message::ErrorResponse(it.fields.list()),
            ServerMessage::FunctionCallResponse(it) => Message::FunctionCallResponse(result(it)),
            ServerMessage::NegotiateProtocolVersion(it) => {
                Message::NegotiateProtocolVersion(negotiation(it))
            }
            ServerMessage::NoData(_) => Message::NoData,
            ServerMessage::NoticeResponse(it) => Message::NoticeResponse(it.fields.list()),
            ServerMessage::NotificationResponse(it) => {
                Message::NotificationResponse(notification(it))
            }
            ServerMessage::ParameterDescription(it) => {
                Message::ParameterDescription(List::from(&it.types[..]))
            }
            ServerMessage::ParameterStatus(it) => {
                Message::ParameterStatus(backend::ParameterStatus {
                    name: ByteStr(&it.name.0),
                    value: ByteStr(&it.value.0),
                })
            }
            ServerMessage::ParseComplete(_) => Message::ParseComplete,
            ServerMessage::PortalSuspended(_) => Message::PortalSuspended,
            ServerMessage::ReadyForQuery(it) => Message::ReadyForQuery(status(it.status)),
            ServerMessage::RowDescription(it) => {
                Message::RowDescription(it.columns.iter().map(column).collect())
            }
            asked => Message::Authentication(authentication(asked)),
        };
        message.write(out)
    }
}

fn authentication_of<'a>(it: &Authentication<'a>) -> Option<ServerMessage<'a>> {
    Some(match it {
        Authentication::Ok => ServerMessage::AuthenticationOk(NoFields {}),
        Authentication::CleartextPassword => {
            ServerMessage::AuthenticationCleartextPassword(NoFields {})
        }
        Authentication::Md5Password(salt) => ServerMessage::AuthenticationMD5Password(SaltFields {
            salt: JsonBytes(Cow::Owned(salt.to_vec())),
        }),
        Authentication::Sasl(names) => ServerMessage::AuthenticationSASL(MechanismsFields {
            mechanisms: names.iter().map(|it| json_bytes(*it)).collect(),
        }),
        Authentication::SaslContinue(data) => {
            ServerMessage::AuthenticationSASLContinue(DataFields { data: data.0.into() })
        }
        Authentication::SaslFinal(data) => {
            ServerMessage::AuthenticationSASLFinal(DataFields { data: data.0.into() })
        }
        Authentication::GssContinue(data) | Authentication::Other(_, data) => {
            ServerMessage::Authentication(AuthenticationFields {
                method: it.method(),
                data: data.0.into(),
            })
        }
        Authentication::KerberosV5
        | Authentication::ScmCredential
        | Authentication::Gss
        | Authentication::Sspi => ServerMessage::Authentication(AuthenticationFields {
            method: it.method(),
            data: b""[..].into(),
        }),
        _ => return None,
    })
}

/// A request for authentication; other messages aren't passed here.
fn authentication<'t>(it: &'t ServerMessage<'_>) -> Authentication<'t> {
    match it {
        ServerMessage::AuthenticationCleartextPassword(_) => Authentication::CleartextPassword,
        ServerMessage::AuthenticationMD5Password(it) => match <[u8; 4]>::try_from(&it.salt.0[..]) {
            Ok(salt) => Authentication::Md5Password(salt),
            Err(_) => Authentication::Other(5, Secret(&it.salt.0)),
        },
        ServerMessage::AuthenticationSASL(it) => Authentication::Sasl(texts(&it.mechanisms)),
        ServerMessage::AuthenticationSASLContinue(it) => {
            Authentication::SaslContinue(Secret(&it.data.0))
        }
        ServerMessage::AuthenticationSASLFinal(it) => Authentication::SaslFinal(Secret(&it.data.0)),
        ServerMessage::Authentication(it) => Authentication::Other(it.method, Secret(&it.data.0)),
        _ => Authentication::Ok,
    }
}

fn key_of<'a>(it: &backend::BackendKeyData<'a>) -> KeyFields<'a> {
    KeyFields { process_id: it.process_id, secret_key: it.secret_key.0.into() }
}

fn response_of<'a>(it: &backend::Fields<'a>) -> Option<ResponseFields<'a>> {
    Some(ResponseFields { fields: ErrorFields::of(it)? })
}

fn result_of<'a>(it: &backend::FunctionCallResponse<'a>) -> FunctionResultFields<'a> {
    FunctionResultFields { value: it.0.bytes().map(JsonBytes::from) }
}

fn negotiation_of<'a>(it: &backend::NegotiateProtocolVersion<'a>) -> NegotiationFields<'a> {
    let options = it.options.iter().map(|it| json_bytes(*it));
    NegotiationFields { minor: it.minor, options: options.collect() }
}

fn notification_of<'a>(it: &backend::NotificationResponse<'a>) -> NotificationFields<'a> {
    NotificationFields {
        process_id: it.process_id,
        channel: json_bytes(it.channel),
        payload: json_bytes(it.payload),
    }
}

fn key<'t>(it: &'t KeyFields<'_>) -> backend::BackendKeyData<'t> {
    backend::BackendKeyData { process_id: it.process_id, secret_key: Secret(&it.secret_key.0) }
}

fn negotiation<'t>(it: &'t NegotiationFields<'_>) -> backend::NegotiateProtocolVersion<'t> {
    backend::NegotiateProtocolVersion { major: 3, minor: it.minor, options: texts(&it.options) }
}

fn notification<'t>(it: &'t NotificationFields<'_>) -> backend::NotificationResponse<'t> {
    backend::NotificationResponse {
        process_id: it.process_id,
        channel: ByteStr(&it.channel.0),
        payload: ByteStr(&it.payload.0),
    }
}

fn result<'t>(it: &'t FunctionResultFields<'_>) -> backend::FunctionCallResponse<'t> {
    backend::FunctionCallResponse(it.value.as_ref().map(|it| &it.0).into())
}

fn texts<'t>(texts: &'t [JsonBytes<'_>]) -> List<'t, ByteStr<'t>> {
    texts.iter().map(|json_bytes| ByteStr(&json_bytes.0)).collect()
}

fn copy_of(it: &CopyResponse<'_>) -> CopyResponseFields {
    CopyResponseFields { format: it.format, columns: formats(&it.columns) }
}

fn copy(it: &CopyResponseFields) -> CopyResponse<'static> {
    CopyResponse { format: it.format, columns: format_list(&it.columns) }
}

fn status_of(status: TransactionStatus) -> Option<StatusLetter> {
    match status {
        TransactionStatus::Idle => Some(StatusLetter::I),
        TransactionStatus::InTransaction => Some(StatusLetter::T),
        TransactionStatus::Failed => Some(StatusLetter::E),
        _ => None,
    }
}

fn status(status: StatusLetter) -> TransactionStatus {
    match status {
        StatusLetter::I => TransactionStatus::Idle,
        StatusLetter::T => TransactionStatus::InTransaction,
        StatusLetter::E => TransactionStatus::Failed,
    }
}

fn column_of<'a>(it: &backend::Column<'a>) -> ColumnFields<'a> {
    ColumnFields {
        name: json_bytes(it.name),
        table: it.table,
        attribute: it.attribute,
        type_id: it.type_id,
        type_size: it.type_size,
        type_modifier: it.type_modifier,
        format: it.format.0,
    }
}

fn column<'t>(it: &'t ColumnFields<'_>) -> backend::Column<'t> {
    backend::Column {
        name: ByteStr(&it.name.0),
        table: it.table,
        attribute: it.attribute,
        type_id: it.type_id,
        type_size: it.type_size,
        type_modifier: it.type_modifier,
        format: Format(it.format),
    }
}
