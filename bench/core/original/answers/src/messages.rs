//! The words of each message but errors and notices.

use sqlx_core::bytes::Bytes;

use crate::message::*;
use crate::outcome::Answer;
use crate::words::{hex, hex_or_none, list, number_or_none};

impl Answer for Authentication {
    fn words(&self) -> String {
        match self {
            Authentication::Ok => " kind=ok".to_owned(),
            Authentication::CleartextPassword => " kind=cleartext".to_owned(),
            Authentication::Md5Password(body) => format!(" kind=md5 salt={}", hex(body.salt)),
            Authentication::Sasl(body) => {
                format!(" kind=sasl mechanisms={}", list(body.mechanisms().map(hex)))
            }
            Authentication::SaslContinue(body) => format!(
                " kind=saslcontinue salt={} iterations={} nonce={} message={}",
                hex(&body.salt),
                body.iterations,
                hex(&body.nonce),
                hex(&body.message),
            ),
            Authentication::SaslFinal(body) => {
                format!(" kind=saslfinal verifier={}", hex(&body.verifier))
            }
        }
    }
}

impl Answer for BackendKeyData {
    fn words(&self) -> String {
        format!(
            " process_id={} secret_key={}",
            self.process_id, self.secret_key
        )
    }
}

impl Answer for CommandComplete {
    fn words(&self) -> String {
        format!(" rows_affected={}", self.rows_affected())
    }
}

impl Answer for CopyData<Bytes> {
    fn words(&self) -> String {
        format!(" data={}", hex(&self.0))
    }
}

impl Answer for CopyDone {
    fn words(&self) -> String {
        String::new()
    }
}

impl Answer for CopyInResponse {
    fn words(&self) -> String {
        copy_words(&self.0)
    }
}

impl Answer for CopyOutResponse {
    fn words(&self) -> String {
        copy_words(&self.0)
    }
}

fn copy_words(copy: &CopyResponseData) -> String {
    let codes = list(copy.format_codes.iter().map(i16::to_string));
    format!(
        " format={} num_columns={} format_codes={codes}",
        copy.format, copy.num_columns
    )
}

impl Answer for DataRow {
    fn words(&self) -> String {
        let len = self.values.len();
        let cells = (0..len).map(|index| hex_or_none(self.get(index)));
        format!(" len={len} cells={}", list(cells))
    }
}

impl Answer for Notification {
    fn words(&self) -> String {
        format!(
            " process_id={} channel={} payload={}",
            self.process_id,
            hex(&self.channel),
            hex(&self.payload)
        )
    }
}

impl Answer for ParameterDescription {
    fn words(&self) -> String {
        format!(
            " types={}",
            list(self.types.iter().map(|oid| oid.0.to_string()))
        )
    }
}

impl Answer for ParameterStatus {
    fn words(&self) -> String {
        format!(" name={} value={}", hex(&self.name), hex(&self.value))
    }
}

impl Answer for ReadyForQuery {
    fn words(&self) -> String {
        let status = match self.transaction_status {
            TransactionStatus::Idle => b'I',
            TransactionStatus::Transaction => b'T',
            TransactionStatus::Error => b'E',
        };
        format!(" transaction_status={status}")
    }
}

impl Answer for RowDescription {
    fn words(&self) -> String {
        let fields = self.fields.iter().map(|field| {
            format!(
                "{}:{}:{}:{}:{}:{}:{}",
                hex(&field.name),
                number_or_none(field.relation_id.map(|oid| oid.0)),
                number_or_none(field.relation_attribute_no),
                field.data_type_id.0,
                field.data_type_size,
                field.type_modifier,
                field.format
            )
        });
        format!(" fields={}", list(fields))
    }
}
