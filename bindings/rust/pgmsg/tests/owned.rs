//! Messages that own their bytes.

mod common;

use common::samples;
use pgmsg::{backend, frontend, Refusal};

/// That a type can go to another thread and stay there.
fn is_free<T: Send + Sync + 'static>(_: &T) {}

#[test]
fn each_message_is_the_same_once_it_is_owned() {
    for (_, message) in samples::of_server() {
        let owned = backend::OwnedMessage::try_from(&message).expect("it can be written");
        is_free(&owned);
        assert_eq!(owned.message(), message);
        assert_eq!(format!("{owned:?}"), format!("{message:?}"));
    }
    for (_, message) in samples::of_client() {
        let owned = frontend::OwnedMessage::try_from(&message).expect("it can be written");
        is_free(&owned);
        assert_eq!(owned.message(), message);
    }
}

#[test]
fn what_is_no_message_is_not_owned() {
    let query = frontend::Message::Query("\0".into());
    let refused = frontend::OwnedMessage::try_from(&query);
    assert_eq!(refused.map_err(|it| it.refusal), Err(Refusal::TextHoldsNul));
    let other = backend::Message::Other(backend::Other { tag: b'Z', body: "X".into() });
    let refused = backend::OwnedMessage::try_from(&other);
    assert_eq!(refused.map_err(|it| it.refusal), Err(Refusal::UnknownStatus));
}

#[cfg(feature = "serde")]
#[test]
fn what_is_deserialized_is_a_message() {
    for (_, message) in samples::of_client() {
        let owned = frontend::OwnedMessage::try_from(&message).expect("it can be written");
        let text = serde_json::to_string(&owned).expect("it can be serialized");
        let read: frontend::OwnedMessage = serde_json::from_str(&text).expect("it is a message");
        assert_eq!(read, owned);
    }
    let read = |text| serde_json::from_str::<backend::OwnedMessage>(text);
    assert!(read(r#"{"tag":90,"body":[73]}"#).is_ok());
    let error = read(r#"{"tag":90,"body":[88]}"#).expect_err("no status");
    assert_eq!(error.to_string(), "unknown transaction status: 88");
}

#[cfg(feature = "serde")]
#[test]
fn statuses_faults_and_their_like_are_serialized_by_their_names() {
    use pgmsg::backend::{BackendKeyData, FieldKind, Severity, TransactionStatus};
    let text = serde_json::to_string(&(TransactionStatus::Idle, Severity::Log, FieldKind::Hint));
    assert_eq!(text.expect("names"), r#"["Idle","Log","Hint"]"#);
    let fault = BackendKeyData::read(b"").expect_err("no bytes");
    let text = serde_json::to_string(&fault).expect("a fault");
    assert!(text.starts_with(r#"{"refusal":"Short","at":0,"words":"#), "{text}");
    assert_eq!(serde_json::from_str::<pgmsg::Fault>(&text).expect("a fault"), fault);
}
