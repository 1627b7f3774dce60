//! How values are written.

use std::fmt::Display;

/// The hexadecimal digits of bytes, or `-` for none.
pub fn hex(bytes: impl AsRef<[u8]>) -> String {
    match bytes.as_ref() {
        [] => "-".to_owned(),
        bytes => hex::encode(bytes),
    }
}

/// `none`, or the digits.
pub fn hex_or_none(bytes: Option<impl AsRef<[u8]>>) -> String {
    bytes.map_or("none".to_owned(), hex)
}

/// `none`, or the number.
pub fn number_or_none(number: Option<impl Display>) -> String {
    number.map_or("none".to_owned(), |number| number.to_string())
}

/// The items in brackets.
pub fn list(items: impl IntoIterator<Item = String>) -> String {
    format!("[{}]", items.into_iter().collect::<Vec<_>>().join(","))
}
