//! Stands in for the original's file of this name, which the benchmark never calls.

use sqlx_core::bytes::Bytes;

use crate::error::Error;
use crate::message::{BackendMessage, BackendMessageFormat};

pub struct ParseComplete;

impl BackendMessage for ParseComplete {
    const FORMAT: BackendMessageFormat = BackendMessageFormat::ParseComplete;

    fn decode_body(_body: Bytes) -> Result<Self, Error> {
        Ok(ParseComplete)
    }
}
