//! Hexadecimal digits.

use crate::alloc::{AllocError, Global};
use crate::vec::Vec;

pub use hex_crate::{decode_to_slice, encode_to_slice};

/// Why a text isn't read.
#[derive(Clone, Copy, Debug, PartialEq)]
pub enum FromHexError {
    /// It is no even number of digits.
    NoDigits(hex_crate::FromHexError),
    /// Memory for its bytes was refused.
    OutOfMemory,
}

impl From<AllocError> for FromHexError {
    fn from(_: AllocError) -> Self {
        FromHexError::OutOfMemory
    }
}

/// The bytes that a text spells.
pub fn decode(alloc: Global, text: &str) -> Result<Vec<u8>, FromHexError> {
    if !text.len().is_multiple_of(2) {
        return Err(FromHexError::NoDigits(hex_crate::FromHexError::OddLength));
    }
    let mut bytes = Vec::filled(alloc, 0, text.len() / 2)?;
    decode_to_slice(text, &mut bytes).map_err(FromHexError::NoDigits)?;
    Ok(bytes)
}
