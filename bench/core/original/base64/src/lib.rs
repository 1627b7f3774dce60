//! Stands in for base64 0.22, over 0.13, which Debian has.

pub use before::DecodeError;

pub trait Engine {
    fn decode<T: AsRef<[u8]>>(&self, text: T) -> Result<Vec<u8>, DecodeError>;
}

pub struct Standard;

impl Engine for Standard {
    fn decode<T: AsRef<[u8]>>(&self, text: T) -> Result<Vec<u8>, DecodeError> {
        // 0.13 takes a text without its padding too
        if text.as_ref().len() % 4 != 0 {
            return Err(DecodeError::InvalidLength);
        }
        before::decode(text)
    }
}

pub mod prelude {
    pub use crate::Engine;

    pub const BASE64_STANDARD: crate::Standard = crate::Standard;
}
