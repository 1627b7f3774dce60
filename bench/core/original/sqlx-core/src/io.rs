//! Encoding and decoding, and texts that end at a NUL.

use bytes::{Buf, Bytes};
use memchr::memchr;

use crate::error::Error;

pub trait ProtocolEncode<'en, Context = ()> {
    fn encode_with(&self, buf: &mut Vec<u8>, context: Context) -> Result<(), Error>;

    fn encode(&self, buf: &mut Vec<u8>) -> Result<(), Error>
    where
        Self: ProtocolEncode<'en, ()>,
    {
        self.encode_with(buf, ())
    }
}

pub trait ProtocolDecode<'de, Context = ()>: Sized {
    fn decode_with(buf: Bytes, context: Context) -> Result<Self, Error>;

    fn decode(buf: Bytes) -> Result<Self, Error>
    where
        Self: ProtocolDecode<'de, ()>,
    {
        Self::decode_with(buf, ())
    }
}

pub trait BufExt {
    fn get_bytes_nul(&mut self) -> Result<Bytes, Error>;

    fn get_str_nul(&mut self) -> Result<String, Error>;
}

impl BufExt for Bytes {
    fn get_bytes_nul(&mut self) -> Result<Bytes, Error> {
        let Some(end) = memchr(0, self) else {
            return Err(err_protocol!("no NUL ends the bytes"));
        };
        let bytes = self.split_to(end);
        self.advance(1);
        Ok(bytes)
    }

    fn get_str_nul(&mut self) -> Result<String, Error> {
        let bytes = self.get_bytes_nul()?;
        let text = std::str::from_utf8(&bytes).map_err(Error::protocol)?;
        Ok(text.to_owned())
    }
}

pub trait BufMutExt {
    fn put_str_nul(&mut self, text: &str);
}

impl BufMutExt for Vec<u8> {
    fn put_str_nul(&mut self, text: &str) {
        self.extend_from_slice(text.as_bytes());
        self.push(0);
    }
}
