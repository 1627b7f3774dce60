//! `String`, whose calls may be refused memory.

use crate::alloc::{AllocError, Global};
use core::{fmt, ops};
use rust_alloc::string;

/// Rust's `String`, with calls that answer where memory is refused.
#[derive(Debug, Default, PartialEq, Eq)]
pub struct String(string::String);

impl String {
    /// No text. It asks for no memory.
    pub const fn new(_: Global) -> Self {
        String(string::String::new())
    }

    /// No text, with room for just so many bytes.
    pub fn with_capacity(alloc: Global, room: usize) -> Result<Self, AllocError> {
        let mut text = String::new(alloc);
        text.0.try_reserve_exact(room).map_err(|_| AllocError)?;
        Ok(text)
    }

    /// A copy of a text.
    #[allow(clippy::should_implement_trait)]
    pub fn from_str(alloc: Global, from: &str) -> Result<Self, AllocError> {
        let mut text = String::with_capacity(alloc, from.len())?;
        text.0.push_str(from);
        Ok(text)
    }

    /// The text.
    pub fn as_str(&self) -> &str {
        &self.0
    }

    /// The bytes of the text.
    pub fn as_bytes(&self) -> &[u8] {
        self.0.as_bytes()
    }

    /// How many bytes it holds without asking for memory.
    pub fn capacity(&self) -> usize {
        self.0.capacity()
    }

    /// Takes out all.
    pub fn clear(&mut self) {
        self.0.clear();
    }

    /// Adds a text.
    pub fn push_str(&mut self, text: &str) -> Result<(), AllocError> {
        self.0.try_reserve(text.len()).map_err(|_| AllocError)?;
        self.0.push_str(text);
        Ok(())
    }

    /// Adds a character.
    pub fn push(&mut self, c: char) -> Result<(), AllocError> {
        self.push_str(c.encode_utf8(&mut [0; 4]))
    }

    /// What `write!` calls. Only memory can be wanting.
    pub fn write_fmt(&mut self, text: fmt::Arguments<'_>) -> Result<(), AllocError> {
        fmt::Write::write_fmt(self, text).map_err(|_| AllocError)
    }

    /// The same text in memory of its own.
    #[allow(clippy::should_implement_trait)]
    pub fn clone(&self) -> Result<Self, AllocError> {
        String::from_str(Global, self)
    }
}

impl From<string::String> for String {
    fn from(text: string::String) -> Self {
        String(text)
    }
}

impl From<String> for string::String {
    fn from(text: String) -> Self {
        text.0
    }
}

impl fmt::Write for String {
    fn write_str(&mut self, text: &str) -> fmt::Result {
        self.push_str(text).map_err(|_| fmt::Error)
    }
}

impl ops::Deref for String {
    type Target = str;

    fn deref(&self) -> &str {
        &self.0
    }
}

impl fmt::Display for String {
    fn fmt(&self, f: &mut fmt::Formatter<'_>) -> fmt::Result {
        self.0.fmt(f)
    }
}

/// `to_string` with an allocator.
pub trait ToStringIn: fmt::Display {
    /// What the value prints.
    fn to_string_in(&self, alloc: Global) -> Result<String, AllocError> {
        let mut text = String::new(alloc);
        text.write_fmt(format_args!("{self}"))?;
        Ok(text)
    }
}

impl<T: fmt::Display> ToStringIn for T {}

/// A [`String`] of what a format prints.
#[macro_export]
macro_rules! format_in {
    ($alloc:expr; $($format:tt)*) => {
        $crate::string::ToStringIn::to_string_in(&format_args!($($format)*), $alloc)
    };
}
