//! Errors, and what the error of a server answers.

use std::borrow::Cow;
use std::error::Error as StdError;
use std::fmt;

pub type Result<T, E = Error> = std::result::Result<T, E>;

pub type BoxDynError = Box<dyn StdError + Send + Sync>;

#[derive(Debug)]
#[non_exhaustive]
pub enum Error {
    Protocol(String),
}

impl Error {
    pub fn protocol(error: impl StdError + Send + Sync + 'static) -> Self {
        Error::Protocol(error.to_string())
    }
}

impl fmt::Display for Error {
    fn fmt(&self, f: &mut fmt::Formatter<'_>) -> fmt::Result {
        let Error::Protocol(text) = self;
        f.write_str(text)
    }
}

impl StdError for Error {}

#[derive(Debug, Clone, Copy, PartialEq, Eq)]
#[non_exhaustive]
pub enum ErrorKind {
    UniqueViolation,
    ForeignKeyViolation,
    NotNullViolation,
    CheckViolation,
    ExclusionViolation,
    Other,
}

pub trait DatabaseError: StdError + Send + Sync + 'static {
    fn message(&self) -> &str;

    fn code(&self) -> Option<Cow<'_, str>>;

    fn as_error(&self) -> &(dyn StdError + Send + Sync + 'static);

    fn as_error_mut(&mut self) -> &mut (dyn StdError + Send + Sync + 'static);

    fn into_error(self: Box<Self>) -> BoxDynError;

    fn is_transient_in_connect_phase(&self) -> bool;

    fn constraint(&self) -> Option<&str>;

    fn table(&self) -> Option<&str>;

    fn kind(&self) -> ErrorKind;
}
