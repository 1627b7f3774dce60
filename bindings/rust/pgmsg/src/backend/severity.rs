//! How grave an error or a notice is.

use crate::error::{Fault, Refusal};
use core::fmt;
use pgmsg_core::pg_receive::message::{severity_in, PgSeverity};

/// Makes the enum of severities by a table of their words, in the order of their levels.
macro_rules! severities {
    ($($(#[$doc:meta])* $name:ident = $word:literal;)*) => {
        /// The severity of an error or a notice. As a number it is its level, from 0 for the gravest on.
        ///
        /// ```
        /// use pgmsg::backend::Severity;
        ///
        /// assert_eq!((Severity::try_from(3)?, Severity::Warning as u8), (Severity::Warning, 3));
        /// assert_eq!(Severity::Warning.to_string(), "WARNING");
        /// # Ok::<(), pgmsg::Refusal>(())
        /// ```
        #[derive(Clone, Copy, Debug, PartialEq, Eq, PartialOrd, Ord, Hash)]
        #[cfg_attr(feature = "serde", derive(serde::Serialize, serde::Deserialize))]
        #[non_exhaustive]
        pub enum Severity {
            $($(#[$doc])* $name,)*
        }

        impl From<PgSeverity> for Severity {
            fn from(severity: PgSeverity) -> Severity {
                match severity {
                    $(PgSeverity::$name => Severity::$name,)*
                }
            }
        }

        /// By its level, from 0 to 7.
        impl TryFrom<u8> for Severity {
            type Error = Refusal;

            fn try_from(level: u8) -> Result<Severity, Refusal> {
                let severity = [$(Severity::$name),*].get(usize::from(level)).copied();
                severity.ok_or(Refusal::UnknownSeverity)
            }
        }

        /// Shows the word that the field `V` has.
        impl fmt::Display for Severity {
            fn fmt(&self, f: &mut fmt::Formatter<'_>) -> fmt::Result {
                f.pad(match self {
                    $(Severity::$name => $word,)*
                })
            }
        }
    };
}

severities! {
    /// An error that ends every session of the server.
    Panic = "PANIC";
    /// An error that ends the session.
    Fatal = "FATAL";
    /// An error that ends the command.
    Error = "ERROR";
    /// A warning.
    Warning = "WARNING";
    /// A notice.
    Notice = "NOTICE";
    /// A message for who debugs the server.
    Debug = "DEBUG";
    /// A message that the client asked for.
    Info = "INFO";
    /// A message for the server's log.
    Log = "LOG";
}

impl Severity {
    /// Whether it is that of an error, and not of a notice.
    pub const fn is_error(self) -> bool {
        matches!(self, Severity::Panic | Severity::Fatal | Severity::Error)
    }

    /// Reads the severity of an ErrorResponse or a NoticeResponse by its body. Refused with
    /// [`NoticeNotUtf8`](Refusal::NoticeNotUtf8) where its message, its code or a severity isn't UTF-8: a body
    /// that has its field `V` alone is read in any encoding, as `Fields::severity` does.
    ///
    /// ```
    /// # use pgmsg::backend::Severity;
    /// assert_eq!(Severity::read(b"SWARNUNG\0VWARNING\0\0")?, Severity::Warning);
    /// # Ok::<(), pgmsg::Fault>(())
    /// ```
    pub fn read(body: &[u8]) -> Result<Severity, Fault> {
        Ok(severity_in(body)?.into())
    }
}
