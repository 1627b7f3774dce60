//! Base64, of a text with its padding or without, as the engine says.

/// A text is not base64, or there is no room for its bytes.
#[derive(Clone, Copy, Debug, PartialEq, Eq)]
pub struct DecodeError;

/// Ways to spell base64.
pub mod engine {
    /// Those of the standard.
    pub mod general_purpose {
        use crate::base64::DecodeError;
        use base64_crate::{decode_config_slice, Config};

        /// A way to spell base64.
        pub struct Engine {
            config: Config,
            is_padded: bool,
        }

        /// The standard alphabet, padded.
        pub static STANDARD: Engine = Engine { config: base64_crate::STANDARD, is_padded: true };

        /// The standard alphabet, without padding.
        pub static STANDARD_NO_PAD: Engine =
            Engine { config: base64_crate::STANDARD_NO_PAD, is_padded: false };

        impl Engine {
            /// Decodes a text to the front of `out`: how many bytes they are.
            pub fn decode_slice(&self, text: &[u8], out: &mut [u8]) -> Result<usize, DecodeError> {
                let padding = text.iter().rev().take(2).filter(|byte| **byte == b'=').count();
                // The crate's version 0.13 takes a text with padding and without, and panics where room is short.
                let is_whole =
                    if self.is_padded { text.len().is_multiple_of(4) } else { padding == 0 };
                if !is_whole || out.len() < text.len().div_ceil(4) * 3 - padding {
                    return Err(DecodeError);
                }
                decode_config_slice(text, self.config, out).map_err(|_| DecodeError)
            }
        }
    }
}

#[cfg(test)]
mod tests {
    use super::engine::general_purpose::{Engine, STANDARD, STANDARD_NO_PAD};
    use super::DecodeError;

    fn decoded(engine: &Engine, text: &str, room: usize) -> Result<usize, DecodeError> {
        engine.decode_slice(text.as_bytes(), &mut [0; 8][..room])
    }

    #[test]
    fn padding_is_as_the_engine_has_it() {
        assert_eq!(decoded(&STANDARD, "YQ==", 1), Ok(1));
        assert_eq!(decoded(&STANDARD, "YQ", 8), Err(DecodeError));
        assert_eq!(decoded(&STANDARD_NO_PAD, "YQ", 8), Ok(1));
        assert_eq!(decoded(&STANDARD_NO_PAD, "YQ==", 8), Err(DecodeError));
    }

    #[test]
    fn room_that_is_short_is_refused() {
        assert_eq!(decoded(&STANDARD, "YWJj", 3), Ok(3));
        assert_eq!(decoded(&STANDARD, "YWJj", 2), Err(DecodeError));
        assert_eq!(decoded(&STANDARD, "=", 8), Err(DecodeError));
        assert_eq!(decoded(&STANDARD, "====", 8), Err(DecodeError));
    }
}
