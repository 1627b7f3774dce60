//! Bodies that are kept as they came, and methods that read them when they are asked.

/// Makes methods that give a part of a message, each of an expression.
macro_rules! getters {
    ($($(#[$doc:meta])* $name:ident($self:ident) -> $type:ty = $value:expr;)*) => {
        $(
            $(#[$doc])*
            #[inline]
            pub fn $name(&$self) -> $type {
                $value
            }
        )*
    };
}

/// Makes a body of so many bytes at least, or one that the message of a tag fills, with getters of what it holds.
macro_rules! body {
    ($(#[$doc:meta])* $name:ident of $least:expr, $getters:tt) => {
        body! { @ $(#[$doc])* $name, |body| crate::lacking::has(body, $least), $getters }
    };
    ($(#[$doc:meta])* $name:ident as $tag:literal, $getters:tt) => {
        body! { @ $(#[$doc])* $name, |body| crate::lacking::ends($tag, body), $getters }
    };
    (@ $(#[$doc:meta])* $name:ident, $check:expr, { $($getters:tt)* }) => {
        $(#[$doc])*
        pub struct $name(bytes::Bytes);

        impl $name {
            #[inline]
            pub(super) fn read(body: bytes::Bytes) -> std::io::Result<$name> {
                let check: fn(&[u8]) -> std::io::Result<()> = $check;
                check(&body)?;
                Ok($name(body))
            }

            $crate::message::backend::body::getters! { $($getters)* }
        }
    };
}

pub(super) use {body, getters};
