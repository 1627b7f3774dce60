//! Where the names of crates lead in what comes out.

use crate::CStructs;

/// The crates of a source, by the paths that they become.
#[derive(Clone, Debug)]
pub struct Names {
    own: String,
    shared: Option<String>,
    others: Vec<(String, String)>,
    c_structs: CStructs,
}

/// Modules of std that are Rust's.
const OF_CORE: [&str; 11] =
    ["cell", "cmp", "error", "fmt", "iter", "marker", "mem", "num", "ops", "slice", "str"];

/// Modules of std that the stand-in has.
const OF_RATTLE: [&str; 7] = ["alloc", "collections", "env", "io", "process", "simd", "test"];

/// Crates of the toolchain, which the stand-in has as modules.
const CRATES: [&str; 7] = ["base64", "byteorder", "bytes", "hex", "itoa", "memchr", "smallvec"];

impl Default for Names {
    fn default() -> Self {
        Names {
            own: "crate".into(),
            shared: None,
            others: Vec::new(),
            c_structs: CStructs::default(),
        }
    }
}

impl Names {
    /// Each name as it is in the source.
    pub fn new() -> Self {
        Self::default()
    }

    /// What `crate` becomes.
    pub fn own(mut self, path: &str) -> Self {
        self.own = path.into();
        self
    }

    /// A module of the crate that stays where it is, although `crate` becomes something else.
    pub fn shared(mut self, module: &str) -> Self {
        self.shared = Some(module.into());
        self
    }

    /// What the name of another crate becomes.
    pub fn other(mut self, name: &str, path: &str) -> Self {
        self.others.push((name.into(), path.into()));
        self
    }

    /// What the names of other crates become: modules of one.
    pub fn others(self, names: &[&str], root: &str) -> Self {
        names.iter().fold(self, |all, name| all.other(name, &format!("{root}::{name}")))
    }

    /// Structs that C fills. Without them a struct in the layout of C stays as it is.
    pub fn with_c_structs(mut self, structs: CStructs) -> Self {
        self.c_structs = structs;
        self
    }

    pub(crate) fn c_structs(&self) -> &CStructs {
        &self.c_structs
    }

    /// What the first name of a path becomes, with the one after it, or nothing where it stays. What std has and the
    /// eraser doesn't know is refused with the path.
    pub(crate) fn first(&self, first: &str, second: &str) -> Result<Option<String>, String> {
        Ok(match first {
            "crate" if self.shared.as_deref() == Some(second) => None,
            "crate" => (self.own != "crate").then(|| self.own.clone()),
            "std" if OF_CORE.contains(&second) => Some("core".into()),
            "std" if OF_RATTLE.contains(&second) => Some("rattle".into()),
            "std" => return Err(format!("std::{second} is neither Rust's nor the stand-in's")),
            _ if CRATES.contains(&first) => Some(format!("rattle::{first}")),
            _ => self.others.iter().find(|(name, _)| name == first).map(|(_, path)| path.clone()),
        })
    }
}

#[cfg(test)]
mod tests {
    use super::*;

    #[test]
    fn each_kind_of_name() {
        let names = Names::new().own("crate::a").shared("s").other("b", "crate::b");
        let first = |name, next| names.first(name, next);
        assert_eq!(first("crate", "x"), Ok(Some("crate::a".into())));
        assert_eq!(first("crate", "s"), Ok(None));
        assert_eq!(first("b", "x"), Ok(Some("crate::b".into())));
        assert_eq!(first("std", "fmt"), Ok(Some("core".into())));
        assert_eq!(first("std", "alloc"), Ok(Some("rattle".into())));
        assert_eq!(first("bytes", "Bytes"), Ok(Some("rattle::bytes".into())));
        assert_eq!(first("c", "x"), Ok(None));
        assert!(first("std", "net").is_err());
    }
}
