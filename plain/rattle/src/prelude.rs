//! Names that a source of Rattle has without an import.

pub use crate::iter::CollectIn;
pub use crate::string::{String, ToStringIn};
pub use crate::test::{Alloc, HostRuntime};
pub use crate::vec::Vec;
