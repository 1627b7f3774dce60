//! The words that a program is called with.

use crate::alloc::AllocError;
use crate::string::String;
use crate::test::HostRuntime;

/// The words, of which the first is the program's name.
pub struct Args(std::env::ArgsOs);

/// The words of this run.
pub fn args(_: &HostRuntime) -> Result<Args, AllocError> {
    Ok(Args(std::env::args_os()))
}

impl Iterator for Args {
    type Item = String;

    fn next(&mut self) -> Option<String> {
        let word = self.0.next()?.into_string();
        word.ok().map(String::from)
    }
}
