//! What tests are handed, and how they run where memory is refused.

use crate::alloc::Global;
use core::fmt;
use rust_alloc::format;
use rust_alloc::string::String;
use rust_alloc::vec::Vec;

/// What a test and a program are handed.
#[derive(Clone, Copy, Debug, Default)]
pub struct HostRuntime;

impl HostRuntime {
    /// The allocator.
    pub fn alloc(&self) -> Global {
        Global
    }
}

#[cfg(feature = "std")]
impl HostRuntime {
    /// The program's input.
    pub fn stdin(&self) -> crate::io::Stdin {
        std::io::stdin()
    }

    /// The program's output.
    pub fn stdout(&self) -> crate::io::Stdout {
        std::io::stdout()
    }

    /// Where the program's faults are reported.
    pub fn stderr(&self) -> crate::io::Stderr {
        std::io::stderr()
    }
}

/// What has an allocator.
pub trait Alloc {
    /// The allocator's type.
    type A;

    /// The allocator.
    fn alloc(&self) -> Self::A;
}

impl Alloc for HostRuntime {
    type A = Global;

    fn alloc(&self) -> Global {
        Global
    }
}

/// What ends a test early: an error of any type.
pub struct Fail(String);

impl<E: fmt::Debug> From<E> for Fail {
    fn from(error: E) -> Self {
        Fail(format!("{error:?}"))
    }
}

/// What a test gives back.
pub trait Outcome {
    /// Ends in a panic where the test has ended early.
    fn expect_done(self);
}

impl Outcome for () {
    fn expect_done(self) {}
}

impl<E> Outcome for Result<(), E>
where
    Fail: From<E>,
{
    fn expect_done(self) {
        if let Err(error) = self {
            panic!("{}", Fail::from(error).0);
        }
    }
}

/// The size of a request for memory that orders an allocator of tests to refuse the nth of the requests that follow, as
/// `ORDER + nth`; it is granted never. As itself it is granted where one was refused since.
pub const ORDER: usize = 0x5245_4655_5347_0000;

// A test makes fewer requests than these, or isn't refused the others.
const MOST: usize = 300;

/// Runs a test with its first request for memory refused, then with its second and so on; it may end with an error then.
/// Lastly it runs with none refused, and may not. An allocator that takes no orders refuses none.
pub fn run<T: Outcome>(test: fn(HostRuntime) -> T) {
    for nth in 1..=MOST {
        is_granted(ORDER + nth);
        test(HostRuntime);
        if !is_granted(ORDER) {
            break;
        }
    }
    test(HostRuntime).expect_done();
}

fn is_granted(size: usize) -> bool {
    Vec::<u8>::new().try_reserve_exact(size).is_ok()
}
