//! A stand-in for the crate `log`, with the four macros that the repository's client files name.
//!
//! With no logger installed, the real macros look at a level and then do nothing; these do nothing
//! at once. The arguments are checked for their types, as they are there, and never evaluated. In
//! the benchmark this favours the repository.

#![no_std]

/// Takes what the logging macros take, and does nothing.
#[macro_export]
macro_rules! quiet {
    ($($arg:tt)+) => {
        if false {
            let _ = ::core::format_args!($($arg)+);
        }
    };
}

pub use quiet as debug;
pub use quiet as error;
pub use quiet as info;
pub use quiet as warn;
