//! What faults say, in the words that the programs print of them.
use crate::fault::RunFault;
use crate::memory::Fault;
use crate::reading::Unread;
use core::fmt;

impl<E: fmt::Display> fmt::Display for Fault<E> {
    fn fmt(&self, f: &mut fmt::Formatter<'_>) -> fmt::Result {
        match self {
            Fault::Source(failure) => failure.fmt(f),
            Fault::Memory(refused) => refused.fmt(f),
        }
    }
}

impl fmt::Display for Unread {
    fn fmt(&self, f: &mut fmt::Formatter<'_>) -> fmt::Result {
        match self {
            Unread::End => f.write_str("the input ended"),
            Unread::Failed(failed) => failed.fmt(f),
            Unread::Memory => f.write_str("no memory"),
        }
    }
}

impl<F: fmt::Display> fmt::Display for RunFault<F> {
    fn fmt(&self, f: &mut fmt::Formatter<'_>) -> fmt::Result {
        match self {
            RunFault::Input(fault) => fault.fmt(f),
            RunFault::Read(failed) => failed.fmt(f),
            RunFault::Memory => f.write_str("no memory"),
            RunFault::Write(failed) => failed.fmt(f),
        }
    }
}

#[cfg(feature = "std")]
mod sources {
    use super::{Fault, RunFault, Unread};
    use std::error::Error;

    // What a fault shows as its own stands in its place, so its source is that of what it shows.
    impl<E: Error> Error for Fault<E> {
        fn source(&self) -> Option<&(dyn Error + 'static)> {
            match self {
                Fault::Source(failure) => failure.source(),
                Fault::Memory(_) => None,
            }
        }
    }

    impl Error for Unread {
        fn source(&self) -> Option<&(dyn Error + 'static)> {
            match self {
                Unread::Failed(failed) => failed.source(),
                Unread::End | Unread::Memory => None,
            }
        }
    }

    impl<F: Error> Error for RunFault<F> {
        fn source(&self) -> Option<&(dyn Error + 'static)> {
            match self {
                RunFault::Input(fault) => fault.source(),
                RunFault::Read(failed) => failed.source(),
                RunFault::Write(failed) => failed.source(),
                RunFault::Memory => None,
            }
        }
    }
}
