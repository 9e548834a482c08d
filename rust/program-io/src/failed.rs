//! A failed read and a failed write, with the error that std has of it.
use core::fmt;
#[cfg(feature = "std")]
use std::io;

macro_rules! failed {
    ($name:ident, $says:literal, $what:literal) => {
        #[doc = $what]
        #[derive(Debug, Default)]
        pub struct $name {
            #[cfg(feature = "std")]
            error: Option<io::Error>,
        }

        impl $name {
            /// One of which no error of std is known.
            pub fn new() -> $name {
                $name::default()
            }
        }

        #[cfg(feature = "std")]
        impl $name {
            /// The error that std has of it, where it has one.
            pub fn io_error(&self) -> Option<&io::Error> {
                self.error.as_ref()
            }
        }

        #[cfg(feature = "std")]
        impl From<io::Error> for $name {
            fn from(error: io::Error) -> $name {
                $name { error: Some(error) }
            }
        }

        #[cfg(feature = "std")]
        impl From<$name> for io::Error {
            /// The error that std has of it; one of the kind `Other`, where it has none.
            fn from(failed: $name) -> io::Error {
                failed
                    .error
                    .unwrap_or_else(|| io::Error::new(io::ErrorKind::Other, $says))
            }
        }

        impl fmt::Display for $name {
            fn fmt(&self, f: &mut fmt::Formatter<'_>) -> fmt::Result {
                f.write_str($says)
            }
        }

        #[cfg(feature = "std")]
        impl std::error::Error for $name {
            fn source(&self) -> Option<&(dyn std::error::Error + 'static)> {
                self.error.as_ref().map(|error| error as _)
            }
        }
    };
}

failed!(ReadFailed, "read failed", "A read failed.");
failed!(WriteFailed, "write failed", "A write failed.");
