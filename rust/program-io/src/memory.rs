//! Memory that may be refused: the calls of Rattle's std that return a failure where an allocation fails, by std's `try_reserve`.
use alloc::string::String;
use alloc::vec::Vec;
use core::fmt::{self, Write};
use fallible_iterator::FallibleIterator;

/// An allocation failed.
#[derive(Clone, Copy, Debug, PartialEq, Eq)]
pub struct AllocError;

impl fmt::Display for AllocError {
    fn fmt(&self, f: &mut fmt::Formatter<'_>) -> fmt::Result {
        f.write_str("no memory")
    }
}

#[cfg(feature = "std")]
impl std::error::Error for AllocError {}

#[cfg(feature = "std")]
impl From<AllocError> for std::io::Error {
    fn from(_: AllocError) -> std::io::Error {
        std::io::ErrorKind::OutOfMemory.into()
    }
}

/// The allocator that each program has.
#[derive(Clone, Copy, Debug, PartialEq, Eq)]
pub struct Global;

/// Why an iterator's items were not collected.
#[derive(Clone, Copy, Debug, PartialEq, Eq)]
pub enum Fault<E> {
    /// The iterator failed.
    Source(E),
    /// An allocation failed.
    Memory(AllocError),
}

impl<E> From<AllocError> for Fault<E> {
    fn from(refused: AllocError) -> Fault<E> {
        Fault::Memory(refused)
    }
}

/// Calls of a `Vec` that fail where it can't grow, and leave it as it was.
pub trait TryVec<T>: Sized {
    /// As `with_capacity`.
    fn try_with_room(capacity: usize) -> Result<Self, AllocError>;

    /// As `reserve`.
    fn try_make_room(&mut self, additional: usize) -> Result<(), AllocError>;

    /// As `resize`.
    fn try_resize(&mut self, len: usize, item: T) -> Result<(), AllocError>
    where
        T: Clone;

    /// As `push`.
    fn try_push(&mut self, item: T) -> Result<(), AllocError>;

    /// As `extend_from_slice`.
    fn try_extend_from_slice(&mut self, items: &[T]) -> Result<(), AllocError>
    where
        T: Clone;

    /// The items of a slice.
    fn try_from_slice(items: &[T]) -> Result<Self, AllocError>
    where
        T: Clone;

    /// So many clones of an item.
    fn try_filled(item: T, count: usize) -> Result<Self, AllocError>
    where
        T: Clone;
}

impl<T> TryVec<T> for Vec<T> {
    fn try_with_room(capacity: usize) -> Result<Vec<T>, AllocError> {
        let mut made = Vec::new();
        made.try_make_room(capacity)?;
        Ok(made)
    }

    fn try_make_room(&mut self, additional: usize) -> Result<(), AllocError> {
        self.try_reserve(additional).map_err(|_| AllocError)
    }

    fn try_resize(&mut self, len: usize, item: T) -> Result<(), AllocError>
    where
        T: Clone,
    {
        self.try_make_room(len.saturating_sub(self.len()))?;
        self.resize(len, item);
        Ok(())
    }

    #[inline]
    fn try_push(&mut self, item: T) -> Result<(), AllocError> {
        if self.len() == self.capacity() {
            self.try_make_room(1)?;
        }
        self.push(item);
        Ok(())
    }

    #[inline]
    fn try_extend_from_slice(&mut self, items: &[T]) -> Result<(), AllocError>
    where
        T: Clone,
    {
        self.try_make_room(items.len())?;
        self.extend_from_slice(items);
        Ok(())
    }

    fn try_from_slice(items: &[T]) -> Result<Vec<T>, AllocError>
    where
        T: Clone,
    {
        let mut made = Vec::new();
        made.try_extend_from_slice(items)?;
        Ok(made)
    }

    fn try_filled(item: T, count: usize) -> Result<Vec<T>, AllocError>
    where
        T: Clone,
    {
        let mut made = Vec::new();
        made.try_resize(count, item)?;
        Ok(made)
    }
}

/// Calls of a `String` that fail where it can't grow, and leave it as it was.
pub trait TryString: Sized {
    /// As `push_str`.
    fn try_push_str(&mut self, text: &str) -> Result<(), AllocError>;

    /// The same text.
    fn try_from_str(text: &str) -> Result<Self, AllocError>;

    /// What `format!` makes.
    fn try_format(shown: fmt::Arguments<'_>) -> Result<Self, AllocError>;
}

impl TryString for String {
    fn try_push_str(&mut self, text: &str) -> Result<(), AllocError> {
        self.try_reserve(text.len()).map_err(|_| AllocError)?;
        self.push_str(text);
        Ok(())
    }

    fn try_from_str(text: &str) -> Result<String, AllocError> {
        let mut made = String::new();
        made.try_push_str(text)?;
        Ok(made)
    }

    fn try_format(shown: fmt::Arguments<'_>) -> Result<String, AllocError> {
        struct Growing(String);
        impl Write for Growing {
            fn write_str(&mut self, text: &str) -> fmt::Result {
                self.0.try_push_str(text).map_err(|_| fmt::Error)
            }
        }
        let mut made = Growing(String::new());
        made.write_fmt(shown).map_err(|_| AllocError)?;
        Ok(made.0)
    }
}

/// Collecting that fails where an allocation does.
pub trait TryCollect: FallibleIterator + Sized {
    /// The items, up to the first failure.
    fn try_collect(mut self) -> Result<Vec<Self::Item>, Fault<Self::Error>> {
        let mut items = Vec::new();
        while let Some(item) = self.next().map_err(Fault::Source)? {
            items.try_push(item)?;
        }
        Ok(items)
    }
}

impl<I: FallibleIterator> TryCollect for I {}

/// A buffer for a reader, which is refused where there is no memory for it.
#[cfg(feature = "std")]
pub trait TryBuffer<R>: Sized {
    /// As `new`.
    fn try_new(reader: R) -> Result<Self, AllocError>;

    /// As `with_capacity`.
    fn try_with_buffer(capacity: usize, reader: R) -> Result<Self, AllocError>;
}

#[cfg(feature = "std")]
impl<R: std::io::Read> TryBuffer<R> for std::io::BufReader<R> {
    fn try_new(reader: R) -> Result<Self, AllocError> {
        Self::try_with_buffer(8192, reader)
    }

    fn try_with_buffer(capacity: usize, reader: R) -> Result<Self, AllocError> {
        // Std's own request fails by ending the program, so the same is asked for before.
        drop(Vec::<u8>::try_with_room(capacity)?);
        Ok(std::io::BufReader::with_capacity(capacity, reader))
    }
}

/// A writer after a `Vec`'s bytes, which fails where that can't grow: std's own ends the program there.
#[cfg(feature = "std")]
#[derive(Debug)]
pub struct VecWriter<'a>(pub &'a mut Vec<u8>);

#[cfg(feature = "std")]
impl std::io::Write for VecWriter<'_> {
    #[inline]
    fn write(&mut self, bytes: &[u8]) -> std::io::Result<usize> {
        self.write_all(bytes)?;
        Ok(bytes.len())
    }

    #[inline]
    fn write_all(&mut self, bytes: &[u8]) -> std::io::Result<()> {
        Ok(self.0.try_extend_from_slice(bytes)?)
    }

    fn flush(&mut self) -> std::io::Result<()> {
        Ok(())
    }
}
