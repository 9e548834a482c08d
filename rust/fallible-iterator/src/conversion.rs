//! What std iterators become.

use crate::sources::{Convert, IntoFallible};

/// Two ways in which a std iterator becomes a fallible one. Neither draws anything.
pub trait IteratorExt: core::iter::Iterator {
    /// Returns the fallible iterator whose items are the values of `Ok`, and whose failures are those of `Err`.
    ///
    /// Creating it draws nothing. `next` draws the std iterator once. It fails with the value of an `Err`. After a failure and after `Ok(None)` the next call draws the std iterator again.
    ///
    /// ```
    /// # use fallible_iterator::{FallibleIterator, IteratorExt};
    /// let readings = [Ok::<u32, u8>(150), Err(9)];
    /// let mut it = readings.into_iter().transpose_into_fallible();
    /// assert_eq!([it.next(), it.next(), it.next()],
    ///     [Ok(Some(150)), Err(9), Ok(None)]
    /// );
    /// ```
    ///
    /// <details><summary>Contract</summary>
    ///
    /// As it is proved, in [these words](crate::words):
    ///
    /// ```text
    /// ensures parts { convert_parts result ≡ self }
    /// ensures lists { (l : List (Result T E)) → RunsRead Self.next_gives (λ y. y) self l
    ///     → Lists (parts_as convert_parts
    ///     (convert_contract Self.can_next Self.next_gives Self.remaining)).steps result
    ///     (results l) }
    /// ```
    /// </details>
    fn transpose_into_fallible<T, E>(self) -> Convert<Self>
    where
        Self: Sized + core::iter::Iterator<Item = Result<T, E>>,
    {
        Convert { it: self }
    }

    /// Returns the fallible iterator that yields the same elements.
    ///
    /// Creating it draws nothing. `next` draws the std iterator once. It never fails. After `Ok(None)` the next call draws the std iterator again.
    ///
    /// ```
    /// # use fallible_iterator::{FallibleIterator, IteratorExt};
    /// let mut it = (0..2u32).into_fallible();
    /// assert_eq!([it.next(), it.next(), it.next()],
    ///     [Ok(Some(0)), Ok(Some(1)), Ok(None)]
    /// );
    /// ```
    ///
    /// <details><summary>Contract</summary>
    ///
    /// As it is proved, in [these words](crate::words):
    ///
    /// ```text
    /// ensures parts { into_fallible_parts result ≡ self }
    /// ensures lists { (l : List T) → RunsRead Self.next_gives (λ x. x) self l
    ///     → Lists (parts_as into_fallible_parts
    ///     (into_fallible_contract Self.can_next Self.next_gives Self.remaining)).steps result
    ///     (items l) }
    /// ```
    /// </details>
    fn into_fallible<T>(self) -> IntoFallible<Self>
    where
        Self: Sized + core::iter::Iterator<Item = T>,
    {
        IntoFallible { it: self }
    }
}

impl<I: core::iter::Iterator> IteratorExt for I {}
