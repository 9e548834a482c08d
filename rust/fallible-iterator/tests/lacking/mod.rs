//! What lacks one of the traits that rustc gives by itself, and a comparison of types by what they lack.
use fallible_iterator::FallibleIterator;
use std::cell::Cell;
use std::marker::PhantomPinned;
use std::sync::MutexGuard;

pub use std::marker::PhantomData;
pub use std::panic::{RefUnwindSafe, UnwindSafe};

#[derive(PartialEq, Eq, Hash)]
pub struct NotSend(PhantomData<MutexGuard<'static, ()>>);

#[derive(PartialEq, Eq, Hash)]
pub struct NotSync(PhantomData<Cell<()>>);

#[derive(PartialEq, Eq, Hash)]
pub struct NotUnpin(PhantomPinned);

#[derive(PartialEq, Eq, Hash)]
pub struct NotUnwindSafe(PhantomData<&'static mut ()>);

/// A source that has what `M` has, whatever its items and errors are.
pub struct Source<M, T = u8, E = u8> {
    #[allow(dead_code)]
    pub has: M,
    pub yields: PhantomData<fn() -> (T, E)>,
}

impl<M, T, E> FallibleIterator for Source<M, T, E> {
    type Item = T;
    type Error = E;

    fn next(&mut self) -> Result<Option<T>, E> {
        Ok(None)
    }
}

/// Which of `Send`, `Sync`, `Unpin`, `UnwindSafe` and `RefUnwindSafe` a type has.
macro_rules! has {
    ($type:ty) => {
        [
            has!($type, Send),
            has!($type, Sync),
            has!($type, Unpin),
            has!($type, UnwindSafe),
            has!($type, RefUnwindSafe),
        ]
    };
    ($type:ty, $of:ident) => {{
        #[allow(dead_code)]
        trait Lacks {
            const HAS: bool = false;
        }
        impl<T> Lacks for T {}
        struct Asked<T>(PhantomData<T>);
        #[allow(dead_code)]
        impl<T: $of> Asked<T> {
            const HAS: bool = true;
        }
        <Asked<$type>>::HAS
    }};
}

/// Each type has what the type before the arrow has, whatever `M` lacks.
macro_rules! rows {
    ($m:ident; $($like:ty => $($type:ty),*;)*) => {
        $($({
            type Pair<$m> = (PhantomData<$like>, PhantomData<$type>);
            rows!(@ stringify!($type), Pair, (), NotSend, NotSync, NotUnpin, NotUnwindSafe);
        })*)*
    };
    (@ $type:expr, $pair:ident, $($lacks:ty),*) => {
        $({
            type Like = <$pair<$lacks> as Both>::Like;
            type Type = <$pair<$lacks> as Both>::Type;
            assert_eq!(has!(Type), has!(Like), "{} where M is {}", $type, stringify!($lacks));
        })*
    };
}

pub trait Both {
    type Like;
    type Type;
}

impl<A, B> Both for (PhantomData<A>, PhantomData<B>) {
    type Like = A;
    type Type = B;
}
