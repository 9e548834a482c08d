//! What each iterator has of the traits that rustc gives by itself: what it keeps has it.
#[macro_use]
mod lacking;

use fallible_iterator::*;
use lacking::*;

#[test]
fn each_iterator_has_what_it_keeps() {
    // The source.
    rows! { M;
        M => Convert<M>, IntoFallible<M>, FromFn<M>, Once<M, u8>, Once<u8, M>, OnceErr<M, u8>, OnceErr<u8, M>,
            Repeat<M, u8>, Repeat<u8, M>, RepeatErr<M, u8>, RepeatErr<u8, M>, Empty<M, u8>, Empty<u8, M>;
        M => Chain<M, ()>, Chain<(), M>, Zip<M, ()>, Zip<(), M>, Cloned<M>, Cycle<M>, Enumerate<M>, Fuse<M>, Iterator<M>,
            Unwrap<M>, Rev<M>, Skip<M>, StepBy<M>, Take<M>, Peekable<Source<M>>,
            Flatten<Source<M, Source<()>>>, FlatMap<Source<M>, Source<()>, ()>;
        M => Filter<M, ()>, FilterMap<M, ()>, Inspect<M, ()>, Map<M, ()>, MapErr<M, ()>, MapWhile<M, ()>, SkipWhile<M, ()>,
            TakeWhile<M, ()>, Scan<M, (), ()>;
    }
    // The closure, and its state.
    rows! { M;
        M => Filter<(), M>, FilterMap<(), M>, Inspect<(), M>, Map<(), M>, MapErr<(), M>, MapWhile<(), M>, SkipWhile<(), M>,
            TakeWhile<(), M>, Scan<(), M, ()>, Scan<(), (), M>, FlatMap<Source<()>, Source<()>, M>;
    }
    // What is in hand: an item, or the inner iterator.
    rows! { M;
        M => Peekable<Source<(), M>>, Flatten<Source<(), Source<M>>>, FlatMap<Source<()>, Source<M>, ()>;
        () => Flatten<Source<(), Source<(), M>>>, FlatMap<Source<()>, Source<(), M>, ()>, FlatMap<Source<()>, Made<M>, ()>;
    }
}

/// What becomes an iterator that keeps nothing of it.
struct Made<M>(#[allow(dead_code)] M);

impl<M> IntoFallibleIterator for Made<M> {
    type Item = u8;
    type Error = u8;
    type IntoFallibleIter = Source<()>;

    fn into_fallible_iter(self) -> Source<()> {
        Source {
            has: (),
            yields: PhantomData,
        }
    }
}
