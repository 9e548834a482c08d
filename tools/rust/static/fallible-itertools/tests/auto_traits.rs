//! What each iterator has of the traits that rustc gives by itself: what it keeps has it.
#[macro_use]
mod lacking;

use fallible_itertools::*;
use lacking::*;
use std::collections::{HashMap, HashSet};

type Of<M> = Source<M>;

#[test]
fn each_iterator_has_what_it_keeps() {
    // The source.
    rows! { M;
        M => ChunkBy<Of<M>, (), ()>, Chunks<Of<M>>, Coalesce<Of<M>, ()>, Copied<M>, Dedup<Of<M>>, DedupBy<Of<M>, ()>,
            DedupByKey<Of<M>, (), ()>, DedupByWithCount<Of<M>, ()>, DedupWithCount<Of<M>>, Duplicates<Of<M>>, ErrInto<M, ()>, FuseAtFailure<M>, InspectErr<M, ()>, Interleave<M, ()>, Interleave<(), M>, Intersperse<Of<M>>,
            IntersperseWith<Of<M>, ()>,
            KMerge<Of<M>>, KMergeBy<Of<M>, ()>, MapErrWithIndex<M, ()>, Merge<Of<M>, ()>, Merge<Of<()>, M>, MergeBy<Of<M>, (), ()>, MergeBy<Of<()>, M, ()>, MergeJoinBy<Of<M>, Of<()>, ()>, MergeJoinBy<Of<()>, Of<M>, ()>, OrElse<M, ()>,
            PadUsing<M, ()>, PeekingTakeWhile<M, ()>, Positions<M, ()>, StopAfter<M>, TakeWhileInclusive<M, ()>, TupleWindows<Of<M>>,
            Tuples<Of<M>>, Unique<Of<M>>, UniqueBy<M, (), ()>, WithPosition<Of<M>>, ZipEq<Of<M>, (), ()>, ZipEq<Of<()>, M, ()>, ZipLongest<Of<M>, ()>,
            ZipLongest<Of<()>, M>;
    }
    // The closure, and a key.
    rows! { M;
        M => ChunkBy<Of<()>, (), M>, ChunkBy<Of<()>, M, ()>, Coalesce<Of<()>, M>, DedupBy<Of<()>, M>,
            DedupByKey<Of<()>, (), M>, DedupByKey<Of<()>, M, ()>, DedupByWithCount<Of<()>, M>, InspectErr<(), M>, IntersperseWith<Of<()>, M>,
            KMergeBy<Of<()>, M>, MapErrWithIndex<(), M>, MergeBy<Of<()>, (), M>, MergeJoinBy<Of<()>, Of<()>, M>, OrElse<(), M>, PadUsing<(), M>, PeekingTakeWhile<(), M>,
            Positions<(), M>, TakeWhileInclusive<(), M>, UniqueBy<(), (), M>, ZipEq<Of<()>, (), M>;
    }
    // An item in hand, and a failure that is due.
    rows! { M;
        M => Coalesce<Source<(), M>, ()>, Dedup<Source<(), M>>, DedupBy<Source<(), M>, ()>, DedupByWithCount<Source<(), M>, ()>, DedupWithCount<Source<(), M>>, Intersperse<Source<(), M>>,
            IntersperseWith<Source<(), M>, ()>, KMerge<Source<(), M>>, KMergeBy<Source<(), M>, ()>, Merge<Source<(), M>, ()>, MergeBy<Source<(), M>, (), ()>,
            MergeJoinBy<Source<(), M>, Of<()>, ()>, MergeJoinBy<Of<()>, Source<(), M>, ()>,
            TupleWindows<Source<(), M>>, Tuples<Source<(), M>>, WithPosition<Source<(), M>>,
            ZipEq<Source<(), M>, (), ()>, ZipLongest<Source<(), M>, ()>;
        M => ChunkBy<Source<(), u8, M>, (), ()>, Chunks<Source<(), u8, M>>, Coalesce<Source<(), u8, M>, ()>,
            Dedup<Source<(), u8, M>>, DedupBy<Source<(), u8, M>, ()>, DedupByKey<Source<(), u8, M>, (), ()>,
            DedupByWithCount<Source<(), u8, M>, ()>, DedupWithCount<Source<(), u8, M>>,
            WithPosition<Source<(), u8, M>>;
        Vec<M> => ChunkBy<Source<(), M>, (), ()>, Chunks<Source<(), M>>;
        HashSet<M> => Unique<Source<(), M>>, UniqueBy<(), M, ()>;
        HashMap<M, bool> => Duplicates<Source<(), M>>;
    }
}
