"""Mapping: std of Rattle to std of Rust. Memory is never refused there: a refusal has no value."""
from pathlib import Path

from rules import ANY, apply, drop_files

PIECES = Path(__file__).parent / "static/pieces"
CONTRACT, CORE, EVERY = r"fallible_contract(?:/.*)?\.rs", r"fallible_core(?:/.*)?\.rs", r".*"
HEAD = """#![doc = include_str!("../README.md")]
#![no_std]
#![cfg_attr(docsrs, feature(doc_cfg))]
#![forbid(unsafe_code)]
#![warn(missing_docs)]
// An example imports what its lines use.
#![doc(test(attr(deny(unused_imports))))]
// The bodies stay as they are proved.
#![allow(clippy::manual_map, clippy::mem_replace_option_with_some, clippy::multiple_bound_locations)]
#![allow(clippy::needless_match, clippy::question_mark, clippy::single_match)]
#![allow(clippy::type_complexity, clippy::wrong_self_convention)]

#[cfg(feature = "alloc")]
extern crate alloc;
#[cfg(feature = "std")]
extern crate std;

"""

STD = [
    # Bounds that a refusal asked for.
    (EVERY, r"^ *where\n *[\w:]+::Error: From<AllocError>,\n *(?=\{)", "", ANY),
    (EVERY, r"^ *[\w:]+::Error: From<AllocError>,\n", "", ANY),
    (EVERY, r": From<AllocError>(?=[>,])", "", ANY),
    (EVERY, r" \+ From<AllocError>(?=[>,])", "", ANY),
    (EVERY, r"^use std::alloc::.*;\n", "", ANY),
    (EVERY, r"\bstd::(?!collections)(?=\w)", "core::", ANY),
]

ITERATOR = [
    # The three crates are modules of one.
    (CONTRACT, r"(?<![\w:])crate::", "crate::fallible_contract::", ANY),
    (CORE, r"(?<![\w:])crate::", "crate::fallible_core::", ANY),
    (EVERY, r"(?<![\w:])(fallible_contract|fallible_core)::", r"crate::\1::", ANY),
    # Collections: Rust's `collect` goes by `FromIterator`, so what is left is `push_one`.
    (r"fallible_contract/collecting\.rs", r"^mod (?:deque|hashed|sorted);\n", "", 3),
    (r"fallible_contract/collecting\.rs", r"^impl<T> Collect<T> for Vec<T> \{(?:\n|    .*\n)*\}\n\n", "", 1),
    (r"fallible_contract/collecting\.rs", r"^    /// Creates the collection.*\n    fn empty\(.*;\n\n", "", 1),
    (r"fallible_contract/collecting\.rs", r"^use core::ops", "use crate::memory::AllocError;\nuse core::ops", 1),
    # Folds of a std iterator: `Progressing`, which a proof wants, hides the iterator's own.
    (r"sources/std_fold\.rs", r"^// A std iterator that a[^§]*(?=^// The fold of a std iterator from the front)", "", 1),
    (r"sources/std_fold\.rs", r"^//\n// `let _ = &\*state;`.*\n", "", 1),
    (r"sources/std_fold\.rs", r" The caller's state is what std's fold carries\.", "", 1),
    # A fold is inlined, else rustc makes of a short chain's a loop that takes one instruction more.
    (r"(?!fallible_core/traits/b).*", r"^( *)(?:pub(?:\(crate\))? )?fn drive(?:_back)?(?:_passing|_std)?<[^;{]*\{",
     r"\1#[inline(always)]\n\g<0>", 37),
    # What Rust writes otherwise.
    (r"fallible_core/bridges/unwrap\.rs", r"^    /// Returns `\(0, None\)`, as `Iterator`\.$", "    /// Returns 0 and the source's upper bound.", 1),
    (r"fallible_core/one_to_one/map\.rs", r"fn fmt<W: fmt::Write>\(&self, f: &mut fmt::Formatter<W>\)",
     "fn fmt(&self, f: &mut fmt::Formatter<'_>)", 1),
    (r"fallible_core/bridges/unwrap\.rs", r"(core::iter::Iterator for Unwrap<I>) \{",
     r"\1\nwhere\n    I::Error: core::fmt::Debug,\n{", 1),
    (r"fallible_core/joining/flat_map\.rs", r"^ *#\[derive_where\(.*\)\]\n", "", 3),
    # A marker that asks nothing of `U` for `Send` and `Sync`.
    (r"fallible_core/joining/flat_map\.rs", r"PhantomData<U>", "PhantomData<fn() -> U>", 1),
    # Features.
    (r"fallible_core/traits\.rs", r"^mod boxed;", '#[cfg(feature = "alloc")]\nmod boxed;', 1),
    (r"fallible_core/traits/boxed\.rs", r"^use crate::fallible_core::traits::Fall",
     "use alloc::boxed::Box;\nuse crate::fallible_core::traits::Fall", 1),
    (r"sources/making\.rs", r"^use crate::fallible_core::FallibleIterator;\n", "", 1),
    (r"batch\.rs", r"\A(//.*\n\n)", r"\1use alloc::vec::Vec;\n", 1),
    (r"lib\.rs|extending\.rs", r"^pub (?:mod batch;|use crate::batch::)", r'#[cfg(feature = "alloc")]\n\g<0>', 2),
    (r"lib\.rs", r"\A(?://!.*\n)+\n",
     HEAD + "mod by_drive;\npub mod fallible_contract;\npub mod fallible_core;\npub mod memory;\n", 1),
    # What users need not see.
    (r"lib\.rs", r"^pub (?=mod (?:conversion|sources|taking);)", "", 3),
    (r"lib\.rs", r"^pub use .*searching::Test;\n", "", 1),
    # What the repository's own tests name, some of which write hidden calls.
    (r"lib\.rs", r"^pub mod (?!prelude)\w+;", r"#[doc(hidden)]\n\g<0>", 5),
    (r"lib\.rs", r"^pub use .*(?:answers::|folds::Turn;|\{Collect, Fault)", r"#[doc(hidden)]\n\g<0>", 3),
]

ADAPTERS, JOINS = r"fallible_itertools_adapters", r"fallible_itertools_joins"
GROUPS = ADAPTERS + r"/chunks\.rs"
ITERTOOLS = [
    # The three crates are modules of one.
    (ADAPTERS + r"/.*", r"(?<![\w:])crate::", "crate::fallible_itertools_adapters::", ANY),
    (JOINS + r"/.*", r"(?<![\w:])crate::", "crate::fallible_itertools_joins::", ANY),
    (EVERY, r"(?<![\w:])(%s|%s)::" % (ADAPTERS, JOINS), r"crate::\1::", ANY),
    # Only the trait creates its adapters.
    (r"(?:%s|%s)/.*" % (ADAPTERS, JOINS), r"^    pub fn new\(", "    pub(crate) fn new(", 31),
    # No allocator is kept.
    (GROUPS, r"^    pub\(crate\) alloc: Global,\n", "", 2),
    (GROUPS, r"^struct (Chunk\w+) \{\n    alloc: Global,\n\}", r"struct \1;", 2),
    (r"keyed\.rs", r"^    // where .*\n    alloc: Global,\n", "", 1),
    # Collections are filled from what `new` makes, or whatever extends.
    (r"(?:keyed|partition)\.rs", r"^    fn empty\((?:.*\n)*?    \}\n\n", "", 3),
    # Nothing is refused, so what would be told of it goes.
    (r"partition\.rs", r"\n/// Returns the collection(?:, or| beside the failure) (?:.*\n)*?\}\n", "", 2),
    (r"partition\.rs", r"^use fallible_iterator::\{Collect, FallibleIterator, Fault\};", "use fallible_iterator::{Collect, FallibleIterator};", 1),
    (r"traits\.rs", r"^(use crate::partition::\{.*Parted), with_failure, without_fault\};", r"\1};", 1),
    (r"keyed\.rs", r"\bB: Copy\b", "B: Clone", 1),
    (r"keyed\.rs", r"\(HashMap<K, B>, F\)(?=,$)", "(HashMap<K, B>, F, Option<B>)", 1),
    (r"keyed\.rs", r" so far and the closure\.", " so far, the closure, and what may stand in the place of a value while the closure has that.", 1),
    (r"keyed\.rs", r"\bFault<E>(?=[,>])", "E", 1),
    (r"keyed\.rs", r"^use fallible_iterator::\{Collect, FallibleIterator, Fault, Turn\};", "use fallible_iterator::{Collect, FallibleIterator, Turn};", 1),
    # std has its own sums and products.
    (r"lib\.rs", r"^pub (?:mod total;|use total::Total;)\n", "", 2),
    # What a refusal ends.
    (r"lib\.rs", r"^pub mod gathering;\n", "", 1),
    (r"traits\.rs", r"^use crate::gathering::gathered;\n", "", 1),
    (r"sorted\.rs", r"^// (?:Where the item|Inserts the|Moves the|Sorts the items in|Cuts what is kept, and)(?:.*\n)*?\}\n\n", "", 5),
    # What no user sees.
    (r"(?:keyed|partition)\.rs", r"^pub (?=struct (?:Keyed|Parted)\b)", "pub(crate) ", 2),
    # A marker that asks nothing of `E`.
    (ADAPTERS + r"/failing\.rs", r"^ *#\[derive_where\(.*\)\]\n", "", 2),
    (ADAPTERS + r"/failing\.rs", r"(pub\(crate\) made: PhantomData<)E>", r"\1fn() -> E>", 1),
    (ADAPTERS + r"/failing\.rs", r"\Z", (PIECES / "err_into.rs").read_text(encoding="utf-8"), 1),
    # Rust has no `derive_where`.
    (JOINS + r"/kmerge(?:_by)?\.rs", r"^#\[derive_where\(.*\)\]\n", "", 4),
    (JOINS + r"/kmerge\.rs", r"\Z", (PIECES / "kmerge.rs").read_text(encoding="utf-8"), 1),
    (JOINS + r"/kmerge_by\.rs", r"\Z", (PIECES / "kmerge_by.rs").read_text(encoding="utf-8"), 1),
    (r"minmax\.rs", r"^impl<T: Copy> MinMaxResult<T>", "impl<T: Clone> MinMaxResult<T>", 1),
    (r"(?:minmax|partition|fold_while|find)\.rs", r"^(#\[derive\(Clone, Copy, Debug, PartialEq, Eq)\)\]", r"\1, Hash)]", 4),
    (ADAPTERS + r"/positions\.rs", r"^#\[derive\(Clone, Copy, Debug, PartialEq, Eq\)\]", "#[derive(Clone, Copy, Debug, PartialEq, Eq, Hash)]", 1),
    (JOINS + r"/zip\.rs", r"^#\[derive\(Clone, Debug, PartialEq, Eq\)\]", "#[derive(Clone, Copy, Debug, PartialEq, Eq, Hash)]", 1),
    # Imports.
    (r"all_unique\.rs", r"^use fallible_iterator::\{Fault, Turn\};", "use fallible_iterator::Turn;", 1),
    (r"sorted\.rs", r"^use fallible_iterator::\{Fault, Turn\};", "use fallible_iterator::Turn;", 1),
    (r"traits\.rs", r"^use fallible_iterator::\{Collect, FallibleIterator, Fault, Into", "use fallible_iterator::"
     "fallible_contract::collecting::Extended;\nuse fallible_iterator::{FallibleIterator, Into", 1),
    (r"join\.rs", r"^use core::fmt::Display;", "use alloc::string::String;\nuse core::fmt::{Display, Write};", 1),
    # The trait of the Rust crate is for types without a size too.
    (r"(?:traits|double_ended|.*/peeking_take_while)\.rs", r"^(pub trait \w+: \w+) \{", r"\1 + Sized {", 3),
    # Features.
    (r"(?:fallible_\w+|lib)\.rs", r"^pub (?:mod (?:chunks|join|kmerge|kmerge_by|sorted|tail);|use (?:chunks|kmerge|kmerge_by)::)", r'#[cfg(feature = "alloc")]\n\g<0>', 9),
    (r"(?:fallible_\w+|lib)\.rs", r"^pub (?:mod (?:all_unique|keyed|unique);|use unique::)",
     r'#[cfg(feature = "std")]\n\g<0>', 4),
    (r"(?:lib|traits)\.rs", r"\bChunkBy,\s+Chunks,\s+|\bDuplicates,\s+|\bKMerge,\s+KMergeBy,\s+|\bUnique,\s+UniqueBy,\s+", "", 7),
    (r"(?:lib|traits)\.rs", r"^((?:pub )?use crate::fallible_itertools_adapters::)\{",
     r'#[cfg(feature = "alloc")]\n\1{ChunkBy, Chunks};\n#[cfg(feature = "std")]\n\1{Duplicates, Unique, UniqueBy};\n\g<0>', 2),
    (r"(?:.*/)?(?:chunks|keyed|sorted|kmerge_by)\.rs", r"\A(//.*\n\n)", r"\1use alloc::vec::Vec;\n", 4),
    (r".*/kmerge_by\.rs", r"\A(//.*\n\n)", r"\1use alloc::boxed::Box;\n", 1),
    (r"lib\.rs", r"^pub use crate::fallible_itertools_joins::kmerge_by::\{kmerge, kmerge_by\};", r'#[cfg(feature = "alloc")]\npub use crate::fallible_itertools_joins::{KMerge, KMergeBy, kmerge_by::{kmerge, kmerge_by}};', 1),
    (r"traits\.rs", r"^use crate::(?:join::|\{sorted)", r'#[cfg(feature = "alloc")]\n\g<0>', 2),
    (r"traits\.rs", r"^use std::collections::\{HashMap, HashSet, VecDeque\};",
     r'#[cfg(feature = "alloc")]\nuse alloc::collections::VecDeque;\nuse std::collections::{HashMap, HashSet};', 1),
    (r"traits\.rs", r"^use core::fmt::Display;",
     r'#[cfg(feature = "alloc")]\nuse alloc::string::String;\n#[cfg(feature = "alloc")]\nuse alloc::vec::Vec;\n#[cfg(feature = "alloc")]\n\g<0>', 1),
    (r"traits\.rs", r"^use (?:crate::(?:all_unique|keyed)::|core::hash::|std::coll)",
     r'#[cfg(feature = "std")]\n\g<0>', 4),
    (r"traits\.rs", r"^    fn (?:chunks|chunk_by|join|k_smallest|sorted(?:_unstable)?(?:_by|_by_key)?|tail)\b", r'    #[cfg(feature = "alloc")]\n\g<0>', 11),
    (r"traits\.rs", r"^    fn (?:all_unique|counts|counts_by|duplicates|fold_by_key|into_group_map|into_group_map_by|unique|unique_by)\b",
     r'    #[cfg(feature = "std")]\n\g<0>', 9),
    (r"lib\.rs", r"\A(?://!.*\n)+\n", HEAD + "mod errors;\nmod fallible_itertools_adapters;\nmod fallible_itertools_joins;\n", 1),
    # What an adapter of one's own is made of, which no page tells.
    (r"lib\.rs", r" WithPosition,\s+staging,\n\};\n",
     " WithPosition,\n};\n#[doc(hidden)]\npub use crate::fallible_itertools_adapters::staging;\n", 1),
    (r"lib\.rs", r"^pub (mod (?!traits;)\w+;)", r"\1", 14),
    (r"lib\.rs", r"^pub mod traits;", r"#[doc(hidden)]\n\g<0>", 1),
    (r"tail\.rs", r"^use std::collections::VecDeque;", "use alloc::collections::VecDeque;", 1),
    (r"(?:all_unique|keyed|join|sorted|partition|tail)\.rs", r"\A(//.*\n\n)",
     r"\1use fallible_iterator::memory::AllocError;\n", 6),
]

# Collections of std that are made by Rust's own `collect`.
LEFT_OUT = ["fallible_contract/collecting/%s.rs" % name for name in ("deque", "hashed", "sorted")]


def to_rust(crate, files):
    """Maps the files of one of the two crates."""
    if crate == "fallible-iterator":
        drop_files("map", files, LEFT_OUT)
    else:
        drop_files("map", files, ["gathering.rs", "total.rs"])
    apply("map", files, STD)
    apply("map", files, ITERATOR if crate == "fallible-iterator" else ITERTOOLS)
