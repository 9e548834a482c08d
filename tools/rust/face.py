"""The face: the exact signatures of the Rust crate fallible-iterator 0.3.0, where Rattle's differ, and plain folds: `try_fold` of a type
that lets items pass is its source's, which hands the value on, and not a fold by turns with the value in a slot. One that a body gives
stays."""
import re
from pathlib import Path

from rules import apply
from source import after_braces

PIECES = Path(__file__).parent / "static/pieces"
TRAIT, ENDS = r"fallible_core/traits\.rs", r"fallible_core/traits/double_ended\.rs"
COMPARE, ROUNDS = r"fallible_contract/comparing\.rs", r"fallible_core/comparing\.rs"
POINTED = r"fallible_core/traits/b(?:orrowed|oxed)\.rs"
PEEKABLE = r"fallible_core/peeking/peekable\.rs"
FLAT_MAP = r"fallible_core/joining/flat_map\.rs"


RULES = [
    (TRAIT, r"\{Collect, CollectTurn, Fault, Part", "{Extended, Fault, Part", 1),
    # Iterators without a size: no folds through a reference or a box, and `Self: Sized` below.
    (TRAIT, r"pub trait FallibleIterator: Sized \{", "pub trait FallibleIterator {", 1),
    (POINTED, r"impl<I: (\w+)> \1 for", r"impl<I: \1 + ?Sized> \1 for", 4),
    (POINTED, r"\n    fn drive(?:_back)?<C(?:.*\n)*?    \}\n", "", 4),
    (POINTED, r"^use crate::fallible_contract::folds::Turn;\n", "", 2),
    # Comparisons with items of another type.
    (COMPARE, r"pub trait Comparison<A> \{", "pub trait Comparison<A, B> {", 1),
    (COMPARE, r"fn compare\(left: &A, right: &A\)", "fn compare(left: &A, right: &B)", 4),
    (COMPARE, r"impl<A: Ord> Comparison<A> for ByCmp \{(\s*)fn compare\(left: &A, right: &B\)",
     r"impl<A: Ord> Comparison<A, A> for ByCmp {\1fn compare(left: &A, right: &A)", 1),
    (COMPARE, r"impl<A: Partial(Ord|Eq)> Comparison<A>", r"impl<A: Partial\1<B>, B> Comparison<A, B>", 2),
    (COMPARE, r"decide<A, K: Comparison<A>>\(\s*left: Option<A>,\s*right: Option<A>,?\s*\)",
     "decide<A, B, K: Comparison<A, B>>(left: Option<A>, right: Option<B>)", 1),
    (ROUNDS, r"I: IntoFallibleIterator<Item = L::Item, Error", "I: IntoFallibleIterator<Error", 1),
    (ROUNDS, r"(fn compare_read<[^{]*)K: Comparison<L::Item>", r"\1K: Comparison<L::Item, I::Item>", 1),
    (TRAIT, r"I: IntoFallibleIterator<Item = Self::Item, Error = Self::Error>,\n(\s*)Self::Item: (Partial\w+),",
     r"I: IntoFallibleIterator<Error = Self::Error>,\n\1Self::Item: \2<I::Item>,", 7),
    # `next_if` and `next_if_eq`.
    (PEEKABLE, r"fn next_if<F: Fn\(&I::Item\) -> bool>\(&mut self, f: F\)",
     "fn next_if(&mut self, f: impl Fn(&I::Item) -> bool)", 1),
    (PEEKABLE, r"fn next_if_eq\(&mut self, expected: &I::Item\)(.*\n\s*where\n\s*)I::Item: PartialEq,",
     r"fn next_if_eq<T: ?Sized>(&mut self, expected: &T)\1I::Item: PartialEq<T>,", 1),
    # New code.
    (r"fallible_contract/collecting\.rs", r"\Z", (PIECES / "extended.rs").read_text(), 1),
    (FLAT_MAP, r"\Z", (PIECES / "flat_map.rs").read_text(), 1),
]
# The methods that need no size.
UNSIZED = {"next", "next_back", "size_hint", "nth"}


def sized(text):
    """`Self: Sized` at each method of a trait with a body, but those that need no size."""
    for m in reversed(list(re.finditer(r"^    fn (\w+)[^;{]*?(?=\s*\{$)", text.s, re.M))):
        if m.group(1) in UNSIZED:
            continue
        where = m.group().find("\n    where\n")
        if where >= 0:
            text.replace(m.start() + where + 11, m.start() + where + 11, "        Self: Sized,\n")
        else:
            brace = text.s.index("{", m.end())
            text.replace(m.end(), brace, "\n    where\n        Self: Sized,\n    ")


def to_rust(crate, files):
    """Gives the first crate its face. The second has none but its own."""
    if crate == "fallible-iterator":
        apply("face", files, RULES)
        for path in ("fallible_core/traits.rs", "fallible_core/traits/double_ended.rs"):
            sized(files[path])


IMPL = re.compile(r"^impl\b[^{;]*?\s(?:DoubleEnded)?FallibleIterator\s+for\s[^{]*\{", re.M)
# A fold that lets items pass, and what the adapter's `try_fold` is then: through the source's, with the value handed on.
PASSING = re.compile(r"fn drive(_back)?<[^{]*\{\s*drive(?:_back)?_passing\(\s*([^;{}]*?),\s*state,\s*turn,?\s*\)\s*\}")
PLAIN = """#[inline(always)]
    fn try_%sfold<Value, Failed, Step>(&mut self, init: Value, f: Step) -> Result<Value, Failed>
    where
        Failed: From<Self::Error>,
        Step: FnMut(Value, Self::Item) -> Result<Value, Failed>,
    {
        crate::fallible_core::passing::try_%sfold_passing(%s, init, f)
    }"""


def plainly(text):
    """Has `try_fold` of a type go by a plain one, where there is one: its own, or its source's with what becomes of an item."""
    for m in reversed(list(IMPL.finditer(text.s))):
        end = after_braces(text.s, m.end() - 1)
        inner = text.s[m.end():end]
        passing = PASSING.search(inner)
        macro = re.search(r"\S*by_drive!\(drive(?:_back)?\);", inner)
        if not macro or not passing and not re.search(r"\bfn try_r?fold\b", inner):
            continue
        r = "r" if passing and passing.group(1) else ""
        new = PLAIN % (r, r, passing.group(2)) if passing else ""
        text.replace(m.end() + macro.start(), m.end() + macro.end(), new)


def folds(crate, files):
    """Gives the types of the first crate their plain folds."""
    if crate == "fallible-iterator":
        for text in files.values():
            plainly(text)
        apply("plain", files, [(r"fallible_core/passing\.rs", r"\Z", (PIECES / "fold_passing.rs").read_text(encoding="utf-8"), 1)])
