"""What a caller's own type writes itself is used, as in the original: the hidden calls go by the calls that a
Rust type may write, and a type that writes a hidden call gets the call that goes by it."""
import re
from pathlib import Path

from rules import apply, drop_files
from source import Refused, after_braces, functions

TRAIT, ENDS = r"fallible_core/traits\.rs", r"fallible_core/traits/double_ended\.rs"

STOP = (Path(__file__).parent / "static/pieces/stop.rs").read_text(encoding="utf-8")
# The proved fold of a type that writes a hidden one, below its new name.
PROVED = """
    #[inline(always)]
    fn drive_try_%sfold%s
"""
# The hidden folds, for which a type that writes one gets the call that goes by it: the macro of `by_drive.rs`.
FOLDS = ("drive", "drive_back")
IMPL = re.compile(r"^impl\b[^{;]*?\b(?:DoubleEnded)?FallibleIterator\s+for (\w+)?[^{]*\{", re.M)


def method(text, name):
    """A method of the trait that the file is of."""
    found = [f for f in functions(text.s) if f.name == name]
    if len(found) != 1:
        raise Refused("%s:1: overrides: `%s` stands %d times, not once" % (text.place, name, len(found)))
    return found[0]


def away(text, f):
    """Takes a function away, with its comment and its attributes."""
    start = f.docs[0] if f.docs[0] != f.docs[1] else text.s.rfind("\n\n", 0, f.start) + 2
    text.replace(start, f.end + 2, "")


def cut(text, name):
    """Takes a method of the trait away."""
    away(text, method(text, name))


def folds(text, back):
    """The proved `try_fold` stands under another name too, for types that write a hidden fold."""
    fold, name = method(text, "try_%sfold" % back[:1]), "drive" + back[1:]
    end = method(text, name).end
    text.replace(end, end, "\n" + (PROVED % (back[:1], text.s[fold.start:fold.end].partition("fold")[2])).rstrip("\n"))


def proved(crate, files):
    """Moves proved bodies to the names that they have in Rust. What else the traits' defaults are is in `bodies`."""
    if crate == "fallible-iterator":
        text, ends = files["fallible_core/traits.rs"], files["fallible_core/traits/double_ended.rs"]
        folds(text, "")
        folds(ends, "r_back")


# What no body needs any more, by crate.
UNUSED = {
    "fallible-iterator": [
        (r"fallible_co(?:ntract|re)\.rs", r"^(?:pub )?mod goals;\n", "", 2),
        (r"lib\.rs", r"^pub use fallible_contract::goals::Goal;\n", "", 1),
        (r"fallible_core/.*\.rs", r"^use fallible_contract::goals::Goal;\n", "", 9),
        (r"fallible_core/one_to_one/enumerate\.rs", r"^use crate::goals::count_on;\n", "", 1),
        (r"fallible_core/(?:filtering/.*|one_to_one/enumerate)\.rs", r"(?<=folds::\{)LastTurn, ", "", 3),
        (r"fallible_core/filtering/.*\.rs", r"(?<=folds::\{)NthTurn, ", "", 2),
        (r"fallible_core/filtering/skip_while\.rs", r"\{FindTurn, Test, found\}", "Test", 1),
    ],
    "fallible-itertools": [(r"fallible_itertools_adapters/.*\.rs", r"\bGoal, ", "", 1)],
}


def asked_apart(crate, files):
    """In Rust `count`, `last` and `nth` are three calls that a type may write, and no `drive_to` stands under them: what they have
    of it stands in `bodies`. So does what goes by a `find` of the source's own."""
    for text in files.values():
        for f in reversed([f for f in functions(text.s) if f.name == "drive_to"]):
            away(text, f)
    if crate == "fallible-iterator":
        drop_files("overrides", files, ["fallible_contract/goals.rs", "fallible_core/goals.rs"])
    apply("overrides", files, UNUSED[crate])


def impls(text, root="fallible_iterator::"):
    """What the impls of a file get. `root` is where the macro stands."""
    for m in reversed(list(IMPL.finditer(text.s))):
        end = after_braces(text.s, m.end() - 1)
        inner = text.s[m.end():end]
        new = "".join("\n    %sby_drive!(%s);\n" % (root, name) for name in FOLDS if re.search(r"\bfn %s\b" % name, inner))
        text.replace(end - 1, end - 1, new)


def renamed(path, s):
    """A proved file with the calls' names in Rust: a hidden call stands under `try_fold`."""
    if path.startswith("fallible_core/traits"):
        s = re.sub(r"\bfn (try_r?fold)\b", r"fn drive_\1", s)
    return s


# A `drive_to` of a test's type, which counts the calls and hands the goal on.
COUNTING = re.compile(
    r"    fn drive_to\(&mut self, goal: &mut Goal<(.*)>\) -> Result<.*, (.*)> \{\n        match goal \{\n"
    r" *Goal::Count\(_\) => (.*),\n *Goal::Last\(_\) => (.*),\n *Goal::Nth\(_\) => (.*),\n        \}\n"
    r"        (.*)\.drive_to\(goal\)\n    \}\n")
COUNTED = r"""    fn count(self) -> Result<usize, \2> {
        \3;
        \6.count()
    }

    fn last(self) -> Result<Option<\1>, \2> {
        \4;
        \6.last()
    }

    fn nth(&mut self, n: usize) -> Result<Option<\1>, \2> {
        \5;
        \6.nth(n)
    }
"""


def of_tests(text):
    """What the types of callers and tests get that write hidden calls."""
    impls(text)
    for m in reversed(list(COUNTING.finditer(text.s))):
        text.replace(m.start(), m.end(), m.expand(COUNTED))
        text.cut_all(r"\bGoal, ")
    if re.search(r"\bdrive_to\(", text.s):
        raise Refused("%s: overrides: a `drive_to` that doesn't hand its goal on" % text.at(text.s.index("drive_to(")))


def to_rust(crate, files):
    """Gives each type what goes by its hidden calls."""
    if crate == "fallible-iterator":
        text = files["fallible_core/traits.rs"]
        text.replace(len(text.s), len(text.s), STOP)
        apply("overrides", files, [
            (TRAIT, r"^    (?=fn try_fold\b)", "    #[inline(always)]\n    ", 1),
            (ENDS, r"^    (?=fn try_rfold\b)", "    #[inline(always)]\n    ", 1),
            (ENDS, r"^use crate::fallible_core::traits::FallibleIterator;",
             "use crate::fallible_core::traits::{FallibleIterator, Stop};", 1),
        ])
    for text in files.values():
        impls(text, "crate::" if crate == "fallible-iterator" else "fallible_iterator::")
