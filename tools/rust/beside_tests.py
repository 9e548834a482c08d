"""The tests of the second crate over any first one: they bring what they name of this repository's that another doesn't show. And the
program `release/scripts` as one of them: it drives each adapter by every script of at most four answers, and compares each call's
answers, draws and leftovers with a rule over whole lists."""
import re
from pathlib import Path

from beside import blocks, closed, imported, paths, stays
from rules import ANY, apply
from source import Text, read
from suite import as_rust

PIECES = Path(__file__).parent / "static/pieces"
# What the tests name of the first crate that no page shows, and what only it has.
TESTED = {"AllocError", "Answer", "Fault", "Side"}
SOURCES = """use fallible_iterator::{Convert, convert};
use std::convert::Infallible;
use std::iter::Map;"""
LACKING = [
    # What the original has not. The lines of a text are fused.
    (r"test_itertools/failing\.rs", r"\.map_while\((\w+)\)", r".scan((), |_: &mut (), x| \1(x))", 3),
    (r"example_consumers/settings\.rs", r"\bconvert_fused\b", "convert", 2),
    # Its source of counted calls is that of `pieces`, which writes what the original's types may.
    (r"test_support/counted\.rs", r"^use fallible_iterator::\{[^}]*\};",
     "use fallible_iterator::{DoubleEndedFallibleIterator, FallibleIterator};", 1),
    (r".*", r"\.draw(?:_front)?\(\)", ".next()", ANY),
    (r".*", r"\.draw_back\(\)", ".next_back()", ANY),
    (r".*", r"\bfallible_iterator::(?:fallible_core|fallible_contract::answers|memory)::", "fallible_iterator::", ANY),
]


def suite(out, first):
    """Has the tests of the second crate run over any first one: they bring what only tests name of it."""
    prefix = "tests/proved/"
    files = {path.removeprefix(prefix): Text(path, s) for path, s in out.items()}
    apply("beside_tests", files, LACKING)
    carried = {path: paths(text.s) for path, (text, *_) in first.items()}
    kept, homes = closed(carried, TESTED)
    head, items = ["//! What these tests name that no page of `fallible-iterator` shows, or not of each version.", SOURCES], []
    for path, s in carried.items():
        items += [block for name, label_, block in blocks(s) if stays(name, label_, TESTED, homes)]
    files["base.rs"] = Text("", "\n\n".join([*head, (PIECES / "sources.rs").read_text(encoding="utf-8").rstrip("\n"), *items]) + "\n")
    start = files["test_support/counted.rs"].s.index("\nimpl<'a, I: FallibleIterator>")
    text = files["test_support/counted.rs"]
    text.replace(start, len(text.s), "\n" + (PIECES / "counted.rs").read_text(encoding="utf-8"))
    # So the numbers whose calls are counted are such a source too.
    text = files["test_support/counted_numbers.rs"]
    start = text.s.index("\nuse crate::test_support::") + 1
    text.replace(start, len(text.s), (PIECES / "counted_numbers.rs").read_text(encoding="utf-8"))
    for path, text in files.items():
        for m in reversed(list(re.finditer(r"^use fallible_iterator::(Answer|Side)::", text.s, re.M))):
            text.replace(m.start(), m.end(), "use crate::base::%s::" % m.group(1))
        imported(text, TESTED | {"IteratorExt", "repeat"})
    main = files["main.rs"]
    main.replace(len(main.s), len(main.s), "mod base;\n")
    return {prefix + path: text.s for path, text in files.items()}


SCRIPTS = "release/scripts"
ERASED = [
    # Nothing is made by an allocator, nor is one refused.
    (r".*", r"\b(?:given|run)\.alloc(?:, )?", "", ANY),
    (r".*", r"\.into_vec\(\)", ".into()", ANY),
    (r".*", r",\s*\)", ")", ANY),
    (r".*", r"(println!\([^;]*?\))\?;", r"\1;", ANY),
    (r".*", r"^(    println!\([^;]*?\))\n\}", r"\1;\n    Ok(())\n}", ANY),
    (r"(?!main).*", r"\A((?://!.*\n)+\n?)", r"\1use crate::AllocError;\n", ANY),
    (r"main\.rs", r"^mod script;\n", r"""\g<0>
/// What no allocation returns.
#[derive(Debug, Clone, Copy, PartialEq, Eq)]
pub enum AllocError {}

impl From<AllocError> for io::Error {
    fn from(refused: AllocError) -> io::Error {
        match refused {}
    }
}
""", 1),
]
# What the original has not, and what is driven over it: what is of `fallible_itertools`.
PUBLISHED = [
    (r".*", r"\.draw\(\)", ".next()", ANY),
    (r".*", r"\.draw_back\(\)", ".next_back()", ANY),
    (r".*", r"\.peek_copied\(\)", ".peek().map(|item| item.copied())", 2),
    (r".*", r"\.map_while\(\|x: u32\|", ".scan((), |_: &mut (), x: u32|", 1),
    (r".*", r", Fault\b|\bFault, ", "", ANY),
    (r"peeking\.rs", r"^ *let _ = nest\.next_if\(.*\);\n", "", 1),
    (r"peeking\.rs", r", fold_if\}", "}", 1),
    (r"peeking\.rs", r"^    fold_if\($(?:.*\n)*?(?=\}$)", "    let _ = (ahead, &mut calls, accepts, folds);\n    Ok(0)\n", 1),
    (r"main\.rs", r"^    drive_(?:one_to_one|cutting|joining|nests|from_back|rows|consumers)\(&mut total\)\?;\n", "", 7),
    (r"main\.rs", r"^    drive::<(?:Over<)?filtering::(?!Places)\w+>*\(total\)(?:\?;|$)\n", "", 4),
    (r"main\.rs", r"^(    drive::<filtering::PlacesByCalls>\(total\))\?;$", r"\1", 1),
]
# As a test of the crate, which fails where a comparison does.
AS_TEST = [
    (r"main\.rs", r"\A//! .*\n", "//! Drives each adapter by every script of at most four answers, and compares answers, draws and leftovers with a rule over whole lists.\n#![cfg(feature = \"std\")]\n// What is erased leaves imports behind, and one argument.\n#![allow(unused, clippy::all)]\n", 1),
    (r"main\.rs", r"^fn main\(\)", "#[test]\nfn each_adapter_by_every_short_script()", 1),
    (r"main\.rs", r"^    println!\(\"in all: .*\n", "    assert_eq!((cases, mismatches), (@CASES@, 0));\n", 1),
]
MANIFEST = """[package]
name = "answers"
version = "0.0.0"
edition = "2021"

[dependencies]
fallible-iterator = "*"
fallible-itertools = { path = "%s", features = ["std"] }

[patch.crates-io]
fallible-iterator = { path = "%s" }

[workspace]
"""


def files_of(top, rules):
    """The program's files in Rust by their names, with rules after those that erase."""
    files = {}
    for path in sorted((top / SCRIPTS / "src").glob("*.rt.txt")):
        text = read(path, "%s/src/%s" % (SCRIPTS, path.name))
        text.cut_all(r"^ *///.*\n *pub alloc: Global,\n")
        as_rust(text)
        files[path.name.replace(".rt.txt", ".rs")] = text
    apply("answers", files, ERASED + rules)
    return {name: text.s for name, text in files.items()}


def scripts_over(top, below, above, published):
    """The program's files by path, over the crate of the folder `below` and our second of `above`. `published` says whether
    the first is the original."""
    files = files_of(top, PUBLISHED * published)
    return {"Cargo.toml": MANIFEST % (above, below), **{"src/" + name: s for name, s in files.items()}}


def scripts(top):
    """The program as a test of the second crate, by path in it."""
    cases = re.search(r"\d+", printed(top, False)[-1]).group()
    return {"tests/scripts/" + name: s.replace("@CASES@", cases) for name, s in files_of(top, AS_TEST).items()}


def printed(top, published):
    """What the program prints: all of what the proved one prints, or of that what it drives over the original."""
    lines = (top / SCRIPTS / "stdout").read_text(encoding="utf-8").splitlines()
    if not published:
        return lines
    first = next(k for k, line in enumerate(lines) if line.startswith("copied of map"))
    last = next(k for k, line in enumerate(lines) if line.startswith("rev over"))
    kept = [line for line in lines if line.startswith("positions")] + lines[first:last] + [
        line for line in lines if line.startswith(("comparisons", "searches", "calls of equal"))]
    cases = sum(int(re.search(r"(\d+) cases", line).group(1)) for line in kept)
    return kept + ["in all: %d cases, 0 mismatches" % cases]
