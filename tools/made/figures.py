"""The figures of the pages, as `17 <!-- callers -->`, which are counted, and the files that are handed on."""

import re

import proving
from made import belief
from made.callers import callers
from made.code import lines_of

FIGURE = re.compile(r"([\d,]+)\**\s*<!-- ([\w ]+) -->")
HANDED = re.compile(r"^pub use (Rattle\.[\w.]*\w)", re.MULTILINE)


def count_of(pattern, files):
    """How many lines of the files the pattern fits."""
    return sum(1 for path in files for line in lines_of(path) if re.match(pattern, line))


def edits(crates, folder):
    """How many edits the crates have in folders of this name."""
    return sum(len(list(proving.blocks(path))) for path in crates.glob(f"*/{folder}/**/*.edit"))


def figures(crates):
    """What is counted, by its name in the pages."""
    rows = list(callers(crates))
    words, lines = belief.size(crates, "fallible_itertools/src/traits.rt", "dedup", ("parts", "lists"))
    return {
        "edits": edits(crates, "gate-edits"),
        "release edits": edits(crates, "release-edits"),
        "callers": len(rows),
        "callers with no proof": sum(1 for row in rows if not row[4]),
        "callers with a law": sum(1 for row in rows if row[5]),
        "words of dedup": words,
        "lines of dedup": lines,
        "tests": count_of(r"\s*#\[test\]", [*crates.glob("*/src/**/*.rt"), *(crates.parent / "tests").glob("*/src/**/*.rt.txt")]),
    }


def wrong_figures(top, pages):
    """A line for each figure of the pages that differs from what is counted."""
    counted = figures(top / "crates")
    for page in pages:
        for number, line in enumerate(lines_of(page), 1):
            for figure, name in FIGURE.findall(line):
                if counted.get(name) != int(figure.replace(",", "")):
                    yield f"{page.relative_to(top)}:{number}: {figure} {name}, counted: {counted.get(name)}"


def not_handed_on(crates):
    """A line for each file of `specs/` of the crates below `fallible_iterator` that it doesn't hand on."""
    handed = set()
    for path in (crates / "fallible_iterator" / "specs").rglob("*.antt"):
        handed.update(HANDED.findall(path.read_text(encoding="utf-8")))
    for crate in ("fallible_contract", "fallible_core"):
        top = crates / crate / "specs"
        for path in sorted(top.rglob("*.antt")):
            parts = path.relative_to(top).with_suffix("").parts
            above = [".".join(("Rattle", crate, "specs", *parts[:n])) for n in range(1, len(parts) + 1)]
            # of a folder the files are what counts
            if parts == ("Lib",) or path.with_suffix("").is_dir() or handed.intersection(above):
                continue
            yield f"specs/ of fallible_iterator: {above[-1]} is not handed on"
