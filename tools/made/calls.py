"""The tables of docs/CALLING.md: of each call what it lists or returns, and what it leaves."""

import re

from made import code, terms
from made.code import code_of_library

CORE, ABOVE = "fallible_core/src", "fallible_iterator/src"
TOOLS, MADE_OF = "fallible_itertools/src", ("fallible_itertools_adapters/src", "fallible_itertools_joins/src")

# The tables: the name of each, what kind of call it has, and the files that it is made from.
TABLES = {
    "sources": ("adapter", [f"{ABOVE}/sources/making.rt", f"{ABOVE}/conversion.rt"]),
    "adapters": ("adapter", [f"{CORE}/traits.rt"]),
    "draws": ("borrowing", [
        f"{CORE}/traits.rt", f"{CORE}/traits/double_ended.rt", f"{CORE}/peeking/peek.rt", f"{CORE}/peeking/peekable.rt",
        f"{ABOVE}/taking.rt", f"{ABOVE}/laws/traces.rt",
    ]),
    "consumers": ("consuming", [f"{CORE}/traits.rt", f"{CORE}/traits/double_ended.rt"]),
    "adapters of fallible_itertools": ("adapter", [f"{TOOLS}/traits.rt", f"{MADE_OF[0]}/peeking_take_while.rt"]),
    "other calls of fallible_itertools": ("other", [f"{TOOLS}/traits.rt", f"{TOOLS}/double_ended.rt"]),
}
DRAWN = "| Call | Value | Left | If it returns |\n|---|---|---|---|"
HEADS = {
    "adapter": "| Call | Lists |\n|---|---|",
    "consuming": "| Call | Value |\n|---|---|",
    "borrowing": DRAWN,
    "other": DRAWN,
}
# the clauses that state a list or a value of one
STATING = ("lists", "value", "rest", "results", "items", "repeats", "shown", "reads", "for_good")
OF_LIST = re.compile(r"OverList|OverBoth|Lists\b")
ITERATOR = re.compile(r"Iterator for (&mut I|\w+)")
BORROWS = re.compile(r"\( ?(?:alloc: Global, )?(?:&(?:mut )?self|\w+: &mut )")
# what a word of a clause says besides the list
SAID_OF = {"Repeats": " at each draw", "ListsMade": ", up to an allocation failure", "ListsUnlessRefused": ", up to an allocation failure",
           "ListsUntilRefused": ", up to an allocation failure", "EachRunFrom": ", as std reads it", "ListsForGood": ", fused"}


def iterators(files):
    """The types that are iterators: those that write `size_hint`."""
    functions = [function for path in files for function in code.functions(path) if function.name == "size_hint"]
    return {found.group(1) for found in (ITERATOR.search(function.owner) for function in functions) if found}


def made_type(function):
    """The type that a call returns, of a `Result` the one in it."""
    name = function.returned.removeprefix("Result<").lstrip()
    return "&mut I" if name.startswith("&mut") else re.match(r"[\w:]*", name).group().rsplit("::", 1)[-1]


def kind(function, types):
    """Whether a function is a call that makes an iterator, borrows one or consumes one; none if it is no call."""
    hidden = function.name.startswith("drive") or function.name in ("size_hint", "number")
    stated = function.in_trait or function.is_helper and function.clauses
    if hidden or not function.public or not stated:
        return None
    if made_type(function) in types:
        return "adapter"
    states = {"value", "lists"}.intersection(named for _, named, _ in function.clauses)
    if not states and not function.owner:
        return None
    return "borrowing" if BORROWS.match(function.parameters) else "consuming"


class Row:
    """A call with what its clauses state of a list."""

    def __init__(self, function):
        self.function, self.values, self.left, self.returned = function, [], [], []
        for which, named, text in function.clauses:
            if which == "ensures" and not self.read(text) and named in STATING and OF_LIST.search(text):
                raise ValueError(f"{function.name}: the clause {named} isn't one that tools/made/calls.py can read")

    def read(self, text):
        """Adds what a clause says of a list, and returns whether it says something of one."""
        reading = terms.Reading(text, self.function.renamed)
        held, returned = reading.conditions()
        found = False
        for conclusion in reading.conclusions:
            parts = terms.split_at(terms.bare(conclusion), " ")
            word = terms.last_name(parts[0])
            sides = terms.split_at(terms.bare(conclusion), " ≡ ")
            over_list = bool(reading.over)
            if word in terms.LISTING and any(re.fullmatch(r"\w+\.new", part) for part in parts):
                self.add(self.left, reading, parts[-1], held if "≤" in " ".join(held) else [])
                self.returned += [said for said in returned if said not in self.returned]
            elif word in terms.LISTING and "result" in parts:
                self.add(self.values, reading, parts[-1], held, word)
            elif word == "EachRunFrom" and "ItemsAre" in parts[-1]:
                inner = terms.split_at(terms.bare(parts[-1]), " ")
                self.add(self.values, reading, inner[-1], held, word)
            elif over_list and word in ("CollectedAs", "CollectedUntilAs", "UnzippedAs", "PartitionedAs", "PartitionedFailuresAs",
                                       "AllUniqueAs", "FoldedByKeyAs"):
                self.add(self.values, reading, " ".join(parts[:-1]), held)
            elif over_list and len(sides) == 2 and re.fullmatch(r"result|v\.items", sides[0]):
                self.add(self.values, reading, sides[1], held)
            elif over_list and len(sides) == 2 and "result" in sides[0]:
                self.add(self.values, reading, conclusion, held)
            else:
                continue
            found = True
        return found

    def add(self, cells, reading, term, held, word=""):
        """Adds a term with what has to hold for it. What is listed, fused, stands in the place of the same that isn't."""
        shown = reading.shown(term)
        shown += f" {reading.ends}" if reading.ends else ""
        where = f", where {' and '.join(held)}" if held else ""
        text = shown + SAID_OF.get(word, "") + where
        if word == "ListsForGood" and shown + where in cells:
            cells[cells.index(shown + where)] = text
        elif word == "ListsForGood" and shown in cells:
            cells.append(SAID_OF[word].removeprefix(", ") + where)
        elif text not in cells:
            cells.append(text)


def call(function):
    """A call as it is written."""
    return f"`{function.name}({', '.join(code.arguments(function.parameters))})`"


def cell(parts):
    """The parts as a cell, with a dash of none."""
    return "; ".join(parts).replace("|", "\\|") or "–"


def line(row, wanted):
    """The line of a call in a table of that kind."""
    cells = [call(row.function), cell(row.values)]
    if wanted not in ("adapter", "consuming"):
        cells += [cell(row.left), "; ".join(row.returned)]
    return f"| {' | '.join(cells)} |"


def table(name, crates, types):
    """The lines of a table."""
    wanted, files = TABLES[name]
    kinds = {"other": ("borrowing", "consuming")}.get(wanted, (wanted,))
    rows = []
    for path in (crates / file for file in files):
        found = code.functions(path) if path.is_file() else []
        of_kind = [Row(function) for function in found if kind(function, types) in kinds]
        # a call that makes no iterator and states nothing of a list has no line
        rows += [line(row, wanted) for row in of_kind if wanted == "adapter" or row.values or row.left]
    return [HEADS[wanted], *rows]


def tables(crates):
    """Each table of calls, by its name."""
    types = iterators(code_of_library(crates))
    return {name: table(name, crates, types) for name in TABLES}
