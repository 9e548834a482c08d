"""The tables of docs/LAYERS.md: the calls of its source that each type makes, and the hidden call under each other one."""

import re

from made import code
from made.code import code_of_library

HIDDEN = ("drive", "drive_back", "drive_to")
CALLED = re.compile(r"(?:(\(\*\*self\)|[\w.]+?)\.)?\b([a-z_]\w*)(?:::<[^()]*>)?\(")
DRAWS = {"next": "a draw", "draw": "a draw", "next_back": "a draw from the back"}
STD = {"try_fold": "std's `try_fold`", "try_rfold": "std's `try_rfold`"}
LENT = re.compile(r"&mut (?:self\.)?(\w+)")
# the fields of a type with two sources
SIDES = ("first", "second", "left", "right")
TURN = re.compile(r"\b[A-Z]\w*(?:Turn|Test)\b")


def helpers(files):
    """The functions that are no calls of a trait, by their file, by their folder and by their name alone."""
    found = {}
    for path in files:
        for function in code.functions(path):
            if function.body and function.is_helper:
                for key in ((path, function.name), (path.parent, function.name), function.name):
                    found.setdefault(key, function)
    return found


def helper_of(name, path, found):
    """The helper that a file means by a name, or none."""
    return found.get((path, name)) or found.get((path.parent, name)) or found.get(name)


def given_at(function, at):
    """The arguments of the call whose bracket opens at a place of a body."""
    return function.body[at:code.end_of(function.body, at)]


def turn_of(function, at):
    """The turn that the call whose bracket opens at a place is given, if the body names it."""
    given = given_at(function, at)
    if "&turn" in given and "let turn =" in function.body:
        given = function.body.split("let turn =")[1].split(";")[0]
    return next(iter(TURN.findall(given)), None)


class Way:
    """The calls that a body makes of its source, in order: what each is, how often, and of which sides."""

    def __init__(self, path, found):
        self.path, self.found, self.steps = path, found, {}

    def add(self, said, side, times=1):
        """Adds a call."""
        sides = self.steps.setdefault(said, [])
        sides += [side if side in SIDES else ""] * times

    def walk(self, function, through="", side="", seen=()):
        """Adds the calls of a body, through the functions that it calls."""
        looped = 2 if re.search(r"\b(?:loop|while|for)\b", function.body) else 1
        for called in CALLED.finditer(function.body):
            receiver, name = called.group(1), called.group(2)
            field = (receiver or "").split(".")[-1]
            if receiver and name in HIDDEN:
                turn = None if through else turn_of(function, called.end() - 1)
                said = f"its own `{name}`" if receiver == "self" else f"`{name}`"
                said += f" by `{through}`" if through else f" with `{turn}`" if turn else ""
                self.add(said, side or field)
            elif receiver and name in DRAWS:
                self.add("its own `next`" if receiver == "self" else DRAWS[name], side or field, looped)
            elif name in STD and through:
                self.add(STD[name], "")
            elif receiver and name == "next_of_both":
                # `next`, with a flag
                self.add("its own `next`", "")
            elif receiver != "self" and name not in seen:
                helper = helper_of(name, self.path, self.found)
                lent = [part for part in (field, *LENT.findall(given_at(function, called.end() - 1))) if part in SIDES]
                if helper:
                    one = lent[0] if len(lent) == 1 and not through else side
                    self.walk(helper, through or name, one, (*seen, name))

    def cell(self):
        """The calls as a cell."""
        texts = []
        for said, sides in self.steps.items():
            several = said in DRAWS.values() and len(sides) > 1
            named = sorted(set(sides) - {""})
            texts.append(said.replace("a draw", "draws") if several else said)
            texts[-1] += f" of {' and '.join(f'`{side}`' for side in named)}" if named else ""
        return ", ".join(texts) or "none"


def columns(crates):
    """Of each type the cells of its row."""
    files = code_of_library(crates)
    found, rows = helpers(files), {}
    for path in files:
        for function in code.functions(path):
            kind = function.implementer
            if kind is None or not function.body or function.name not in (*HIDDEN, "next", "next_back"):
                continue
            way = Way(path, found)
            if function.name in HIDDEN:
                way.walk(function)
            rows.setdefault(kind, {})[function.name] = way.cell()
    return rows


def types(crates):
    """The table of the types. Those with the same row share it."""
    shared = {}
    for kind, cells in columns(crates).items():
        back = cells.get("drive_back", "–" if "next_back" in cells else "")
        row = (cells.get("drive", "–"), back, cells.get("drive_to", "–"))
        shared.setdefault(row, []).append(kind)
    rows = [f"| {', '.join(f'`{kind}`' for kind in kinds)} | {' | '.join(row)} |" for row, kinds in shared.items()]
    return ["| Type | `drive` | `drive_back` | `drive_to` |\n|---|---|---|---|", *rows]


def goes_through(name, functions, found, seen=()):
    """The hidden calls, or the draws, that the body of a trait's call makes of its iterator."""
    path, function = functions[name]
    ways = []
    for called in CALLED.finditer(function.body):
        receiver, wanted = called.group(1), called.group(2)
        helper = helper_of(wanted, path, found)
        if wanted in seen:
            continue
        if receiver and wanted in HIDDEN:
            ways.append(f"`{wanted}`")
        elif receiver and wanted in DRAWS or wanted == "next" and not receiver:
            ways.append("draws")
        elif (receiver == "self" or function.body[called.start() - 1] == ".") and wanted in functions:
            ways += goes_through(wanted, functions, found, (*seen, wanted))
        elif helper and not receiver:
            ways += goes_through(wanted, {**functions, wanted: (path, helper)}, found, (*seen, wanted))
    return list(dict.fromkeys(ways))


def finals(crates):
    """The table of the traits' calls by the hidden call that each goes through. Most go through `drive`, and aren't named."""
    files = code_of_library(crates)
    found, functions, rows = helpers(files), {}, {}
    for path in files:
        for function in code.functions(path):
            if function.in_trait and function.body and re.search(r"FallibleIterator|FallibleItertools", function.owner):
                functions.setdefault(function.name, (path, function))
    for name in functions:
        through = goes_through(name, functions, found, (name,))
        if through:
            rows.setdefault(", ".join(through), []).append(f"`{name}`")
    order = sorted(rows, key=lambda through: [*(f"`{name}`" for name in HIDDEN), through].index(through))
    named = {through: "all others" if through == "`drive`" else ", ".join(rows[through]) for through in order}
    return ["| Goes through | Calls |\n|---|---|", *(f"| {through} | {calls} |" for through, calls in named.items())]
