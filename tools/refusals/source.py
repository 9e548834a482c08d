"""A `.rt` file without what says nothing of its runs, its functions, and the arms of their matches. And which calls of the libraries ask
for memory or clone, and whether release/many_items has a row of each."""

import dataclasses
import functools
import re

from made.code import end_of

LITERAL = re.compile(r'//[^\n]*|b?r#"(?s:.*?)"#|b?"(?:\\(?s:.)|[^"\\])*"|b?\'(?:\\[^\']*|[^\\\'])\'')
GHOST = re.compile(r"\bghost\b[^;{]*")
CLAUSE = re.compile(r"\b(?:ensures|requires)\*?(?: \w+)?\s*\{")
ATTRIBUTE = re.compile(r"#!?\[")
FUNCTION = re.compile(r"\bfn (\w+)")
MATCH = re.compile(r"\bmatch\b")
# The types of a call, as `::<u8, Vec<u8>>`.
TYPES = re.compile(r"::<(?:[^<>;{}]|<(?:[^<>;{}]|<[^<>;{}]*>)*>)*>")
OPENING = "([{"


def blank(text):
    """As many blanks, in as many lines."""
    return re.sub(r"[^\n]", " ", text)


def without(text, pattern, end):
    """The text with blanks for all that begins as a pattern and goes on to the end that is given for it."""
    parts, place = [], 0
    for found in pattern.finditer(text):
        if found.start() >= place:
            parts += [text[place:found.start()], blank(text[found.start():end(text, found.end())])]
            place = end(text, found.end())
    return "".join([*parts, text[place:]])


def end_of_ghost(text, place):
    """Where a ghost item or a ghost field ends whose head ends at a place."""
    end = end_of(text, place) if text[place:place + 1] == "{" else place
    return end + 1 if text[end:end + 1] in (";", ",") else end


@functools.lru_cache(maxsize=None)
def bare(text):
    """The text with blanks for comments, the insides of literals, attributes, clauses and ghost items."""
    text = LITERAL.sub(lambda found: blank(found.group()), text)
    for pattern in (ATTRIBUTE, CLAUSE):
        text = without(text, pattern, lambda text, place: end_of(text, place - 1))
    return without(text, GHOST, end_of_ghost)


@dataclasses.dataclass
class Function:
    """A function: its name, its head up to the body, and the places where the body begins and ends."""

    name: str
    head: str
    first: int
    last: int


@dataclasses.dataclass
class Arm:
    """An arm of a match: what is matched, its pattern and the place of that, its guard, and where its body begins and ends."""

    matched: str
    pattern: str
    place: int
    guard: str
    first: int
    last: int


def at_depth_0(text, first, last, marks):
    """The first place of one of the marks that stands in no bracket, or none."""
    place = first
    while place < last:
        for mark in marks:
            if text.startswith(mark, place):
                return place
        place = after(text, place)
    return None


def after(text, place):
    """The place after what begins at a place: a bracket with what is in it, the types of a call, or one sign."""
    types = TYPES.match(text, place)
    if types:
        return types.end()
    return end_of(text, place) if text[place] in OPENING else place + 1


def functions(text):
    """The functions of a bare text that have a body."""
    for named in FUNCTION.finditer(text):
        place = at_depth_0(text, named.end(), len(text), ("{", ";"))
        if place is not None and text[place] == "{":
            yield Function(named.group(1), text[named.end():place], place, end_of(text, place))


def arms_of(text, matched, first, last):
    """The arms of the block of a match."""
    place = first
    while place < last:
        arrow = at_depth_0(text, place, last, ("=>",))
        if arrow is None:
            return
        whole = text[place:arrow]
        pattern, _, guard = re.sub(r"\s+", " ", whole).strip().partition(" if ")
        begin = arrow + 2
        while begin < last and text[begin].isspace():
            begin += 1
        if text[begin] == "{":
            end = end_of(text, begin)
        else:
            comma = at_depth_0(text, begin, last, (",",))
            end = last if comma is None else comma
        yield Arm(matched, pattern, place + len(whole) - len(whole.lstrip()), guard, begin, end)
        place = end
        while place < last and (text[place].isspace() or text[place] == ","):
            place += 1


def arms(text, first, last):
    """The arms of each match between two places."""
    for found in MATCH.finditer(text, first, last):
        block = at_depth_0(text, found.end(), last, ("{",))
        if block is not None:
            matched = " ".join(text[found.end():block].split())
            yield from arms_of(text, matched, block + 1, end_of(text, block) - 1)


def is_call(expression):
    """Whether an expression is one call, on whatever it is called, with nothing beside it."""
    outside, place = [], 0
    while place < len(expression):
        end = after(expression, place)
        if end == place + 1:
            outside.append(expression[place])
        elif expression[place] in OPENING:
            outside.append("()")
        place = end
    return re.fullmatch(r"[\w:.?()]*!?\(\)", "".join(outside)) is not None


CALLED = re.compile(r"(\bpub )?(?:final )?\bfn (\w+)")
OWNER = re.compile(r"^(?:pub(?:\(crate\))? )?(impl|trait)\b", re.MULTILINE)
ASKS = re.compile(r"\bAlloc\w*\b|\bGlobal\b|\bClone\b")
COLLECTS = re.compile(r"\bCollect<.*> for (\w+)")
DRIVER = "release/many_items"
# The files of the program that has no library, which it takes.
TAKES = f"{DRIVER}/takes"
# What no program has of its own.
SHARED = ("fallible_contract", "fallible_core", "fallible_iterator", "fallible_itertools", "program_io")
TESTS = ("test_", "fallible_scripts", "fallible_vectors")


def texts(top):
    """The files that are read, by their names."""
    found = [
        *top.glob("crates/*/src/**/*.rt"), *top.glob(f"{DRIVER}/src/*.rt.txt"),
        top / DRIVER / "stands_on", top / TAKES, top / "crates.txt",
    ]
    read = {str(path.relative_to(top)): path.read_text(encoding="utf-8") for path in sorted(found) if path.is_file()}
    return {name: text for name, text in read.items() if not name.startswith(tuple(f"crates/{test}" for test in TESTS))}


class Call:
    """A function that others call, with the head of its impl or trait."""

    def __init__(self, name, crate, file, line, owner, head):
        self.name, self.crate, self.file, self.line, self.owner, self.head = name, crate, file, line, owner, head
        self.of_trait = owner.startswith("trait")
        # the type of an impl of its own, or nothing
        self.type = ""
        if owner.startswith("impl"):
            self.type = re.match(r"impl(?:<.*?>(?= ))? ?(\w+)", owner + " ").group(1)

    def pattern(self, others):
        """How it is called: a `new` with its type, a name that several crates have with its crate."""
        if self.of_trait:
            return rf"(?:\.|::){self.name}(?:::<[^;]*?>)?\("
        if self.type:
            return rf"\b{self.type}(?:::<[^;]*?>)?::{self.name}\(|\.{self.name}\("
        crate = rf"\b{self.crate}::(?:\w+::)*" if self.name in others else r"(?<![\w.])"
        return rf"{crate}{self.name}(?:::<[^;]*?>)?\("


def owners(text):
    """Each impl and trait of a bare text: where its body begins and ends, and its head in one line."""
    for found in OWNER.finditer(text):
        begin = at_depth_0(text, found.end(), len(text), ("{",))
        head = " ".join(text[found.start():begin].split())
        yield begin, end_of(text, begin), re.sub(r"^pub(?:\(crate\))? ", "", head)


def calls_of(name, text):
    """The functions of a file that others may call and that ask for memory or clone."""
    around = list(owners(text))
    for named in CALLED.finditer(text):
        owner = next((head for first, last, head in around if first < named.start() < last), "")
        end = at_depth_0(text, named.end(), len(text), ("{", ";"))
        head = " ".join(text[named.end():end].split())
        # `Collect` is a collection's, and each of those has a row
        called = named.group(1) or owner.startswith("trait") and not owner.startswith("trait Collect")
        if called and " for " not in owner and not named.group(2).startswith("law_") and ASKS.search(head):
            yield Call(named.group(2), name.split("/")[1], name, text.count("\n", 0, named.start()) + 1, owner, head)


def is_library(name, read):
    """Whether a file is a library's."""
    crate = name.split("/")[1] if name.startswith("crates/") else ""
    return bool(crate) and not crate.startswith("example_") and f"crates/{crate}/src/main.rt" not in read


def without_row(read):
    """How many calls ask for memory, and a line for each that no row of the driver makes."""
    code = {name: bare(text) for name, text in read.items() if is_library(name, read)}
    called = "\n".join(re.sub(r"\bfn \w+", "", text) for text in code.values())
    driver = "\n".join(bare(text) for name, text in read.items() if name.startswith(f"{DRIVER}/src/"))
    calls = [call for name, text in code.items() for call in calls_of(name, text)]
    crates_of = {}
    for call in calls:
        if not call.owner:
            crates_of.setdefault(call.name, set()).add(call.crate)
    others = {name for name, crates in crates_of.items() if len(crates) > 1}
    missing = []
    for call in calls:
        pattern = re.compile(call.pattern(others))
        # What is no trait's may be called by what is.
        if not pattern.search(driver) and (call.of_trait or not pattern.search(called)):
            missing.append(f"{call.file}:{call.line}: {call.name} asks for memory, and {DRIVER} has no row of it")
    missing += [*collections(code, driver), *programs(read)]
    return len(calls), missing


def collections(code, driver):
    """A line for each collection of std that is collected into and that the driver doesn't name."""
    own = set(re.findall(r"\bstruct (\w+)", "\n".join(code.values())))
    for name, text in code.items():
        for _, _, head in owners(text):
            made = COLLECTS.search(head)
            if made and made.group(1) not in own and not re.search(rf"^(?!impl).*\b{made.group(1)}<", driver, re.MULTILINE):
                yield f"{name}: no row of {DRIVER} makes a {made.group(1)}"


def programs(read):
    """A line for each program that allocates, is not run over much input, and stands on no library of its own that the driver calls."""
    below = read[f"{DRIVER}/stands_on"].split()
    listed = dict(re.findall(r"^(\w+):(.*)$", read["crates.txt"], re.MULTILINE))
    for name, text in read.items():
        found = re.fullmatch(r"crates/(\w+)/src/main\.rt", name)
        if not found:
            continue
        crate = found.group(1)
        of_its_own = [library for library in listed[crate].split() if library not in SHARED]
        asks = any(ASKS.search(bare(other)) for file, other in read.items() if file.startswith(f"crates/{crate}/src/"))
        if asks and not set(of_its_own).intersection(below) and f" crates/{crate}/src/program.rt\n" not in read[TAKES]:
            yield f"{name}: {DRIVER} doesn't run it"
