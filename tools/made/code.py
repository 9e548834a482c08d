"""Where the library is, and the functions of a `.rt` file: comments, clauses, bodies, and the impl that they stand in."""

import dataclasses
import functools
import pathlib
import re

TOP = pathlib.Path(__file__).resolve().parent.parent.parent
CRATES = TOP / "crates"
LIBRARY = (
    "fallible_contract", "fallible_core", "fallible_iterator",
    "fallible_itertools_adapters", "fallible_itertools_joins", "fallible_itertools",
)
FUNCTION = re.compile(r"(\bpub )?(?:final )?\bfn (\w+)")
CLAUSE = re.compile(r"\b(ensures|requires)(?: (\w+))?\s*\{")
OWNER = re.compile(r"^(?:pub )?(impl|trait)\b", re.MULTILINE)
TYPE = re.compile(r"FallibleIterator for (&mut I|\w+)")
RENAMED = re.compile(r"^ghost use [\w.]+ as (\w+);", re.MULTILINE)
BRACKETS = {opening: re.compile(rf"[\{opening}\{closing}]") for opening, closing in ("()", "[]", "{}")}


@dataclasses.dataclass
class Function:
    """A function with the header of the impl or trait around it, which is empty where it stands by itself."""

    name: str
    public: bool
    owner: str
    parameters: str
    returned: str
    clauses: list
    body: str
    comment: str
    renamed: tuple
    head: str

    @property
    def in_trait(self):
        """Whether it is a trait's own."""
        return self.owner.startswith(("trait", "pub trait"))

    @property
    def is_helper(self):
        """Whether it stands by itself or in a type's own impl, and so is no call of a trait."""
        return not self.owner or self.owner.startswith("impl") and " for " not in self.owner

    @property
    def implementer(self):
        """The type whose impl of a trait of iterators it stands in, or none."""
        found = TYPE.search(self.owner) if self.owner.startswith("impl") else None
        return found.group(1) if found else None


def lines_of(path):
    """The lines of a file."""
    return path.read_text(encoding="utf-8").splitlines()


def without_comments(text):
    """The text with blanks for its comments, so that each place stays as it was."""
    return re.sub(r"//[^\n]*", lambda found: " " * len(found.group()), text)


def end_of(text, at):
    """The place after the bracket that closes the one at a place."""
    depth, opening = 0, text[at]
    for found in BRACKETS[opening].finditer(text, at):
        depth += 1 if found.group() == opening else -1
        if depth == 0:
            return found.end()
    raise ValueError(f"nothing closes the {opening} at {at}")


def joined(text):
    """The text in one line."""
    return " ".join(text.split())


def clause_at(text, place):
    """The clause that begins at a place, or none."""
    return CLAUSE.match(text, place) if place and text[place - 1].isspace() else None


def owners(text):
    """Each impl and trait: where its body begins and ends, and its header."""
    for found in OWNER.finditer(text):
        begin = found.end()
        while text[begin] != "{":
            clause = clause_at(text, begin)
            begin = end_of(text, clause.end() - 1) if clause else begin + 1
        yield begin, end_of(text, begin), joined(text[found.start():begin])


def comment_above(lines, number):
    """The first paragraph of the comment above a line, with attributes between."""
    at = number - 1
    while at >= 0 and lines[at].strip()[:1] in tuple("#)]fr"):
        at -= 1
    comment = []
    while at >= 0 and lines[at].strip().startswith("//"):
        comment.insert(0, lines[at].strip().lstrip("/").strip())
        at -= 1
    return " ".join(comment[:comment.index("")] if "" in comment else comment)


def head(text, at):
    """The parameters of a function whose name ends at a place, what it returns, its clauses, and where its head ends."""
    clauses, parameters, returned, place, angle = [], "", "", at, 0
    while text[place] not in "{;":
        clause = clause_at(text, place)
        if clause:
            end = end_of(text, clause.end() - 1)
            clauses.append((clause.group(1), clause.group(2), joined(text[clause.end():end - 1])))
            place = end
        elif text.startswith("->", place):
            place += 2
            if parameters and not returned:
                returned = joined(re.split(r"\bwhere\b|\bensures\b|\brequires\b|[{;]", text[place:place + 400])[0])
        elif text[place] == "(":
            end = end_of(text, place)
            parameters = parameters or (joined(text[place:end]) if angle == 0 else "")
            place = end
        else:
            angle += {"<": 1, ">": -1}.get(text[place], 0)
            place += 1
    return parameters, returned, clauses, place


def without_clauses(text):
    """The text of a head without its clauses, in one line."""
    kept, place = [], 0
    while clause := CLAUSE.search(text, place):
        kept.append(text[place:clause.start()])
        place = end_of(text, clause.end() - 1)
    return joined(" ".join([*kept, text[place:]]))


def functions(path):
    """The functions of a file."""
    return functions_of(path.read_text(encoding="utf-8"))


@functools.lru_cache(maxsize=None)
def functions_of(whole):
    """The functions of a file's text."""
    text, lines = without_comments(whole), whole.splitlines()
    around, renamed, found = list(owners(text)), tuple(RENAMED.findall(text)), []
    for named in FUNCTION.finditer(text):
        parameters, returned, clauses, begin = head(text, named.end())
        body = joined(text[begin:end_of(text, begin)]) if text[begin] == "{" else ""
        owner = next((header for first, last, header in around if first < named.start() < last), "")
        comment = comment_above(lines, text.count("\n", 0, named.start()))
        public = bool(named.group(1)) or owner.startswith(("trait", "pub trait"))
        bare = without_clauses(text[named.end():begin])
        found.append(Function(named.group(2), public, owner, parameters, returned, clauses, body, comment, renamed, bare))
    return found


def split_at(text, mark, opening="([{⟦", closing=")]}⟧"):
    """The parts of a text between the marks that stand in no bracket."""
    parts, depth, begin, at = [], 0, 0, 0
    while at < len(text):
        depth += (text[at] in opening) - (text[at] in closing)
        if depth == 0 and text.startswith(mark, at):
            parts.append(text[begin:at].strip())
            begin = at = at + len(mark)
        else:
            at += 1
    return [*parts, text[begin:].strip()]


def arguments(parameters):
    """The names of a function's parameters, without `self`."""
    parts = split_at(parameters[1:-1].replace("->", ""), ",", "([{<", ")]}>")
    names = [part.split(":")[0].strip().removeprefix("mut ") for part in parts]
    return [name for name in names if name and not name.endswith("self")]


def code_of_library(crates):
    """The files of code of the library."""
    return [path for crate in LIBRARY for path in sorted((crates / crate / "src").rglob("*.rt"))]
