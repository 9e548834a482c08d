"""The tables of docs/ADDING.md: the goals of the adapters that it names to copy, and the lemmas that their terms cite.

Left out are the goals that lemmas of the type's own close, those of a file that is named for it."""

import re

from made.code import LIBRARY, lines_of

SIBLINGS = {
    "terms of what passes": ["copied", "unique", "tuples", "inspect_err", "or_else"],
    "terms of stages": ["dedup", "dedup_by_key", "coalesce", "chunk_by", "intersperse_with", "take_while_inclusive", "intersperse"],
    "terms of consumers and searches": ["checked_sum", "fold_while", "try_find"],
}
CALLS = ("next", "drive", "on_item")
HEAD = "| Goal | Lemmas | In |\n|---|---|---|"
LEMMAS = re.compile(r"use Rattle\.(?!std\b)(\w+)\.(?:proofs\.Lemmas|specs\.Laws)\.(?:\w+\.)*(\w+)\.\{([^}]*)\}")
GOAL = re.compile(r"(?:abbrev )?pub ([\w-]+) : goal\.\1")


def goals(path):
    """Each goal of a file of terms, with the lemmas that its term cites and their files, in the order of their imports."""
    text = "\n".join(lines_of(path))
    lemmas = [(name.strip(), (crate, file)) for crate, file, names in LEMMAS.findall(text) for name in names.split(",")]
    parts = GOAL.split(text)[1:]
    for goal, term in zip(parts[::2], parts[1::2]):
        yield goal, [(name, file) for name, file in lemmas if re.search(rf"(?<![\w-]){name}(?![\w-])", term)]


def camel(name):
    """A name as types and files of antt have it."""
    return "".join(word.capitalize() for word in name.split("_"))


def struct(crates, name):
    """Where the type of a call is: its file, and the text from there on; or none."""
    for crate in LIBRARY:
        for path in sorted((crates / crate / "src").glob("*.rt")):
            found = re.search(rf"^pub struct {camel(name)}\b.*", path.read_text(encoding="utf-8"), re.MULTILINE | re.DOTALL)
            if found:
                return path, found.group()
    return None, ""


def family(crates, name):
    """The module of the type of a call, or the call's own name."""
    path, _ = struct(crates, name)
    return path.stem if path else name


def stage(crates, name):
    """The stage that the fold of an adapter takes, with which the folders of its terms begin."""
    found = re.search(r"\bdrive_stage\(\s*&mut self\.it,[^;]*?&(?!mut\b)(\w+)", struct(crates, name)[1])
    return found.group(1) if found else camel(name)


def own(place, family):
    """Whether a file is that of a family, or named for it."""
    crate, file = place
    return crate.startswith("fallible_itertools") and (camel(family).startswith(file) or file.startswith(camel(family)))


def files(crates, name):
    """The files of terms of an adapter or a consumer: of its calls and its method."""
    of = family(crates, name)
    places = [(f"`{call}`", f"{of}/{camel(name)}FallibleIterator/{call}") for call in CALLS[:2]]
    places += [(f"`{call}`", f"{of}/{stage(crates, name)}*/{call}") for call in CALLS[2:]]
    places += [("the method", f"traits/*/{name}")]
    for said, place in places:
        for proofs in (crates / crate / "proofs" for crate in LIBRARY):
            found = sorted(proofs.glob(f"{place}/Answers.antt"))
            yield from ((said, path) for path in found if "DoubleEnded" not in path.parts[-3])


def table(crates, names):
    """The lines of a table: those of one goal by the same lemmas together."""
    rows = {}
    for name in names:
        for call, path in files(crates, name):
            for goal, lemmas in goals(path):
                if not all(own(place, family(crates, name)) for _, place in lemmas):
                    rows.setdefault((f"`{goal}` of {call}", tuple(sorted(lemma for lemma, _ in lemmas))), []).append(name)
    return [HEAD, *(f"| {goal} | {listed(lemmas)} | {listed(dict.fromkeys(found))} |" for (goal, lemmas), found in rows.items())]


def listed(names):
    """Names as a cell has them."""
    return ", ".join(f"`{name}`" for name in names)


def tables(crates):
    """The lines of each table, by its name."""
    return {name: table(crates, siblings) for name, siblings in SIBLINGS.items()}
