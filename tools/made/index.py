"""docs/INDEX.md: each word that the library's files of `specs/` define, with its sentence. And the lists of docs/DEFINITIONS.md:
each type with its place in the index, where its definition stands, and the types with two ends.

The sentence over a type's trace can be read by itself, and is none of another's."""

import re

from made.code import LIBRARY, code_of_library, lines_of

WORD = re.compile(r"\s*(?:(?:abbrev|unfoldable) pub|pub (?:record|data)) (?!use\b)(\S+)")
IMPORT = re.compile(r"\s*(?:(?:abbrev|unfoldable) )?(?:pub )?(?:use|mod) ")
HEAD = """# Index

Each word that the library's specifications define, with the file of `specs/` where it stands and its sentence there. Words that share a sentence share a row. `tools/pages` writes this page, and the gate compares it.
"""


def words(path):
    """The words of a file of `specs/`, those that share a sentence together, with that sentence or none."""
    group, sentence, ended = [], [], False
    for line in lines_of(path):
        bare = line.strip()
        if bare.startswith("-- ") and not bare.startswith("-- ----"):
            if ended:
                if group:
                    yield group, " ".join(sentence)
                group, sentence, ended = [], [], False
            sentence.append(bare[3:])
            continue
        ended = True
        named = WORD.match(line)
        if named:
            group.append(named.group(1).rstrip(":"))
        elif bare.startswith("-- ----") or IMPORT.match(line):
            if group:
                yield group, " ".join(sentence)
            group, sentence = [], []
    if group:
        yield group, " ".join(sentence)


def files(crates):
    """Each file of words: its crate, its place in `specs/`, and its path. Those of `Laws` hold lemmas."""
    for crate in LIBRARY:
        top = crates / crate / "specs"
        for path in sorted(top.rglob("*.antt")):
            place = path.relative_to(top).with_suffix("")
            if place.parts[0] != "Laws":
                yield crate, "/".join(place.parts), path


def page(crates):
    """The text of the page."""
    lines, last = [HEAD], None
    for crate, place, path in files(crates):
        found = list(words(path))
        if found and crate != last:
            lines.append(f"## {crate}\n")
            last = crate
        if found:
            lines.append(f"### {place}\n")
            lines.append("| Word | Sentence |\n|---|---|")
            for group, sentence in found:
                said = sentence.replace("|", "\\|")
                lines.append(f"| {', '.join(f'`{word}`' for word in group)} | {said} |")
            lines.append("")
    return "\n".join(lines)


def without_sentences(crates):
    """A line for each group of words that has no sentence, or one that stops at a colon."""
    for crate, place, path in files(crates):
        for group, sentence in words(path):
            if not sentence or sentence.endswith(":"):
                yield f"crates/{crate}/specs/{place}.antt: no sentence says what {', '.join(group)} is"


NAMES = ("sources defined", "adapters defined", "joining adapters defined", "adapters of fallible_itertools defined")
STRUCT = re.compile(r"^pub struct (\w+)", re.MULTILINE)
FIELD = re.compile(r"^  -- (.*)\n  pub (\w+) :", re.MULTILINE)
RECORDS = {"fields of Contract": "Contract", "fields of Ends": "Ends"}
RECORD = re.compile(r"^ *pub record (\w+)\b[^\n]* where\n((?: +pub [^\n]*\n)+)", re.MULTILINE)
RAN = re.compile(r"pub (\w*ran) : Run [\w-]*steps\b")
DEFINED = re.compile(r"^ *([A-Z]\w*)\b[^=\n]* = ([^\n]*)", re.MULTILINE)
TWO_ENDS = re.compile(r"\bDoubleEndedFallibleIterator\s+for (&mut I|\w+)")

# Types that consumers make, and no caller sees.
INNER = ("Keyed", "Parted")
# How a sentence begins that can't be read by itself.
FRAGMENT = re.compile(r"(?:with|which|by|and) ")


def list_of(crate, place):
    """The name of the list that a type's file of `specs/` is in."""
    if crate == "fallible_iterator":
        return NAMES[0]
    if crate not in ("fallible_contract", "fallible_core"):
        return NAMES[3]
    return NAMES[2] if place.startswith("Joining/") else NAMES[1]


def trace_of(name, groups):
    """The sentence over a type's trace, without the type's name; none if its file has no trace."""
    said = [sentence for group, sentence in groups if group[0] == f"{name}Trace"]
    return said[0].removeprefix(f"`{name}`: ") if said else None


def fields(crates, record):
    """The lines of the fields of a record of `fallible_contract`, which stands in the file of its name."""
    path = crates / "fallible_contract" / "specs" / f"{record}.antt"
    text = path.read_text(encoding="utf-8") if path.is_file() else ""
    begun = text.partition(f"record {record} ")[2].partition("\n\n")[0]
    return ["| Field | It says of a value |\n|---|---|", *(f"| `{name}` | {said} |" for said, name in FIELD.findall(begun))]


def runs(crates):
    """The lines of the table of the records of draws, with the words that are such a record."""
    texts = [path.read_text(encoding="utf-8") for crate, _, path in files(crates)]
    records = {name: RAN.findall(fields) for text in texts for name, fields in RECORD.findall(text) if RAN.search(fields)}
    said = {name: [] for name in records}
    for word, body in (found for text in texts for found in DEFINED.findall(text)):
        for name in records:
            if re.search(rf"\b{name}\b", body) and word not in said[name]:
                said[name].append(word)
    rows = [
        f"| `{name}` | {', '.join(f'`{field}`' for field in fields)} | {', '.join(f'`{word}`' for word in said[name])} |"
        for name, fields in records.items()
    ]
    return ["| Record | Its draws | Words that are it |\n|---|---|---|", *sorted(rows)]


def two_ends(crates):
    """The types that have two ends."""
    texts = [path.read_text(encoding="utf-8") for path in code_of_library(crates)]
    found = sorted({name for text in texts for name in TWO_ENDS.findall(text)})
    return [", ".join(f"`{name}`" for name in found) + "." if found else ""]


def tables(crates):
    """The lines of each table and list, by its name."""
    types = {name for path in code_of_library(crates) for name in STRUCT.findall(path.read_text(encoding="utf-8"))}
    listed, traces = {name: [] for name in NAMES}, set()
    for crate, place, path in files(crates):
        name, groups = place.rsplit("/", 1)[-1], list(words(path))
        if name not in types or name in INNER or not any(group[0].endswith(("Trace", "_contract")) for group, _ in groups):
            continue
        trace = trace_of(name, groups)
        if trace and FRAGMENT.match(trace):
            raise ValueError(f"{name}: the sentence {trace!r} of its definition can't be read by itself")
        if trace and trace in traces:
            raise ValueError(f"{name}: its trace has the sentence of another's: {trace}")
        traces.add(trace)
        listed[list_of(crate, place)].append(f"[`{name}`](INDEX.md#{place.replace('/', '').lower()})")
    made = {name: [", ".join(links) + "." if links else ""] for name, links in listed.items()}
    made |= {name: fields(crates, record) for name, record in RECORDS.items()}
    return {**made, "types with two ends": two_ends(crates), "records of draws": runs(crates)}
