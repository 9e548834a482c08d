"""The page: what a Rust user has no use for is hidden, who drops an iterator unused is warned, and the words of the contracts are told."""
import re
import sys
from functools import lru_cache
from pathlib import Path

from source import Refused, functions

sys.path.insert(0, str(Path(__file__).resolve().parents[1]))
from made import index  # noqa: E402

# Calls that types of the library and proofs use.
HIDDEN = re.compile(r"drive\w*|draw\w*|fill|held(?:_mut)?|look")
ITERATES = re.compile(r"^impl\b[^{;]*?\b(?:Fallible|core::iter::)Iterator\s+for (\w+)", re.M)
MUST_USE = '#[must_use = "an iterator draws nothing until it is asked"]\n'


def hide(text):
    """Hides calls in traits and in what types have of their own. In an `impl` of a trait they are hidden by it."""
    for f in reversed(functions(text.s)):
        if HIDDEN.fullmatch(f.name) and f.label and " for " not in f.label:
            start = text.s.rfind("\n", 0, f.start) + 1
            text.replace(start, start, "    #[doc(hidden)]\n")


def licences(top, is_port):
    """The texts of the two licences. The repository's tells last of what the library is a port, which one crate alone is."""
    mit = (top / "LICENSE").read_text(encoding="utf-8")
    return {"LICENSE-MIT": mit if is_port else mit.split("\nThis is a port")[0],
            "LICENSE-APACHE": (Path(__file__).parent / "static/LICENSE-APACHE").read_text(encoding="utf-8")}


def needs(files):
    """Has the comment of each call that a feature alone has say so, below its first sentence. `files` are texts as they are written."""
    handed = [(m.group(1), name) for m in re.finditer(r'^#\[cfg\(feature = "(\w+)"\)\]\s*pub use ([^;]*);', files["lib.rs"], re.M)
              for name in re.findall(r"\b[a-z]\w*\b(?!::)", m.group(2))]
    rules = [(r"((?:^    ///.*\n)+)(?=    #\[cfg\(feature = \"(\w+)\"\)\]\n    fn \w+)", None)]
    rules += [(r"((?:^///.*\n)+)(?=pub fn %s\b)" % name, feature) for feature, name in handed]
    for path, s in files.items():
        for pattern, feature in rules:
            s = re.sub(pattern, lambda m: told(m.group(1), feature or m.group(2)), s, flags=re.M)
        files[path] = s


def told(comment, feature):
    """A comment with the feature that its call needs."""
    indent = comment[:comment.index("/")]
    first, blank, rest = comment.partition("%s///\n" % indent)
    return "%s%s///\n%s/// Feature: `%s`.\n%s%s" % (first, indent, indent, feature, blank, rest)


CONTRACT = re.compile(r"^ *//+ ```text\n((?: *//.*\n)*?) *//+ ```$", re.M)
WORDS = """What the contracts say. A contract stands in a comment, folded, as it is proved of the source, which is written in Rattle: `requires` is what a caller has to show there, `ensures` what it then knows. Nothing checks either here.

`docs/READING.md` of the repository reads some of them aloud.

# Terms
%s
# Signs
%s
# Words

Those that the contracts of this crate name, each with the sentence of its definition. `docs/INDEX.md` of the repository has all.

| Word | Sentence |
|---|---|
%s"""


@lru_cache(maxsize=None)
def sentences(top, crate):
    """The words that a proved crate defines, those of one sentence together, with that."""
    folder = top / "crates" / crate / "specs"
    return [(group, said) for path in sorted(folder.rglob("*.antt")) if path.relative_to(folder).with_suffix("").parts[0] != "Laws"
            for group, said in index.words(path)]


def words(top, files, crates):
    """The module that tells of the words of the contracts in `files`. `crates` define them; the first that has a word counts."""
    named = {word for s in files.values() for said in CONTRACT.findall(s) for word in re.findall(r"[\w'-]+", said)}
    rows, told = [], set()
    for crate in crates:
        here = [([x for x in group if x in named - told], said) for group, said in sentences(top, crate)]
        told |= {x for group, _ in here for x in group}
        rows += [(group, said) for group, said in here if group]
    reading = (top / "docs/READING.md").read_text(encoding="utf-8")
    parts = [re.search(r"\n## %s\n(\n(?:\|.*\n)+)" % name, reading) for name in ("The words", "The signs")]
    if None in parts:
        raise Refused("docs/READING.md:1: words: no table below `The words`, or `The signs`")
    lines = ["| %s | %s |" % (", ".join("`%s`" % x for x in group), said.replace("|", "\\|")) for group, said in sorted(rows, key=lambda x: x[0][0].lower())]
    return "".join(("//! " + x).rstrip() + "\n" for x in (WORDS % (*(x[1] for x in parts), "\n".join(lines))).split("\n"))


def without(files, written, proved, modules):
    """Leaves out modules of the first crate."""
    for name in modules:
        for kept in (files, written, proved):
            del kept[name + ".rs"]
    for name in modules:
        written["lib.rs"], n = re.subn(r"^(?:#\[.*\]\n)*pub mod %s;\n" % name, "", written["lib.rs"], flags=re.M)
        if n != 1 or any(re.search(r"\bcrate::%s::" % name, s) for s in written.values()):
            raise Refused("lib.rs:1: page: the module `%s` is used" % name)


def leads(out, repository, own_name):
    """Has each manifest, README and module of words lead to the repository."""
    there = re.compile(r"(?<!\[)`((?:docs|rust|release|crates)/[\w./-]*)`(?= of the repository)")
    for path, s in out.items():
        crate, _, rest = path.partition("/")
        name = own_name if crate == "fallible-iterator" else "fallible-programs" if crate == "programs" else crate
        if rest == "Cargo.toml":
            s = re.sub(r"^(description = .*\n)", r'\1repository = "%s"\ndocumentation = "https://docs.rs/%s"\n' % (repository, name), s, count=1, flags=re.M)
        if rest in ("README.md", "src/words.rs"):
            s = there.sub(r"[`\1`](%s/blob/HEAD/\1)" % repository, s)
        if rest == "README.md":
            s += "\nHere are the [repository](%s) and the [documentation](https://docs.rs/%s).\n" % (repository, name)
        out[path] = s


def to_rust(files):
    """The attributes of a crate's items. It returns the names of the iterators."""
    iterators = {m.group(1) for text in files.values() for m in ITERATES.finditer(text.s)}
    for text in files.values():
        hide(text)
        for m in reversed(list(re.finditer(r"^pub struct (\w+)", text.s, re.M))):
            if m.group(1) in iterators:
                text.replace(m.start(), m.start(), MUST_USE)
    return iterators & {m.group(1) for text in files.values() for m in re.finditer(r"^pub struct (\w+)", text.s, re.M)}
