"""Documentation: paragraphs by their kind, the clauses under *Contract*, and examples as doc tests: the lines of a test of
`release/examples`, below what they import."""
import re
from functools import lru_cache
from pathlib import Path

from source import Refused, Text, functions, read, tokens, use_names
from suite import as_rust

# The kinds of paragraphs, by how they begin, and how they do in Rust. Those with none are of Rattle alone, and go whole.
KINDS = {"Requires:": None, "Memory:": None, "Proof:": None, "Precondition:": "Precondition, which is not checked:"}
# What looks like a paragraph of a kind by how it begins.
LIKE = re.compile(r"\W*(?:requir\w*|memory|(?:in (?:a|the) )?proofs?|pre-?conditions?)\b", re.I)
# What is said in a paragraph of a kind that goes, and in no other one.
OF_A_KIND = re.compile(r"\brequires?\b|\bclauses?\b|\bproofs?\b|search finds|`Fault|\bAllocError\b|"
                       r"allocation fail|failed allocation|can't be allocated", re.I)
# Calls whose signature is another in Rust.
OTHER = {"collect", "partition", "unzip", "cycle", "chain", "counts", "counts_by", "fold_by_key", "sum", "product", "into_group_map", "into_group_map_by", "partition_map",
         "collect_until_failure", "partition_failures", "join", "sorted", "sorted_by", "sorted_by_key",
         "sorted_unstable", "sorted_unstable_by", "sorted_unstable_by_key",
         "unique", "unique_by", "duplicates", "all_unique", "kmerge", "kmerge_by", "into_option", "drive_recovering", "drive_back_recovering", "number_of_either"}


def paragraph(line, at):
    """A paragraph as it is in Rust, or none. `at` is where it stands."""
    kind = next((x for x in KINDS if line.startswith(x + " ")), None)
    if kind and not KINDS[kind]:
        return None
    if not kind and LIKE.match(line) or OF_A_KIND.search(line):
        raise Refused("%s: docs: %s: what this says stands in a paragraph that begins with %s"
                      % (at, line, ", ".join("`%s`" % x for x in KINDS)))
    return line.replace(kind, KINDS[kind], 1) if kind else line


class Docs:
    """The comments of the crates, and how many doc tests they have. `shown` are the files of examples; where memory may be refused,
    all but what is of proofs stays."""

    def __init__(self, shown, refusing=False):
        self.shown, self.refusing, self.tests = shown, refusing, 0

    def comment(self, name, lines, clauses, at):
        """A comment of an item, rewritten. `clauses` are those of a public function, and `at` says where a line of it stands."""
        blocks, k = [], 0
        while k < len(lines):
            if lines[k] == "```":
                end = lines.index("```", k + 1)
                blocks.append(["```", *doc_test(self.shown, lines[k + 1:end], at(k)), "```"])
                self.tests += 1
                k = end
            elif lines[k]:
                said = paragraph(lines[k], at(k)) if not self.refusing else "" if lines[k].startswith("Proof: ") else lines[k]
                blocks += [[said]] if said else []
            k += 1
        if clauses:
            proved = "As it is proved, " + "where its signature is another, " * (name in OTHER)
            blocks.append(["<details><summary>Contract</summary>", "", proved + "in [these words](crate::words):",
                           "", "```text"] + [x for c in clauses for x in clause(c)] + ["```", "</details>"])
        blocks = [b for b in blocks if b]
        return [x for k, b in enumerate(blocks) for x in ([""] * (k > 0) + b)]

    def rewrite(self, text, source):
        """A file with its comments rewritten, with the clauses of its source's functions."""
        s, proved = text.s, {}
        for f in functions(source):
            proved.setdefault((f.label, f.name), f.clauses)
        traits = set(re.findall(r"^pub trait (\w+)", s, re.M))
        documented = {f.docs[0]: f for f in functions(s) if f.docs[0] != f.docs[1]}
        for m in reversed(list(re.finditer(r"(?:^[ \t]*///.*\n)+", s, re.M))):
            f = documented.get(m.start())
            public = f and (f.label in traits or s.startswith("pub fn", f.start))
            rows = m.group().splitlines(True)
            lines = [x.strip()[3:].removeprefix(" ") for x in rows]
            # The hints have a `sum` too, whose signature is the proved one.
            new = self.comment(f.name if f and (f.label or f.name != "sum") else "", lines, proved.get((f.label, f.name), []) if public else [],
                               lambda k: text.at(m.start() + sum(map(len, rows[:k]))))
            indent = rows[0][:rows[0].index("/")]
            s = s[:m.start()] + "".join((indent + "/// " + x).rstrip() + "\n" for x in new) + s[m.end():]
        return s


def clause(text):
    """A clause's lines, indented by itself."""
    first, *rest = [x.strip() for x in text.split("\n")]
    return [first, *("    " + x for x in rest)]


SHOWN = "release/examples/src"
# Traits, which no line names: those whose calls are read from their source, and those whose calls stand here.
READ = {"DoubleEndedFallibleItertools", "FallibleIterator", "FallibleItertools", "PeekingNext"}
CALLS = {
    "IteratorExt": r"\binto_fallible\b|\btranspose_into_fallible\b",
    "IntoFallibleIterator": r"\binto_fallible_iter\b",
    "DoubleEndedFallibleIterator": r"\.(?:next_back|t?r?y?_?rfold|draw_(?:back|front))\b",
}


@lru_cache(maxsize=None)
def calls(trait):
    """A pattern of the calls that a trait has, but of std's on an item: that has a name of one letter, or is compared with a term."""
    found = {f.name for path in (Path(__file__).resolve().parents[2] / "crates").glob("fallible_*/src/**/*.rt")
             for f in functions(path.read_text(encoding="utf-8")) if f.label == trait}
    return r"(?<!\b\w)\.(?:%s)\b(?!\(&\()" % "|".join(sorted(found))


def dedented(lines):
    """The lines without the indentation that all of them share."""
    shared = min((len(x) - len(x.lstrip()) for x in lines if x.strip()), default=0)
    return [x[shared:].rstrip() for x in lines]


def example_files(top):
    """The files of examples."""
    return [read(path, "%s/%s" % (SHOWN, path.name)).s for path in sorted((top / SHOWN).glob("*.rt.txt"))]


def stand(lines, s):
    """Whether the lines stand in a file, one after another."""
    if not all(x in s for x in lines):
        return False
    have = s.split("\n")
    return any(dedented(have[i:i + len(lines)]) == lines for i in range(len(have) - len(lines) + 1))


def doc_test(shown, lines, at):
    """The lines of a doc test: the example as it is in Rust, and hidden what it imports. `at` is where the example stands."""
    lines = dedented(lines)
    s = next((s for s in shown if stand(lines, s)), None)
    if s is None:
        raise Refused("%s: examples: no file of %s has these lines" % (at, SHOWN))
    text = Text(at, "\n".join(lines) + "\n")
    as_rust(text)
    # No call of Rust asks its failures to tell of memory.
    want = re.sub(r"\bAllocError\b", "u8", text.s.strip("\n"))
    words = {t.text for t in tokens(want)}
    paths = sorted(p for p in use_names(s) if imported(p.split("::")[-1], words, want))
    hub = [p.split("::")[1] for p in paths if re.fullmatch(r"fallible_iterator::\w+", p)]
    before = ["use fallible_iterator::{%s};" % ", ".join(hub)] if hub else []
    before += ["use %s;" % p for p in paths if not re.fullmatch(r"fallible_iterator::\w+", p)]
    after = ["Ok::<(), u8>(())"] if "?" in want else []
    return ["# " + x for x in before] + dedented(want.split("\n")) + ["# " + x for x in after]


def imported(name, words, want):
    """Whether the lines need an import: they have its name, but not behind a path's, or of a trait one of its calls."""
    pattern = calls(name) if name in READ else CALLS.get(name)
    return name in words and re.search(r"(?<!::)\b%s\b" % name, want) or pattern and re.search(pattern, want)
