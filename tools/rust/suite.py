"""The repository's callers and tests as Rust, erased, and without allocators and the runtime, and of them the crates' integration tests."""
import re
from collections import namedtuple
from functools import lru_cache
from pathlib import Path

import erase
import overrides
from source import Text, functions, label_of, read, tokens, use_names

FAIL = (Path(__file__).parent / "static/pieces/fail.rs").read_text(encoding="utf-8")
# A top-level item: what it is, its name or that of the type whose `impl` it is, its text and where its head begins.
Item = namedtuple("Item", "kind name text head")
ITEM = re.compile(r"^(?:#\[.*\]\n)*(?:pub(?:\([^)]*\))? )?(fn|struct|enum|trait|const|type|static|impl)\b", re.M)

HANDLE = r"(?:rt\.alloc\(\)|self\.alloc|alloc|&rt|rt)"
PLAIN = [
    # An allocation whose failure is handed on.
    (r"\bmatch (vec!\[in .*\]) \{\s*Ok\((\w+)\) => \2,\s*Err\((\w+)\) => return Err\(Fault::Memory\(\3\)\),\s*\}", r"\1?"),
    (r"^use std::(?:alloc|test|process)::.*;\n", ""),
    (r"^[ \t]*///.*\n[ \t]*pub alloc: Global,\n", ""),
    (r", alloc(?= \})", ""),
    (r"^([ \t]*)(?:alloc: Global|rt: &?HostRuntime|rt: &impl \w+),\n", ""),
    (r"\b(?:alloc: Global|rt: &?HostRuntime|rt: &impl \w+)(?:, )?", ""),
    (r"\b(assert|assert_eq|assert_ne|panic|println)!\(\s*&?rt;\s*", r"\1!("),
    (r"\bprove(\w*)!\(", r"assert\1!("),
    (r"\bformat!\(in [^;]*;\s*", "format!("),
    (r"\bvec!\[in [^;]*;\s*", "vec!["),
    (r"(?<=\()(?:\s*%s,\s+)+" % HANDLE, ""),
    (r",\s+%s(?=\s*,?\s*\))" % HANDLE, ""),
    (r",\s+%s(?=,\s)" % HANDLE, ""),
    (r"(?<=\()%s(?=\))" % HANDLE, ""),
    (r"\b(?:: | \+ )?From<AllocError>(?=[>,])", lambda m: ""),
    (r"^[ \t]*[\w:]+::Error: From<AllocError>,\n", ""),
    (r"fn fmt<W: fmt::Write>\(&self, f: &mut fmt::Formatter<W>\)", "fn fmt(&self, f: &mut fmt::Formatter<'_>)"),
    (r"\s*\.map_err\(\|_\| AllocError\)", ""),
    (r"^ *(?:Err\()?Fault::Memory\(\w+\)\)? => [^{\n]*,\n", ""),
    (r", Global>", ">"),
    (r"\bself\.write_fmt\((\w+)\)", r'write!(self, "{\1}")'),
    # Laws are called for their clauses alone.
    (r"^ *law_\w+(?:::<[^;]*>)?\([^;]*\);\n", ""),
    (r"\blaw_\w+, |,\s*law_\w+(?=[,}])|^use [\w:]+::law_\w+;\n|\{law_\w+\}", ""),
    (r"^use [\w:]+::\{law_\w+\};\n", ""),
    (r"^ *[\w:]+::Error,\n(?=\{)", ""),
    (r"^ *let (?:alloc|_) = (?:rt\.alloc\(\)|alloc);\n|^ *alloc(?:: [\w.()]+)?,\n", ""),
    # Two collections that are never refused.
    (r"-> Result<(\(Vec<u32>, (?:Option|Vec)<u8>\)), AllocError>", r"-> \1"),
    (r"\.try_collect\(\)", ".collect::<Result<Vec<_>, _>>()"),
    (r"\bif (\w+\.extend_from_slice\([^()]*\))\.is_err\(\)", r"if Ok::<(), AllocError>(\1).is_err()"),
    (r"\bmatch ((?:self\.)?\w+\.push\([^()]*\)) \{", r"match Ok::<(), AllocError>(\1) {"),
    # The hint of `unwrap` over four items.
    (r"(\.unwrap\(\);\n *assert_eq!\(it\.size_hint\(\), \(0, )None\)", r"\1Some(4))"),
]
# Calls that may be refused in Rattle: the name, its name in Rust.
NEVER_REFUSED = [
    ("Vec::from_array", "Vec::from"), ("Vec::from_slice", "Vec::from"), ("String::from_str", "String::from"), (".to_vec", ".to_vec"),
    (".clone", ".clone"), (".push", ".push"), ("Box::new", "Box::new"), ("format!", "format!"),
    ("vec!", "vec!"), (".cycle", ".cycle"), (".insert", ".insert"), (".to_string", ".to_string"),
    ("Vec::with_capacity", "Vec::with_capacity"), (".push_reserved", ".push"),
    ("BufReader::new", "BufReader::new"), ("BufReader::with_capacity", "BufReader::with_capacity"),
    (".push_back", ".push_back"), (".extend_from_slice", ".extend_from_slice"),
    (".collect_until_failure", ".collect_until_failure"), (".partition_failures", ".partition_failures"),
    ("kmerge_by", "kmerge_by"), ("kmerge", "kmerge"),
]


def closing(s, i):
    """Behind the bracket that closes the one at i."""
    depth = 0
    for t in tokens(s[i:]):
        depth += (t.text in ("(", "[")) - (t.text in (")", "]")) if t.kind == "sign" else 0
        if depth == 0:
            return i + t.end


def without_question(text, old, new):
    """A call that Rust never refuses: no `?` after it."""
    for m in reversed(list(re.finditer(r"%s(?:::<[^()]*>)?(?=[(\[])" % re.escape(old), text.s))):
        end = closing(text.s, m.end())
        if text.s[end:end + 1] == "?":
            text.replace(end, end + 1, "")
        text.replace(m.start(), m.start() + len(old), new)


def unwrapped(text, name):
    """`name(x)` is x."""
    for m in reversed(list(re.finditer(r"\b%s\(" % name, text.s))):
        end = closing(text.s, m.end() - 1)
        text.replace(end - 1, end, "")
        text.replace(m.start(), m.end(), "")


def clones(text):
    """A `clone` of one's own answers the value."""
    for f in reversed(functions(text.s)):
        kind = re.search(r"-> Result<(.*), AllocError> $", text.s[f.start:f.open]) if f.name == "clone" else None
        if kind:
            text.replace(f.end, f.end, ")().unwrap()\n    }")
            text.replace(f.start + kind.start(), f.open, "-> %s {\n        (|| %s" % (kind.group(1), kind.group()))


def as_rust(text):
    """Erases a file of callers or tests, and maps it to Rust."""
    erase.erase(text)
    for pattern, new in PLAIN:
        for m in reversed(list(re.finditer(pattern, text.s, re.M))):
            text.replace(m.start(), m.end(), new(m) if callable(new) else m.expand(new))
    for old, new in NEVER_REFUSED:
        without_question(text, old, new)
    clones(text)
    unwrapped(text, "Fault::Source")
    for m in reversed(list(re.finditer(r"\bFault<", text.s))):
        depth, end = 1, m.end()
        while depth:
            depth += (text.s[end] == "<") - (text.s[end] == ">")
            end += 1
        text.replace(end - 1, end, "")
        text.replace(m.start(), m.end(), "")
    overrides.of_tests(text)
    erase.numbers_of_file(text)


def items(text):
    """The items of a file as Rust. What is none, as imports, has no kind."""
    return list(parts(text.place, text.s))


@lru_cache(maxsize=None)
def parts(place, s):
    """The items of a file that is at `place`: both crates have some files, and each test of the script has nearly all."""
    return tuple(split(Text(place, s)))


def split(text):
    """Yields them."""
    as_rust(text)
    s = re.sub(r"^//!.*\n|^#!\[.*\]\n", "", text.s, flags=re.M)
    for block in re.split(r"\n\n(?=[^\s}])", s):
        head = ITEM.search(block)
        if not head:
            yield Item(None, None, block, 0)
        elif head.group(1) == "impl":
            at = head.start(1)
            ts = [t for t in tokens(block[at:block.index("{", at)]) if t.kind not in ("space", "comment")]
            yield Item("impl", re.findall(r"\w+", label_of(ts).split(" for ")[-1])[0], block, head.start())
        else:
            name = re.match(r"\w+ (?:mut )?(\w+)", block[head.start(1):]).group(1)
            yield Item(head.group(1), name, block, head.start())


# The crates of callers and tests that each Rust crate's tests are made of.
SUITES = {
    "fallible-iterator": [
        "test_support", "example_chains", "example_by_hand", "fallible_vectors",
        "test_adapters", "test_joining", "test_consumers",
        "test_examples", "program_io", "example_tasks", "fallible_table", "fallible_elf", "fallible_pg",
        "test_programs", "fallible_rows", "test_rows", "fallible_scripts",
    ],
    "fallible-itertools": [
        "test_support", "program_io", "fallible_rows", "example_itertools", "example_consumers", "test_itertools",
        "test_calls_itertools",
    ],
}
# What the proved tests of each Rust crate need.
FEATURES = {"fallible-iterator": "alloc", "fallible-itertools": "std"}
# Where they are. The files of those in `tests` end in .rt.txt.
FOLDERS = ("crates", "tests")
# Modules that are left out: a program's words and files come by Rattle's own runtime, tallies and values of test_rows stand on fallible_itertools, and fallible_json fails where memory is refused.
MODULES_LEFT_OUT = {"program_io/arguments.rs", "test_rows/tallies.rs", "test_rows/values.rs", "test_programs/json_texts.rs"}
# Items that are left out, with those that use them: a pattern of their text, and why.
LEFT_OUT = [
    (r"\bFault::Memory\b|\bAllocError\)|-> AllocError|\bexpect_refused\b", "memory is refused"),
    (r"Result<\w+, AllocError> = \w+\.clone\(", "a clone is refused"),
    (r"\bCollect<", "a `Collect` of one's own"),
    (r"\bReadingFault\b", "`collect` has a failure of its own"),
    (r"Result<Vec<u32>, AllocError>\s*\{[^;]*\.collect\(\)\s*\}", "std refuses memory"),
    (r"\.push\([^()]*\)\.is_err", "std refuses memory"),
    (r"\breferences_and_boxes_pass", "no fold goes through a reference or a box"),
    (r"=> input\.extend_from_slice", "std refuses memory"),
    (r"\bfn sum_and_product_are_one_fold", "`sum` and `product` are std's"),
    (r"\.chain\(span", "`chain` of what only becomes an iterator"),
]


def modules(top, crate, count):
    """The suite's files by path. `count` gets how many tests there are, and are left out for each reason."""
    files, crates = {}, [x for x in SUITES[crate] if any((top / f / x / "src").is_dir() for f in FOLDERS)]
    for source in crates:
        src = next(top / f / source / "src" for f in FOLDERS if (top / f / source / "src").is_dir())
        for path in sorted([*src.rglob("*.rt"), *src.rglob("*.rt.txt")]):
            rel = (path.parent / path.name.split(".")[0]).relative_to(src).with_suffix(".rs")
            rel = source + ".rs" if str(rel) == "lib.rs" else "%s/%s" % (source, rel)
            text = read(path, str(path.relative_to(top)))
            if rel in MODULES_LEFT_OUT:
                continue
            for left_out in MODULES_LEFT_OUT:
                if rel == left_out.split("/")[0] + ".rs":
                    text.cut_all(r"^(?:#\[cfg\(test\)\]\n)?(?:pub )?mod %s;\n" % Path(left_out).stem)
            files[rel] = list(items(text))
    traces = top / "crates/fallible_iterator/src/laws/traces.rt"
    files["laws.rs"] = list(items(read(traces, str(traces.relative_to(top)))))
    leave_out(files, count)
    out = {"tests/proved/" + path: module(path, blocks, count) for path, blocks in files.items()}
    out["tests/proved/main.rs"] = MAIN % FEATURES[crate] + "".join("mod %s;\n" % m for m in ["laws", *crates])
    return out


@lru_cache(maxsize=None)
def named(s):
    """The names that a text imports."""
    return tuple(use_names(s))


@lru_cache(maxsize=None)
def used_words(s):
    """A text without its comments, and the words that it has."""
    code = re.sub(r"//.*", "", s)
    return code, frozenset(re.findall(r"\w+", code))


def leave_out(files, count):
    """Leaves out what has no place in Rust, and what uses it, with its imports."""
    gone, more, stems = {}, True, {path: Path(path).stem for path in files}
    while more:
        more = False
        for path, items in files.items():
            imported = " ".join(named("\n\n".join(item.text for item in items)))
            for item in [x for x in items if x.kind]:
                code, words = used_words(item.text[item.head:])
                used = [of for (at, name), of in sorted(gone.items()) if name in words
                        and (at == path or "%s::%s" % (stems[at], name) in imported)]
                why = next((w for p, w in LEFT_OUT if re.search(p, code)), used[0] if used else None)
                if why:
                    more = True
                    items.remove(item)
                    if "#[test]" in code:
                        count[why] = count.get(why, 0) + 1
                    elif not re.match(r"impl(?:<\w+>)? From\b", code):
                        gone[path, item.name] = why
    for path, items in files.items():
        files[path] = [re.sub(r"^use [^;]*;", lambda m: fewer(m.group(), gone), x.text, flags=re.M) for x in items]


def fewer(use, gone):
    """An import without the names that are gone."""
    paths = " ".join(use_names(use))
    for at, name in gone:
        if "%s::%s" % (Path(at).stem, name) in paths:
            use = re.sub(r"\bN,\s*|,\s*N(?=\s*,?\s*\})|^use [\w:]+::N;|(?<=\{)N(?=\})".replace("N", name), "", use)
    return use


MAIN = """//! The tests of the proved libraries, erased in the same way.
#![cfg(feature = "%%s")]
#![allow(dead_code, unused, clippy::all)]

%s
""" % FAIL


def module(path, blocks, count):
    """One file as a module of the suite."""
    s = "\n\n".join(blocks)
    s = re.sub(r"\bcrate::", "crate::%s::" % re.split(r"[/.]", path)[0], s)
    s = re.sub(r"(?<![\w:])((?:fallible_(?!iter|contract|core)|test_|example_|program_)\w+)::", r"crate::\1::", s)
    s = re.sub(r"\bfallible_iterator::laws::", "crate::laws::", s)
    s = re.sub(r"(?<![\w:])fallible_(contract|core)::", r"fallible_iterator::fallible_\1::", s)
    s = re.sub(r"(?<=[{ ])Fault, |, Fault(?=[,}])", "", s)
    for f in reversed(functions(s)):
        if "#[test]" in s[max(f.start - 40, 0):f.start]:
            count["tests"] = count.get("tests", 0) + 1
            kind = s[f.start:f.open].partition("->")[2].strip()
            if kind:
                s = "%s{\n    fn tested() -> %s %s\n    let _ = tested();\n}%s" % (
                    s[:s.index("->", f.start)], kind, s[f.open:f.end], s[f.end:])
    return "use crate::Fail;\nuse fallible_iterator::memory::AllocError;\n" + s
