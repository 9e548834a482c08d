"""Beside the published crate: `fallible-itertools` stands on what `fallible-iterator` shows, and on nothing that is hidden there. So it
is one crate over the original and over this repository's.

- A draw by `draw` is one by `next`.
- The hidden fold of an adapter moves out of its `impl` of the trait, unchanged, into one of the type's own, as `by_turns`.
  That of any other iterator is in `base/drive.rs`, through its `try_fold`.
- What the adapters and consumers are made of comes along from the first crate, as the private module `base`: each item that
  one of them names, and what it is made of."""
import re
from collections import defaultdict
from pathlib import Path

from page import HIDDEN
from rules import apply
from source import Refused, Text, after_braces, code, functions, use_names

# The files of the first crate that may come along.
COMES_ALONG = re.compile(r"fallible_contract/\w+\.rs|fallible_core/(?:failing|passing)\.rs|batch\.rs|memory\.rs")
# The traits, which the crate below shows.
SHOWN = re.compile(r"fallible_core::traits(?:::double_ended)?::((?:DoubleEnded)?FallibleIterator)\b")
MEMORY = (Path(__file__).parent / "static" / "fallible-iterator/src/memory.rs").read_text(encoding="utf-8")
# What a module of `base` needs to be there, and those that are written by hand.
NEEDS = {name: '#[cfg(feature = "alloc")]\n' for name in ("batch", "gathering")}
BY_HAND = {"by_drive", "drive", "gathering", "memory"}


def blocks(s):
    """The items of a file, each with its comment: its name, none for the head and an `impl`, the words of the `impl`'s own
    head and its text."""
    for block in re.split(r"\n\n(?=\S)", s.rstrip("\n")):
        own = re.sub(r"^(?://.*|#\[.*\])\n", "", block, flags=re.M)
        item = re.match(r"(?:pub(?:\([^)]*\))? )?(?:struct|enum|trait|type|fn|const) (\w+)", own)
        head = re.match(r"impl\b[^{]*", own)
        yield item.group(1) if item else None, head.group() if head else None, block


def label(head):
    """The names of the trait and of the type of an `impl`."""
    ends = [x.split("<")[0].split("::")[-1].strip("& \n") for x in re.sub(r"^impl<.*?>\s(?=\w)", "", head, flags=re.S).split(" for ")]
    return {re.sub(r"^.*\b(\w+)$", r"\1", x, flags=re.S) for x in ends}


def closed(files, wanted):
    """The items of `files` that are wanted, with what they are made of, by path."""
    homes = {name: path for path, s in files.items() for name, _, _ in blocks(s) if name}
    kept, more = set(wanted), True
    while more:
        before = len(kept)
        for path, s in files.items():
            here = {x.split("::")[-1] for x in use_names(s)} | {n for n, p in homes.items() if p == path}
            for name, head, block in blocks(s):
                if stays(name, head, kept, homes):
                    kept |= {x for x in code(block) if x in homes and x in here}
        more = len(kept) > before
    return kept, homes


def stays(name, head, kept, homes):
    """Whether an item, or an `impl` of items, is one of those that are kept."""
    return name in kept or bool(head) and bool(label(head) & set(homes)) and label(head) & set(homes) <= kept


def kept_of(s, kept, homes, heads=None):
    """A file with the items that are kept alone, and the imports that these use. `heads` are the labels of its `impl`s, if
    not all are wanted."""
    found = list(blocks(s))
    stay = [block for name, head, block in found
            if stays(name, head, kept, homes) and not (head and heads is not None and label(head) not in heads)]
    words = {x for block in stay for x in code(block)}
    uses = sorted(p for p in use_names(s) if p.split("::")[-1] in words)
    return "\n\n".join([found[0][2].split("\n")[0], "\n".join("use %s;" % p for p in uses), *stay]) + "\n"


def paths(s):
    """A file's paths as they are within `base`."""
    s = SHOWN.sub(r"FALLIBLE::\1", s)
    return re.sub(r"\bcrate::(fallible_\w+|batch|memory)::", r"crate::base::\1::", s).replace("crate::FALLIBLE::", "fallible_iterator::")


def base(files, proved, why, first):
    """The module `base`: what the files name of the first crate, and what that is made of. `proved` and `why` get what stands
    of it in the first crate's."""
    carried = {path: paths(text.s) for path, (text, *_) in first.items()}
    homes = closed(carried, ())[1]
    outside = {name for text in files.values() for p in use_names(text.s)
               if p.startswith("fallible_iterator::") and (name := p.split("::")[-1]) in homes}
    kept, homes = closed(carried, outside | {"TryFoldTurn", "Turn"})
    out = {}
    for path, s in carried.items():
        if path != "memory.rs" and any(homes[name] == path for name in kept):
            text = Text(first[path][0].place, kept_of(s, kept, homes))
            out["base/" + path] = text
            there = {frozenset(label(head)) for _, head, _ in blocks(s) if head}
            proved["base/" + path] = kept_of(first[path][1], kept, homes, there)
            why.update((("base/" + path, name), body) for (_, name), body in first[path][2].items() if name in kept)
    for folder in ("fallible_contract", "fallible_core"):
        stems = sorted(p.split("/")[-1][:-3] for p in out if p.startswith("base/%s/" % folder))
        out["base/%s.rs" % folder] = Text("", "//! What comes along of `%s`.\n\n%s" % (
            folder, "".join("pub mod %s;\n" % stem for stem in stems)))
    shown = defaultdict(list)
    for name in sorted(outside):
        shown[homes[name][:-3].replace("/", "::")].append(name)
    lines = ["//! What the adapters and the consumers are made of, over what any `fallible-iterator` shows.\n"]
    stems = sorted(BY_HAND | {*(p.split("/")[1].removesuffix(".rs") for p in out)})
    lines += ["%spub mod %s;" % (NEEDS.get(stem, ""), stem) for stem in stems] + [""]
    lines += ["%spub use self::%s::{%s};" % (NEEDS.get(path, ""), path, ", ".join(names)) for path, names in sorted(shown.items())]
    out["base.rs"] = Text("", "\n".join(lines) + "\npub(crate) use self::by_drive::by_drive;\n")
    return out, outside


def fill(first, files, proved, why):
    """Keeps what may come along of the first crate: as it is there, as it is proved, and which bodies are others."""
    for path, text in files.items():
        if COMES_ALONG.fullmatch(path):
            first[path] = (Text(text.place, text.s), proved[path], {key: body for key, body in why.items() if key[0] == path})
    first["memory.rs"] = (Text("memory.rs", MEMORY), "", {})


NAMES = {"drive": "by_turns", "drive_back": "back_by_turns"}
# No name is like one of a call, which rustc would name in its place.
TRAITS = {"by_turns": "Drive", "back_by_turns": "DriveBack"}
IMPL = re.compile(r"^impl\b[^{;]*?\s((?:DoubleEnded)?FallibleIterator\s+for\s)[^{]*\{", re.M)
# What the second crate takes of the first: each version of the original has it.
PUBLIC = {"DoubleEndedFallibleIterator", "Enumerate", "FallibleIterator", "Fuse", "IntoFallibleIterator", "Peekable"}


def named(text):
    """Names the calls of hidden parts as they are beside the published crate."""
    for pattern, new in [(r"\.draw\(\)", ".next()"), *(
            (p % old, p.replace(r"\(", "(").replace(r"\.", ".").replace(r"\b", "") % new)
            for old, new in NAMES.items() for p in (r"\.%s\(", r"\bfn %s\b"))]:
        for m in reversed(list(re.finditer(pattern, text.s))):
            text.replace(m.start(), m.end(), new)


def moved(text, inline):
    """Moves each fold out of the `impl` of the trait into one of the type's own. `inline` is what stands above it there."""
    for m in reversed(list(IMPL.finditer(text.s))):
        end = after_braces(text.s, m.end() - 1)
        found = [f for f in functions(text.s) if m.end() <= f.start < end and f.name in NAMES.values()]
        if not found:
            continue
        own = text.s[m.start():m.start(1)] + text.s[m.end(1):m.end()]
        for f in reversed(found):
            begin = min(f.docs[0], text.s.rfind("\n", 0, f.start) + 1)
            own += "\n    %sfn %s\n" % (inline, text.s[f.start:f.end].partition("fn ")[2])
            if "Self::" in text.s[f.start:f.end]:
                raise Refused("%s: beside: a fold names what the trait has" % text.at(f.start))
            text.replace(begin, f.end + 1, "")
        text.replace(m.start(), m.start(), "// The fold by turns, by which `try_fold` goes.\n%s}\n\n" % own)


def hidden(text):
    """Cuts the hidden calls that an adapter writes besides its folds, and what goes by them: no crate below has them."""
    text.cut_all(r"\n\n    fallible_iterator::by_drive!\((?!drive\)|drive_back\))\w+\);")
    for m in reversed(list(IMPL.finditer(text.s))):
        end = after_braces(text.s, m.end() - 1)
        for f in reversed(functions(text.s)):
            if m.end() <= f.start < end and f.name.startswith("drive_"):
                text.replace(min(f.docs[0], text.s.rfind("\n", 0, f.start) + 1), f.end + 2, "")


def renamed(crate, path, s):
    """A proved file with the names, and the places of the folds, that it has in the second crate."""
    text = Text(path, s)
    if crate == "fallible-iterator":
        return s
    named(text)
    moved(text, "")
    return text.s


def imported(text, outside):
    """Imports what comes along from `base`, and the fold of any iterator where one is called."""
    heads = list(re.finditer(r"^((?:pub )?use fallible_iterator::)([^;]*);", text.s, re.M))
    for m in reversed(heads):
        found = sorted(use_names("use fallible_iterator::%s;" % re.sub(r"\s+", " ", m.group(2))))
        here = [p.split("::")[-1] for p in found if p.split("::")[-1] in outside]
        shown = [p.removeprefix("fallible_iterator::") for p in found if p.split("::")[-1] not in outside]
        if here:
            new = ["use crate::base::{%s};" % ", ".join(here)] + ["use fallible_iterator::{%s};" % ", ".join(shown)] * bool(shown)
            text.replace(m.start(), m.end(), "\n".join(new))
    for m in reversed(list(re.finditer(r"\bfallible_iterator::by_drive!", text.s))):
        text.replace(m.start(), m.end(), "crate::base::by_drive!")
    own = [f.name for f in functions(text.s) if f.name in TRAITS]
    for call, trait in TRAITS.items():
        callers = re.findall(r"(\w+|\))\.%s\(" % call, text.s)
        if callers and not (call in own and set(callers) == {"self"}):
            first = re.search(r"^(?:#\[cfg.*\]\n)?use ", text.s, re.M)
            text.replace(first.start(), first.start(), "use crate::base::drive::%s;\n" % trait)


def checked(text):
    """Refuses a file that names more of the crate below than each version of that shows."""
    for m in re.finditer(r"^(?:pub )?use (fallible_iterator::[^;]*);", text.s, re.M):
        for path in use_names(re.sub(r"\s+", " ", m.group())):
            if path.removeprefix("fallible_iterator::") not in PUBLIC:
                raise Refused("%s: beside: not each crate below shows `%s`" % (text.at(m.start()), path))
    for m in re.finditer(r"\.(%s)\(" % HIDDEN.pattern, text.s):
        raise Refused("%s: beside: `%s` is hidden below" % (text.at(m.start()), m.group(1)))


PIECES = Path(__file__).parent / "static/pieces"


def piece(name):
    """New code, as a rule puts it."""
    return (PIECES / (name + ".rs")).read_text(encoding="utf-8").replace("\\", "\\\\")


ADAPTERS, INLINE = "fallible_itertools_adapters", "#[inline(always)]\n    "
RULES = [
    # Folds that are inlined whole, so that one of an adapter that buffers is a single loop.
    (ADAPTERS + r"/staging\.rs", r"^(?:pub )?fn (?:drive_stage|tell_stop)\b", r"#[inline(always)]\n\g<0>", 2),
    # The body of `peeking_take_while` goes by `peek`.
    (ADAPTERS + r"/peeking_take_while\.rs", r"^// What the closure returns on the buffered item(?:.*\n)*?\}\n\n", "", 1),
    (ADAPTERS + r"/peeking_take_while\.rs", r"\Z", piece("peeked_end"), 1),
    # What hands on the two that it got, beside a number.
    (r"equal\.rs", r"^use fallible_iterator::extending::number_of_either;\n", "", 1),
    (r"equal\.rs", r"\bnumber_of_either(?=\(left, right\))", "", 1),
    (r"traits\.rs", r"^use crate::partition::", "use crate::base::drive::whole;\n\\g<0>", 1),
    # `collect` into a `Vec` is a fold of one's own.
    (r"traits\.rs", r"^#\[cfg\(feature = \"alloc\"\)\]\n(?=use core::fmt::Display;)",
     '#[cfg(feature = "alloc")]\nuse crate::base::gathering::gathered;\n\\g<0>', 1),
    # Nothing of the second crate is for a third.
    (r"lib\.rs", r"^#\[doc\(hidden\)\]\npub use [^;]*::staging;\n", "", 1),
    (r"lib\.rs", r"^#\[doc\(hidden\)\]\npub (mod traits;)", r"\1", 1),
    (r"lib\.rs", r"^mod errors;", r"mod base;\n\g<0>", 1),
]
# Of what comes along.
CARRIED = [
    # No pass of the second crate makes an end.
    (r"base/fallible_contract/passing\.rs", r"^    End,", "    #[allow(dead_code)]\n    End,", 1),
]


def to_rust(crate, files, proved, why, first):
    """Has the second crate stand on what the first shows. `first` has what may come along of that: for the first it is filled."""
    if crate == "fallible-iterator":
        fill(first, files, proved, why)
        apply("beside", files, [(r"fallible_core/peeking/peekable\.rs", r"\Z", piece("holds_ends"), 1)])
        return
    for text in files.values():
        named(text)
        moved(text, INLINE)
        hidden(text)
    apply("beside", files, RULES)
    for path, name in list(why):
        head, _, call = name.rpartition(".")
        if call in NAMES:
            why[path, head + "." + NAMES[call]] = why.pop((path, name))
    made, outside = base(files, proved, why, first)
    apply("beside", made, CARRIED)
    for text in made.values():
        named(text)
    for path, text in made.items():
        if path.startswith("base/fallible_core/"):
            imported(text, ())
    for text in files.values():
        imported(text, outside)
    files.update(made)
    for text in files.values():
        checked(text)
