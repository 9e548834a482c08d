"""Erasing: what only the prover reads is cut out. Nothing is added or moved.

So are counters: a `Number` is what a loop counts down by in its proof. It has no bytes, so what makes one, keeps it, hands it on or
counts it down does nothing, and is cut. In an arm that only counts down `{}` stays."""
import re
from collections import Counter

import overrides
from rules import apply, drop_files
from source import Refused, Text, after_braces, code, functions, tokens

COUNTS = Counter()
OWN_COMMENT = re.compile(r"\s*(//(?![/!])|#\[tactic)")
TAKEN_APART = re.compile(r"\s*let [\w:]+ \{[^}]*\} = self;\s*")


def whole_lines(s, start, end, comments):
    """The span of an item with its indentation, its line's end and, if told so, its own comments."""
    begin = s.rfind("\n", 0, start) + 1
    if s[begin:start].strip() not in ("", "pub"):
        return (len(s[:start].rstrip()), end)
    while begin and comments:
        above = s.rfind("\n", 0, begin - 1) + 1
        if not OWN_COMMENT.match(s[above:begin]):
            break
        begin = above
    return (begin, end + 1 if s[end:end + 1] == "\n" else end)


def check(text, ts):
    """Clauses stand before a body or a `;`, and ghost items between items or fields: never within code."""
    ts = [t for t in ts if t.kind not in ("space", "comment")]
    for before, t, after in zip([None, *ts], ts, [*ts[1:], None]):
        if t.kind == "clause" and not (after and (after.kind == "clause" or after.text in ("{", ";"))):
            raise Refused("%s: erase: a clause before no body" % text.at(t.start))
        if t.kind == "ghost" and before and before.kind != "ghost":
            if before.text not in ("{", "}", ";", ",", "pub", "]"):
                raise Refused("%s: erase: a ghost item within code" % text.at(t.start))


def ghosts(text):
    """Ghost items, fields and imports, clauses, and `final`."""
    spans, s = [], text.s
    ts = tokens(s)
    check(text, ts)
    for t in ts:
        if t.kind == "ghost":
            imports = t.text[5:].lstrip().startswith("use ")
            COUNTS["ghost imports" if imports else "ghost members and fields"] += 1
            spans.append(whole_lines(s, t.start, t.end, not imports))
        elif t.kind == "clause":
            COUNTS["clauses"] += 1
            spans.append((len(s[:t.start].rstrip()), t.end))
        elif t.text == "final" and t.kind == "word" and s.startswith(" fn ", t.end):
            COUNTS["`final`"] += 1
            spans.append((t.start, t.end + 1))
    text.cut(spans)


def blocks(text):
    """`impl Model`, which holds ghosts alone, and a `drop` that only takes the value apart."""
    spans = []
    for m in re.finditer(r"^impl(<[^{]*>)? (Model|Drop) for [^{]*\{", text.s, re.M):
        end = after_braces(text.s, m.start())
        if m.group(2) == "Drop":
            body = text.s[text.s.index("fn drop(self)", m.start()):end]
            inner = body[body.index("{") + 1:body.rindex("}", 0, body.rindex("}"))]
            if not TAKEN_APART.fullmatch(inner):
                raise Refused("%s: erase: a `drop` that does something" % text.at(m.start()))
        COUNTS["`impl Model` and `impl Drop`"] += 1
        spans.append((m.start(), end + 1))
    text.cut(spans)


def drops(text):
    """`Drop` as a bound or a derive says that a value may be let go, as any may in Rust."""
    lines = []
    for block in re.finditer(r"^[ \t]*where\n(?:[ \t]+[^{;\n]*\n)*", text.s, re.M):
        lines += [m.span() for m in re.finditer(r"^[ \t]*[\w:]+: Drop,\n", text.s[:block.end()], re.M)
                  if m.start() >= block.start()]
    text.cut(lines)
    n = len(lines)
    n += text.cut_all(r"\s*\+ Drop\b")
    n += text.cut_all(r"(?<=: )Drop \+ ")
    n += text.cut_all(r": Drop\b(?!,? \})")
    n += text.cut_all(r"^[ \t]*#\[derive\(Drop\)\]\n")
    n += text.cut_all(r"#\[derive\([^)]*?(, Drop)\b", 1)
    COUNTS["`Drop` bounds and derives"] += n


def layout(text):
    """Blanks that are left over, and a `where` with no predicate."""
    text.cut_all(r"[ \t]+$")
    text.cut_all(r"\s+where(?=\s*[;{])")
    text.cut_all(r"\s+(?=;)")
    text.cut_all(r"\bfn \w+(?:(?!\bwhere\b)[^;{}])*?[^\s;{}](\n[ ]*)(?= \{)", 1)
    text.cut_all(r"\| -> [^;{}]*?[^\s;{}](\n\s*)(?= \{)", 1)
    text.cut_all(r"(?<=\n\n)\n+")
    text.cut_all(r"(?<=\{\n)\n+")
    text.cut_all(r"\n(?=\n[ \t]*\}$)")
    text.cut_all(r"\A\n+")


def erase(text):
    """Cuts out all that only the prover reads."""
    ghosts(text)
    COUNTS["tactic attributes"] += text.cut_all(r"[ \t]*#!?\[(?:tactic|cycle)\([^\]]*\)\]\n?")
    blocks(text)
    drops(text)
    COUNTS["law modules"] += text.cut_all(r"^pub mod laws;\n")
    layout(text)


NUMBER = "fallible_core/number.rs"
OF_NUMBERS = [
    (r"fallible_core/(?:comparing|failing|traits)\.rs", r"^use crate::number::Number;\n", "", 3),
    (r"fallible_core\.rs", r"^pub mod number;\n", "", 1),
    (r"lib\.rs", r"^pub use fallible_core::number::Number;\n", "", 1),
]
LESS = r"\b(\w+)\s*=\s*\1\s*\.\s*one_less\s*\(\s*\)"
MADE = r"\blet\s+(?:mut\s+)?(\w+)\s*=\s*(?:\w+|\(\s*\*\s*\w+\s*\))\s*\.\s*number\s*\(\s*\)\s*;\s*"
TYPED = r"\b(\w+)\s*:\s*Number\s*,\s*"
TYPED_LAST = r",\s*(\w+)\s*:\s*Number(?=\s*\))"
# A field of a type, with the comment above it, and its counting down.
FIELD = r"(?:\n *//[^\n]*)*\n *(?:pub(?:\(crate\))? )?\w+: Number,(?=\n)"
IMPORTED = r"^use fallible_iterator::\{[^}\n]*(, Number)(?=[,}])[^}\n]*\};"
OWN_LESS = r"\bself\s*\.\s*(\w+)\s*=\s*self\s*\.\s*\1\s*\.\s*one_less\s*\(\s*\)\s*;\s*"
# What is cut of each name, in turn.
CUT = [
    (TYPED, ""),
    (TYPED_LAST, ""),
    (r",\s*Number(?=\s*[,)])", ""),
    (MADE, ""),
    (r"\blet\s+(?:mut\s+)?(NAMES)\s*=\s*(?:NAMES)\s*;\s*", ""),
    (OWN_LESS, ""),
    (r"(?<==>)\s*" + LESS + r"(?=\s*,)", " {}"),
    (LESS + r"\s*;\s*", ""),
    (r",\s*(?:mut\s+)?(?:NAMES)(?=\s*[,)])", ""),
    (r",\s*(?:NAMES)(?=\s*\})", ""),
]


def cut_numbers(text, start, end):
    """Cuts the numbers out of a function, which stands between the two."""
    names = {m.group(1) for pattern in (LESS, OWN_LESS, MADE, TYPED, TYPED_LAST) for m in re.finditer(pattern, text.s[start:end])}
    for pattern, new in CUT if names else []:
        for m in reversed(list(re.compile(pattern.replace("NAMES", "|".join(sorted(names)))).finditer(text.s, start, end))):
            text.replace(m.start(), m.end(), new)
            end += len(new) - (m.end() - m.start())
    left = code(text.s[start:end])
    for before, word in zip(left, left[1:]):
        if word in names or (before, word) == (".", "one_less"):
            raise Refused("%s: counters: `%s` is used for more than to count down" % (text.at(start), word))


def without_numbers(place, head, body):
    """A function's body, as words and signs, without numbers."""
    text = Text(place, " ".join([*code(head), "§", *code(body)]))
    cut_numbers(text, 0, len(text.s))
    return code(text.s[text.s.index("§") + 1:])


def numbers_of_file(text):
    """Cuts the numbers out of a file."""
    text.cut_all(FIELD)
    text.cut_all(IMPORTED, 1)
    for f in reversed(functions(text.s)):
        if f.open is not None:
            cut_numbers(text, f.start, f.end)


def numbers(crate, files):
    """Cuts the numbers out of a crate, with their type."""
    if crate == "fallible-iterator":
        drop_files("counters", files, [NUMBER])
        overrides.cut(files["fallible_core/traits.rs"], "number")
        apply("counters", files, OF_NUMBERS)
    for text in files.values():
        numbers_of_file(text)
