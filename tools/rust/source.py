"""Texts of Rattle and Rust: their tokens, their functions, and the source lines that they came from."""
import re
from collections import namedtuple
from functools import lru_cache


class Refused(Exception):
    """Why nothing is written: the file, the line and the rule."""


Token = namedtuple("Token", "kind text start end")
Function = namedtuple("Function", "name label docs start open end clauses block")

TOKEN = re.compile(r"""
    (?P<space>\s+)
  | (?P<comment>//[^\n]*|/\*.*?\*/)
  | (?P<string>b?"(?:\\.|[^"\\])*")
  | (?P<char>b?'(?:\\.[^']*|[^'\\\n])')
  | (?P<life>'\w+)
  | (?P<word>\w+)
  | (?P<sign>->|=>|::|.)
""", re.S | re.X)
CLAUSE = re.compile(r"(requires|ensures)\b\*?\s*\w*\s*\{")
GHOST = re.compile(r"ghost\s+\w")
GHOST_USE = re.compile(r"ghost\s+use\s[^;]*;")
GHOST_VALUE = re.compile(r"\s*=\s*\{")


class Text:
    """A file's text. Each character knows the line of the source that it came from."""

    def __init__(self, place, s):
        self.place, self.s = place, s
        self.lines = [k for k, line in enumerate(s.split("\n"), 1) for _ in range(len(line) + 1)][:-1]

    def at(self, i):
        """The source's file and line at the i-th character."""
        return "%s:%d" % (self.place, self.lines[min(i, len(self.lines) - 1)] if self.lines else 1)

    def replace(self, start, end, new):
        """Puts `new` in the place of what stands between the two."""
        line = self.lines[min(start, len(self.lines) - 1)] if self.lines else 1
        self.s = self.s[:start] + new + self.s[end:]
        self.lines[start:end] = [line] * len(new)

    def cut(self, spans):
        """Deletes the spans, and so adds and moves nothing."""
        for start, end in sorted(spans, reverse=True):
            self.replace(start, end, "")

    def cut_all(self, pattern, group=0, flags=re.M):
        """Deletes each match, or a group of it, and says how many there were."""
        spans = [m.span(group) for m in re.finditer(pattern, self.s, flags)]
        self.cut(spans)
        return len(spans)


class Unclosed(Exception):
    """A bracket that nothing closes, or that closes nothing: where."""


def read(path, place):
    """A source file's text. Refuses what is not UTF-8, and brackets that don't fit."""
    data = path.read_bytes()
    try:
        text = Text(place, data.decode("utf-8"))
    except UnicodeDecodeError as why:
        raise Refused("%s:%d: this is not UTF-8" % (place, data.count(b"\n", 0, why.start) + 1)) from None
    try:
        fitting(text.s)
    except Unclosed as where:
        raise Refused("%s: the bracket `%s` fits none" % (text.at(where.args[0]), text.s[where.args[0]])) from None
    return text


def fitting(s):
    """Goes through the brackets of a text."""
    opened = []
    for t in tokens(s):
        if t.kind == "sign" and t.text in "([{":
            opened.append(t)
        elif t.kind == "sign" and t.text in ")]}":
            if not opened or opened.pop().text + t.text not in ("()", "[]", "{}"):
                raise Unclosed(t.start)
    if opened:
        raise Unclosed(opened[-1].start)


def after_braces(s, i):
    """Behind the block that begins at the first `{` from i on. Clauses are antt: only braces count."""
    begin = s.find("{", i)
    i, depth = begin, 0
    while 0 <= i < len(s):
        depth += (s[i] == "{") - (s[i] == "}")
        i += 1
        if depth == 0:
            return i
    raise Unclosed(max(begin, 0))


def ghost_end(s, i):
    """Behind the ghost item that begins at i."""
    use = GHOST_USE.match(s, i)
    if use:
        return use.end()
    i = after_braces(s, i)
    value = GHOST_VALUE.match(s, i)
    if value:
        i = after_braces(s, i)
    return i + 1 if s[i:i + 1] in (";", ",") else i


@lru_cache(maxsize=None)
def tokens(s):
    """The tokens, where a clause and a ghost item are one each."""
    i, found, new = 0, [], tuple.__new__
    while i is not None:
        begun, i = i, None
        for m in TOKEN.finditer(s, begun):
            kind, text, start, end = m.lastgroup, m.group(), m.start(), m.end()
            if kind == "word" and text in ("requires", "ensures") and CLAUSE.match(s, start):
                kind, i = "clause", after_braces(s, start)
            elif text == "ghost" and GHOST.match(s, start):
                kind, i = "ghost", ghost_end(s, start)
            if i is not None:
                # What follows begins behind the item, wherever a token of it would end.
                found.append(Token(kind, s[start:i], start, i))
                break
            found.append(new(Token, (kind, text, start, end)))
    return found


def code(s):
    """The words and signs alone: no blanks, comments, clauses or ghosts."""
    return [t.text for t in tokens(s) if t.kind not in ("space", "comment", "clause", "ghost")]


def close(ts, k):
    """Behind the bracket that closes the one at ts[k]."""
    depth = 0
    while True:
        depth += (ts[k].text in ("{", "(", "[")) - (ts[k].text in ("}", ")", "]"))
        k += 1
        if depth == 0:
            return k


def head_end(ts, k):
    """Where the item's head that begins at ts[k] ends: at its `{` or `;`."""
    while ts[k].text not in ("{", ";"):
        k = close(ts, k) if ts[k].text in ("(", "[") else k + 1
    return k


def label_of(head):
    """`Trait for Type` of an `impl`, or the type's or the trait's name, without parameters."""
    words, depth = [], 0
    for t in head:
        if t.text == "where" and depth == 0:
            break
        depth -= t.text == ">"
        if depth == 0 and t.kind not in ("clause", "ghost") and t.text not in (">", "pub"):
            words.append(t.text)
        depth += t.text == "<"
    text = " ".join(w for w in words if w != "<")
    text = re.sub(r"\w+ :: |^(impl|trait) | : .*", "", text)
    return text.replace("& ", "&")


@lru_cache(maxsize=None)
def functions(s):
    """Each function of a file, with what it stands in, its docs and its clauses."""
    ts = [t for t in tokens(s) if t.kind not in ("space", "comment")]
    labels, blocks, k, found = [], [], 0, []
    while k < len(ts):
        word = ts[k].text
        if word in ("impl", "trait") and ts[k].kind == "word":
            end = head_end(ts, k)
            labels.append(label_of(ts[k:end]))
            blocks.append(k)
            k = end + 1
        elif word == "fn" and ts[k].kind == "word" and ts[k + 1].kind == "word":
            end = head_end(ts, k)
            clauses = [t.text for t in ts[k:end] if t.kind == "clause"]
            last = close(ts, end) if ts[end].text == "{" else end + 1
            begin = head_begin(ts, k)
            found.append(Function(
                ts[k + 1].text, next((x for x in reversed(labels) if x), ""),
                docs_before(s, begin), begin, ts[end].start if ts[end].text == "{" else None,
                ts[last - 1].end, clauses, blocks[-1] if blocks else None))
            k = last
        else:
            labels += [""] * (word == "{")
            blocks += [k] * (word == "{")
            if word == "}" and labels:
                labels.pop()
                blocks.pop()
            k += 1
    return found


def head_begin(ts, k):
    """Where the function whose `fn` is ts[k] begins, with its visibility."""
    while k and (ts[k - 1].text in ("pub", "final", "const") or ts[k - 1].text == ")"
                 and ts[k - 3].text == "(" and ts[k - 4].text == "pub"):
        k -= 4 if ts[k - 1].text == ")" else 1
    return ts[k].start


def docs_before(s, i):
    """The span of the `///` lines above what begins at i, over attributes between."""
    lines_end = s.rfind("\n", 0, i) + 1
    end = lines_end
    while True:
        start = s.rfind("\n", 0, max(end - 1, 0)) + 1
        if end and s[start:end].strip().startswith("#["):
            end = start
        else:
            break
    start = end
    while start:
        above = s.rfind("\n", 0, start - 1) + 1
        if not s[above:start].strip().startswith("///"):
            break
        start = above
    return (start, end)


def use_names(s):
    """Each path that a file's `use` lines name."""
    for m in re.finditer(r"^(?:pub )?use ([^;]*);", s, re.M):
        yield from tree(re.sub(r"\s+", " ", m.group(1)).strip())


def tree(path):
    """The paths of one `use` tree."""
    if not path.endswith("}"):
        return [path.removesuffix("::self")]
    head, rest = path[:-1].split("{", 1)
    parts, depth, part = [], 0, ""
    for c in rest + ",":
        depth += (c == "{") - (c == "}")
        if c == "," and depth == 0:
            parts.append(part.strip())
            part = ""
        else:
            part += c
    return [p for x in parts if x for p in tree(head.strip() + x)]
