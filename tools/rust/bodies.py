"""Bodies that are not the proved ones. Each is a file by its item's name, in the folder of its source file, and is put in the
place of the proved one. Its head says how it differs and why, and of which proved text it stands in the place:

    // changed: it goes by std's sort
    // proved: 113c42c6

A new method of an `impl` names it instead: `// in: FallibleIterator for Chain`. What a body has of another proved one it names
too: `// of: drive_to 113c42c6`."""
import hashlib
import re
from collections import namedtuple
from pathlib import Path

from source import Refused, code, functions

FOLDER = Path(__file__).parent / "static/bodies"
Body = namedtuple("Body", "place path name how why of other text")
HEAD = re.compile(r"// (changed|new): (.+)\n(?:// (proved|in): (.+)\n)?(?:// of: (\w+) (\w+)\n)?")


def every(crate):
    """The bodies of a crate."""
    folder = FOLDER / crate
    for file in sorted(folder.rglob("*.rs")):
        place, s = str(file.relative_to(FOLDER.parents[3])), file.read_text(encoding="utf-8")
        head = HEAD.match(s)
        if not head or (head[1] == "changed") != (head[3] == "proved"):
            raise Refused("%s:1: bodies: a head is `// changed: WHY` and `// proved: DIGEST`, or `// new: WHY`" % place)
        yield Body(place, "%s.rs" % file.parent.relative_to(folder), file.stem, head[1], head[2], head[4], head.group(5, 6), s[head.end():])


def digest(text):
    """What tells a function's proved text from another: of its words and signs."""
    return hashlib.sha256("\0".join(code(text)).encode()).hexdigest()[:8]


def short(f):
    """A function's name with that of its type or trait, as the table has it, and as a file may."""
    return re.sub(r"[^\w.]", "", "%s.%s" % (f.label.split(" for ")[-1], f.name) if f.label else f.name)


def known(body, text, f, line, wanted):
    """Refuses a proved text that is another than the one in a head. `line` is that of the head, where `%s` is its digest."""
    proved = digest(text.s[f.start:f.end])
    if proved != wanted:
        raise Refused("%s: bodies: `%s` is another than that for which %s stands: see that it still does the same, and "
                      "write `// %s` there" % (text.at(f.start), short(f), body.place, line % proved))


def of_other(body, text, label):
    """Looks at the other proved text that a body has something of."""
    name, wanted = body.other
    found = [f for f in functions(text.s) if f.label == label and f.name == name]
    if len(found) != 1:
        raise Refused("%s:1: bodies: `%s` stands %d times in %s of %s" % (body.place, name, len(found), label, text.place))
    known(body, text, found[0], "of: %s %%s" % name, wanted)


def put(body, text):
    """Puts one body into its file."""
    found = [f for f in functions(text.s) if short(f) == body.name]
    if len(found) > 1 or body.how == "changed" and not found:
        raise Refused("%s:1: bodies: `%s` stands %d times in %s" % (body.place, body.name, len(found), text.place))
    inside = "." in body.name
    new = re.sub(r"^(?=.)", "    " * inside, body.text.rstrip("\n"), flags=re.M).lstrip(" ")
    if found:
        f = found[0]
        if body.how == "changed":
            known(body, text, f, "proved: %s", body.of)
        if body.other[0]:
            of_other(body, text, f.label)
        text.replace(f.start, f.end, new)
        return
    beside = [f for f in functions(text.s) if f.label == body.of]
    if not beside:
        raise Refused("%s:1: bodies: %s has no `impl %s`" % (body.place, text.place, body.of))
    if body.other[0]:
        of_other(body, text, body.of)
    text.replace(beside[-1].end, beside[-1].end, "\n\n    " + new)


def to_rust(crate, files, folder=""):
    """Puts each body into its file: of a crate, or of one of the folders that those of a crate are in. It returns how each
    differs and why, by path and name."""
    why = {}
    for body in every("%s/%s" % (crate, folder) if folder else crate):
        if body.path not in files:
            raise Refused("%s:1: bodies: there is no %s" % (body.place, body.path))
        put(body, files[body.path])
        why[body.path, body.name] = body
    return why
