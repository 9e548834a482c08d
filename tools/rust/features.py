"""Features: what needs std in a `no_std` crate stands behind the feature `std`. It is each item that names one of `std::io`, of files or of
the words of a program, or another such item."""
import re
from collections import namedtuple
from pathlib import Path

from source import functions, use_names

STD = re.compile(r"std::(?:io|env|fs|process|net|time|error|os|thread)\b")
CFG = '#[cfg(feature = "std")]\n'
HEAD = re.compile(r"^(?:#\[.*\]\n)*(?:pub(?:\([^)]*\))? )?(fn|struct|enum|trait|const|type|static|impl|mod|use)\b", re.M)
Item = namedtuple("Item", "kind name start end head")


def items(s):
    """The items of a file: what each is, its name, and where it, with its comment, and its head begin."""
    found, at = [], 0
    for block in re.split(r"(?<=\n)\n(?=[^\s}])", s):
        start, at = at, at + len(block) + 1
        head = HEAD.search(block)
        if not head:
            continue
        if head.group(1) in ("mod", "use"):
            for m in re.finditer(r"^(?:#\[.*\]\n)*((?:pub(?:\([^)]*\))? )?(mod|use) [^;{]*(?:\{[^}]*\})?[^;]*;)\n?", block, re.M):
                name = re.search(r"\bmod (\w+)", m.group(1))
                found.append(Item(m.group(2), name and name.group(1), start + m.start(), start + m.end(), start + m.start()))
            continue
        name = re.match(r"\w+ (?:mut )?(\w+)", block[head.start(1):])
        found.append(Item(head.group(1), name.group(1) if head.group(1) != "impl" else None, start, start + len(block), start + head.start()))
    return found


def inherent(s, item):
    """The methods of an `impl` of no trait, or none."""
    head = s[item.head:s.index("{", item.head)] if item.kind == "impl" else ""
    if not head or re.search(r"\bfor\b", re.sub(r"for<[^>]*>", "", head)):
        return []
    return [f for f in functions(s) if item.start <= f.start < item.end]


def words(s):
    """The words of a text without comments."""
    return set(re.findall(r"\w+", re.sub(r"//.*", "", s)))


class Crate:
    """What of a crate needs std. `outside` are such names of other crates, as `program_io::writing::WriteText`."""

    def __init__(self, files, outside):
        self.files, self.outside, self.gone = files, outside, set()
        more = True
        while more:
            before = len(self.gone)
            for path, text in files.items():
                self.look(path, text.s)
            more = len(self.gone) > before

    def module(self, path):
        return "::".join(["crate", *Path(path).with_suffix("").parts]) if path != "lib.rs" else "crate"

    def is_gone(self, path, used):
        """Whether a path that a file imports needs std."""
        return bool(STD.match(used)) or used in self.outside or (path, used) in self.gone or used in {
            "%s::%s" % (self.module(at), name) for at, name in self.gone} or used.removeprefix("crate::") in {
            "%s::%s" % (Path(at).stem, name) for at, name in self.gone if "/" not in at}

    def named(self, path, s):
        """The names of a file that need std."""
        out = {name for at, name in self.gone if at == path}
        for used in use_names(re.sub(r"(?m)^ *#\[.*\]\n", "", s)):
            if self.is_gone(path, used):
                out.add(used.split("::")[-1])
        return out

    def look(self, path, s):
        names = self.named(path, s)
        for item in items(s):
            if item.name and item.kind not in ("mod", "use") and words(s[item.head:item.end]) & names:
                self.gone.add((path, item.name))

    def mark(self):
        """Puts what needs std behind the feature."""
        for path, text in self.files.items():
            s, names, cuts = text.s, self.named(path, text.s), []
            for item in items(s):
                if item.kind == "mod":
                    continue
                if item.kind == "use":
                    cuts += self.of_use(path, s, item)
                elif inherent(s, item):
                    cuts += self.of_methods(s, item, names)
                elif words(s[item.head:item.end]) & names:
                    cuts.append((item.head, item.head, CFG))
            for start, end, new in sorted(cuts, reverse=True):
                text.replace(start, end, new)

    def of_use(self, path, s, item):
        use = s[item.start:item.end]
        front = re.match(r"(?:#\[.*\]\n)*((?:pub(?:\([^)]*\))? )?)use", use).group(1)
        found = list(use_names(re.sub(r"\s+", " ", "use " + use.split("use ", 1)[1])))
        gone = [x for x in found if self.is_gone(path, x)]
        if not gone:
            return []
        stay = [x for x in found if x not in gone]
        return [(item.start, item.end, "".join("%suse %s;\n" % (front, x) for x in stay) + "".join("%s%suse %s;\n" % (CFG, front, x) for x in gone))]

    def of_methods(self, s, item, names):
        head = s[item.head:s.index("{", item.head)]
        if words(head) & names:
            return [(item.head, item.head, CFG)]
        methods = inherent(s, item)
        gone = [f for f in methods if words(s[f.start:f.end]) & names]
        if len(gone) == len(methods):
            return [(item.head, item.head, CFG)]
        return [(f.start, f.start, CFG.rstrip("\n") + "\n    ") for f in gone]

    def exported(self, crate):
        """The names that need std, as another crate imports them."""
        return {re.sub(r"^crate", crate, self.module(at)) + "::" + name for at, name in self.gone} | {
            "%s::%s" % (crate, used.split("::")[-1]) for used in use_names(self.files["lib.rs"].s) if self.is_gone("lib.rs", used)}
