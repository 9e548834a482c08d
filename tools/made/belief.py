"""What one reads to believe a clause: the words that it names, those that these name, and so on up to std's."""

import re

from made import code
from made.index import WORD
from made.code import LIBRARY

IMPORTED = re.compile(r"^\s*(?:pub )?use Rattle\.(\w+)\.specs\.([\w.]+)\.\{([^}]*)\}", re.MULTILINE)
NAME = re.compile(r"(?<![\w.])[A-Za-z_]\w*'?")
# The tables: the file of the function, the function, and its clauses. The one without a name is None.
CLAUSES = {
    "belief of above_100_of_ten": ("example_chains/src/computing.rt", "above_100_of_ten", (None,)),
    "belief of count": ("fallible_core/src/traits.rt", "count", ("counted", "value")),
}


def definitions(path):
    """Each word that a file of `specs/` defines, with its lines."""
    lines = code.lines_of(path)
    for number, line in enumerate(lines):
        named = WORD.match(line)
        if not named:
            continue
        indent = len(line) - len(line.lstrip())
        end = number + 1
        while end < len(lines) and lines[end].strip() and not WORD.match(lines[end]):
            if len(lines[end]) - len(lines[end].lstrip()) < indent or lines[end].lstrip().startswith("-- ") and "record" not in line:
                break
            end += 1
        yield named.group(1).rstrip(":"), lines[number:end]


class Words:
    """The words of the library, each with its place and its lines."""

    def __init__(self, crates):
        self.of_files, self.imports, self.by_name = {}, {}, {}
        for crate in LIBRARY:
            top = crates / crate / "specs"
            for path in sorted(top.rglob("*.antt")):
                file = f"{crate}/{path.relative_to(top).with_suffix('')}"
                self.of_files[file] = dict(definitions(path))
                self.imports[file] = {}
                for owner, place, names in IMPORTED.findall(path.read_text(encoding="utf-8")):
                    for name in NAME.findall(names):
                        self.imports[file][name] = f"{owner}/{place.replace('.', '/')}"
                if "/Laws/" not in f"/{file}/":
                    for word in self.of_files[file]:
                        self.by_name.setdefault(word, file)

    def place(self, name, file):
        """The file of a word that another file names, or none if it is not the library's. A file that hands it on is not its file."""
        if name in self.of_files.get(file, {}):
            return file
        found = self.imports.get(file, {}).get(name)
        if found is None or name in self.of_files.get(found, {}):
            return found
        crate, _, place = found.partition("/")
        handed = [f"{below}/{place}" for below in LIBRARY if name in self.of_files.get(f"{below}/{place}", {})]
        return next(iter([*handed, *filter(None, [self.by_name.get(name)])]), None) if crate in LIBRARY else None

    def named(self, word, file):
        """The words that a word's definition names, each with its file."""
        text = "\n".join(line for line in self.of_files[file][word] if not line.lstrip().startswith("--"))
        for name in dict.fromkeys(NAME.findall(text)):
            place = self.place(name, file)
            if place and name != word:
                yield name, place


def chain(text, words):
    """The words to read for a clause, in the order in which one meets them."""
    found = []
    waiting = [(name, words.by_name[name]) for name in dict.fromkeys(NAME.findall(text)) if name in words.by_name]
    while waiting:
        word = waiting.pop(0)
        if word not in found:
            found.append(word)
            waiting += words.named(*word)
    return found


def stated(function, clauses):
    """The text of the clauses of a function, without the names of modules."""
    text = " ".join(text for kind, named, text in function.clauses if kind == "ensures" and named in clauses)
    return re.sub(rf"(?<![\w.])(?:{'|'.join(function.renamed) or '-'})\.", "", text)


def table(clause, words):
    """The table of a clause."""
    rows, count = [], 0
    for word, file in chain(clause, words):
        lines = [line for line in words.of_files[file][word] if not line.lstrip().startswith("--")]
        count += len(lines)
        next_words = ", ".join(f"`{name}`" for name, _ in words.named(word, file)) or "–"
        crate, place = file.split("/", 1)
        rows.append(f"| `{word}` | `{crate}`, `{place}` | {len(lines)} | {next_words} |")
    return ["| Word | File of `specs/` | Lines | Names |\n|---|---|---|---|", *rows, f"| in all {len(rows)} | | {count} | |"]


def size(crates, file, wanted, clauses):
    """How many words there are to read for clauses of a function, and how many lines they have."""
    words = Words(crates)
    found = [function for function in code.functions(crates / file) if function.name == wanted] if (crates / file).is_file() else []
    read = chain(" ".join(stated(function, clauses) for function in found), words)
    return len(read), sum(not line.lstrip().startswith("--") for word, of in read for line in words.of_files[of][word])


def tables(crates):
    """The table of each clause."""
    words, made = Words(crates), {}
    for name, (file, wanted, clauses) in CLAUSES.items():
        found = code.functions(crates / file) if (crates / file).is_file() else []
        made[name] = table(" ".join(stated(function, clauses) for function in found if function.name == wanted), words)
    return made
