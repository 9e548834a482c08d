"""How `tools/edits` and `tools/check_one` ask `rattle check` for single functions, over libraries that are built; and the edits of
the crates, as files have them: in blocks, each below a line `# NAME`, or one alone, which has the file's name."""
import os
import pathlib
import shutil


class Crate:
    """A crate of crates.txt: its name, those that it stands on, its folder, and the file that its modules begin in."""

    def __init__(self, top, name, deps):
        self.name, self.deps = name, deps
        self.folder = top / "crates" / name
        self.root = "src/main.rt" if (self.folder / "src/main.rt").is_file() else "src/lib.rt"

    def below(self, crates):
        """The names of all crates below it, the lowest first."""
        found = []
        for it in self.deps:
            if it in crates:
                found += [dep for dep in [*crates[it].below(crates), it] if dep not in found]
        return found


def crates_of(top):
    """The crates of crates.txt."""
    crates = {}
    for line in (top / "crates.txt").read_text().split("\n"):
        line = line.split("#")[0].strip()
        if line:
            name, _, deps = line.partition(":")
            crates[name.split()[0]] = Crate(top, name.split()[0], deps.split())
    return crates


def words_of(crate, crates, place):
    """The words of a check of a crate, over the libraries that stand in out/ of the checkout at a place."""
    kit = pathlib.Path(os.path.realpath(shutil.which("rattle"))).parent.parent

    def rlib(name):
        return pathlib.Path(place, "crates", name, "out/rlib", f"{name}.rlib")

    words = ["rattle", "check", "--crate-name", crate.name, crate.root, "--jobs", "1"]
    words += ["--extern", f"std={kit}/rlibs/std.rlib", "-L", f"dependency={kit}/rlibs"]
    for it in crate.deps:
        words += ["--extern", f"{it}={rlib(it)}"]
    for it in crate.below(crates):
        words += ["-L", f"dependency={rlib(it).parent}"]
    return words + ["--antt-project", f"{kit}/rattle/logic/antt-project.json", "--logic-built", f"{kit}/logic_built"]


def files(crate):
    """The files of edits of a crate's folder, but of `out/`."""
    return [path for path in sorted(crate.rglob("*.edit")) if path.relative_to(crate).parts[0].endswith("-edits")]


def blocks(file):
    """Each edit of a file: its name, the number of its first line, and its lines."""
    name, first, lines = file.stem, 1, []
    for number, line in enumerate(file.read_text(encoding="utf-8").split("\n"), 1):
        if line.startswith("# "):
            if any(lines) or name != file.stem:
                yield name, first, lines
            name, first, lines = line[2:].strip(), number + 1, []
        else:
            lines.append(line)
    yield name, first, lines
