"""The tables of commands in CONTRIBUTING.md, which name each script of `tools/` and each program of `release/`, and how scripts are named."""

import re

# The ending of a script by the program that its first line names.
ENDING = {"#!/usr/bin/env bash": ".sh", "#!/usr/bin/env python3": ""}

STEP = re.compile(r"^(\w+)\|((?:tools|release)/[^|\n]+)\|(.+)$", re.MULTILINE)
USED = re.compile(r"\b((?:tools|release)/[\w.-]+)((?:/[\w.-]+)*\b)")


def purpose(text):
    """The first sentence of a script's head, up to a colon."""
    head = " ".join(line.lstrip("# ").strip('"') for line in text.split("\n\n")[0].split("\n#\n")[0].split("\n")[1:])
    return re.split(r"[.:] |[.:]$", head)[0].strip().replace("|", "\\|")


def release(top):
    """The lines of the table of what runs before a release, of the steps of `release/before_release.sh`."""
    lines = ["| Step | Command | What it does | With | How long |\n|---|---|---|---|---|"]
    path = top / "release" / "before_release.sh"
    for step, command, time in STEP.findall(path.read_text(encoding="utf-8")) if path.is_file() else []:
        text = (top / command.split()[0]).read_text(encoding="utf-8")
        found = {name.rstrip(".") for name, below in USED.findall(text) if (top / f"{name.rstrip('.')}{below}").exists()}
        used = sorted(found - {command.split()[0], "tools/usage.sh"})
        lines.append(f"| {step} | `{command}` | {purpose(text)} | {', '.join(f'`{name}`' for name in used)} | {time} |")
    return lines


def scripts(top):
    """The files of `tools/` and `release/` that are run or sourced."""
    found = [*(top / "tools").glob("*"), *(top / "tools" / "tests").glob("*"), *(top / "release").glob("*")]
    return sorted(path for path in found if path.is_file())


def misnamed(top):
    """A line for each script whose ending isn't that of its language, or whose words are joined by a dash."""
    for path in scripts(top):
        if "-" in path.name:
            yield f"{path.relative_to(top)}: words are joined by _"
        first = path.read_text(encoding="utf-8").split("\n", 1)[0]
        if path.suffix != ENDING.get(first, path.suffix):
            yield f"{path.relative_to(top)}: a script with the line {first} ends in {ENDING[first] or 'nothing'}"


def unnamed(top):
    """A line for each script and each program that the page doesn't name."""
    said = (top / "CONTRIBUTING.md").read_text(encoding="utf-8")
    found = scripts(top) + [path for path in (top / "release").glob("*") if path.is_dir()]
    for path in sorted(found):
        name = str(path.relative_to(top))
        if not any(f"{before}{name}{after}" in said for before in ("`", "python3 ") for after in ("`", " ")):
            yield f"CONTRIBUTING.md: no row for {name}"
