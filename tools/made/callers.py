"""docs/CALLERS.md: each caller of the crates `example_..`, with what it alone shows, its sentence, its lines of proof and its laws.

It also says which public calls no proved caller makes, so that a test alone would show that they can be made, for
`tools/check callers`.

Public calls are those of the traits in TRAITS, the functions that `fallible_iterator` and
`fallible_itertools` hand on, and the public methods of the types that they hand on. Left out are the hidden calls, which types write and callers don't call,
`new` of an adapter, which the library's trait calls, and laws, which proofs cite and nothing runs.

Callers are the functions of the crates of crates.txt that are neither the library's nor tests: those below a heading that
begins with `# Tests`.

A call counts if what it stands on is known to be an iterator of the library, or a value of the type whose method it is: a
parameter that a trait bounds, what a function of the library made, a field, or what a call, a `let`, `?` or a pattern makes
of such a one. So a call of std's with the same name hides nothing. A call of `IteratorExt` counts on whatever it stands,
since no call of std's has its name, and a function if its file imports it from the library. What is called in a form that
`made/receivers.py` doesn't read is told too: it wants a plainer caller.
"""

import collections
import re

from made import code, receivers
from made.drives import HIDDEN
from made.code import LIBRARY, code_of_library, lines_of

CALLER = re.compile(r"pub fn (\w+)")
LAW = re.compile(r"^[^/]*\b(law_\w+)\b", re.MULTILINE)
HEAD = """# Callers

Each caller, with what it returns, how many lines of proof it has beside the check's own search, and the laws that it calls. The first column has the public calls that no other proved caller makes. Where there is none, it has two calls, one after the other, that no other makes so. It is empty where what a caller shows is no call: its law, its type, its loop or its task. `tools/pages` writes this page, and the gate compares it. A caller's file stands in `src/` of its crate, its proof in `proofs/FILE/NAME`.
"""
# The traits whose calls callers make. Callers write those of the others, as `Collect`, and the library calls them.
TRAITS = (
    "FallibleIterator", "DoubleEndedFallibleIterator", "FallibleItertools", "DoubleEndedFallibleItertools", "PeekingNext",
    "IntoFallibleIterator",
)
OF_STD = "IteratorExt"
# Types write these, or get them, and the library calls them.
NOT_CALLED = {*HIDDEN, "next_accepted"}
HANDING_ON = ("fallible_iterator/src/lib.rt", "fallible_iterator/src/laws.rt", "fallible_itertools/src/lib.rt")
IMPORTED = re.compile(r"^use fallible_([^;]*);", re.MULTILINE)
CRATE = re.compile(r"(\w+)[^:#]*:")


def handed_on(crates):
    """The names that the library hands on to whoever uses it."""
    names = set()
    for path in (crates / file for file in HANDING_ON):
        for used in re.findall(r"^pub use ([^;]*);", path.read_text(encoding="utf-8") if path.is_file() else "", re.M):
            names.update(re.findall(r"\w+", used))
    return names


def files_of_callers(crates):
    """The files of the crates whose functions are proved callers."""
    found, is_test = [], False
    for line in lines_of(crates.parent / "crates.txt"):
        named = CRATE.match(line)
        if line.startswith("#"):
            is_test = line.startswith("# Tests")
        elif named and not is_test and named.group(1) not in LIBRARY:
            found += sorted((crates / named.group(1) / "src").rglob("*.rt"))
    return found


def public_calls(crates):
    """Each public call: the trait or the type whose method it is, or none of a function; and its name."""
    handed = handed_on(crates)
    for path in code_of_library(crates):
        for function in code.functions(path):
            owner = receivers.target(function.owner)
            of_trait = function.in_trait and owner[0] in (*TRAITS, OF_STD) and function.name not in NOT_CALLED
            of_type = function.public and function.is_helper and owner and owner[0] in handed and function.name != "new"
            by_itself = function.public and not owner and function.name in handed and not function.name.startswith("law_")
            if of_trait or of_type or by_itself:
                yield (owner[0] if owner else None), function.name


def calls_made(crates):
    """Each function of a proved caller's file, and the calls that it makes, as `public_calls` has them."""
    files, world = files_of_callers(crates), receivers.World(TRAITS, OF_STD)
    for path in (*code_of_library(crates), *files):
        world.add(path)
    for path in files:
        imported = set(re.findall(r"\w+", " ".join(IMPORTED.findall(path.read_text(encoding="utf-8")))))
        for function in code.functions(path):
            calls = receivers.Body(function, world).calls() if function.body else ()
            yield path, function, [(owner, name) for owner, name in calls if owner or name in imported]


def uncalled(crates):
    """Prints each public call that no proved caller makes, and how many there are. The status."""
    files, public = files_of_callers(crates), list(dict.fromkeys(public_calls(crates)))
    made = {call for _, _, calls in calls_made(crates) for call in calls}
    missing = [call for call in public if call not in made]
    for owner, name in missing:
        print(f"no proved caller calls {f'{owner}::{name}' if owner else name}")
    print(f"public calls: {len(public)}, files of proved callers: {len(files)}, calls that none of these makes: {len(missing)}")
    return 1 if missing else 0


def shown_alone(crates):
    """What a caller, by its file and its name, shows that no other does: calls, or else two calls one after the other."""
    public, shown = set(public_calls(crates)), {}
    for path, function, calls in calls_made(crates):
        called = [call for call in calls if call in public]
        words = [{(name,): None for _, name in called}, {(one[1], two[1]): None for one, two in zip(called, called[1:])}]
        shown[path, function.owner, function.name] = words
    for level in (1, 0):
        counted = collections.Counter(word for words in shown.values() for word in words[level])
        alone = {place: [word for word in words[level] if counted[word] == 1] for place, words in shown.items()}
        if level:
            in_a_row = alone
    return {(path, name): alone[path, owner, name] or in_a_row[path, owner, name][:2] for path, owner, name in shown if not owner}


def functions(path):
    """Each public function of a file of callers: its name, its comment's first paragraph, its body's lines."""
    comment, name, body, brackets = [], None, [], 0
    for line in lines_of(path):
        bare = line.strip()
        named = CALLER.match(line)
        if named:
            if name:
                yield name, about, body
            paragraph = comment[:comment.index("")] if "" in comment else comment
            name, about, body = named.group(1), " ".join(paragraph), []
        elif name:
            body.append(line)
        # attributes, which may have several lines, stand between a comment and its function
        attribute = brackets > 0 or bare.startswith("#[")
        if attribute:
            brackets += bare.count("[") - bare.count("]")
        if bare.startswith("///"):
            comment = comment + [bare[3:].strip()]
        elif not attribute:
            comment = []
    if name:
        yield name, about, body


def proof_lines(folder):
    """How many lines of a function's proof are neither blank nor comments nor imports."""
    count = 0
    for path in sorted(folder.rglob("*.antt")) if folder.is_dir() else []:
        for line in lines_of(path):
            bare = line.strip()
            if bare and not bare.startswith(("--", "use ")):
                count += 1
    return count


def callers(crates):
    """Each caller: its crate, its file, its name, its sentence, its lines of proof, its laws."""
    for crate in sorted(path.name for path in crates.glob("example_*")):
        for path in sorted((crates / crate / "src").glob("*.rt")):
            if path.stem == "lib":
                continue
            for name, about, body in functions(path):
                sentence = re.split(r"(?<=\.) ", about)[0]
                laws = sorted(set(LAW.findall("\n".join(body))))
                proof = proof_lines(crates / crate / "proofs" / path.stem / name)
                yield crate, path.stem, name, sentence, proof, laws


def page(crates):
    """The text of the page."""
    lines, head, alone = [HEAD], None, shown_alone(crates)
    for crate, stem, name, sentence, proof, laws in callers(crates):
        if head != (crate, stem):
            head = (crate, stem)
            lines.append(f"## {crate}, {stem}.rt\n")
            lines.append("| Alone shows | Caller | Returns | Lines | Laws |\n|---|---|---|---|---|")
        said, words = sentence.replace("|", "\\|"), alone.get((crates / crate / "src" / f"{stem}.rt", name), [])
        shows = "; ".join(", ".join(f"`{part}`" for part in word) for word in words)
        lines.append(f"| {shows} | `{name}` | {said} | {proof} | {' '.join(f'`{law}`' for law in laws)} |")
    return "\n".join(lines) + "\n"


def without_sentences(crates):
    """A line for each caller that has no sentence, or one that stops at a colon."""
    for crate, stem, name, sentence, _, _ in callers(crates):
        if not sentence or sentence.endswith(":"):
            yield f"crates/{crate}/src/{stem}.rt: no sentence says what {name} returns"
