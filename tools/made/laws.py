"""docs/LAWS.md: each law, with the first sentence of its comment. A law is a function `law_..`, or a lemma whose comment begins with `Law:`."""

import re

from made import code
from made.code import LIBRARY

PLACES = (
    ("fallible_core", "headline.rt"), ("fallible_iterator", "laws/**/*.rt"),
    ("fallible_itertools_adapters", "laws/**/*.rt"), ("fallible_itertools_joins", "laws/**/*.rt"),
    ("fallible_itertools", "laws/**/*.rt"),
)
HEAD = """# Laws

Each law, with the first sentence of its comment, which says the rest. A law is a function that is called for its contract alone, or a lemma, which a term cites. Beside a lemma stands its file, which has more of the same word. `law_headline` and `law_headline_back` are the headline. `tools/pages` writes this page, and the gate compares it.
"""
MARK = "-- Law: "
LEMMA = re.compile(r"\s*pub ([\w-]+) :")
# Up to the first full stop that ends no piece of code.
SENTENCE = re.compile(r"(?:`[^`]*`|[^`])*?\.(?= |$)")


def functions(crates):
    """Each law that is a function: its crate, its file, its name and its comment."""
    for crate, pattern in PLACES:
        for path in sorted((crates / crate / "src").glob(pattern)):
            for function in code.functions(path):
                if function.name.startswith("law_"):
                    yield crate, path, function.name, function.comment


def lemmas(crates):
    """Each law that is a lemma: its crate, its file, its name and its comment."""
    for crate in LIBRARY:
        for path in sorted((crates / crate).glob("*/L*/**/*.antt")):
            said = None
            for line in code.lines_of(path):
                bare = line.strip()
                if bare.startswith(MARK):
                    said = bare.removeprefix(MARK)
                elif said is not None and (found := LEMMA.match(line)):
                    yield crate, path, found.group(1), said
                    said = None


def first_sentence(comment):
    """The first sentence of a comment."""
    found = SENTENCE.match(comment)
    return found.group() if found else comment


def page(crates):
    """The text of the page."""
    lines, found = [HEAD.rstrip("\n")], [*functions(crates), *lemmas(crates)]
    for crate in LIBRARY:
        of_crate = [law for law in found if law[0] == crate]
        if of_crate:
            lines.append(f"\n## {crate}\n")
        for _, path, name, comment in of_crate:
            place = f" of `{'/'.join(path.relative_to(crates / crate).with_suffix('').parts[1:])}`" if path.suffix == ".antt" else ""
            lines.append(f"- `{name}`{place}: {first_sentence(comment)}")
    return "\n".join(lines) + "\n"


def without_sentences(crates):
    """A line for each law with no sentence, or one that stops at a colon."""
    for _, path, name, comment in [*functions(crates), *lemmas(crates)]:
        if not comment or comment.endswith(":"):
            yield f"{path.relative_to(crates.parent)}: no sentence tells what {name} states"
