"""Reads a clause: what it says of a list, and where."""

import re

from made.code import split_at

OVER = ("OverList", "OverListWith", "OverBoth")
LISTING = ("Lists", "ListsForGood", "ListsMade", "ListsUnlessRefused", "ListsUntilRefused", "Repeats", "ListsBothEnds")
BINDER = re.compile(r"[({](?:[\w']+ )+: ")
# premises that name the source's list, the closure's function and the conversion of failures
NAMING = ("Lists", "ListsBothEnds", "Acts", "ActsWith", "ActsWithState", "LooksAs", "FoldsAs", "Converts")


def bare(text):
    """The text without brackets around all of it."""
    text = text.strip()
    while text.startswith("(") and len(split_at(text, " ")) == 1 and text.endswith(")"):
        text = text[1:-1].strip()
    return text


def last_name(text):
    """The last part of a name with dots."""
    return text.rsplit(".", 1)[-1]


class Reading:
    """What a clause says: its premises, its conclusions, and the ends from which it takes the list."""

    def __init__(self, text, renamed):
        self.premises, self.over, self.ends, self.named = [], [], "", {}
        conclusion = self.peeled(text)
        self.conclusions = split_at(conclusion, " × ")
        self.renamed = renamed

    def peeled(self, text):
        """The conclusion, once the premises and the words for a source's list are off."""
        while True:
            *premises, text = split_at(bare(text), "→")
            self.premises += premises
            parts = split_at(bare(text), " ")
            word = last_name(parts[0])
            if word == "IfOk" and bare(parts[-1]).startswith("λ"):
                text = bare(parts[-1]).split(". ", 1)[1]
                continue
            if word not in OVER:
                return bare(text) if premises or len(split_at(text, " × ")) == 1 else text
            self.over.append(word)
            steps = parts[2] if word == "OverListWith" else parts[1]
            if steps.endswith("ends.steps"):
                self.ends = "from the back"
            if word == "OverListWith" and last_name(split_at(bare(parts[1]), " ")[0]) not in NAMING:
                self.premises.append(parts[1])
            text = bare(parts[-1]).split(". ", 1)[1]

    def shown(self, text):
        """A term as a reader sees it."""
        text = bare(text)
        for old, new in self.named.items():
            text = re.sub(rf"\b{old}\b", new, text)
        for module in self.renamed:
            text = re.sub(rf"(?<![\w.]){module}\.", "", text)
        text = re.sub(r"\b(?:Self|I)\.Item\.", "", text)
        text = re.sub(r"\b(\w+)\.(?:now|old)\b", r"\1", text)
        return f"`{text}`"

    def conditions(self):
        """What has to hold, each as a text, and what the call has to return."""
        held, returned = [], []
        for premise in self.premises:
            self.sort_in(premise, held, returned)
        return list(dict.fromkeys(held)), list(dict.fromkeys(returned))

    def sort_in(self, premise, held, returned):
        """Adds what a premise says to what has to hold, or to what the call has to return."""
        inner = bare(split_at(bare(premise), "→")[-1])
        word = last_name(split_at(inner, " ")[0])
        renaming = re.fullmatch(r"(\w+) ≡ ([\w.]*\w\.\w+)", inner)
        if word in ("Lists", "ListsBothEnds"):
            self.over.append(word)
        if "ListsBothEnds" in premise:
            self.ends = "from both ends"
        if BINDER.match(premise) or word in NAMING:
            return
        if re.search(r"is_clone (\w+) \1$", inner):
            held.append("a value is a clone of itself")
        elif "is_clone" in premise or word == "ClonesAreEqual":
            held.append("clones are equal")
        elif "is_infallible" in premise:
            held.append("no clone fails")
        elif premise.startswith("¬ (result ≡ "):
            returned.append(f"not {self.shown(premise[len('¬ (result ≡ '):-1])}")
        elif inner.startswith("result ≡ "):
            returned.append(self.shown(inner[len("result ≡ "):]))
        elif renaming and premise == inner:
            self.named[renaming.group(1)] = renaming.group(2)
        elif " ≡ " in inner or " ≤ " in inner or word == "NoFailureAtEnd":
            held.append(self.shown(inner))
        elif word == "Repeats":
            held.append(f"each draw yields {self.shown(split_at(inner, ' ')[-1])}")
        elif word in ("RunsRead", "ItemsRead"):
            reads = bare(split_at(inner, " ")[2])
            held.append("std reads `items l`" if word == "ItemsRead" or reads == "Ok" else "std reads `l`")
        else:
            held.append(f"`{word}`")
