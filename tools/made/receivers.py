"""Tells what the calls of a function stand on: of each call the type of its receiver, as far as names and signatures tell it.

A type is a name and its arguments, as `("Result", [("usize", []), ("u8", [])])`. References and boxes are left out. A type
that isn't told is None. Told are parameters, fields, `self`, what `let` binds, what functions and calls return whose
signatures are read, and what `?`, `Some`, `Ok` and `Err` take of it.
"""

import re

from made import code

TOKEN = re.compile(r"'\w+\b(?!')|[A-Za-z_]\w*!?|\d\w*|\"\"|::|->|=>|[^\s\w]")
TEXT = re.compile(r"b?\"(?:[^\"\\]|\\.)*\"|b?'(?:[^'\\]|\\.)[^']?'(?!\w)")
WORD = re.compile(r"[A-Za-z_]\w*")
NESTED = ("([{<", ")]}>")
PAIRS = {")": "(", "]": "[", "}": "{", ">": "<"}
# which argument of a type a pattern takes, and of which types
TAKES = {"Some": (0, ("Option",)), "Ok": (0, ("Result",)), "Err": (1, ("Result",))}


def parsed(text):
    """The type that a text names, or none."""
    text = re.sub(r"^(?:&|mut\b|dyn\b|'\w+|\s)+", "", text.strip())
    if text.startswith("("):
        return ("()", [parsed(part) for part in code.split_at(text[1:code.end_of(text, 0) - 1], ",", *NESTED) if part])
    found = re.match(r"\w+(?:::\w+)*", text)
    if not found:
        return None
    name, rest = found.group(), text[found.end():].lstrip()
    given = []
    if rest.startswith("<"):
        inside = rest[1:rest.rindex(">")].replace("->", "")
        given = [parsed(part) for part in code.split_at(inside, ",", *NESTED) if "=" not in part and not part.startswith("'")]
    if name == "Box" and given:
        return given[0]
    # a path's last name, but the associated type of a parameter by its whole
    return (name if name.split("::")[0][0].isupper() else name.split("::")[-1], given)


def target(header):
    """The type that an impl is of, or the trait's name; none if there is neither."""
    rest = re.sub(r"^(?:pub )?(?:impl|trait)\s*", "", header)
    if rest.startswith("<"):
        depth = 0
        for at, letter in enumerate(rest):
            depth += {"<": 1, ">": -1}.get(letter, 0) if rest[at - 1:at + 1] != "->" else 0
            if depth == 0:
                rest = rest[at + 1:]
                break
    named = re.split(r"\swhere\s", rest)[0].split(" for ")[-1]
    return parsed(named) if header else None


def bounded(head, traits):
    """The type parameters of a head that one of the traits bounds."""
    return {
        name for name, bound in re.findall(r"\b(\w+)\s*:\s*((?:[^,{(;]|\([^)]*\))*)", head)
        if set(WORD.findall(re.split(r"\b(?:Item|Error)\b", bound)[0])).intersection(traits)
    }


class World:
    """What names stand for: functions, fields and methods of the files that were added, and which types are iterators.

    A method is a type's own, or one of the traits: of `traits`, which iterators have, or of `of_std`, which all else has.
    """

    def __init__(self, traits, of_std):
        self.traits, self.of_std = traits, of_std
        self.functions, self.methods, self.fields, self.iterators = {}, {}, {}, set()

    def add(self, path):
        """Adds what a file declares."""
        text = code.without_comments(path.read_text(encoding="utf-8"))
        for name, inside in re.findall(r"\bstruct (\w+)[^{;(]*\{(.*?)\n\}", text, re.S):
            for field, kind in re.findall(r"^\s*(?:pub(?:\([a-z]+\))? )?(\w+): (.*),$", inside, re.M):
                self.fields[name, field] = parsed(kind)
        for function in code.functions(path):
            returned = parsed(function.returned) if function.returned else None
            if not function.owner:
                self.functions[function.name] = returned
            elif function.in_trait or function.is_helper:
                self.methods[target(function.owner)[0], function.name] = returned
            elif function.implementer:
                self.iterators.add(function.implementer)

    def owner(self, kind, name, bound):
        """The type or the trait whose method a call of that name on a value of the type is; none if no file that was added says."""
        if kind and (kind[0], name) in self.methods:
            return kind[0]
        is_iterator = kind and (kind[0] in bound or kind[0] in self.iterators or kind[0].endswith("::IntoFallibleIter"))
        through = self.traits if is_iterator else (self.of_std,)
        return next((trait for trait in through if (trait, name) in self.methods), None)


class Body:
    """A function's body, token by token, with what its names are bound to."""

    def __init__(self, function, world):
        self.world, self.itself = world, target(function.owner)
        self.bound = bounded(function.owner + " ; " + function.head, world.traits)
        self.tokens = TOKEN.findall(TEXT.sub('""', function.body))
        self.opens = self.pairs()
        self.closes = {opened: closed for closed, opened in self.opens.items()}
        self.names = {"self": self.itself}
        for part in code.split_at(function.parameters[1:-1].replace("->", ""), ",", *NESTED):
            named = re.match(r"(?:mut )?(\w+)\s*:(.*)", part)
            if named:
                self.names[named.group(1)] = self.of(parsed(named.group(2)))

    def pairs(self):
        """The place of each bracket that another one closes."""
        opens, stack = {}, []
        for at, token in enumerate(self.tokens):
            if token in ("(", "[", "{") or token == "<" and self.tokens[at - 1] == "::":
                stack.append(at)
            elif token in PAIRS and stack and self.tokens[stack[-1]] == PAIRS[token]:
                opens[at] = stack.pop()
        return opens

    def of(self, kind):
        """The type with `Self` as it is here."""
        if kind is None:
            return None
        return self.itself if kind[0] == "Self" else (kind[0], [self.of(inner) for inner in kind[1]])

    def start(self, at):
        """The place where the chain begins whose last token is at a place."""
        while at >= 0:
            token = self.tokens[at]
            if token in (")", "]", ">", "}") and at in self.opens:
                before = self.opens[at] - 1
                if token == ">" and self.tokens[before] == "::":
                    at = before - 1
                elif before >= 0 and (WORD.fullmatch(self.tokens[before]) or self.tokens[before] in (")", ">", "?")) \
                        and self.tokens[before] not in ("in", "match", "if", "return", "else"):
                    at = before
                else:
                    return self.opens[at]
            elif token == "?":
                at -= 1
            elif self.tokens[at - 1] in (".", "::"):
                at -= 2
            else:
                return at
        return 0

    def kind(self, begin, end):
        """The type of the expression of the tokens between two places."""
        while begin < end and self.tokens[begin] in ("&", "*", "mut"):
            begin += 1
        if begin >= end:
            return None
        kind, at = self.primary(begin, end)
        while at < end:
            token = self.tokens[at]
            if token == "?":
                kind, at = (kind[1][0] if kind and kind[0] in ("Result", "Option") and kind[1] else None), at + 1
            elif token == "." and at + 1 < end:
                name, after = self.tokens[at + 1], self.after_types(at + 2)
                if after < end and self.tokens[after] == "(":
                    kind, at = self.returned(kind, name), self.close(after) + 1
                else:
                    kind, at = (self.world.fields.get((kind[0], name)) if kind else None), at + 2
            else:
                return None
        return kind

    def primary(self, begin, end):
        """The type of the expression's first part, and the place after it."""
        token = self.tokens[begin]
        if token == "(":
            closed = self.close(begin)
            return self.kind(begin + 1, closed), closed + 1
        at, path = begin, [token]
        while at + 2 < end and self.tokens[at + 1] == "::":
            if self.tokens[at + 2] == "<":
                at = self.after_types(at + 1) - 1
            else:
                path, at = [*path, self.tokens[at + 2]], at + 2
        if at + 1 < end and self.tokens[at + 1] in ("(", "{"):
            return self.made(path), self.close(at + 1) + 1
        return (self.names.get(token) if len(path) == 1 else None), at + 1

    def made(self, path):
        """The type of what a path makes: a function's result, or a struct."""
        if len(path) > 1 and path[-2][0].isupper():
            owner = self.itself[0] if path[-2] == "Self" and self.itself else path[-2]
            found = self.world.methods.get((owner, path[-1]))
            return (owner, []) if found and found[0] == "Self" else found
        if path[-1][0].isupper():
            return self.of((path[-1], []))
        return self.world.functions.get(path[-1])

    def returned(self, kind, name):
        """The type that a call of that name on a value of the type returns."""
        owner = self.world.owner(kind, name, self.bound)
        found = self.world.methods.get((owner, name)) if owner else None
        return (kind if found[0] == "Self" else found) if found else None

    def close(self, opened):
        """The place of the bracket that closes the one at a place."""
        return self.closes.get(opened, len(self.tokens) - 1)

    def after_types(self, at):
        """The place after `::<..>`, where that stands at a place."""
        if self.tokens[at:at + 2] == ["::", "<"]:
            return self.close(at + 1) + 1
        return at

    def bind(self, begin):
        """Binds what the `let` at a place names."""
        at = next((at for at in range(begin, len(self.tokens)) if self.tokens[at] in ("=", ";")), None)
        if at is None or self.tokens[at] == ";":
            return
        pattern, end = self.tokens[begin + 1:at], at + 1
        while end < len(self.tokens) - 1 and self.tokens[end] not in (";", "else", "{"):
            end = self.close(end) + 1 if self.tokens[end] in ("(", "[") else end + 1
            if self.tokens[end - 1:end + 1] == ["::", "<"]:
                end = self.close(end) + 1
        text = " ".join(pattern)
        named = re.fullmatch(r"(?:mut )?(\w+)(?: : (.+))?", text)
        taken = re.fullmatch(r"(Some|Ok|Err) \( (?:mut )?(\w+) \)", text)
        kind = self.kind(at + 1, end)
        if named:
            self.names[named.group(1)] = self.of(parsed(named.group(2).replace(" ", ""))) if named.group(2) else kind
        elif taken:
            self.names[taken.group(2)] = self.taken(taken.group(1), kind)

    def taken(self, pattern, kind):
        """The type of what a pattern takes of a value of the type."""
        which, types = TAKES[pattern]
        return kind[1][which] if kind and kind[0] in types and len(kind[1]) > which else None

    def match(self, begin):
        """Binds what the arms of the `match` at a place name."""
        end = begin + 1
        while self.tokens[end] != "{":
            end = self.close(end) + 1 if self.tokens[end] in ("(", "[") else end + 1
        kind = self.kind(begin + 1, end)
        for pattern, name in re.findall(r"\b(Some|Ok|Err) \( (?:mut )?(\w+) \) =>", " ".join(self.tokens[end:self.close(end)])):
            if self.taken(pattern, kind):
                self.names[name] = self.taken(pattern, kind)

    def calls(self):
        """Each call: the type or the trait that it is a method of, or none of a function; and its name."""
        for at, token in enumerate(self.tokens):
            if token == "let":
                self.bind(at)
            elif token == ":" and self.tokens[at - 2] in ("|", ",") and WORD.fullmatch(self.tokens[at - 1]):
                # a closure's parameter, whose type goes on to the next bar
                self.names[self.tokens[at - 1]] = self.of(parsed("".join(self.tokens[at + 1:at + 12]).split("|")[0].replace("mut", "mut ")))
            elif token == "match":
                self.match(at)
            elif WORD.fullmatch(token) and at > 0:
                after = self.after_types(at + 1)
                if after >= len(self.tokens) or self.tokens[after] != "(":
                    continue
                before = self.tokens[at - 1]
                if before == ".":
                    kind = self.kind(self.start(at - 2), at - 1)
                    yield self.world.owner(kind, token, self.bound), token
                elif before == "::":
                    owner = self.tokens[at - 2]
                    yield (owner if owner[0].isupper() else None), token
                elif before != "fn":
                    yield None, token
