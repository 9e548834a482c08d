"""Where the code makes an allocation failure, and whether each is an allocator's own."""

import dataclasses
import functools
import re

from made.code import end_of
from refusals.source import arms, bare, functions, is_call

# What says that there was no memory, beside std's error: variants of these names, and those that a conversion of it makes.
VARIANTS = ("Memory", "OutOfMemory", "NoMemory")
NAMED = re.compile(r"\s*\(\s*([a-z_]\w*)\s*\)")
# A conversion, within a variant.
CONVERTED = re.compile(r"\(\s*AllocError::from\(\w+\)\s*\)")
# What a pattern binds to its own name where a call answers with a refusal.
BINDS = re.compile(r"(?:Err|Ok\(Some|Ok\(Some\(Some|Err\(Fault::Memory|Fault::Memory)\((\w+)\)+")
TYPES = re.compile(r"::<[^;{}()]*?>(?=\()|\blet [^=;]*?:[^=;]*=|(?<!\|)\|(?!\|)[^|;{}]*(?<!\|)\|(?!\|)|\bas \w+")
# An `Err` of these calls of std is a refusal whatever it has.
FOR_MEMORY_ALONE = re.compile(r"Buf(?:Reader|Writer)::new\(")
MARK = re.compile(r"\s*// No memory: (?:\S+\s+){3}")
CONDITION = re.compile(r"\bif\s+(?P<not>!\s*)?(?P<called>[^{}]*?)\s*\{\s*(?:return\s+)?$")
# Calls that may fail for want of memory or for another reason: which of the two it was is told.
TELLING = re.compile(r"(?:\benv::args|\.read_rest|\.read_first_line)\(")
KEEPS = re.compile(r"\bfault_of_\w+\(&(\w+)\)|\b(\w+)\.kind\(\)|\bErr\((\w+)\)")
# Calls that request room for as many as one of their arguments says: the last, of `resize` and its kin the first.
ROOM = re.compile(r"(?:\b|\.)(with_capacity|with_capacity_in|try_reserve|reserve|reserve_exact|allocate|resize|resize_with|repeat|repeat_n)\(([^()]*(?:\([^()]*\))?[^()]*)\)")
FIRST = ("resize", "resize_with")
# What makes a size that no caller has: the largest number, and a sum that stops there.
OVERSIZED = re.compile(r"\bMAX\b|\bsaturating_\w+|<<|\bpow\(")
# Any number of items may come of these.
UNSIZED = re.compile(r"\.(extend|extend_from_within|append)\(")
# The calls of std that fail if an allocation does.
STD = {
    "allocate", "clone", "collect", "entry", "extend_from_slice", "insert", "push", "push_back", "push_front", "push_str", "reserve",
    "resize", "sort", "sort_by", "sort_by_key", "to_vec", "try_reserve", "with_capacity", "with_capacity_in", "write_fmt", "write_str", "vec!",
    # of `BufReader` and `Box`
    "new",
    # of a system's words and files, whose failure has a kind
    "args", "kind",
}
# How many failures have a reason beside them, and how many come of a call that isn't one of these. A reviewer looks at each
# one more, and changes the number.
REASONS, OTHERS = 19, 32
LET = re.compile(r"\blet\s+(?:mut\s+)?\w+\s*:\s*(?:&\s*)?(?:\w+\s*::\s*)*AllocError\s*=")
NUMBERED = re.compile(r"\bfrom_raw_os_error\b")
FILLED = re.compile(r"\bvec!\[in \w+;[^;\]]*;([^\]]*)\]")
ALIASES = re.compile(r"\bAllocError\s+as\b|\btype\s+\w+[^=;]*=[^;]*\bAllocError\s*;|\bimpl\b[^{;]*\bfor\s+AllocError\b")
FIELD = re.compile(r"\bstruct\b[^{};]*(?:\{[^}]*\bAllocError\b[^}]*\}|\([^;]*\bAllocError\b[^;]*;)")
CONVERSION = re.compile(r"\bimpl(?:<[^{}()]*?>)?\s+From<Alloc(?:Error|Failed<[^>]*>)>\s+for\b[^{;]*\{")

# A caller's collection that rejects items by its contract, as an example of one.
EXCEPTED = {("crates/example_chains/src/collecting.rt", "push_one")}
# A size that is what is held and a caller's number more.
GIVEN = {("crates/fallible_json/src/making.rt", "held.saturating_add(more)")}


@functools.lru_cache(maxsize=None)
def making(variants):
    """Three searches, where these variants say that there was no memory: for what may make a failure, for a variant's name, and
    for one that is made outside of a function."""
    variant = f"(?:{'|'.join(variants)})"
    made = re.compile(
        r"(?P<value>\bAllocError\b(?!\s*::))|(?P<of>\bAllocError\s*::\s*\w+)|(?P<failed>\bAllocFailed\b)"
        rf"|(?P<generic>\b(?:[A-Z]|(?:\w+::)Error)\s*::\s*from\b)|(?P<variant>(?:\w+(?:::<[^<>]*>)?\s*::\s*)*\b{variant}\b)"
    )
    outside = re.compile(rf"\b(?:const|static)\s+\w+\s*:[^;]*=[^;]*\b(?:AllocError|{variant})\b|\buse\b[^;]*\b{variant}\s+as\b|\bmacro_rules!")
    return made, re.compile(rf"\b{variant}\b"), outside


@functools.lru_cache(maxsize=None)
def converted(text):
    """The variants that the conversions of std's error make in a text."""
    text = bare(text)
    bodies = [text[found.end():end_of(text, found.end() - 1)] for found in CONVERSION.finditer(text)]
    return {variant for body in bodies for variant in re.findall(r"\b[A-Z]\w*::([A-Z]\w*)\b", body)}


def variants_of(texts):
    """The variants that say that there was no memory: those of plain names, and those that the conversions of std's error make."""
    return tuple(sorted(set(VARIANTS).union(*map(converted, texts))))


def miscounted(readings):
    """A line for each of the two numbers that isn't so, and for the second one each failure that it counts."""
    reasons, others = sum(reading.reasons for reading in readings), [other for reading in readings for other in reading.others]
    if reasons != REASONS:
        yield f"failures with a reason: {reasons}, and REASONS of tools/refusals/places.py is {REASONS}"
    if len(others) != OTHERS:
        yield f"failures of calls of the code's own: {len(others)}, and OTHERS of tools/refusals/places.py is {OTHERS}"
        yield from others


@dataclasses.dataclass
class Finding:
    """What is wrong at a line of a file, in a function."""

    file: str
    line: int
    function: str
    problem: str

    def __str__(self):
        return f"{self.file}:{self.line}: {self.function}: {self.problem}"


class Reading:
    """A file as it is read for the failures that it makes."""

    def __init__(self, name, text, variants=VARIANTS):
        self.name, self.lines, self.text = name, text.splitlines(), bare(text)
        self.making, self.says, self.outside = making(variants)
        self.found, self.made, self.reasons, self.others = [], 0, 0, []

    def line(self, place):
        """The number of the line of a place."""
        return self.text.count("\n", 0, place) + 1

    def tell(self, place, function, problem):
        """Keeps that something is wrong."""
        self.found.append(Finding(self.name, self.line(place), function, problem))

    def marked(self, place):
        """Whether the comment right above a place gives the reason why there is no memory."""
        at = self.line(place) - 2
        while at >= 0 and self.lines[at].lstrip().startswith("//"):
            if MARK.match(self.lines[at] + " "):
                return True
            at -= 1
        return False

    def read(self):
        """Reads the whole file."""
        for found in ALIASES.finditer(self.text):
            self.tell(found.start(), "-", "AllocError has another name, or gets a call of its own")
        for found in self.outside.finditer(self.text):
            self.tell(found.start(), "-", "a failure is made, or renamed, outside of a function")
        for found in LET.finditer(self.text):
            self.tell(found.start(), "-", "an AllocError has a name of its own")
        for found in NUMBERED.finditer(self.text):
            self.tell(found.start(), "-", "a failure of the system is made of a number")
        for found in FIELD.finditer(self.text):
            self.tell(found.start(), "-", "a field keeps an AllocError for later")
        for function in functions(self.text):
            if not (self.name, function.name) in EXCEPTED:
                self.read_function(function)
        return self

    def read_function(self, function):
        """Reads a function for what it makes, for what it hides, and for how much it asks for."""
        body = self.text[function.first:function.last]
        told = any(pattern.search(body) for pattern in (self.making, TELLING, KEEPS))
        its = list(arms(self.text, function.first, function.last)) if told else []
        hidden = [(found.start(), found.end()) for found in TYPES.finditer(body)]
        for found in self.making.finditer(body):
            place = function.first + found.start()
            in_type = any(first <= found.start() < last for first, last in hidden)
            in_pattern = any(arm.place <= place < arm.place + len(arm.pattern) for arm in its) or self.in_pattern(place)
            if not in_type and not in_pattern:
                self.judge(function, its, place, found)
        self.read_room(function, body)
        self.read_told(function, its)

    def in_pattern(self, place):
        """Whether a place is that of a pattern of a `let`, of an `if let`, of a closure or of `matches!`."""
        begun = re.split(r"[;{}]", self.text[max(0, place - 200):place])[-1]
        return bool(re.search(r"\blet\b[^=]*$|\bmatches!\([^,]*,[^)]*$", begun))

    def judge(self, function, its, place, found):
        """Tells of an allocation failure that isn't made of an allocator's own."""
        self.made += 1
        own = [arm for arm in its if arm.first <= place < arm.last]
        arm = max(own, key=lambda arm: arm.first, default=None)
        after = self.text[place + len(found.group()):]
        named = NAMED.match(after)
        name = named.group(1) if named else None
        if self.in_conversion(place) and not re.search(r"\b(?:if|match)\b", self.text[function.first:place]):
            return
        if found.group("of") and not found.group("of").endswith("from"):
            self.tell(place, function.name, f"{' '.join(found.group().split())} makes a failure of nothing")
        elif found.group("failed"):
            self.tell(place, function.name, "AllocFailed is made by hand")
        elif found.group("of") or found.group("generic"):
            self.judge_conversion(function, place, found, arm, name)
        elif found.group("variant") and name != "_" and name is not None:
            if not self.is_own(arm, name, place):
                self.tell(place, function.name, f"{found.group()}({name}) is of no call's answer")
            elif not self.answers(arm):
                self.comes_of(function, place, arm.matched)
        elif found.group("variant") and CONVERTED.match(after):
            pass  # what is converted is judged where it stands
        elif not (found.group("variant") and (self.answers(arm) or self.is_mapped(place, after))):
            self.judge_reason(function, place, found, arm)

    def comes_of(self, function, place, call):
        """Keeps of which call a failure comes that isn't one of std's that allocates."""
        names = re.findall(r"(\w+!?)(?:::<[^()]*>)?\s*(?=[(\[])", self.outside_brackets(call))
        if not names or names[-1] not in STD:
            other = f"{self.name}:{self.line(place)}: {function.name}: of {' '.join(call.split())}"
            if other not in self.others:
                self.others.append(other)

    def outside_brackets(self, call):
        """A call without what its brackets hold."""
        kept, place = [], 0
        while place < len(call):
            end = end_of(call, place) if call[place] in "([{" else place + 1
            kept.append(call[place:end] if end == place + 1 else call[place] + call[end - 1])
            place = end
        return "".join(kept)

    def call_before(self, place):
        """The call whose failure `.map_err(` hands to what stands at a place."""
        end = self.text.rindex(".map_err(", 0, place)
        first, depth = end, 0
        while first > 0 and (depth or self.text[first - 1] not in ";{}=,([" or self.text[first - 1] in ")]"):
            first -= 1
            depth += {")": 1, "]": 1, "(": -1, "[": -1}.get(self.text[first], 0)
        return self.text[first:end]

    def judge_conversion(self, function, place, found, arm, name):
        """Tells of a conversion of something that no call answered with."""
        if self.is_mapped(place, self.text[place + len(found.group()):]):
            self.comes_of(function, place, self.call_before(place))
            return
        # of a type parameter only what an arm of a refusal binds is of interest
        if found.group("generic") and (name is None or "AllocError" not in self.text):
            return
        if not self.is_own(arm, name, place):
            self.tell(place, function.name, f"{' '.join(found.group().split())}({name or ''}) is of no call's answer")
        else:
            self.comes_of(function, place, arm.matched)

    def is_mapped(self, place, after):
        """Whether a call's failure is handed to what stands at a place, as in `.map_err(AllocError::from)`."""
        return re.search(r"\)\s*\.map_err\($", self.text[max(0, place - 40):place]) is not None and after.startswith(")")

    def is_own(self, arm, name, place):
        """Whether a name is what the arm bound of a call's answer, and nothing else since."""
        if arm is None or arm.guard or not self.is_answer(arm):
            return False
        bound = BINDS.fullmatch(arm.pattern)
        return bool(bound) and bound.group(1) == name and not re.search(rf"\b{name}\b\s*[:=]", self.text[arm.first:place])

    def is_answer(self, arm):
        """Whether a match is of one call, or of a name, as of a parameter."""
        return is_call(arm.matched) or re.fullmatch(r"\w+", arm.matched) is not None

    def is_failure(self, arm):
        """Whether an arm is that of a call's failure, or of its `None`."""
        return self.is_answer(arm) and re.match(r"(?:Err\(|None$|\w+::)", arm.pattern) is not None

    def answers(self, arm):
        """Whether the arm's own pattern says that there was no memory, and nothing else."""
        if arm is None or arm.guard or not self.is_answer(arm):
            return False
        if arm.pattern == "Err(_)" and FOR_MEMORY_ALONE.match(arm.matched):
            return True
        inner = re.fullmatch(r"Err\((.*)\)", arm.pattern)
        return all(self.says.search(part) for part in (inner.group(1) if inner else arm.pattern).split("|"))

    def judge_reason(self, function, place, found, arm):
        """Tells of a failure that no answer is at hand for, unless its reason is given and it stands right after a call."""
        what = " ".join(found.group().split())
        inside = arm.first if arm else function.first
        tests = CONDITION.search(self.text[inside:self.begin_of(place, inside)])
        called = arm.matched if arm else ""
        if tests:
            called = tests.group("called").strip()
            plain = is_call(called.removesuffix(".is_err()")) and (called.endswith(".is_err()") or tests.group("not"))
            at = inside + tests.start()
        else:
            plain = arm is not None and not arm.guard and self.is_failure(arm) and not self.is_tested(arm, place)
            at = arm.place if arm else place
        if not plain:
            self.tell(place, function.name, f"{what} is made of nothing")
        elif not self.marked(at):
            self.tell(place, function.name, f"{what} is made, and no line `// No memory: ..` above says why")
        else:
            self.reasons += 1
            self.comes_of(function, place, called.removesuffix(".is_err()"))

    def begin_of(self, place, inside):
        """Where the expression begins in which a failure is made: before `Err(` and such around it."""
        return place - len(re.search(r"(?:[\w:]+(?:::<[^()]*>)?\s*\(\s*)*$", self.text[inside:place]).group())

    def is_tested(self, arm, place):
        """Whether an `if` stands between the arm's begin and a place."""
        return re.search(r"\bif\b", self.text[arm.first:place]) is not None

    def in_conversion(self, place):
        """Whether a place is in an impl of the conversion of a refusal."""
        return any(found.end() <= place < end_of(self.text, found.end() - 1) for found in CONVERSION.finditer(self.text, 0, place))

    def read_room(self, function, body):
        """Tells of a request whose size is a number that the body made."""
        asked = []
        for found in ROOM.finditer(body):
            sizes = [size.strip() for size in self.arguments(found.group(2))]
            asked.append((found.start(), sizes[0] if found.group(1) in FIRST else sizes[-1]))
        for found in UNSIZED.finditer(body):
            self.tell(function.first + found.start(), function.name, f"how much {found.group(1)} asks for isn't known")
        asked += [(found.start(), found.group(1).strip()) for found in FILLED.finditer(body)]
        for at, size in asked:
            capped = re.search(r"\.min\((\d[\d_]*)\)$", size)
            of = re.match(r"(\w+)", size)
            given = of and re.search(rf"\b{of.group(1)}\s*:", function.head) and not re.search(rf"\blet\s+(?:mut\s+)?{of.group(1)}\b", body)
            small = re.fullmatch(r"\d[\d_]*", size) and int(size.replace("_", "")) <= 65536
            if (self.name, size) in GIVEN or not size:
                continue
            if OVERSIZED.search(size) or not (small or given and (re.fullmatch(r"\w+(?:\.len\(\))?", size) or capped and int(capped.group(1).replace("_", "")) <= 65536)):
                self.tell(function.first + at, function.name, f"it asks for room for {size}, which no caller gave")

    def arguments(self, text):
        """The arguments of a call, apart."""
        found, place, begin = [], 0, 0
        while place < len(text):
            if text[place] == ",":
                found.append(text[begin:place])
                begin = place + 1
            place = end_of(text, place) if text[place] in "([{" else place + 1
        return [*found, text[begin:]]

    def read_told(self, function, its):
        """Tells of a want of memory that is told as something else."""
        for arm in its:
            body = self.text[arm.first:arm.last].strip()
            if "OutOfMemory" in arm.pattern and (arm.guard or not re.fullmatch(rf"(?:Err\()?\w+::{self.says.pattern}\)?", body)):
                self.tell(arm.place, function.name, "want of memory is told as something else")
            if arm.pattern.startswith("Err(") and TELLING.search(arm.matched):
                name = arm.pattern.removeprefix("Err(").removesuffix(")")
                kept = [used for found in KEEPS.findall(body) for used in found if used]
                if name not in kept:
                    self.tell(arm.place, function.name, f"whether {arm.matched} had no memory is lost")
        # a kind of std's that becomes a fault
        matched = {}
        for arm in its:
            if arm.matched.endswith(".kind()") and "Fault" in function.head:
                matched.setdefault(arm.matched, []).append(arm)
        for expression, those in matched.items():
            if not any("OutOfMemory" in arm.pattern for arm in those):
                self.tell(those[0].place, function.name, f"{expression} is read, and not for want of memory")
