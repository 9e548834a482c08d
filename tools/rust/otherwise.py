"""What the crates of programs write otherwise.

- Memory that may be refused. In Rattle each call that takes memory names an allocator, and returns a failure where that refuses. Here
  no allocator is passed, and such a call is the one of `program_io::memory` that fails too.
- Failed reads and writes. In Rattle a fault of one has no value. Here it is a `ReadFailed` or a `WriteFailed`, which has std's error,
  and each fault that is made of it hands that on.
- What the oldest rustc doesn't have: `let .. else` is a `match`, and a condition after an `if let` is one within it."""
import re

from source import Refused, Text, after_braces, functions, use_names
from suite import closing

# Calls that may be refused, and those that stand in their place. Of a method the receiver is a std collection's.
METHODS = {"push": "try_push", "extend_from_slice": "try_extend_from_slice", "reserve": "try_make_room", "resize": "try_resize",
           "push_str": "try_push_str"}
FUNCTIONS = {
    "Vec::from_slice": "Vec::try_from_slice", "Vec::with_capacity": "Vec::try_with_room", "String::from_str": "String::try_from_str",
    "BufReader::new": "BufReader::try_new", "BufReader::with_capacity": "BufReader::try_with_buffer",
}
# The trait of `program_io::memory` that has each of them.
TRAITS = {
    "TryVec": r"\.try_push\(|\.try_extend_from_slice\(|\.try_make_room\(|\.try_resize\(|\bVec::try_\w+\(",
    "TryString": r"\.try_push_str\(|\bString::try_\w+\(",
    "TryCollect": r"\.try_collect\(",
    "TryBuffer": r"\bBufReader::try_\w+\(",
}
HANDLE = r"(?:rt\.alloc\(\)|self\.alloc|alloc)"
UNALLOCATED = [
    # A text, and so many of an item.
    (r"\bformat!\(in %s;\s*" % HANDLE, "String::try_format(format_args!("),
    (r"\bvec!\[in %s; ([^;\]]*); ([^\]]*)\]" % HANDLE, r"Vec::try_filled(\1, \2)"),
    (r"\.collect\(\s*%s\s*\)" % HANDLE, ".try_collect()"),
    # Fields and parameters, and what hands them on.
    (r"^(?:[ \t]*//.*\n)?[ \t]*(?:pub(?:\(crate\))? )?alloc: Global,\n", ""),
    (r"\balloc: Global(?:,\s*)?(?=[\w&)])", ""),
    (r",\s*alloc: Global(?=\s*,?\s*\))", ""),
    (r"(?<=\()\s*%s,\s*" % HANDLE, ""),
    (r"(?<=\()%s(?=\))" % HANDLE, ""),
    (r",\s*%s(?=\s*,?\s*\))" % HANDLE, ""),
    (r",\s+%s(?=,\s)" % HANDLE, ""),
    (r"^[ \t]*alloc(?:: [\w.()]+)?,\n", ""),
    (r", alloc(?= \})", ""),
    (r"(?:^[ \t]*// Unused: .*\n)?^[ \t]*let _ = alloc;\n", ""),
    # A type asks for nothing that only an allocator has.
    (r" \+ AllocGlobal\b", ""),
    (r"^[ \t]*[\w:]+::Error: From<AllocError>,\n", ""),
    (r" \+ From<AllocError>(?=[>,])", ""),
    (r", Global>", ">"),
    # Laws are called for their clauses alone.
    (r"^ *law_\w+(?:::<[^;]*>)?\([^;]*\);\n", ""),
    (r"^use [\w:]+::law_\w+;\n|^use [\w:]+::\{law_\w+\};\n", ""),
    (r"\blaw_\w+, |,\s*law_\w+(?=[,}])", ""),
]
OF_GLOBAL = re.compile(r"^impl(?:<[^{]*>)? \w+ for Global \{(?:\n|    .*\n|  *\n)*\}", re.M)
# How a std collection is declared by its name.
COLLECTION = r"\b%s\b(?:: (?:&(?:'\w+ )?(?:mut )?)?(?:\w+::)*(?:Vec|VecDeque|String)\b| = (?:match )?(?:Vec|VecDeque|String)::|: Vec::)"


def own_methods(files):
    """The methods of one's own types, by name."""
    return {f.name for text in files for f in functions(text.s) if f.label and "self" in text.s[f.start:f.open or f.end]}


def is_collection(s, i, whole):
    """Whether the receiver that ends at i is a std collection: by how its name is declared in the function, or else in the crate."""
    name = re.search(r"(\w+)\s*$", s[:i])
    if not name:
        return True
    inside = next((s[f.start:f.end] for f in functions(s) if f.start <= i < f.end), s)
    declared = COLLECTION % re.escape(name.group(1))
    return bool(re.search(declared, inside) or re.search(declared, whole))


def named(text, owned, whole):
    """The calls by their names in `program_io::memory`."""
    for old, new in METHODS.items():
        for m in reversed(list(re.finditer(r"\.%s\(" % old, text.s))):
            if old not in owned or is_collection(text.s, m.start(), whole):
                text.replace(m.start(), m.end(), ".%s(" % new)
    for old, new in FUNCTIONS.items():
        for m in reversed(list(re.finditer(r"\b%s(?=\()" % old, text.s))):
            text.replace(m.start(), m.end(), new)


def without_allocators(text):
    """The text with no allocator passed."""
    for m in reversed(list(OF_GLOBAL.finditer(text.s))):
        new = re.sub(r"(?<=\()\*self,\s*|,\s*\*self(?=\s*,?\s*\))", "", m.group())
        text.replace(m.start(), m.end(), new)
    for pattern, new in UNALLOCATED:
        for m in reversed(list(re.finditer(pattern, text.s, re.M))):
            if "format_args" in new:
                end = closing(text.s, text.s.index("(", m.start()))
                text.replace(end, end, ")")
            text.replace(m.start(), m.end(), m.expand(new))


def imported(text, home):
    """The imports of what is of `program_io::memory`."""
    wanted = set()
    for m in reversed(list(re.finditer(r"^use ((?:std::alloc|fallible_iterator)::[^;]*);\n", text.s, re.M))):
        found = list(use_names("use %s;" % re.sub(r"\s+", " ", m.group(1))))
        moved = {p for p in found if p.startswith("std::alloc::") or p == "fallible_iterator::Fault"}
        wanted |= {p.split("::")[-1] for p in moved}
        left = [p.removeprefix("fallible_iterator::") for p in found if p not in moved]
        text.replace(m.start(), m.end(), "use fallible_iterator::{%s};\n" % ", ".join(left) if left else "")
    rest = re.sub(r"^(?:pub )?use [^;]*;", "", re.sub(r"//.*", "", text.s), flags=re.M)
    wanted = {x for x in wanted if re.search(r"\b%s\b" % x, rest)}
    wanted |= {trait for trait, calls in TRAITS.items() if re.search(calls, rest)}
    if re.search(r"(?<!::)\bGlobal\b", rest):
        wanted.add("Global")
    if wanted:
        at = re.search(r"^(?:pub )?use |^(?=(?:///|//(?!!)|#\[|pub |fn |const |struct |enum |impl|trait ))", text.s, re.M).start()
        text.replace(at, at, "use %s::memory::{%s};\n" % (home, ", ".join(sorted(wanted))))


def refusing(files, home):
    """Has files go by memory that may be refused. `home` is where `memory` is."""
    owned, whole = own_methods(files.values()), "\n".join(text.s for text in files.values())
    for text in files.values():
        named(text, owned, whole)
        without_allocators(text)
        imported(text, home)


def renamed(place, s, owned, whole):
    """A proved file with the calls by their names in Rust, and no allocator."""
    text = Text(place, s)
    named(text, owned, whole)
    without_allocators(text)
    return text.s


# The enums that tell of a failed read, and what hands one on.
ENUMS = r"RunFault<F>|PgFault|Broken|Unread"
TOLD = r"(?:RunFault::Read|PgFault::Read|Broken::Read|Unread::Failed)"
HANDED_ON = [
    (r"\bfault_of_read\(&(\w+)\)", r"fault_of_read(\1)"),
    (r"\b(fn fault_of_read<F>\(error: )&(?=io::Error\b)", r"\1"),
    (r"(ErrorKind::OutOfMemory => RunFault::Memory,\s*_ => RunFault::Read)\b", r"\1(error.into())"),
    # What tells of it by its kind alone.
    (r"\b(RunFault::Read)(?= => (?:\d|\w+\.))", r"\1(_)"),
    (r"(\| RunFault::Read)(?= =>)", r"\1(_)"),
    (r"\b(RunFault::Write)(?= => (?:\d|\w+\.))", r"\1(_)"),
    (r"(\| RunFault::Write)(?= =>)", r"\1(_)"),
    # What makes one of another.
    (r"\bErr\(_\) => ((?:Err\()?)RunFault::Write\b(?!\()", r"Err(error) => \1RunFault::Write(error.into())"),
    (r"\bErr\(RunFault::Write\) => Err\(RunFault::Write\)", r"Err(RunFault::Write(failed)) => Err(RunFault::Write(failed))"),
    (r"\bErr\(_\) => Err\((%s)\)" % TOLD, r"Err(failed) => Err(\1(failed))"),
    (r"\bErr\((%s)\) => Err\((%s)\)" % (TOLD, TOLD), r"Err(\1(failed)) => Err(\2(failed))"),
    (r"(?<![\w(])(%s) => (%s)(?![\w(])" % (TOLD, TOLD), r"\1(failed) => \2(failed)"),
    # One of which std has no error.
    (r"\b(%s)(?![\w(])" % TOLD, r"\1(HOME::failed::ReadFailed::new())"),
    (r"\bRunFault::Write\b(?!\()", "RunFault::Write(HOME::failed::WriteFailed::new())"),
]
DECLARED = [
    (r"^#\[derive\([^\]]*\)\]\n(?=pub enum (?:%s) \{)" % ENUMS, "#[derive(Debug)]\n"),
    (r"^(    /// A read failed\.\n    (?:Read|Failed)),$", r"\1(HOME::failed::ReadFailed),"),
    (r"^(    /// The report could not be written\.\n    Write),$", r"\1(HOME::failed::WriteFailed),"),
    (r"^/// A read failed\.\n#\[derive\(Debug\)\]\npub struct ReadFailed;\n", "pub use crate::failed::ReadFailed;\n"),
    (r"^(// One read, for one byte\.) An interrupted read fails too\.$", r"\1 An interrupted read is tried again."),
]


def failing(text, home):
    """Has a file hand on what a failed read has. `home` is where `failed` is."""
    own = re.search(r"^pub enum (?:%s) \{" % ENUMS, text.s, re.M)
    for pattern, new in (DECLARED if own or "pub struct ReadFailed;" in text.s else []) + HANDED_ON:
        for m in reversed(list(re.finditer(pattern, text.s, re.M))):
            if not text.s[text.s.rfind("\n", 0, m.start()) + 1:m.start()].lstrip().startswith("//"):
                text.replace(m.start(), m.end(), m.expand(new).replace("HOME", home))


LET = re.compile(r"\blet\s+((?:Some|Ok|Err)\b[^=;]*?)\s*=\s*([^;{}]*?)\s*\belse\s*\{")
CHAIN = re.compile(r"\bif\s+(let\s+[^=;{}]*=\s*[^;{}&|]*?)\s*&&\s*([^;{}]*?)\s*\{")
BOUND = re.compile(r"\b(?!mut\b|ref\b)[a-z_]\w*\b(?!\s*[({:])")


def older(text):
    """Rewrites what the oldest rustc doesn't have."""
    for m in reversed(list(LET.finditer(text.s))):
        end = after_braces(text.s, m.end() - 1)
        if text.s[end:end + 1] != ";":
            raise Refused("%s: older: a `let .. else` that ends otherwise" % text.at(m.start()))
        names = BOUND.findall(m.group(1))
        bound = names[0] if len(names) == 1 else "(%s)" % ", ".join(names)
        block = text.s[m.end() - 1:end]
        text.replace(m.start(), end, "let %s = match %s { %s => %s, _ => %s }" % (bound, m.group(2), m.group(1), bound, block))
    for m in reversed(list(CHAIN.finditer(text.s))):
        end = after_braces(text.s, m.end() - 1)
        if re.match(r"\s*else\b", text.s[end:]):
            raise Refused("%s: older: a chain of `if let` with an `else`" % text.at(m.start()))
        text.replace(m.start(), end, "if %s { if %s %s }" % (m.group(1), m.group(2), text.s[m.end() - 1:end]))
