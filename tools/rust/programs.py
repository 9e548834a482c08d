"""The crates of programs: what readers and programs share, tokens of JSON, rows of PostgreSQL, and a package with the programs. Memory may
be refused in them (`otherwise.py`), and what needs std in the first three stands behind a feature (`features.py`)."""
import re
from pathlib import Path

import bodies
import compare
import erase
import otherwise
import page
from features import Crate
from source import Refused, Text, functions, read, use_names

STATIC = Path(__file__).parent / "static"
# The crates, each with the Rattle libraries that it is made of, and its programs.
LIBRARIES = {"program-io": "program_io", "fallible-json": "fallible_json", "fallible-pg": "fallible_pg"}
PACKAGE = "programs"
WITHIN = ["fallible_elf", "fallible_rows", "fallible_table"]
PROGRAMS = ["count_rows", "elf_tables", "json_tokens", "pg_rows", "sum_groups", "sum_table"]
CRATES = [*LIBRARIES, PACKAGE]
# A program by hand over one of them.
CLIENT = "pg-login"
# Those whose comments have the clauses.
CONTRACTS = ["fallible-json", "fallible-pg"]
LINTS = """#![forbid(unsafe_code)]
// The bodies stay as they are proved, where a proof may count by a loop's variable.
#![allow(unused_variables, clippy::complexity, clippy::manual_unwrap_or_default, clippy::perf, clippy::style)]
"""
HEAD = """#![doc = include_str!("../README.md")]
#![no_std]
#![cfg_attr(docsrs, feature(doc_cfg))]
#![warn(missing_debug_implementations, missing_docs)]
%s#![cfg_attr(not(feature = "std"), allow(dead_code, unused_imports))]

extern crate alloc;
#[cfg(feature = "std")]
extern crate std;

""" % LINTS
# What a `no_std` file imports that Rattle has in scope.
PRELUDE = {"Vec": "alloc::vec::Vec", "String": "alloc::string::String", "Box": "alloc::boxed::Box", "ToString": "alloc::string::ToString"}
# Traits, whose import no line need name.
TRAITS = {"Read", "Write", "BufRead", "Seek", "FromStr", "ToString", "OpenFile", *otherwise.TRAITS}
# Of what any `fallible-iterator` shows.
SHOWN = [(r"\.draw\(\)", ".next()"), (r"\.draw_back\(\)", ".next_back()"), (r"\bconvert_fused\b", "convert")]
WORD = [
    # A text is shown by std's `write_fmt`, which takes what `format_args!` makes.
    (r"\bself\.write_fmt\((\w+)\)", r'write!(self, "{\1}")'),
    (r"^use std::env::\{Args, Env\};\n", ""),
    (r"^use std::fs::\{File, OpenFile\};\n", "use crate::runtime::{Args, Env, File, Files, OpenFile, env};\n"),
    (r"^use std::rt::Files;\n", ""),
    (r"^use std::\{env, io\};\n", "use std::io;\n"),
    (r"^use std::env::Args;\n", "use program_io::runtime::Args;\n"),
    # What has no comment, and a sentence of Rattle alone.
    (r"^(pub struct Lent<'a, R> \{\n)(?=    pub reader)", r"\1    /// The reader.\n"),
    (r" ?\bIt states no bound, so it is drained through `take`\.", ""),
    (r" ?\(`law_\w+`\)", ""),
]
# Calls that have another name, since that is what a user of Rust looks for first.
RENAMED = [(r"\bfn new(?=\(reader: R\) -> Messages<R>)", "fn unbuffered"), (r"\bMessages::new\(", "Messages::unbuffered(")]
# What most types have: of each, by its name.
DERIVED = {
    "Debug": "Lent Buffered Messages Rows Refusal Input Given", "Clone, Debug": "PlacedBytes Texts Nesting Cells Columns Bytes",
    "Clone, Debug, PartialEq, Eq": "CheckedToken Message Row Reply",
}
DERIVES = [(r"^(?:#\[derive\(Debug\)\]\n|(?<!#\[derive\(Debug\)\]\n))(?=pub(?:\(crate\))? (?:struct|enum) (?:%s)\b)" % names.replace(" ", "|"), "#[derive(%s)]\n" % traits)
         for traits, names in DERIVED.items()]
WORD += [(r"^#\[derive\(Clone, Copy(?:, PartialEq, Eq)?(?=\)\]\npub\(crate\) enum (?:Container|Expects)\b)", r"\g<0>, Debug"),
         (r"(?s)\A.*^pub struct Tokens<.*\Z", r"\g<0>" + (STATIC / "pieces/tokens.rs").read_text(encoding="utf-8")),
         (r"(?s)\A.*^pub struct CheckedTokens<.*\Z", r"\g<0>" + (STATIC / "pieces/checked_tokens.rs").read_text(encoding="utf-8")),
         # What is written by hand uses it too.
         (r"^fn (?=(?:field|is_copy|is_call)\()", "pub(crate) fn "),
         # A reader of std has no buffer that it tells of.
         (r"^( *)/// The messages of this reader\. It reads nothing\.(?=\n(?:.*\n)*? *pub fn new\(reader: R\) -> Messages<R>)",
          r"\1/// The messages of this reader, with no buffer before it: a reader of std is asked for one byte a call, and no byte after a message is read. It reads nothing."),
         *RENAMED,
         (r"^use fallible_json::\{MakeTexts, Prints, run\};", "use fallible_json::Prints;\nuse fallible_json::programs::{MakeTexts, run};")]
# What stands in a crate by hand: its modules, and what its root shows.
OWN = {
    "program-io": 'mod errors;\npub mod failed;\npub mod memory;\n#[cfg(feature = "std")]\npub mod runtime;\n',
    "fallible-json": "mod calls;\nmod errors;\n",
    "fallible-pg": '#[cfg(feature = "std")]\nmod buffering;\nmod errors;\n',
}
SHOWS = {
    "fallible-json": """
pub use calls::{Texts, Unminified, json_of, minify};
#[cfg(feature = "std")]
pub use calls::run;
#[cfg(feature = "std")]
pub use program_io::fault::RunFault;
pub use program_io::memory::{AllocError, Fault};
#[cfg(feature = "std")]
pub use program_io::failed::{ReadFailed, WriteFailed};

// What the program `json_tokens` goes by.
#[cfg(feature = "std")]
#[doc(hidden)]
pub mod programs {
    pub use crate::making::MakeTexts;
    pub use crate::report::run;
}
""",
    "fallible-pg": """
#[cfg(feature = "std")]
pub use program_io::failed::WriteFailed;
#[cfg(feature = "std")]
pub use program_io::fault::RunFault;
pub use program_io::memory::AllocError;
#[cfg(feature = "std")]
pub use program_io::reading::Buffered;
pub use program_io::reading::{Bytes, Lent, ReadByte, ReadFailed};
""",
}
# What the comment of a proved call says of its signature, where a call by hand has another.
ALONE = [("As it is proved, in", "As it is proved, where its signature is another, in"), (" or `maker` has none", "")]
# What no user needs of a root.
HIDES = {"fallible-json": r"^pub use (?:json::MakeJson|making::MakeTexts|report::run|texts::Texts);\n|(?<=minifying::)\{Misplaced, minify\}|(?<=report::)\{Prints, run\}"}
# In a manifest, where each crate is and what it is asked for.
NEEDED = {
    "fallible_iterator": 'fallible-iterator = { version = ">=0.2, <0.4", default-features = false }',
    "fallible_itertools": 'fallible-itertools = { version = "0.1.0", path = "../fallible-itertools", default-features = false, features = ["alloc"] }',
    "program_io": 'program-io = { version = "0.1.0", path = "../program-io", default-features = false%s }',
    "fallible_json": 'fallible-json = { version = "0.1.0", path = "../fallible-json" }',
    "fallible_pg": 'fallible-pg = { version = "0.1.0", path = "../fallible-pg" }',
}


def sources(top, name):
    """The files of a Rattle crate, by their paths, without its laws."""
    src, files = top / "crates" / name / "src", {}
    for path in sorted(src.rglob("*.rt")):
        rel = path.relative_to(src).with_suffix(".rs")
        if rel.parts[0] not in ("laws", "laws.rs"):
            files[str(rel)] = read(path, str(path.relative_to(top)))
    if not files:
        raise Refused("%s:1: there is no such crate" % src)
    return files


def replaced(text, rules):
    """Applies rules to a text, wherever they fit."""
    for pattern, new in rules:
        for m in reversed(list(re.finditer(pattern, text.s, re.M))):
            text.replace(m.start(), m.end(), m.expand(new))


def of_std(text, no_std):
    """The paths of std, and what Rattle has in scope."""
    replaced(text, SHOWN + WORD)
    if not no_std:
        return
    replaced(text, DERIVES)
    replaced(text, [(r"\bstd::(?!(?:io|env|fs|process|net|time|error|os|thread|collections|string|vec|boxed)\b)(?=\w)", "core::"),
                    (r"\bstd::(?=(?:string|vec|boxed)::)", "alloc::")])
    rest = re.sub(r"//.*", "", text.s)
    for name, path in PRELUDE.items():
        if re.search(r"\b%s\b" % name, rest) and not re.search(r"^use [^;]*\b%s\b" % name, rest, re.M):
            at = re.search(r"^(?:pub )?use |^(?=(?:///|//(?!!)|#\[|pub |fn |const |struct |enum |impl|trait ))", text.s, re.M).start()
            text.replace(at, at, "use %s;\n" % path)


def used_alone(text, traits, whole):
    """Leaves out the imports and the constants that nothing uses: a clause or a law did. `whole` is the text of the crate."""
    for m in reversed(list(re.finditer(r"(?:^//.*\n)*^(?:pub\(crate\) )?const (\w+): [^;]*;\n\n?", text.s, re.M))):
        if len(re.findall(r"\b%s\b" % m.group(1), whole)) == 1:
            text.replace(m.start(), m.end(), "")
    rest = re.sub(r"^(?:pub(?:\([^)]*\))? )?use [^;]*;", "", re.sub(r"//.*", "", text.s), flags=re.M)
    for m in reversed(list(re.finditer(r"^use ([^;]*);\n", text.s, re.M))):
        found = list(use_names(m.group()))
        stay = [p for p in dict.fromkeys(found) if p.split("::")[-1] in traits or re.search(r"\b%s\b" % p.split("::")[-1], rest)]
        if stay != found:
            text.replace(m.start(), m.end(), "".join("use %s;\n" % p for p in stay))


def made(top, crate, name, docs, home, no_std):
    """The files of a Rattle crate as Rust by their paths, and how many of their bodies are the proved ones, with the others."""
    files = sources(top, name)
    proved = {path: text.s for path, text in files.items()}
    for text in files.values():
        erase.erase(text)
    why = bodies.to_rust(crate, files, name)
    owned, whole = otherwise.own_methods(files.values()), "\n".join(text.s for text in files.values())
    for text in files.values():
        erase.numbers_of_file(text)
    otherwise.refusing(files, home)
    traits = TRAITS | set(re.findall(r"\btrait (\w+)", "\n".join(p.read_text(encoding="utf-8") for p in (top / "crates").glob("*/src/**/*.rt"))))
    for text in files.values():
        otherwise.failing(text, home)
        otherwise.older(text)
        of_std(text, no_std)
    whole = re.sub(r"^use [^;]*;", "", "\n".join(text.s for text in files.values()), flags=re.M)
    for text in files.values():
        used_alone(text, traits, whole)
    if "main.rs" in files:
        begun(files["main.rs"])
    written = {path: Text(text.place, docs.rewrite(text, proved[path] if crate in CONTRACTS else "")) for path, text in files.items()}
    same = compare.compare({path: text.s for path, text in written.items()},
                           {path: renamed(path, s, owned, whole, home) for path, s in proved.items()}, why)
    return written, same


def renamed(path, s, owned, whole, home):
    """A proved file as it is but for allocators and names."""
    text = Text(path, otherwise.renamed(path, s, owned, whole))
    otherwise.failing(text, home)
    otherwise.older(text)
    replaced(text, SHOWN + RENAMED + [(r"^fn main\(rt: HostRuntime\)", "fn started(rt: HostRuntime)")])
    return text.s


def library(top, crate, docs, outside):
    """A crate that is one library. `outside` gets what of it needs std."""
    name = LIBRARIES[crate]
    files, same = made(top, crate, name, docs, "crate" if crate == "program-io" else "program_io", True)
    root = files["lib.rs"]
    head = re.match(r"(?://!.*\n)+\n?", root.s)
    root.replace(0, head.end() if head else 0, HEAD + OWN[crate] + "#[cfg(doc)]\npub mod words;\n" * (crate in CONTRACTS))
    for m in reversed(list(re.finditer(HIDES.get(crate, r"\A\Z\A"), root.s, re.M))):
        root.replace(m.start(), m.end(), re.sub(r"\{(\w+), \w+\}|.*\n", r"\1", m.group()))
    split = Crate(files, outside | ({"crate::runtime::" + x for x in "Args Env File Files OpenFile env".split()}))
    split.mark()
    root.replace(len(root.s), len(root.s), SHOWS.get(crate, ""))
    outside |= split.exported(name)
    made_of = {"src/" + path: text.s for path, text in files.items()}
    for path in (STATIC / crate / "src").glob("*.rs"):
        made_of["src/" + path.name] = commented(path.read_text(encoding="utf-8"), made_of, path)
    return made_of, same


def commented(s, files, place):
    """A file by hand, in which a call has the comment of the proved one that it stands for: `//= json.rs MakeJson.json_of`."""
    def of(m):
        path, name = m.group(1, 2)
        text = files.get("src/" + path, "")
        found = [f for f in functions(text) if bodies.short(f) == name]
        if len(found) != 1:
            raise Refused("%s: `%s` stands %d times in %s" % (place, name, len(found), path))
        said = re.sub(r"^ +", "", text[found[0].docs[0]:found[0].docs[1]], flags=re.M)
        for old, new in ALONE:
            said = said.replace(old, new)
        return said
    return re.sub(r"^//= (\S+) (\S+)\n", of, s, flags=re.M)


def within(text, name):
    """A file of a library as a module of the package."""
    replaced(text, [(r"(?<![\w:])crate::", "crate::%s::" % name)])


def package(top, docs):
    """The package of the programs."""
    out, same, rows = {}, 0, {}
    for name in WITHIN:
        files, (alike, others) = made(top, PACKAGE, name, docs, "program_io", False)
        same, rows = same + alike[0], merged(rows, others)
        for path, text in files.items():
            within(text, name)
            replaced(text, [(r"\A((?://!.*\n)+)\n?#!\[.*\]\n", r"\1")])
            out["src/" + (name + ".rs" if path == "lib.rs" else "%s/%s" % (name, path))] = text.s
    for name in PROGRAMS:
        files, (alike, others) = made(top, PACKAGE, name, docs, "program_io", False)
        same, rows = same + alike[0], merged(rows, others)
        for path, text in files.items():
            replaced(text, [(r"(?<![\w:])(%s)::" % "|".join(WITHIN), r"fallible_programs::\1::")])
            out["src/bin/%s/%s" % (name, path)] = text.s
    out["src/lib.rs"] = '#![doc = include_str!("../README.md")]\n%s\n%s' % (LINTS, "".join("pub mod %s;\n" % name for name in WITHIN))
    return out, ((same, 0), rows)


def begun(text):
    """The root of a program: its proved `main` is called with the runtime."""
    replaced(text, [(r"^#!\[.*\]\n", ""), (r"\A((?://!.*\n)+)", r"\1" + LINTS.replace("\\", "\\\\")),
                    (r"^fn main\(rt: HostRuntime\)", "fn main() -> ExitCode {\n    started(HostRuntime)\n}\n\nfn started(rt: HostRuntime)"),
                    (r"^(?=use std::process::ExitCode;)", "use program_io::runtime::HostRuntime;\n")])


def merged(rows, more):
    """The rows of both."""
    return {key: [*rows.get(key, []), *more.get(key, [])] for key in [*rows, *(k for k in more if k not in rows)]}


def needed(files, crate):
    """The lines of a manifest for the crates that files name."""
    names = {x for path, s in files.items() if path.startswith("src/") for x in re.findall(r"(?<![\w:])(\w+)::", re.sub(r"//.*", "", s))}
    std = ', features = ["std"]' if crate == PACKAGE else ""
    return "\n".join(line % std if "%s" in line else line for name, line in NEEDED.items()
                     if name in names and name != crate.replace("-", "_"))


def every_file(top, docs, below):
    """All files of these crates by path, and of each how its bodies compare. `below` names the proved crates below all of them."""
    out, same, outside = {}, {}, set()
    for crate in CRATES:
        files, same[crate] = package(top, docs) if crate == PACKAGE else library(top, crate, docs, outside)
        if crate in CONTRACTS:
            files["src/words.rs"] = page.words(top, files, [LIBRARIES[crate], "program_io", *below])
        for path in sorted((STATIC / crate).rglob("*")):
            rel = str(path.relative_to(STATIC / crate))
            if path.is_file() and rel.removesuffix(".in") not in files:
                files[rel.removesuffix(".in")] = path.read_text(encoding="utf-8")
        files["Cargo.toml"] = files["Cargo.toml"].replace("@NEEDED@", needed(files, crate))
        files.update(page.licences(top, False))
        out.update(("%s/%s" % (crate, path), s) for path, s in files.items())
    client = {str(path.relative_to(STATIC / CLIENT)).removesuffix(".in"): path.read_text(encoding="utf-8")
              for path in sorted((STATIC / CLIENT).rglob("*")) if path.is_file()}
    out.update(("%s/%s" % (CLIENT, path), s) for path, s in {**client, **page.licences(top, False)}.items())
    return out, same


def table(same):
    """How many bodies of each crate are the proved ones, and the lists of the others."""
    alike = ", ".join("%d of `%s`" % (count, crate) for crate, ((count, _), _) in same.items())
    others = {}
    for crate, (_, rows) in same.items():
        once = {reason: list(dict.fromkeys(names)) for reason, names in rows.items()}
        for how, lines in compare.listed(once, " of `%s`" % crate).items():
            others.setdefault(how, []).extend(lines)
    return "\n\n".join(["Of the crates of programs these bodies are word for word the proved ones, but for allocators, names of calls, what a failed "
                        "read or write keeps, and `let .. else`, which is a `match`: %s. These are not." % alike, *compare.parts(others)])
