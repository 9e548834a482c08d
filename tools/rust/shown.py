"""Bodies that are not the proved ones: the clauses that each must meet, and a test that runs it.

The crates are written with a note in each such body of the test that is in it, and their tests are run. `static/shown.txt` keeps of each
body the test that is in fewest of them, beside which a table stands."""
import os
import re
import subprocess
import tempfile
from collections import defaultdict
from pathlib import Path

from compare import by_name
from source import Refused, functions

SHOWN = Path(__file__).parent / "static/shown.txt"
CLAUSE = re.compile(r"ensures\*?\s*(\w*)\s*\{\s*(?:\([^)]*\)[^{}]*?)?([\w.]*)")
# What a clause without a name may begin with that says nothing of it.
UNNAMED = dict.fromkeys(("IfOk", "MatchResult", "result", "items.new.items"), "ensures")
HEAD = """What each body of the first two crates that is changed or new must meet, by the clauses of the proved call, and a test that runs it, \
which compares what comes of it. `ensures` is a clause without a name. A dash: it is a part of others, or written by a macro.

| Body | Clauses | Test |
|---|---|---|
"""
NOTE = """
/// Notes the test that is in a body, once for each thread.
#[cfg(feature = "std")]
#[doc(hidden)]
pub fn ran_by_hand(body: &'static str) {
    use std::io::Write;
    std::thread_local!(static SEEN: core::cell::RefCell<std::collections::HashSet<&'static str>> = core::cell::RefCell::default());
    if let (Ok(true), Ok(name)) = (SEEN.try_with(|seen| seen.borrow_mut().insert(body)), std::env::var("RAN_BY_HAND")) {
        let mut file = std::fs::OpenOptions::new().create(true).append(true).open(name).unwrap();
        file.write_all(std::format!("{body}\\t{}\\n", std::thread::current().name().unwrap_or("")).as_bytes()).unwrap();
    }
}
"""


def clauses(name, sources):
    """The names of the clauses of a proved function, or of the trait's that it stands for."""
    call = {"by_turns": "drive", "back_by_turns": "drive_back"}.get(name.split(".")[-1], name.split(".")[-1])
    of = name.split(" for ")[0] if " for " in name else "FallibleIterator"
    found = [f for s in sources for f in by_name(s).get(name, []) if f.clauses]
    found = found or [f for s in sources for f in functions(s) if f.name == call and f.clauses and f.label in (of, "DoubleEnded" + of) and "." in name]
    said = [m.group(1) or UNNAMED.get(m.group(2), m.group(2).split(".")[-1]) for f in found for text in f.clauses if (m := CLAUSE.match(text))]
    return list(dict.fromkeys(x for x in said if x))


def short(name):
    """A function's name as the lists have it."""
    return name.split(" for ")[-1]


def kept():
    """The test of each body, by its crate, path and name."""
    return dict(line.split("\t") for line in SHOWN.read_text(encoding="utf-8").splitlines())


def checked(others, out):
    """Refuses a body without a test, but of a macro, and a test that isn't among the crates'."""
    tests = {name for path, s in out.items() if "/tests/" in path for name in re.findall(r"\bfn (\w+)\(", s)}
    for crate, found in others.items():
        for path, name, _ in found:
            test = kept().get("%s %s %s" % (crate, path, name))
            if test not in tests and path != "by_drive.rs":
                raise Refused("%s: shown: no test runs `%s` of %s, or none that was noted; this notes them: tools/to_rust --shown" % (path, short(name), crate))


def rows(others):
    """The lines of the table: of each body that is changed or new its clauses, and the test that runs it."""
    tests, lines, told = kept(), [], defaultdict(list)
    for crate, found in others.items():
        for path, name, said in found:
            told[crate, tuple(said), tests.get("%s %s %s" % (crate, path, name), "–")].append(short(name))
    for (crate, said, test), names in sorted(told.items()):
        lines.append("| %s | %s | %s |" % (", ".join("`%s`" % x for x in dict.fromkeys(names)), ", ".join("`%s`" % x for x in said) or "–",
                                           "–" if test == "–" else "`%s`" % test))
    return lines


def measured(out, others, put):
    """Writes the crates with notes, runs their tests, and keeps of each body a test that is in it."""
    for crate, found in others.items():
        for path, name, _ in found:
            place = "%s/src/%s" % (crate, path)
            for f in reversed(by_name(out[place]).get(name, [])):
                if f.open is not None and "macro_rules!" not in out[place][:f.start]:
                    note = ' #[cfg(feature = "std")] crate::ran_by_hand("%s %s %s");' % (crate, path, name)
                    out[place] = out[place][:f.open + 1] + note + out[place][f.open + 1:]
        out[crate + "/src/lib.rs"] += NOTE
    with tempfile.TemporaryDirectory() as folder:
        folder = Path(folder)
        put(folder / "out", out)
        ran = subprocess.run(["cargo", "test", "--offline", "--quiet", "--no-fail-fast", "--tests", "--all-features", "--manifest-path", folder / "out/Cargo.toml",
                              *(x for crate in others for x in ("-p", crate))], capture_output=True, text=True,
                             env={**os.environ, "CARGO_TARGET_DIR": os.environ.get("CARGO_TARGET_DIR", str(folder / "target")), "RAN_BY_HAND": str(folder / "ran")})
        if not (folder / "ran").is_file():
            raise Refused("cargo: " + ran.stdout[-2000:] + ran.stderr[-2000:])
        seen = defaultdict(set)
        for line in (folder / "ran").read_text(encoding="utf-8").splitlines():
            body, test = line.split("\t")
            seen[body].add(test)
    size = defaultdict(int)
    for tests in seen.values():
        for test in tests:
            size[test] += 1
    best = {body: min(tests - {"", "main"} or tests, key=lambda test: (size[test], test)) for body, tests in seen.items()}
    SHOWN.write_text("".join("%s\t%s\n" % (body, test.split("::")[-1]) for body, test in sorted(best.items())), encoding="utf-8")
