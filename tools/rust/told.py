"""Whether an input tells an edit: the Rust crates are written with it, and some test of theirs must fail.

Each lane has a copy of the working tree, the crates that are written of it, and a folder that cargo builds in."""
import importlib.machinery
import importlib.util
import os
import pathlib
import re
import resource
import subprocess
import sys
import threading

sys.dont_write_bytecode = True
sys.path.insert(0, str(pathlib.Path(__file__).resolve().parent))
from source import Refused  # noqa: E402

TOP = pathlib.Path(__file__).resolve().parents[2]
SECONDS, BYTES = 120, 8 << 30
# The packages whose tests may fail, those that stand below others first.
PACKAGES = ["fallible-iterator", "fallible-itertools", "program-io", "fallible-json", "fallible-pg", "fallible-programs"]
# Those that have the repository's own tests.
PROVED = PACKAGES[:2]
writing = threading.Lock()


def loaded():
    """tools/to_rust, as a module."""
    loader = importlib.machinery.SourceFileLoader("to_rust", str(TOP / "tools/to_rust"))
    made = importlib.util.module_from_spec(importlib.util.spec_from_loader("to_rust", loader))
    loader.exec_module(made)
    return made


class Crates:
    """The Rust crates of a copy of the tree, in a folder that is made here."""

    def __init__(self, room):
        self.tree, self.out, self.target = (pathlib.Path(room, it) for it in ("tree", "out", "target"))
        self.tree.mkdir()
        subprocess.run([TOP / "tools/lay.sh", self.tree], check=True)
        self.to_rust = loaded()
        self.files = self.written()
        self.to_rust.put(self.out, self.files)
        failed = self.failed(PACKAGES)
        if failed:
            raise SystemExit(f"the Rust crates fail as they are: {failed}")

    def written(self):
        """The files of the crates, with the repository's own tests, not laid out."""
        with writing:
            return self.to_rust.every_file(self.tree, "0.3.0", "fallible-iterator")[0]

    def tried(self, crate, texts):
        """The test that fails with these texts of a crate's files, or none, with why none was run."""
        place = self.tree / "crates" / crate
        before = {path: (place / path).read_text() for path in texts}
        for path, text in texts.items():
            (place / path).write_text(text)
        try:
            changed = {path: text for path, text in self.written().items() if self.files.get(path, text) != text}
        except Refused as why:
            return None, f"the Rust crates have another body there: {why}"
        finally:
            for path, text in before.items():
                (place / path).write_text(text)
        if not changed:
            return None, "the Rust crates are the same with it"
        self.to_rust.put(self.out, changed)
        try:
            first = min(k for k, it in enumerate(PACKAGES) for path in changed if path.startswith(it.removeprefix("fallible-") + "/" if it == "fallible-programs" else it + "/"))
            failed = self.failed(PACKAGES[first:])
        finally:
            self.to_rust.put(self.out, {path: self.files[path] for path in changed})
        if failed and failed.startswith("error"):
            return None, f"Rust refuses it: {failed}"
        return failed, None

    def failed(self, packages):
        """The first test that fails or doesn't end, or the compiler's error. What tells most comes first, and what is built longest last."""
        runs = [(package, ["--test", "proved"]) for package in packages if package in PROVED]
        runs += [(package, kind) for kind in (["--tests"], ["--doc"]) for package in packages]
        for package, kind in runs:
            words = ["cargo", "test", "--offline", "--quiet", "--manifest-path", self.out / "Cargo.toml", "--all-features", "-p", package, *kind]
            made = self.ran([*words, "--no-run"], 600) if kind != ["--doc"] else None
            if made and made.returncode:
                return next((it for it in made.stdout.split("\n") if it.startswith("error")), "error")
            ran = self.ran(words, SECONDS)
            if ran is None:
                return f"a test of {package} that doesn't end"
            if ran.returncode:
                names = re.findall(r"^(?:test (.+) \.\.\. FAILED|    (\S.*)|---- (.+?) stdout ----)$", ran.stdout, re.M)
                return next((it for found in names for it in found if it), f"{package}, by a signal")
        return None

    def ran(self, words, seconds):
        """What a command does, or none where it takes longer."""
        child = subprocess.Popen(words, stdin=subprocess.DEVNULL, stdout=subprocess.PIPE, stderr=subprocess.STDOUT, text=True, errors="replace",
                                 start_new_session=True, preexec_fn=lambda: resource.setrlimit(resource.RLIMIT_AS, (BYTES, BYTES)),
                                 env={**os.environ, "CARGO_TARGET_DIR": str(self.target), "CARGO_PROFILE_DEV_DEBUG": "0", "CARGO_INCREMENTAL": "1"})
        try:
            said = child.communicate(timeout=seconds)[0]
        except subprocess.TimeoutExpired:
            os.killpg(child.pid, 9)
            child.communicate()
            return None
        return subprocess.CompletedProcess(words, child.returncode, said)
