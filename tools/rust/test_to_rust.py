#!/usr/bin/env python3
"""What to_rust refuses: each time it says where and why, and writes nothing. And what a page has of the code."""
import contextlib
import io
import re
import shutil
import sys
import tempfile
import unittest
from importlib.machinery import SourceFileLoader
from importlib.util import module_from_spec, spec_from_loader
from pathlib import Path

TOP = Path(__file__).resolve().parent.parent.parent
sys.path.insert(0, str(TOP / "tools"))
# In one process, since each run reads nearly the same files.
LOADER = SourceFileLoader("to_rust", str(TOP / "tools/to_rust"))
TO_RUST = module_from_spec(spec_from_loader("to_rust", LOADER))
LOADER.exec_module(TO_RUST)
# The layout says nothing of what is refused, and the gate lays out what it compares.
TO_RUST.formatted = lambda files: files
CORE = "crates/fallible_core/src/"

import features
import otherwise
import page
from source import Text


class Refusals(unittest.TestCase):
    def setUp(self):
        self.folder = Path(tempfile.mkdtemp())
        self.tree, self.out = self.folder / "tree", self.folder / "out"
        for path in (*TOP.glob("crates/*/src"), *TOP.glob("tests/*/src"), TOP / "release/examples/src", TOP / "release/scripts"):
            shutil.copytree(path, self.tree / path.relative_to(TOP))
        shutil.copy(TOP / "LICENSE", self.tree)
        (self.tree / "docs").mkdir()
        for name in ("CALLING", "READING"):
            shutil.copy(TOP / f"docs/{name}.md", self.tree / "docs")

    def tearDown(self):
        shutil.rmtree(self.folder)

    def run_it(self):
        """The status, and what is said where it is 1."""
        with contextlib.redirect_stdout(io.StringIO()):
            try:
                TO_RUST.main([str(self.out), "--tree", str(self.tree)])
            except (TO_RUST.Refused, OSError) as why:
                return 1, str(why)
        return 0, ""

    def edit(self, path, old, new):
        file = self.tree / path
        text = file.read_text(encoding="utf-8")
        self.assertIn(old, text)
        file.write_text(text.replace(old, new, 1), encoding="utf-8")

    def refused(self, *words):
        status, said = self.run_it()
        self.assertEqual(status, 1, said)
        for word in words:
            self.assertIn(word, said)

    def test_a_proved_body_is_another(self):
        self.edit(CORE + "joining/cycle.rt", "self.kept.clone()", "self.kept.copy()")
        self.refused(CORE + "joining/cycle.rt:", "is another than that for which", "Cycle.next.rs")
        self.assertFalse(self.out.exists())

    def test_another_proved_body_that_one_has_something_of(self):
        self.edit(CORE + "traits.rt", "*left -= 1;", "*left -= 2;")
        self.refused(CORE + "traits.rt:", "`FallibleIterator.drive_to` is another than that for which", "write `// of: drive_to ")
        self.edit(CORE + "traits.rt", "*left -= 2;", "*left -= 1;")
        self.edit(CORE + "joining/chain.rt", "Ok(None) => match still_drawn {", "Ok(None) => match *still_drawn {")
        self.refused(CORE + "joining/chain.rt:", "`Chain.drive` is another than that for which", "Chain.find.rs")
        self.assertFalse(self.out.exists())

    def test_a_goal_of_a_test_is_not_handed_on(self):
        self.edit("crates/test_support/src/counted.rt", "self.it.drive_to(goal)", "self.it.drive_to(&mut *goal)")
        self.refused("crates/test_support/src/counted.rt:", "a `drive_to` that doesn't hand its goal on")
        self.assertFalse(self.out.exists())

    def test_a_method_stands_twice(self):
        self.edit(CORE + "ends/rev.rt", "fn size_hint(&self)", "fn next(&self)")
        self.refused(CORE + "ends/rev.rt:", "`next` is written twice")
        self.assertFalse(self.out.exists())

    def test_a_brace_is_not_closed(self):
        self.edit(CORE + "ends/rev.rt", "self.it.next_back()", "{ self.it.next_back()")
        self.refused(CORE + "ends/rev.rt:", "fits none")
        self.edit(CORE + "ends/rev.rt", "{ self.it.next_back()", "self.it.next_back()")
        self.edit(CORE + "ends/rev.rt", "ghost ends = {", "ghost ends = { {")
        self.refused(CORE + "ends/rev.rt:", "the bracket `{` fits none")
        self.assertFalse(self.out.exists())

    def test_a_file_is_not_utf_8(self):
        file = self.tree / CORE / "ends/rev.rt"
        file.write_bytes(file.read_bytes() + b"// a line\n// \xff\n")
        line = file.read_bytes().count(b"\n")
        self.refused(CORE + "ends/rev.rt:%d: this is not UTF-8" % line)
        self.assertFalse(self.out.exists())

    def test_an_item_stands_twice(self):
        self.edit(CORE + "lib.rt", "pub mod number;", "pub mod number;\npub mod number;")
        self.refused(CORE + "lib.rt:", "fits 2 times, not 1")
        self.assertFalse(self.out.exists())

    def test_a_file_is_missing(self):
        (self.tree / "crates/fallible_contract/src/collecting/hashed.rt").unlink()
        self.refused("fallible_contract/collecting/hashed.rs is not there")
        self.assertFalse(self.out.exists())

    def test_a_drop_does_something(self):
        self.edit(CORE + "number.rt", "let Self { marker: _ } = self;", "tell(self);")
        self.refused(CORE + "number.rt:", "a `drop` that does something")
        self.assertFalse(self.out.exists())

    def test_a_number_is_more_than_counted_down(self):
        self.edit(CORE + "joining/flatten.rt", "left = left.one_less();", "left = tell(left.one_less());")
        self.refused(CORE + "joining/flatten.rt:", "`left` is used for more than to count down")
        self.assertFalse(self.out.exists())

    def test_a_body_is_changed_for_no_reason(self):
        self.edit(CORE + "ends/rev.rt", "self.it.next_back()", "std::convert::identity(self.it.next_back())")
        self.refused("fallible_core/ends/rev.rs", "is changed, and no file of")
        self.assertFalse(self.out.exists())

    def test_a_paragraph_is_like_one_of_a_kind(self):
        file = self.tree / CORE / "traits.rt"
        line = file.read_text(encoding="utf-8").split("\n").index("    /// Requires: `next` may be called.") + 1
        for old, new in (("Requires:", "Requires that"), ("Requires that", "requires:"), ("requires:", "In a proof,"),
                         ("In a proof,", "Memory;"), ("Memory;", "It requires that")):
            self.edit(CORE + "traits.rt", "    /// %s `next` may be called." % old, "    /// %s `next` may be called." % new)
            self.refused(CORE + "traits.rt:%d: docs: %s `next` may" % (line, new), "begins with `Requires:`")
        self.assertFalse(self.out.exists())

    def test_a_fold_names_what_the_trait_has(self):
        self.edit("crates/fallible_itertools_adapters/src/positions.rt", "Result<Option<R>, I::Error> {\n        drive_passing(",
                  "Result<Option<R>, Self::Error> {\n        drive_passing(")
        self.refused("crates/fallible_itertools_adapters/src/positions.rt:", "beside: a fold names what the trait has")
        self.assertFalse(self.out.exists())

    def test_the_second_crate_goes_by_what_is_hidden(self):
        path, old = "crates/fallible_itertools/src/equal.rt", "use fallible_iterator::{FallibleIterator, Turn};"
        self.edit(path, old, "use fallible_iterator::{FallibleIterator, Turn, fold_if};")
        self.refused(path + ":", "beside: not each crate below shows `fallible_iterator::fold_if`")
        self.edit(path, ", fold_if", "")
        self.edit(path, "match left.next()", "match left.draw_front()")
        self.refused(path + ":", "beside: `draw_front` is hidden below")
        self.assertFalse(self.out.exists())

    def test_an_example_stands_nowhere(self):
        self.edit(CORE + "peeking/peek.rt", "    /// assert_eq!(", "    /// assert_ne!(")
        self.refused(CORE + "peeking/peek.rt:", "no file of release/examples/src has these lines")
        self.assertFalse(self.out.exists())

    def test_the_folder_holds_something_else(self):
        self.out.mkdir()
        (self.out / "letter").write_text("mine")
        self.refused("holds letter")
        self.assertEqual([p.name for p in self.out.iterdir()], ["letter"])

    def test_the_folder_is_written_anew(self):
        self.assertEqual(self.run_it()[0], 0)
        (self.out / "fallible-iterator/Cargo.lock").write_text("of cargo")
        readme = self.out / "fallible-iterator/README.md"
        written = readme.read_text()
        readme.write_text("changed")
        self.assertEqual(self.run_it()[0], 0)
        self.assertEqual(readme.read_text(), written)
        left = self.out / "fallible-iterator/src/left/over.rs"
        left.parent.mkdir()
        left.write_text("of a run before")
        marker = self.out / ".written_by_to_rust"
        marker.write_text(marker.read_text() + "\nfallible-iterator/src/left/over.rs")
        self.assertEqual(self.run_it()[0], 0)
        self.assertFalse(left.parent.exists())
        (self.out / "fallible-iterator/letter").write_text("mine")
        self.refused("holds fallible-iterator/letter")
        self.assertEqual((self.out / "fallible-iterator/letter").read_text(), "mine")

    def test_the_page_names_what_is_there(self):
        self.assertEqual(self.run_it()[0], 0)
        page = (self.out / "fallible-itertools/README.md").read_text()
        words = {word for path in self.out.glob("*/src/**/*.rs") for word in re.findall(r"\w+", path.read_text())}
        traits = (self.out / "fallible-itertools/src/traits.rs").read_text().split("\n")
        for feature in ("alloc", "std"):
            listed = re.search(r"^\| `%s`.*? \| (.*) \|$" % feature, page, re.M).group(1)
            calls = [re.match(r" *fn (\w+)", below).group(1) for line, below in zip(traits, traits[1:])
                     if line.strip() == '#[cfg(feature = "%s")]' % feature and below.startswith("    fn ")]
            handed = (self.out / "fallible-itertools/src/lib.rs").read_text().split('#[cfg(feature = "%s")]\npub use ' % feature)[1:]
            functions = [name for used in handed for name in re.findall(r"\b[a-z]\w*(?=[,;}\s])", used.split(";")[0])]
            self.assertEqual(sorted(re.findall(r"`(\w+)`", listed)), sorted(calls + functions + ["alloc"] * (feature == "std")))
            said = sum(path.read_text().count("/// Feature: `%s`." % feature) for path in self.out.glob("fallible-itertools/src/**/*.rs"))
            self.assertEqual(said, len(calls + functions))
        here = [row.split(" | ")[1] for row in page.split("| Looked for |")[1].split("\n\n")[0].split("\n")[2:]]
        named = re.findall(r"\b[a-z]\w*[^\W_]\b", " ".join(re.findall(r"`([^`]*)`", " ".join(here))))
        self.assertEqual([name for name in named if name not in words], [])

    def test_each_public_type_can_be_shown_and_most_cloned(self):
        """`Debug` of each struct and enum that a root shows, and `Clone` of all but what reads, is filled with text, or has an error of std."""
        self.assertEqual(self.run_it()[0], 0)
        uncloned = {"Answer", "Buffered", "Lent", "Messages", "PgFault", "PgInput", "ReadFailed", "RowText", "WriteFailed", "Rows", "RunFault",
                    "Broken",
                    # Closures that are kept need not be cloned.
                    "FromFn"}
        shown = set()
        for crate in ("fallible-iterator", "fallible-itertools", "fallible-json", "fallible-pg"):
            text = "\n".join(path.read_text() for path in sorted(self.out.glob("%s/src/**/*.rs" % crate)))
            text += "\n".join(path.read_text() for path in sorted(self.out.glob("program-io/src/*.rs")))
            root = (self.out / crate / "src/lib.rs").read_text()
            for used in re.findall(r"^((?:#\[.*\]\n)*)pub use ([^;]*);", root, re.M):
                for name in re.findall(r"\b[A-Z]\w*", used[1]) if "doc(hidden)" not in used[0] else ():
                    declared = re.search(r"((?:^#\[[^\n]*(?:\n [^\n]*)*?\]\n)*)^pub (?:struct|enum) %s\b" % name, text, re.M)
                    if not declared:
                        continue
                    shown.add(name)
                    for trait in ("Debug", "Clone"):
                        has = re.search(r"\b%s\b" % trait, declared.group(1)) or re.search(
                            r"^impl\b[^{;]*\b%s\s+for %s\b" % (trait, name), text, re.M)
                        if not has and not (trait == "Clone" and name in uncloned):
                            self.fail("%s of %s has no %s" % (name, crate, trait))
        self.assertTrue({"KMerge", "KMergeBy", "Tokens", "CheckedTokens", "PlacedBytes", "Texts", "Rows", "Messages", "Cells", "Columns", "Buffered", "Lent",
                         "Bytes", "Peekable"} <= shown, shown)

    def test_a_repository_is_named_where_it_is_given(self):
        out = {"fallible-iterator/Cargo.toml": 'name = "own"\ndescription = "x"\nreadme = "README.md"\n', "programs/README.md": "`docs/RUST.md` of the repository\n",
               "pg-login/src/words.rs": "// of one's own\n"}
        page.leads(out, "https://example.org/a/b", "own")
        self.assertIn('repository = "https://example.org/a/b"\ndocumentation = "https://docs.rs/own"\n', out["fallible-iterator/Cargo.toml"])
        self.assertIn("[`docs/RUST.md`](https://example.org/a/b/blob/HEAD/docs/RUST.md) of the repository\n", out["programs/README.md"])
        self.assertIn("(https://docs.rs/fallible-programs)", out["programs/README.md"])
        self.assertEqual(out["pg-login/src/words.rs"], "// of one's own\n")

    def test_the_words_of_contracts_are_told_once(self):
        (self.tree / "crates/below/specs").mkdir(parents=True)
        (self.tree / "crates/below/specs/Of.antt").write_text("-- a number | twice\nabbrev pub twice : N -> N\ntwice n = n + n\n\n-- unnamed\nabbrev pub other : N\n")
        said = page.words(self.tree, {"a.rs": "/// ```text\n/// ensures { result = twice n }\n/// ```\n"}, ["below", "below"])
        self.assertEqual(said.count("| `twice` | a number \\| twice |"), 1)
        self.assertNotIn("unnamed", said)

    def test_a_link_leads_out(self):
        self.out.mkdir()
        elsewhere = self.folder / "elsewhere"
        elsewhere.mkdir()
        (self.out / "fallible-iterator").symlink_to(elsewhere)
        self.refused("holds fallible-iterator")
        self.assertEqual(list(elsewhere.iterdir()), [])


class Programs(unittest.TestCase):
    """What the crates of programs are made by."""

    def test_no_allocator_is_passed_and_calls_that_may_be_refused_have_their_names(self):
        text = Text("of.rs", (
            "use std::alloc::{AllocError, Global};\n\nstruct Held {\n    alloc: Global,\n    bytes: Vec<u8>,\n    own: Own,\n}\n\nimpl Own {\n    fn push(&mut self, byte: u8) {}\n}\n\n"
            "fn hold(alloc: Global, held: &mut Held) -> Result<(), AllocError> {\n    held.bytes.push(1)?;\n    held.own.push(2);\n"
            "    let mut made = Vec::from_slice(alloc, b\"\")?;\n    made.push(3)?;\n    more(alloc, &mut made)\n}\n"))
        otherwise.refusing({"of.rs": text}, "crate")
        for line in ("held.bytes.try_push(1)?;", "held.own.push(2);", "made.try_push(3)?;", "more(&mut made)", "fn hold(held: &mut Held)",
                     "use crate::memory::{AllocError, TryVec};"):
            self.assertIn(line, text.s)
        self.assertNotIn("alloc:", text.s)

    def test_a_failed_read_is_handed_on_and_what_is_new_is_written_otherwise(self):
        text = Text("of.rs", (
            "#[derive(Clone, Copy, Debug)]\npub enum Broken {\n    /// A read failed.\n    Read,\n}\n\n"
            "fn of(it: Result<u8, u8>) -> Result<u8, Broken> {\n    let Some(x) = two(it) else {\n        return Err(Broken::Read);\n    };\n"
            "    match it {\n        Ok(_) => Ok(x),\n        Err(_) => Err(Broken::Read),\n    }\n}\n"))
        otherwise.failing(text, "crate")
        otherwise.older(text)
        for line in ("#[derive(Debug)]\npub enum Broken", "Read(crate::failed::ReadFailed),", "Err(failed) => Err(Broken::Read(failed)),",
                     "let x = match two(it) { Some(x) => x, _ => {", "return Err(Broken::Read(crate::failed::ReadFailed::new()));"):
            self.assertIn(line, text.s)

    def test_what_needs_std_stands_behind_its_feature_with_all_that_names_it(self):
        texts = {"lib.rs": Text("lib.rs", "mod a;\n\npub use a::{below, told};\n"), "a.rs": Text("a.rs", (
            "use std::io;\n\nfn write(it: &mut dyn io::Write) {}\n\npub fn told(it: u8) {\n    write(&mut it);\n}\n\n"
            "pub fn below() {}\n\npub struct It;\n\nimpl It {\n    pub fn one(&self) {}\n\n    pub fn two(&self) {\n        told(1);\n    }\n}\n"))}
        features.Crate(texts, set()).mark()
        cfg = '#[cfg(feature = "std")]'
        self.assertIn("pub use a::below;\n%s\npub use a::told;" % cfg, texts["lib.rs"].s)
        for line in ("use std::io;", "fn write", "pub fn told", "    pub fn two"):
            self.assertRegex(texts["a.rs"].s, r"%s\n *%s" % (re.escape(cfg), re.escape(line.strip())))
        self.assertEqual(texts["a.rs"].s.count(cfg), 4)

if __name__ == "__main__":
    unittest.main()
