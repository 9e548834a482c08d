"""Comparing: each function's body as it is written with the proved source's, token by token."""
import re
from collections import defaultdict

import erase
from source import Refused, code, functions

# What is not word for word the proved body and no file of `bodies`: the file, the function, what, and why. Each row is used.
REASONS = [
    (r"fallible_contract/collecting(/\w+)?\.rs", r"Collect for \w+\.(empty|push_one)", "left out",
     "`collect` goes by Rust's `FromIterator`"),
    (r"fallible_contract/collecting\.rs", r"Collect for Extended\.push_one", "new",
     "`partition` and `unzip` fill whatever extends"),
    (r"fallible_core/joining/flat_map\.rs", r"\w+ for FlatMap\.(clone|fmt)", "new",
     "what `derive_where` writes"),
    (r"sources/std_fold\.rs", r".*Progressing\.(next|next_back)", "left out", "no fold needs `Progressing`"),
    (r"fallible_core/traits/b\w+\.rs", r".*\.(drive|drive_back)", "left out",
     "`I` may have no size; the trait's own loop serves"),
    (r"fallible_core/number\.rs", r".*Number\.(drop|clone|fmt|same|one_less)", "left out", "a number has no bytes"),
    (r"fallible_core/traits\.rs", r"FallibleIterator\.number", "left out", "a number has no bytes"),
    (r"fallible_core/traits\.rs", r"From for Stop\.from", "new", "why a caller's fold stopped"),
    (r".*", r"FallibleIterator(?: for .*)?\.drive_to", "left out", "`count`, `last` and `nth` are calls of their own"),
    (r"fallible_core/goals\.rs", r"count_on", "left out", "`count`, `last` and `nth` are calls of their own"),
    (r"by_drive\.rs", r"try_fold|try_rfold", "new", "in each impl that writes a hidden fold, by a macro: they call it"),
    (r"errors\.rs", r"Display for NotOne\.fmt", "new", "what the error says"),
    (r"keyed\.rs", r"Collect for Tally\.empty", "left out", "`counts` makes the empty map"),
    (r"keyed\.rs", r"Collect for GroupMap\.empty", "left out", "`into_group_map` makes the empty map"),
    (r"(?<!base/)gathering\.rs", r"gathered", "left out", "`join` and `tail` are refused nothing"),
    (r"total\.rs", r".*", "left out", "`sum` and `product` are std's"),
    (r"partition\.rs", r"with_failure", "left out", "`collect_until_failure` is refused nothing"),
    (r"partition\.rs", r"without_fault", "left out", "`partition_failures` never fails"),
    (r"fallible_itertools_adapters/failing\.rs", r"\w+ for ErrInto\.(clone|fmt)", "new", "what `derive_where` writes"),
    (r"fallible_itertools_joins/kmerge(?:_by)?\.rs", r"\w+ for KMerge(?:By)?\.(clone|fmt)", "new", "what `derive_where` would write"),
    (r"partition\.rs", r".*\.empty", "left out", "`partition_map` fills whatever extends"),
    (r".*", r"\w+ for \w+\.try_r?fold", "new", "by the source's own, with what becomes of each item"),
    (r"fallible_core/passing\.rs", r"From for PassStop\.from|step_on_passed|passed_value|try_r?fold_passing", "new",
     "`try_fold` of the adapters that let items pass"),
    (r"sorted\.rs", r"place_of|put_in_place|move_to_place|sort_in_place|keep_where_full", "left out",
     "`k_smallest` needs no way without memory"),
    (r"base/drive\.rs", r"whole", "new", "what a fold returned whose turns refuse nothing"),
    (r"base/drive\.rs", r".*", "new", "the fold of any iterator by its `try_fold`, in place of the hidden `drive`"),
    (r"base/gathering\.rs", r".*", "new", "the fold that the proved `collect` is, into a `Vec`"),
    (r"base/by_drive\.rs", r".*", "new", "in each impl of a type with a fold of its own, by a macro: they call that"),
    (r"base/fallible_contract/collecting\.rs", r"Collect for Extended\.push_one", "new",
     "the calls that fill collections fill whatever extends"),
    (r"equal\.rs", r"compare_by", "changed", "`number_of_either` hands on the two that it got"),
    (r"fallible_itertools_adapters/peeking_take_while\.rs", r"none_held_or_accepts", "left out",
     "`next_accepted` of `Peekable` goes by `peek`"),
    (r"writing\.rs", r"WriteText for W\.write_text", "changed", "std's `write_fmt` takes what `format_args!` makes"),
    (r"checked\.rs", r"\w+ for CheckedTokens\.(clone|fmt)", "new", "what `derive_where` would write"),
    (r"lexer\.rs", r"\w+ for Tokens\.(clone|fmt)", "new", "what `derive_where` would write"),
    (r"main\.rs", r"main", "new", "it calls the proved `main`, which is `started`"),
]


def by_name(s):
    """The functions of a text by what they stand in and their name, in order."""
    found = defaultdict(list)
    for f in functions(s):
        found["%s.%s" % (f.label, f.name) if f.label else f.name].append(f)
    return found


def body(s, f):
    """A function's body, or none where it has none. What only counts down is no part of it."""
    return None if f.open is None else erase.without_numbers(f.name, s[f.start:f.open], s[f.open:f.end])


def differences(written, source):
    """Yields each function of the two texts, how what is written differs, if it does, and whether the proved one counts down."""
    ours, proved = by_name(written), by_name(source)
    for name in dict.fromkeys([*proved, *ours]):
        pairs = max(len(ours[name]), len(proved[name]))
        for k in range(pairs):
            new = body(written, ours[name][k]) if k < len(ours[name]) else None
            old = body(source, proved[name][k]) if k < len(proved[name]) else None
            if old is not None or new is not None:
                counts = old is not None and old != code(source[proved[name][k].open:proved[name][k].end])
                yield name, (None if new == old else "new" if old is None else
                             "left out" if new is None else "changed"), counts


def compare(files, sources, bodies):
    """How many bodies are word for word the proved ones, how many of them but for what counts down, and the others by how they
    differ and why. Each body of `bodies` is another than the proved one."""
    same, counting, rows, used = 0, 0, defaultdict(list), set()
    for path in sorted({*files, *sources}):
        for name, how, counts in differences(files.get(path, ""), sources.get(path, "")):
            if how in ("changed", "new"):
                OTHERS.append((path, name))
            own = bodies.get((path, re.sub(r"[^\w.]", "", name.split(" for ")[-1])))
            if how is None:
                same += 1
                counting += counts
            elif own and own.how == how:
                used.add(own)
                rows[how, own.why].append(name)
            else:
                row = next((x for x in REASONS if x[2] == how and re.fullmatch(x[0], path) and re.fullmatch(x[1], name)), None)
                if not row:
                    raise Refused("%s: compare: the body of `%s` is %s, and no file of tools/rust/static/bodies says why"
                                  % (path, name, how))
                used.add(row)
                rows[how, row[3]].append(name)
    for body in set(bodies.values()) - used:
        raise Refused("%s:1: compare: `%s` is the proved body" % (body.place, body.name))
    USED.update(used)
    return (same, counting), rows


USED = set()
# The bodies of the last crate that are changed or new, by path and name.
OTHERS = []


def listed(rows, of=""):
    """Lines of bodies by how they differ, each with why; `of` stands behind the names."""
    lines = {}
    for (how, why), names in sorted(rows.items()):
        lines.setdefault(how, []).append("- %s: %s" % (", ".join("`%s`" % x.split(" for ")[-1] for x in names) + of, why))
    return lines


def parts(lines):
    """The lists of bodies, each below how they differ."""
    return ["*%s*:\n\n%s" % (how.capitalize(), "\n".join(found)) for how, found in lines.items()]


def table(same, rows):
    """The lists of what is not word for word the proved body, by crate. Each row of REASONS is used."""
    for row in REASONS:
        if row not in USED:
            raise Refused("compare: no body is of the row %r" % (row,))
    said = []
    for crate, (alike, counting) in same.items():
        unlike = sum(map(len, rows[crate].values()))
        said.append("In `%s` %d bodies are word for word the proved ones, %d of them but for a number that counts down. %d are not."
                     % (crate, alike, counting, unlike))
        said += parts(listed(rows[crate]))
    return "\n\n".join(said)
