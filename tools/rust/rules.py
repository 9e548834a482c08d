"""Rules that replace text, each with how often it must fit."""
import re

from source import Refused

ANY = None


def apply(stage, files, rules):
    """Applies each rule in turn. A rule is (files, pattern, new, times, ..): `files` is a pattern of
    paths, `times` the number of fits over all of them, or ANY."""
    for where, pattern, new, times, *_ in rules:
        rule = "%s: the rule %r of %s" % (stage, pattern, where)
        fits, paths = [], [p for p in files if re.fullmatch(where, p)]
        if not paths:
            raise Refused("%s: there is no such file" % rule)
        for path in paths:
            text = files[path]
            found = list(re.finditer(pattern, text.s, re.M))
            fits += [text.at(m.start()) for m in found]
            for m in reversed(found):
                text.replace(m.start(), m.end(), m.expand(new))
        if times is not ANY and len(fits) != times:
            at = ", ".join(fits) or files[paths[0]].place + ":1"
            raise Refused("%s: %s fits %d times, not %d" % (at, rule, len(fits), times))


def drop_files(stage, files, names):
    """Leaves out whole files, each of which must be there."""
    for name in names:
        if name not in files:
            raise Refused("%s: %s is not there" % (stage, name))
        del files[name]
