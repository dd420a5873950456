"""One word, one meaning: lists the names of `specs/` that two crates define, and fails where one isn't allowed below."""

import collections
import pathlib
import re
import sys

# a name that two crates may define, and why; a name is taken out where one crate is left that defines it
ALLOWED = {
    "IsKept": "what a type keeps true of its fields: the invariant of its Model, which no crate above cites",
    "IsSound": "what holds of each value of a type that a caller can have",
    "IsUnchanged": "what contracts see of a value stays",
    "told_by": "what a form in memory tells as its part of the outside, each for the record of its trait",
    "Text": "a list of bytes, in two crates of which neither stands on the other",
    "is_filled": "a list has an element, in two crates of which neither stands on the other",
    "◌>>=◌": "the `do` of a reading, over what is read of settings and of a request",
}

# so many names at the least, or the files weren't found
FEWEST = 1_000

# a definition's first line: what stands inside a record without one of these words is a field
DEFINITION = re.compile(r"(?P<inside>\s*)(?P<form>(?:abbrev |unfoldable |opaque )*)pub (?P<kind>(?:record|data|ruleset) )?(?P<name>[^\s(:{]+)")

NO_NAMES = {"mod", "use", "abbrev", "unfoldable", "opaque", "record", "data", "ruleset"}


def defined(text):
    """the names that a file of definitions defines"""
    for line in text.split("\n"):
        match = DEFINITION.match(line)
        if match is None or match["name"] in NO_NAMES:
            continue
        if match["inside"] and not match["form"] and not match["kind"]:
            continue
        yield match["name"]


def main():
    top = pathlib.Path(__file__).resolve().parents[2]
    files = collections.defaultdict(set)
    for path in sorted(top.glob("crates/*/specs/**/*.antt")):
        for name in defined(path.read_text(encoding="utf-8")):
            files[name].add(path.relative_to(top / "crates").as_posix())
    twice = {name: sorted(paths) for name, paths in files.items() if len({path.split("/")[0] for path in paths}) > 1}
    faults = [f"{name} has two meanings, or stands twice: {', '.join(paths)}" for name, paths in sorted(twice.items()) if name not in ALLOWED]
    faults += [f"{name} is allowed in two crates, and one or none defines it" for name in sorted(ALLOWED) if name not in twice]
    if len(files) < FEWEST:
        faults.append(f"{len(files)} names were read, where there are {FEWEST} at the least")
    for fault in faults:
        print(f"tests/names: {fault}", file=sys.stderr)
    if faults:
        sys.exit(1)
    print(f"tests/names: {len(files)} names of definitions, {len(twice)} in two crates, as allowed")


main()
