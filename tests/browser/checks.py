"""Counts what was tried, and ends at the first thing that isn't as it should be."""

tried = 0


def same(what, seen, expected):
    global tried
    tried += 1
    if seen != expected:
        raise AssertionError(f"{what}:\n{seen!r}\nand not\n{expected!r}")


def holds(what, fact):
    same(what, bool(fact), True)


def has(what, text, part):
    holds(f"{what}: {part!r} in {text!r}", part in text)
