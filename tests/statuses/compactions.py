"""A compaction, and what the grades tell."""

import os

from tests.campaigns import ASSESSORS, fresh, message
from tests.statuses.calls import BEGUN, JOURNAL, MEMORY, READERS
from tests.statuses.calls import ended, ends, forget, has_line, little_memory, opened, ran, read, write, wrong

REUSE = "X\t1\t1.0000\t0.0000\n"


def compacts(name, path, entries, fewer, said=""):
    """A compaction takes so many bytes from the journal, and tells it."""
    size = len(read(path))
    ends(name, path, "compact", 0, f"entries {entries}\nbefore {size}\nafter {size - fewer}\n", said)


def try_new(path):
    ends("the reuse of a new campaign", path, "reuse", 0, "", BEGUN)
    ends("the agreement of a new campaign", path, "agreement", 0, "", "")
    ends("a compaction of a new campaign", path, "compact", 0, "entries 1\nbefore 59\nafter 59\n", "")
    forget(path)
    begins = "a compaction that begins a campaign"
    ends(begins, path, "compact", 0, "entries 1\nbefore 59\nafter 59\n", BEGUN)


def grade(path):
    asked = message("POST", "/topics/1/lease", ASSESSORS[0])
    asked += message("POST", "/leases/1/grade", ASSESSORS[0], '{"grade":1}')
    _, printed, _ = ran(path, "session", input=asked)
    has_line("a grade", printed, b'{"doc":"a","grade":1,"topic":"1"}')


def try_judged(path):
    opened(path, "X")
    before = read(path)
    compacts("a compaction to more bytes", path, 4, 0)
    if read(path) != before:
        wrong("a compaction to more bytes changes the journal")
    grade(path)
    ends("the reuse of one run", path, "reuse", 0, REUSE, "")
    told, size = ran(path, "check")[1], len(read(path))
    # (three entries of 15, 15 and 18 bytes, each in a record, become a bundle of 33 bytes in one)
    compacts("a compaction", path, 6, 25)
    if len(read(path)) != size - 25:
        wrong(f"a compaction leaves {len(read(path))} bytes of {size}")
    compacts("a second compaction", path, 6, 0)
    if ran(path, "check")[1] != told:
        wrong("behind a compaction check tells something else")
    ends("reuse behind a compaction", path, "reuse", 0, REUSE, "")
    ends("agreement where no topic needs two labels", path, "agreement", 0, "", "")


def try_large(path, founded):
    """An opening reads the journal whole; this one has a closed gate, and zeros behind it."""
    write(path, founded[:16])
    os.truncate(os.path.join(path, JOURNAL), 300_000_000)
    for word in READERS:
        status, _, told = ran(path, word, preexec_fn=little_memory)
        ended(f"{word} of a journal that memory has no room for", status, 7, told, MEMORY)
    if os.path.getsize(os.path.join(path, JOURNAL)) != 300_000_000:
        wrong("a journal that memory has no room for was changed")


def try_compactions(founded):
    path = fresh("compactions")
    try_new(path)
    try_judged(path)
    try_large(path, founded)
