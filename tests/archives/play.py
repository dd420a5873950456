"""Tries the archive from its first release on; see tests/archive."""

import os
import sqlite3

from tests.archives.calls import ARCHIVE, USAGE, copied, ends, linked, ran, same, tried
from tests.archives.campaigns import NAMES, RUNS, play
from tests.archives.cuts import try_kills, try_limits, try_two
from tests.archives.page import play_page, try_page
from tests.archives.reports import try_large, try_nothing, try_reports
from tests.archives.stock import dump, holds, is_whole, names
from tests.archives.writers import try_other_files, try_other_writers
from tests.script import WORDS, fail, tell

ROUNDS, SEED = int(WORDS[0]), int(WORDS[1])
# more systems take longer to write, so that more calls are killed while they do
KILLED_SYSTEMS = 60
# how many calls have to be killed before it is asked how many of them were under way
MANY = 100


def try_archive(early, path, release, other):
    """Each way that the word ends, and what the file has afterwards."""
    ends("before the publication", early, "archive spring", 13, "unpublished\n")
    same("folder without a release", os.path.exists(os.path.join(early, ARCHIVE)), False)
    ends("the first time", path, "archive spring", 0, "archived spring\n")
    before = dump(path)
    ends("the second time", path, "archive spring", 0, "kept spring\n")
    same("dump after the second time", dump(path), before)
    linked(other, path)
    ends("another release", other, "archive spring", 14, "differs\n")
    same("dump after another release of the name", dump(path), before)
    ends("a word that is no name", path, "archive a,b", 2, USAGE)
    for name in NAMES:
        ends("each name", path, f"archive {name}", 0, f"archived {name}\n")
    same("names in the order of archiving", names(path), ["spring", *NAMES])
    is_whole("after all names", path)
    for name in ["spring", *NAMES]:
        holds(f"of {name}", path, release, name)


def try_output(path):
    """A release whose line can't be written is there."""
    with open("/dev/full", "w") as full:
        status, _, _ = ran(path, "archive", "full", stdout=full)
    same("call on a full device", status, 8)
    ends("after a full device", path, "archive full", 0, "kept full\n")


def try_alone(path, release):
    """The one file, copied after the program has ended, has everything; Python's sqlite3 reads it too."""
    ends("the last one", path, "archive last", 0, "archived last\n")
    # (before the stock program looks at it, which would move what stands in the log)
    alone = copied(path, "alone", ARCHIVE)
    same("dump of the file alone", dump(alone), dump(path))
    holds("of the file alone", alone, release, "last")
    same("call over the file alone", ran(alone, "export"), ran(path, "export"))
    with sqlite3.connect(f"file:{alone}/{ARCHIVE}?mode=ro", uri=True) as archive:
        (qrels,), = archive.execute("SELECT qrels FROM release WHERE name = 'spring'").fetchall()
    same("release by Python's sqlite3", qrels, release.qrels)


def main():
    early = play("early", RUNS, [0, 1, 2], ["1"], 1, is_published=False)
    path, release = play("spring", RUNS, [0, 1, 0, 3, 1], ["1", "2.b"], 2)
    other = play("autumn", [*RUNS[3:], "new"], [1, 0, 2], ["1"], 3)
    try_archive(early, path, release, other[0])
    try_output(path)
    for name in ("a1999", "A2001"):
        ends("another campaign", other[0], f"archive {name}", 0, f"archived {name}\n")
    holds("of another campaign", path, other[1], "A2001")
    try_alone(path, release)
    try_reports(path)
    try_nothing()
    try_other_writers(path)
    try_other_files(path)
    seconds = try_large(path)
    questions = try_page(path)
    many = play("many", [f"run-{place}" for place in range(KILLED_SYSTEMS)], [0, 1], ["1"], 4)
    pairs, taken = try_two(many, other)
    try_limits(*many)
    under_way, left = try_kills(*many, ROUNDS, SEED)
    killed = f"{ROUNDS} calls were killed, {under_way} of them under way, {left} behind their release"
    at_once = f"{taken} of {2 * pairs} calls, two at once, found the file taken"
    if ROUNDS >= MANY and (under_way < ROUNDS // 2 or not 0 < left < ROUNDS) or taken == 0:
        fail(f"too little was tried: {killed}; {at_once}")
    tell(f"{tried['call'] // 2} calls, and {sum(tried.values()) - tried['call']} looks at the file beside them")
    tell(f"{killed}; {at_once}")
    tell(f"{questions} statements of docs/ARCHIVE.md are answered by Python too; an export of 7,680 systems takes the processor {seconds:.2f} s")


tell(f"the seed is {SEED}")
main()
play_page()
