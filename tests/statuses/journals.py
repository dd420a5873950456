"""The journal: none, one of another file or of other rules, a damaged one, and a folder in its place."""

import os

from tests.campaigns import fresh
from tests.statuses.calls import BEGUN, JOURNAL, READERS, REPORTS, ends, forget, read, write, wrong

NEW = "entries 1\nphase collecting\n"
DAMAGED = "campaign: campaign.journal is damaged, as standard output says: put a copy in its place"
OTHER_RULES = (
    "campaign.toml: the journal was founded under other settings: set them back, callers aside, or take a new folder"
)
FOLDER_THERE = "campaign.journal can't be opened: Is a directory (os error 21): look at it and at its folder"


def founded(path):
    """The journal that has the founding entry alone."""
    ends("a session without requests", path, "session", 0, "", BEGUN)
    ends("a session without requests keeps the founding entry", path, "check", 0, NEW, "")
    forget(path)
    ends("no journal", path, "check", 0, NEW, BEGUN)
    return read(path)


def try_damages(path, journal):
    other = b"x" * 18
    write(path, other)
    ends("another file", path, "check", 9, "damaged header\n", DAMAGED)
    ends("a session over another file", path, "session", 9, "damaged header\n", DAMAGED)
    words = "serve --port 7000 --workers 1 --connections 1"
    ends("a server over another file", path, words, 9, "damaged header\n", DAMAGED)
    for word in REPORTS:
        ends(f"{word} over another file", path, word, 9, "damaged header\n", DAMAGED)
    if read(path) != other:
        wrong("another file was changed")
    write(path, journal[:-1] + b"\1\1\0\0\0x\0")
    ends("a record that is no entry", path, "check", 9, "damaged entry 2\n", DAMAGED)
    ends("a compaction over a record that is no entry", path, "compact", 9, "damaged entry 2\n", DAMAGED)
    # (a bundle of no entries)
    write(path, journal[:-1] + b"\1\4\0\0\0\0\0\0\0\0")
    ends("a record that is no bundle", path, "check", 9, "damaged entry 2\n", DAMAGED)
    # (byte 8 is 2, and the place at which the records then begin isn't in the file)
    write(path, journal[:8] + b"\2" + journal[9:])
    ends("a move without its area", path, "check", 9, "damaged header\n", DAMAGED)


def try_other_rules(journal):
    path = fresh("other", hold=3)
    write(path, journal)
    for word in READERS:
        ends(f"{word} of other rules", path, word, 3, "input: rules\n", OTHER_RULES)
    if read(path) != journal:
        wrong("a journal of other rules was changed")


def try_folder():
    path = fresh("folder")
    os.mkdir(os.path.join(path, JOURNAL))
    ends("a folder for a journal", path, "check", 5, "", FOLDER_THERE)
    for word in REPORTS:
        ends(f"{word} over a folder", path, word, 5, "", FOLDER_THERE)
    ends("a session over a folder", path, "session", 5, "", FOLDER_THERE)


def try_journals():
    path = fresh("journals")
    journal = founded(path)
    try_damages(path, journal)
    try_other_rules(journal)
    try_folder()
    return journal
