"""The archive of releases, which has more to it: tests/archive."""

import glob
import os

from tests.campaigns import ORGANISER, fresh, message
from tests.statuses.calls import ends, has_line, opened, ran, read, write, wrong

ARCHIVE = "campaign.archive"
UNPUBLISHED = "campaign: the campaign of this folder isn't published, and nothing was archived: publish it first"
DIFFERS = "campaign: campaign.archive has another release of this name, and nothing was archived: take another name"
UNKNOWN = (
    "campaign: campaign.archive has no release of the name on standard output: `campaign export` names those with a"
    " system"
)
UNUSABLE = (
    "campaign: campaign.archive can't be used: end the program that has it open, look whether it is an archive, at its"
    " permissions and at the disk, and start again: it holds whole releases alone"
)


def publish(path):
    _, printed, _ = ran(path, "session", input=message("POST", "/publish", ORGANISER))
    has_line("a publication", printed, b'{"done":true}')


def try_archives():
    path = fresh("archives")
    opened(path, "X")
    ends("a release that is too early", path, "archive spring", 13, "unpublished\n", UNPUBLISHED)
    publish(path)
    ends("a release", path, "archive spring", 0, "archived spring\n", "")
    ends("a release that is there", path, "archive spring", 0, "kept spring\n", "")
    opened(path, "Y")
    publish(path)
    ends("another release of its name", path, "archive spring", 14, "differs\n", DIFFERS)
    ends("a release that is not there", path, "compare spring winter", 15, "unknown winter\n", UNKNOWN)
    for file in glob.glob(os.path.join(path, f"{ARCHIVE}*")):
        os.remove(file)
    other = b"x" * 18
    write(path, other, ARCHIVE)
    ends("another file for an archive", path, "archive spring", 12, "", UNUSABLE)
    ends("a report of another file", path, "export", 12, "", UNUSABLE)
    if read(path, ARCHIVE) != other:
        wrong("another file in the archive's place was changed")
