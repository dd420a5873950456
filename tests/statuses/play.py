"""Tries how the program's calls end, one thing after another; see tests/edge."""

import os
import re
import sys

from tests.script import fail, tell
from tests.statuses.archives import try_archives
from tests.statuses.calls import faults, seen, wrong
from tests.statuses.compactions import try_compactions
from tests.statuses.files import try_files
from tests.statuses.inputs import try_inputs
from tests.statuses.journals import try_journals
from tests.statuses.outputs import try_outputs
from tests.statuses.ports import try_ports
from tests.statuses.settings import try_edits, try_missing
from tests.statuses.words import try_words


def hold_statuses():
    """Each status that README.md has was brought about."""
    with open("README.md") as file:
        tables = re.findall(r"(?ms)^\| Status \|.*?^$", file.read())
    statuses = re.findall(r"(?m)^\| ([0-9, ]*) \|", "".join(tables))
    numbers = [int(number) for row in statuses for number in row.replace(",", " ").split()]
    if not numbers:
        wrong("README.md has no statuses")
    for number in numbers:
        if number not in seen:
            wrong(f"status {number} of README.md wasn't brought about")


def main():
    if not os.path.exists("/dev/full"):
        fail("this machine has no /dev/full")
    try_words()
    try_files()
    try_edits()
    try_missing()
    founded = try_journals()
    try_inputs()
    try_archives()
    try_compactions(founded)
    try_ports()
    try_outputs()
    hold_statuses()
    if faults:
        sys.exit(1)
    tell(f"{seen.total()} calls on real files, streams, journals and ports end with the status, and tell on standard"
         " error what they should")


main()
