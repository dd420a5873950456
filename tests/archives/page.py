"""The questions of docs/ARCHIVE.md."""

import os
import re
import shutil
import sqlite3

from tests.archives.calls import ARCHIVE, copied, same
from tests.archives.stock import fill
from tests.pages.player import Player
from tests.script import FOLDER, PROGRAM

PAGE = "docs/ARCHIVE.md"


def try_page(path):
    """The archive that docs/ARCHIVE.md asks is made of the export that stands there, in a folder in which the page is
    played; and the page's questions are asked by Python's sqlite3 too: how many."""
    with open(PAGE) as file:
        _, *parts = file.read().split("\n    $ ")
    commands = [part.split("\n\n")[0].rstrip("\n").split("\n    ") for part in parts]
    page = copied(path, "page", ARCHIVE)
    os.symlink(PROGRAM, os.path.join(page, "campaign"))
    shutil.copy("crates/campaign/data/r.txt", page)
    with open("crates/campaign/data/q.txt") as file:
        qrels = file.read()
    fill(page, [line.split(",") for line in commands[0][2:]], qrels)
    asked = sqlite3.connect(os.path.join(copied(page, "asked", ARCHIVE), ARCHIVE))
    questions = [(line, answer) for line, *answer in commands if line.startswith("sqlite3 ")]
    for line, answer in questions:
        _, statements, behind = re.fullmatch(r'(sqlite3 campaign\.archive) "(.*)"( >.*)?', line).groups()
        rows = [row for one in statements.split(";") for row in asked.execute(one)]
        asked.commit()
        shown = ["|".join(map(str, row)) for row in rows]
        same(f"question by Python: {statements}", shown, [qrels] if behind else answer)
    return len(questions)


def play_page():
    """The page is played in that folder, from its questions on."""
    with Player(os.path.join(FOLDER, "page")) as player:
        player.play(PAGE, "Five questions", "no further heading")
