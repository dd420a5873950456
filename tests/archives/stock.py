"""What the archive's file has, asked of the stock sqlite3."""

import os
import sqlite3
import subprocess

from tests.archives.calls import ARCHIVE, same
from tests.archives.campaigns import COUNTS, MEASURES
from tests.script import FOLDER, fail

ONE = 10**15
ENV = {**os.environ, "HOME": FOLDER}


def four_decimals(value):
    tenths = (value + ONE // 20000) // (ONE // 10000)
    return f"{tenths // 10000}.{tenths % 10000:04}"


def asked(path, *statements):
    words = ["sqlite3", "-batch", "-bail", "-noheader", "-ascii", ARCHIVE]
    return subprocess.run(words, input=";\n".join([*statements, ""]).encode(), cwd=path, env=ENV, capture_output=True)


def stock(path, *statements):
    """What the stock sqlite3 prints for these statements over a folder's archive, row by row."""
    done = asked(path, *statements)
    if done.returncode != 0:
        fail(f"sqlite3 ends with {done.returncode} for {statements}: {done.stderr.decode()}")
    rows = done.stdout.decode().split("\x1e")[:-1]
    return [tuple(row.split("\x1f")) for row in rows]


def is_whole(what, path):
    """The stock program finds the file in order."""
    same(f"file {what}: integrity_check", stock(path, "PRAGMA integrity_check"), [("ok",)])
    same(f"file {what}: foreign_key_check", stock(path, "PRAGMA foreign_key_check"), [])


def dump(path):
    """All that the file holds, as the stock program writes it out."""
    done = subprocess.run(["sqlite3", "-batch", ARCHIVE, ".dump"], cwd=path, env=ENV, capture_output=True, check=True)
    return done.stdout


def holds(what, path, release, name):
    """The archive has this release under this name, whole, with the values that the program's pages print."""
    texts = stock(path, f"SELECT qrels FROM release WHERE name = '{name}'")
    same(f"release {what}: the qrels", texts, [(release.qrels,)])
    columns = ", ".join(["run", "group_name", *COUNTS, *MEASURES])
    rows = stock(path, f"SELECT {columns} FROM system WHERE release = '{name}' ORDER BY place")
    counts = 2 + len(COUNTS)
    printed = [(*row[:counts], *(four_decimals(int(value)) for value in row[counts:])) for row in rows]
    same(f"release {what}: the systems", printed, release.rows())
    places = stock(path, f"SELECT place FROM system WHERE release = '{name}' ORDER BY place")
    same(f"release {what}: the places", places, [(str(place),) for place in range(1, len(rows) + 1)])
    # the view has the same values as decimals
    exact = stock(path, f"SELECT {columns} FROM score WHERE release = '{name}' ORDER BY place")
    is_near = lambda value, units: abs(float(value) - int(units) / ONE) < 2 / ONE
    is_same = lambda row, other: row[:counts] == other[:counts] and all(map(is_near, row[counts:], other[counts:]))
    same(f"release {what}: the view's rows", len(exact), len(rows))
    same(f"release {what}: the view", [row for row, other in zip(exact, rows) if not is_same(row, other)], [])


def names(path):
    return [name for name, in stock(path, "SELECT name FROM release ORDER BY place")]


def files_of(path):
    """The bytes of the archive's file, which a refused call leaves alone."""
    with open(os.path.join(path, ARCHIVE), "rb") as file:
        return file.read()


def only_whole(what, path, releases):
    """The archive has whole releases alone: of each name the systems and the qrels of its campaign."""
    is_whole(what, path)
    held = names(path)
    rows = stock(path, "SELECT release, count(*), min(place), max(place) FROM system GROUP BY release")
    counts = {name: tuple(map(int, numbers)) for name, *numbers in rows}
    wanted = {name: len(releases[name].systems) for name in held}
    same(f"releases {what}: their systems", counts, {name: (count, 1, count) for name, count in wanted.items()})
    qrels = dict(stock(path, "SELECT name, qrels FROM release"))
    same(f"releases {what}: their qrels", qrels, {name: releases[name].qrels for name in held})
    return held


def has_tables(path):
    """Whether the file has its tables. Where the first call was killed while it made them, it may be no database yet."""
    table = "SELECT 1 FROM sqlite_schema WHERE name = 'release'"
    if not os.path.exists(os.path.join(path, ARCHIVE)) or b"file is not a database" in asked(path, table).stderr:
        return False
    return stock(path, table) != []


def fill(path, rows, qrels):
    """Puts an export's rows in the place of all releases; the other measures and counts are 0."""
    archive = sqlite3.connect(os.path.join(path, ARCHIVE))
    archive.execute("PRAGMA foreign_keys = ON")
    archive.execute("DELETE FROM release")
    places = {}
    for name, run, group, topics, value in rows:
        if name not in places:
            archive.execute("INSERT INTO release (name, qrels) VALUES (?, ?)", (name, qrels))
        places[name] = places.get(name, 0) + 1
        counts, measures = [int(topics), 0, 0, 0], [round(float(value) * 10000) * (ONE // 10000), *[0] * 12]
        row = (name, places[name], run, group, *counts, *measures)
        archive.execute(f"INSERT INTO system VALUES (?{', ?' * (len(row) - 1)})", row)
    archive.commit()
    archive.close()
