"""What others wrote into the archive's file, or put in its place."""

import os

from tests.archives.calls import ARCHIVE, CAMPAIGN, copied, ends, linked, same
from tests.archives.stock import ONE, files_of, is_whole, names, stock
from tests.script import FOLDER

# the calls that are refused where a row of the release `spring` isn't as it must be; and where the file isn't
ROW = ["history X", "export", "compare spring 007", "archive spring"]
FILE = [*ROW, "compare 007 1e5", "archive new"]
IGNORING = "PRAGMA ignore_check_constraints = ON"
# what a user did, and what is refused from then on, and not
SPOILED = {
    "a run that is no name": ("UPDATE system SET run = 'a b' WHERE release = 'spring' AND place = 1", ROW),
    "a run of 33 bytes": (f"UPDATE system SET run = '{33 * 'x'}' WHERE release = 'spring' AND place = 1", ROW),
    "a group that is no name": ("UPDATE system SET group_name = '' WHERE release = 'spring' AND place = 1", ROW),
    "a release that is no name": (
        "UPDATE system SET release = '' WHERE release = 'spring'; UPDATE release SET name = '' WHERE name = 'spring'",
        ROW[:2],
    ),
    "more topics than may be": ("UPDATE system SET num_q = 4294967296 WHERE release = 'spring'", ROW),
    "a mean above 1": (f"{IGNORING}; UPDATE system SET map = {ONE + 1} WHERE release = 'spring'", FILE),
    "a count below 0": (f"{IGNORING}; UPDATE system SET num_ret = -1 WHERE release = 'spring'", FILE),
    "systems without their release": ("DELETE FROM release WHERE name = 'spring'", FILE),
    "a later format": (f"{IGNORING}; UPDATE archive SET format = 2", FILE),
    "no format": ("DELETE FROM archive", FILE),
    "a trigger": ("CREATE TRIGGER t AFTER INSERT ON release BEGIN SELECT 1; END", FILE),
    "a view with a window": ("CREATE VIEW w AS SELECT run, rank() OVER (ORDER BY map) FROM system", FILE),
    "a partial index": ("CREATE INDEX i ON system (run) WHERE map > 0", FILE),
    "a virtual table": ("CREATE VIRTUAL TABLE v USING fts5 (text)", FILE),
    "a column with a default": ("ALTER TABLE release ADD COLUMN note TEXT DEFAULT ''", FILE),
    "auto_vacuum": ("PRAGMA journal_mode = DELETE; PRAGMA auto_vacuum = FULL; VACUUM", FILE),
    "no table of systems": ("DROP VIEW score; DROP TABLE system", FILE),
}
KEPT = {
    "a view": "CREATE VIEW best AS SELECT release, printf('%.4f', round(max(map), 4)) FROM score GROUP BY release",
    "an index": "CREATE INDEX system_of_run ON system (run)",
    "a vacuum": "VACUUM",
    "statistics": "ANALYZE",
    "another journal": "PRAGMA journal_mode = DELETE",
    "a user's version": "PRAGMA user_version = 7",
    "a table beside": "CREATE TABLE note (release TEXT, text TEXT); INSERT INTO note VALUES ('spring', 'x')",
    "a table without rowids": "CREATE TABLE note (release TEXT PRIMARY KEY, text TEXT) WITHOUT ROWID",
    "a generated column": "CREATE TABLE note (year INTEGER, name TEXT GENERATED ALWAYS AS ('trec-' || year))",
    "a column more": "ALTER TABLE release ADD COLUMN note TEXT",
    "a release deleted": "PRAGMA foreign_keys = ON; DELETE FROM release WHERE name = 'spring'",
}


def is_refused(what, path, words):
    """Status 12, nothing printed, and the file as it was, byte for byte."""
    before = files_of(path)
    for word in words:
        ends(f"with {what}", path, word, 12, "")
        same(f"file with {what}, after `{word}`", files_of(path) == before, True)


def try_other_writers(path):
    for what, (statement, words) in SPOILED.items():
        spoiled = copied(path, "spoiled", ARCHIVE, *CAMPAIGN)
        stock(spoiled, statement)
        is_refused(what, spoiled, words)
        if words is not FILE:
            ends(f"beside {what}", spoiled, "archive new", 0, "archived new\n")
            same(f"names beside {what}", names(spoiled)[-1], "new")
    for what, statement in KEPT.items():
        changed = copied(path, "changed", ARCHIVE, *CAMPAIGN)
        stock(changed, statement)
        ends(f"with {what}", changed, "archive new", 0, "archived new\n")
        ends(f"with {what}", changed, "archive new", 0, "kept new\n")
        same(f"names with {what}", names(changed)[-1], "new")
        is_whole(f"with {what}", changed)


def try_other_files(path):
    """Files of the archive's name that are none."""
    whole = files_of(path)
    # (a file that was cut has lost pages that its header counts)
    contents = {"a text": b"spring\n" * 1000, "a cut file": whole[:-4096], "half a page": whole[:2048]}
    for what, content in contents.items():
        broken = copied(path, "broken", *CAMPAIGN)
        with open(os.path.join(broken, ARCHIVE), "wb") as file:
            file.write(content)
        is_refused(what, broken, ["archive spring", "history X", "compare spring 007", "export"])
    database = copied(path, "database", *CAMPAIGN)
    stock(database, "CREATE TABLE bookmark (address TEXT)", "INSERT INTO bookmark VALUES ('x')")
    is_refused("another program's database", database, ["archive spring", "export"])
    later = copied(path, "later", *CAMPAIGN)
    stock(later, "CREATE TABLE archive (format INTEGER NOT NULL) STRICT", "INSERT INTO archive VALUES (2)")
    is_refused("a later format's file", later, ["archive spring", "export"])
    folder = copied(path, "folder", *CAMPAIGN)
    os.mkdir(os.path.join(folder, ARCHIVE))
    ends("a folder in its place", folder, "archive spring", 12, "")
    dangling = copied(path, "dangling", *CAMPAIGN)
    linked(dangling, os.path.join(FOLDER, "none"))
    ends("a link to nothing", dangling, "archive spring", 12, "")
    same("link to nothing: what it leads to", os.path.exists(os.path.join(FOLDER, "none")), False)
