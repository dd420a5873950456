"""The reports, held against what the stock program reads of the file."""

import csv
import io
import itertools
import os
import random
import re
import resource
import subprocess

from tests.archives.calls import ARCHIVE, USAGE, copied, ends, ran, same
from tests.archives.campaigns import BYTES
from tests.archives.stock import ENV, fill, four_decimals, stock
from tests.script import FOLDER

HEADER = ["campaign", "run", "group", "topics", "map"]


def reported(path):
    """The releases by name as the stock program has them: of each its systems' run, group, topics and map, in order."""
    rows = stock(path, "SELECT release, run, group_name, num_q, map FROM system ORDER BY release, place")
    systems = [(release, run, group, int(topics), int(value)) for release, run, group, topics, value in rows]
    by_name = sorted(systems, key=lambda row: row[0].encode())
    return {name: [row[1:] for row in its] for name, its in itertools.groupby(by_name, lambda row: row[0])}


def compared(a, b):
    """What `compare` has to print of two releases, by each pair of runs that both have."""
    maps = [{run: value for run, _, _, value in systems} for systems in (a, b)]
    signs = []
    for one, other in itertools.combinations([run for run in maps[0] if run in maps[1]], 2):
        first, second = (its[one] - its[other] for its in maps)
        signs.append(0 if first == 0 or second == 0 else 1 if (first > 0) == (second > 0) else -1)
    common = sum(run in maps[1] for run in maps[0])
    counts = [signs.count(sign) for sign in (1, -1, 0)]
    lines = [f"{word} {number}" for word, number in zip(("concordant", "discordant", "tied"), counts)]
    return "\n".join([f"common {common}", *lines, f"tau {sum(signs)}/{max(len(signs), 1)}", ""])


def records(releases):
    """The records that `export` has to print."""
    rows = []
    for name, systems in releases.items():
        rows += [[name, run, group, str(topics), four_decimals(value)] for run, group, topics, value in systems]
    return [HEADER, *rows]


def try_reports(path):
    """Each report is worked out anew from what the stock program reads."""
    releases = reported(path)
    runs = sorted({run for systems in releases.values() for run, *_ in systems} | {"none"})
    for run in runs:
        rows = [(name, system) for name, systems in releases.items() for system in systems if system[0] == run]
        text = "".join(f"{name}\t{topics}\t{four_decimals(value)}\n" for name, (_, _, topics, value) in rows)
        # (a word that begins with a dash is no name)
        ends("a run", path, f"history {run}", *((2, USAGE) if run.startswith("-") else (0, text)))
    seen = ""
    for a, b in itertools.product(("spring", "A2001", "a1999", "."), repeat=2):
        seen += compared(releases[a], releases[b])
        ends("two releases", path, f"compare {a} {b}", 0, compared(releases[a], releases[b]))
    for word in ("concordant", "discordant", "tied"):
        same(f"comparisons that have {word} pairs", re.search(rf"\b{word} [1-9]", seen) is not None, True)
    ends("an unknown release", path, "compare spring winter", 15, "unknown winter\n")
    ends("an unknown first one", path, "compare winter summer", 15, "unknown winter\n")
    status, text, _ = ran(path, "export")
    same("export ends", status, 0)
    same("export read by Python's csv", list(csv.reader(io.StringIO(text, newline=""))), records(releases))
    read_back(path, text, releases)
    for what, fields in (("runs", 1), ("groups", 2), ("releases", 0)):
        seen = {byte for row in records(releases)[1:] for byte in row[fields]}
        same(f"names of {what}: bytes that were not tried", BYTES - seen, set())


def read_back(path, text, releases):
    with open(os.path.join(path, "export.csv"), "w") as file:
        file.write(text)
    script = ".import --csv export.csv system\n.mode ascii\nSELECT * FROM system;\n"
    words = ["sqlite3", "-batch"]
    done = subprocess.run(words, input=script.encode(), cwd=path, env=ENV, capture_output=True, check=True)
    rows = [row.split("\x1f") for row in done.stdout.decode().split("\x1e")[:-1]]
    same("export read by sqlite3's .import", rows, records(releases)[1:])


def try_nothing():
    """Reports where there is no archive make no file."""
    path = copied(FOLDER, "nothing")
    ends("no archive", path, "history X", 0, "")
    ends("no archive", path, "compare a b", 15, "unknown a\n")
    ends("no archive", path, "export", 0, ",".join(HEADER) + "\n")
    same("folder after reports", os.listdir(path), [])


def processor_seconds():
    """The seconds that the processor worked on calls so far."""
    spent = resource.getrusage(resource.RUSAGE_CHILDREN)
    return spent.ru_utime + spent.ru_stime


def try_large(path):
    """30 releases of 256 systems, filled in by Python's sqlite3: exported in under a second of the processor."""
    large = copied(path, "large", ARCHIVE)
    dice = random.Random(30)
    maps = lambda year: [(f"run-{place}", f"group-{place % 9}", 50, dice.random()) for place in range(1, 257)]
    fill(large, [(f"trec-{year}", *row) for year in range(30) for row in maps(year)], "")
    times = []
    for _ in range(3):
        before = processor_seconds()
        status, text, _ = ran(large, "export")
        times.append(processor_seconds() - before)
    same("large archive: the export", (status, list(csv.reader(io.StringIO(text)))), (0, records(reported(large))))
    same(f"large archive: {min(times):.2f} s, under a second", min(times) < 1, True)
    releases = reported(large)
    ends("a large archive", large, "compare trec-1 trec-2", 0, compared(releases["trec-1"], releases["trec-2"]))
    return min(times)
