"""Two calls at once, calls that can't write, and calls that are killed."""

import os
import random
import resource
import signal
import sqlite3
import time

from tests.archives.calls import ARCHIVE, CAMPAIGN, began, copied, ends, linked, same
from tests.archives.stock import has_tables, only_whole
from tests.script import FOLDER


# how many pairs of calls are begun at once, at least and at most: up to one of which a call finds the file taken
LEAST_PAIRS, MOST_PAIRS = 12, 200


def try_two(first, second):
    """Two campaigns archive into one file at the same time: how often, and how many calls found it taken."""
    shared = copied(FOLDER, "shared")
    open(os.path.join(shared, ARCHIVE), "w").close()
    folders = [copied(path, f"one-of-two-{number}", *CAMPAIGN) for number, (path, _) in enumerate((first, second))]
    for folder in folders:
        linked(folder, shared)
    releases, taken, number = {}, 0, 0
    while number < LEAST_PAIRS or taken == 0 and number < MOST_PAIRS:
        pair = list(zip(folders, (f"a{number}", f"b{number}")))
        ended = [child.wait() for child in [began(folder, "archive", name) for folder, name in pair]]
        same(f"two at once: their statuses {ended}", sorted(ended) in ([0, 0], [0, 12]), True)
        taken += ended.count(12)
        releases |= {name: one for (_, name), (_, one) in zip(pair, (first, second))}
        there = [name for (_, name), status in zip(pair, ended) if status == 0]
        held = only_whole("of two at once", shared, releases)
        same("two at once: which are there", sorted(held[2 * number :]), sorted(there))
        for (folder, name), status in zip(pair, ended):
            word = "kept" if status == 0 else "archived"
            ends("after two at once", folder, f"archive {name}", 0, f"{word} {name}\n")
        number += 1
    writer = sqlite3.connect(os.path.join(shared, ARCHIVE), isolation_level=None)
    writer.execute("BEGIN IMMEDIATE")
    ends("while sqlite3 writes", folders[0], "archive c", 12, "")
    ends("while sqlite3 writes", folders[0], "export", 12, "")
    writer.execute("ROLLBACK")
    writer.close()
    ends("after sqlite3 has ended", folders[0], "archive c", 0, "archived c\n")
    return number, taken


def limited(most):
    def before():
        signal.signal(signal.SIGXFSZ, signal.SIG_IGN)
        resource.setrlimit(resource.RLIMIT_FSIZE, (most, most))

    return before


def try_limits(path, release):
    """Files that may not grow: the release is there whole or not at all, and the same words again have it."""
    ended = []
    for most in (*range(0, 240001, 12000), 4_000_000):
        folder = copied(path, "limited", *CAMPAIGN)
        ended.append(began(folder, "archive", "spring", preexec_fn=limited(most)).wait())
        word = {0: "kept", 12: "archived"}.get(ended[-1], "none")
        ends(f"after a limit of {most} bytes", folder, "archive spring", 0, f"{word} spring\n")
        only_whole(f"after a limit of {most} bytes", folder, {"spring": release})
    same("limits that stop a call, and one that doesn't", (ended[:2], ended[-1]), ([12, 12], 0))


def try_kills(path, release, rounds, seed):
    """Calls that are killed at random moments: how many were under way, and how many left their release."""
    chance = random.Random(seed)
    lasts = time.perf_counter()
    same("killed calls: one that isn't", began(copied(path, "timed", *CAMPAIGN), "archive", "x").wait(), 0)
    lasts = time.perf_counter() - lasts
    under_way = left = 0
    for number in range(rounds):
        if number % 4 == 0:
            folder, there = copied(path, "killed", *CAMPAIGN), []
        name = f"r{number}"
        child = began(folder, "archive", name)
        time.sleep(chance.uniform(0, lasts))
        is_under_way = child.poll() is None
        # (so that two of three are under way, however busy the machine is)
        lasts *= 1.05 if is_under_way else 0.9
        under_way += is_under_way
        child.kill()
        child.wait()
        # (the stock program would mend the file, so it looks at a copy)
        look = copied(folder, "look", *(file for file in os.listdir(folder) if file.startswith(ARCHIVE)))
        held = only_whole("of a killed call", look, dict.fromkeys([*there, name], release)) if has_tables(look) else []
        same("killed calls: what was there is there", held[: len(there)], there)
        same("killed calls: nothing else is there", held[len(there) :] in ([], [name]), True)
        left += name in held
        ends("after a killed one", folder, f"archive {name}", 0, f"{'kept' if name in held else 'archived'} {name}\n")
        there.append(name)
        if number % 4 == 3:
            held = only_whole("after killed calls", folder, dict.fromkeys(there, release))
            same("killed calls: all in their order", held, there)
    return under_way, left
