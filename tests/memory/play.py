"""Refuses each call for memory of each run in its turn; see tests/growth."""

import itertools
import os
from collections import Counter
from concurrent.futures import ThreadPoolExecutor

from tests.memory.calls import begun_by, call_of, evaluation, session_of
from tests.memory.rows import JUDGING, RELEASE, rows_of
from tests.memory.servers import server_of
from tests.script import WORDS, fail, tell

STRIDE = int(WORDS[0])
# how many runs are begun at a time
BATCH = 64


def effects_of(refused):
    """What each call for memory that is tried comes to where it is refused, up to one that isn't made."""
    with ThreadPoolExecutor(os.cpu_count()) as pool:
        for first in itertools.count(1, BATCH * STRIDE):
            for effect in pool.map(refused, range(first, first + BATCH * STRIDE, STRIDE)):
                if effect is None:
                    return
                yield effect


def try_calls(name, refused, least_calls, least_shorts):
    effects = Counter(effects_of(refused))
    tried = sum(effects.values())
    counts = f"{tried} calls for memory, each refused in a run of its own: " + ", ".join(
        f"{count} {effect}" for effect, count in sorted(effects.items())
    )
    if tried * STRIDE < least_calls or effects["507"] * STRIDE < least_shorts:
        fail(f"{name}: too few of {counts}")
    tell(f"{name}: {counts}")


# how many calls at least are refused, and how many of them are answered 507
try_calls("an evaluation", evaluation, 40, 0)
for name, asked, calls, shorts in [
    ("a session that begins a judging", JUDGING, 200, 70),
    ("a session from the topics to the release", RELEASE, 300, 130),
]:
    try_calls(name, session_of(name, rows_of(asked)), calls, shorts)
played = begun_by(rows_of(RELEASE))
for word in ("compact", "reuse", "agreement"):
    try_calls(f"`{word}`", call_of(word, played), 40, 0)
for workers, calls, shorts in [(2, 300, 50), (4, 300, 90)]:
    name = f"a server of {workers} workers"
    try_calls(name, server_of(name, workers), calls, shorts)
