"""Compactions of a real file that are killed at random moments; see tests/crashes."""

import os
import random
import signal
import subprocess
import time
from collections import Counter

from tests.campaigns import check
from tests.compactions.moves import JOURNAL, STEPS, Move, campaign, told_again
from tests.script import PROGRAM, WORDS, fail, tell

ROUNDS, SEED = 2 * int(WORDS[0]), int(WORDS[1])
# 250 topics with long texts, and a run of 25,000 lines: so the file has 6 MB, and is opened in a moment
TOPICS, DOCS, LEASES, TEXT = 250, 100, 3000, 8192
# how many steps of a move have to be met, and of how many kills one has to meet a compaction under way
LEAST_STEPS, LEAST_UNDER_WAY = 4, 2


def began(path):
    return subprocess.Popen([PROGRAM, "compact"], cwd=path, stdout=subprocess.PIPE, stderr=subprocess.PIPE)


def ended(child):
    """The status of a call and what it printed."""
    printed, _ = child.communicate()
    return child.returncode, printed


def grows(path, child, size):
    """Waits until the file has more bytes than it had, or the call has ended."""
    while child.poll() is None and os.stat(os.path.join(path, JOURNAL)).st_size <= size:
        time.sleep(0.0002)


def timed(move, path):
    """The seconds that a compaction takes in all, and from the file's first growth on."""
    begun = time.perf_counter()
    child = began(path)
    grows(path, child, move.place)
    grown = time.perf_counter()
    if ended(child) != (0, move.printed(move.place)):
        fail("a compaction that isn't killed ends otherwise")
    last = time.perf_counter()
    if move.image(path) != move.after:
        fail("a compaction that isn't killed leaves another file")
    return last - begun, last - grown


class Kills:
    """Compactions of one file: how many were under way when they were killed, and at which step."""

    def __init__(self, move):
        self.move, self.chance = move, random.Random(SEED)
        self.path = move.folder("killed")
        self.printed, self.again = check(self.path), told_again(self.path, move.entries)
        if not self.printed.startswith(b"entries %d\n" % len(move.entries)) or b"201 Created" not in self.again:
            fail(f"the campaign isn't opened: {self.printed[:60]}, {self.again[:60]}")
        self.lasts, self.moves = timed(move, self.path)
        self.under_way, self.left, self.steps = 0, Counter(), Counter()

    def kill(self, is_moving):
        """Kills a compaction, at any moment of it or of its writes. Whether it was under way."""
        child = began(self.path)
        if is_moving:
            grows(self.path, child, self.move.place)
        time.sleep(self.chance.uniform(0, self.moves if is_moving else self.lasts))
        is_under_way = child.poll() is None
        child.kill()
        status, printed = ended(child)
        if status not in (0, -signal.SIGKILL) or status == 0 and printed != self.move.printed(self.move.place):
            fail(f"a compaction that is killed ends with {status} and prints {printed}")
        return is_under_way

    def round(self, number):
        what = f"seed {SEED}, compaction {number}"
        self.move.put(self.path, self.move.before)
        is_moving = number % 4 != 0
        is_under_way = self.kill(is_moving)
        image = self.move.image(self.path)
        self.move.hold_entries(what, image)
        if is_under_way:
            self.under_way += 1
            self.steps[self.move.step(image)] += 1
        # (so that two of three are under way, however busy the machine is, and was when they were timed)
        change = 1.05 if is_under_way else 0.9
        if is_moving:
            self.moves *= change
        else:
            self.lasts *= change
        self.hold_opened(what, number % 2 == 0)

    def hold_opened(self, what, is_checked_first):
        """The next start has the same entries, and answers the last command again as it did."""
        printed = check(self.path) if is_checked_first else None
        again = told_again(self.path, self.move.entries)
        if printed is None:
            printed = check(self.path)
        if printed != self.printed:
            fail(f"{what}: check prints {printed[:80]}")
        if again != self.again:
            fail(f"{what}: a command that comes again is answered {again[:200]}")
        self.left[self.move.hold_rest(what, self.path)] += 1

    def hold_last(self):
        """A compaction that isn't killed is done, whichever records the last round left."""
        begun = len(self.move.image(self.path))
        if ended(began(self.path)) != (0, self.move.printed(begun)):
            fail("a compaction behind killed ones ends otherwise")
        if self.move.image(self.path) != self.move.moved_from(begun):
            fail("a compaction behind killed ones leaves another file")


def kill_compactions():
    move = Move(DOCS, campaign(TOPICS, DOCS, LEASES, TEXT))
    kills = Kills(move)
    for number in range(1, ROUNDS + 1):
        kills.round(number)
    kills.hold_last()
    steps = ", ".join(f"{kills.steps[step]} {step}" for step in STEPS if kills.steps[step])
    told = f"{ROUNDS} compactions of {move.place:,} bytes were killed, {kills.under_way} of them under way: {steps}"
    if ROUNDS >= 100 and (kills.under_way * LEAST_UNDER_WAY < ROUNDS or len(kills.steps) < LEAST_STEPS):
        fail(f"too little was tried: {told}")
    tell(f"{told}; each left the same {len(move.entries):,} entries, and the next start had the records from before "
         f"{kills.left['as before']} times and those of the compaction {kills.left['compacted']} times")
