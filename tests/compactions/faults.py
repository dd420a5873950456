"""Compactions of a real file whose calls on it fail, each in turn; see tests/faults."""

import errno
import os
import subprocess
from collections import Counter

from tests.campaigns import check
from tests.compactions.moves import STEPS, Move, campaign, told_again
from tests.journals.shim import SHIM
from tests.plain.journals import OPEN, ROLES, Entry, founding, journal, spelled, topics_given
from tests.script import PROGRAM, fail, tell

# the calls of a compaction behind those of its opening, by the letters of the shim: the place, the area and a sync; the
# turn; the move; the turn back; and the cut, each with its sync
CALLS = "wwswswswsts"


def called(path, word, fail_at=0, error=0, **how):
    """The status of a call in which this one of the system's calls fails, what it printed, and their letters."""
    calls = os.path.join(path, "calls")
    open(calls, "w").close()
    settings = {"LD_PRELOAD": SHIM, "CALLS": calls, "FAIL_AT": str(fail_at), "FAIL_WITH": str(error), **how}
    streams = {"stdin": subprocess.DEVNULL, "stdout": subprocess.PIPE, "stderr": subprocess.PIPE}
    ran = subprocess.run([PROGRAM, word], cwd=path, env={**os.environ, **settings}, timeout=60, **streams)
    with open(calls) as file:
        return ran.returncode, ran.stdout, file.read()


class Faults:
    def __init__(self, move):
        self.move, self.path = move, move.folder("faults")
        self.printed, self.again = check(self.path), told_again(self.path, move.entries)
        if not self.printed.startswith(b"entries %d\n" % len(move.entries)) or b"201 Created" not in self.again:
            fail(f"the campaign isn't opened: {self.printed[:60]}, {self.again[:60]}")
        self.tried, self.steps, self.left = Counter(), Counter(), Counter()

    def hold_opened(self, what):
        """The next start has the same entries, and answers the last command again as it did."""
        if (printed := check(self.path)) != self.printed:
            fail(f"{what}: check prints {printed[:80]}")
        if (again := told_again(self.path, self.move.entries)) != self.again:
            fail(f"{what}: a command that comes again is answered {again[:200]}")
        self.left[self.move.hold_rest(what, self.path)] += 1

    def fails(self, number, error, statuses, **how):
        """A compaction whose call of this number fails. The file that it leaves; none where it makes fewer calls."""
        what = f"a compaction whose call {number} fails with {errno.errorcode[error]} {how}"
        self.move.put(self.path, self.move.before)
        status, printed, calls = called(self.path, "compact", number, error, **how)
        if not any(letter.isupper() for letter in calls):
            if (status, printed) != (0, self.move.printed(self.move.place)) or not calls.rstrip("a").endswith(CALLS):
                fail(f"a compaction ends with {status}, prints {printed}, and its calls are {calls}")
            return None
        wanted = self.move.printed(self.move.place) if status == 0 else b""
        if status not in statuses or printed != wanted:
            fail(f"{what} ends with {status} and prints {printed}, calls {calls}")
        image = self.move.image(self.path)
        self.move.hold_entries(what, image)
        self.hold_opened(what)
        return image

    def opens(self, image, step):
        """An opening of what a failed compaction left, each of whose calls fails in turn."""
        number = 0
        while True:
            number += 1
            what = f"an opening of a file {step} whose call {number} fails"
            self.move.put(self.path, image)
            status, printed, calls = called(self.path, "check", number, errno.EIO)
            if not any(letter.isupper() for letter in calls):
                return
            if (status, printed) != (5, b""):
                fail(f"{what} ends with {status} and prints {printed[:80]}, calls {calls}")
            self.move.hold_entries(what, self.move.image(self.path))
            self.hold_opened(what)
            self.tried["failing at an opening of what one left"] += 1

    def each_call(self):
        number = 1
        while (image := self.fails(number, errno.EIO, [5])) is not None:
            self.tried["failing"] += 1
            self.tried["interrupted"] += self.fails(number, errno.EINTR, [0, 5]) is not None
            # (of a write three quarters are done before it fails)
            for left in {image, self.fails(number, errno.EIO, [5], FAIL_PART="")}:
                step = self.move.step(left)
                self.steps[step] += 1
                self.opens(left, step)
            number += 1

    def again_and_alone(self):
        """A second compaction writes the same bytes, and one that would make the file longer writes none."""
        status, printed, _ = called(self.path, "compact")
        if (status, printed) != (0, self.move.printed(len(self.move.after))):
            fail(f"a second compaction ends with {status} and prints {printed}")
        image = self.move.image(self.path)
        if image[:9] + image[16:] != self.move.after[:9] + self.move.after[16:]:
            fail("a second compaction writes other bytes")
        # (a bundle of one entry has tables of its own)
        opening = Entry(b"org", ROLES["organiser"], None, 2**40, OPEN, ())
        entries = [founding(self.move.docs, 600, 2, 1, 3), topics_given(b"org", 1000, [(b"1", b"", b"", b"")]), opening]
        alone = journal([spelled(entry) for entry in entries])
        self.move.put(self.path, alone)
        status, printed, calls = called(self.path, "compact")
        wanted = f"entries 3\nbefore {len(alone)}\nafter {len(alone)}\n".encode()
        if (status, printed) != (0, wanted) or "w" in calls or self.move.image(self.path) != alone:
            fail(f"a compaction to a longer file ends with {status}, prints {printed}, and its calls are {calls}")


def fail_compactions():
    faults = Faults(Move(4, campaign(3, 4, 10)))
    faults.each_call()
    faults.again_and_alone()
    if faults.tried["failing"] < len(CALLS) or faults.tried["interrupted"] < len(CALLS) or len(faults.left) < 2:
        fail(f"too few calls failed: {faults.tried}, {faults.left}")
    steps = ", ".join(f"{faults.steps[step]} {step}" for step in STEPS if faults.steps[step])
    tell("calls of a compaction: " + ", ".join(f"{count} {name}" for name, count in faults.tried.items())
         + f"; those that failed left a file {steps}; each has the same entries, and {faults.left['as before']} starts"
         f" found the records from before and {faults.left['compacted']} those of the compaction")
