"""Runs of the program in which one call for memory is refused."""

import os
import shutil
import subprocess
import threading

from tests.script import PROGRAM, fail, shared_object
from tests.servers.server import started

SHIM = shared_object("tests/memory/refused_memory.c")
# what a run takes at most, in seconds
MOST_TIME = 60
SHORT = b"campaign: memory was short: start again with more; accepted commands are in the journal\n"


def ran(path, word, requests=b""):
    """What the program prints in a folder where no call is refused."""
    done = subprocess.run([PROGRAM, word], cwd=path, input=requests, capture_output=True, timeout=MOST_TIME)
    if done.returncode != 0:
        fail(f"{path}: {word} ends with {done.returncode} and tells {done.stderr!r}")
    return done.stdout


class Run:
    """A run of the program in which the call for memory of this number is refused, where it makes so many."""

    def __init__(self, name, number, path, *words, **streams):
        self.what, self.path = f"{name}, call {number} for memory", path
        self.mark, self.errors = f"{path}/refused", f"{path}/errors"
        settings = {"LD_PRELOAD": SHIM, "REFUSE_AT": str(number), "REFUSED": self.mark}
        with open(self.errors, "wb") as errors:
            streams.update(stdout=subprocess.PIPE, stderr=errors)
            self.process = subprocess.Popen([PROGRAM, *words], cwd=path, env={**os.environ, **settings}, **streams)
        started.append(self.process)
        self.clock = threading.Timer(MOST_TIME, self.process.kill)
        self.clock.daemon = True
        self.clock.start()

    def wrong(self, text):
        fail(f"{self.what}: {text}")

    def threads(self):
        return len(os.listdir(f"/proc/{self.process.pid}/task"))

    def is_refused(self):
        """Whether the call of its number was made."""
        return os.path.exists(self.mark)

    def told(self):
        with open(self.errors, "rb") as file:
            return file.read()

    def status(self, errors):
        """The status that it ends with: 0 behind these errors, or 7 behind a part of them. It prints nothing more."""
        with self.process.stdout as printed:
            rest = printed.read()
        status = self.process.wait()
        self.clock.cancel()
        started.remove(self.process)
        told = self.told()
        is_short = told.endswith(SHORT) and errors.startswith(told.removesuffix(SHORT))
        if rest or not (status == 0 and told == errors or status == 7 and is_short):
            self.wrong(f"it ends with {status}, prints {rest!r} at its end and tells {told!r}")
        return status

    def effect(self, status, shorts):
        """What the refused call came to, behind so many answers 507; None where none was refused. Its folder goes."""
        refused = int(self.is_refused())
        shutil.rmtree(self.path)
        if shorts + (status == 7) > refused:
            self.wrong(f"calls refused: {refused}, answers 507: {shorts}, status {status}")
        if not refused:
            return None
        return "status 7" if status == 7 else "507" if shorts else "no effect"
