"""The program's calls in folders of their own, and what they have to come to."""

import os
import shutil
import subprocess

from tests.script import FOLDER, PROGRAM, fail

ARCHIVE = "campaign.archive"
CAMPAIGN = ["campaign.toml", "campaign.journal"]

tried = {}


def same(what, seen, wanted):
    """Counts what was tried by its first word, and ends at the first thing that isn't as it should be."""
    tried[what.split()[0]] = tried.get(what.split()[0], 0) + 1
    if seen != wanted:
        fail(f"{what}:\n{str(seen)[:2000]}\nand not\n{str(wanted)[:2000]}")


def ran(path, *words, **how):
    """Status, standard output and standard error of a call in a folder."""
    streams = {"stdin": subprocess.DEVNULL, "stdout": subprocess.PIPE, "stderr": subprocess.PIPE, **how}
    done = subprocess.run([PROGRAM, *words], cwd=path, timeout=60, **streams)
    return done.returncode, (done.stdout or b"").decode(), done.stderr.decode()


def ends(what, path, words, status, text):
    """A call ends so, and standard error has a line where it isn't 0."""
    ended, printed, told = ran(path, *words.split(" "))
    same(f"call {what}, `{words}`", (ended, printed), (status, text))
    if status != 2:
        same(f"call {what}, `{words}`, and what it tells", told.count("\n"), int(status != 0))


def began(path, *words, **how):
    """A call that is under way; what it tells isn't looked at."""
    return subprocess.Popen([PROGRAM, *words], cwd=path, stdout=subprocess.DEVNULL, stderr=subprocess.DEVNULL, **how)


def copied(path, name, *files):
    """A folder with copies of these files."""
    to = os.path.join(FOLDER, name)
    shutil.rmtree(to, ignore_errors=True)
    os.mkdir(to)
    for file in files:
        shutil.copy(os.path.join(path, file), to)
    return to


def linked(path, to):
    """The folder's archive is that of another folder."""
    os.symlink(os.path.join(to, ARCHIVE), os.path.join(path, ARCHIVE))


USAGE = ran(FOLDER, "help")[1]
