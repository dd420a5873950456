"""Calls of the program with what they print, tell on standard error and end with. What is wrong is told at once, and
the script goes on."""

import os
import resource
import shutil
import subprocess
import sys
from collections import Counter

from tests.campaigns import ORGANISER, TOPICS, fresh, message
from tests.script import PROGRAM, SCRIPT

USAGE = (
    "usage: campaign eval RUN QRELS | session | serve --port P --workers W --connections N"
    " | drill SEED RUNS TOPICS DOCS | check | compact | archive NAME | history RUN | compare A B | export | reuse"
    " | agreement\n"
)
BEGUN = "campaign: a new journal is begun in campaign.journal"
MEMORY = "campaign: memory was short: start again with more; accepted commands are in the journal"
# the words that read a journal beside `check`, and all that do
REPORTS = ["compact", "reuse", "agreement"]
READERS = ["check", *REPORTS]
REQUEST = message("POST", "/topics", ORGANISER, TOPICS)
JOURNAL = "campaign.journal"
# how long a call may take, in seconds
MOST_TIME = 60

# how many calls ended with each status, and what was wrong
seen, faults = Counter(), []


def wrong(text):
    print(f"{SCRIPT}: {text}", file=sys.stderr, flush=True)
    faults.append(text)


def ran(path, *words, **how):
    """The status of a call in a folder, what it prints and what it tells."""
    streams = {"stdout": subprocess.PIPE, "stderr": subprocess.PIPE, **how}
    if "input" not in streams:
        streams.setdefault("stdin", subprocess.DEVNULL)
    done = subprocess.run([PROGRAM, *words], cwd=path, timeout=MOST_TIME, **streams)
    return done.returncode, done.stdout or b"", done.stderr


def ended(name, status, wanted, told, said):
    """A call ended with this status, and told these lines, without the last one's end."""
    seen[status] += 1
    if status != wanted:
        wrong(f"{name}: status {status}")
    if told.decode(errors="backslashreplace") != (f"{said}\n" if said else ""):
        wrong(f"{name} tells on standard error: {told.decode(errors='backslashreplace')}")


def ends(name, path, words, wanted, text, said, **how):
    """A call ends with this status, prints this text, and tells this. Words with another byte in them are a list."""
    status, printed, told = ran(path, *(words.split() if isinstance(words, str) else words), **how)
    if printed != text.encode():
        wrong(f"{name}: {printed[-60:]}")
    ended(name, status, wanted, told, said)


def tells(name, path, words, wanted, said, **how):
    """A call ends with this status and tells this; what it prints is given back."""
    status, printed, told = ran(path, *words.split(), **how)
    ended(name, status, wanted, told, said)
    return printed


def has_line(name, printed, line):
    if line not in printed.split(b"\n"):
        wrong(f"{name} has another answer")


def absent(name):
    return (
        f"campaign: {name} can't be read: this folder has no such file, or it has more than 268435456 bytes: look at"
        " its name and at the folder"
    )


def with_files(name):
    """A folder with the sample settings and the files of the program's example."""
    path = fresh(name)
    for file in ("r.txt", "q.txt"):
        shutil.copy(f"crates/campaign/data/{file}", path)
    return path


def little_memory():
    resource.setrlimit(resource.RLIMIT_AS, (100_000_000, 100_000_000))


def read(path, name=JOURNAL):
    with open(os.path.join(path, name), "rb") as file:
        return file.read()


def write(path, data, name=JOURNAL):
    with open(os.path.join(path, name), "wb") as file:
        file.write(data)


def forget(path):
    """The folder has no journal any more."""
    os.remove(os.path.join(path, JOURNAL))


def opened(path, run):
    """The folder's campaign has topics and a run of one document, and the judging is open."""
    if os.path.exists(os.path.join(path, JOURNAL)):
        forget(path)
    submitted = message("POST", f"/runs/{run}", "GROUPGROUPGROUP1", "1 Q0 a 1 3 X\n")
    ran(path, "session", input=REQUEST + submitted + message("POST", "/open", ORGANISER))
