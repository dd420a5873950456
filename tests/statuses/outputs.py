"""The output: one that can't be written, is closed, is read by nobody, or is longer than a pipe takes at once."""

import os
import re
import subprocess
import time

from tests.campaigns import GROUP, ORGANISER, fresh, message
from tests.script import PROGRAM
from tests.statuses.calls import BEGUN, MOST_TIME, REQUEST
from tests.statuses.calls import opened, ran, tells, with_files, write, wrong
from tests.statuses.files import FAULTY, scores

FULL = "campaign: the output can't be written: look at the disk or the pipe behind it"


def try_full(path):
    write(path, FAULTY, "faulty.txt")
    with open("/dev/full", "wb") as full:
        tells("scores on a full device", path, "eval r.txt q.txt", 8, FULL, stdout=full)
        tells("a fault on a full device", path, "eval faulty.txt q.txt", 8, FULL, stdout=full)
        tells("the usage on a full device", path, "", 8, FULL, stdout=full)
        tells("the check on a full device", path, "check", 8, f"{BEGUN}\n{FULL}", stdout=full)
        tells("an answer on a full device", path, "session", 8, FULL, stdout=full, input=REQUEST)
        tells("a compaction on a full device", path, "compact", 8, FULL, stdout=full)
        opened(path, "X")
        tells("the reuse on a full device", path, "reuse", 8, FULL, stdout=full)


def try_unread(path):
    words = "eval r.txt q.txt"
    tells("a closed output", path, words, 8, FULL, stdout=None, preexec_fn=lambda: os.close(1))
    reads, writes = os.pipe()
    os.close(reads)
    # (so that the signal of such a pipe is ignored there, as here)
    tells("a pipe that nobody reads", path, words, 8, FULL, stdout=writes, restore_signals=False)
    os.close(writes)
    status, _, _ = ran(path, "eval", "none.txt", "q.txt", stderr=None, preexec_fn=lambda: os.close(2))
    if status != 4:
        wrong(f"a closed standard error: status {status}")


def read_late(path, *words, asked=subprocess.DEVNULL):
    """What a call prints that is read a second later, and its status."""
    streams = {"stdin": asked, "stdout": subprocess.PIPE, "stderr": subprocess.DEVNULL}
    call = subprocess.Popen([PROGRAM, *words], cwd=path, **streams)
    time.sleep(1)
    printed, _ = call.communicate(timeout=MOST_TIME)
    return printed, call.returncode


def try_long_output(path):
    """The name of the run stands in each of 17 lines."""
    run = "./" * 2000 + "r.txt"
    printed, status = read_late(path, "eval", run, "q.txt")
    if printed.decode() != re.sub("(?m)^[^\t\n]+", run, scores()) or status != 0:
        wrong(f"a long output: {len(printed)} bytes, status {status}")


def try_long_answer():
    path = fresh("long", depth=1000)
    body = "".join(f"1 Q0 document-{number:055} 1 1 X\n" for number in range(1001, 2001))
    pool = message("GET", "/topics/1/pool", ORGANISER)
    write(path, REQUEST + message("POST", "/runs/X", GROUP, body) + pool, "asked")
    with open(os.path.join(path, "asked"), "rb") as asked:
        printed, status = read_late(path, "session", asked=asked)
    sizes = re.findall(rb"(?m)^Content-Length: ([0-9]*)\r$", printed)
    size = int(sizes[-1]) if sizes else 0
    page = printed[len(printed) - size :]
    documents = page.count(b"document-")
    is_whole = page.startswith(b'{"docs":["') and page.rstrip(b"\n").endswith(b'],"topic":"1"}')
    if status != 0 or size <= 65536 or documents != 1000 or not is_whole:
        wrong(f"a long answer: {len(printed)} bytes, {documents} documents, status {status}")


def try_outputs():
    path = with_files("outputs")
    try_full(path)
    try_unread(path)
    try_long_output(path)
    try_long_answer()
