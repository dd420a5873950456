"""The input of a session, and a journal that a session has until its input ends."""

import os
import subprocess

from tests.campaigns import ORGANISER, fresh, message
from tests.script import PROGRAM
from tests.statuses.calls import BEGUN, MOST_TIME, READERS, REQUEST, ended, ends, has_line, tells, wrong

CUT = "campaign: the input ended inside a message, or one was refused: send what is missing in a new session"
UNREAD = "campaign: the input can't be read: send what is missing in a new session"
TAKEN = "campaign.journal: another process has it: end that one (`lslocks` names it), and start again"


def begins(path):
    """A session that is sent one thing after another."""
    streams = {"stdin": subprocess.PIPE, "stdout": subprocess.PIPE, "stderr": subprocess.PIPE}
    return subprocess.Popen([PROGRAM, "session"], cwd=path, bufsize=0, **streams)


def try_taken(path):
    """A session that has answered once has the journal until its input ends."""
    holder = begins(path)
    holder.stdin.write(message("GET", "/progress", ORGANISER))
    answer = b""
    while not answer.endswith(b"\n1 0 0 0 0\n") and (piece := holder.stdout.read(1)):
        answer += piece
    for word in READERS:
        ends(f"{word} of a journal that a session has", path, word, 5, "", TAKEN)
    holder.communicate(timeout=MOST_TIME)


def try_ends(path):
    if tells("a request that ends early", path, "session", 11, CUT, input=REQUEST[:40]):
        wrong("a request that ends early is answered")
    printed = tells("no request", path, "session", 11, CUT, input=b"no request\r\n\r\n")
    has_line("no request", printed, b'{"fault":"head"}')
    there = os.open(path, os.O_RDONLY)
    if tells("an input that can't be read", path, "session", 10, UNREAD, stdin=there):
        wrong("an input that can't be read is answered")
    os.close(there)


def try_bytes(path):
    session = begins(path)
    for place in range(len(REQUEST)):
        session.stdin.write(REQUEST[place : place + 1])
    _, told = session.communicate(timeout=MOST_TIME)
    ended("a request byte by byte", session.returncode, 0, told, "")


def try_inputs():
    path = fresh("inputs")
    printed = tells("a request", path, "session", 0, BEGUN, input=REQUEST)
    has_line("a request", printed, b'{"topics":1}')
    ends("what a session accepted is there", path, "check", 0, "entries 2\nphase collecting\n", "")
    try_taken(path)
    try_ends(path)
    try_bytes(path)
