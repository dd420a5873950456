"""The file of a journal: its rights, its opening, its removal under a session, and a link to it."""

import errno
import os
import re
import shutil
import subprocess
import threading

from tests.script import PROGRAM, fail
from tests.sessions.calls import COMMANDS, DISK, Session, fresh_again


def try_rights():
    """A new journal is its owner's alone, whatever else the umask allows."""
    for mask in (0o000, 0o022, 0o077):
        folder = fresh_again()
        session = Session(folder, COMMANDS[:1], before=lambda: os.umask(mask))
        mode = os.stat(f"{folder}/campaign.journal").st_mode & 0o7777
        if session.status != 0 or mode != 0o600:
            fail(f"with the umask {mask:o} a session ends with {session.status}, and the journal has the mode {mode:o}")


def try_openings():
    """A journal is synced, and its pages are given up, before it is read: how many of these calls failed."""
    folder, journal = fresh_again(), "campaign.journal"
    expected = Session(folder, COMMANDS).answers
    with open(f"{folder}/{journal}", "rb") as file:
        there = file.read()
    session = Session(folder, COMMANDS)
    if session.answers != expected or not re.match("sdfsr", session.calls):
        fail(f"an opening's calls are {session.calls}")
    failed = 0
    for number, calls in ((1, "S"), (2, "sD")):
        session = Session(folder, COMMANDS, [number], errno.EIO)
        with open(f"{folder}/{journal}", "rb") as file:
            is_changed = file.read() != there
        if (session.status, session.answers, session.calls) != (5, [], calls) or is_changed:
            fail(f"an opening whose call {number} fails ends with {session.status}, calls {session.calls}")
        failed += 1
    for error in (errno.EINVAL, errno.ENOSYS, errno.EOPNOTSUPP):
        session = Session(folder, COMMANDS, [2], error)
        if session.status != 0 or session.answers != expected or not re.match("sDfsr", session.calls):
            fail(f"where the advice is unknown, {errno.errorcode[error]}, a session ends with {session.status}")
    return failed


class Talk:
    """A session that is sent one request at a time."""

    def __init__(self, folder):
        streams = {"stdin": subprocess.PIPE, "stdout": subprocess.PIPE, "stderr": subprocess.DEVNULL}
        self.process = subprocess.Popen([PROGRAM, "session"], cwd=folder, **streams)
        self.clock = threading.Timer(60, self.process.kill)
        self.clock.start()

    def ask(self, command):
        """The status and the body of the answer."""
        self.process.stdin.write(command)
        self.process.stdin.flush()
        head = b""
        while not head.endswith(b"\r\n\r\n"):
            piece = self.process.stdout.read(1)
            if not piece:
                fail(f"a session ends before it answers {command!r}")
            head += piece
        length = int(re.search(rb"Content-Length: ([0-9]+)", head)[1])
        return int(head.split()[1]), self.process.stdout.read(length)

    def end(self):
        self.process.stdin.close()
        status = self.process.wait()
        self.clock.cancel()
        return status


def replaced(journal):
    shutil.copy(journal, f"{journal}.copy")
    os.replace(f"{journal}.copy", journal)


def try_removals():
    """A journal that is removed or replaced under a session takes no more commands: how many it refused."""
    refused = 0
    for remove in (os.remove, replaced):
        folder = fresh_again()
        talk = Talk(folder)
        if talk.ask(COMMANDS[0])[0] != 201:
            fail("a session's first command isn't accepted")
        remove(f"{folder}/campaign.journal")
        for command in COMMANDS[1:3] * 2:
            answer = talk.ask(command)
            if answer != (503, DISK):
                fail(f"a command behind {remove.__name__} of the journal is answered {answer}")
            refused += 1
        if talk.end() != 0:
            fail("a session whose journal is gone ends with another status than 0")
    return refused


def try_links(expected):
    """A journal behind a symbolic link is synced in its own folder, and one that isn't there isn't made."""
    folder, elsewhere = fresh_again(), fresh_again("elsewhere")
    journal = f"{elsewhere}/kept"
    os.symlink(journal, f"{folder}/campaign.journal")
    session = Session(folder, COMMANDS)
    if session.status != 5 or session.answers or os.path.exists(journal):
        fail(f"a session over a link that leads nowhere ends with {session.status}")
    open(journal, "w").close()
    for step in ("new", "there"):
        session = Session(folder, COMMANDS)
        if session.status != 0 or session.answers != expected:
            fail(f"a session over a link ends with {session.status}, its journal {step}")
        if session.synced != [os.path.realpath(elsewhere)]:
            fail(f"behind a link, the journal {step}, these folders are synced: {session.synced}")
    folder = fresh_again()
    session = Session(folder, COMMANDS)
    if session.synced != [os.path.realpath(folder)]:
        fail(f"these folders are synced: {session.synced}")
