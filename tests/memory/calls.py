"""An evaluation, calls over a campaign, and sessions, one of whose calls for memory is refused."""

import shutil
import subprocess

from tests.campaigns import fresh
from tests.memory.clients import Client, Line, requests_of
from tests.memory.runs import Run, ran
from tests.script import FOLDER

BEGUN = b"campaign: a new journal is begun in campaign.journal\n"


def evaluation(number):
    """The example that the program is run on."""
    path = f"{FOLDER}/evaluation{number}"
    shutil.copytree("crates/campaign/data", path)
    run = Run("an evaluation", number, path, "eval", "r.txt", "q.txt")
    text = run.process.stdout.read()
    status = run.status(b"")
    with open("crates/campaign/stdout", "rb") as scores:
        if text != (b"" if status == 7 else scores.read()):
            run.wrong(f"at status {status} it prints {text!r}")
    return run.effect(status, 0)


def begun_by(rows):
    """A folder with the journal that a session leaves which is asked for these rows."""
    path = fresh("begun")
    ran(path, "session", requests_of(rows))
    return path


def copied(begun, name):
    path = f"{FOLDER}/{name}"
    shutil.copytree(begun, path)
    return path


def call_of(word, begun):
    """A call over a campaign, which has the same entries afterwards."""
    text, state = ran(copied(begun, f"{word} whole"), word), ran(copied(begun, f"{word} checked"), "check")

    def refused(number):
        path = copied(begun, f"{word} {number}")
        run = Run(word, number, path, word, stdin=subprocess.DEVNULL)
        printed = run.process.stdout.read()
        status = run.status(b"")
        if printed != (b"" if status == 7 else text):
            run.wrong(f"at status {status} it prints {printed!r}")
        if (told := ran(path, "check")) != state:
            run.wrong(f"afterwards check tells {told!r} and not {state!r}")
        return run.effect(status, 0)

    return refused


def session_of(name, rows):
    """A session over a new journal, which is asked for one row after the other."""
    whole = fresh(f"{name} whole")
    ran(whole, "session", requests_of(rows))
    text = ran(whole, "check")

    def refused(number):
        path = fresh(f"{name} {number}")
        run = Run(name, number, path, "session", stdin=subprocess.PIPE)
        client, line = Client(run, path, 1), Line(run, run.process.stdin, run.process.stdout)
        is_whole = all(client.asks(line, row) for row in rows)
        line.end_requests()
        status = run.status(BEGUN)
        if (status == 0) != is_whole:
            run.wrong(f"it ends with {status}, and its answers are {'' if is_whole else 'not '}the rows'")
        client.hold_afterwards(rows)
        if (told := ran(path, "check")) != text:
            run.wrong(f"afterwards check tells {told!r} and not {text!r}")
        return run.effect(status, client.shorts)

    return refused
