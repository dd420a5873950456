"""Calls on a journal that fail, each by itself and with one behind it, while each command is sent several times."""

import errno
import re

from tests.script import fail
from tests.sessions.calls import COMMANDS, DISK, Session, checked, fresh_again

# how often each command is sent, and how many calls behind a failing one fail in their turn
SENDINGS, BEHIND = 4, 6


def several(commands):
    return [command for command in commands for _ in range(SENDINGS)]


def hold_calls(session, commands):
    """Two syncs stand between a command and its 201, and no call between one that comes again and its answer."""
    parts = session.calls.split("a")
    firsts = [parts[place] for place in range(0, len(commands) * SENDINGS, SENDINGS)]
    others = [part for place, part in enumerate(parts[: len(commands) * SENDINGS]) if place % SENDINGS]
    if not re.fullmatch("sdfsr*[wst]*wsws", firsts[0]) or any(part != "wsws" for part in firsts[1:]) or any(others):
        fail(f"the calls between commands and their answers are {session.calls}")


def hold_answers(what, session, expected):
    """Each answer is the command's, or that the disk failed; the last is the command's. How often the disk failed."""
    if session.status != 0 or len(session.answers) != SENDINGS * len(expected):
        fail(f"{what}: status {session.status}, {len(session.answers)} answers, calls {session.calls}")
    for place, answer in enumerate(session.answers):
        wanted = expected[place // SENDINGS]
        if answer != wanted and (answer != DISK or place % SENDINGS == SENDINGS - 1):
            command = f"command {place // SENDINGS + 1} is answered {answer!r} and not {wanted!r}"
            fail(f"{what}: {command}, calls {session.calls}")
    return session.answers.count(DISK)


def hold_journal(what, folder, expected, there):
    """The journal has what it would have without a failure, and each command is answered as before."""
    if checked(folder) != there:
        fail(f"{what}: check tells {checked(folder)!r}")
    again = Session(folder, COMMANDS)
    if again.status != 0 or again.answers != expected:
        fail(f"{what}: a later session is answered {again.answers}")


def try_failures(numbers, error, expected, there):
    """A session whose calls of these numbers fail: how many did, and whether the journal was opened."""
    what = f"calls {numbers} fail with {errno.errorcode[error]}"
    folder = fresh_again()
    session = Session(folder, several(COMMANDS), numbers, error)
    failed = sum(letter.isupper() for letter in session.calls)
    if session.status == 5:
        if session.answers or failed == 0:
            fail(f"{what}: the journal isn't opened, calls {session.calls}")
        session = Session(folder, several(COMMANDS))
        hold_answers(f"{what}, and then none", session, expected)
    else:
        told = hold_answers(what, session, expected)
        if told > failed or (told == 0 and failed > 0 and error != errno.EINTR):
            fail(f"{what}: {failed} calls failed, and {told} answers say so, calls {session.calls}")
    hold_journal(what, folder, expected, there)
    return failed


def each_call(expected, there):
    """Every call fails by itself, and with one of those behind it."""
    tried = {"failing": 0, "failing twice": 0, "interrupted": 0}
    number = 1
    while try_failures([number], errno.EIO, expected, there):
        tried["failing"] += 1
        tried["interrupted"] += try_failures([number], errno.EINTR, expected, there)
        for behind in range(1, BEHIND + 1):
            tried["failing twice"] += try_failures([number, number + behind], errno.EIO, expected, there) == 2
        number += 1
    if tried["failing"] < 4 * len(COMMANDS) or tried["failing twice"] < 2 * tried["failing"]:
        fail(f"too few calls failed: {tried}")
    return tried
