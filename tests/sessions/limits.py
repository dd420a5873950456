"""Journals that may not grow: by a limit of the file's size, and on a full file system."""

import resource
import shutil
import signal
import subprocess

from tests.campaigns import SETTINGS
from tests.script import fail, tell
from tests.sessions.calls import COMMANDS, DISK, Session, checked, fresh_again, ruling


def many_rulings(count):
    return COMMANDS[:6] + [ruling(3 + number) for number in range(count)]


def hold_cut_off(what, folder, commands, session):
    """Commands up to some one are answered, and those behind it that the disk failed; all are there afterwards."""
    accepted = [answer for answer in session.answers if answer != DISK]
    if not 6 <= len(accepted) < len(commands):
        fail(f"{what}: {len(accepted)} of {len(commands)} commands are accepted, status {session.status}")
    entries = int(checked(folder).split()[1])
    if not 1 + len(accepted) <= entries <= 2 + len(accepted):
        fail(f"{what}: {len(accepted)} commands were acknowledged, and check tells {entries} entries")
    again = Session(folder, commands)
    if again.status != 0 or again.answers[: len(accepted)] != accepted or DISK in again.answers:
        fail(f"{what}: a later session ends with {again.status}")


def limited_file(most, is_ignored):
    def before():
        signal.signal(signal.SIGXFSZ, signal.SIG_IGN if is_ignored else signal.SIG_DFL)
        resource.setrlimit(resource.RLIMIT_FSIZE, (most, most))

    return before


def try_limits():
    commands = many_rulings(100)
    for is_ignored in (True, False):
        what = f"a limit of the file's size, its signal {'ignored' if is_ignored else 'not ignored'}"
        folder = fresh_again()
        session = Session(folder, commands, before=limited_file(2500, is_ignored))
        if session.status != (0 if is_ignored else -signal.SIGXFSZ):
            fail(f"{what}: status {session.status}")
        if is_ignored and len(session.answers) != len(commands):
            fail(f"{what}: {len(session.answers)} answers")
        hold_cut_off(what, folder, commands, session)


def try_full_disk():
    """A full file system, where one may be mounted here."""
    folder = fresh_again("full")
    mount = ["mount", "-t", "tmpfs", "-o", "size=16k", "tmpfs", folder]
    if subprocess.run(mount, capture_output=True).returncode != 0:
        tell("NOT TRIED: no file system may be mounted here, so none is full")
        return
    try:
        shutil.copy(SETTINGS, f"{folder}/campaign.toml")
        commands = many_rulings(400)
        session = Session(folder, commands)
        outside = fresh_again("copied")
        for name in ("campaign.toml", "campaign.journal"):
            shutil.copy(f"{folder}/{name}", outside)
        if session.status != 0 or len(session.answers) != len(commands):
            fail(f"a full file system: status {session.status}, {len(session.answers)} answers")
        hold_cut_off("a full file system", outside, commands, session)
    finally:
        subprocess.run(["umount", folder])
