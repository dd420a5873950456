"""Lets the system's calls on a journal fail, those of sessions and then those of compactions; see tests/faults."""

from tests.compactions.faults import fail_compactions
from tests.script import fail, tell
from tests.sessions.calls import COMMANDS, DISK, Session, checked, fresh_again
from tests.sessions.failures import SENDINGS, each_call, hold_calls, several
from tests.sessions.files import try_links, try_openings, try_removals, try_rights
from tests.sessions.limits import try_full_disk, try_limits


def fail_sessions():
    folder = fresh_again()
    session = Session(folder, several(COMMANDS))
    if session.status != 0 or session.answers != several(session.answers[::SENDINGS]) or DISK in session.answers:
        fail(f"without a failure: status {session.status}, answers {session.answers}")
    hold_calls(session, COMMANDS)
    expected = session.answers[::SENDINGS]
    tried = each_call(expected, checked(folder))
    try_rights()
    tried["failing at an opening"] = try_openings()
    tried["refused without a journal"] = try_removals()
    try_links(expected)
    try_limits()
    try_full_disk()
    told = ", ".join(f"{count} {name}" for name, count in tried.items())
    tell(f"calls on a journal: {told}; each command that was answered is there")


fail_sessions()
fail_compactions()
