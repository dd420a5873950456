"""Copies of a server's journal, which are taken while it grows."""

import os
import re
import shutil
import threading

from tests.campaigns import GROUP, ORGANISER, TOPICS, check, fresh, message, session
from tests.script import fail, tell
from tests.servers.clients import is_accepted
from tests.servers.server import Server, answer_of


def copies_while_it_runs():
    """A copy of the journal opens, whenever it is taken, and has each command that was answered before."""
    served, copied = fresh("served"), fresh("copied")
    session(served, message("POST", "/topics", ORGANISER, TOPICS))
    server = Server(served, 1, 1)
    answers = []

    def submit():
        with server.connect() as link:
            for number in range(200):
                link.sendall(message("POST", f"/runs/R{number}", GROUP, f"1 Q0 d{number} 1 3 R{number}\n"))
                answers.append(answer_of(link))

    client = threading.Thread(target=submit)
    client.start()
    copies = 0
    while client.is_alive():
        # the founding, the topics, and a run an answer
        before = 2 + len(answers)
        shutil.copy(os.path.join(served, "campaign.journal"), copied)
        told = re.match(rb"entries (\d+)\n", check(copied))
        if not told or int(told.group(1)) < before:
            fail(f"a copy of the journal has {told and told.group(1)} entries, and {before} were accepted before it")
        copies += 1
    client.join()
    server.ends(0)
    if len(answers) != 200 or not all(is_accepted(("POST",), answer) for answer in answers):
        fail("a run wasn't accepted")
    tell(f"{copies} copies of a journal under way have each command that was answered before")
