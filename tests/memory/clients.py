"""The rows that a run is asked, each a request with its answer, and the client that asks them."""

import io
import itertools
import os
import re
import shutil
from contextlib import suppress

from tests.memory.runs import ran

TYPES = "application/json|text/plain"
HEAD = re.compile(rf"HTTP/1.1 (\d+) [\w ]+\r\nContent-Type: (?:{TYPES})\r\nContent-Length: (\d+)\r\n".encode())
# an answer is a status and a body, and a row a request with its answer
MEMORY = (507, b'{"fault":"memory"}\n')


class Line:
    """A connection to a run: a stream of requests, and one of answers."""

    def __init__(self, run, requests, answers):
        self.run, self.requests, self.answers = run, requests, answers

    def send(self, piece):
        # (where it has ended, the answer will be missing)
        with suppress(ConnectionError):
            self.requests.write(piece)
            self.requests.flush()

    def answer(self):
        """The next answer, with no moment in it; None at the end."""
        try:
            head = b"".join(itertools.takewhile(lambda row: row != b"\r\n", self.answers))
            told = HEAD.fullmatch(head)
            body = self.answers.read(int(told[2])) if told else b""
        except ConnectionError:
            return None
        if not head:
            return None
        if not told or len(body) < int(told[2]):
            self.run.wrong(f"an answer is {head + body!r}")
        return int(told[1]), re.sub(rb'"until":\d+', b'"until":0', body)

    def end_requests(self):
        with suppress(ConnectionError):
            self.requests.close()

    def close(self):
        self.end_requests()
        self.answers.close()


def requests_of(rows):
    return b"".join(request for request, _ in rows)


class Client:
    """Takes the answers to rows. It knows the commands that were accepted, beside the entries that were there."""

    def __init__(self, run, path, entries):
        self.run, self.path, self.entries = run, path, entries
        self.accepted, self.lost, self.shorts = set(), set(), 0

    def takes(self, line, row):
        """Whether a row that was sent is answered. Behind a 507, for which nothing was added, it is sent again."""
        request, wanted = row
        answer = line.answer()
        if answer == MEMORY:
            self.shorts += 1
            self.hold_copy(f"{self.path}/copied{self.shorts}")
            line.send(request)
            answer = line.answer()
        if answer is None:
            self.lost.add(line)
        elif answer != wanted:
            self.run.wrong(f"{request!r} is answered {answer} and not {wanted}")
        elif answer[0] == 201:
            self.accepted.add(request)
        return answer is not None

    def asks(self, line, row):
        line.send(row[0])
        return self.takes(line, row)

    def hold_entries(self, path):
        told, entries = ran(path, "check"), self.entries + len(self.accepted)
        if not told.startswith(b"entries %d\n" % entries):
            self.run.wrong(f"{entries} entries are to be there, and check tells {told[:40]!r}")

    def hold_copy(self, copied):
        """A copy of the journal, which may be taken while it is open, has the entries."""
        os.mkdir(copied)
        for name in ("campaign.toml", "campaign.journal"):
            shutil.copy(f"{self.path}/{name}", copied)
        self.hold_entries(copied)

    def hold_afterwards(self, rows):
        """The journal has the entries, and a session with memory answers each row; but for refused commands, which
        leave no reply that is kept."""
        self.hold_entries(self.path)
        again = [row for row in rows if row[1][0] != 409]
        line = Line(self.run, None, io.BytesIO(ran(self.path, "session", requests_of(again))))
        for request, wanted in again:
            if (answer := line.answer()) != wanted:
                self.run.wrong(f"afterwards {request!r} is answered {answer} and not {wanted}")
