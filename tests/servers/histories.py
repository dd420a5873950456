"""The answers to sixteen clients at once, each of which has to stand in the one history that the journal has."""

import os
import re
import threading

from tests.campaigns import ASSESSORS, GROUP, ORGANISER, TOPICS, fresh, message, session
from tests.plain.journals import records
from tests.script import fail, tell
from tests.servers.clients import Client, is_accepted
from tests.servers.paths import without_clock
from tests.servers.server import Server

# how long a lease is live, in seconds: longer than it takes to ask all again
TERM = 86400
CALLERS = {ORGANISER: b"org", GROUP: b"grp", ASSESSORS[0]: b"p", ASSESSORS[1]: b"q"}


def journal_of(path):
    with open(os.path.join(path, "campaign.journal"), "rb") as file:
        return file.read()


def part_of(journal, end):
    """The journal up to the gate that stands at a place, closed."""
    return journal[:end] + b"\0"


def timeless(payload):
    """An entry without its moment, which stands behind the caller's name, role and number."""
    name = payload[0]
    return payload[: name + 3] + payload[name + 11 :]


class History:
    """A journal, and what a session that begins with its first entries answers to each of these rows."""

    def __init__(self, journal, rows):
        self.journal, self.path = journal, fresh("clients-session", term=TERM)
        self.payloads, self.ends = records(journal)
        self.queries = [row for row in rows if row[0] == "GET"]
        self.told, self.taken = {}, set()

    def answers_behind(self, count, asked):
        with open(os.path.join(self.path, "campaign.journal"), "wb") as file:
            file.write(part_of(self.journal, self.ends[count - 1]))
        text = session(self.path, b"".join(message(*row) for row in asked))
        answers = []
        while text:
            length = int(re.search(rb"Content-Length: (\d+)\r\n", text).group(1))
            end = text.index(b"\r\n\r\n") + 4 + length
            answers.append(without_clock(text[:end]))
            text = text[end:]
        return answers

    def answer_behind(self, count, row):
        if (count, row) not in self.told:
            if row[0] == "GET":
                for query, answer in zip(self.queries, self.answers_behind(count, self.queries)):
                    self.told[count, query] = answer
            else:
                self.told[count, row] = self.answers_behind(count, [row])[0]
        return self.told[count, row]

    def added_by(self, count, row):
        """The entry that a message adds behind the first entries, without its moment."""
        self.answers_behind(count, [row])
        more, _ = records(journal_of(self.path))
        return [timeless(payload) for payload in more[count:]]

    def could_be(self, count, row):
        """Whether the entry behind so many may be of this caller and name this run or document."""
        name = CALLERS[row[2]]
        words = re.findall(r"/runs/(\w+)|\"doc\":\"(\w+)\"", f"{row[1]} {row[3]}")
        return (
            count < len(self.payloads)
            and self.payloads[count].startswith(bytes([len(name)]) + name)
            and all("".join(word).encode() in self.payloads[count] for word in words)
        )

    def stands(self, count, row, answer):
        """Whether a message is answered so behind so many entries; the next one is that of an accepted command."""
        if is_accepted(row, answer):
            if count in self.taken or not self.could_be(count, row):
                return False
            if self.added_by(count, row) != [timeless(self.payloads[count])]:
                return False
        return self.answer_behind(count, row) == answer

    def take(self, said):
        """A client's answers stand in the history, behind ever more of its entries; each entry is one client's."""
        count = 2
        for row, answer in said:
            while not self.stands(count, row, answer):
                count += 1
                if count > len(self.payloads):
                    fail(f"{row} was answered as behind no part of the journal: {answer}")
            if is_accepted(row, answer):
                self.taken.add(count)
                count += 1


def asked_at_once(served):
    """The clients of a server, once each has been answered."""
    server = Server(served, 16, 16)
    halves = threading.Barrier(16)
    clients = [Client(server, number, halves) for number in range(16)]
    for client in clients:
        client.start()
    for client in clients:
        client.join()
    server.ends(0)
    if any(len(client.said) < 24 for client in clients):
        fail("a client wasn't answered")
    return clients


def sixteen_clients():
    served = fresh("clients", term=TERM)
    session(served, message("POST", "/topics", ORGANISER, TOPICS))
    clients = asked_at_once(served)
    history = History(journal_of(served), list({row: None for client in clients for row, _ in client.said}))
    accepted = sum(is_accepted(*said) for client in clients for said in client.said)
    if len(history.payloads) != 2 + accepted:
        fail(f"the journal has {len(history.payloads)} entries, and {accepted} commands were told as accepted")
    for client in clients:
        history.take(client.said)
    if len(history.taken) != accepted:
        fail("an entry of the journal is nobody's")
    said = sum(len(client.said) for client in clients)
    tell(f"{said} answers to sixteen clients are those of one history of {len(history.payloads)} entries")
