"""Clients of one server at a time, which send messages by chance."""

import random
import re
import threading

from tests.campaigns import ASSESSORS, GROUP, ORGANISER, message
from tests.servers.paths import without_clock
from tests.servers.server import MOST_WAIT, answer_of


class Client(threading.Thread):
    """Sends messages by chance on one connection, each after the answer to the last one."""

    def __init__(self, server, number, halves):
        super().__init__()
        self.server, self.number, self.halves, self.said = server, number, halves, []
        self.chance = random.Random(number)

    def collecting(self):
        run, doc = self.chance.randrange(24), self.chance.randrange(40)
        return self.chance.choice(
            [
                ("POST", f"/runs/R{run}", GROUP, f"1 Q0 d{doc} 1 2 t\n1 Q0 c{self.number} 2 1 t\n"),
                ("POST", f"/runs/R{run}", GROUP, f"1 Q0 d{doc} 1 2 t\n"),
                ("GET", "/topics/1/pool", ORGANISER, ""),
                ("GET", "/table", ORGANISER, ""),
                ("GET", "/progress", ORGANISER, ""),
                ("GET", f"/runs/R{run}/scores", GROUP, ""),
            ]
        )

    def judging(self):
        # (a ruling is on a document that no other client rules on, so that its entry is known)
        ruling = '{"doc":"c%d","grade":%d}' % (self.number, self.chance.randrange(3))
        return self.chance.choice(
            [
                ("POST", "/topics/1/lease", self.chance.choice(ASSESSORS), ""),
                ("POST", "/topics/1/lease", self.chance.choice(ASSESSORS), ""),
                ("POST", "/topics/1/rule", ORGANISER, ruling),
                ("GET", "/topics/1/pool", ORGANISER, ""),
                ("GET", "/qrels", ORGANISER, ""),
                ("GET", "/table", ORGANISER, ""),
            ]
        )

    def say(self, link, row):
        link.sendall(message(*row))
        answer = answer_of(link)
        self.said.append((row, without_clock(answer)))
        return answer

    def run(self):
        with self.server.connect() as link:
            for _ in range(12):
                self.say(link, self.collecting())
            self.halves.wait(MOST_WAIT)
            if self.number == 0:
                self.say(link, ("POST", "/open", ORGANISER, ""))
            for _ in range(12):
                row = self.judging()
                answer = self.say(link, row)
                if lease := re.search(rb'"lease":(\d+)', answer):
                    grade = '{"grade":%d}' % self.chance.randrange(3)
                    self.say(link, ("POST", f"/leases/{int(lease.group(1))}/grade", row[2], grade))


def is_accepted(row, answer):
    return row[0] == "POST" and answer.startswith(b"HTTP/1.1 201 ")
