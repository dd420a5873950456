"""Leases by the machine's clock."""

import re
import time

from tests.campaigns import ASSESSORS, GROUP, ORGANISER, TOPICS, fresh, message, session
from tests.script import fail, tell
from tests.servers.server import Server, answer_of

RUN = "1 Q0 a 1 3 X\n1 Q0 b 2 2 X\n1 Q0 e 3 1 X\n"
# the messages behind which an assessor may lease the first document, a
JUDGING = [
    ("POST", "/topics", ORGANISER, TOPICS),
    ("POST", "/runs/X", GROUP, RUN),
    ("POST", "/open", ORGANISER, ""),
]


def leased(link, key):
    """The document of a lease, and its moment, which is the clock's and so many seconds."""
    link.sendall(message("POST", "/topics/1/lease", key))
    answer = answer_of(link)
    told = re.search(rb'"doc":"(\w+)".*"until":(\d+)', answer)
    if not told:
        fail(f"no lease was given: {answer}")
    return told.group(1), int(told.group(2))


def leases_by_the_clock():
    for term in (600, 1):
        served = fresh(f"term{term}", term=term)
        session(served, b"".join(message(*row) for row in JUDGING))
        server = Server(served, 1, 1)
        with server.connect() as link:
            before = time.time()
            first, until = leased(link, ASSESSORS[0])
            # (the system's clock for whole seconds may be a tick behind)
            if not before - 1 <= until - term <= time.time() + 1:
                fail(f"a lease of {term} seconds that was taken at {before:.2f} is live up to {until}")
            if term == 1:
                time.sleep(max(until - time.time(), 0) + 1)
                link.sendall(message("POST", "/leases/1/grade", ASSESSORS[0], '{"grade":1}'))
                answer = answer_of(link)
                if not answer.endswith(b'{"refusal":"expired","until":%d}\n' % until):
                    fail(f"a grade behind the end of its lease is answered {answer}")
                second, _ = leased(link, ASSESSORS[1])
                if second != first:
                    fail(f"behind the end of the lease on {first} another one is on {second}")
        server.ends(0)
    tell("leases are live up to the machine's clock and their term, and one of 1 second ended")
