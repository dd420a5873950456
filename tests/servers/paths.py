"""Each path of a server, asked by curl and byte by byte, beside a session on the same messages."""

import re
import subprocess

from tests.campaigns import ASSESSORS, GROUP, ORGANISER, check, fields, fresh, message, session
from tests.script import fail, tell
from tests.servers.server import MOST_WAIT, Server, to_end

CASES = "crates/acceptance_cases/stdin"
KEYS = {"org": ORGANISER, "grp": GROUP, "p": ASSESSORS[0], "q": ASSESSORS[1], "-": None}


def rows_of(case):
    """The requests of a case, each its method, path, key, body and number, and the statuses of their answers."""
    with open(CASES) as file:
        lines = file.read().split(f"\ncase {case}\n")[1].split("\ncampaign ")[0].splitlines()
    rows, statuses = [], []
    for line in lines:
        words, answer = line.split(" -> ")
        who, method, path, *body = words.split(" ", 3)
        who, _, number = who.partition("#")
        rows.append((method, path, KEYS[who], "".join(body).replace("|", "\n"), number or None))
        statuses.append(answer.split()[0])
    return rows, statuses


ROWS, STATUSES = rows_of("each kind of request")


def without_clock(answers):
    """The answers without the moments up to which leases are live."""
    return re.sub(rb'"until":\d+', b'"until":N', answers)


def curl_each_path():
    served, held = fresh("curl"), fresh("curl-session")
    server = Server(served, 4, len(ROWS))
    answers = b""
    for method, path, key, body, number in ROWS:
        words = ["curl", "-s", "-i", "-m", str(MOST_WAIT), "-X", method]
        for field in fields(key, number):
            words += ["-H", field]
        if method != "GET":
            words += ["--data-binary", "@-"]
        url = f"http://127.0.0.1:{server.port}{path}"
        answers += subprocess.run([*words, url], input=body.encode(), stdout=subprocess.PIPE).stdout
    server.ends(0)
    expected = session(held, b"".join(message(*row) for row in ROWS))
    if without_clock(answers) != without_clock(expected):
        fail(f"curl is answered otherwise than a session:\n{answers.decode()}\nand not\n{expected.decode()}")
    told = re.findall(r"(?m)^HTTP/1.1 (\d+)", answers.decode())
    if told != STATUSES:
        fail(f"curl is told the statuses {told} and not {STATUSES}")
    # (a number that comes again is answered as before, and adds nothing)
    numbered = [row for row in ROWS if row[4]]
    count = 1 + answers.count(b"HTTP/1.1 201 Created") - (len(numbered) - len(set(numbered)))
    if check(served) != check(held) or not check(served).startswith(b"entries %d\nphase published\n" % count):
        fail(f"the journals of a server and a session differ: {check(served)}")
    tell(f"{len(ROWS)} requests by curl are answered as in a session")


def byte_by_byte():
    served, held = fresh("bytes"), fresh("bytes-session")
    messages = b"".join(message(*row) for row in ROWS[1:8]) + b"no request\r\n\r\n"
    server = Server(served, 1, 1)
    with server.connect() as link:
        for place in range(len(messages)):
            link.sendall(messages[place : place + 1])
        answers = to_end(link)
    server.ends(0)
    if answers != session(held, messages):
        fail(f"bytes that come one by one are answered otherwise: {answers}")
    tell(f"{len(messages)} bytes that come one by one are answered")
