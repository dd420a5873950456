"""Peers that hold no worker: behind them the next client is answered at once."""

import random
import socket
import struct
import time
from concurrent.futures import ThreadPoolExecutor

from tests.campaigns import GROUP
from tests.script import fail, tell
from tests.servers.server import to_end
from tests.strangers.served import AT_ONCE, POOL, WORKERS, answered_after, answered_at_once, goes_on, served


def resets():
    count = 100
    server = served("resets", count + count // 10)
    for number in range(count):
        with server.connect() as link:
            link.setsockopt(socket.SOL_SOCKET, socket.SO_LINGER, struct.pack("ii", 1, 0))
            link.sendall([b"", POOL[:20], POOL, POOL * 50][number % 4])
        if number % 10 == 9:
            answered_at_once(server, "resets")
    server.ends(0)
    tell(f"{count} connections were reset before, in and behind a request, and {count // 10} clients answered at once")


def half_closes():
    server = served("half", 2)
    with server.connect() as link:
        link.sendall(POOL * 3)
        link.shutdown(socket.SHUT_WR)
        answers = to_end(link)
    if answers.count(b"HTTP/1.1 200 OK\r\n") != 3 or answers.count(b"document") != 3000:
        fail(f"behind a half-close {answers.count(b'HTTP/1.1 200 OK')} of 3 requests were answered")
    answered_at_once(server, "a half-close")
    server.ends(0)
    tell("3 requests were answered behind a half-close, and the next client at once")


def garbage():
    count, chance = 200, random.Random(5)
    server = served("garbage", count + count // 20)
    refused = 0
    for number in range(count):
        text = bytes(chance.randrange(256) for _ in range(chance.randrange(1, 400)))
        with server.connect() as link:
            link.sendall([text, text + b"\r\n\r\n", POOL[:30] + text + POOL[30:], b"POST /" + text * 40][number % 4])
            link.shutdown(socket.SHUT_WR)
            answer = to_end(link)
        if answer and not answer.startswith(b"HTTP/1.1 4"):
            fail(f"garbage is answered {answer[:80]}")
        refused += answer != b""
        if number % 20 == 19:
            answered_at_once(server, "garbage")
    server.ends(0)
    if refused < count // 3:
        fail(f"only {refused} of {count} pieces of garbage were answered")
    tell(f"{count} pieces of garbage were sent, {refused} were refused by an answer, and {count // 20} clients answered"
         " at once")


def refused_bodies():
    """A message that is refused by its head is answered to a peer that sends all of its body first."""
    count = 8
    server = served("bodies", 2 * count)
    body = b"x" * 17_000_000
    for _ in range(count):
        with server.connect() as link:
            try:
                link.sendall(b"POST /runs/Y HTTP/1.1\r\nX-Campaign-Key: %s\r\n" % GROUP.encode())
                link.sendall(b"Content-Length: %d\r\n\r\n" % len(body) + body)
                answer = to_end(link)
            except ConnectionError as error:
                fail(f"the answer to a body of {len(body)} bytes was lost: {error}")
        if not answer.startswith(b"HTTP/1.1 413 "):
            fail(f"a body of {len(body)} bytes is answered {answer[:80]}")
        answered_at_once(server, "a refused body")
    server.ends(0)
    tell(f"{count} peers sent all of a body of {len(body)} bytes and read its refusal")


def refused_and_not_closed():
    """A peer that is refused and doesn't close, sending on, holds its worker for a second or two."""
    server = served("lingering", WORKERS + 1)
    links = [server.connect() for _ in range(WORKERS)]
    for link in links:
        link.sendall(b"no request\r\n\r\n")
    since = time.monotonic()
    with ThreadPoolExecutor(1) as pool:
        answered = pool.submit(answered_after, server, since, "refused")
        goes_on([(link, lambda link: link.sendall(b"x")) for link in links], answered)
        took = answered.result()
    if took > AT_ONCE:
        fail(f"beside refused peers that send on a client was answered after {took:.1f} seconds")
    for link in links:
        link.close()
    server.ends(0)
    tell(f"{WORKERS} refused peers sent on, and the next client was answered after {took:.1f} seconds")
