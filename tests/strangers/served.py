"""The server that strangers come to, and the honest client that is answered beside them."""

import socket
import time

from tests.campaigns import GROUP, ORGANISER, TOPICS, fresh, message, session
from tests.script import fail
from tests.servers.server import Server, answer_of

WORKERS = 2
# the patience of the server with a peer; how much later its worker is free at most; and what at once is; in seconds
PATIENCE, MOST_LATE, AT_ONCE = 60, 15, 10
POOL = message("GET", "/topics/1/pool", ORGANISER)
RUN = "".join(f"1 Q0 document{number:04} 1 {1000 - number} X\n" for number in range(1000))


def served(name, connections):
    """A server of a campaign with a pool of 1,000 documents, whose text has some 15,000 bytes."""
    path = fresh(name, depth=1000)
    begun = [message("POST", "/topics", ORGANISER, TOPICS), message("POST", "/runs/X", GROUP, RUN)]
    if session(path, b"".join(begun)).count(b"201 Created") != len(begun):
        fail(f"no campaign could be begun for {name}")
    return Server(path, WORKERS, connections)


def ask(link):
    """Asks for the pool, and reads it."""
    link.sendall(POOL)
    answer = answer_of(link)
    if not answer.startswith(b"HTTP/1.1 200 OK\r\n") or answer.count(b"document") != 1000:
        fail(f"a client is answered {answer[:80]}")


def answered_after(server, since, beside):
    """When an honest client was answered, in seconds."""
    try:
        with server.connect(PATIENCE + 2 * MOST_LATE) as link:
            ask(link)
    except OSError as error:
        fail(f"beside peers {beside} a client isn't answered: {error}")
    return time.monotonic() - since


def answered_at_once(server, behind):
    took = answered_after(server, time.monotonic(), behind)
    if took > AT_ONCE:
        fail(f"behind {behind} a client was answered after {took:.1f} seconds")


def small_window(server):
    """A connection whose peer takes a few kilobytes ahead of its reads."""
    link = socket.socket()
    link.setsockopt(socket.SOL_SOCKET, socket.SO_RCVBUF, 4096)
    link.settimeout(PATIENCE)
    link.connect(("127.0.0.1", server.port))
    return link


def goes_on(peers, answered):
    """Each peer does what it does, while its connection lasts and a client isn't answered."""
    while not answered.done():
        time.sleep(0.2)
        for peer in list(peers):
            link, act = peer
            try:
                act(link)
            except OSError:
                peers.remove(peer)
