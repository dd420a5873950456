"""Connections whose peers go away, and a port that is taken."""

import socket
import struct

from tests.campaigns import ASSESSORS, ORGANISER, TOPICS, check, fresh, message
from tests.script import fail, tell
from tests.servers.server import MOST_WAIT, Server, answer_of


def peers_that_go_away():
    served = fresh("peers")
    server = Server(served, 2, 5)
    topics, pool = message("POST", "/topics", ORGANISER, TOPICS), message("GET", "/topics/1/pool", ASSESSORS[0])
    # one that says nothing holds a worker until it goes
    silent = server.connect()
    with server.connect() as link:
        link.sendall(topics)
        if b"201 Created" not in answer_of(link):
            fail("a client isn't answered beside a silent one")
    # one that resets the connection inside a request, and one that reads none of its many answers
    for text in (pool[:20], pool * 20000):
        with server.connect() as link:
            link.setsockopt(socket.SOL_SOCKET, socket.SO_LINGER, struct.pack("ii", 1, 0))
            try:
                link.settimeout(0.5)
                link.sendall(text)
            except OSError:
                pass
    silent.close()
    with server.connect() as link:
        link.sendall(pool)
        if b"200 OK" not in answer_of(link):
            fail("a client isn't answered behind those that went away")
    server.ends(0)
    tell("peers that go away end their own connections alone")


def port_that_is_taken():
    first, second = fresh("first"), fresh("second")
    server = Server(first, 1, 1)
    other = server.start(second, 1, 1)
    if other.wait(timeout=MOST_WAIT) != 6:
        fail(f"a server on a port that is taken ended with {other.returncode}")
    server.connect().close()
    server.ends(0)
    if check(second) != b"entries 1\nphase collecting\n":
        fail("a server on a port that is taken left another journal")
    tell("a port that is taken is status 6")
