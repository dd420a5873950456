"""A server that waits: for a descriptor, or since it was stopped."""

import os
import resource
import signal
import socket
import time

from tests.script import fail, tell
from tests.servers.server import answer_of, to_end
from tests.strangers.served import AT_ONCE, POOL, answered_at_once, ask, served, small_window


def no_descriptors():
    """Where `accept` has no descriptor left, a client waits until one is free, and the server goes on."""
    server = served("descriptors", 3)
    highest = max(map(int, os.listdir(f"/proc/{server.process.pid}/fd")))
    _, most = resource.prlimit(server.process.pid, resource.RLIMIT_NOFILE)
    # one connection has a descriptor, and no second one
    resource.prlimit(server.process.pid, resource.RLIMIT_NOFILE, (highest + 2, most))
    with server.connect() as first:
        ask(first)
        with server.connect(2) as second:
            second.sendall(POOL)
            try:
                fail(f"a client without a descriptor is answered {second.recv(80)}")
            except TimeoutError:
                pass
            first.close()
            since = time.monotonic()
            second.settimeout(AT_ONCE)
            try:
                answer_of(second)
            except OSError as error:
                fail(f"a client that came where no descriptor was left isn't answered: {error}")
            took = time.monotonic() - since
    resource.prlimit(server.process.pid, resource.RLIMIT_NOFILE, (most, most))
    answered_at_once(server, "want of descriptors")
    server.ends(0)
    tell(f"a client that came where no descriptor was left was answered {took:.1f} seconds after one was free")


def stopped():
    """A server that is stopped and goes on inside a request, a pause of its peer and an answer loses none of them."""
    server = served("stopped", 2)

    def stop():
        server.process.send_signal(signal.SIGSTOP)
        time.sleep(0.2)
        server.process.send_signal(signal.SIGCONT)
        time.sleep(0.2)

    with server.connect() as link, small_window(server) as slow:
        ask(link)
        slow.sendall(POOL * 300)
        stop()
        link.sendall(POOL[:20])
        stop()
        link.sendall(POOL[20:])
        answer_of(link)
        slow.shutdown(socket.SHUT_WR)
        answers = to_end(slow).count(b"document")
    if answers != 300 * 1000:
        fail(f"behind a stop {answers} of {300 * 1000} documents came")
    server.ends(0)
    tell("a server that was stopped inside a request and an answer went on with both")
