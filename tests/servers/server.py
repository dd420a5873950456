"""A server of a campaign, on a port of its own, and the answers that come on a connection to it."""

import atexit
import random
import re
import socket
import subprocess
import time
from contextlib import suppress

from tests.script import PROGRAM, fail

# how long a server may take to open its port and to end, and an answer to come, in seconds
MOST_WAIT = 20
started = []


@atexit.register
def kill_servers():
    for process in started:
        if process.poll() is None:
            process.kill()


# below those that connections have on their own side; each is given once (a socket that tried one would be kept a while
# by a process that is begun then)
PORTS = iter(random.sample(range(20000, 30000), 10000))


def free_port():
    """A port that nobody has here."""
    taken = ""
    for name in ("tcp", "tcp6"):
        with suppress(FileNotFoundError), open(f"/proc/net/{name}") as table:
            taken += table.read()
    return next(port for port in PORTS if f":{port:04X} " not in taken)


def until_open(port, process):
    """Waits until a process listens. (A connection would be counted, so the table of the system is looked at.)"""
    listening = f"0100007F:{port:04X} 00000000:0000 0A"
    for _ in range(MOST_WAIT * 100):
        with open("/proc/net/tcp") as table:
            if listening in table.read():
                return
        if process.poll() is not None:
            break
        time.sleep(0.01)
    fail(f"port {port} wasn't opened (status {process.poll()})")


class Server:
    """A server in a folder, once its port is open."""

    def __init__(self, path, workers, connections):
        self.port = free_port()
        self.process = self.start(path, workers, connections)
        until_open(self.port, self.process)

    def start(self, path, workers, connections):
        words = ["serve", "--port", self.port, "--workers", workers, "--connections", connections]
        started.append(subprocess.Popen([PROGRAM, *map(str, words)], cwd=path, stdout=subprocess.PIPE))
        return started[-1]

    def connect(self, wait=MOST_WAIT):
        link = socket.create_connection(("127.0.0.1", self.port), timeout=wait)
        link.setsockopt(socket.IPPROTO_TCP, socket.TCP_NODELAY, 1)
        return link

    def ends(self, status):
        """It ended with this status, and printed nothing."""
        try:
            printed, _ = self.process.communicate(timeout=MOST_WAIT)
        except subprocess.TimeoutExpired:
            self.process.kill()
            fail("a server didn't end")
        if self.process.returncode != status or printed:
            fail(f"a server ended with {self.process.returncode}, not {status}: {printed[-80:]}")


def answer_of(link):
    """One answer, read to its end."""
    text = b""
    while b"\r\n\r\n" not in text:
        piece = link.recv(65536)
        if not piece:
            fail(f"a connection ended inside an answer: {text}")
        text += piece
    length = int(re.search(rb"Content-Length: (\d+)\r\n", text).group(1))
    while len(text) < text.index(b"\r\n\r\n") + 4 + length:
        piece = link.recv(65536)
        if not piece:
            fail(f"a connection ended inside an answer: {text}")
        text += piece
    return text


def to_end(link):
    text = b""
    while piece := link.recv(65536):
        text += piece
    return text
