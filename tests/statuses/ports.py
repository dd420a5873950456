"""The port of a server."""

import socket
import subprocess

from tests.campaigns import fresh
from tests.script import PROGRAM
from tests.servers.server import free_port, started
from tests.statuses.calls import BEGUN, MOST_TIME, ended, ends, wrong


def try_ports():
    port = free_port()
    words = f"serve --port {port} --workers 1 --connections 1"
    streams = {"stdin": subprocess.DEVNULL, "stdout": subprocess.PIPE, "stderr": subprocess.PIPE}
    server = subprocess.Popen([PROGRAM, *words.split()], cwd=fresh("port"), **streams)
    started.append(server)
    listening, told = f"campaign: listening on 127.0.0.1:{port}", b""
    while not told.endswith(f"{listening}\n".encode()) and (line := server.stderr.readline()):
        told += line
    taken = (
        f"campaign: 127.0.0.1:{port} can't be opened: take another port, or end what listens there (`ss -ltnp` names"
        " it)"
    )
    ends("a port that is taken", fresh("beside"), words, 6, "", f"{BEGUN}\n{taken}")
    socket.create_connection(("127.0.0.1", port), timeout=MOST_TIME).close()
    printed, more = server.communicate(timeout=MOST_TIME)
    ended("a server whose connection ended", server.returncode, 0, told + more, f"{BEGUN}\n{listening}")
    if printed:
        wrong("a server prints")
