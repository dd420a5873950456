"""Servers one of whose calls for memory is refused, and their connections, which wait for one another."""

import os
import re
import select
import socket
import time

from tests.campaigns import ORGANISER, TOPICS, fresh, message
from tests.memory.calls import copied
from tests.memory.clients import Client, Line
from tests.memory.rows import rows_of, submission
from tests.memory.runs import Run, ran
from tests.servers.server import free_port

# how long an answer is awaited where a thread is missing, and where none is, in seconds
SOON, LATE = 1, 10
# how many bytes of a request a waiting connection sends first
PART = 20


def is_listening(run):
    """Once it listens, or has ended."""
    while run.process.poll() is None:
        if b"listening" in run.told():
            return True
        time.sleep(0.002)
    return False


def connected(run, port):
    """A connection to a server. Where the server has ended, nothing comes on it."""
    try:
        with socket.create_connection(("127.0.0.1", port)) as link:
            return Line(run, link.makefile("wb"), link.makefile("rb"))
    except ConnectionError:
        return Line(run, open(os.devnull, "wb"), open(os.devnull, "rb"))


def pool_of(client):
    """The row of the pool, of the runs that were accepted."""
    docs = sorted(re.search(rb"Q0 (\S+)", request)[1] for request in client.accepted)
    shown = b",".join(b'"%s"' % doc for doc in docs)
    return message("GET", "/topics/1/pool", ORGANISER), (200, b'{"docs":[%s],"topic":"1"}\n' % shown)


def comes(line, seconds):
    return bool(select.select([line.answers], [], [], seconds)[0])


def talk(client, port, rows):
    """Each connection but the last sends a part of its row, and the rest once the next one is answered; one more shows
    what all did. Whether the last one had to wait for the others, though as many threads as rows are there."""
    *waiting, last = lines = [connected(client.run, port) for _ in rows]
    for line, (request, _) in zip(waiting, rows):
        line.send(request[:PART])
    last.send(rows[-1][0])
    is_answered, has_threads = comes(last, SOON), client.run.threads() >= len(rows)
    # (as long as no call was refused, a thread is late and not missing)
    if not is_answered and (has_threads or not client.run.is_refused()):
        is_answered = comes(last, LATE)
    order = list(zip(lines, rows))
    # (where a worker is missing, the others have the first connections)
    for line, row in reversed(order) if is_answered else order:
        if line is not last:
            line.send(row[0][PART:])
        client.takes(line, row)
        if line is not last:
            line.close()
    client.asks(last, pool_of(client))
    last.close()
    line = connected(client.run, port)
    for row in rows:
        client.asks(line, row)
    client.asks(line, pool_of(client))
    line.close()
    return has_threads and not is_answered


def server_of(name, workers):
    """A server with topics, to whose connections, one for each worker and one more, runs are submitted."""
    rows = rows_of(submission(f"R{place}", [f"d{place}"]) for place in range(workers))
    begun = fresh(f"{name} begun")
    ran(begun, "session", message("POST", "/topics", ORGANISER, TOPICS))

    def refused(number):
        path, port = copied(begun, f"{name} {number}"), str(free_port())
        words = ["serve", "--port", port, "--workers", str(workers), "--connections", str(workers + 1)]
        run = Run(name, number, path, *words)
        client = Client(run, path, 2)
        has_waited = is_listening(run) and talk(client, port, rows)
        status = run.status(b"campaign: listening on 127.0.0.1:%s\n" % port.encode())
        if len(client.lost) > (status == 7) or has_waited and status == 0:
            run.wrong(f"it ends with {status}, {len(client.lost)} connections were lost, the last waited: {has_waited}")
        client.hold_afterwards(rows)
        return run.effect(status, client.shorts)

    return refused
