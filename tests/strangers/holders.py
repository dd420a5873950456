"""Peers that hold all workers, until the patience of the server with them is over."""

import time
from concurrent.futures import ThreadPoolExecutor

from tests.campaigns import GROUP, message
from tests.script import fail, tell
from tests.servers.server import to_end
from tests.strangers.served import MOST_LATE, PATIENCE, POOL, WORKERS
from tests.strangers.served import answered_after, ask, goes_on, served, small_window

# Each of these holds a worker. It gives a connection, and what its peer does each fifth of a second.


def silent(server):
    return server.connect(), lambda link: None


def silent_behind_an_answer(server):
    link = server.connect()
    ask(link)
    return link, lambda link: None


def silent_inside_a_request(server):
    link = server.connect()
    link.sendall(POOL[:20])
    return link, lambda link: None


def dripping_a_head(server):
    link = server.connect()
    link.sendall(POOL[:-2] + b"X-Long: ")
    return link, lambda link: link.sendall(b"x")


def dripping_a_body(server):
    link = server.connect()
    link.sendall(message("POST", "/runs/Y", GROUP, "x" * 100000)[:-99990])
    return link, lambda link: link.sendall(b"x")


def reading_nothing(server):
    link = small_window(server)
    link.sendall(POOL * 1000)
    return link, lambda link: None


def reading_drop_by_drop(server):
    link = small_window(server)
    link.sendall(POOL * 1000)
    return link, lambda link: link.recv(1)


HOLDERS = [
    silent,
    silent_behind_an_answer,
    silent_inside_a_request,
    dripping_a_head,
    dripping_a_body,
    reading_nothing,
    reading_drop_by_drop,
]


def is_ended(link):
    """Whether the server ended this connection: a peer that reads on meets its end, or a reset."""
    link.settimeout(MOST_LATE)
    try:
        to_end(link)
    except ConnectionError:
        return True
    except TimeoutError:
        return False
    return True


def holding(holder):
    """Peers hold all workers; the next client is answered once the patience with them is over, and no later."""
    name = holder.__name__
    server = served(name, WORKERS + 1)
    since = time.monotonic()
    peers = [holder(server) for _ in range(WORKERS)]
    links = [link for link, _ in peers]
    with ThreadPoolExecutor(1) as pool:
        answered = pool.submit(answered_after, server, since, name)
        goes_on(peers, answered)
        took = answered.result()
    if not PATIENCE - 1 <= took <= PATIENCE + MOST_LATE:
        fail(f"beside peers {name} a client was answered after {took:.1f} seconds")
    if not all(is_ended(link) for link in links):
        fail(f"the connection of a peer {name} wasn't ended")
    server.ends(0)
    return took


def holders():
    with ThreadPoolExecutor(len(HOLDERS)) as pool:
        took = list(pool.map(holding, HOLDERS))
    names = ", ".join(holder.__name__.replace("_", " ") for holder in HOLDERS)
    tell(f"{len(took)} servers of {WORKERS} workers, all held by peers that were {names}: the next client was"
         f" answered after {min(took):.1f} to {max(took):.1f} seconds")
