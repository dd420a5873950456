"""Sessions over a real journal that are killed at random moments; see tests/crashes."""

import fcntl
import random
import subprocess
import time

from tests.campaigns import ASSESSORS, GROUP, ORGANISER, TOPICS, fresh, message
from tests.script import PROGRAM, WORDS, fail, tell

ROUNDS, SEED = int(WORDS[0]), int(WORDS[1])
# how many commands wait when a session begins, and how many answers are read at most before it is killed
WAITING, MOST_READ = 300, 40
# how many bytes of answers a session may be ahead of what is read of it: some 45, so that it comes to none of its last
# commands before it is killed, however late this script reads on
AHEAD = 4096
CREATED, DONE = b"201 Created\r\n", b'{"done":true}\n'
chance = random.Random(SEED)


# ruling number i gives document a the grade i % 4
def ruling(number):
    return message("POST", "/topics/1/rule", ORGANISER, f'{{"doc":"a","grade":{number % 4}}}')


def ran(path, word, text=b""):
    done = subprocess.run([PROGRAM, word], cwd=path, input=text, stdout=subprocess.PIPE)
    return done.returncode, done.stdout


def wrong(text):
    fail(f"seed {SEED}: {text}")


START = [
    message("POST", "/topics", ORGANISER, TOPICS),
    message("POST", "/runs/X", GROUP, "1 Q0 a 1 3 X\n1 Q0 b 2 2 X\n1 Q0 e 3 1 X\n"),
    message("POST", "/open", ORGANISER),
    message("POST", "/topics/1/lease", ASSESSORS[0]),
    message("POST", "/leases/1/grade", ASSESSORS[0], '{"grade":1}'),
]
# the founding entry and these
FIRST = 1 + len(START)


def entries(path):
    status, text = ran(path, "check")
    first = text.split(b"\n")[0].split(b" ")
    if status != 0 or first[0] != b"entries":
        wrong(f"check ends with {status} and tells {text[:60]!r}")
    return int(first[1])


def read_until(child, count):
    """What a session writes up to so many acknowledged commands, or to its end."""
    written = b""
    while written.count(DONE) < count and (piece := child.stdout.read1()):
        written += piece
    return written


def are_created(written):
    """Whether each answer is a 201, of which the last may be cut."""
    _, *whole, last = written.split(b"HTTP/1.1 ")
    return all(answer.startswith(CREATED) for answer in whole) and last[: len(CREATED)] == CREATED[: len(last)]


def killed(path, number):
    """How many 201 a session writes, from this ruling on, before it is killed: some that were read, and not all."""
    child = subprocess.Popen([PROGRAM, "session"], cwd=path, stdin=subprocess.PIPE, stdout=subprocess.PIPE)
    fcntl.fcntl(child.stdout, fcntl.F_SETPIPE_SZ, AHEAD)
    child.stdin.write(b"".join(ruling(number + i) for i in range(WAITING)))
    child.stdin.flush()
    written = read_until(child, 1)
    begun = time.perf_counter()
    count = chance.randint(2, MOST_READ)
    written += read_until(child, count - written.count(DONE))
    # about as long as two commands take, so that any moment of one may be the last
    time.sleep(chance.uniform(0, 2) * (time.perf_counter() - begun) / count)
    child.kill()
    written += child.stdout.read()
    child.wait()
    acknowledged = written.count(DONE)
    if not count <= acknowledged < WAITING:
        wrong(f"a session acknowledged {acknowledged} commands, {count} of which were awaited: {written[-80:]!r}")
    if not are_created(written):
        wrong(f"a ruling is answered otherwise: {written[:80]!r}")
    return acknowledged


def begun():
    """A folder with a journal of the first commands."""
    path = fresh("sessions")
    status, text = ran(path, "session", b"".join(START))
    if status != 0 or text.count(b"201 Created") != len(START):
        wrong(f"the session before ends with {status} and tells {text[:200]!r}")
    return path


def hold_last(path, held):
    """A later session answers by the last of the rulings that are held."""
    # (a GET may tell that it has no body)
    asked = message("GET", "/qrels", ORGANISER).replace(b"\r\n\r\n", b"\r\nContent-Length: 0\r\n\r\n")
    status, text = ran(path, "session", asked)
    if status != 0 or not text.endswith(f"1 0 a {(held - 1) % 4}\n".encode()):
        wrong(f"after {held} rulings a session ends with {status} and tells {text[-40:]!r}")


def kill_sessions():
    path = begun()
    held = told = more = 0
    for _ in range(ROUNDS):
        acknowledged = killed(path, held)
        now = entries(path) - FIRST
        if now < held + acknowledged:
            wrong(f"{held + acknowledged - now} of {acknowledged} acknowledged commands are lost")
        if now > held + acknowledged + 1:
            wrong(f"{now - held} commands are held, and {acknowledged} were acknowledged")
        more += now - held - acknowledged
        told += acknowledged
        held = now
        hold_last(path, held)
    tell(f"{ROUNDS} sessions were killed under way; each of {told} acknowledged commands is there, and {more} more")
