"""Sessions over a real journal whose calls on it fail, and what has to be there afterwards."""

import os
import re
import shutil
import subprocess

from tests.campaigns import ASSESSORS, GROUP, ORGANISER, TOPICS, fresh, message
from tests.journals.shim import SHIM
from tests.script import FOLDER, PROGRAM, fail

DISK = b'{"fault":"disk"}\n'


def asked(number, path, key, body=""):
    return message("POST", path, key, body, number)


def ruling(number):
    return asked(number, "/topics/1/rule", ORGANISER, f'{{"doc":"a","grade":{number % 4}}}')


COMMANDS = [
    asked(1, "/topics", ORGANISER, TOPICS),
    asked(1, "/runs/X", GROUP, "1 Q0 a 1 3 X\n1 Q0 b 2 2 X\n1 Q0 e 3 1 X\n"),
    asked(2, "/runs/Y", GROUP, "1 Q0 c 1 3 Y\n1 Q0 d 2 2 Y\n"),
    asked(2, "/open", ORGANISER),
    asked(1, "/topics/1/lease", ASSESSORS[0]),
    asked(2, "/leases/1/grade", ASSESSORS[0], '{"grade":1}'),
    asked(3, "/topics/1/amend", ASSESSORS[0], '{"doc":"a","grade":2}'),
    ruling(3),
    asked(4, "/publish", ORGANISER),
]


class Session:
    """A session over the journal of a folder: its status, its answers' bodies, the letters of its calls, and the paths
    that an fsync was called for."""

    def __init__(self, folder, requests, fail_at=(), fail_with=0, before=None):
        calls, synced = f"{folder}/calls", f"{folder}/synced"
        for path in (calls, synced):
            open(path, "w").close()
        settings = {"LD_PRELOAD": SHIM, "CALLS": calls, "SYNCED": synced, "FAIL_WITH": str(fail_with)}
        if fail_at:
            settings["FAIL_AT"] = ",".join(map(str, fail_at))
        ran = subprocess.run(
            [PROGRAM, "session"],
            cwd=folder,
            input=b"".join(requests),
            capture_output=True,
            env={**os.environ, **settings},
            preexec_fn=before,
            timeout=60,
        )
        self.status = ran.returncode
        self.answers = bodies(ran.stdout)
        with open(calls) as file:
            self.calls = file.read()
        with open(synced) as file:
            self.synced = file.read().splitlines()


def bodies(text):
    """The bodies of the answers, with no moment in them."""
    found = []
    while text:
        head, _, rest = text.partition(b"\r\n\r\n")
        length = int(re.search(rb"Content-Length: ([0-9]+)", head)[1])
        found.append(re.sub(rb'"until":[0-9]+', b'"until":0', rest[:length]))
        text = rest[length:]
    return found


def fresh_again(name="campaign"):
    """A folder with the sample settings and no journal, in the place of the last one of this name."""
    shutil.rmtree(os.path.join(FOLDER, name), ignore_errors=True)
    return fresh(name)


def checked(folder):
    ran = subprocess.run([PROGRAM, "check"], cwd=folder, stdout=subprocess.PIPE)
    if ran.returncode != 0:
        fail(f"check ends with {ran.returncode}: {ran.stdout[:80]!r}")
    return ran.stdout
