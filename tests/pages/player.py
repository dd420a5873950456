"""A page whose commands are played: behind `    $ ` stands a command, and the indented lines behind it are what it
writes to standard output and standard error, byte for byte."""

import difflib
import os
import re
import signal
import subprocess
import tempfile
import time
from contextlib import suppress

from tests.script import FOLDER, fail, tell
from tests.servers.server import free_port

# one shell runs the commands that come, and tells the status of each, and the process that it began last
SHELL = """set -u
while IFS= read -r command <&{asked}; do
  eval "$command" {asked}<&- {told}>&-
  echo "$? ${{!:-}}" >&{told}
done"""
# how long a server may take to listen, in seconds
MOST_WAIT = 60


def rows_of(page, first, last):
    """The commands of the sections from one heading to another, with what they write. A blank line belongs to that
    where an indented line that is no command follows."""
    with open(page) as file:
        section = re.search(rf"(?ms)^## {first}$.*?(?:^## {last}$|\Z)", file.read())
    rows, blanks, is_on = [], [], False
    for line in section[0].split("\n") if section else []:
        if line.startswith("    $ "):
            rows.append(line[4:])
            blanks, is_on = [], True
        elif line.startswith("    ") and is_on:
            rows += [*blanks, line[4:]]
            blanks = []
        elif line == "" and is_on:
            blanks.append(line)
        else:
            is_on = False
    return rows


def without_moments(text):
    """Leases last until moments of the day, and bash tells that the server was killed."""
    text = re.sub(r'"until":[0-9]*', '"until":0', text)
    return re.sub(r"(?m)^.*: line [0-9]+: +[0-9]+ Terminated .*\n", "", text)


class Player:
    """A shell in a folder that has the program as `campaign`, and what its commands write. Words before the shell's own
    are its rights and its environment."""

    def __init__(self, folder, before=()):
        self.folder, self.port, self.server = folder, str(free_port()), None
        with tempfile.NamedTemporaryFile(dir=FOLDER, delete=False) as file:
            self.written = file.name
        (asks, self.asked), (self.told, tells) = os.pipe(), os.pipe()
        shell = [*before, "bash", "-c", SHELL.format(asked=asks, told=tells)]
        with open(self.written, "ab") as output:
            streams = {"stdout": output, "stderr": output, "pass_fds": (asks, tells)}
            self.shell = subprocess.Popen(shell, cwd=folder, **streams)
        os.close(asks)
        os.close(tells)
        self.told = os.fdopen(self.told)

    def text(self):
        with open(self.written, newline="") as file:
            return file.read()

    def add(self, line):
        with open(self.written, "a") as file:
            file.write(f"{line}\n")

    def listens(self):
        """How often a server told that it listens."""
        return self.text().count(f"campaign: listening on 127.0.0.1:{self.port}\n")

    def asks(self, command):
        """The status of a command, and the process that was begun last."""
        os.write(self.asked, f"{command}\n".encode())
        status, _, process = self.told.readline().strip().partition(" ")
        if not status:
            fail(f"the shell ended at {command}")
        return int(status), process

    def run(self, command):
        """One that ends with & is the server, which listens then."""
        self.add(f"$ {command}")
        before = self.listens()
        status, process = self.asks(command)
        if not command.endswith(" &"):
            if status != 0:
                self.add(f"this command ended with status {status}")
            return
        self.server, since = int(process), time.monotonic()
        while self.listens() == before and os.path.exists(f"/proc/{process}"):
            if time.monotonic() - since > MOST_WAIT:
                fail(f"no server listens: {command}")
            time.sleep(0.05)

    def play(self, page, first, last):
        """Runs the commands of these sections, and compares what they write: the text that was expected. The head of an
        answer that a session writes has lines that end with CR LF."""
        name = os.path.basename(page)
        rows = [row.replace("7000", self.port) for row in rows_of(page, first, last)]
        commands = [row[2:] for row in rows if row.startswith("$ ")]
        if not commands:
            fail(f"{name} has no command behind '## {first}'")
        self.asks(f"cd {self.folder}")
        os.truncate(self.written, 0)
        for command in commands:
            self.run(command)
        expected = "".join(re.sub(r"^(HTTP/1\.1 .*|Content-[A-Za-z]+: .*|)$", "\\1\r", row) + "\n" for row in rows)
        self.hold(f"a command of '## {first}' in {name}", without_moments(expected))
        tell(f"'## {first}' of {name} is as it stands there, commands: {len(commands)}")
        return expected

    def hold(self, what, expected):
        written = without_moments(self.text())
        if written != expected:
            rows = difflib.ndiff(expected.split("\n"), written.split("\n"))
            different = "\n".join(repr(row) for row in rows if row.startswith(("- ", "+ ")))
            fail(f"{what} writes something else:\n{different}")

    def __enter__(self):
        return self

    def __exit__(self, *_):
        os.close(self.asked)
        if self.server is not None:
            with suppress(ProcessLookupError):
                os.kill(self.server, signal.SIGTERM)
        self.shell.wait()
