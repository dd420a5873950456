"""Campaigns under the sample settings, each in a folder of its own, and the program's calls over them."""

import os
import re
import subprocess

from tests.script import FOLDER, PROGRAM, fail

SETTINGS = "examples/campaign.toml"
ORGANISER, GROUP = "ORGANISERORGAN01", "GROUPGROUPGROUP1"
ASSESSORS = ["ASSESSORASSESS01", "ASSESSORASSESS02"]
TOPICS = "<top>\n<num> 1\n<title> pooling\n</top>\n"


def fields(key, number=None):
    """The fields that tell whose a request is, and its number where it has one."""
    told = {"X-Campaign-Key": key, "X-Request-Number": number}
    return [f"{name}: {value}" for name, value in told.items() if value is not None]


def message(method, path, key, body="", number=None):
    head = "".join(f"{line}\r\n" for line in [f"{method} {path} HTTP/1.1", *fields(key, number)])
    if method != "GET" or body:
        head += f"Content-Length: {len(body)}\r\n"
    return (head + "\r\n" + body).encode()


def fresh(name, **settings):
    """A folder with the sample settings, where they aren't given, and no journal."""
    path = os.path.join(FOLDER, name)
    os.mkdir(path)
    with open(SETTINGS) as file:
        text = file.read()
    for key, value in settings.items():
        text, count = re.subn(rf"(?m)^{key} = .*$", f"{key} = {value}", text)
        if count != 1:
            fail(f"{SETTINGS} has {count} lines of {key}")
    with open(os.path.join(path, "campaign.toml"), "w") as file:
        file.write(text)
    return path


def session(path, messages):
    """What a session in this folder answers to the messages."""
    ran = subprocess.run([PROGRAM, "session"], cwd=path, input=messages, stdout=subprocess.PIPE)
    if ran.returncode not in (0, 11):
        fail(f"a session ended with {ran.returncode}")
    return ran.stdout


def check(path):
    return subprocess.run([PROGRAM, "check"], cwd=path, stdout=subprocess.PIPE).stdout
