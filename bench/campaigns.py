"""Campaigns whose journals are written record by record, as docs/FORMATS.md has them, since a session would sync each one;
and the program's calls over them, with what they take."""
import os
import struct
import subprocess
import sys

HERE = os.path.dirname(os.path.abspath(__file__))
PROGRAM = os.path.abspath(os.path.join(HERE, "..", "crates", "campaign", "out", "campaign"))
# GNU time, which tells the seconds and the peak memory of what it starts
TIME = "/usr/bin/time"
ROLES = {"organiser": 1, "group": 2, "assessor": 3}


def settings(depth):
    """Settings with this depth, and three callers."""
    text = f"depth = {depth}\nterm = 1000000\nhold = 1\ntop_grade = 3\nlevel = 1\n"
    for caller, role in (("org", "organiser"), ("grp", "group"), ("p", "assessor")):
        text += f'[[caller]]\nname = "{caller}"\nrole = "{role}"\nkey = "{role:x<16}"\n'
    return text


def short(text):
    return struct.pack("<B", len(text)) + text.encode()


def record(caller, role, kind, fields=b"", number=None, moment=0):
    """A record of an entry; without a number and at moment 0, where they aren't given."""
    numbered = b"\0" if number is None else struct.pack("<BQ", 1, number)
    payload = short(caller) + struct.pack("<B", ROLES[role]) + numbered + struct.pack("<QB", moment, kind) + fields
    return struct.pack("<BI", 1, len(payload)) + payload


def founded(depth, topics):
    """The header of a journal, its first entry by those settings, and its topics."""
    head = b"POOLJRNL" + struct.pack("<II", 1, 0)
    rules = record("campaign", "organiser", 1, struct.pack("<HQBBBI", depth, 1000000, 1, 1, 3, 0))
    given = b"".join(short(topic) + struct.pack("<HHH", 0, 0, 0) for topic in topics)
    return head + rules + record("org", "organiser", 2, struct.pack("<I", len(topics)) + given)


def submitted(group, run, lists):
    """The record of a run, whose lists are the documents of each topic by rank, as short texts."""
    items, line = struct.pack("<I", len(lists)), 1
    for topic, ranked in lists:
        items += short(topic) + struct.pack("<II", line, len(ranked)) + b"".join(ranked)
        line += len(ranked)
    return record(group, "group", 3, short(run) + items)


def opened(moment=0):
    return record("org", "organiser", 4, moment=moment)


def judged(assessor, lease, topic, numbers=(None, None), moment=0):
    """The records of a lease and of its grade, which is the last digits of the lease's number."""
    leased = record(assessor, "assessor", 5, short(topic), numbers[0], moment)
    return leased + record(assessor, "assessor", 6, struct.pack("<IB", lease, lease % 4), numbers[1], moment)


# what ends the records of a journal
END = b"\0"


def measured(folder, *words):
    """Runs a call, prints its seconds and its peak memory, and gives what it printed and its processor seconds."""
    if not os.access(PROGRAM, os.X_OK):
        sys.exit("the program isn't built: run ./campaign once")
    command = [TIME, "-f", "%U %S %e %M", "-o", f"{folder}/used", PROGRAM, *words]
    ran = subprocess.run(command, cwd=folder, stdout=subprocess.PIPE, check=True)
    with open(f"{folder}/used", encoding="ascii") as file:
        user, system, clock, kibibytes = map(float, file.read().split())
    taken = f"{user + system:.2f} s of the processor, {clock:.2f} s, {kibibytes / 1024:.0f} MiB"
    print(f"{' '.join(words)}: {taken}", flush=True)
    return ran.stdout.decode(), user + system


def size(path):
    return f"{os.path.getsize(path) / 1e6:.1f} MB"
