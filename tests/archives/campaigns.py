"""Campaigns that are played to their publication, and what the program's own pages tell of them."""

import os
import random
import string

from tests.archives.calls import same
from tests.campaigns import ASSESSORS, GROUP, ORGANISER, check, fresh, message, session

# the columns of a system, as `check` prints them: counts, and then measures in units of 10^-15
COUNTS = ["num_q", "num_ret", "num_rel", "num_rel_ret"]
MEASURES = ["map", "Rprec", "bpref", "recip_rank", *(f"P_{k}" for k in (5, 10, 15, 20, 30, 100, 200, 500, 1000))]
# each byte that a name may have is in one of the runs, of the groups and of the releases; a word of the command line
# doesn't begin with a dash
BYTES = set(string.ascii_letters + string.digits + "._-")
LONG = ["ABCDEFGHIJKLMNOPQRSTUVWXYZ.abcde", "fghijklmnopqrstuvwxyz_0123456789"]
GROUPS = [("grp", GROUP), (LONG[0], "GROUPGROUPGROUP2"), (LONG[1], "GROUPGROUPGROUP3"), ("-1", "GROUPGROUPGROUP4")]
RUNS = ["X", "x", "Y", *LONG, "-", "-1", "..", "007", "1e5", "NULL"]
NAMES = [*LONG, "z-9._A", "Z-9._A", "007", "1e5", "NULL", ".", "_", "10", "9"]


def texts_of(ranked):
    """The lines of a run: for each topic the documents by rank."""
    lines = [(topic, doc, len(docs) - place) for topic, docs in ranked.items() for place, doc in enumerate(docs)]
    return "".join(f"{topic} Q0 {doc} 0 {score} t\n" for topic, doc, score in lines)


def lists(dice, topics):
    """A run's ranked lists: some of eight documents on each topic."""
    return {topic: dice.sample("abcdefgh", dice.randint(1, 8)) for topic in topics}


def play(name, runs, grades, topics, seed, is_published=True):
    """A campaign with these runs, handed in by the groups in turn. Some rank as the one before them, and are tied."""
    dice = random.Random(seed)
    entered = []
    for place, run in enumerate(runs):
        ranked = entered[-1][2] if place % 5 == 4 else lists(dice, topics)
        entered.append((run, place % len(GROUPS), ranked))
    path = published(name, entered, grades, GROUPS, is_published)
    groups = {run: GROUPS[group][0] for run, group, _ in entered}
    return (path, Release(path, groups)) if is_published else path


def published(name, runs, grades, groups=(("grp", GROUP),), is_published=True):
    """A folder whose campaign has these runs, each a name, the number of its group and its ranked lists by topic. Its
    documents are graded one after another by these grades, again and again; then it is published."""
    path = fresh(name, depth=1000)
    with open(os.path.join(path, "campaign.toml"), "a") as settings:
        for group, key in groups[1:]:
            settings.write(f'[[caller]]\nname = "{group}"\nrole = "group"\nkey = "{key}"\n')
    pools = {}
    for _, _, ranked in runs:
        for topic, docs in ranked.items():
            pools.setdefault(topic, set()).update(docs)
    topics = "".join(f"<top>\n<num> {topic}\n<title> t\n</top>\n" for topic in pools)
    asked = [message("POST", "/topics", ORGANISER, topics)]
    asked += [message("POST", f"/runs/{run}", groups[group][1], texts_of(ranked)) for run, group, ranked in runs]
    asked += [message("POST", "/open", ORGANISER)]
    leases = [topic for topic, docs in pools.items() for _ in docs]
    for number, topic in enumerate(leases, 1):
        asked.append(message("POST", f"/topics/{topic}/lease", ASSESSORS[0]))
        body = f'{{"grade":{grades[number % len(grades)]}}}'
        asked.append(message("POST", f"/leases/{number}/grade", ASSESSORS[0], body))
    if is_published:
        asked.append(message("POST", "/publish", ORGANISER))
    answers = session(path, b"".join(asked))
    same(f"campaign {name}: its accepted commands", answers.count(b"HTTP/1.1 201 Created\r\n"), len(asked))
    return path


class Release:
    """What the program's own pages tell of a published campaign: the text of its qrels, and of each run its group and
    its printed values."""

    def __init__(self, path, groups):
        answer = session(path, message("GET", "/releases/1/qrels", ORGANISER))
        self.qrels = answer.partition(b"\r\n\r\n")[2].decode()
        values = {}
        for line in check(path).decode().splitlines()[2:]:
            run, _, measure, value = line.split("\t")
            values.setdefault(run, {})[measure] = value
        self.systems = [(run, groups[run], own) for run, own in values.items()]

    def rows(self):
        """The archive's columns as the pages print them."""
        return [(run, group, *(own[name] for name in COUNTS + MEASURES)) for run, group, own in self.systems]
