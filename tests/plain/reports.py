"""Random campaigns whose journals are written here, what `check`, `reuse` and `agreement` have to print of them, and what
`compact` has to make of the journals."""

import collections
import os
import random
import subprocess

from tests.plain.journals import AMEND, GRADE, LEASE, OPEN, PUBLISH, RELEASE, ROLES, RULE, WITHDRAW
from tests.plain.journals import Entry, area, compacted, founding, journal, spelled, submitted, topics_given
from tests.plain.requests import told
from tests.plain.walk import DOCS, TERM, TOP_GRADE, Topic, Walk, four_decimals
from tests.script import FOLDER, PROGRAM, fail, tell

IDS = ["1", "10", "2", "9", "B", "a"]
ASSESSORS = "pqr"
VERBS = {"lease": LEASE, "grade": GRADE, "release": RELEASE, "amend": AMEND, "rule": RULE, "withdraw": WITHDRAW}
tried = collections.Counter()


# What is reported, by the definitions.


def holders(walk, topic, doc):
    """The live runs that have a document among the ranks of the pool."""
    return [run for run in walk.live_runs() if doc in walk.held(run, topic)]


def own(walk, topic, group):
    """The documents of the pool all of whose holders are runs of a group."""
    is_own = lambda runs: runs and all(walk.groups[run] == group for run in runs)
    return [doc for doc in DOCS if is_own(holders(walk, topic, doc))]


def map_of(walk, run, graded_of):
    """The mean of the average precisions of a run over the topics that have such a grade."""
    graded = {topic: graded_of(topic) for topic in walk.topics}
    counted = {topic: grades for topic, grades in graded.items() if grades}
    cells = [walk.topics[topic].cell(walk.rankings[run].get(topic, ""), grades) for topic, grades in counted.items()]
    return sum(dict(values)["map"] for _, values in cells) // max(len(cells), 1)


def without(walk, left_out):
    """The effective grades of a topic but for those of some of its documents."""
    return lambda topic: [(doc, grade) for doc, grade in walk.topics[topic].grades() if doc not in left_out(topic)]


def reused(walk, run):
    """How many of the documents that a run's group alone brought in have a grade, its full map, and its reduced one."""
    group = walk.groups[run]
    unique = sum(walk.topics[topic].grade(doc) is not None for topic in walk.topics for doc in own(walk, topic, group))
    full = map_of(walk, run, without(walk, lambda topic: []))
    return unique, full, map_of(walk, run, without(walk, lambda topic: own(walk, topic, group)))


def agreed(topic):
    """Of the documents with two labels: how many there are, with equal labels, with both relevant, and with one at least."""
    pairs = [grades for doc in DOCS if len(grades := topic.labels_on(doc)) == 2]
    relevant = [[grade >= topic.level for grade in grades] for grades in pairs]
    return len(pairs), sum(one == other for one, other in pairs), sum(map(all, relevant)), sum(map(any, relevant))


def reuse_text(walk):
    lines = ""
    for run in walk.live_runs():
        unique, full, reduced = reused(walk, run)
        lines += f"{walk.names[run]}\t{unique}\t{four_decimals(full)}\t{four_decimals(reduced)}\n"
    return lines


def agreement_text(walk):
    doubled = [(name, topic) for name, topic in walk.topics.items() if topic.needed == 2]
    return "".join(f"{name} {' '.join(map(str, agreed(topic)))}\n" for name, topic in doubled)


# What was tried, and what another reading of the definitions would have told.


def count_rows(walk):
    for run in walk.live_runs():
        unique, full, reduced = reused(walk, run)
        group = walk.groups[run]
        tried["rows of reuse"] += 1
        tried["that own a graded document"] += unique > 0
        tried["whose reduced differs from full"] += full != reduced
        groups_runs = [other for other in walk.live_runs() if walk.groups[other] == group]
        tried["of a group with several live runs"] += len(groups_runs) > 1
        held = without(walk, lambda topic: set().union(*(walk.held(other, topic) for other in groups_runs)))
        alone = without(walk, lambda topic: [doc for doc in DOCS if holders(walk, topic, doc) == [run]])
        tried["that would differ without all that the group holds"] += map_of(walk, run, held) != reduced
        tried["that would differ without what the run alone holds"] += map_of(walk, run, alone) != reduced
        ruled = [doc for topic in walk.topics for doc in own(walk, topic, group) if doc in walk.topics[topic].rulings]
        tried["that own a document with a ruling"] += bool(ruled)
        lost = [topic for topic in walk.counted() if not without(walk, lambda topic: own(walk, topic, group))(topic)]
        tried["with a topic that isn't counted any more"] += bool(lost)


def count_topics(walk):
    for topic in walk.topics.values():
        if topic.needed == 2:
            pairs, equal, both, either = agreed(topic)
            tried["topics of agreement"] += 1
            tried["with pairs"] += pairs > 0
            tried["whose four counts differ"] += len({pairs, equal, both, either}) == 4
            ruled = [doc for doc in topic.rulings if len(topic.labels_on(doc)) == 2]
            tried["with a ruling on a pair"] += bool(ruled)
            tried["that have another level than the rules"] += topic.level != 1 and pairs > 0


# How much of these each hundred campaigns have to bring about.
WANTED = {
    "rows of reuse": 200,
    "that own a graded document": 60,
    "whose reduced differs from full": 60,
    "of a group with several live runs": 60,
    "that would differ without all that the group holds": 60,
    "that would differ without what the run alone holds": 20,
    "that own a document with a ruling": 20,
    "with a topic that isn't counted any more": 10,
    "topics of agreement": 60,
    "with pairs": 40,
    "whose four counts differ": 8,
    "with a ruling on a pair": 15,
    "that have another level than the rules": 20,
    "late runs": 40,
    "withdrawn runs": 30,
    "amended labels": 50,
    "compacted journals": 70,
}


# Campaigns as journals.


class Played:
    """A campaign whose accepted requests are the entries of a journal."""

    def __init__(self, walk, given=None):
        self.walk = walk
        doubles = [topic.encode() for topic, its in walk.topics.items() if its.needed == 2]
        levels = {topic.encode(): its.level for topic, its in walk.topics.items() if its.level != 1}
        rows = [(topic.encode(), b"about it", b"", b"") for topic in given or walk.topics]
        self.entries = [founding(walk.depth, TERM, walk.hold, 1, TOP_GRADE, doubles, levels)]
        self.entries.append(topics_given(b"org", walk.now, rows))

    def opened(self):
        self.entries.append(Entry(b"org", ROLES["organiser"], None, self.walk.now, OPEN, ()))

    def published(self):
        self.entries.append(Entry(b"org", ROLES["organiser"], None, self.walk.now, PUBLISH, ()))

    def asks(self, line, number=None):
        """What a request is told, which is an entry where it is accepted."""
        text = told(self.walk, line)
        if not text.startswith("refused "):
            self.entries.append(self.entry_of(line, number))
        return text

    def entry_of(self, line, number):
        who, _, verb, *words = line.split()
        if verb == "submit":
            return submitted(who.encode(), self.walk.now, words[0].encode(), self.lists(), number)
        kind, _, topic = verb.partition("-")
        fields = [topic.encode()] if kind in ("amend", "rule") else []
        # (a document, a topic or a run is a text, a lease or a grade a number)
        texts = {"lease": 1, "withdraw": 1, "amend": 1, "rule": 1}.get(kind, 0)
        fields += [word.encode() if place < texts else int(word) for place, word in enumerate(words)]
        role = "organiser" if who == "org" else "group" if who.startswith("grp") else "assessor"
        return Entry(who.encode(), ROLES[role], number, self.walk.now, VERBS[kind], tuple(fields))

    def lists(self):
        return {topic.encode(): [doc.encode() for doc in docs] for topic, docs in self.walk.rankings[-1].items()}

    def settings(self):
        walk = self.walk
        doubles = ", ".join(f'"{topic}"' for topic, its in walk.topics.items() if its.needed == 2)
        own = [f'{{ topic = "{topic}", level = {its.level} }}' for topic, its in walk.topics.items() if its.level != 1]
        lines = [f"depth = {walk.depth}", f"term = {TERM}", f"hold = {walk.hold}", "level = 1", f"top_grade = {TOP_GRADE}"]
        return "\n".join([*lines, f"doubles = [{doubles}]", f"levels = [{', '.join(own)}]", ""])


def grades_in(dice, played, topic, moment):
    """An assessor leases a document and grades it, or not."""
    who = dice.choice(ASSESSORS)
    told = played.asks(f"{who} {moment} lease {topic}")
    if told.startswith("leased "):
        lease, fate = told.split()[1], dice.randrange(12)
        if fate < 10:
            number = dice.choice([None, len(played.entries)])
            played.asks(f"{who} {moment + 1} grade {lease} {dice.choice([0, 0, 1, 1, 2, 3])}", number)
        elif fate == 10:
            played.asks(f"{who} {moment + 1} release {lease}")


def changes(dice, played, topic, moment):
    """A label is amended, or the organiser rules."""
    labels = list(played.walk.topics[topic].labels)
    if labels:
        who, doc = dice.choice(labels)
        if dice.randrange(2):
            tried["amended labels"] += 1
            played.asks(f"{who} {moment} amend-{topic} {doc} {dice.randrange(4)}")
        else:
            played.asks(f"org {moment} rule-{topic} {doc} {dice.randrange(4)}")


def withdraws(dice, played, moment):
    names = played.walk.names
    if names:
        run = dice.randrange(len(names))
        who = dice.choice(["org", played.walk.groups[run]])
        tried["withdrawn runs"] += played.asks(f"{who} {moment} withdraw {names[run]}").startswith("done")


def submits(dice, played, groups, moment):
    walk = played.walk
    lists = ["".join(dice.sample(DOCS, dice.randint(1, len(DOCS)))) if dice.randrange(5) else "" for _ in walk.topics]
    # (a run has a list)
    ranked = "/".join(lists) if any(lists) else DOCS
    played.asks(f"grp{dice.randrange(groups)} {moment} submit R{len(walk.names)} {ranked}")


def campaign(dice):
    """A random campaign: half of its topics need two labels, half have levels of their own."""
    ids = dice.sample(IDS, dice.randint(1, 4))
    topics = {topic: Topic(dice.randint(1, 2), dice.choice([1, 1, 2, 3])) for topic in sorted(ids)}
    walk = Walk(dice.randint(1, 5), dice.randint(1, 4), topics)
    played, groups = Played(walk, ids), dice.randint(1, 4)
    for _ in range(dice.randint(1, 5)):
        submits(dice, played, groups, walk.now)
    played.opened()
    for step in range(dice.randrange(90)):
        moment, throw = walk.now + dice.choice([0, 1, 1, 300]), dice.randrange(40)
        if throw == 0:
            withdraws(dice, played, moment)
        elif throw < 3:
            tried["late runs"] += 1
            submits(dice, played, groups, moment)
        elif throw < 8:
            changes(dice, played, dice.choice(ids), moment)
        else:
            grades_in(dice, played, dice.choice(ids), moment)
    if dice.randrange(3) == 0:
        played.published()
    return played


def row_of(runs, grades, needed=1, depth=3):
    """A campaign of one topic: each run with its group and its ranking, each document with its assessors' grades."""
    played = Played(Walk(depth, 50, {"1": Topic(needed, 1)}))
    for name, group, docs in runs:
        played.asks(f"{group} 1000 submit {name} {docs}")
    played.opened()
    while True:
        leases = 0
        for who in ASSESSORS[:needed]:
            told = played.asks(f"{who} 1000 lease 1")
            if told.startswith("leased "):
                leases += 1
                _, lease, doc, _ = told.split()
                played.asks(f"{who} 1000 grade {lease} {grades[doc][ASSESSORS.index(who)]}")
        if not leases:
            return played


def worked():
    """Campaigns of a few lines, each with the text that is told of it, which was worked out by hand."""
    two = [("X", "grp0", "abe"), ("Y", "grp1", "bcd")]
    grades = {"a": [1], "b": [1], "c": [0], "d": [1], "e": [0]}
    yield row_of(two, grades), reuse_text, "X\t2\t0.6667\t0.2500\nY\t2\t0.5556\t0.5000\n"
    one = [("X", "grp", "abe"), ("Y", "grp", "cdf")]
    grades = {"a": [0], "b": [1], "c": [1], "d": [0], "e": [0], "f": [2]}
    yield row_of(one, grades), reuse_text, "X\t6\t0.1667\t0.0000\nY\t6\t0.5556\t0.0000\n"
    labelled = lambda: row_of([("X", "grp", "bea")], {"b": [1, 1], "e": [0, 0], "a": [1, 2]}, needed=2)
    yield labelled(), agreement_text, "1 3 2 2 2\n"
    ruled = labelled()
    for line in ("org 1000 rule-1 a 2", "p 1000 amend-1 a 0", "p 1000 amend-1 b 0"):
        ruled.asks(line)
    yield ruled, agreement_text, "1 3 1 0 2\n"
    same = [("X", "grp0", "ab"), ("Y", "grp1", "ab")]
    yield row_of(same, {"a": [1], "b": [0]}), reuse_text, "X\t0\t1.0000\t1.0000\nY\t0\t1.0000\t1.0000\n"


def hold_printed(played, what):
    """The program prints what the walk tells of a campaign, whose journal it opens, and compacts that as it should."""
    path = os.path.join(FOLDER, "campaign.journal")
    image = journal([spelled(entry) for entry in played.entries])
    with open(os.path.join(FOLDER, "campaign.toml"), "w") as file:
        file.write(played.settings())
    with open(path, "wb") as file:
        file.write(image)
    walk = played.walk
    table = "".join(f"{line}\n" for run in walk.live_runs() for line in walk.lines(run, "all"))
    phase = "published" if played.entries[-1].kind == PUBLISH else "judging"
    state = f"entries {len(played.entries)}\nphase {phase}\n{table}"
    bundled = area(compacted(played.entries))
    after = min(len(image), 16 + len(bundled))
    sizes = f"entries {len(played.entries)}\nbefore {len(image)}\nafter {after}\n"
    reports = [("check", state), ("reuse", reuse_text(played.walk)), ("agreement", agreement_text(played.walk))]
    for word, text in [*reports, ("compact", sizes), *reports]:
        ran = subprocess.run([PROGRAM, word], cwd=FOLDER, capture_output=True, text=True)
        if (ran.returncode, ran.stdout, ran.stderr) != (0, text, ""):
            printed = f"ends with {ran.returncode} and prints\n{ran.stdout}{ran.stderr}"
            fail(f"{what}: {word} {printed}\nand not\n{text}")
    with open(path, "rb") as file:
        left = file.read()
    if left[16:] != (bundled if 16 + len(bundled) <= len(image) else image[16:]):
        fail(f"{what}: compact leaves another journal")
    tried["compacted journals"] += len(left) < len(image)
    tried["journals that would be longer"] += left == image


def play_campaigns(count):
    rows = list(worked())
    for place, (played, text_of, wanted) in enumerate(rows, 1):
        if text_of(played.walk) != wanted:
            told = text_of(played.walk)
            fail(f"the walk tells of worked campaign {place}\n{told}\nand not\n{wanted}")
        hold_printed(played, f"worked campaign {place}")
    dice = random.Random(11)
    for place in range(1, count + 1):
        played = campaign(dice)
        count_rows(played.walk)
        count_topics(played.walk)
        hold_printed(played, f"campaign {place}")
    told = ", ".join(f"{number} {name}" for name, number in tried.items())
    tell(f"{len(rows)} worked campaigns and {count} random ones are told and compacted: {told}")
    missing = [name for name, least in WANTED.items() if tried[name] * 100 < least * count]
    if count >= 100 and missing:
        fail(f"too few {', '.join(missing)}")
