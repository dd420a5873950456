"""Random courses of a campaign, which `campaign_cases` plays: each line has to be told what the plain walk tells."""

import collections
import random
import subprocess
import sys

from tests.plain.requests import NAMES, thrown, told
from tests.plain.walk import Topic, Walk
from tests.script import tell

CASES = "crates/campaign_cases/stdin"
RANKINGS = ["abcdefgh", "hgfedcba", "cadbe", "bdfh", "eca", "g", "fbdhac", "dghe", "hab", "acegbdfh"]
tried = collections.Counter()


def handed_in(walk, run, moment):
    """The lines of a run that comes while documents are judged: prepared and dropped, taken, and refused again."""
    tried["late runs"] += 1
    tried["late runs behind a withdrawal"] += bool(walk.withdrawn)
    tried["late runs over grades"] += bool(walk.counted())
    for words in (f"cancel {run}", run, run):
        line = f"grp {moment} {words}"
        yield f"{line} -> {told(walk, line)}"
    yield f"order -> {walk.order()}"


def ranked(dice, topics):
    """What a run ranks on the topics: of two on one alone at times."""
    lists = [dice.choice(RANKINGS) for _ in topics]
    if len(lists) == 2 and dice.randrange(4) == 0:
        lists[dice.randrange(2)] = ""
    return "/".join(lists)


def course(dice):
    """The lines of a course, each with what it has to be told. A third of the runs come while documents are judged,
    half of them behind a withdrawal. Topic 1 has a level and needs labels of its own; topic 2, where there is one, has
    the level of the rules, which is 1, and needs one label."""
    own, needed = dice.choice(["", " 1", " 2", " 3"]), dice.randint(1, 2)
    topics = {"1": Topic(needed, int(own or 1))}
    if dice.randrange(2):
        topics["2"] = Topic(1, 1)
    walk = Walk(dice.randint(1, 6), dice.randint(1, 3), topics)
    runs = [f"submit {name} {ranked(dice, topics)}" for name in NAMES[: dice.randrange(len(NAMES) + 1)]]
    late = dice.sample(runs, (len(runs) + dice.randrange(3)) // 3)
    tried["runs"] += len(runs)
    tried["courses of two topics"] += len(topics) == 2
    tried["courses of two levels"] += len(topics) == 2 and topics["1"].level != 1
    asked = [f"grp 1000 {run}" for run in runs if run not in late]
    given = "topics -> topics 1" if len(topics) == 1 else "topics-2 -> topics 2"
    lines = [f"\ncampaign {walk.depth} {walk.hold} {needed}{own}", f"org 1000 {given}"]
    lines += [f"{line} -> {told(walk, line)}" for line in asked]
    lines.append("org 1000 open -> done 1000")
    entries = dict(zip(dice.sample(range(60), len(late)), late))
    for step in range(60):
        moment = 700 + step * 60 + dice.randrange(500)
        line = "order" if dice.randrange(28) == 0 else thrown(dice, walk, moment)
        lines.append(f"{line} -> {told(walk, line)}")
        if step in entries:
            if walk.names and dice.randrange(2):
                line = f"grp {moment} withdraw {dice.choice(walk.names)}"
                lines.append(f"{line} -> {told(walk, line)}")
            lines += handed_in(walk, entries[step], moment)
    last = max(walk.now, 9000)
    lines.append(f"org 9000 publish -> done {last}")
    lines.append(f"grp 9000 submit {NAMES[-1]} a -> refused WrongPhase {{ phase: Published }}")
    return lines


def most_runs():
    """As many runs as a campaign may have, and one more."""
    lines = ["\ncampaign 3 2 1", "org 1000 topics -> topics 1"]
    letters = "ABCDEFGHIJKLMNOP"
    for name in (first + second for first in letters for second in letters):
        lines.append(f"grp 1000 submit {name} a -> submitted {name} 1 1")
    return [*lines, "grp 1000 submit X a -> refused Limit { which: Runs }", "entries -> 258"]


def forms():
    """The lines that tell what each verb asks."""
    with open(CASES) as file:
        return [line.rstrip("\n") for line in file if line.startswith("form ")]


def is_enough(count):
    """Whether that many courses tried late runs and levels, as a hundred of them have to."""
    wanted = {
        "late runs": tried["runs"],
        "late runs behind a withdrawal": tried["late runs"],
        "late runs over grades": tried["late runs"],
        "courses of two levels": count,
    }
    return count < 100 or all(6 * tried[part] >= whole for part, whole in wanted.items())


def play_courses(cases, count):
    """The program of the cases is told what the plain walk tells; where it isn't, the script ends with its status."""
    dice, lines = random.Random(7), [*forms(), *most_runs()]
    for _ in range(count):
        lines += course(dice)
    asked = sum(" -> " in line for line in lines)
    lines.append(f"\ncases {count + 1}, lines {asked}")
    ran = subprocess.run([cases], input="".join(f"{line}\n" for line in lines), capture_output=True, text=True)
    tell(f"{asked} lines of {count + 1} cases: " + ran.stdout.removesuffix("\n"))
    tell(", ".join(f"{name} {number}" for name, number in tried.items()))
    if status := ran.returncode or ran.stdout != "each case passes\n" or not is_enough(count):
        sys.exit(status)
