"""Each kind of request: what the plain walk tells it, and how often a random course asks it with which words."""

import copy

from tests.plain.walk import DOCS, TERM, TOP_GRADE, Refused

NAMES = "abcdef"


def placed(topic, doc):
    return doc if topic == "1" else f"{topic}/{doc}"


def page(lines):
    return f"page {''.join(f'{line}|' for line in lines)}".rstrip()


# What each is told: by the walk, who asks at which moment, and the words behind the verb.


def submit(walk, who, now, name, docs):
    if name in walk.names:
        raise Refused("TagTaken")
    lists = {topic: ranked for topic, ranked in zip(walk.topics, docs.split("/")) if ranked}
    walk.names.append(name)
    walk.groups.append(who)
    walk.rankings.append(lists)
    return f"submitted {name} {len(lists)} {sum(map(len, lists.values()))}"


def lease(walk, who, now, topic):
    if topic not in walk.topics:
        raise Refused("UnknownTopic")
    live = sum(held["who"] == who and walk.is_live(held, now) for held in walk.leases)
    if live >= walk.hold:
        raise Refused(f"TooMany {{ live: {live} }}")
    doc = walk.named(topic, who, now)
    walk.leases.append({"who": who, "topic": topic, "doc": doc, "until": now + TERM, "ended": False})
    return f"leased {len(walk.leases)} {placed(topic, doc)} {now + TERM}"


def ended(walk, who, now, number, grade=0):
    """The lease that ends with a grade, or without one."""
    if not 1 <= number <= len(walk.leases):
        raise Refused("UnknownLease")
    held = walk.leases[number - 1]
    if held["who"] != who:
        raise Refused("NotYours")
    if held["ended"]:
        raise Refused("Ended")
    if held["until"] <= now:
        raise Refused(f"Expired {{ until: {held['until']} }}")
    if grade > TOP_GRADE:
        raise Refused("GradeRange")
    held["ended"] = True
    return held


def grade(walk, who, now, number, given):
    held = ended(walk, who, now, int(number), int(given))
    topic, doc = held["topic"], held["doc"]
    walk.topics[topic].labels[who, doc] = int(given)
    walk.topics[topic].follow(doc)
    return f"graded {placed(topic, doc)} {given}"


def release(walk, who, now, number):
    ended(walk, who, now, int(number))
    return f"done {now}"


def regraded(topic, table, key, doc, is_labelled, grade, now):
    """Sets the label or the ruling of a document that has a label as it must."""
    if not is_labelled:
        raise Refused("NotLabelled")
    if grade > TOP_GRADE:
        raise Refused("GradeRange")
    table[key] = grade
    topic.follow(doc)
    return f"done {now}"


def amend(walk, who, now, topic, doc, grade):
    its = walk.topics[topic]
    return regraded(its, its.labels, (who, doc), doc, (who, doc) in its.labels, int(grade), now)


def rule(walk, who, now, topic, doc, grade):
    its = walk.topics[topic]
    is_labelled = any(labelled == doc for _, labelled in its.labels)
    return regraded(its, its.rulings, doc, doc, is_labelled, int(grade), now)


def run_of(walk, who, name):
    if name not in walk.names:
        raise Refused("UnknownRun")
    run = walk.names.index(name)
    if who not in ("org", walk.groups[run]):
        raise Refused("NotYours")
    if run in walk.withdrawn:
        raise Refused("Withdrawn")
    return run


def withdraw(walk, who, now, name):
    walk.withdrawn.add(run_of(walk, who, name))
    return f"done {now}"


def qrels(walk, who, now):
    return page(f"{topic} 0 {doc} {grade}" for topic, its in walk.topics.items() for doc, grade in its.grades())


def disagreements(walk, who, now):
    return page(f"{topic} {doc}" for topic, its in walk.topics.items() for doc in its.disagreements())


def progress(walk, who, now):
    lines = []
    for topic, its in walk.topics.items():
        pooled = set().union(*(walk.held(run, topic) for run in walk.live_runs()))
        relevant = its.all_relevant(its.grades())
        live = sum(walk.is_live(held, now) for held in walk.leases if held["topic"] == topic)
        lines.append(f"{topic} {len(pooled)} {relevant} {len(its.grades()) - relevant} {live}")
    return page(lines)


def scores(walk, who, now, name):
    run = run_of(walk, who, name)
    return page(line for topic in [*walk.counted(), "all"] for line in walk.lines(run, topic))


def table(walk, who, now):
    return page(line for run in walk.live_runs() for line in walk.lines(run, "all"))


def unpublished(walk, who, now, number):
    """A course is played up to its release."""
    raise Refused("UnknownRelease")


COMMANDS = {
    "submit": submit,
    "lease": lease,
    "grade": grade,
    "release": release,
    "amend": amend,
    "rule": rule,
    "withdraw": withdraw,
}
QUERIES = {
    "qrels": qrels,
    "disagreements": disagreements,
    "progress": progress,
    "scores": scores,
    "table": table,
    "release-qrels": unpublished,
    "release-scores": unpublished,
}


def asked(verb, words):
    """What a verb asks with these words; it may name a topic behind a dash."""
    kind, _, topic = verb.partition("-")
    return (kind, [topic or "1", *words]) if kind in ("amend", "rule") else (verb, words)


def answer(walk, who, now, verb, words):
    verb, words = asked(verb, words)
    if verb in QUERIES:
        return QUERIES[verb](walk, who, now, *words)
    text = COMMANDS[verb](walk, who, now, *words)
    walk.now = now
    return text


def told(walk, line):
    """What a line is told, and done to the walk. Of a cancelled command nothing stays."""
    if line == "order":
        return walk.order()
    who, moment, verb, *words = line.split()
    now = max(int(moment), walk.now)
    try:
        if verb == "cancel":
            answer(copy.deepcopy(walk), who, now, words[0], words[1:])
            return f"cancelled {now}"
        return answer(walk, who, now, verb, words)
    except Refused as refusal:
        return f"refused {refusal}"


# What a random course asks: who, and the words, each as often as its number of as many as they are in all.

OFTEN = {
    "{assessor} lease {topic}": 12,
    "{assessor} lease 9": 2,
    "{assessor} cancel lease {topic}": 2,
    "{holder} grade {lease} {grade}": 12,
    "{assessor} grade {lease} {grade}": 2,
    "{holder} release {lease}": 2,
    "{assessor} amend{on} {doc} {grade}": 6,
    "org rule{on} {doc} {grade}": 2,
    "org withdraw {run}": 2,
    "org scores {run}": 6,
    "org qrels": 1,
    "org disagreements": 1,
    "org progress": 1,
    "org table": 1,
    "org release-qrels 0": 1,
    "org release-scores 1": 1,
}


def drawn(dice, walk):
    """What the words may name: mostly one of the last leases, a document that has a label, and a low grade."""
    assessor, topic = dice.choice("pqr"), dice.choice(list(walk.topics))
    lease = max(len(walk.leases) - dice.randrange(4), 0)
    labelled = [doc for _, doc in walk.topics[topic].labels]
    return {
        "assessor": assessor,
        "topic": topic,
        "on": "" if topic == "1" else f"-{topic}",
        "lease": lease,
        "holder": walk.leases[lease - 1]["who"] if lease else assessor,
        "doc": dice.choice(labelled) if labelled and dice.randrange(4) else dice.choice(DOCS + "i"),
        "grade": dice.choice([0, 0, 0, 0, 1, 1, 2, 2, 3, 4]),
        "run": dice.choice(NAMES),
    }


def thrown(dice, walk, moment):
    """The line of a request at a moment."""
    [words] = dice.choices(list(OFTEN), OFTEN.values())
    who, words = words.format(**drawn(dice, walk)).split(" ", 1)
    return f"{who} {moment} {words}"
