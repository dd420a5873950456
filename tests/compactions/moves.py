"""A campaign whose journal is compacted: the file before and afterwards, and how far a move has come in a file."""

import os
from collections import defaultdict

from tests.campaigns import ASSESSORS, fresh, message, session
from tests.plain.journals import AMEND, GRADE, LEASE, MOVING, OPEN, RELEASE, ROLES, RULE, WITHDRAW, Entry, Unread
from tests.plain.journals import area, compacted, entries_of, founding, journal, spelled, submitted, topics_given
from tests.script import fail

JOURNAL = "campaign.journal"
# how far a move may have come, in order
STEPS = [
    "before any write",
    "behind its place",
    "inside the write of the area",
    "behind the area",
    "behind the turn",
    "inside the move",
    "behind the move",
    "behind the turn back",
    "behind the cut",
]


def campaign(topics, docs, leases, text=0):
    """The entries of a campaign under the sample settings, docs in the place of their depth: topics with so long texts,
    a run of so many documents on each, and so many leases that the assessor p grades or releases. Some labels are
    amended and ruled on, a run is withdrawn and one comes late."""
    ids = [b"%03d" % topic for topic in range(topics)]
    ranked = {topic: [b"%s-%059d" % (topic, place) for place in range(docs)] for topic in ids}
    of = lambda caller, role, kind, *fields: Entry(caller, ROLES[role], None, 1000, kind, fields)
    entries = [
        founding(docs, 600, 2, 1, 3),
        topics_given(b"org", 1000, [(topic, b"title", b"d" * text, b"n" * text) for topic in ids]),
        submitted(b"grp", 1000, b"X", ranked),
        submitted(b"grp", 1000, b"Y", {ids[0]: [b"y"]}),
        of(b"org", "organiser", OPEN),
        of(b"grp", "group", WITHDRAW, b"Y"),
    ]
    labelled = defaultdict(int)

    def asks(lease, kind, *fields):
        # (two of three have a number, which is one more than the place of the entry before)
        number = len(entries) if len(entries) % 3 or lease == leases else None
        caller, role = (b"org", "organiser") if kind == RULE else (b"p", "assessor")
        entries.append(Entry(caller, ROLES[role], number, 1000 + lease // 5, kind, fields))

    for lease in range(1, leases + 1):
        topic = ids[lease % topics]
        doc = ranked[topic][labelled[topic]]
        asks(lease, LEASE, topic)
        if lease % 10 == 7:
            asks(lease, RELEASE, lease)
            continue
        asks(lease, GRADE, lease, lease % 4)
        labelled[topic] += 1
        if lease % 10 == 3:
            asks(lease, AMEND, topic, doc, 2)
        if lease % 10 == 5:
            asks(lease, RULE, topic, doc, 3)
        if lease == leases // 2:
            # (of the same documents in the same order, so that the leases name the same ones)
            entries.append(submitted(b"grp", 1000 + lease // 5, b"Z", {topic: ranked[topic]}))
    return entries


class Move:
    """The file of a campaign's entries, and what a compaction makes of it."""

    def __init__(self, docs, entries):
        self.docs, self.entries = docs, entries
        self.before = journal([spelled(entry) for entry in entries])
        self.area = area(compacted(entries))
        self.place = len(self.before)
        self.after = self.moved_from(self.place)

    def moved_from(self, place):
        """What a compaction leaves of a file of so many bytes: the place behind them stays told."""
        return self.before[:8] + b"\3" + place.to_bytes(7, "little") + self.area

    def folder(self, name, image=None):
        """A folder with such a journal."""
        path = fresh(name, depth=self.docs)
        self.put(path, self.before if image is None else image)
        return path

    @staticmethod
    def put(path, image):
        with open(os.path.join(path, JOURNAL), "wb") as file:
            file.write(image)

    @staticmethod
    def image(path):
        with open(os.path.join(path, JOURNAL), "rb") as file:
            return file.read()

    def step(self, image):
        """How far the move has come in a file."""
        at, behind = image[16 : 16 + len(self.area)], image[self.place :]
        if image[8] == MOVING:
            is_moved, is_there = at == self.area, at == self.before[16 : 16 + len(self.area)]
            return "behind the move" if is_moved else "behind the turn" if is_there else "inside the move"
        if image[8] == 3:
            return "behind the cut" if len(image) == len(self.after) else "behind the turn back"
        if behind:
            return "behind the area" if behind == self.area else "inside the write of the area"
        return "behind its place" if image[9:16] == self.after[9:16] else "before any write"

    def printed(self, before):
        """What a compaction prints that finds so many bytes."""
        return f"entries {len(self.entries)}\nbefore {before}\nafter {len(self.after)}\n".encode()

    def hold_entries(self, what, image):
        """A file has these entries, as it stands."""
        try:
            held = entries_of(image)
        except Unread as error:
            fail(f"{what}: the file isn't read: {error}")
        if held != self.entries:
            fail(f"{what}: the file has other entries")

    def hold_rest(self, what, path):
        """The journal of a folder is at rest, with the records from before or those of the compaction. Which it has."""
        image = self.image(path)
        if image[8] == MOVING or image not in (self.after, image[:16] + self.before[16:]):
            fail(f"{what}: the file is neither as before nor compacted, but {self.step(image)}")
        return "compacted" if image == self.after else "as before"


def repeated(entries):
    """The request of the last entry, which is p's grade under a number."""
    lease, grade = entries[-1].fields
    return message("POST", f"/leases/{lease}/grade", ASSESSORS[0], f'{{"grade":{grade}}}', entries[-1].number)


def told_again(path, entries):
    """What a session in this folder answers where that request comes again."""
    return session(path, repeated(entries))
