"""The bytes of a journal, read and written plainly by the words of docs/FORMATS.md: records, entries and bundles."""

import re
import struct
from collections import namedtuple
from functools import lru_cache

MARK = b"POOLJRNL"
MOVING = 2
# a file of so many bytes has no records, whatever they are
NO_RECORDS = 17
ROLES = {"organiser": 1, "group": 2, "assessor": 3}
FOUND, TOPICS, SUBMIT, OPEN, LEASE, GRADE, RELEASE, AMEND, RULE, WITHDRAW, PUBLISH, FOUND_WITH_LEVELS = range(1, 13)
# the kinds that a bundle may have, with what their fields are: a name, a docno, a lease or a grade
NAME, DOCNO, NUMBER, BYTE = "name", "docno", "number", "byte"
BUNDLED = {
    OPEN: (),
    LEASE: (NAME,),
    GRADE: (NUMBER, BYTE),
    RELEASE: (NUMBER,),
    AMEND: (NAME, DOCNO, BYTE),
    RULE: (NAME, DOCNO, BYTE),
    WITHDRAW: (NAME,),
    PUBLISH: (),
}
TEXTS = {NAME: re.compile(rb"[A-Za-z0-9._-]{1,32}"), DOCNO: re.compile(rb"[!-~]{1,64}")}
MOST_ENTRIES, MOST_MOMENT = 4096, 2**40

# of a kind that a bundle may have the fields are a tuple, and of another one they are bytes
Entry = namedtuple("Entry", "caller role number moment kind fields")


class Unread(Exception):
    """Bytes that don't have the form that they are read by, and what is wrong."""


def hold(is_so, what):
    if not is_so:
        raise Unread(what)


class Reader:
    """Bytes that are taken from their front."""

    def __init__(self, data):
        self.data, self.place = data, 0

    def take(self, count):
        piece = self.data[self.place : self.place + count]
        hold(len(piece) == count, "it ends early")
        self.place += count
        return piece

    def number(self, size):
        return int.from_bytes(self.take(size), "little")

    def short(self):
        return self.take(self.number(1))

    def text(self, form):
        text = self.short()
        hold(TEXTS[form].fullmatch(text), f"no {form}")
        return text

    def role(self):
        role = self.number(1)
        hold(role in ROLES.values(), "no role")
        return role

    def rest(self):
        return self.take(len(self.data) - self.place)

    def ends(self):
        hold(self.place == len(self.data), "something stands behind the last field")

    def varint(self):
        value = 0
        for place in range(10):
            byte = self.number(1)
            value |= (byte & 0x7F) << 7 * place
            if byte < 0x80:
                hold(byte != 0 or place == 0, "the last byte of a varint is 0")
                hold(value < 2**64, "a varint is too great")
                return value
        raise Unread("a varint has more than 10 bytes")


def records(image, place=16):
    """The payloads of the area at this place, and where each record ends: at the gate behind it."""
    payloads, ends = [], []
    while image[place : place + 1] == b"\1" and place + 5 <= len(image):
        (length,) = struct.unpack_from("<I", image, place + 1)
        if place + 5 + length > len(image):
            break
        payloads.append(image[place + 5 : place + 5 + length])
        place += 5 + length
        ends.append(place)
    return payloads, ends


def area_size(payloads):
    """The bytes of an area of these payloads."""
    return sum(5 + len(payload) for payload in payloads) + 1


def payloads_of(image):
    """The payloads of a file."""
    if len(image) <= NO_RECORDS:
        return []
    hold(image[:8] == MARK, "it has another header")
    if image[8] != MOVING:
        return records(image)[0]
    place = int.from_bytes(image[9:16], "little")
    hold(NO_RECORDS <= place < len(image), "the place of its area isn't in it")
    payloads, _ = records(image, place)
    hold(16 + area_size(payloads) <= place, "the records have no room in front of their area")
    return payloads


@lru_cache(maxsize=1 << 17)
def entries_in(payload):
    """The entries of a payload."""
    return bundled_entries(payload) if payload[:1] == b"\0" else (single_entry(payload),)


def entries_of(image):
    """The entries of a file."""
    return [entry for payload in payloads_of(image) for entry in entries_in(payload)]


def single_field(reader, form):
    return reader.text(form) if form in TEXTS else reader.number(4 if form == NUMBER else 1)


def single_entry(payload):
    """The one entry of a payload. The fields of a founding, of topics and of a run aren't looked at."""
    reader = Reader(payload)
    caller, role = reader.text(NAME), reader.role()
    numbered = reader.number(1)
    hold(numbered <= 1, "neither a number nor none")
    number = reader.number(8) if numbered else None
    hold(number is None or number < 2**63, "a number is too great")
    moment, kind = reader.number(8), reader.number(1)
    hold(moment <= MOST_MOMENT, "a moment is too late")
    hold(FOUND <= kind <= FOUND_WITH_LEVELS, "no kind")
    fields = tuple(single_field(reader, form) for form in BUNDLED[kind]) if kind in BUNDLED else reader.rest()
    reader.ends()
    return Entry(caller, role, number, moment, kind, fields)


class Table:
    """The callers or the texts of a bundle, each of which is used, and first in its order."""

    def __init__(self, rows):
        hold(len(set(rows)) == len(rows), "two of a table are the same")
        self.rows, self.used = rows, 0

    def at(self, index):
        hold(index < len(self.rows), "an index is too great")
        hold(index <= self.used, "one of a table is used before another that stands in front of it")
        self.used = max(self.used, index + 1)
        return self.rows[index]

    def ends(self):
        hold(self.used == len(self.rows), "one of a table isn't used")


def counted(reader, read):
    """As many as a varint says, which are no more than the bytes that are left."""
    count = reader.varint()
    hold(count <= len(reader.data), "a count is too great")
    return [read() for _ in range(count)]


def bundled_field(reader, texts, form):
    if form in TEXTS:
        text = texts.at(reader.varint())
        hold(TEXTS[form].fullmatch(text), f"no {form}")
        return text
    value = reader.number(1) if form == BYTE else reader.varint()
    hold(value < 2**32, "a lease is too great")
    return value


def bundled_entries(payload):
    """The entries of a bundle."""
    reader = Reader(payload)
    hold(reader.number(1) == 0, "it doesn't begin with 0")
    callers = Table(counted(reader, lambda: (reader.text(NAME), reader.role())))
    texts = Table(counted(reader, reader.short))
    count, moment, entries = reader.varint(), 0, []
    hold(1 <= count <= MOST_ENTRIES, "a bundle of no entries, or too many")
    for _ in range(count):
        caller, role = callers.at(reader.varint())
        number = reader.varint()
        hold(number <= 2**63, "a number is too great")
        moment += reader.varint()
        hold(moment <= MOST_MOMENT, "a moment is too late")
        kind = reader.number(1)
        hold(kind in BUNDLED, "a kind that no bundle has")
        fields = tuple(bundled_field(reader, texts, form) for form in BUNDLED[kind])
        entries.append(Entry(caller, role, number - 1 if number else None, moment, kind, fields))
    reader.ends()
    callers.ends()
    texts.ends()
    return tuple(entries)


# What is written.


def short(text):
    return bytes([len(text)]) + text


def spelled(entry):
    """The bytes of an entry by itself."""
    number = b"\0" if entry.number is None else b"\1" + struct.pack("<Q", entry.number)
    head = short(entry.caller) + bytes([entry.role]) + number + struct.pack("<QB", entry.moment, entry.kind)
    if entry.kind not in BUNDLED:
        return head + entry.fields
    for form, field in zip(BUNDLED[entry.kind], entry.fields):
        head += short(field) if form in TEXTS else struct.pack("<I" if form == NUMBER else "<B", field)
    return head


def varint(value):
    groups = b""
    while value >= 0x80:
        groups += bytes([value & 0x7F | 0x80])
        value >>= 7
    return groups + bytes([value])


def bundle(entries):
    """The bundle of entries."""
    callers, texts, moment, items = {}, {}, 0, b""
    for entry in entries:
        items += varint(callers.setdefault((entry.caller, entry.role), len(callers)))
        items += varint(0 if entry.number is None else entry.number + 1)
        items += varint(entry.moment - moment) + bytes([entry.kind])
        moment = entry.moment
        for form, field in zip(BUNDLED[entry.kind], entry.fields):
            value = texts.setdefault(field, len(texts)) if form in TEXTS else field
            items += bytes([value]) if form == BYTE else varint(value)
    tables = varint(len(callers)) + b"".join(short(name) + bytes([role]) for name, role in callers)
    tables += varint(len(texts)) + b"".join(map(short, texts))
    return b"\0" + tables + varint(len(entries)) + items


def compacted(entries):
    """The payloads that a compaction puts in the place of these entries'."""
    payloads, stretch = [], []
    for entry in [*entries, None]:
        if entry is not None and entry.kind in BUNDLED:
            stretch.append(entry)
            continue
        payloads += [bundle(stretch[place : place + MOST_ENTRIES]) for place in range(0, len(stretch), MOST_ENTRIES)]
        payloads += [spelled(entry)] if entry is not None else []
        stretch = []
    return payloads


def area(payloads):
    return b"".join(b"\1" + struct.pack("<I", len(payload)) + payload for payload in payloads) + b"\0"


def journal(payloads):
    """A new file of these payloads."""
    return MARK + b"\1" + bytes(7) + area(payloads)


def listed(items):
    return struct.pack("<I", len(items)) + b"".join(items)


def founding(depth, term, hold, level, top_grade, doubles=(), levels=None):
    """The first entry, of these rules; levels are of topics that have their own."""
    fields = struct.pack("<HQBBB", depth, term, hold, level, top_grade) + listed([short(topic) for topic in sorted(doubles)])
    kind = FOUND
    if levels:
        kind = FOUND_WITH_LEVELS
        fields += listed([short(topic) + bytes([own]) for topic, own in sorted(levels.items())])
    return Entry(b"campaign", ROLES["organiser"], None, 0, kind, fields)


def topics_given(caller, moment, topics):
    """The entry of topics with these ids, titles, descs and narrs."""
    long = lambda text: struct.pack("<H", len(text)) + text
    fields = listed([short(topic) + b"".join(map(long, texts)) for topic, *texts in topics])
    return Entry(caller, ROLES["organiser"], None, moment, TOPICS, fields)


def submitted(caller, moment, run, lists, number=None):
    """The entry of a run, whose lists by topic are the documents by rank; lines stand in the order of the lists."""
    items, line = [], 1
    for topic, ranked in sorted(lists.items()):
        items.append(short(topic) + struct.pack("<I", line) + listed([short(doc) for doc in ranked]))
        line += len(ranked)
    return Entry(caller, ROLES["group"], number, moment, SUBMIT, short(run) + listed(items))


# the three entries that FORMATS.md writes out as a bundle
WORKED = [
    Entry(b"org", 1, None, 1000, OPEN, ()),
    Entry(b"p", 3, None, 1000, LEASE, (b"1",)),
    Entry(b"p", 3, 7, 1000, GRADE, (1, 2)),
]
WORKED_BUNDLE = bytes.fromhex("00 02 03 6f7267 01 01 70 03 01 01 31 03 00 00 e807 04 01 00 00 05 00 01 08 00 06 01 02")
