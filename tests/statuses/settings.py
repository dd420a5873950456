"""The settings: what is told of each that is refused."""

import os
import re

from tests.script import FOLDER, fail
from tests.statuses.calls import REPORTS, absent, ends, write

SETTINGS = """depth = 3
term = 600
hold = 2
top_grade = 3
level = 1
doubles = ["1", "2"]
[[caller]]
name = "org"
role = "organiser"
key = "ORGANISERORGAN01"

[[caller]]
name = "grp"
role = "group"
key = "GROUPGROUPGROUP1"
"""
DOUBLES = "doubles is an array of at most 250 topic ids in quotes, in ascending byte order"
LEVELS = (
    "levels is an array of at most 250 tables { topic, level }, the topics in ascending byte order, each level 1 to"
    " top_grade"
)
NAME = "name is 1 to 32 letters, digits, points, underscores and dashes"
ROLE = "role is organiser, group or assessor"


def behind_doubles(text):
    return r"^(doubles.*)$", r"\1" + "\n" + text


# edits, each a pattern and what stands in its place, and what is told of the settings that they make
EDITS = [
    ([("^hold = 2", "hold = 51")], "line 3: hold is 1 to 50"),
    ([("^hold = 2", 'hold = "2"')], "line 3: hold is 1 to 50"),
    ([("^hold = 2", '"hold"=0')], "line 3: hold is 1 to 50"),
    ([("^hold.*\n", "")], "hold is missing, which is 1 to 50"),
    ([("^depth = 3", "depth = 1001")], "line 1: depth is 1 to 1000"),
    ([("^term = 600", "term = 1099511627777")], "line 2: term is 1 to 1099511627776"),
    ([("^top_grade = 3", "top_grade = 256")], "line 4: top_grade is 1 to 255"),
    ([("^level = 1", "level = 4")], "line 5: level is 1 to 3"),
    ([("^depth = 3", "depth = 0"), ("^level = 1", "level = 0")], "line 1: depth is 1 to 1000"),
    ([("^depth", "dept")], "line 1: settings have no key `dept`"),
    ([("^term = 600", "term 600")], "line 2: it isn't TOML: key with no value, expected `=`"),
    ([('"\n\\Z', "\n")], "line 15: it isn't TOML: invalid string"),
    ([('"1", "2"', '"2", "1"')], f"line 6: {DOUBLES}"),
    ([('"1", "2"', '"1 2"')], f"line 6: {DOUBLES}"),
    ([('"1", "2"', "1, 2")], f"line 6: {DOUBLES}"),
    ([behind_doubles('levels = [{ topic = "1", level = 4 }]')], f"line 7: {LEVELS}"),
    ([behind_doubles('levels = [{ topic = "1", grade = 1 }]')], f"line 7: {LEVELS}"),
    (
        [behind_doubles('levels = [{ topic = "2", level = 1 }, { topic = "1", level = 2 }]')],
        f"line 7: {LEVELS}",
    ),
    ([behind_doubles('[[levels]]\ntopic = "2"\nlevel = 0')], f"line 7: {LEVELS}"),
    (
        [("^level.*\n", ""), behind_doubles('[[levels]]\ntopic = "2"\nlevel = 1')],
        "level is missing, which is 1 to 3",
    ),
    ([(r"^\[\[caller", "[[callers")], "line 7: settings have no key `callers`"),
    ([('^name = "org"', 'name = "the office"')], f"line 8: caller 1: {NAME}"),
    ([('^role = "group"', 'role = "groups"')], f"line 14: caller 2: {ROLE}"),
    (
        [behind_doubles('[[levels]]\ntopic = "2"\nlevel = 1'), ('^role = "group"', 'role = "groups"')],
        f"line 17: caller 2: {ROLE}",
    ),
    ([('^role = "group"\n', "")], f"line 12: caller 2: {ROLE}"),
    ([('^key = "GROUP', 'key = "')], "line 15: caller 2: key is 16 to 64 letters and digits"),
    ([('"grp"', '"org"')], "line 13: caller 2 has the name of caller 1"),
    ([('"GROUPGROUPGROUP1"', '"ORGANISERORGAN01"')], "line 15: caller 2 has the key of caller 1"),
    ([("^hold.*\n", ""), (r"\Z", "hold = 2\n")], "line 15: caller 2: callers have no key `hold`"),
    ([('^name = "org"', 'name = "\xff"')], "line 8: it isn't UTF-8"),
]


def try_edits():
    path = os.path.join(FOLDER, "refused")
    os.mkdir(path)
    for edits, complaint in EDITS:
        text = SETTINGS
        for pattern, put in edits:
            text, count = re.subn(f"(?m){pattern}", put, text)
            if count == 0:
                fail(f"no settings have {pattern}")
        write(path, text.encode("latin-1"), "campaign.toml")
        ends(f"settings with {edits}", path, "check", 3, "input: campaign.toml\n", f"campaign.toml: {complaint}")


def try_missing():
    path = os.path.join(FOLDER, "missing")
    os.mkdir(path)
    ends("missing settings", path, "session", 4, "", absent("campaign.toml"))
    for word in REPORTS:
        ends(f"missing settings of {word}", path, word, 4, "", absent("campaign.toml"))
    words = "serve --port 7000 --workers 1 --connections 1"
    ends("missing settings of a server", path, words, 4, "", absent("campaign.toml"))
