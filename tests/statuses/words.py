"""The words behind the program's name."""

import re

from tests.statuses.calls import USAGE, ends, ran, with_files, wrong

UNKNOWN = "campaign: no command is given, or a word that isn't UTF-8"
# where the words behind a command's name aren't its own
MISCALLED = [
    ("a file too few", "eval r.txt"),
    ("a file too many", "eval r.txt q.txt q.txt"),
    ("an option", "eval r.txt q.txt --help"),
    ("a file that begins with a minus", "eval -r.txt q.txt"),
    ("two minuses", "eval -- r.txt q.txt"),
    ("a word behind session", "session x"),
    ("a drill of more runs than may be", "drill 1 257 1 1"),
    ("a release without a name", "archive"),
    ("a name of 33 bytes", "archive xxxxxxxxxxxxxxxxxxxxxxxxxxxxxxxxx"),
    ("a run that is no name", ["history", "a b"]),
    ("one release alone", "compare spring"),
    ("a word behind export", "export spring"),
    ("a word behind compact", "compact campaign.journal"),
    ("a word behind reuse", "reuse campaign.journal"),
    ("a word behind agreement", "agreement campaign.journal"),
    ("no port", "serve --port 0 --workers 1 --connections 1"),
    ("too many workers", "serve --port 7000 --workers 17 --connections 1"),
    ("an option too few", "serve --port 7000 --workers 1"),
]


def try_words():
    path = with_files("words")
    told = ran(path, "--help")[2].decode()
    for command in USAGE.removeprefix("usage: campaign ").rstrip("\n").split(" | "):
        if f"\n    campaign {command}: " not in f"\n{told}":
            wrong(f"the help has no line for {command}")
    shown = told.rstrip("\n")
    ends("help by an option", path, "--help", 2, USAGE, shown)
    ends("help", path, "help", 2, USAGE, shown)
    ends("no words", path, "", 2, USAGE, f"{UNKNOWN}\n{shown}")
    ends("a word that is no text", path, ["eval", "r.txt", b"\xff", "q.txt"], 2, USAGE, f"{UNKNOWN}\n{shown}")
    another = f"campaign: there is no command `score`\n{shown}"
    ends("another word", path, "score r.txt q.txt", 2, USAGE, another)
    for name, words in MISCALLED:
        command = words[0] if isinstance(words, list) else words.split()[0]
        form = "\n".join(re.findall(rf"(?m)^    (campaign {command}[^:]*): ", told))
        ends(name, path, words, 2, USAGE, f"campaign: {command} is called as `{form}`\n{shown}")
    drilled = "runs 2\ntopics 1\nlines 6\nentries 12\njudged 3\nrelevant 2\nbest R001 0.8333\n"
    ends("a drill", path, "drill 1 2 1 3", 0, drilled, "")
