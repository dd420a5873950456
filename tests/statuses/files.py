"""The files of an evaluation."""

import os

from tests.statuses.calls import JOURNAL, MEMORY, absent, ended, ends, little_memory, ran, with_files, write, wrong

REFUSED = "campaign: a line is refused, as standard output says: mend it; docs/FORMATS.md has what each kind means"
UNREAD = "campaign: . can't be read: look at its permissions, and whether it is a file"
FAULTY = b"1 Q0 A 1 nan t\n"


def scores():
    with open("crates/campaign/stdout") as file:
        return file.read()


def try_files():
    path = with_files("files")
    write(path, FAULTY, "faulty.txt")
    ends("scores", path, "eval r.txt q.txt", 0, scores(), "")
    ends("a faulty run", path, "eval faulty.txt q.txt", 3, "input: faulty.txt line 1 score shape\n", REFUSED)
    ends("faulty qrels", path, "eval r.txt r.txt", 3, "input: r.txt line 1 fields\n", REFUSED)
    ends("a missing run", path, "eval none.txt q.txt", 4, "", absent("none.txt"))
    ends("missing qrels", path, "eval faulty.txt none.txt", 4, "", absent("none.txt"))
    ends("a folder", path, "eval . q.txt", 4, "", UNREAD)
    write(path, b"", "long.txt")
    os.truncate(os.path.join(path, "long.txt"), 268435457)
    ends("a file of 268,435,457 bytes", path, "eval long.txt q.txt", 4, "", absent("long.txt"))
    status, _, told = ran(path, "eval", "long.txt", "q.txt", preexec_fn=little_memory)
    ended("a file that memory has no room for", status, 7, told, MEMORY)
    ends("eval leaves no journal", path, "eval r.txt q.txt", 0, scores(), "")
    if os.path.exists(os.path.join(path, JOURNAL)):
        wrong("eval made a journal")
