"""Each path that README.md, a page of docs/ or the head of a source file names has to exist: a file or a folder of a
crate, as `journal/src/layout.rt`, behind the crate's name also `specs/Format.antt` or `layout.rt`; an edit; and a script
or a folder beside the crates."""

import glob
import os
import re
import sys

FILE = re.compile(r"(?<![\w/.-])(?:[\w-]+/)*[\w-]+\.(?:rt|antt|edit)(?![\w/])")
QUOTED = re.compile(r"`(\w[\w/.-]*)`")
WITHIN = ("src", "specs", "proofs")
BESIDE = ("bench", "docs", "examples", "tests", "web")


def words_of(text):
    """The paths of a text, and the names of crates in it, in their order."""
    found = {(match.start(), match.group()) for match in FILE.finditer(text)}
    found |= {(match.start(1), match.group(1)) for match in QUOTED.finditer(text)}
    return [word for _, word in sorted(found)]


def is_path(word):
    """Whether a word is looked for; one that stands for any name, as `proofs/MODULE`, isn't."""
    first = word.split("/")[0]
    if re.search(r"\b[A-Z]+/|\.\.|^\w+/$", word):
        return False
    return bool(FILE.fullmatch(word)) or "/" in word and (first in WITHIN + BESIDE or os.path.isdir(f"crates/{first}"))


def is_there(path, crates):
    """Whether a path is one of the repository, of all crates, or of one of these crates."""
    if os.path.exists(path) or os.path.exists(f"crates/{path}"):
        return True
    if path.endswith(".edit"):
        return bool(glob.glob(f"crates/*/must-fail/{path}"))
    return any(
        glob.glob(f"crates/{crate}/{path}") or glob.glob(f"crates/{crate}/**/{path}", recursive=True)
        for crate in crates or ["*"]
    )


def missing(text, own):
    """The paths of a text that aren't there, and how many there are. `own` is the crate that the text speaks of, if any."""
    crates, faults, count = list(own), [], 0
    for word in words_of(text):
        first = word.split("/")[0]
        if os.path.isdir(f"crates/{first}") and first not in crates:
            crates.append(first)
        if is_path(word):
            count += 1
            if not is_there(word, crates):
                faults.append(word)
    return faults, count


def main():
    texts = []
    for page in ["README.md", *sorted(glob.glob("docs/*.md"))]:
        with open(page, encoding="utf-8") as file:
            texts += [(f"{page}:{number}", line, []) for number, line in enumerate(file, 1)]
    for source in sorted(glob.glob("crates/*/src/**/*.rt", recursive=True)):
        with open(source, encoding="utf-8") as file:
            head = "".join(line for line in file if line.startswith("//!"))
        texts.append((source, head, [source.split("/")[1]]))
    total, wrong = 0, 0
    for place, text, own in texts:
        faults, count = missing(text, own)
        total += count
        wrong += len(faults)
        for path in faults:
            print(f"tests/paths: {place} names {path}, which isn't there", file=sys.stderr)
    print(f"tests/paths: {total} paths are named, {wrong} of them missing")
    if wrong or total < 800:
        sys.exit(1)


main()
