"""Rooms by idea: lists the folders of code, definitions and lemmas with over a dozen files, and the files over 400 lines."""

import pathlib
import sys

MOST_FILES = 12
MOST_LINES = 400

# so many folders and files at the least, or they weren't found
FEWEST_FOLDERS = 500
FEWEST_FILES = 1_500


def main():
    top = pathlib.Path(__file__).resolve().parents[2]
    folders = [path for part in ("src", "specs", "proofs") for path in top.glob(f"crates/*/{part}/**/") if path.is_dir()]
    faults, count = [], 0
    for folder in sorted(set(folders)):
        files = [path for path in folder.iterdir() if path.is_file()]
        count += len(files)
        if len(files) > MOST_FILES:
            faults.append(f"{folder.relative_to(top)} has {len(files)} files: it wants rooms")
        for path in files:
            lines = len(path.read_text(encoding="utf-8").splitlines())
            if lines > MOST_LINES:
                faults.append(f"{path.relative_to(top)} has {lines} lines: it has more than one idea")
    if len(set(folders)) < FEWEST_FOLDERS or count < FEWEST_FILES:
        faults.append(f"{len(set(folders))} folders with {count} files were read, where there are {FEWEST_FOLDERS} with {FEWEST_FILES} at the least")
    for fault in faults:
        print(f"tests/rooms: {fault}", file=sys.stderr)
    if faults:
        sys.exit(1)
    print(f"tests/rooms: {count} files in {len(set(folders))} folders, none of them too large")


main()
