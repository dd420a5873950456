"""What each script of this folder begins with: its name, the program that it tries, its other words, and a folder of
its own, which goes when the script ends."""

import atexit
import os
import shutil
import signal
import subprocess
import sys
import tempfile

SCRIPT, PROGRAM, *WORDS = sys.argv[1:]


def fail(text):
    sys.exit(f"{SCRIPT}: {text}")


def tell(text):
    print(f"{SCRIPT}: {text}", flush=True)


# (an empty word is the program that the gate built)
PROGRAM = os.path.realpath(PROGRAM or "crates/campaign/out/campaign")
if not os.access(PROGRAM, os.X_OK):
    fail("the program isn't built (./campaign builds it)")
FOLDER = tempfile.mkdtemp()
atexit.register(shutil.rmtree, FOLDER, ignore_errors=True)
# a script that is told to end ends as any other does, so that nothing of it stays
signal.signal(signal.SIGTERM, lambda number, _: sys.exit(128 + number))


def shared_object(source):
    """What `cc` makes of a C file, to be put before the C library's own calls."""
    made = os.path.join(FOLDER, os.path.basename(source).removesuffix(".c") + ".so")
    if subprocess.run(["cc", "-O2", "-Wall", "-shared", "-fPIC", "-o", made, source, "-ldl"]).returncode != 0:
        sys.exit(2)
    return made
