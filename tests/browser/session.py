"""Plays in a session of its own: what the browser leaves behind, processes and files, goes with it; see tests/web."""

import os
import signal
import subprocess
import sys
import tempfile
from contextlib import suppress

from tests.script import FOLDER, PROGRAM, SCRIPT, WORDS


def main():
    pictures = os.path.abspath(WORDS[0] or tempfile.mkdtemp())
    os.makedirs(pictures, exist_ok=True)
    words = [sys.executable, "-B", "-m", "tests.browser.play", SCRIPT, PROGRAM, pictures]
    home = {"HOME": FOLDER, "TMPDIR": FOLDER, "PYTHONDONTWRITEBYTECODE": "1"}
    play = subprocess.Popen(words, env={**os.environ, **home}, start_new_session=True)
    try:
        status = play.wait()
    finally:
        with suppress(ProcessLookupError):
            os.killpg(play.pid, signal.SIGKILL)
    return status if status >= 0 else 128 - status


sys.exit(main())
