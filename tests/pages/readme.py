"""Plays README.md in a folder like the clone and in the archive that ./release makes; see tests/readme."""

import glob
import os
import shutil
import subprocess
import sys

from tests.pages.player import Player
from tests.script import FOLDER, PROGRAM, fail, tell

# (the user nobody)
NOBODY = 65534
IS_ROOT = os.getuid() == 0


def ends(words, **how):
    """What words print; the script ends with their status where it isn't 0."""
    done = subprocess.run(words, **{"stdout": subprocess.PIPE, **how})
    if done.returncode != 0:
        sys.exit(done.returncode)
    return done.stdout


def play_readme(folder, before=()):
    page = os.path.join(folder, "README.md")
    with Player(folder, before) as player:
        player.play(page, "What it needs", "A campaign at a glance")
        if "/releases/" not in player.play(page, "Run your campaign", "Limits"):
            fail("README.md has no campaign up to its release")
        player.play(page, "Without a network", "no further heading")


def in_a_folder_like_the_clone():
    clone = os.path.join(FOLDER, "clone")
    for name in ends(["git", "ls-files", "-z", "README.md", "examples"]).decode().rstrip("\0").split("\0"):
        os.makedirs(os.path.dirname(os.path.join(clone, name)), exist_ok=True)
        shutil.copy(name, os.path.join(clone, name))
    shutil.copy(PROGRAM, os.path.join(clone, "campaign"))
    tell("in a folder like the clone")
    play_readme(clone)


def plain_rights(home):
    """The words that begin a command with a plain user's rights, and the system's own commands alone on the path."""
    rights = f"setpriv --reuid={NOBODY} --regid={NOBODY} --clear-groups --no-new-privs".split() if IS_ROOT else []
    return [*rights, "env", "-i", "PATH=/usr/bin:/bin", f"HOME={home}", "LANG=C.UTF-8"]


def in_the_unpacked_archive():
    """The folder of the archive, unpacked."""
    os.chmod(FOLDER, 0o755)
    ends(["./release", PROGRAM, FOLDER], stdout=None)
    home = os.path.join(FOLDER, "home")
    os.mkdir(home)
    if IS_ROOT:
        os.chown(home, NOBODY, NOBODY)
    who = "nobody" if IS_ROOT else ends(["id", "-un"]).decode().strip()
    tell(f"in the unpacked archive, as {who}")
    plainly = plain_rights(home)
    if subprocess.run([*plainly, "bash", "-c", "command -v rt"], cwd=home, stdout=subprocess.DEVNULL).returncode == 0:
        fail("the system's own commands have rt")
    unpack = "tar xf ../campaign-*.tar.xz && cd campaign-* && sha256sum --quiet -c SHA256SUMS"
    ends([*plainly, "bash", "-c", unpack], cwd=home)
    (unpacked,) = glob.glob(os.path.join(home, "campaign-*"))
    play_readme(unpacked, plainly)
    return unpacked


def with_the_C_library_alone(unpacked):
    """The program runs where the root is a folder that has nothing but the C library."""
    bare = os.path.join(FOLDER, "bare")
    os.mkdir(bare)
    shutil.copy(os.path.join(unpacked, "campaign"), bare)
    for word in ends(["ldd", os.path.join(bare, "campaign")]).decode().split():
        if word.startswith("/"):
            os.makedirs(bare + os.path.dirname(word), exist_ok=True)
            shutil.copy(word, bare + word)
    words = ["chroot", f"--userspec={NOBODY}:{NOBODY}", bare, "/campaign", *"drill 1 2 1 3".split()]
    if not subprocess.run(words, stdout=subprocess.PIPE).stdout.startswith(b"runs 2\n"):
        fail("the program doesn't run where there is the C library alone")
    tell("the program runs where there is the C library alone")


in_a_folder_like_the_clone()
unpacked = in_the_unpacked_archive()
if IS_ROOT:
    with_the_C_library_alone(unpacked)
else:
    tell("not as root, so no folder with the C library alone was made a root")
