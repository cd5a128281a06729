"""Where the program is, and a folder to run it in."""

import os
import subprocess
import sys
import tempfile

ROOT = os.path.dirname(os.path.dirname(os.path.abspath(__file__)))
PROGRAM = os.path.join(ROOT, "crates", "coda", "out", "coda")
# Disks in memory, where the machine has such a place: programs sync them often.
MEMORY = "/dev/shm" if os.access("/dev/shm", os.W_OK) else None


def program_of(words):
    """The program that a command line names, or else the repository's own, which is proved and built where it isn't yet."""
    if words:
        return os.path.abspath(words[0])
    proved = subprocess.run([os.path.join(ROOT, "prove")], stdout=subprocess.DEVNULL, check=False)
    if proved.returncode:
        sys.exit("the program isn't built: ./prove doesn't build it")
    return PROGRAM


def folder(place=MEMORY):
    """A new folder for disks, which is gone in the end."""
    return tempfile.TemporaryDirectory(dir=place)
