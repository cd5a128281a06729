"""Builds and runs what benchmarks measure: the program over a script, and programs of their own."""

import fcntl
import os
import shutil
import struct
import subprocess
import sys
import tempfile
import termios
import time
from typing import NamedTuple

sys.path.insert(0, os.path.join(os.path.dirname(os.path.dirname(os.path.abspath(__file__))), ".ci"))

from program import PROGRAM, ROOT, folder

RUNS = 3


# Begins a program and waits for it, and tells its status, its processor seconds, the seconds that passed and its most memory in MiB.
# It is a small process, since the most memory of a program counts what the process held that began it.
STARTER = """
import os, sys, time
start = time.monotonic()
child = os.posix_spawnp(sys.argv[2], sys.argv[2:], os.environ)
_, status, usage = os.wait4(child, 0)
passed = time.monotonic() - start
with open(int(sys.argv[1]), "w") as told:
    print(status, usage.ru_utime + usage.ru_stime, passed, usage.ru_maxrss / 1024, file=told)
"""


class Ran(NamedTuple):
    """A run: its processor seconds, of the user and of the system, the seconds that passed, the most memory in MiB, and what it wrote."""

    seconds: float
    passed: float
    memory: float
    said: bytes


def run(words, given=b"", place=None, report=None):
    """One run of a program with this input, in a folder; its status must be 0. What it writes goes to a file, where one is given."""
    told, tell = os.pipe()
    with tempfile.TemporaryFile() as file:
        file.write(given)
        file.seek(0)
        starter = [sys.executable, "-S", "-c", STARTER, str(tell), *words]
        child = subprocess.Popen(starter, cwd=place, stdin=file, stdout=report or subprocess.PIPE, pass_fds=(tell,))
        os.close(tell)
        said = b"" if report else child.stdout.read()
        child.wait()
    with open(told, encoding="ascii") as file:
        status, seconds, passed, memory = file.read().split()
    if int(status):
        sys.exit(f"{words[0]} ended with status {os.waitstatus_to_exitcode(int(status))}")
    return Ran(float(seconds), float(passed), float(memory), said)


# ---- programs of a benchmark's own

def build(place, name, source, needs):
    """Builds a program in a folder, beside copies of the repository's crates, proved like them; answers its path."""
    crates = os.path.join(place, "crates")
    if not os.path.isdir(crates):
        for crate in os.listdir(os.path.join(ROOT, "crates")):
            for part in ("src", "specs", "proofs"):
                kept = os.path.join(ROOT, "crates", crate, part)
                if os.path.isdir(kept):
                    shutil.copytree(kept, os.path.join(crates, crate, part))
        shutil.copy(os.path.join(ROOT, "crates.txt"), place)
        subprocess.run(["git", "init", "-q", place], check=True)
    own = os.path.join(crates, name)
    os.makedirs(os.path.join(own, "src"))
    with open(os.path.join(own, "src", "main.rt"), "w", encoding="utf-8") as file:
        file.write(source)
    with open(os.path.join(place, "crates.txt"), "a", encoding="utf-8") as file:
        file.write(f"{name}: {needs}\n")
    made = subprocess.run(["rt", "run"], cwd=own, stdin=subprocess.DEVNULL, capture_output=True, text=True, check=False)
    program = os.path.join(own, "out", name)
    if not os.access(program, os.X_OK):
        sys.exit("the program wasn't built:\n" + made.stdout + made.stderr)
    return program


def best(program, given, runs=RUNS):
    """The least processor seconds of some runs of a program with this input, and what it said."""
    ran = [run([program], given if isinstance(given, bytes) else given.encode()) for _ in range(runs)]
    return min(one.seconds for one in ran), ran[-1].said.decode().strip()


# ---- the repository's program over scripts

def built_program():
    if not os.access(PROGRAM, os.X_OK):
        sys.exit("the program isn't built: ./prove builds it")
    return PROGRAM


def text_of(lines):
    return ("\n".join(lines) + "\n").encode()


def run_script(script, report=None):
    """A run of the program over a script, in a folder in which it finds no disks; in memory, so that no disk is measured."""
    with folder() as place:
        return run([built_program(), "run"], script, place, report or subprocess.DEVNULL)


def is_waiting(child):
    """Whether the program has read all that was sent to it and waits for more."""
    unread = struct.unpack("i", fcntl.ioctl(child.stdin, termios.FIONREAD, b"\0" * 4))[0]
    with open(f"/proc/{child.pid}/stat", encoding="ascii") as file:
        state = file.read().rpartition(")")[2].split()[0]
    return unread == 0 and state in "SZ"


def most_memory(script):
    """The most memory in MiB that the program holds over a script, before it ends."""
    with folder() as place:
        child = subprocess.Popen([built_program(), "run"], cwd=place, stdin=subprocess.PIPE, stdout=subprocess.DEVNULL)
        child.stdin.write(script)
        child.stdin.flush()
        while not is_waiting(child):
            time.sleep(0.01)
        with open(f"/proc/{child.pid}/status", encoding="ascii") as file:
            peak = next(line for line in file if line.startswith("VmHWM:"))
        child.stdin.close()
        child.wait()
    return int(peak.split()[1]) / 1024


def measure(name, script, lines):
    """Prints what a script takes, and answers its processor seconds."""
    seconds = min(run_script(script).seconds for _ in range(RUNS))
    rate = lines / seconds if seconds else float("inf")
    print(
        f"{name:>7}  {lines:6} lines  {seconds:6.3f} s  {rate:9.0f} lines/s  {seconds / lines * 1e6:9.2f} us/line  {most_memory(script):6.1f} MiB"
    )
    return seconds


def measure_lengths(scripts):
    """Prints what scripts of growing length take, each a list of lines by its length, and how the time of a line grows."""
    each = {length: measure(str(length), text_of(lines), len(lines)) / len(lines) for length, lines in scripts}
    first, *_, last = each
    print(f"time of a line at {last} lines over that at {first}: {each[last] / each[first]:.2f}")
