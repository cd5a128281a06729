"""What a second script may write in the folder of a first one that was cut off, as the second reading of the rules says."""

import copy
import subprocess

from oracle_cell import Cell

DRAIN = "drain 1 7 1 window 0"
# What cuts a drain off behind its freeze, and behind the decision.
CUTS = ("arm replica 1 7 0", "arm client 1 4")
FIRST = ("volume 7 on 1", "client 1 cache 100", "link 1 1 strong", "list 1 7 /", "mkdir 1 7 /d")
SECOND = (
    "volume 7 on 1", "client 1 cache 100", "show log 1 7", "show volume 1 7", "link 1 1 strong", "create 1 7 /behind", "drain 1 7 1",
    "drain 1 7 1 window 0", "show log 1 7", "show volume 1 7",
)


def second_report(program, folder):
    """What the program writes for the second script in this folder."""
    ran = subprocess.run([program, "run"], input="\n".join(SECOND).encode() + b"\n", capture_output=True, cwd=folder, check=False)
    return ran.stdout if ran.returncode == 0 else b"status %d" % ran.returncode


def second_of(cell, more=()):
    """What the second script writes behind what a cell did, and these lines more."""
    cell = copy.deepcopy(cell)
    for line in more:
        cell.run(line.encode())
    second = cell.next_run()
    return "".join(second.run(line.encode()) for line in SECOND).encode()


def expected_reports(lines, counts):
    """For each of these counts what the second script may write where the first was cut off behind so many lines: there, in the next line,
    or behind it."""
    cell, expected = Cell(True), {}
    for count, line in enumerate([*lines, "tick 0"]):
        if count in counts:
            cuts = [(cut, line) for cut in CUTS] if line == DRAIN else []
            expected[count] = [second_of(cell, more) for more in ((), *cuts, (line,))]
        cell.run(line.encode())
    return expected
