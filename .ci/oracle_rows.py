"""The worked rows of crates/coda_rows: what a second reading of the rules says of their scripts and lines. And worked
scripts under the rule of caches."""

import glob
import itertools
import os
import re
import sys

from oracle_cell import report_of, runs_of
from oracle_lines import first_wrong

AGAIN = b"# again\n"
# The first lines of a run that say what it needs or how it ends; all others are comments.
SAYS = re.compile(rb"# (status|words|pieces|source|sink|bay|disk|images)\b")
IS_FOLLOWED = re.compile(rb"# (pieces of \d+ bytes|status 3: line \d+ column \d+: \w+)")
# What ends a run at a place that isn't told here: of its report that alone is written which came before.
IS_CUT_OFF = re.compile(rb"# (?:sink takes (\d+) bytes|(?:source|sink|bay) fails at call \d+|status [456]: .*)")
ENDS = re.compile(rb"# status 3: line (\d+) column (\d+): (\w+)")
MOST_BYTES = 200_000


def written_out(match):
    """A repetition of a worked script, as crates/coda_rows has them: {3 ab}, or {8..10 a%,} with each number."""
    first, last, part = match.groups()
    numbers = range(1, int(first) + 1) if last is None else range(int(first), int(last) + 1)
    return b"".join(part.replace(b"%", b"%d" % number) for number in numbers)


def read_row(path):
    with open(path, "rb") as file:
        return re.sub(rb"\{(\d+)(?:\.\.(\d+))? ([^}]*)\}", written_out, file.read())


def said_of(run):
    """What the first lines of a run say of it."""
    for line in run.split(b"\n"):
        if not line.startswith(b"# "):
            return
        if SAYS.match(line):
            yield line


def is_read(script):
    """Whether a worked script is read here: it isn't very large and needs nothing of disks, and no run follows one that is cut off."""
    said = [line for run in runs_of(script) for line in said_of(run) if not IS_FOLLOWED.fullmatch(line)]
    return len(script) < MOST_BYTES and all(map(IS_CUT_OFF.fullmatch, said)) and (said == [] or len(runs_of(script)) == 1)


def cut(run):
    """A run up to the line at which it ends, where its first lines say one; and whether that line is wrong there, and as that."""
    ends, lines = next(filter(None, map(ENDS.match, said_of(run))), None), run.split(b"\n")
    if ends is None:
        # (a line behind the place at which a run is cut off may be wrong)
        right = itertools.takewhile(lambda line: first_wrong(line.removesuffix(b"\r")) is None, lines)
        return b"\n".join(right) if any(map(IS_CUT_OFF.fullmatch, said_of(run))) else run, True
    number, column, kind = int(ends[1]), int(ends[2]), ends[3].decode()
    line = lines[number - 1].removesuffix(b"\r") if number < len(lines) else lines[number - 1]
    # (a line of the grammar that isn't built ends a run at its first column)
    found = first_wrong(line) or (1, "mode")
    return b"".join(before + b"\n" for before in lines[: number - 1]), found == (column, kind)


def is_as_said(path, script):
    """Whether the report that stands beside a script is the one of its runs, and these end where it says."""
    runs, report = [cut(run) for run in runs_of(script)], read_row(path.removesuffix("coda") + "report")
    cuts = [found for run, _ in runs for found in map(IS_CUT_OFF.fullmatch, said_of(run)) if found]
    whole = report_of(AGAIN.join(run for run, _ in runs))
    most = [int(found[1]) for found in cuts if found[1]]
    is_written = whole[: most[0]] == report if most else whole.startswith(report) if cuts else whole == report
    return all(ends for _, ends in runs) and is_written


def are_lines_as_said(path):
    """Whether each worked line of a file is wrong where the line below it says, or not at all."""
    lines = read_row(path).removesuffix(b"\n").split(b"\n")
    for line, told in zip(lines[::2], lines[1::2]):
        wrong = re.fullmatch(rb"(\d+) ([a-z]+)", told)
        if first_wrong(line) != (wrong and (int(wrong[1]), wrong[2].decode())):
            return False
    return True


def are_named(crate):
    """Whether the gate runs each row of the folder: the program is given all files but reports, in the order of their names."""
    rows = sorted(name for name in os.listdir(os.path.join(crate, "data")) if not name.endswith(".report"))
    with open(os.path.join(crate, "args"), encoding="ascii") as file:
        return file.read().split() == rows


def compare_rows(crate):
    """Whether each worked script has its report, each worked line is wrong where it says, and each row is run."""
    if not are_named(crate):
        print("crates/coda_rows/args doesn't name each row of crates/coda_rows/data, in their order", file=sys.stderr)
        return False
    scripts = {path: read_row(path) for path in sorted(glob.glob(os.path.join(crate, "data", "*.coda")))}
    read = [path for path, script in scripts.items() if is_read(script)]
    lines = sorted(glob.glob(os.path.join(crate, "data", "*.lines")))
    other = [path for path in read if not is_as_said(path, scripts[path])]
    other += [path for path in lines if not are_lines_as_said(path)]
    for path in other:
        print(f"{os.path.basename(path)}: the report, or what is wrong, is another", file=sys.stderr)
    if not other:
        print(f"{len(read)} worked scripts of {len(scripts)}, {len(lines)} files of lines: as a second reading of the rules says")
    return not other


def compare_caches(place):
    """Whether each worked script of a folder, written as the rows are, has its report under the rule of caches, in memory
    and on files."""
    rows = {path: read_row(path) for path in sorted(glob.glob(os.path.join(place, "*.coda")))}
    other = [path for path, row in rows.items() for in_files in (False, True)
             if report_of(row, in_files, caches=True) != read_row(path.removesuffix("coda") + "out")]
    for path in other:
        print(f"{os.path.basename(path)}: the report is another", file=sys.stderr)
    if not other:
        print(f"{len(rows)} worked scripts of caches: as a second reading of the rules says")
    return not other
