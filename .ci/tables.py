"""Reads the tables that definitions are."""

import re


def right_sides(text):
    """The name, the parameters and the right side of each definition of a file."""
    for block in re.split(r"\n\s*\n", text):
        lines = [line for line in block.split("\n") if not line.startswith(("--", "use ", "abbrev", "unfoldable"))]
        head = re.match(r"(\w+)((?: \w+)*) =(.*)", "\n".join(lines), re.S)
        if head:
            yield head.group(1), head.group(2).split(), head.group(3)
