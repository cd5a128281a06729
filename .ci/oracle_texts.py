"""How fids, names, contents and refusals are printed, and the words of a line."""

import re

NUMBERS = {
    "not-found": 3, "not-dir": 4, "log-full": 5, "nothing": 6, "young": 7, "frozen": 8, "not-frozen": 9,
    "wrong-number": 10, "journal-full": 13, "foreign": 14, "cache-full": 15, "exists": 18, "is-dir": 19,
    "not-empty": 20, "loop": 21, "miss": 22, "down": 23, "too-big": 25, "no-message": 30, "link-down": 31,
    "no-such-actor": 32, "already-there": 33, "cell-full": 40, "disk-fault": 41, "not-file": 44,
}


class Refused(Exception):
    """A line can't be carried out: the name of the refusal, and what it names."""

    def __init__(self, name, *named):
        super().__init__(name)
        self.text = " ".join(["refused", str(NUMBERS[name]), name, *map(str, named)])


def fid_text(fid):
    return "%d.%d.%d" % fid


def found_text(fid):
    return fid_text(fid) if fid else "-"


def sid_text(sid):
    return "%d.%d" % sid


def quoted(data):
    out = '"'
    for byte in data:
        if byte in b'"\\':
            out += "\\" + chr(byte)
        else:
            out += chr(byte) if 32 <= byte <= 126 else "\\x%02x" % byte
    return out + '"'


def printed(data):
    plain = data and all(33 <= byte <= 126 and byte not in b'"\\' for byte in data)
    return data.decode("ascii") if plain else quoted(data)


def content_text(data):
    return quoted(data) if len(data) <= 64 else quoted(data[:64]) + ".."


WORD = re.compile(rb'"((?:[^"\\]|\\.)*)"|([^ \t"]+)')
ESCAPE = re.compile(rb"\\(x..|.)", re.S)


def unescaped(match):
    escape = match.group(1)
    if escape[:1] == b"x" and len(escape) == 3:
        return bytes([int(escape[1:], 16)])
    return b"\n" if escape == b"n" else escape


def words_of(line):
    """The words of a good line; a quoted one as the bytes that it stands for."""
    return [ESCAPE.sub(unescaped, quoted) if bare is None else bare for quoted, bare in (m.groups() for m in WORD.finditer(line))]
