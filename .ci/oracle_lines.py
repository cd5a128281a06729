"""Lines: the first thing that is wrong in one, and lines that are drawn and then broken.

A line is read from the left against all forms at once: those that the words so far fit are kept, and the first word that fits
none of them is wrong. As what it is wrong is said by what might have stood there.
"""

import random
import re

# A fixed word stands as it is, or as one of several; a range stands for a number in it, and words in capitals are in RANGES or
# KIND_OF. `S..` is one server or more, each greater than the one before it, and `S,S..` two or more. What stands in brackets may
# be left out; behind + not all of it.
FORMS = """
volume V on S.. [area 1-64]
client C cache 1-32768 [area 1-64]
link C S strong|weak|down
tick 0-1000000000
mkdir|create C V P [mode MODE] [owner 0-4294967295]
symlink C V P TEXT
store C V P text CONTENT
store C V P fill 0-2000000 0-255
setattr C V P + [mode MODE] [owner 0-4294967295] [mtime ANY]
remove|rmdir|read|list C V P
rename|hardlink C V P P
hoard add C V P 1-1000 [children|descendants]
hoard remove C V P
hoard clear|list C
walk|giveup C V
send|drain C V S [window ANY]
deliver|lose ANY
trim ANY ANY
breaks|clone S V
refresh C V S
crash|arm client C ANY
crash|arm replica S V ANY
recover client C
recover replica S V
resolve V S,S..
repair V S P
show volume S V
show log|state C V
acl S V P 0-255 RIGHTS RIGHTS
peek S V ANY P
unclone S V ANY
asr V SUFFIX longer|union
heal V P
at 1-8 LINE
""".strip().split("\n")

RANGES = {"C": "1-255", "V": "1-4294967295", "S": "1-8", "ANY": "0-18446744073709551615"}
# What may stand behind `at`.
OF_THREADS = b"create mkdir symlink store setattr remove rmdir rename hardlink read list drain refresh giveup".split()
KIND_OF = {"MODE": "number", "P": "path", "SUFFIX": "path", "TEXT": "text", "CONTENT": "text", "RIGHTS": "word"}

BARE = re.compile(rb"[\x21\x23-\x7e\x80-\xff]+(?=[ \t]|\Z)")
QUOTED = re.compile(rb'"((?:[\x20\x21\x23-\x5b\x5d-\x7e\x80-\xff]|\\["\\n]|\\x[0-9a-fA-F]{2})*)"(?=[ \t]|\Z)')
BLANKS = re.compile(rb"[ \t]*")
SILENT = re.compile(rb"[ \t]*(#|\Z)")
ESCAPE = re.compile(rb"\\(?:x(..)|(.))")


# ---- words

class Word:
    """A word of a line as it stands there, whether it is quoted, and what it stands for."""

    def __init__(self, text):
        self.text, self.quoted = text, text.startswith(b'"')
        self.value = ESCAPE.sub(unescaped, text[1:-1]) if self.quoted else text

    def is_number(self, low, high):
        return not self.quoted and re.fullmatch(rb"[0-9]{1,20}", self.value) is not None and low <= int(self.value) <= high

    def is_path(self):
        before, *names = self.value.split(b"/")
        return len(self.value) <= 1024 and before == b"" and (self.value == b"/" or names != [] and all(map(is_name, names)))

    def fits(self, slot):
        """Whether it may stand in a slot of a form."""
        if slot in ("P", "SUFFIX"):
            return self.is_path() if slot == "P" else is_name(self.value)
        if slot in ("TEXT", "CONTENT"):
            return self.quoted and (slot == "CONTENT" or 1 <= len(self.value) <= 1024)
        if slot == "MODE":
            return not self.quoted and re.fullmatch(rb"[0-7]{1,5}", self.value) is not None and int(self.value, 8) <= 0o7777
        if slot == "RIGHTS":
            return not self.quoted and re.fullmatch(rb"-|(?=.)r?l?i?d?w?", self.value) is not None
        if slot in RANGES or slot[0].isdigit():
            return self.is_number(*map(int, RANGES.get(slot, slot).split("-")))
        return not self.quoted and self.value.decode("latin1") in slot.split("|")


def unescaped(escape):
    digits, letter = escape.groups()
    return bytes([int(digits, 16)]) if digits else b"\n" if letter == b"n" else letter


def is_name(name):
    return 1 <= len(name) <= 255 and b"/" not in name and b"\0" not in name and name not in (b".", b"..")


# ---- forms

class Servers:
    """A list of servers, of which the last one is known, and how many more there must be."""

    def __init__(self, needed, last=0):
        self.needed, self.last = needed, last


class Options:
    """Parts that may follow, in their order, and whether one of them must."""

    def __init__(self, parts, needed=False):
        self.parts, self.needed = parts, needed


def parts_of(form):
    """The parts of a form: slots, lists of servers, and options at the end."""
    parts, options, needed = [], [], False
    for text in re.findall(r"\[[^]]*\]|\S+", form):
        if text.startswith("["):
            options.append(text[1:-1].split())
        elif text == "+":
            needed = True
        else:
            parts.append({"S..": Servers(1), "S,S..": Servers(2)}.get(text, text))
    return parts + ([Options(options, needed)] if options else [])


WAYS = [parts_of(form) for form in FORMS]


def ways_behind(parts, word):
    """The parts that may follow a word which stands in front of these parts; none where it may not stand there."""
    if not parts:
        return []
    part, rest = parts[0], parts[1:]
    if isinstance(part, Servers):
        further = [[Servers(max(part.needed - 1, 0), int(word.value)), *rest]] if word.is_number(part.last + 1, 8) else []
        return further + (ways_behind(rest, word) if part.needed == 0 else [])
    if isinstance(part, Options):
        return [[*slots, Options(part.parts[place:])] for place, (name, *slots) in enumerate(part.parts, 1) if word.fits(name)]
    if part == "LINE":
        return [way for line in WAYS for way in ways_behind(line, word)]
    return [rest] if word.fits(part) else []


def may_end(parts):
    return all(not isinstance(part, str) and not part.needed for part in parts)


def kind_of(parts, word):
    """As what a word is wrong in front of these parts."""
    part = parts[0] if parts else Options([])
    if isinstance(part, Servers):
        return "word" if part.needed == 0 and parts[1:] and not word.text[:1].isdigit() else "number"
    if isinstance(part, Options):
        return "word" if part.parts else "count"
    return "number" if part in RANGES or part[0].isdigit() else KIND_OF.get(part, "word")


def first_wrong(line):
    """The column and the kind of the first thing that is wrong in a line, or none; a blank line and a comment say nothing."""
    at, ways, words = 0, WAYS, []
    if SILENT.match(line):
        return None
    while (at := BLANKS.match(line, at).end()) < len(line):
        found = BARE.match(line, at) or QUOTED.match(line, at)
        if not found:
            return at + 1, "text"
        words.append(Word(found[0]))
        behind = [way for parts in ways for way in ways_behind(parts, words[-1])]
        if not behind:
            return at + 1, kind_of(ways[0], words[-1])
        at, ways = found.end(), behind
    if not any(map(may_end, ways)):
        return at + 1, "count"
    return (1, "mode") if words[0].text == b"at" and words[2].text not in OF_THREADS else None


# ---- lines that are drawn

ODD = (
    *(b"%d" % number for number in (0, 1, 8, 9, 64, 65, 255, 256, 32769, 2**32 - 1, 2**32, 2**64 - 1, 2**64, 7777, 10000)),
    b"", b"x", b"-1", b"+1", b"1x", b"08", b"0644", b"7".zfill(20), b"7".zfill(21),
    b"/", b"//", b"/a/", b"/a/../b", b"/.", b"/...", b"a", b"/" + b"n" * 255, b"/" + b"n" * 256, b"/a" * 512, b"/a" * 512 + b"b", b'"/a b"', b'"/\\x2e"', b'"/\\x00"', b'""', b'"', b'"a',
    b'"a"b', b'a"b"', b'"\\q"', b'"\\x4"', b'"\\x41\\n\\""', b'"%s"' % (b"t" * 1024), b'"%s"' % (b"t" * 1025),
    b"#", b"\x7f", b"\x01", b"\r", b"\xff", b"-", b"rl", b"lr", b"rr", b"rlidw",
    *b"mode owner mtime area window children fill text strong log on union client".split(),
)


def word_for(draw, slot):
    if slot in ("P", "SUFFIX"):
        return draw.choice((b"/", b"/a/b", b'"/a b"', b"/\xff") if slot == "P" else (b"c", b'".c"'))
    if slot in KIND_OF:
        words = {"MODE": (b"0", b"644", b"7777"), "RIGHTS": (b"-", b"r", b"ld", b"rlidw")}
        return draw.choice(words.get(slot, (b'"a"', b'"\\x00\\n"')))
    if slot in RANGES or slot[0].isdigit():
        low, high = map(int, RANGES.get(slot, slot).split("-"))
        return b"%d" % draw.choice((low, high, draw.randint(low, high), min(high, 7)))
    return draw.choice(slot.split("|")).encode()


def words_for(draw, parts):
    """The words of a line of these parts."""
    words = []
    for part in parts:
        if isinstance(part, Servers):
            words += [b"%d" % server for server in sorted(draw.sample(range(1, 9), part.needed + draw.randrange(3)))]
        elif isinstance(part, Options):
            kept = sorted(draw.sample(range(len(part.parts)), draw.randint(part.needed, len(part.parts))))
            words += [word_for(draw, slot) for place in kept for slot in part.parts[place]]
        elif part == "LINE":
            words += words_for(draw, draw.choice(WAYS[:-1]))
        else:
            words.append(word_for(draw, part))
    return words


def drawn_line(draw):
    """A line of a form, in which up to two things are changed."""
    words = words_for(draw, draw.choice(WAYS))
    for _ in range(draw.randrange(3)):
        place, change = draw.randrange(len(words) + 1), draw.randrange(4)
        if change == 0:
            words.insert(place, draw.choice(ODD))
        elif change == 1 and place < len(words):
            words[place] = draw.choice(ODD)
        elif change == 2:
            del words[place : place + 1]
        else:
            words[place : place + 1] = [word[:-1] if draw.randrange(2) else word.swapcase() for word in words[place : place + 1]]
    blanks = [draw.choice((b" ", b" ", b" ", b"  ", b"\t")) for _ in words] or [b""]
    blanks[0] = draw.choice((b"", b"", b" "))
    return b"".join(blank + word for blank, word in zip(blanks, words)) + draw.choice((b"", b"", b" "))


def drawn_lines(seed, count):
    draw = random.Random(seed)
    return [drawn_line(draw) for _ in range(count)]
