"""A client's log of a volume, computed anew from the operations that no chunk applied.

An operation is (kind, fields..) and a record (number, time, operation). What is left of operations, which of them are sent together
and what a chunk takes are computed here as the rules say them, and nothing is kept but the operations and what each of them drops.
"""

from oracle_texts import content_text, fid_text, printed, sid_text

CREATIONS = ("create", "mkdir", "symlink")
MOST_RECORDS, MOST_WEIGHT, MOST_SENT = 4096, 16777216, 64


# ---- what an operation is about

def created(operation):
    return operation[3] if operation[0] in CREATIONS else None


def mentioned(operation):
    """The fids that an operation mentions."""
    kind, fields = operation[0], operation[1:]
    if kind in CREATIONS or kind in ("remove", "rmdir"):
        return {fields[0], fields[2]}
    if kind in ("store", "setattr"):
        return {fields[0]}
    from_dir, _, to_dir, _, fid, over = fields
    return {from_dir, to_dir, fid} | ({over[0]} if over else set())


def version_seen(operation):
    """The object of which an operation says which version the client had, and that version; or None."""
    kind, fields = operation[0], operation[1:]
    if kind in ("store", "setattr"):
        return fields[0], fields[1]
    if kind in ("remove", "rmdir"):
        return fields[2], fields[3]
    return fields[5] if kind == "rename" else None


def with_version(operation, pre):
    """The operation with another version of the object that it changes, removes or replaces."""
    if operation[0] in ("store", "setattr"):
        return operation[:2] + (pre,) + operation[3:]
    if operation[0] in ("remove", "rmdir"):
        return operation[:4] + (pre,)
    return operation[:6] + ((operation[6][0], pre),)


def weight(operation):
    """64, and the bytes of its names, target and content."""
    kind = operation[0]
    if kind == "store":
        return 64 + len(operation[3])
    if kind == "rename":
        return 64 + len(operation[2]) + len(operation[4])
    name = 0 if kind == "setattr" else len(operation[2])
    return 64 + name + (len(operation[6]) if kind == "symlink" else 0)


# ---- cancellation

def writes(record, fid):
    return record[2][0] in ("store", "setattr") and record[2][1] == fid


def sets_no_more(old, new):
    """Whether each attribute that the older operation sets is set by the newer one."""
    return all(part is None or by is not None for part, by in zip(old, new))


def overridden(records, operation):
    """The records that an operation makes needless, but for a creation."""
    kind = operation[0]
    if kind == "store":
        return [r for r in records if r[2][0] == "store" and r[2][1] == operation[1]]
    if kind == "setattr":
        return [r for r in records if r[2][0] == "setattr" and r[2][1] == operation[1] and sets_no_more(r[2][3], operation[3])]
    gone = operation[3] if kind in ("remove", "rmdir") else operation[6][0] if kind == "rename" and operation[6] else None
    return [] if gone is None else [r for r in records if writes(r, gone)]


def add(records, record):
    """The records that are left with one operation more, and the numbers of those that it drops."""
    operation = record[2]
    dropped, stays = overridden(records, operation), True
    if operation[0] in ("remove", "rmdir"):
        of_it = [r for r in records if r not in dropped and operation[3] in mentioned(r[2])]
        if len(of_it) == 1 and created(of_it[0][2]) == operation[3]:
            dropped, stays = sorted(dropped + of_it, key=lambda r: r[0]), False
    if not dropped:
        return records + [record], []
    numbers = [r[0] for r in dropped]
    every = records + [record]
    for number in numbers:
        every = hand_on(every, number)
    return [r for r in every if r[0] not in numbers and (stays or r[0] != record[0])], numbers


def hand_on(records, number):
    """The next record that has a version of the dropped record's object takes the one of the dropped record."""
    at = next(index for index, r in enumerate(records) if r[0] == number)
    seen = version_seen(records[at][2])
    if seen is None:
        return records
    for index in range(at + 1, len(records)):
        later, time, operation = records[index]
        found = version_seen(operation)
        if found and found[0] == seen[0]:
            return records[:index] + [(later, time, with_version(operation, seen[1]))] + records[index + 1:]
    return records


# ---- the log

class Run:
    """Operations in turn, what is left of them, and what each of them dropped."""

    def __init__(self, pending=()):
        self.forget(pending)

    def forget(self, pending):
        """Only these operations are left to be sent."""
        self.pending, self.records, self.drops = [], [], []
        for record in pending:
            self.take(record, *add(self.records, record))

    def copy(self):
        other = Run()
        other.pending, other.records, other.drops = list(self.pending), list(self.records), list(self.drops)
        return other

    def take(self, record, records, dropped):
        self.pending.append(record)
        self.records = records
        self.drops += [(number, record[0]) for number in dropped]

    def segments(self):
        """The segments of the operations, each as its operations and the records that are left of them.

        Two operations in turn are of one segment exactly where an operation behind both dropped the first of them or one before it.
        """
        joined = {number for first, last in self.drops for number in range(first, last)}
        left = {record[0]: record for record in self.records}
        segments = []
        for record in self.pending:
            if not segments or record[0] - 1 not in joined:
                segments.append(([], []))
            segments[-1][0].append(record)
            segments[-1][1].extend([left[record[0]]] if record[0] in left else [])
        return segments

    def chunk(self, clock, window):
        """The operations that a chunk would take, or why there is none: ("nothing",) or ("young", age, window)."""
        segments = self.segments()
        ages = [clock - min(clock, max(record[1] for record in of)) for of, _ in segments]
        filled = next((index for index, (_, left) in enumerate(segments) if left), None)
        if filled is None:
            return None, ("nothing",)
        if ages[filled] < window:
            return None, ("young", ages[filled], window)
        taken, sent = 0, 0
        for (_, left), age in zip(segments, ages):
            if (left and age < window) or sent + len(left) > MOST_SENT:
                break
            taken, sent = taken + 1, sent + len(left)
        return [record for of, _ in segments[:max(taken, filled + 1)] for record in of], None

    def lines(self, word):
        """The segments, each under its first and last operation and this word."""
        lines = []
        for of, left in self.segments():
            lines.append(f"segment {of[0][0]} {of[-1][0]} {word}")
            lines += [f"{number} {operation_text(operation)}" for number, _, operation in left]
        return lines


class Log:
    """What a client did on a volume: its counts, the operations that aren't applied yet, those in front frozen as a chunk where one is, for
    a server."""

    def __init__(self):
        self.operations, self.creations, self.chunks = 0, 0, 0
        self.front, self.home, self.rest = None, None, Run()

    def copy(self):
        other = Log()
        other.operations, other.creations, other.chunks = self.operations, self.creations, self.chunks
        other.front, other.home, other.rest = self.front and self.front.copy(), self.home, self.rest.copy()
        return other

    def records(self):
        return (self.front.records if self.front else []) + self.rest.records

    def has_room(self, record):
        """Whether the log has room for an operation."""
        every = (self.front.records if self.front else []) + add(self.rest.records, record)[0]
        return len(every) <= MOST_RECORDS and sum(weight(r[2]) for r in every) <= MOST_WEIGHT

    def append(self, record):
        """Adds an operation."""
        self.operations += 1
        self.creations += created(record[2]) is not None
        self.rest.take(record, *add(self.rest.records, record))

    def next_chunk(self, home, clock, window):
        """How many operations a chunk for a server takes, or with nothing where one is frozen for it; and why there is none, or nothing."""
        if self.front:
            return None, None if self.home == home else ("frozen", self.chunks, self.home)
        span, why = self.rest.chunk(clock, window)
        return (None, why) if why else (len(span), None)

    def freeze(self, home, count):
        """Freezes so many operations for a server."""
        span = self.rest.pending[:count]
        self.chunks += 1
        self.front, self.home, self.rest = Run(span), home, Run(self.rest.pending[count:])

    def unsettled(self, number):
        """Why an answer to a chunk isn't taken, or nothing."""
        if not self.front:
            return ("not-frozen", number)
        return None if self.chunks == number else ("wrong-number", self.chunks, number)

    def settle(self, applied):
        """Takes a verdict on the frozen chunk."""
        rest = self.rest if applied else Run(self.front.pending + self.rest.pending)
        self.front, self.home, self.rest = None, None, rest

    def is_empty(self):
        return not self.rest.records and not (self.front and self.front.records)

    def text(self):
        chunk = self.chunks if self.front else "-"
        frozen = self.front.lines("frozen") if self.front else []
        return "\n".join([f"log records {len(self.records())} chunk {chunk}"] + frozen + self.rest.lines("open"))


# ---- how it is shown

def operation_text(operation):
    kind, fields = operation[0], operation[1:]
    if kind in CREATIONS:
        directory, name, fid, mode, owner, target = fields
        text = f"{fid_text(directory)} {printed(name)} {fid_text(fid)} {mode:04o} {owner}"
        return f"{kind} {text}" + (f" {content_text(target)}" if kind == "symlink" else "")
    if kind == "store":
        fid, pre, content = fields
        return f"store {fid_text(fid)} pre {sid_text(pre)} {len(content)} {content_text(content)}"
    if kind == "setattr":
        fid, pre, (mode, owner, mtime) = fields
        parts = [] if mode is None else [f"mode {mode:04o}"]
        parts += [f"{word} {value}" for word, value in (("owner", owner), ("mtime", mtime)) if value is not None]
        return " ".join(["setattr", fid_text(fid), "pre", sid_text(pre)] + parts)
    if kind in ("remove", "rmdir"):
        directory, name, fid, pre = fields
        return f"{kind} {fid_text(directory)} {printed(name)} {fid_text(fid)} pre {sid_text(pre)}"
    from_dir, old, to_dir, new, fid, over = fields
    text = f"rename {fid_text(from_dir)} {printed(old)} {fid_text(to_dir)} {printed(new)} {fid_text(fid)}"
    return text + (f" over {fid_text(over[0])} pre {sid_text(over[1])}" if over else "")


# ---- how many bytes it has where it is sent

def option_length(value, length):
    return 1 + (length if value is not None else 0)


def operation_length(operation):
    """A tag, and the fields: a fid has 12 bytes and a version 9, a name its length in one byte before it and a content in four."""
    kind, fields = operation[0], operation[1:]
    if kind in CREATIONS:
        return 1 + 12 + 1 + len(fields[1]) + 12 + (4 + len(fields[5]) if kind == "symlink" else 0) + 2 + 4
    if kind == "store":
        return 1 + 12 + 9 + 4 + len(fields[2])
    if kind == "setattr":
        return 1 + 12 + 9 + 1 + sum(size for value, size in zip(fields[2], (2, 4, 8)) if value is not None)
    if kind in ("remove", "rmdir"):
        return 1 + 12 + 1 + len(fields[1]) + 12 + 9
    return 1 + 12 + 1 + len(fields[1]) + 12 + 1 + len(fields[3]) + 12 + option_length(fields[5] or None, 12 + 9)


def records_length(records):
    """A count, and each record with its number and time."""
    return 4 + sum(8 + 8 + operation_length(operation) for _, _, operation in records)


def chunk_length(records):
    """Two bytes, the ends, the volume and the number, and then the records."""
    return 2 + 2 + 4 + 8 + records_length(records)
