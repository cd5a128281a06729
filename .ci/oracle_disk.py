"""Disks: what their calls leave, what a crash leaves of a call that failed, and the actors that are what their entries make of them.

An actor's disk has a header of 64 bytes, and behind it an area: entries, each of which has a gate, its length in four bytes and
its payload, and then a closed gate. An entry is appended by four calls of the disk: all but its gate, behind the gate that closes
the area; a sync; the gate; a sync. So of an entry whose append failed a crash can leave nothing but the gate. Here a disk is the
list of its entries with their lengths, and the bytes of payloads are counted alone.
"""

from oracle_log import operation_length, records_length
from oracle_texts import Refused

HEADER, MEBIBYTE = 64, 2**20
CLIENT, REPLICA = 1, 2


def header(kind, number, server, group, area, cache):
    """The header of an actor's disk, with the MiB of its area and the blocks of its cache."""
    actor = bytes([kind]) + number.to_bytes(4, "big") + bytes([server, group, 0, 0])
    return (b"\1\0CODAJRNL\1" + actor + area.to_bytes(4, "big") + cache.to_bytes(4, "big")).ljust(HEADER, b"\0")


class Disk:
    """A disk: its header, if it has one; its entries; how many calls of it still pass, where it is armed; and the entry whose append
    failed while its gate was written (WRITING), or while that was synced (SYNCING)."""

    WRITING, SYNCING = 2, 3

    def __init__(self):
        self.header, self.entries, self.used, self.passes, self.stopped = None, [], 0, None, None

    def append(self, entry, length):
        """Appends an entry; whether all four calls passed."""
        passed = 4 if self.passes is None else min(self.passes, 4)
        if self.passes is not None:
            self.passes -= passed
        if passed == 4:
            self.put(entry, length)
        elif passed >= self.WRITING:
            self.stopped = (passed, entry, length)
        return passed == 4

    def put(self, entry, length):
        self.entries.append(entry)
        self.used += 5 + length

    def crash(self, choice):
        """What was written since the last sync is lost (0), there (1), or has other bytes, each of them the choice and its offset."""
        gate = choice if choice < 2 else (choice + HEADER + self.used) % 256
        self.rest(gate == 1)

    def rest(self, there):
        """It isn't armed any more, and the entry whose append failed is there or is not."""
        stopped, self.stopped, self.passes = self.stopped, None, None
        if stopped and there:
            self.put(*stopped[1:])

    def reopen(self):
        """It is as a read gives it: what was written is there, and what a call refused to write is not."""
        self.rest(self.stopped is not None and self.stopped[0] == self.SYNCING)

    def mount(self, asked):
        """Mounts it under a header, which it is given where it has none."""
        if self.header is None:
            self.header = asked
        for at, (byte, wanted) in enumerate(zip(self.header, asked)):
            if byte != wanted:
                raise Refused("foreign", at)


class Actor:
    """A client or a replica on its disk: what it has is what its entries make of a new one."""

    def __init__(self, disk, asked, new):
        self.disk, self.header, self.new, self.has = disk, asked, new, None

    def mount(self):
        """Reads its disk; answers how many entries there are."""
        self.has = None
        if self.disk.passes == 0:
            raise Refused("disk-fault")
        self.disk.mount(self.header)
        self.has = self.new()
        for entry in self.disk.entries:
            self.take(entry)
        return len(self.disk.entries)

    def take(self, entry):
        getattr(self.has, entry[0])(*entry[1:])

    def append(self, entry, length):
        """Has an entry on the disk, and then what that makes of the actor."""
        area = int.from_bytes(self.header[20:24], "big") * MEBIBYTE
        if self.disk.used + 5 + length + 1 > area:
            raise Refused("journal-full")
        if not self.disk.append(entry, length):
            self.has = None
            raise Refused("disk-fault")
        self.take(entry)

    def up(self):
        """What it has, where it is up."""
        if self.has is None:
            raise Refused("down")
        return self.has


# ---- how many bytes an entry's payload has

FID, SID = 12, 9
LISTED, OF_VOLUME = 4 + 1, 4


def node_length(node):
    if node.kind == "dir":
        body = 4 + sum(1 + len(name) + FID for name in node.body)
    else:
        body = 4 + len(node.body)
    return 1 + 1 + 2 + 4 + 8 + SID + body


def gone_length(gone):
    """Behind the list's count, an entry for each object that goes: its tag and the fid."""
    return len(gone) * (1 + FID)


def fetched_length(parent, node, gone):
    return LISTED + gone_length(gone) + FID + 1 + (FID if parent else 0) + node_length(node)


def done_length(operation, gone):
    return LISTED + gone_length(gone) + OF_VOLUME + 8 + 8 + operation_length(operation)


def frozen_length():
    return LISTED + OF_VOLUME + 8 + 1 + 8


def reason_length(words):
    """The length of a reason, given the words of its text."""
    if words[0] in ("changed", "attr-changed"):
        return 1 + 2 * SID
    if words[0] == "name-other":
        return 1 + 1 + (FID if words[1] != "-" else 0)
    return 1 + {"not-empty": 0, "loop": 0, "volume-full": 8}.get(words[0], FID)


def verdict_length(text):
    """The length of a verdict, given its text."""
    words = text.split()
    return 1 if words == ["applied"] else 1 + 8 + reason_length(words[2:])


def settled_length(text):
    return LISTED + OF_VOLUME + 8 + verdict_length(text)


def decided_length(records, text):
    return 1 + 1 + 8 + records_length(records) + verdict_length(text)
