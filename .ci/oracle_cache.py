"""The rule of caches: what a client serves of what it has cached, and what goes where there is no room.

A client's entries say what is cached, and under which parent. Which copies are valid, and what was used when, is kept
beside them and is gone after a crash: no copy is valid then, and the least fid was used least recently.
"""

from oracle_actors import Client
from oracle_log import mentioned
from oracle_texts import Refused


def blocks(node):
    """How many blocks of a cache an object takes."""
    if node.kind == "file":
        return 1 + (len(node.body) + 1023) // 1024
    return 1 + len(node.body) // 32 if node.kind == "dir" else 1


def sizes_of(nodes):
    return {fid: blocks(node) for fid, node in nodes.items()}


def mentioned_by(records):
    return {fid for _, _, operation in records for fid in mentioned(operation)}


def going(size, stays, parents, sizes, recency):
    """Who goes until the rest fits: one after the other, each the least recently used of those that need not stay and
    are no parents of what is left. So a directory may go behind the last that was cached below it."""
    gone, left = [], dict(sizes)
    while sum(left.values()) > size:
        above = {parents[fid] for fid in left}
        gone.append(next(fid for fid in recency if fid in left and fid not in stays and fid not in above))
        del left[gone[-1]]
    return tuple(gone)


class CachingClient(Client):
    """A client whose cache has a size in blocks, with the copies that are valid and when each object was used last."""

    def __init__(self, number, size):
        super().__init__(number, size)
        self.valid, self.uses, self.used = set(), 0, {}

    def is_served(self, fid, is_emulating):
        return fid in self.nodes and (is_emulating or fid in self.valid or self.is_dirty(fid))

    def likely_parent(self, fid):
        """Its own parent where it is cached, which it keeps."""
        return self.parents[fid] if fid in self.nodes else super().likely_parent(fid)

    def use(self, fid):
        """An object is looked up, fetched or created."""
        self.uses += 1
        self.used[fid] = self.uses

    def recency(self):
        """What is cached, the least recently used first."""
        return sorted(self.nodes, key=lambda fid: (self.used.get(fid, 0), fid))

    def came_from_server(self, fid):
        """A copy is valid that was fetched just now."""
        self.valid.add(fid)
        self.use(fid)

    def cut_off(self, volume):
        """What the server of a volume gave isn't valid any more."""
        self.valid = {fid for fid in self.valid if fid[0] != volume}

    def settled(self, volume, applied):
        """Copies that an applied chunk mentions aren't valid any more."""
        if applied:
            self.valid -= mentioned_by(self.log(volume).front.records)
        super().settled(volume, applied)

    # ---- room

    def pinned(self):
        """What is dirty, and what is above it."""
        return self.with_ancestors(mentioned_by(record for log in self.logs.values() for record in log.records()))

    def with_ancestors(self, fids):
        """Those of these objects that are cached, and what they are cached below."""
        return {above for fid in fids if fid in self.nodes for above in self.above(fid)}

    def room_for(self, fid, parent, node, kept):
        """What goes where an object is fetched, beside those that the line fetched before. There is no room where what
        is pinned, and what has to stay besides, don't fit: an object that is pinned counts by how much it grew."""
        stays, pinned = self.with_ancestors([*kept, parent]) | {fid}, self.pinned()
        sizes = sizes_of(self.nodes)
        more = blocks(node) - (sizes[fid] if fid in pinned else 0)
        others = sum(sizes[other] for other in stays - pinned - {fid})
        self.refuse_unless_fit(sum(map(sizes.get, pinned)), max(more, 0) + others)
        sizes[fid] = blocks(node)
        return going(self.size, stays | pinned, self.parents | {fid: parent}, sizes, self.recency())

    def room_after(self, volume, record, looked_up):
        """What goes where an operation is made, which keeps what it looked up and what was above that. There is no
        room where that and what is pinned after it don't fit."""
        stays, after = self.with_ancestors(looked_up), self.after(volume, record)
        pinned, sizes = after.pinned(), sizes_of(after.nodes)
        others = sum(sizes[fid] for fid in stays - pinned if fid in sizes)
        self.refuse_unless_fit(sum(map(sizes.get, pinned)), others)
        return going(self.size, stays | pinned, after.parents, sizes, self.recency())

    def refuse_unless_fit(self, pinned, needed):
        if pinned + needed > self.size:
            raise Refused("cache-full", pinned, needed, self.size)

    def after(self, volume, record):
        """The client once an operation is made, before anything goes for it."""
        other = CachingClient(self.number, self.size)
        other.nodes, other.parents = {fid: node.copy() for fid, node in self.nodes.items()}, dict(self.parents)
        other.logs = self.logs | {volume: self.log(volume).copy()}
        other.done(volume, record)
        return other
