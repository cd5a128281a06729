"""What a client has, as its entries made it; the letters on their way; and the actors of a cell."""

from oracle_disk import CLIENT, REPLICA, Actor, Disk, header
from oracle_log import Log, mentioned
from oracle_texts import Refused
from oracle_volume import KIND_MADE, Replica, apply

MOST_VOLUMES, MOST_AREAS = 64, 512


class Client:
    """What a client holds, with the directory in which each object was found or put, and its logs by volume. Its cache
    has a size in blocks, which says nothing here."""

    def __init__(self, number, size):
        self.number, self.size, self.nodes, self.parents, self.logs = number, size, {}, {}, {}

    def log(self, volume):
        return self.logs.setdefault(volume, Log())

    def likely_parent(self, fid):
        """The least directory held that binds an object, which is its parent where it is fetched."""
        return min((at for at, held in self.nodes.items() if held.kind == "dir" and fid in held.body.values()), default=None)

    def above(self, fid):
        """An object and its ancestors."""
        while fid is not None:
            yield fid
            fid = self.parents[fid]

    def below(self, fid):
        """What is held below an object."""
        return [other for other in self.nodes if other != fid and fid in self.above(other)]

    def is_dirty(self, fid):
        return any(fid in mentioned(operation) for log in self.logs.values() for _, _, operation in log.records())

    # ---- what is held is served, and never goes for want of room; oracle_cache.py has another rule

    def is_served(self, fid, _):
        return fid in self.nodes

    def use(self, fid):
        pass

    def came_from_server(self, fid):
        pass

    def cut_off(self, volume):
        pass

    def room_for(self, *_):
        return ()

    def room_after(self, *_):
        return ()

    # ---- its entries

    def fetched(self, fid, parent, node, gone=()):
        self.drop(gone)
        self.nodes[fid], self.parents[fid] = node.copy(), parent

    def drop(self, fids):
        for fid in fids:
            del self.nodes[fid], self.parents[fid]

    def done(self, volume, record, gone=()):
        """An operation is in the log, and changes what is held."""
        self.drop(gone)
        self.log(volume).append(record)
        self.change(record)

    def change(self, record):
        """What is held changes by an operation. What goes takes all that is held below it along."""
        number, time, operation = record
        kind = operation[0]
        if kind in ("remove", "rmdir"):
            for fid in self.below(operation[3]) if kind == "rmdir" else []:
                del self.nodes[fid], self.parents[fid]
            del self.parents[operation[3]]
        elif kind == "rename":
            if operation[6]:
                del self.parents[operation[6][0]]
            self.parents[operation[5]] = operation[3]
        elif kind in KIND_MADE:
            self.parents[operation[3]] = operation[1]
        apply(self.nodes, self.number, number, time, operation)

    def frozen(self, volume, home, count):
        self.log(volume).freeze(home, count)

    def settled(self, volume, applied):
        self.log(volume).settle(applied)


class Letters:
    """What is on its way, by numbers from 1: what each letter says, and how many bytes it has."""

    def __init__(self):
        self.waiting, self.posted = {}, 0

    def post(self, said, length):
        """Posts a letter. At most 1,024 wait, with at most 64 MiB: the oldest are lost, as few as make the rest and the new one fit."""
        while len(self.waiting) >= 1024 or sum(size for _, size in self.waiting.values()) + length > 64 * 2**20:
            del self.waiting[min(self.waiting)]
        self.posted += 1
        self.waiting[self.posted] = (said, length)
        return self.posted

    def find(self, said):
        return next((number for number, (other, _) in self.waiting.items() if other == said), None)

    def at(self, number):
        if number not in self.waiting:
            raise Refused("no-message", number)
        return self.waiting[number][0]


class Actors:
    """The clients and replicas of a cell, by their numbers, with the server of each volume, on the disks of a bay."""

    def __init__(self, disks, new_client):
        self.disks, self.clients, self.replicas, self.servers, self.areas = disks, {}, {}, {}, 0
        self.new_client = new_client

    def make_client(self, number, cache, area):
        if number in self.clients:
            raise Refused("already-there")
        asked = header(CLIENT, number, 0, 0, area, cache)
        return self.make(self.clients, number, number, asked, area, lambda: self.new_client(number, cache))

    def make_volume(self, number, server, area):
        if number in self.replicas:
            raise Refused("already-there")
        if len(self.replicas) >= MOST_VOLUMES:
            raise Refused("cell-full")
        asked = header(REPLICA, number, server, 1 << (server - 1), area, 0)
        opened = self.make(self.replicas, number, 256 + 8 * len(self.replicas) + server - 1, asked, area, lambda: Replica(number))
        self.servers[number] = server
        return opened

    def make(self, actors, number, disk, asked, area, new):
        if self.areas + area > MOST_AREAS:
            raise Refused("cell-full")
        actor = Actor(self.disks.setdefault(disk, Disk()), asked, new)
        entries = actor.mount()
        actors[number] = actor
        self.areas += area
        return f"opened {entries}"

    def client(self, number):
        if number not in self.clients:
            raise Refused("no-such-actor", number)
        return self.clients[number]

    def replica(self, server, volume):
        if self.servers.get(volume) != server:
            raise Refused("no-such-actor", server)
        return self.replicas[volume]
