"""Scripts of all kinds of lines, drawn from a seed."""

import random

from oracle_texts import printed

NAMES = (b"a", b"b", b"c", b"d")
ODD_NAMES = (b"a b", b'"', b"\xc3\xa9", b"#\\")
TARGETS = ('"a"', '"../b"', '"/x y"', '"\\xff"')
TEXTS = ('""', '"one"', '"two words"', '"tab\\x09"', '"say \\"hi\\""')
SETTINGS = (("mode", ("600", "4711", "0")), ("owner", ("0", "3", "8")), ("mtime", ("0", "55", "98")))
VOLUMES = ((7, 1), (8, 2))
CLIENTS = (1, 2, 3)
WINDOWS = ("", " window 0", " window 0", " window 1", " window 10", " window 300", " window 18446744073709551615")
TICKS = (1, 10, 300, 600, 3600)
ODD_LINES = (
    "read 9 7 /", "list 1 9 /", "drain 2 7 2 window 0", "drain 3 7 5 window 0", "show volume 3 7", "volume 7 on 3",
    "client 2 cache 9", "link 1 4 down", "store 3 7 /a fill 1048577 0", "# nothing", "", "drain 9 7 1", "drain 1 7 3 window 5",
    "crash client 9 0", "recover replica 2 7", "arm replica 1 9 2", "client 10 cache 9 area 64", "client 11 cache 9 area 64",
    "show log 9 7", "show state 9 7", "show state 1 9", "show log 1 9", "show log 3 8", "send 9 7 1", "send 2 7 2 window 0", "deliver 0", "lose 0", "send 1 9 1",
)


class Writer:
    """Writes a script line by line, with an eye on what the actors hold, so that most lines do something."""

    def __init__(self, seed, cell, is_odd):
        self.random, self.cell, self.lines = random.Random(seed), cell, []
        self.names = ODD_NAMES if is_odd else NAMES
        # In every third script one client does most, and seldom sends its log, which then has more than a chunk takes.
        self.is_long = seed % 3 == 2
        # In every fourth script disks fail and actors crash often, and in every fifth one what is stored fills the journals.
        self.is_harsh, self.is_full = seed % 4 == 1, seed % 5 == 3
        self.areas = [self.area() for _ in VOLUMES + CLIENTS]
        self.make()

    def make(self):
        areas = iter(self.areas)
        for volume, server in VOLUMES:
            self.put(f"volume {volume} on {server}{next(areas)}")
        for client in CLIENTS:
            self.put(f"client {client} cache {100 * client}{next(areas)}")
            for _, server in VOLUMES:
                self.put(f"link {client} {server} strong")

    @property
    def actors(self):
        return self.cell.actors

    def area(self):
        return " area 1" if self.is_full else self.random.choice(("", " area 8", " area 2"))

    def put(self, line):
        self.lines.append(line)
        self.cell.run(line.encode("ascii"))

    def path(self, client, volume, new=False):
        """A path that leads somewhere, mostly; a new one ends with some name in a directory, often one that no other client takes."""
        held, served = (actor.has.nodes if actor.has else {} for actor in (self.actors.clients[client], self.actors.replicas[volume]))
        path, fid = b"", (volume, 0, 1)
        while True:
            node = held.get(fid) or served.get(fid)
            if node is None or node.kind != "dir":
                if new and self.random.random() < 0.95:
                    path = path.rpartition(b"/")[0]
                break
            if not node.body or self.random.random() < (0.4 if path else 0.3 if new else 0.05):
                break
            name = self.random.choice(sorted(node.body))
            path, fid = path + b"/" + name, node.body[name]
        if new or self.random.random() < 0.04:
            own = tuple(name + str(client).encode("ascii") for name in self.names)
            path += b"/" + self.random.choice(own if self.random.random() < 0.6 else self.names)
        return printed(path or b"/")

    def message(self):
        """The number of a letter: mostly of one of the last that wait, or of one that was lost or never posted."""
        waiting = sorted(self.cell.letters.waiting)[-6:]
        return self.random.choice(waiting) if waiting and self.random.random() < 0.95 else self.random.randint(1, self.cell.letters.posted + 2)

    def options(self):
        mode = f" mode {self.random.choice(('600', '700', '4755', '0'))}" if self.random.random() < 0.2 else ""
        owner = f" owner {self.random.choice((1, 1000, 2**32 - 1))}" if self.random.random() < 0.15 else ""
        return mode + owner

    def operation(self, client, volume):
        at = f"{client} {volume}"
        weights = (11, 13, 5, 60 if self.is_full else 10, 7, 8, 6, 10)
        kind = self.random.choices(("mkdir", "create", "symlink", "store", "setattr", "remove", "rmdir", "rename"), weights)[0]
        if kind in ("mkdir", "create"):
            return f"{kind} {at} {self.path(client, volume, True)}{self.options()}"
        if kind == "symlink":
            return f"symlink {at} {self.path(client, volume, True)} {self.random.choice(TARGETS)}"
        old = self.path(client, volume)
        if kind == "store":
            lengths = (0, 64, 200_000, 300_000, 400_000) if self.is_full else (0, 1, 63, 64, 65, 2000)
            fill = f"fill {self.random.choice(lengths)} {self.random.choice((65, 0, 255))}"
            return f"store {at} {old} " + self.random.choice((f"text {self.random.choice(TEXTS)}", fill))
        if kind == "setattr":
            parts = [f"{word} {self.random.choice(values)}" for word, values in SETTINGS if self.random.random() < 0.5]
            return f"setattr {at} {old} " + " ".join(parts or ["mode 640"])
        if kind == "rename":
            return f"rename {at} {old} {self.path(client, volume, self.random.random() < 0.7)}"
        return f"{kind} {at} {old}"

    def failing(self, client, volume, server):
        """A line that crashes an actor, recovers it or arms its disk. After a disk was armed it is crashed before it is recovered: the
        rules don't say how many calls a mounting makes."""
        name, actor = f"client {client}", self.actors.clients[client]
        if self.random.random() < 0.4:
            name, actor = f"replica {server} {volume}", self.actors.replicas[volume]
        choice = self.random.choice((0, 0, 1, 1, self.random.randrange(256), 2**64 - 1))
        if actor.has is None and actor.disk.passes is None and self.random.random() < 0.85:
            return f"recover {name}"
        if actor.has is not None and actor.disk.passes is None:
            arming = f"arm {name} {self.random.choice((0, 1, 2, 2, 2, 3, 3, 3, 4, 5, 6, 7, 10, 11, 2**64 - 1))}"
            return self.random.choice((arming, arming, f"crash {name} {choice}", f"recover {name}"))
        return f"crash {name} {choice}"

    def line(self):
        client = self.random.choices(CLIENTS, (9, 1, 1) if self.is_long else (1, 1, 1))[0]
        volume, server = self.random.choice(VOLUMES) if self.random.random() < (0.05 if self.is_long else 0.35) else VOLUMES[0]
        down = [number for number, actor in self.actors.clients.items() if actor.has is None]
        if down and self.random.random() < 0.2:
            client = self.random.choice(down)
        weights = (170, 6, 6, 3, 3, 6, 3, 4, 3, 2, 3, 4, 1) if self.is_long else (140, 8, 8, 18, 8, 12, 4, 9, 6, 3, 16, 22, 3)
        kinds = ("operation", "read", "list", "drain", "link", "tick", "show", "log", "state", "odd", "send", "deliver", "lose", "failing")
        are_down = len(down) + sum(actor.has is None for actor in self.actors.replicas.values())
        failing = (60 if self.is_harsh else 4) + 60 * are_down
        kind = self.random.choices(kinds, weights + (failing,))[0]
        if kind == "operation":
            return self.operation(client, volume)
        if kind in ("read", "list"):
            return f"{kind} {client} {volume} {self.path(client, volume)}"
        return {
            "drain": f"drain {client} {volume} {server}{self.random.choice(WINDOWS)}",
            "send": f"send {client} {volume} {server}{self.random.choice(WINDOWS)}",
            "deliver": f"deliver {self.message()}",
            "lose": f"lose {self.message()}",
            "link": f"link {client} {server} {self.random.choice(('strong', 'strong', 'weak', 'down'))}",
            "tick": f"tick {self.random.choice(TICKS)}",
            "show": f"show volume {server} {volume}",
            "log": f"show log {client} {volume}",
            "state": f"show state {client} {volume}",
            "odd": self.random.choice(ODD_LINES),
            "failing": self.failing(client, volume, server),
        }[kind]

    def write(self, count):
        """A script of so many lines. In some there is a second run over the same disks."""
        again = count * 2 // 3 if self.random.random() < 0.4 else None
        while len(self.lines) < count:
            self.put(self.line())
            if len(self.lines) == again:
                self.lines.append("# again")
                self.cell = self.cell.next_run()
                self.make()
        return "".join(line + "\n" for line in self.lines).encode("ascii")
