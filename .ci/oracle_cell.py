"""The cell: what each line of a script does, and its reply."""

from oracle_actors import Actors, Client, Letters
from oracle_cache import CachingClient
from oracle_disk import decided_length, done_length, fetched_length, frozen_length, settled_length
from oracle_log import chunk_length
from oracle_texts import Refused, content_text, fid_text, printed, words_of
from oracle_volume import KIND_MADE, shown


def next_state(state, link, log_is_empty):
    """The state after a look at the best link to a replica that is reached, and at the log."""
    if link == "down":
        return "emulating"
    if state == "emulating":
        return "write-disconnected"
    if state == "write-disconnected" and link == "strong" and log_is_empty:
        return "hoarding"
    if state == "hoarding" and (link == "weak" or not log_is_empty):
        return "write-disconnected"
    return state


class Needed(Exception):
    """A line looks up an object that isn't served."""

    def __init__(self, fid):
        super().__init__(fid)
        self.fid = fid


class Cell:
    """All actors of a script, over a bay of disks, which are files or in memory. What clients hold goes by their own
    operations alone, or it is in caches."""

    def __init__(self, in_files, disks=None, caches=False):
        self.actors = Actors({} if disks is None else disks, CachingClient if caches else Client)
        self.letters, self.in_files, self.caches = Letters(), in_files, caches
        self.clock, self.links, self.states, self.fetched, self.looked_up = 0, {}, {}, set(), set()

    def next_run(self):
        """The cell of the next run over the same disks."""
        for disk in self.actors.disks.values():
            disk.reopen()
        return Cell(self.in_files, self.actors.disks, self.caches)

    def run(self, line):
        """The text of a line's reply."""
        words = words_of(line)
        if not words or words[0].startswith(b"#"):
            return ""
        try:
            text = self.reply(words[0].decode(), words) + "\n"
        except Refused as refusal:
            text = refusal.text + "\n"
        self.replace_states()
        return text

    def reply(self, kind, words):
        self.fetched = set()
        if kind == "volume":
            return self.actors.make_volume(int(words[1]), int(words[3]), option(words, b"area", 8))
        if kind == "client":
            return self.actors.make_client(int(words[1]), int(words[3]), option(words, b"area", 8))
        if kind == "tick":
            self.clock = min(self.clock + int(words[1]), 2**64 - 1)
            return "ok"
        if kind == "link":
            return self.link(int(words[1]), int(words[2]), words[3].decode())
        if kind == "show" and words[1] == b"log":
            return self.client_at(int(words[2]), int(words[3])).log(int(words[3])).text()
        if kind == "show" and words[1] == b"state":
            self.client_at(int(words[2]), int(words[3]))
            return self.state(int(words[2]), int(words[3]))
        if kind == "show":
            server, volume = int(words[2]), int(words[3])
            return "\n".join(shown(volume, server, self.actors.replica(server, volume).up().nodes))
        if kind == "deliver":
            return self.deliver(int(words[1]))
        if kind == "lose":
            self.letters.at(int(words[1]))
            del self.letters.waiting[int(words[1])]
            return f"lost {int(words[1])}"
        if kind in ("crash", "recover", "arm"):
            of_client = words[1] == b"client"
            actor = self.actors.client(int(words[2])) if of_client else self.actors.replica(int(words[2]), int(words[3]))
            return self.fail(kind, actor, int(words[-1]))
        return self.task(kind, int(words[1]), int(words[2]), words)

    def task(self, kind, client, volume, words):
        if kind == "send":
            return self.send(client, volume, int(words[3]), option(words, b"window", 600))
        if kind == "drain":
            return self.drain(client, volume, int(words[3]), option(words, b"window", 600))
        self.client_at(client, volume)
        if kind in ("read", "list"):
            call = self.read if kind == "read" else self.list
            return self.in_rounds(client, volume, lambda: call(client, volume, words[3]))
        return self.in_rounds(client, volume, lambda: self.operate(client, volume, kind, words[3:]))

    def link(self, client, server, strength):
        actor = self.actors.client(client)
        if server not in self.actors.servers.values():
            raise Refused("no-such-actor", server)
        actor.up()
        self.links[client, server] = strength
        return "ok"

    # ---- the states of clients

    def replace_states(self):
        """After every line the state of each client that is up, on each volume, is replaced by the next one, twice."""
        for volume, replica in self.actors.replicas.items():
            for client, actor in self.actors.clients.items():
                if actor.has is not None:
                    link = "down" if replica.has is None else self.strength(client, self.actors.servers[volume])
                    log, state = actor.has.log(volume), self.states.get((client, volume), "emulating")
                    for _ in range(2):
                        state = next_state(state, link, log.is_empty())
                    self.states[client, volume] = state
                    if link == "down":
                        actor.has.cut_off(volume)

    def state(self, client, volume):
        return self.states.get((client, volume), "emulating")

    def strength(self, client, server):
        return self.links.get((client, server), "down")

    def client_at(self, client, volume):
        """What a client has that a line names with a volume."""
        actor = self.actors.client(client)
        if volume not in self.actors.replicas:
            raise Refused("no-such-actor", volume)
        return actor.up()

    # ---- crashes

    def fail(self, kind, actor, number):
        if kind == "arm":
            actor.up()
            actor.disk.passes = number
            return "ok"
        if kind == "recover":
            self.cut_off_from(actor)
            return f"recovered {actor.mount()}"
        actor.has = None
        if self.in_files:
            actor.disk.reopen()
        else:
            actor.disk.crash(number)
        return "crashed"

    def cut_off_from(self, actor):
        """A replica was down: no copy that it gave is valid."""
        for volume, replica in self.actors.replicas.items():
            for client in self.actors.clients.values() if replica is actor else ():
                if client.has is not None:
                    client.has.cut_off(volume)

    # ---- chunks and their answers

    def reach(self, client, server):
        if self.strength(client, server) == "down":
            raise Refused("link-down")

    def freeze(self, client, volume, server, window, asks_server):
        """The log of a client, with a chunk frozen for the server that holds the volume."""
        actor = self.actors.client(client)
        if volume not in self.actors.replicas:
            raise Refused("no-such-actor", volume)
        replica = self.actors.replica(server, volume)
        log = actor.up().log(volume)
        if asks_server:
            replica.up()
        self.reach(client, server)
        count, why = log.next_chunk(server, self.clock, window)
        if why:
            raise Refused(*why)
        if count is not None:
            actor.append(("frozen", volume, server, count), frozen_length())
        return log

    def decide(self, client, volume, number, records):
        """A replica's answer to a chunk, and whether it was applied; neither applied nor refused where it is no decision."""
        actor = self.actors.replicas[volume]
        replica = actor.up()
        answer = replica.kept_answer(client, number)
        if answer is None:
            text, applied, _ = replica.verdict(client, records)
            actor.append(("decide", client, number, records), decided_length(records, text))
            answer = text, applied
        return answer

    def settle(self, client, volume, number, text, applied):
        """A client takes an answer."""
        actor = self.actors.clients[client]
        why = actor.up().log(volume).unsettled(number)
        if why:
            raise Refused(*why)
        if applied is not None:
            actor.append(("settled", volume, applied), settled_length(text))

    def drain(self, client, volume, server, window):
        log = self.freeze(client, volume, server, window, True)
        number = log.chunks
        text, applied = self.decide(client, volume, number, log.front.records)
        self.settle(client, volume, number, text, applied)
        return f"chunk {number} {text}"

    def send(self, client, volume, server, window):
        log = self.freeze(client, volume, server, window, False)
        said = ("chunk", client, server, volume, log.chunks, tuple(log.front.records))
        message = self.letters.find(said) or self.letters.post(said, chunk_length(log.front.records))
        return f"message {message} chunk {log.chunks}"

    def deliver(self, message):
        kind, client, server, volume, number, what = self.letters.at(message)
        self.reach(client, server)
        if kind == "chunk":
            text, applied = self.decide(client, volume, number, what)
            # An answer is short: what a few of them weigh puts nothing out.
            posted = self.letters.post(("answer", client, server, volume, number, (text, applied)), 64)
            return f"chunk {number} {text} message {posted}"
        text, applied = what
        self.settle(client, volume, number, text, applied)
        return f"frozen {number} {text}" if applied is None else f"settled {number} {text}"

    # ---- what a client holds

    def in_rounds(self, client, volume, call):
        """What a call answers, which is made anew with each object that it needs and that could be fetched."""
        while True:
            self.looked_up = set()
            try:
                return call()
            except Needed as needed:
                self.fetch(client, volume, needed.fid)

    def fetch(self, client, volume, fid):
        actor, replica = self.actors.clients[client], self.actors.replicas[volume].has
        is_cut_off = self.strength(client, self.actors.servers[volume]) == "down" or replica is None
        if is_cut_off or fid not in replica.nodes:
            raise Refused("miss", fid_text(fid))
        parent, node = actor.has.likely_parent(fid), replica.nodes[fid].copy()
        gone = actor.has.room_for(fid, parent, node, self.fetched)
        actor.append(("fetched", fid, parent, node, gone), fetched_length(parent, node, gone))
        actor.has.came_from_server(fid)
        self.fetched.add(fid)

    def look(self, client, volume, fid):
        """An object that a client looks at: its own copy, where that is served."""
        holder = self.actors.clients[client].has
        self.looked_up.add(fid)
        holder.use(fid)
        if not holder.is_served(fid, self.state(client, volume) == "emulating"):
            raise Needed(fid)
        return holder.nodes[fid]

    def walk(self, client, volume, names):
        """The objects on the way along names from the root, the last one looked at too."""
        way = [(volume, 0, 1)]
        node = self.look(client, volume, way[0])
        for name in names:
            if node.kind != "dir":
                raise Refused("not-dir")
            if name not in node.body:
                raise Refused("not-found")
            way.append(node.body[name])
            node = self.look(client, volume, way[-1])
        return way, node

    def source(self, fid):
        return "fetched" if fid in self.fetched else "cached"

    def read(self, client, volume, path):
        way, node = self.walk(client, volume, names_of(path))
        if node.kind == "dir":
            raise Refused("is-dir")
        what = f"{len(node.body)} " if node.kind == "file" else "link "
        return f"{self.source(way[-1])} {what}{content_text(node.body)}"

    def list(self, client, volume, path):
        way, node = self.walk(client, volume, names_of(path))
        if node.kind != "dir":
            raise Refused("not-dir")
        entries = [f"{printed(name)} {fid_text(node.body[name])}" for name in sorted(node.body)]
        return "\n".join([f"{self.source(way[-1])} {len(entries)}"] + entries)

    # ---- operations

    def operate(self, client, volume, kind, words):
        log = self.actors.clients[client].has.log(volume)
        if kind in KIND_MADE:
            operation, fid = self.creation(client, volume, kind, words, log.creations + 1)
        elif kind == "store":
            operation, fid = self.store(client, volume, words)
        elif kind == "setattr":
            way, node = self.walk(client, volume, names_of(words[0]))
            parts = (option(words, b"mode", None, 8), option(words, b"owner", None), option(words, b"mtime", None))
            operation, fid = ("setattr", way[-1], node.sid, parts), way[-1]
        elif kind in ("remove", "rmdir"):
            operation, fid = self.removal(client, volume, kind, names_of(words[0]))
        else:
            operation, fid = self.rename(client, volume, names_of(words[0]), names_of(words[1]))
        record = (log.operations + 1, self.clock, operation)
        if not log.has_room(record):
            raise Refused("log-full")
        actor = self.actors.clients[client]
        gone = actor.has.room_after(volume, record, self.looked_up)
        actor.append(("done", volume, record, gone), done_length(operation, gone))
        if kind in KIND_MADE:
            actor.has.use(fid)
        return f"done {log.operations} {fid_text(fid)}"

    def parent(self, client, volume, names):
        way, node = self.walk(client, volume, names[:-1])
        if node.kind != "dir":
            raise Refused("not-dir")
        return way, node

    def creation(self, client, volume, kind, words, count):
        names = names_of(words[0])
        way, directory = self.parent(client, volume, names)
        if not names or names[-1] in directory.body:
            raise Refused("exists")
        fid = (volume, client, count)
        if kind == "symlink":
            return (kind, way[-1], names[-1], fid, 0o777, 0, words[1]), fid
        mode = option(words, b"mode", 0o644 if kind == "create" else 0o755, 8)
        return (kind, way[-1], names[-1], fid, mode, option(words, b"owner", 0), b""), fid

    def store(self, client, volume, words):
        content = words[2] if words[1] == b"text" else bytes([int(words[3])]) * int(words[2])
        if len(content) > 1048576:
            raise Refused("too-big", len(content))
        way, node = self.walk(client, volume, names_of(words[0]))
        if node.kind != "file":
            raise Refused("is-dir" if node.kind == "dir" else "not-file")
        return ("store", way[-1], node.sid, content), way[-1]

    def removal(self, client, volume, kind, names):
        way, node = self.walk(client, volume, names)
        if kind == "remove" and node.kind == "dir":
            raise Refused("is-dir")
        if kind == "rmdir":
            if not names:
                raise Refused("loop")
            if node.kind != "dir":
                raise Refused("not-dir")
            holder = self.actors.clients[client].has
            if node.body or any(map(holder.is_dirty, holder.below(way[-1]))):
                raise Refused("not-empty")
        return (kind, way[-2], names[-1], way[-1], node.sid), way[-1]

    def rename(self, client, volume, old, new):
        way, node = self.walk(client, volume, old)
        to_way, directory = self.parent(client, volume, new)
        bound = directory.body.get(new[-1]) if new else None
        target = self.look(client, volume, bound) if bound else None
        if not old or (new and way[-1] in self.actors.clients[client].has.above(to_way[-1])):
            raise Refused("loop")
        if not new or bound == way[-1] or (target and "dir" in (node.kind, target.kind)):
            raise Refused("exists")
        over = (bound, target.sid) if target else None
        return ("rename", way[-2], old[-1], to_way[-1], new[-1], way[-1], over), way[-1]


def names_of(path):
    return [name for name in path.split(b"/") if name]


def option(words, name, default, base=10):
    """The number behind an optional word."""
    return int(words[words.index(name) + 1], base) if name in words[1:] else default


# ---- scripts

def runs_of(script):
    """The runs of a script, which lines `# again` stand between, one after the other over the same disks."""
    return script.split(b"# again\n")


def reports_of(script, in_files, caches=False):
    cell = Cell(in_files, caches=caches)
    for run in runs_of(script):
        yield "".join(cell.run(line.removesuffix(b"\r")) for line in run.split(b"\n")).encode("ascii")
        cell = cell.next_run()


def report_of(script, in_files=False, caches=False):
    return b"# again\n".join(reports_of(script, in_files, caches))
