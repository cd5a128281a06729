"""Volumes, what an operation does to one and why it is refused, and what a server keeps of a volume.

A volume is a dictionary of nodes by their fids.
"""

from oracle_texts import content_text, fid_text, found_text, printed, sid_text

class Node:
    """A file (body: content), a link (body: target) or a directory (body: names with fids)."""

    def __init__(self, kind, mode, owner, mtime, sid, body):
        self.kind, self.mode, self.owner, self.mtime, self.sid, self.body = kind, mode, owner, mtime, sid, body

    def copy(self):
        body = dict(self.body) if self.kind == "dir" else self.body
        return Node(self.kind, self.mode, self.owner, self.mtime, self.sid, body)


KIND_MADE = {"create": "file", "mkdir": "dir", "symlink": "link"}


def apply(nodes, client, number, time, operation):
    """Makes an operation's change to nodes, without any question."""
    kind, fields, sid = operation[0], operation[1:], (client, number)
    if kind in KIND_MADE:
        directory, name, fid, mode, owner, body = fields
        nodes[directory].body[name] = fid
        nodes[fid] = Node(KIND_MADE[kind], mode, owner, time, sid, {} if kind == "mkdir" else body)
    elif kind == "store":
        fid, _, content = fields
        nodes[fid].body, nodes[fid].mtime, nodes[fid].sid = content, time, sid
    elif kind == "setattr":
        fid, _, (mode, owner, mtime) = fields
        node = nodes[fid]
        node.mode = node.mode if mode is None else mode
        node.owner = node.owner if owner is None else owner
        node.mtime = node.mtime if mtime is None else mtime
        node.sid = sid
    elif kind in ("remove", "rmdir"):
        directory, name, fid, _ = fields
        del nodes[directory].body[name], nodes[fid]
    else:
        from_dir, old, to_dir, new, fid, over = fields
        del nodes[from_dir].body[old]
        if over:
            del nodes[over[0]]
        nodes[to_dir].body[new] = fid


def certify(nodes, operation):
    """The reason to refuse an operation on a volume, or None."""
    kind, fields = operation[0], operation[1:]
    if kind in KIND_MADE:
        return certify_creation(nodes, *fields[:3])
    if kind in ("store", "setattr"):
        fid, pre = fields[:2]
        if fid not in nodes:
            return "no-object " + fid_text(fid)
        if kind == "store" and nodes[fid].kind != "file":
            return "wrong-kind " + fid_text(fid)
        return version(nodes, fid, pre)
    if kind in ("remove", "rmdir"):
        return certify_removal(nodes, kind, *fields)
    return certify_rename(nodes, *fields)


def is_directory(nodes, fid):
    return fid in nodes and nodes[fid].kind == "dir"


def version(nodes, fid, pre):
    found = nodes[fid].sid
    if found == pre:
        return None
    word = "attr-changed" if nodes[fid].kind == "dir" else "changed"
    return f"{word} {sid_text(pre)} {sid_text(found)}"


def certify_creation(nodes, directory, name, fid):
    if not is_directory(nodes, directory):
        return "no-dir " + fid_text(directory)
    if name in nodes[directory].body:
        return "name-taken " + fid_text(nodes[directory].body[name])
    if fid in nodes:
        return "fid-used " + fid_text(fid)
    return f"volume-full {len(nodes)}" if len(nodes) >= 100000 else None


def certify_removal(nodes, kind, directory, name, fid, pre):
    if not is_directory(nodes, directory):
        return "no-dir " + fid_text(directory)
    if fid not in nodes:
        return "no-object " + fid_text(fid)
    if is_directory(nodes, fid) != (kind == "rmdir"):
        return "wrong-kind " + fid_text(fid)
    bound = nodes[directory].body.get(name)
    if bound != fid:
        return "name-other " + found_text(bound)
    changed = version(nodes, fid, pre)
    if changed:
        return changed
    return "not-empty" if kind == "rmdir" and nodes[fid].body else None


def certify_rename(nodes, from_dir, old, to_dir, new, fid, over):
    for directory in (from_dir, to_dir):
        if not is_directory(nodes, directory):
            return "no-dir " + fid_text(directory)
    if fid not in nodes:
        return "no-object " + fid_text(fid)
    if over:
        if over[0] not in nodes:
            return "no-object " + fid_text(over[0])
        for of in (over[0], fid):
            if is_directory(nodes, of):
                return "wrong-kind " + fid_text(of)
        if over[0] == fid:
            return "wrong-kind " + fid_text(fid)
    elif new in nodes[to_dir].body:
        return "name-taken " + fid_text(nodes[to_dir].body[new])
    bound = nodes[from_dir].body.get(old)
    if bound != fid:
        return "name-other " + found_text(bound)
    if over:
        bound = nodes[to_dir].body.get(new)
        if bound != over[0]:
            return "name-other " + found_text(bound)
        changed = version(nodes, *over)
        if changed:
            return changed
    parents = {child: at for at, node in nodes.items() if node.kind == "dir" for child in node.body.values()}
    above = to_dir
    while above is not None:
        if above == fid:
            return "loop"
        above = parents.get(above)
    return None


def shown(number, server, nodes):
    """The lines of a volume: a directory before its entries, these by the bytes of their names."""
    yield f"volume {number} at {server} objects {len(nodes)}"
    left = [(b"", (number, 0, 1))]
    while left:
        path, fid = left.pop()
        node = nodes[fid]
        line = f"{printed(path or b'/')} {node.kind} {fid_text(fid)} {node.mode:04o} {node.owner} {node.mtime} {sid_text(node.sid)}"
        if node.kind == "file":
            line += f" {len(node.body)} {content_text(node.body)}"
        elif node.kind == "link":
            line += " " + content_text(node.body)
        else:
            left += [(path + b"/" + name, node.body[name]) for name in sorted(node.body, reverse=True)]
        yield line


# ---- replicas

class Replica:
    """What a server keeps of a volume: its nodes, and the last answer to each client."""

    def __init__(self, number):
        self.nodes = {(number, 0, 1): Node("dir", 0o755, 0, 0, (0, 0), {})}
        self.decided = {}

    def kept_answer(self, client, number):
        """The answer to a chunk that is no decision, and whether it says that the chunk was applied; neither applied nor refused where it
        is another one. Nothing where the chunk is the client's next one, which is to be decided."""
        last, text, applied = self.decided.get(client, (0, None, None))
        if number == last + 1:
            return None
        if number > last + 1:
            return f"behind {last}", None
        return (text, applied) if number == last > 0 else (f"old {last}", None)

    def verdict(self, client, records):
        """The verdict on the records of a chunk, whether they are applied, and the nodes that there are then."""
        nodes = {fid: node.copy() for fid, node in self.nodes.items()}
        for number, time, operation in records:
            reason = certify(nodes, operation)
            if reason:
                return f"conflict {number} {reason}", False, self.nodes
            apply(nodes, client, number, time, operation)
        return "applied", True, nodes

    def decide(self, client, number, records):
        """An entry: a chunk is decided."""
        text, applied, self.nodes = self.verdict(client, records)
        self.decided[client] = (number, text, applied)
