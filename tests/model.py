"""A plain model of files: what each call of a script answers, and what it leaves.

A file is its size and the writes that are still seen, a directory its names, and a symbolic link its target. The model knows nothing of pages,
groups or nodes. It is made from open(2), close(2), pread(2), pwrite(2), ftruncate(2), link(2), unlink(2), rename(2), mkdir(2), rmdir(2), symlink(2),
readlink(2), readdir(3), stat(2) and chmod(2) alone. What these leave open is as docs/COMMANDS.md says: slots, numbers of inodes, limits, and the
order of a list. The size of a directory and the hash of names are those of Linux fs/ubifs. Where several refusals hold, the first is told of words
that nobody takes, a name that is too long, a slot, and then what the names lead to.
"""

from dataclasses import dataclass, field
from urllib.parse import unquote_to_bytes

from media import r5, up_to

MOST = 1 << 41
MOST_LINKS, MOST_INODES, MOST_SLOT, MOST_BYTES = 65000, 4294967040, 15, 65536
BLOCK = 4096


class Refused(Exception):
    pass


def refuse(test, why):
    if test:
        raise Refused(why)


def names_in(*paths, named=False):
    """The components of each path. With `named`, each must name what can be made, moved or taken away."""
    found = [unquote_to_bytes(path).split(b"/")[1:] for path in paths]
    found = [[] if names == [b""] else names for names in found]
    refuse(any(name in (b".", b"..") or 0 in name for names in found for name in names) or named and [] in found, "E12")
    refuse(any(len(name) > 255 for names in found for name in names), "E11")
    return found


def escaped(found):
    """Bytes as a script has them."""
    return "".join(chr(byte) if 32 < byte < 127 and byte != 37 else f"%{byte:02x}" for byte in found)


def entry_node(name):
    """The bytes of a name's node."""
    return up_to(57 + len(name), 8)


def pages(offs, count):
    """The blocks of a file that so many bytes from an offset on touch."""
    return range(offs // BLOCK, (offs + count - 1) // BLOCK + 1) if count else range(0)


def runs_of(found):
    """The longest runs of equal bytes, as a reply shows them."""
    runs, start = [], 0
    for k in range(1, len(found) + 1):
        if k == len(found) or found[k] != found[start]:
            runs.append(f"{k - start}x{found[start]:02x}")
            start = k
    return ",".join(runs)


@dataclass(eq=False)
class Inode:
    """A file, a directory or a symbolic link. The names of a directory lead to inodes."""

    ino: int
    kind: str
    mode: int
    mtime: int
    target: bytes = b""
    size: int = 0
    links: int = 1
    names: dict = field(default_factory=dict)
    writes: list = field(default_factory=list)
    blocks: set = field(default_factory=set)

    @property
    def shown_links(self):
        return 2 + sum(inode.kind == "d" for inode in self.names.values()) if self.kind == "d" else self.links

    @property
    def shown_size(self):
        return 160 + sum(entry_node(name) for name in self.names) if self.kind == "d" else self.size

    def cut(self, size):
        self.writes = [(start, min(end, size), byte) for start, end, byte in self.writes if start < size]
        self.blocks = {block for block in self.blocks if block * BLOCK < size}
        self.size = size

    def bytes(self, offs, count):
        count = max(0, min(count, self.size - offs))
        found = bytearray(count)
        for start, end, byte in self.writes:
            first, last = max(start - offs, 0), min(end - offs, count)
            if first < last:
                found[first:last] = bytes([byte]) * (last - first)
        return found


class Model:
    """Files, and what each caller has open in its slots. A call is its words, with numbers in place of digits."""

    def __init__(self):
        root = Inode(1, "d", 0o755, 0)
        self.highest, self.now, self.inodes, self.slots = 64, 0, {1: root}, {}
        # How many open files have lost their last name so far.
        self.orphaned = 0

    def walk(self, names):
        inode = self.inodes[1]
        for name in names:
            refuse(inode.kind != "d", "E3")
            refuse(name not in inode.names, "E1")
            inode = inode.names[name]
        return inode

    def found(self, path):
        return self.walk(*names_in(path))

    def parent(self, names):
        inode = self.walk(names[:-1])
        refuse(inode.kind != "d", "E3")
        return inode

    def opened(self, caller, slot, count=0):
        refuse(slot > MOST_SLOT or count > MOST_BYTES, "E12")
        refuse((caller, slot) not in self.slots, "E15")
        return self.slots[caller, slot]

    def touch(self, *inodes):
        for inode in inodes:
            inode.mtime = self.now

    def forget(self, inode):
        """A file without a name stays as long as somebody has it open."""
        if inode.links == 0 and inode not in self.slots.values():
            self.inodes.pop(inode.ino, None)

    def lose(self, inode):
        """A name of an inode is gone."""
        inode.links -= 1
        self.touch(inode)
        self.orphaned += inode.links == 0 and inode in self.slots.values()
        self.forget(inode)

    def unmount(self):
        lost, self.slots = list(self.slots.values()), {}
        for inode in lost:
            self.forget(inode)

    def make(self, path, kind, mode, target=b""):
        (names,) = names_in(path, named=True)
        parent = self.parent(names)
        refuse(names[-1] in parent.names, "E2")
        refuse(kind == "d" and parent.shown_links >= MOST_LINKS, "E13")
        refuse(self.highest >= MOST_INODES, f"E14 inodes {MOST_INODES}")
        self.highest += 1
        inode = Inode(self.highest, kind, mode, self.now, target, len(target))
        self.inodes[inode.ino] = parent.names[names[-1]] = inode
        self.touch(parent)
        return f"ok {inode.ino}"

    def create(self, caller, path, mode):
        return self.make(path, "f", mode)

    def mkdir(self, caller, path, mode):
        return self.make(path, "d", mode)

    def symlink(self, caller, path, target):
        target = unquote_to_bytes(target)
        refuse(not 0 < len(target) < 4096, "E12")
        return self.make(path, "l", 0o777, target)

    def link(self, caller, old, new):
        old, new = names_in(old, new, named=True)
        inode = self.walk(old)
        refuse(inode.kind == "d", "E4")
        refuse(inode.links >= MOST_LINKS, "E13")
        parent = self.parent(new)
        refuse(new[-1] in parent.names, "E2")
        parent.names[new[-1]] = inode
        inode.links += 1
        self.touch(inode, parent)
        return "ok"

    def unlink(self, caller, path):
        (names,) = names_in(path, named=True)
        inode, parent = self.walk(names), self.parent(names)
        refuse(inode.kind == "d", "E4")
        del parent.names[names[-1]]
        self.touch(parent)
        self.lose(inode)
        return "ok"

    def rmdir(self, caller, path):
        (names,) = names_in(path, named=True)
        inode, parent = self.walk(names), self.parent(names)
        refuse(inode.kind != "d", "E3")
        refuse(inode.names, "E5")
        del parent.names[names[-1]]
        self.touch(parent)
        self.lose(inode)
        return "ok"

    def rename(self, caller, old, new):
        old, new = names_in(old, new, named=True)
        inode, here, there = self.walk(old), self.parent(old), self.parent(new)
        refuse(len(old) < len(new) and new[: len(old)] == old, "E12")
        lost = there.names.get(new[-1])
        if lost is inode:
            return "ok"
        if lost:
            refuse(inode.kind == "d" and lost.kind != "d", "E3")
            refuse(inode.kind != "d" and lost.kind == "d", "E4")
            refuse(lost.names, "E5")
        else:
            refuse(inode.kind == "d" and here is not there and there.shown_links >= MOST_LINKS, "E13")
        del here.names[old[-1]]
        there.names[new[-1]] = inode
        self.touch(here, there)
        if lost:
            self.lose(lost)
        return "ok"

    def open(self, caller, path, slot):
        refuse(slot > MOST_SLOT, "E12")
        (names,) = names_in(path)
        refuse((caller, slot) in self.slots, "E15")
        inode = self.walk(names)
        refuse(inode.kind == "d", "E4")
        refuse(inode.kind != "f", "E12")
        self.slots[caller, slot] = inode
        return f"ok {inode.ino}"

    def close(self, caller, slot):
        inode = self.opened(caller, slot)
        del self.slots[caller, slot]
        self.forget(inode)
        return "ok"

    def read(self, caller, slot, offs, count):
        found = self.opened(caller, slot, count).bytes(offs, count)
        return f"ok {len(found)} {runs_of(found)}".rstrip()

    def write(self, caller, slot, offs, count, byte):
        file = self.opened(caller, slot, count)
        refuse(offs + count > MOST, "E10")
        if count > 0:
            file.writes.append((offs, offs + count, byte))
            file.blocks.update(pages(offs, count))
            file.size = max(file.size, offs + count)
            self.touch(file)
        return f"ok {count}"

    def truncate(self, caller, slot, size):
        file = self.opened(caller, slot)
        refuse(size > MOST, "E10")
        file.cut(size)
        self.touch(file)
        return "ok"

    def chmod(self, caller, path, mode):
        inode = self.found(path)
        inode.mode = mode
        self.touch(inode)
        return "ok"

    def stat(self, caller, path):
        inode = self.found(path)
        return f"ok {inode.kind} {inode.ino} {inode.mode:o} {inode.shown_links} {inode.shown_size} {inode.mtime}"

    def list(self, caller, path):
        inode = self.found(path)
        refuse(inode.kind != "d", "E3")
        rows = sorted((r5(name), name, it) for name, it in inode.names.items())
        return " ".join([f"ok {len(rows)}"] + [f"{escaped(name)}:{it.kind}:{it.ino}" for _, name, it in rows])

    def readlink(self, caller, path):
        inode = self.found(path)
        refuse(inode.kind != "l", "E12")
        return f"ok {escaped(inode.target)}"

    def fsync(self, caller, slot):
        self.opened(caller, slot)
        return "ok"

    def flush(self, caller):
        return "ok"

    def reply(self, caller, call):
        try:
            return getattr(self, call[0])(caller, *call[1:])
        except Refused as why:
            return str(why)

    def paths(self):
        """The path of each name, that of a directory before those in it."""
        left, found = [("", self.inodes[1])], []
        while left:
            path, inode = left.pop()
            found.append(path or "/")
            left += [(f"{path}/{escaped(name)}", it) for name, it in inode.names.items()]
        return found
