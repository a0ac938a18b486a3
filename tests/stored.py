"""Judges what is stored on the volume of a script that ends while mounted. Pages that nobody synced may be lost, so its files may be older than what
callers saw last. But each inode, name and block has a value that callers saw since the last sync of it that was done, or since the last unmount.
A flush syncs all, an `fsync` its file, all names, and the inodes that aren't files'. A value is looked for among the states of the model
(tests/model.py) since then, in which tests/history.py puts what was synced.

The files are what a run on the image shows: `all_stored` has the calls that ask for them, and `stored_fault` judges the replies.
"""

import re
from urllib.parse import unquote_to_bytes

from model import BLOCK

AT_ONCE = 65536


def all_stored(states):
    """The calls that ask for all that the paths of these states lead to."""
    for path in sorted({path for model in states for path in model.paths()}):
        yield from (("stat", path), ("list", path), ("readlink", path), ("open", path, 0))
        yield from (("read", 0, AT_ONCE * part, AT_ONCE) for part in range(2))
        yield "close", 0


def inodes_in(states, ino):
    """The states of an inode."""
    return [model.inodes[ino] for model in states if ino in model.inodes]


def is_inode(inode, kind, mode, links, size, mtime):
    """Whether an inode is shown so. The size and the links of a directory follow from its names."""
    same = (inode.kind, f"{inode.mode:o}", str(inode.mtime)) == (kind, mode, mtime)
    return same and (kind == "d" or (links, size) == (str(inode.links), str(inode.size)))


def names_fault(states, ino, rows):
    """The first name of a directory that leads where it led in none of the states, or that is missing."""
    found = {unquote_to_bytes(name): int(to) for name, _, to in (row.rsplit(":", 2) for row in rows)}
    seen = [{name: it.ino for name, it in inode.names.items()} for inode in inodes_in(states, ino)]
    wrong = (name for name in set(found).union(*seen) if all(found.get(name) != names.get(name) for names in seen))
    return next((f"name {name}" for name in wrong), None)


def blocks_fault(states, ino, offs, found):
    """The first block of a file, read from an offset on, that has bytes which it had in none of the states."""
    seen = inodes_in(states, ino)
    blocks = ((offs + start, found[start : start + BLOCK].rstrip(b"\0")) for start in range(0, len(found), BLOCK))
    wrong = (start for start, block in blocks if all(bytes(it.bytes(start, BLOCK)).rstrip(b"\0") != block for it in seen))
    return next((f"block {start // BLOCK}" for start in wrong), None)


def reply_fault(states, ino, call, words):
    """What of an inode was in none of the states, by the reply to a call that was done."""
    if call[0] == "stat":
        kind, _, *values = words
        return None if any(is_inode(it, kind, *values) for it in inodes_in(states, ino)) else "inode"
    if call[0] == "list":
        return names_fault(states, ino, words[1:])
    if call[0] == "readlink":
        return None if any(it.target == unquote_to_bytes(words[0]) for it in inodes_in(states, ino)) else "target"
    if call[0] == "read":
        runs = re.findall(r"(\d+)x([0-9a-f]{2})", " ".join(words[1:]))
        return blocks_fault(states, ino, call[2], b"".join(bytes([int(byte, 16)]) * int(count) for count, byte in runs))
    return None


def stored_fault(states, calls, replies):
    """What of the replies to these calls was in none of the states, or None."""
    ino = 0
    for call, reply in zip(calls, replies, strict=True):
        status, *words = reply.split(" ")
        if status == "ok" and call[0] == "stat":
            ino = int(words[1])
        fault = reply_fault(states, ino, call, words) if status == "ok" else None
        if fault:
            return f"{' '.join(str(word) for word in call)}: '{reply}' has a {fault} of {ino} that nobody saw"
    return None
