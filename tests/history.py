"""Judges the text of a run of callers at once. Callers' lines between two control lines are a phase, whose replies may come in any order but for
each caller's. The model (tests/model.py) does the lines in the order of the text, and must give each reply.

What the model doesn't know of is want of room, so a call that asks for room may be answered `E6 NEED ROOM` where the model does it. It isn't done
then, and both numbers must be possible. NEED is above ROOM, and at most the sum of

- the bytes of all inodes, names and whole blocks then, a block having 4,144,
- 4,304 for each page that the call touches, and for each of 17 credits that every other caller with a line in the phase may hold,
- the bytes that the call's nodes take.

ROOM is at least what is left of the main area beside a reserve and the greatest index that the lines so far can have led to:

- An index takes three times the LEBs that its weight asks for. The one that stands may take twice those that five nodes more asked for.
- It weighs 1 at first. A call that is done adds the nodes that it puts, and two for each page that it touches. A refusal adds none.

A phase of one caller has one order, the script's, and there no other caller holds credits.

Nor does the model know which numbers a commit told of. So `E14 orphans LIMIT` may come to a call that takes the last name of an open file, where as
many calls did so before.

As a program, with a manifest that has no files, a script and a text: prints the first fault. A script has one call of the model a line.
"""

import copy
import sys
from collections import deque
from dataclasses import dataclass
from urllib.parse import unquote_to_bytes

from media import up_to
from model import Model, Refused, entry_node, names_in, pages

BLOCK_NODE, CREDIT = 4144, 4304
CREDITS = 17
MOST_NODES = 5
CONTROLS = ("mount", "unmount", "now", "workers")
MODED = ("create", "mkdir", "chmod")
# The calls that leave inodes, names and blocks as they are.
QUESTIONS = ("open", "close", "read", "list", "stat", "readlink", "fsync")
# The calls whose first word, or first two, isn't a number.
OF_ONE_PATH = MODED + ("unlink", "rmdir", "list", "stat", "readlink", "open")
OF_TWO = ("link", "rename", "symlink")


def inode_node(target=b""):
    """The bytes of an inode's node. That of a symbolic link has its target."""
    return up_to(160 + len(target), 8)


def node_bytes(model):
    """What the nodes of all inodes, names and blocks take at most."""
    inodes = model.inodes.values()
    names = sum(entry_node(name) for inode in inodes for name in inode.names)
    return names + sum(inode_node(inode.target) + BLOCK_NODE * len(inode.blocks) for inode in inodes)


@dataclass
class Need:
    """What a call asks for: credits for pages, bytes of nodes, how many nodes, and the LEBs that are kept from it."""

    credits: int = 0
    bytes: int = 0
    nodes: int = 0
    reserve: int = 10


def touched(call):
    """How many pages a call's words touch."""
    return len(pages(call[2], call[3])) if call[0] == "write" else 0


def asked(model, caller, call):
    """What a call that the model does asks for, or None if it asks for no room."""
    word, *words = call
    if word in ("create", "mkdir", "symlink"):
        (names,) = names_in(words[0], named=True)
        target = unquote_to_bytes(words[1]) if word == "symlink" else b""
        return Need(0, entry_node(names[-1]) + inode_node(target) + inode_node(), 3)
    if word in ("link", "unlink", "rmdir"):
        first, *_, last = 2 * names_in(*words, named=True)
        return Need(0, entry_node(last[-1]) + inode_node(model.walk(first).target) + inode_node(), 3, 10 if word == "link" else 6)
    if word == "rename":
        old, new = names_in(*words, named=True)
        here, there = model.parent(old), model.parent(new)
        lost = there.names.get(new[-1])
        if lost is not model.walk(old):
            changed = {here, there, lost} - {None}
            return Need(0, entry_node(old[-1]) + entry_node(new[-1]) + sum(inode_node(it.target) for it in changed), 2 + len(changed))
    if word == "chmod":
        return Need(0, inode_node(model.found(words[0]).target), 1)
    if word == "truncate":
        down = words[1] < model.opened(caller, words[0]).size
        return Need(0, inode_node() + 56 + BLOCK_NODE, 3, 6) if down else Need(0, inode_node(), 1)
    if word == "write" and words[2]:
        return Need(touched(call))
    return None


def need_of(model, caller, call):
    """The same of any call; of one that is refused it says nothing."""
    try:
        return asked(model, caller, call)
    except Refused:
        return None


@dataclass
class Volume:
    """The sizes of a fresh volume, and the weight that its index has at most, by the lines so far."""

    leb_size: int
    unit: int
    main: int
    fanout: int
    weight: int = 1

    @property
    def orphan_limit(self):
        return (self.leb_size - 32) // 8

    def index_lebs(self, weight):
        return -(-weight // (self.leb_size // up_to(28 + 20 * self.fanout, 8)))

    def least_room(self, need):
        grown = self.index_lebs(self.weight + 2 * need.credits + need.nodes)
        kept = max(3 * grown, 2 * self.index_lebs(self.weight + MOST_NODES) + grown)
        return max(0, self.main - kept - need.reserve) * (self.leb_size - (4256 + 2 * self.unit + 1024))


def has_no_room(model, volume, need, others, reply):
    """Whether a call that the model does may be answered so, where so many other callers may hold credits."""
    words = reply.split(" ")
    if len(words) != 3 or not all(word.isdigit() for word in words[1:]):
        return False
    most = Need(need.credits + CREDITS * others, need.bytes, need.nodes, need.reserve)
    wanted, room = int(words[1]), int(words[2])
    most_needed = node_bytes(model) + CREDIT * most.credits + most.bytes
    return reply == f"E6 {wanted} {room}" and room < wanted <= most_needed and volume.least_room(most) <= room


def synced(old, now, ino):
    """An earlier state once a file is synced. Its other files are kept. The file is as now, and so are all names, and inodes that aren't files'."""
    state = copy.deepcopy(now)
    for inode in state.inodes.values():
        if inode.kind == "f" and inode.ino != ino and inode.ino in old.inodes:
            vars(inode).update(copy.deepcopy(vars(old.inodes[inode.ino])))
    return state


class Judge:
    """What a script has led to so far, and how many of its lines were refused for want of room. If asked to, it keeps the states of the files since
    the last flush that was done or the last unmount, the present one too. An `fsync` that is done takes what it makes last out of them."""

    def __init__(self, volume, keeps=False):
        self.volume, self.model, self.without_room = volume, Model(), 0
        self.states = [copy.deepcopy(self.model)] if keeps else None

    def keep(self, flushed):
        if self.states is not None:
            self.states = ([] if flushed else self.states) + [copy.deepcopy(self.model)]

    def keep_synced(self, ino):
        if self.states is not None:
            self.states = [synced(old, self.model, ino) for old in self.states]

    def served(self, caller, call, others, got):
        """The reply that is wanted in place of this one, or the same."""
        model, limit = self.model, self.volume.orphan_limit
        need = need_of(model, caller, call)
        if got.startswith(("E6 ", "E14 orphans ")):
            tried = copy.deepcopy(model)
            wanted = tried.reply(caller, call)
            if need and wanted.startswith("ok") and got.startswith("E6 "):
                self.without_room += 1
                return got if has_no_room(model, self.volume, need, others, got) else f"{wanted}' or 'E6 with other numbers"
            return got if got == f"E14 orphans {limit}" and limit <= model.orphaned < tried.orphaned else wanted
        wanted = model.reply(caller, call)
        if need and wanted.startswith("ok"):
            self.volume.weight += 2 * need.credits + need.nodes
        return wanted

    def phase_fault(self, lines, printed):
        """The number of the first line of a phase that isn't answered so, and what is wrong; or None. Of a line that isn't answered at all the
        number is that of the first such one."""
        queues = {}
        for at, (caller, call) in enumerate(lines):
            queues.setdefault(caller, deque()).append((at, call))
        counts = dict.fromkeys(queues, 0)
        for _ in lines:
            text = next(printed, "")
            words = text.split(" ", 2)
            caller = int(words[0]) if words[0].isdigit() else 0
            if not queues.get(caller) or len(words) < 3:
                return min(queue[0][0] for queue in queues.values() if queue), f"'{text}' is no line of a caller who has one left"
            at, call = queues[caller].popleft()
            counts[caller] += 1
            wanted = f"{caller} {counts[caller]} {self.served(caller, call, len(queues) - 1, words[2])}"
            if text != wanted:
                return at, f"{shown((caller, call))}: '{text}' in place of '{wanted}'"
            if call[0] not in QUESTIONS and words[2].startswith("ok"):
                self.keep(call[0] == "flush")
            if call[0] == "fsync" and words[2].startswith("ok"):
                self.keep_synced(self.model.slots[caller, call[1]].ino)
        return None

    def control_fault(self, control, printed):
        if control[0] == "now":
            self.model.now = control[1]
        if control[0] not in ("mount", "unmount"):
            return None
        if control[0] == "unmount":
            self.model.unmount()
            self.keep(True)
        wanted, got = "unmount clean" if control[0] == "unmount" else "mount rw", next(printed, "")
        return None if got == wanted else f"{shown(control)}: '{got}' in place of '{wanted}'"

    def fault(self, script, text):
        """The number of the first line of a script that isn't answered so, and what is wrong; or None."""
        *lines, rest = text.split("\n")
        if rest:
            return len(script), f"'{rest}' is no whole line"
        printed = iter(lines)
        phase = []
        for at, line in enumerate(script + [("now", 0)]):
            if line[0] not in CONTROLS:
                phase.append(line)
                continue
            fault = self.phase_fault(phase, printed) if phase else None
            if fault:
                return at - len(phase) + fault[0], fault[1]
            why = self.control_fault(line, printed)
            if why:
                return at, why
            phase = []
        more = next(printed, None)
        return None if more is None else (len(script), f"'{more}' is a line too many")


def shown(line):
    """A line of a script: a control line's words, or a caller and a call."""
    if line[0] in CONTROLS:
        return " ".join(str(word) for word in line)
    caller, (name, *words) = line
    return " ".join([str(caller), name] + [f"{word:o}" if name in MODED and isinstance(word, int) else str(word) for word in words])


def line_of(text):
    """The line that is shown so."""
    words = text.split(" ")
    if words[0] in CONTROLS:
        return words[0], *(int(word) for word in words[1:])
    caller, name, *words = words
    paths = 2 if name in OF_TWO else 1 if name in OF_ONE_PATH else 0
    return int(caller), (name, *words[:paths], *(int(word, 8 if name in MODED else 10) for word in words[paths:]))


def volume_of(head):
    """The volume that the first line of a manifest describes."""
    return Volume(*(int(word) for word in head.split(" ")[1:]))


def main(manifest, script, text):
    with open(manifest) as file:
        head, *rest = file.read().splitlines()
    if rest != ["end"]:
        sys.exit("the manifest has files")
    with open(script) as file:
        lines = [line_of(line) for line in file.read().splitlines()[:-1]]
    with open(text, newline="") as file:
        fault = Judge(volume_of(head)).fault(lines, file.read())
    if fault:
        sys.exit(f"line {fault[0] + 1}: {fault[1]}")


if __name__ == "__main__":
    main(*sys.argv[1:])
