#!/usr/bin/env python3
"""Writes to standard output the image that a run is to leave.

Words: a manifest, whose first line may have further sizes SIZE=VALUE as tests/flash.py does, or the word `packed`, and a description of the tree, with the lines

    inode INO KIND MODE NLINK SIZE TIMES [TARGET]
    entry DIR NAME INO KIND
    block INO NUMBER COUNTxHH,COUNTxHH,..
    highest INO

KIND is f, d or l; MODE is octal, without the kind; TIMES is one time, or the times of access, of change and of writing with
commas between them; NAME and TARGET are escaped as in a script. A directory's NLINK and SIZE must be those of its entries.
The highest number that was ever used is that of an inode of the tree, or 64, if no line says it.

It is written from the public format alone (tests/media.py, tests/volume.py) and from the rule of this stage: the nodes in order
of key fill the main LEBs from the first on, a LEB taking nodes while they fit. Behind them stands the index, level by level,
each node full but for the last of its level. Sequence numbers begin there, and the superblock has the last one. It shares
nothing with the program.
"""

import sys
from urllib.parse import unquote_to_bytes

import media
import volume
from media import r5, runs

TIMES = ("atime_sec", "ctime_sec", "mtime_sec")


def tree_of(lines):
    """The inodes, entries and blocks of a description, and the highest number."""
    inodes, entries, blocks, highest = {}, [], {}, 64
    for what, *words in map(str.split, lines):
        if what == "inode":
            ino, kind, mode, nlink, size, times, *target = words
            times = [int(time) for time in times.split(",")]
            times = times * 3 if len(times) == 1 else times
            target = unquote_to_bytes(target[0]) if target else b""
            inodes[int(ino)] = kind, int(mode, 8), int(nlink), int(size), times, target
        elif what == "entry":
            parent, name, ino, kind = words
            entries.append((int(parent), unquote_to_bytes(name), int(ino), kind))
        elif what == "block":
            ino, number, text = words
            blocks[int(ino), int(number)] = runs(text)
        elif what == "highest":
            highest = int(words[0])
        else:
            sys.exit(f"{what}: no such line")
    return inodes, entries, blocks, highest


def inode_leaf(ino, kind, mode, nlink, size, times, target):
    def made(sqnum):
        return media.inode(sqnum, ino, kind, mode, nlink, size, target, **dict(zip(TIMES, times)))

    return volume.Leaf(media.key(ino, media.INO, 0), b"", made)


def block_leaf(ino, number, data):
    return volume.Leaf(media.key(ino, media.DATA, number), b"", lambda sqnum: media.block(sqnum, ino, number, data))


def entry_leaf(parent, name, child, kind):
    return volume.Leaf(media.key(parent, media.DENT, r5(name)), name, lambda sqnum: media.entry(sqnum, parent, name, child, kind))


def leaves_of(inodes, entries, blocks):
    """Inode by inode its node, then those of its blocks, then those of the entries in it."""
    leaves = []
    for ino in sorted(inodes):
        kind, mode, nlink, size, times, target = inodes[ino]
        within = sorted((r5(name), name, child, type_) for parent, name, child, type_ in entries if parent == ino)
        if kind == "d":
            assert nlink == 2 + sum(type_ == "d" for _, _, _, type_ in within), f"links of {ino}"
            assert size == 160 + sum(media.up_to(57 + len(name), 8) for _, name, _, _ in within), f"size of {ino}"
        leaves.append(inode_leaf(ino, kind, mode, nlink, size, times, target))
        leaves += [block_leaf(ino, number, blocks[ino, number]) for number in sorted(number for owner, number in blocks if owner == ino)]
        leaves += [entry_leaf(ino, name, child, type_) for _, name, child, type_ in within]
    return leaves


def lebs_of(leaves, leb_size, **sizes):
    """The main LEBs that leaves and their index take, laid into as many as there are leaves and nodes at most, and one that stays empty."""
    content = volume.Content(volume.Shape(2 * len(leaves) + 2, leb_size=leb_size, **sizes), leaves, [], [])
    medium = volume.Medium(content.shape)
    index, _ = volume.lay_index(medium, content, volume.lay_leaves(medium, content).lnum)
    return index.lnum - content.shape.main_first + 1


def main():
    manifest, description = sys.argv[1:]
    with open(manifest) as text:
        _, *words = text.readline().split()
    leb_size, unit, lebs, fanout = (int(word) for word in words if word.isdigit())
    sizes = {name: int(value) for name, value in (word.split("=") for word in words if "=" in word)}
    with open(description) as text:
        inodes, entries, blocks, highest = tree_of(text)
    leaves = leaves_of(inodes, entries, blocks)
    sizes.update(leb_size=leb_size, unit=unit, fanout=fanout)
    if words[-1] == "packed":
        lebs, sizes["max_main"] = lebs_of(leaves, **sizes), lebs
    content = volume.Content(volume.Shape(lebs, **sizes), leaves, [], [], superblock_last=True, highest=highest)
    medium, _ = volume.lay(content)
    sys.stdout.buffer.write(medium.image)


main()
