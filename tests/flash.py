#!/usr/bin/env python3
"""Writes to standard output the image that a description says. It is made from the public format and shares nothing with the program.

Words: a description, and, if more lines are to follow those in it, these with semicolons between them. A line may have a
comment behind a `#`. First a volume is laid out whole, if one is described; then the lines that begin with a place, `erase` or
`size` change its bytes, in their order. Without a volume they change nothing but what they put.

The volume. PATH and NAME are escaped as in a script; FIELD is a field of ubifs-media.h, `sqnum` or `group`.

    volume MAIN [SIZE=VALUE ..]         its main LEBs; SIZE is leb_size, unit, fanout, log_lebs, lpt_lebs, orph_lebs or max_main
    commit NUMBER                       the commit of which its master is
    leaves COUNT                        at most so many leaves stand in a LEB
    file INO PATH BYTES [FIELD=VALUE ..]
    dir INO PATH [FIELD=VALUE ..]       the root, INO 1, is always there
    symlink INO PATH TARGET
    special INO PATH KIND               KIND is b, c, p or s
    link INO PATH                       another name
    leaf LEAF                           a leaf by itself; LEAF is one of those below
    no ino INO, no dent DIR NAME, no data INO BLOCK
                                        the volume lacks a leaf that it would have
    lprop LEB FIELD=VALUE ..            of a main LEB other properties are told: free, dirty, index
    orphans INO ..                      the list of orphans
    bud LEB HEAD [OFFS]                 the log names a LEB, and in it, from OFFS on, stand the nodes of the lines that follow:
        ino INO KIND NLINK [FIELD=VALUE ..]
        dent DIR NAME INO KIND [FIELD=VALUE ..]
        data INO BLOCK BYTES [FIELD=VALUE ..]
        trun INO OLD NEW [FIELD=VALUE ..]
        pad BYTES                       a gap of so many bytes
        copy LEB:OFFS                   the node that stands there

LEAF is one of the first three. Links and sizes of directories, and links of files, are those of the tree that is described.
Sequence numbers go up from 1: the superblock, the masters, the log, the orphans, the leaves in order of key, the index from
the lowest level up, the buds.

The changes.

    LEB:OFFS NODE SQNUM [FIELD=VALUE ..]   a node: sb, mst, ref, cs, idx, orph, trun or data, whose fields are the volume's, or examples
    LEB:OFFS gap BYTES                  a padding node and its zeros, or 0xCE where they are fewer than 28
    LEB:OFFS bytes COUNTxHH,..          bytes
    LEB:OFFS set FIELD=VALUE ..         fields of the node there, whose checksum is made anew; `branch0.lnum` is one of an index node's
    LEB:OFFS torn [SQNUM]               the last byte of the node there, or of a master that is put there, is another
    LEB:OFFS copy LEB:OFFS BYTES        bytes from elsewhere
    LEB:OFFS mend                       the checksum of the node there is made anew
    LEB:OFFS mend16 BYTES               that of a node of the properties tree
    erase LEB ..                        LEBs
    size BYTES                          the image is cut, or goes on erased
"""

import sys
from urllib.parse import unquote_to_bytes

import media
import volume
from media import BLOCK

LEB_SIZE = 16384

# What a node has if a line doesn't say it: the superblock and the master of a volume of 64 main LEBs, and other nodes filled by example.
EXAMPLES = {
    "sb": volume.Shape(64).super_values(),
    "mst": {
        "log_lnum": 3, "root_lnum": 10, "root_len": 48, "ihead_lnum": 10, "ihead_offs": 512, "lpt_lnum": 7, "ltab_lnum": 7,
        "ltab_offs": 300,
    },
    "ref": {"lnum": 11, "jhead": 2},
    "cs": {"cmt_no": 7},
    "trun": {"inum": 65, "old_size": 5000, "new_size": 4096},
}


def sample(length):
    return (b"bytes" * length)[:length]


def fields_in(words):
    """The words that say FIELD=VALUE."""
    pairs = (word.split("=") for word in words if "=" in word)
    return {name: int(value, 0) for name, value in pairs}


def plain(words):
    return [word for word in words if "=" not in word]


def place_in(word):
    lnum, offs = word.split(":")
    return int(lnum), int(offs)


class Node:
    """A node that a line describes, which is made once its sequence number is known."""

    def __init__(self, words):
        self.kind, *rest = words
        self.words, self.values = plain(rest), fields_in(words)
        self.group = self.values.pop("group", 0)
        self.sqnum = self.values.pop("sqnum", None)

    def leaf(self):
        """The node as a leaf of the index."""
        key, name = self.key()
        return volume.Leaf(key, name, self.made)

    def key(self):
        if self.kind == "dent":
            name = unquote_to_bytes(self.words[1])
            return media.key(int(self.words[0]), media.DENT, media.r5(name)), name
        if self.kind == "data":
            return media.key(int(self.words[0]), media.DATA, int(self.words[1])), b""
        return media.key(int(self.words[0]), media.INO, 0), b""

    def made(self, sqnum):
        return getattr(self, f"made_{self.kind}")(sqnum if self.sqnum is None else self.sqnum)

    def made_ino(self, sqnum):
        ino, kind, nlink = self.words
        return media.inode(sqnum, int(ino), kind, 0o644, int(nlink), 0, group=self.group, **self.values)

    def made_dent(self, sqnum):
        parent, name, ino, kind = self.words
        return media.entry(sqnum, int(parent), unquote_to_bytes(name), int(ino), kind, self.group, **self.values)

    def made_data(self, sqnum):
        ino, number, length = map(int, self.words)
        return media.block(sqnum, ino, number, sample(length), self.group, **self.values)

    def made_trun(self, sqnum):
        return media.truncation(sqnum, *map(int, self.words), self.group)

    def stand(self, medium):
        """The bytes of a line that stands in a bud."""
        if self.kind == "pad":
            return media.gap(int(self.words[0]))
        if self.kind == "copy":
            lnum, offs = place_in(self.words[0])
            return medium.read(lnum, offs, int.from_bytes(medium.read(lnum, offs + 16, 4), "little"))
        return self.made(medium.next_number())


class Tree:
    """Inodes and their names, of which the leaves of an index are made."""

    def __init__(self):
        self.numbers = {b"": 1}
        self.inodes = {1: ("d", 0o755, 0, b"", {})}
        self.names, self.loose, self.lacking = [], [], []

    def add(self, ino, path, kind, mode=0o644, size=0, data=b"", values=None):
        self.inodes[ino] = kind, mode, size, data, values or {}
        self.name(ino, path)

    def name(self, ino, path):
        path = unquote_to_bytes(path)
        parent, name = path.rsplit(b"/", 1)
        self.names.append((self.numbers[parent], name, ino, self.inodes[ino][0]))
        self.numbers[path] = ino

    def links(self, ino):
        if self.inodes[ino][0] != "d":
            return sum(child == ino for _, _, child, _ in self.names)
        return 2 + sum(parent == ino and kind == "d" for parent, _, _, kind in self.names)

    def size_of(self, ino):
        kind, _, size, _, _ = self.inodes[ino]
        if kind != "d":
            return size
        return 160 + sum(media.up_to(57 + len(name), 8) for parent, name, _, _ in self.names if parent == ino)

    def leaf_of_inode(self, ino):
        kind, mode, _, data, values = self.inodes[ino]
        nlink, size = self.links(ino), self.size_of(ino)

        def made(sqnum):
            return media.inode(sqnum, ino, kind, mode, nlink, size, data, **values)

        return volume.Leaf(media.key(ino, media.INO, 0), b"", made)

    def leaves(self):
        found = list(self.loose)
        for ino, (kind, _, size, _, _) in self.inodes.items():
            found.append(self.leaf_of_inode(ino))
            if kind == "f":
                sizes = (min(BLOCK, size - at) for at in range(0, size, BLOCK))
                found += [Node(["data", str(ino), str(number), str(length)]).leaf() for number, length in enumerate(sizes)]
        for parent, name, ino, kind in self.names:
            found.append(Node(["dent", str(parent), name.decode(), str(ino), kind]).leaf())
        kept = [leaf for leaf in found if (leaf.key, leaf.name) not in self.lacking]
        return sorted(kept, key=lambda leaf: (leaf.key, leaf.name))


class Description:
    """What the lines say: a volume, and changes of its bytes."""

    def __init__(self):
        self.shape, self.tree = None, Tree()
        self.content = volume.Content(None, [], [], [])
        self.changes = []

    def read(self, line):
        words = line.split("#")[0].split()
        if not words:
            return
        if ":" in words[0] or words[0] in ("erase", "size"):
            self.changes.append(words)
        elif words[0] in ("ino", "dent", "data", "trun", "pad", "copy"):
            self.content.buds[-1].nodes.append(Node(words).stand)
        elif hasattr(self, f"read_{words[0]}"):
            getattr(self, f"read_{words[0]}")(*words[1:])
        else:
            sys.exit(f"{words[0]}: no such line")

    def read_volume(self, main, *sizes):
        self.content.shape = volume.Shape(int(main), **fields_in(sizes))

    def read_commit(self, number):
        self.content.cmt_no = int(number)

    def read_leaves(self, count):
        self.content.leaves_a_leb = int(count)

    def read_file(self, ino, path, size, *fields):
        self.tree.add(int(ino), path, "f", size=int(size), values=fields_in(fields))

    def read_dir(self, ino, path, *fields):
        self.tree.add(int(ino), path, "d", mode=0o755, values=fields_in(fields))

    def read_symlink(self, ino, path, target):
        data = unquote_to_bytes(target)
        self.tree.add(int(ino), path, "l", mode=0o777, size=len(data), data=data)

    def read_special(self, ino, path, kind):
        self.tree.add(int(ino), path, kind)

    def read_link(self, ino, path):
        self.tree.name(int(ino), path)

    def read_leaf(self, *words):
        self.tree.loose.append(Node(words).leaf())

    def read_no(self, *words):
        self.tree.lacking.append(Node(words).key())

    def read_lprop(self, lnum, *fields):
        self.content.changed_props.append((int(lnum), fields_in(fields)))

    def read_orphans(self, *numbers):
        self.content.orphans = [int(number) for number in numbers]

    def read_bud(self, lnum, head, offs="0"):
        self.content.buds.append(volume.Bud(int(lnum), int(head), int(offs)))

    def lay(self):
        """Returns the volume as it is before it is changed, and the values of its master."""
        self.content.leaves = self.tree.leaves()
        return volume.lay(self.content)

    def image(self):
        if self.content.shape is None:
            return Changes(bytearray(), LEB_SIZE, EXAMPLES).make(self.changes)
        medium, master = self.lay()
        examples = {**EXAMPLES, "sb": self.content.shape.super_values(), "mst": master}
        return Changes(medium.image, self.content.shape.leb_size, examples).make(self.changes)


class Changes:
    """Changes of an image's bytes."""

    def __init__(self, image, leb_size, examples):
        self.image, self.leb_size, self.examples = image, leb_size, examples

    def at(self, word):
        lnum, offs = place_in(word)
        return lnum * self.leb_size + offs

    def put(self, place, piece):
        self.image[place : place + len(piece)] = piece

    def make(self, changes):
        for first, *words in changes:
            if first == "erase":
                for lnum in words:
                    self.put(int(lnum) * self.leb_size, volume.ERASED * self.leb_size)
            elif first == "size":
                self.image = (self.image + volume.ERASED * int(words[0]))[: int(words[0])]
            else:
                self.change(self.at(first), *words)
        return self.image

    def change(self, place, what, *words):
        if what == "set":
            media.change(self.image, place, fields_in(words))
        elif what == "torn":
            self.tear(place, *words)
        elif what == "mend":
            media.mend(self.image, place)
        elif what == "mend16":
            rest = bytes(self.image[place + 2 : place + int(words[0])])
            self.put(place, media.crc16(rest).to_bytes(2, "little"))
        elif what == "copy":
            start = self.at(words[0])
            self.put(place, self.image[start : start + int(words[1])])
        elif what == "bytes":
            self.put(place, media.runs(words[0]))
        elif what == "gap":
            self.put(place, media.gap(int(words[0])))
        else:
            self.put(place, self.made(what, int(words[0]), fields_in(words)))

    def tear(self, place, sqnum=None):
        if sqnum is not None:
            self.put(place, self.made("mst", int(sqnum), {}))
        length = int.from_bytes(self.image[place + 16 : place + 20], "little")
        self.image[place + length - 1] ^= 1

    def made(self, kind, sqnum, values):
        """A node that stands by itself."""
        group = values.pop("group", 0)
        if kind == "data":
            length = values.pop("len", 5)
            words = media.keyed(media.key(values.pop("ino", 65), media.DATA, values.pop("block", 3)))
            return media.node(media.DATA, sqnum, {**words, "size": length, **values}, sample(length), group)
        if kind == "orph":
            return media.orphans(sqnum, values.pop("cmt_no", 7), [65, 66])
        if kind == "idx":
            return media.index(sqnum, 0, [(12, 64 * number, 60, 65 + number, 0) for number in range(2)])
        values = {**self.examples.get(kind, {}), **values}
        return media.node(media.TYPES[kind], sqnum, values, group=group)


def main():
    description = Description()
    with open(sys.argv[1]) as text:
        for line in [*text, *";".join(sys.argv[2:]).split(";")]:
            description.read(line)
    sys.stdout.buffer.write(description.image())


if __name__ == "__main__":
    main()
