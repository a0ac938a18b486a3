"""A whole volume of UBIFS as bytes: areas, leaves, index, properties, log, masters (the layout of mkfs.ubifs and of Linux fs/ubifs).

It shares nothing with the program.
"""

from dataclasses import dataclass, field

import media
from media import up_to

ERASED = b"\xff"
SUPER_SIZE, MASTER_SIZE, REF_SIZE = 4096, 512, 64


@dataclass
class Shape:
    """The sizes of a volume."""

    main: int
    leb_size: int = 16384
    unit: int = 512
    fanout: int = 8
    log_lebs: int = 4
    lpt_lebs: int = 2
    orph_lebs: int = 1
    max_main: int = 0

    @property
    def lpt_first(self):
        return 3 + self.log_lebs

    @property
    def orph_first(self):
        return self.lpt_first + self.lpt_lebs

    @property
    def main_first(self):
        return self.orph_first + self.orph_lebs

    @property
    def leb_cnt(self):
        return self.main_first + self.main

    @property
    def max_leb_cnt(self):
        return self.main_first + max(self.main, self.max_main)

    def super_values(self):
        return {
            "min_io_size": self.unit, "leb_size": self.leb_size, "leb_cnt": self.leb_cnt, "max_leb_cnt": self.max_leb_cnt,
            "max_bud_bytes": 8 * self.leb_size, "log_lebs": self.log_lebs, "lpt_lebs": self.lpt_lebs,
            "orph_lebs": self.orph_lebs, "jhead_cnt": 1, "fanout": self.fanout, "lsave_cnt": 256, "fmt_version": 4,
            "time_gran": 1000000000,
        }


@dataclass
class Lprop:
    """What is known of a main LEB: its free and its dirty bytes, and whether it is one of the index's."""

    free: int
    dirty: int = 0
    index: int = 0


@dataclass
class Leaf:
    """A leaf of the index: its key as two words, its name if it is an entry, and how its node is made of a sequence number."""

    key: tuple
    name: bytes
    made: object
    place: tuple = ()


@dataclass
class Bud:
    """A LEB that the log names for a head, from an offset on, with what makes the node at each place of it."""

    lnum: int
    head: int
    offs: int
    nodes: list = field(default_factory=list)


@dataclass
class Content:
    """What a volume is to hold."""

    shape: Shape
    leaves: list
    buds: list
    orphans: list
    cmt_no: int = 0
    leaves_a_leb: int = 0
    changed_props: list = field(default_factory=list)
    superblock_last: bool = False
    highest: int = 64


class Medium:
    """The bytes of a volume, which are written place by place, and the last sequence number."""

    def __init__(self, shape):
        self.shape = shape
        self.image = bytearray(ERASED * (shape.leb_cnt * shape.leb_size))
        self.sqnum = 0

    def next_number(self):
        self.sqnum += 1
        return self.sqnum

    def put(self, lnum, offs, piece):
        start = lnum * self.shape.leb_size + offs
        if piece and start + len(piece) > len(self.image):
            raise SystemExit("the volume has no room for this")
        self.image[start : start + len(piece)] = piece

    def read(self, lnum, offs, length):
        start = lnum * self.shape.leb_size + offs
        return bytes(self.image[start : start + length])

    def fill(self, lnum, end):
        """Fills up the unit in which a text ends, and returns its end."""
        whole = up_to(end, self.shape.unit)
        self.put(lnum, end, media.gap(whole - end))
        return whole


class Packer:
    """Puts pieces one behind another into main LEBs, and keeps count of their space."""

    def __init__(self, medium, lnum, most=0, index=0):
        self.medium, self.lnum, self.most, self.index = medium, lnum, most, index
        self.end, self.count, self.props = 0, 0, {}

    def put(self, piece):
        """Returns the place of the piece and its length."""
        text = media.with_gap(piece)
        if self.end + len(text) > self.medium.shape.leb_size or 0 < self.most == self.count:
            self.close()
        self.medium.put(self.lnum, self.end, text)
        place = self.lnum, self.end, len(piece)
        self.end, self.count = self.end + len(text), self.count + 1
        return place

    def close(self):
        """Ends a LEB, if one is begun."""
        if self.end:
            end = self.medium.fill(self.lnum, self.end)
            self.props[self.lnum] = Lprop(self.medium.shape.leb_size - end, end - self.end, self.index)
            self.lnum, self.end, self.count = self.lnum + 1, 0, 0


def lay_leaves(medium, content):
    packer = Packer(medium, content.shape.main_first, content.leaves_a_leb)
    for leaf in content.leaves:
        leaf.place = packer.put(leaf.made(medium.next_number()))
    packer.close()
    return packer


def lay_index(medium, content, first):
    """Returns the packer and the place of the root. Each level has nodes of as many children as the fanout says, but for the last."""
    packer = Packer(medium, first, index=1)
    branches, level = [(*leaf.place, *leaf.key) for leaf in content.leaves], 0
    while level == 0 or len(branches) > 1:
        fanout, above = content.shape.fanout, []
        for at in range(0, len(branches), fanout):
            children = branches[at : at + fanout]
            above.append((*packer.put(media.index(medium.next_number(), level, children)), *children[0][3:]))
        branches, level = above, level + 1
    packer.close()
    return packer, branches[0][:3]


def bits_of(number):
    return number.bit_length()


def packed_bits(kind, fields):
    """A node of the properties tree: its checksum, its type, and fields of (width, value), the lowest bit first."""
    number, at = kind << 16, 20
    for width, value in fields:
        number, at = number | value << at, at + width
    rest = number.to_bytes(up_to(at, 8) // 8, "little")[2:]
    return media.crc16(rest).to_bytes(2, "little") + rest


def pnode(shape, props):
    width = bits_of(shape.leb_size) - 3
    return packed_bits(0, [it for prop in props for it in ((width, prop.free // 8), (width, prop.dirty // 8), (1, prop.index))])


def nnode(shape, places):
    """Places in the properties area, or none."""
    pairs = [(place[0] - shape.lpt_first, place[1]) if place else (shape.lpt_lebs, 0) for place in places]
    widths = bits_of(shape.lpt_lebs), bits_of(shape.leb_size - 1)
    return packed_bits(1, [it for pair in pairs for it in zip(widths, pair)])


def ltab(shape, rows):
    width = bits_of(shape.leb_size)
    return packed_bits(2, [(width, number) for row in rows for number in row])


def fours(items, filler):
    for at in range(0, len(items), 4):
        four = items[at : at + 4]
        yield four + [filler] * (4 - len(four))


def lay_properties(medium, shape, props):
    """Returns the places of the root and of the ltab, and the end."""
    lnum, end = shape.lpt_first, 0
    beyond = [Lprop(0)] * (up_to(shape.max_leb_cnt - shape.main_first, 4) - len(props))
    row = [pnode(shape, four) for four in fours(props + beyond, None)]
    levels = 0
    while True:
        places = []
        for piece in row:
            medium.put(lnum, end, piece)
            places.append((lnum, end))
            end += len(piece)
        if levels > 0 and len(places) == 1:
            break
        row, levels = [nnode(shape, four) for four in fours(places, None)], levels + 1
    table = ltab(shape, [(0, 0)] * shape.lpt_lebs)
    written = up_to(end + len(table), shape.unit)
    rows = [(shape.leb_size - written, written - end - len(table))] + [(shape.leb_size, 0)] * (shape.lpt_lebs - 1)
    medium.put(lnum, end, ltab(shape, rows))
    return places[0], (lnum, end), (lnum, written)


def lay_buds(medium, content):
    for bud in content.buds:
        end = bud.offs
        for made in bud.nodes:
            text = media.with_gap(made(medium))
            medium.put(bud.lnum, end, text)
            end += len(text)
        medium.fill(bud.lnum, end)


def lay_log(medium, content):
    """A commit start, and each reference in a unit of its own. A log LEB that is full goes on in the next."""
    lnum, end = 3, 0
    pieces = [media.node(media.CS, medium.next_number(), {"cmt_no": content.cmt_no})]
    for bud in content.buds:
        values = {"lnum": bud.lnum, "offs": bud.offs, "jhead": bud.head}
        pieces.append(media.node(media.REF, medium.next_number(), values))
    for piece in pieces:
        if end + REF_SIZE > content.shape.leb_size:
            lnum, end = lnum + 1, 0
        if lnum == content.shape.lpt_first:
            raise SystemExit("the log has no room for this")
        medium.put(lnum, end, piece)
        end = medium.fill(lnum, end + len(piece))


def lay_orphans(medium, content):
    if content.orphans:
        piece = media.orphans(medium.next_number(), content.cmt_no, content.orphans)
        medium.put(content.shape.orph_first, 0, piece)
        medium.fill(content.shape.orph_first, len(piece))


def wasted(shape, prop):
    """The dead and the dark bytes of a LEB with these properties (`ubifs_calc_dark` of Linux fs/ubifs/lprops.c)."""
    left, dead_mark, dark_mark = prop.free + prop.dirty, up_to(56, shape.unit), up_to(4256, shape.unit)
    if prop.index:
        return 0, 0
    if left < dead_mark:
        return left, 0
    if left < dark_mark:
        return 0, left
    return 0, left - 56 if left - dark_mark < 56 else dark_mark


def wastes_of(content, props):
    """The sums of dead and of dark bytes, which no rule reads."""
    dead, dark = zip(*(wasted(content.shape, prop) for prop in props))
    return {"total_dead": sum(dead), "total_dark": sum(dark)}


def sums_of(content, props):
    """What a master says of the space of the volume."""
    index = sum(content.shape.leb_size - prop.free - prop.dirty for prop in props if prop.index)
    used = sum(content.shape.leb_size - prop.free - prop.dirty for prop in props if not prop.index)
    return {
        "index_size": index, "total_free": sum(prop.free for prop in props), "total_dirty": sum(prop.dirty for prop in props),
        "total_used": used, "empty_lebs": sum(prop.free == content.shape.leb_size for prop in props),
        "idx_lebs": sum(prop.index for prop in props), "leb_cnt": content.shape.leb_cnt,
    }


def first_empty(content, props):
    return next((content.shape.main_first + at for at, prop in enumerate(props) if prop.free == content.shape.leb_size), 0)


def lay(content):
    """Lays a volume out. Returns its bytes, and the values of its master.

    Sequence numbers go on from the superblock's. Where it is last, as a maker writes it, they begin in the main area.
    """
    shape = content.shape
    medium = Medium(shape)
    numbers = {}

    def lay_areas():
        if not content.superblock_last:
            numbers["super"], numbers["masters"] = medium.next_number(), (medium.next_number(), medium.next_number())
        lay_log(medium, content)
        lay_orphans(medium, content)
        if content.superblock_last:
            numbers["masters"], numbers["super"] = (medium.next_number(), medium.next_number()), medium.next_number()

    if not content.superblock_last:
        lay_areas()
    leaves = lay_leaves(medium, content)
    index, root = lay_index(medium, content, leaves.lnum)
    lay_buds(medium, content)
    if content.superblock_last:
        lay_areas()

    told = {**leaves.props, **index.props}
    props = [told.get(shape.main_first + at, Lprop(shape.leb_size)) for at in range(shape.main)]
    last = index.lnum - 1
    head = shape.leb_size - told[last].free
    master = {
        **sums_of(content, props), "highest_inum": max([content.highest] + [leaf.key[0] for leaf in content.leaves]), "cmt_no": content.cmt_no,
        "flags": 0 if content.orphans else 2, "log_lnum": 3, "root_lnum": root[0], "root_offs": root[1], "root_len": root[2],
        "gc_lnum": first_empty(content, props), "ihead_lnum": last, "ihead_offs": head, "lscan_lnum": shape.main_first,
    }
    if content.superblock_last:
        master.update(wastes_of(content, props))
    for lnum, values in content.changed_props:
        vars(props[lnum - shape.main_first]).update(values)
    place, table, end = lay_properties(medium, shape, props)
    for name, (lnum, offs) in {"lpt": place, "ltab": table, "nhead": end}.items():
        master[f"{name}_lnum"], master[f"{name}_offs"] = lnum, offs
    medium.put(0, 0, media.node(media.SB, numbers["super"], shape.super_values()))
    for lnum, sqnum in zip((1, 2), numbers["masters"]):
        medium.put(lnum, 0, media.node(media.MST, sqnum, master))
    if content.superblock_last:
        for lnum, size in ((0, SUPER_SIZE), (1, MASTER_SIZE), (2, MASTER_SIZE)):
            medium.fill(lnum, size)
    return medium, master
