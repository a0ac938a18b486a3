"""The nodes of UBIFS as bytes: headers, fields, keys and checksums, from the public format (ubifs-media.h of Linux).

It shares nothing with the program.
"""

import struct
import zlib

MAGIC = 0x06101831
INO, DATA, DENT, XENT, TRUN, PAD, SB, MST, REF, IDX, CS, ORPH = range(12)
TYPES = dict(ino=INO, data=DATA, dent=DENT, xent=XENT, trun=TRUN, pad=PAD, sb=SB, mst=MST, ref=REF, idx=IDX, cs=CS, orph=ORPH)
TYPE_BITS = dict(f=0o100000, d=0o040000, l=0o120000, b=0o060000, c=0o020000, p=0o010000, s=0o140000)
ENTRY_TYPES = dict(f=0, d=1, l=2, b=3, c=4, p=5, s=6)
BLOCK = 4096

# The fields of each node in order, each with its width in bytes. A key is two words, behind which eight bytes are unused.
HEADER = [("magic", 4), ("crc", 4), ("sqnum", 8), ("len", 4), ("node_type", 1), ("group_type", 1), ("header_padding", 2)]
KEY = [("key_first", 4), ("key_second", 4), ("key_unused", 8)]
BRANCH = [("lnum", 4), ("offs", 4), ("len", 4), ("key_first", 4), ("key_second", 4)]
ENTRY = KEY + [("inum", 8), ("padding1", 1), ("type", 1), ("nlen", 2), ("cookie", 4)]
FIELDS = {
    INO: KEY + [
        ("creat_sqnum", 8), ("size", 8), ("atime_sec", 8), ("ctime_sec", 8), ("mtime_sec", 8), ("atime_nsec", 4),
        ("ctime_nsec", 4), ("mtime_nsec", 4), ("nlink", 4), ("uid", 4), ("gid", 4), ("mode", 4), ("flags", 4), ("data_len", 4),
        ("xattr_cnt", 4), ("xattr_size", 4), ("padding1", 4), ("xattr_names", 4), ("compr_type", 2), ("padding2", 26),
    ],
    DATA: KEY + [("size", 4), ("compr_type", 2), ("compr_size", 2)],
    DENT: ENTRY,
    XENT: ENTRY,
    TRUN: [("inum", 4), ("padding1", 12), ("old_size", 8), ("new_size", 8)],
    PAD: [("pad_len", 4)],
    SB: [
        ("padding", 2), ("key_hash", 1), ("key_fmt", 1), ("flags", 4), ("min_io_size", 4), ("leb_size", 4), ("leb_cnt", 4),
        ("max_leb_cnt", 4), ("max_bud_bytes", 8), ("log_lebs", 4), ("lpt_lebs", 4), ("orph_lebs", 4), ("jhead_cnt", 4),
        ("fanout", 4), ("lsave_cnt", 4), ("fmt_version", 4), ("default_compr", 2), ("padding1", 2), ("rp_uid", 4),
        ("rp_gid", 4), ("rp_size", 8), ("time_gran", 4), ("uuid", 16), ("ro_compat_version", 4), ("padding2", 3968),
    ],
    MST: [
        ("highest_inum", 8), ("cmt_no", 8), ("flags", 4), ("log_lnum", 4), ("root_lnum", 4), ("root_offs", 4), ("root_len", 4),
        ("gc_lnum", 4), ("ihead_lnum", 4), ("ihead_offs", 4), ("index_size", 8), ("total_free", 8), ("total_dirty", 8),
        ("total_used", 8), ("total_dead", 8), ("total_dark", 8), ("lpt_lnum", 4), ("lpt_offs", 4), ("nhead_lnum", 4),
        ("nhead_offs", 4), ("ltab_lnum", 4), ("ltab_offs", 4), ("lsave_lnum", 4), ("lsave_offs", 4), ("lscan_lnum", 4),
        ("empty_lebs", 4), ("idx_lebs", 4), ("leb_cnt", 4), ("padding", 344),
    ],
    REF: [("lnum", 4), ("offs", 4), ("jhead", 4), ("padding", 28)],
    IDX: [("child_cnt", 2), ("level", 2)],
    CS: [("cmt_no", 8)],
    ORPH: [("cmt_no", 8)],
}


def crc(data):
    """CRC-32 from 0xFFFFFFFF on, without the inversion at the end."""
    return zlib.crc32(data) ^ 0xFFFFFFFF


def crc16(data):
    """The checksum of the properties tree's nodes."""
    value = 0xFFFF
    for byte in data:
        value ^= byte
        for _ in range(8):
            value = value >> 1 ^ (0xA001 if value & 1 else 0)
    return value


def packed(layout, values):
    """Fields side by side; those that have no value are 0."""
    unknown = set(values) - {name for name, _ in layout}
    if unknown:
        raise SystemExit(f"no field {', '.join(sorted(unknown))}")
    return b"".join(values.get(name, 0).to_bytes(width, "little") for name, width in layout)


def node(kind, sqnum, values, tail=b"", group=0):
    """A node of these fields, whose other fields are 0, and of the bytes that follow them."""
    body = packed(FIELDS[kind], values) + tail
    covered = struct.pack("<QIBBxx", sqnum, 24 + len(body), kind, group) + body
    return struct.pack("<II", MAGIC, crc(covered)) + covered


def up_to(length, unit):
    return -(-length // unit) * unit


def with_gap(piece):
    """A node and the bytes up to the next multiple of 8."""
    return piece + b"\xce" * (-len(piece) % 8)


def gap(length):
    """What fills the rest of a unit: a padding node, if it has room."""
    if length < 28:
        return b"\xce" * length
    return node(PAD, 0, {"pad_len": length - 28}) + bytes(length - 28)


def runs(text):
    """The bytes of `COUNTxHH,COUNTxHH,..`."""
    parts = (run.split("x") for run in text.split(","))
    return b"".join(bytes([int(byte, 16)]) * int(count) for count, byte in parts)


def r5(name):
    """The hash of a name."""
    a = 0
    for byte in name:
        signed = byte - 256 if byte > 127 else byte
        a = (a + (signed << 4) + (signed >> 4)) * 11 & 0xFFFFFFFF
    a &= 0x1FFFFFFF
    return a + 3 if a <= 2 else a


def key(first, kind, value):
    return first, kind << 29 | value


def keyed(words):
    return {"key_first": words[0], "key_second": words[1]}


def inode(sqnum, ino, kind, permissions, links, length, data=b"", group=0, **values):
    fields = {**keyed(key(ino, INO, 0)), "mode": TYPE_BITS[kind] | permissions, "nlink": links, "size": length, "data_len": len(data)}
    return node(INO, sqnum, {**fields, **values}, data, group)


def entry(sqnum, parent, name, ino, kind, group=0, **values):
    fields = {**keyed(key(parent, DENT, r5(name))), "inum": ino, "type": ENTRY_TYPES[kind], "nlen": len(name)}
    return node(DENT, sqnum, {**fields, **values}, name + b"\0", group)


def block(sqnum, ino, number, data, group=0, **values):
    return node(DATA, sqnum, {**keyed(key(ino, DATA, number)), "size": len(data), **values}, data, group)


def truncation(sqnum, ino, old_size, new_size, group=0):
    return node(TRUN, sqnum, {"inum": ino, "old_size": old_size, "new_size": new_size}, group=group)


def index(sqnum, level, branches):
    """An index node of branches, each a LEB, an offset, a length and the two words of a key."""
    return node(IDX, sqnum, {"child_cnt": len(branches), "level": level}, b"".join(struct.pack("<5I", *branch) for branch in branches))


def orphans(sqnum, cmt_no, numbers):
    """The only orphan node of a commit."""
    return node(ORPH, sqnum, {"cmt_no": 1 << 63 | cmt_no}, b"".join(number.to_bytes(8, "little") for number in numbers))


def places_of(kind):
    """The place in a node of each of its fields, and its width. `branch0.lnum` is one of an index node's branches."""
    layout = HEADER + FIELDS[kind]
    if kind == IDX:
        layout = layout + [(f"branch{number}.{name}", width) for number in range(256) for name, width in BRANCH]
    places, place = {}, 0
    for name, width in layout:
        places[name] = place, width
        place += width
    return places


def mend(image, place):
    """Makes the checksum of the node at a place anew."""
    length = int.from_bytes(image[place + 16 : place + 20], "little")
    image[place + 4 : place + 8] = crc(bytes(image[place + 8 : place + length])).to_bytes(4, "little")


def change(image, place, values):
    """Gives fields of the node at a place other values, and makes its checksum anew."""
    places = places_of(image[place + 20])
    for name, value in values.items():
        at, width = places[name]
        image[place + at : place + at + width] = value.to_bytes(width, "little")
    mend(image, place)
