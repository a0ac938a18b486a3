#!/usr/bin/env python3
"""Compares what the program prints of an image with what is reckoned here without it, for images that were laid at once: each leaf that
stands in the main area is one of the tree's, and so is each index node.

Words: an image. It prints what differs first, and nothing if all is the same. `check` has to tell the image as sound and clean, with its
numbers. `dump` has to list each node that is found here: every place that is a multiple of 8 at which a node begins whose checksum matches.
"""

import os
import struct
import subprocess
import sys
import zlib

TOP = os.path.dirname(os.path.dirname(os.path.abspath(__file__)))
MAGIC = struct.pack("<I", 0x06101831)
TYPES = "ino data dent xent trun pad sb mst ref idx cs orph".split()


def sizes_of(image):
    """The bytes of a LEB, and the fanout."""
    return struct.unpack_from("<I", image, 36)[0], struct.unpack_from("<I", image, 72)[0]


def areas_of(image):
    """The first LEB of the properties, of the orphans and of the main area, and the LEBs of the volume."""
    leb_cnt, log_lebs, lpt_lebs, orph_lebs = (struct.unpack_from("<I", image, place)[0] for place in (40, 56, 60, 64))
    return 3 + log_lebs, 3 + log_lebs + lpt_lebs, 3 + log_lebs + lpt_lebs + orph_lebs, leb_cnt


def places_of(image):
    """The places at which a node may begin."""
    place = image.find(MAGIC)
    while place >= 0:
        if place % 8 == 0:
            yield place
        place = image.find(MAGIC, place + 1)


def found(image):
    """Each node: its LEB, place, type, length and sequence number."""
    leb_size, _ = sizes_of(image)
    first, past, _, _ = areas_of(image)
    for place in places_of(image):
        if first <= place // leb_size < past or place + 24 > len(image):
            continue
        crc, sqnum, length, kind = struct.unpack_from("<IQIB", image, place + 4)
        # Behind the superblock in LEB 0 only padding up to the unit's end may stand. Else the text ends there.
        if 0 < place < leb_size and (place != 4096 or kind != TYPES.index("pad")):
            continue
        node = image[place : place + length]
        if len(node) == length >= 28 and zlib.crc32(node[8:]) ^ 0xFFFFFFFF == crc:
            yield place // leb_size, place % leb_size, TYPES[kind], length, sqnum


def listed(text):
    leb = None
    for words in map(str.split, text.splitlines()):
        if words[0] == "leb":
            leb = int(words[1])
        elif words[0] != "tail":
            yield leb, int(words[0]), words[1], int(words[2]), int(words[3])


def up_to_8(length):
    return (length + 7) // 8 * 8


def line_of(image, nodes):
    """What a check has to print."""
    leb_size, fanout = sizes_of(image)
    _, _, first, leb_cnt = areas_of(image)
    leaves = [node for node in nodes if node[2] in ("ino", "data", "dent")]
    index = [node for node in nodes if node[2] == "idx"]
    full = sum(struct.unpack_from("<H", image, leb * leb_size + place + 24)[0] == fanout for leb, place, *_ in index)
    taken = {node[0] for node in leaves + index}
    used = sum(up_to_8(length) for _, _, _, length, _ in leaves)
    index_lebs = {node[0] for node in index}
    return f"sound clean used {used} empty {leb_cnt - first - len(taken)} index {len(index_lebs)} weight {len(index) + full}\n"


def run_program(command, image):
    return subprocess.run([os.path.join(TOP, "ubifs"), command, image], capture_output=True, text=True, timeout=120)


def fault_of_listing(wanted, told):
    for one, other in zip(wanted, told):
        if one != other:
            return f"{other} in place of {one}"
    return "" if len(wanted) == len(told) else f"{len(told)} nodes in place of {len(wanted)}"


def fault_of_image(image):
    """What differs first, or nothing."""
    with open(image, "rb") as file:
        content = file.read()
    wanted = list(found(content))
    runs = {command: run_program(command, image) for command in ("check", "dump")}
    for command, run in runs.items():
        if run.returncode != 0:
            return f"{command}: status {run.returncode}: {run.stdout[:200]}"
    if runs["check"].stdout != line_of(content, wanted):
        return f"{runs['check'].stdout}in place of {line_of(content, wanted)}"
    return fault_of_listing(wanted, list(listed(runs["dump"].stdout)))


if __name__ == "__main__":
    fault = fault_of_image(sys.argv[1])
    if fault:
        print(fault)
