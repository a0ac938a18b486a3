#!/usr/bin/env python3
"""Prints the checksum of so many MiB of the bytes 0 to 250 over and over, and the nanoseconds of the best of five turns."""

import sys
import time
import zlib

size = int(sys.argv[1]) << 20
data = (bytes(range(251)) * (size // 251 + 1))[:size]
best = None
for _ in range(5):
    start = time.perf_counter_ns()
    total = zlib.crc32(data)
    taken = time.perf_counter_ns() - start
    best = taken if best is None else min(best, taken)
print(f"{total ^ 0xFFFFFFFF:08x} {best}")
