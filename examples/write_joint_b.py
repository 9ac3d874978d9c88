#!/usr/bin/env python3
"""Writes the record of joint B to standard output: write_joint_b.py [--version 2] > joint-b.rec

In version 2 edges are judged by EN 1995-1-1, Table 8.5; without the option the version is 1. Lengths in tenths of a millimetre, forces
in newtons, numbers little-endian.
"""
import struct
import sys

if sys.argv[1:] not in ([], ["--version", "1"], ["--version", "2"]):
    sys.exit("usage: write_joint_b.py [--version 1 | --version 2]")
version = int(sys.argv[2]) if sys.argv[1:] else 1

C24, GRAIN_X, S235, MEDIUM = 1, 0, 1, 3
shear_planes = 2
#        class, grain, thickness, x0, y0, x1, y1
side = (C24, GRAIN_X, 600, -840, -360, 20000, 720)
middle = (C24, GRAIN_X, 800, -20000, -360, 1440, 720)
diameter_mm = 12
dowels = [(0, 0), (600, 0), (0, 360), (600, 360)]
service_class = 1
force = (20000, 0)              # that the dowels put into member 2

parts = [
    struct.pack("<BB", 1, shear_planes) + b"".join(struct.pack("<BBH4i", *m) for m in (side, middle)),
    struct.pack("<BBB", 2, diameter_mm, S235),
    struct.pack("<BB", 3, len(dowels)) + b"".join(struct.pack("<ii", *xy) for xy in dowels),
    struct.pack("<BBBii", 4, service_class, MEDIUM, *force),
]
record = struct.pack("<HH", version, len(parts))    # the second is the number of pairs
offset = 20
for part in parts:
    record += struct.pack("<HH", offset, len(part))
    offset += len(part)
sys.stdout.buffer.write(record + b"".join(parts))
