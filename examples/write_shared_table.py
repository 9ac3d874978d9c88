#!/usr/bin/env python3
"""Writes a table that two firms share to standard output: write_shared_table.py > shared-table.tab

Densities in kg/m3, numbers little-endian, codes rising within a firm. A call that names a firm goes by its classes alone: code 200
is hardwood for firm 1 and softwood for firm 2, and code 9 is no class for firm 2.
"""
import struct
import sys

SOFTWOOD, HARDWOOD = 0, 1
#    code, kind, density
firm_1 = [                      # the sawmill of write_own_table.py
    (1, SOFTWOOD, 372),
    (9, HARDWOOD, 580),
    (200, HARDWOOD, 660),
]
firm_2 = [
    (1, SOFTWOOD, 350),
    (200, SOFTWOOD, 440),
]

stretches = [b"".join(struct.pack("<BBH", *entry) for entry in classes) for classes in (firm_1, firm_2)]
table = struct.pack("<H", len(stretches))           # number of pairs
offset = 10
for stretch in stretches:
    table += struct.pack("<HH", offset, len(stretch))
    offset += len(stretch)
sys.stdout.buffer.write(table + b"".join(stretches))
