#!/usr/bin/env python3
"""Writes a sawmill's table of classes to standard output: write_own_table.py > own-table.tab

Densities in kg/m3, numbers little-endian, codes rising. The table takes the place of the printed one: a class that is not listed
here is not known with it, also where it is a printed one.
"""
import struct
import sys

SOFTWOOD, HARDWOOD = 0, 1
#    code, kind, density
classes = [
    (1, SOFTWOOD, 372),         # C24's code, the sawmill's own density
    (9, HARDWOOD, 580),         # D30's code
    (200, HARDWOOD, 660),       # a class of the sawmill's own
]

entries = b"".join(struct.pack("<BBH", *entry) for entry in classes)
sys.stdout.buffer.write(struct.pack("<HHH", 1, 6, len(entries)) + entries)     # number of pairs, offset, length
