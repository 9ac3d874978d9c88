#!/usr/bin/env python3
"""write.py LIBRARY [--version N] > joint-b.rec: writes the record of joint B to standard output, in version 1 or version N.

LIBRARY is a shared object with the archive in it, as for judge.py. Lengths in tenths of a millimetre, the diameter in millimetres,
forces in newtons.
"""
import ctypes
import os
import sys

C24, GRAIN_X, S235, MEDIUM = 1, 0, 1, 3
NONE = 0        # versions 1 and 2 of the record have no such field
#        class, grain, gx, gy, thickness, x0, y0, x1, y1
side = (C24, GRAIN_X, NONE, NONE, 600, -840, -360, 20000, 720)
middle = (C24, GRAIN_X, NONE, NONE, 800, -20000, -360, 1440, 720)
shear_planes, diameter_mm, service_class = 2, 12, 1
force = (20000, 0)              # that the dowels put into member 2
# behind the version: 1, or 2 where edges are judged by EN 1995-1-1, Table 8.5
values = (shear_planes, *side, *middle, diameter_mm, S235, NONE, service_class, MEDIUM, *force)
dowels = [(0, 0), (600, 0), (0, 360), (600, 360)]


def load(path):
    write = ctypes.CDLL(os.path.abspath(path)).negwishal_write
    numbers, size = ctypes.POINTER(ctypes.c_int32), ctypes.c_size_t
    write.argtypes = (numbers, size) * 4 + (ctypes.POINTER(ctypes.c_uint8), size, ctypes.POINTER(ctypes.c_uint64), size)
    write.restype = ctypes.c_uint32
    return write


def record(write, fields, dowels):
    """The record's bytes; ValueError with the number of a refusal."""
    def lent(numbers):
        if any(not -(2**31) <= n < 2**31 for n in numbers):     # ctypes would cut it to 32 bits
            raise OverflowError("a number that 32 bits do not hold")
        return (ctypes.c_int32 * len(numbers))(*numbers)

    x, y = lent([x for x, _ in dowels]), lent([y for _, y in dowels])
    buffer = (ctypes.c_uint8 * (78 + 8 * len(dowels)))()
    answer = (ctypes.c_uint64 * 2)()            # refusal, length
    # no marks: x stands for a pointer that is not null, with length 0
    code = write(lent(fields), len(fields), x, len(x), y, len(y), x, 0, buffer, len(buffer), answer, len(answer))
    if code != 0:
        raise RuntimeError("fields or answer are too short")
    number, length = answer
    if number != 0:
        raise ValueError("refused %d" % number)
    return bytes(buffer[:length])


def main(library, option="--version", version="1"):
    sys.stdout.buffer.write(record(load(library), (int(version), *values), dowels))


if __name__ == "__main__":
    if len(sys.argv) not in (2, 4) or sys.argv[2:3] not in ([], ["--version"]):
        sys.exit(__doc__.splitlines()[0])
    try:
        main(*sys.argv[1:])
    except (ValueError, OverflowError) as fault:        # N
        sys.exit(str(fault))
