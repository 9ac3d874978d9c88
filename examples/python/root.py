#!/usr/bin/env python3
"""root.py LIBRARY N..: prints for each number its starting bracket, its whole square root and the halvings, 'n: low high root halvings'.

LIBRARY is a shared object with the archive in it, as for judge.py.
"""
import ctypes
import os
import sys

MOST = 2**64 - 1


def entry(path, name):
    found = getattr(ctypes.CDLL(os.path.abspath(path)), name)
    found.argtypes = (ctypes.c_uint64, ctypes.POINTER(ctypes.c_uint64), ctypes.c_size_t)
    found.restype = ctypes.c_uint32
    return found


def load(path):
    """The entry that gives the starting bracket, and the one that gives the root and the halvings."""
    return entry(path, "negwishal_root_bracket"), entry(path, "negwishal_whole_root")


def answer(find, n):
    """What an entry answers for a number: low and high, or root and halvings; ValueError where 64 bits do not hold it."""
    if not 0 <= n <= MOST:      # ctypes would cut it to 64 bits
        raise ValueError("%d: no number below 2^64" % n)
    found = (ctypes.c_uint64 * 2)()
    if find(n, found, len(found)) != 0:
        raise RuntimeError("the answer is too short")
    return tuple(found)


def main(library, *numbers):
    bracket, root = load(library)
    for n in map(int, numbers):
        print("%d: %d %d %d %d" % (n, *answer(bracket, n), *answer(root, n)))


if __name__ == "__main__":
    if len(sys.argv) < 3:
        sys.exit(__doc__.splitlines()[0])
    try:
        main(*sys.argv[1:])
    except ValueError as fault:
        sys.exit(str(fault))
