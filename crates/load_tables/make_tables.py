#!/usr/bin/env python3
"""Writes the table files of data/, their names into args, and into stdout what 02 says of each: by A4 as a firm's own, 0, 14 or 15; and by A6 as one that
firms 1 and 2 share, 0, 14, 15 or 16 for each of six firm numbers.

Run it in this folder. Each answer below is worked out by hand from 02. Nothing here loads a table.
"""
import os
import pathlib
import struct


def entry(code, kind, density):
    return struct.pack("<BBH", code, kind, density)


def table(entries, count=1, offset=6, length=None, after=b""):
    stretch = b"".join(entry(*e) for e in entries)
    return struct.pack("<HHH", count, offset, len(stretch) if length is None else length) + stretch + after


def shared(first, second, count=2, offsets=None, lengths=None, between=(b"", b""), after=b""):
    """The stretches are entries, or bytes as they are."""
    one, two = (s if isinstance(s, bytes) else b"".join(entry(*e) for e in s) for s in (first, second))
    lengths = lengths or (len(one), len(two))
    offsets = offsets or (10, 10 + lengths[0])
    front = struct.pack("<HHHHH", count, offsets[0], lengths[0], offsets[1], lengths[1])
    return front + between[0] + one + between[1] + two + after


C24 = (1, 0, 350)
OAK = (9, 1, 530)
LIGHT, DENSE = (5, 0, 300), (5, 0, 900)

CASES = [
    # how many entries
    ("one-entry", table([C24]), 0),
    ("two-entries", table([C24, OAK]), 0),
    ("255-entries", table([(k, k % 2, 290 + k) for k in range(1, 256)]), 0),
    ("256-entries-code-0-last", table([(k % 256, 0, 350) for k in range(1, 257)]), 15),
    ("16383-entries", table([(min(k, 255), 0, 350) for k in range(1, 16384)]), 15),
    ("16383-right-pair-bytes-0", struct.pack("<HHH", 1, 6, 65532) + bytes(65532), 15),
    # codes
    ("code-0", table([(0, 0, 350)]), 15),
    ("code-0-first", table([(0, 0, 350), C24]), 15),
    ("code-1", table([(1, 0, 350)]), 0),
    ("code-255", table([(255, 0, 350)]), 0),
    ("codes-1-and-255", table([(1, 0, 350), (255, 1, 900)]), 0),
    ("codes-equal", table([C24, C24]), 15),
    ("codes-equal-at-the-end", table([C24, OAK, OAK]), 15),
    ("codes-falling", table([OAK, C24]), 15),
    ("codes-falling-at-the-end", table([C24, OAK, (8, 0, 350)]), 15),
    ("codes-up-by-one", table([(200, 0, 350), (201, 0, 350), (202, 0, 350)]), 0),
    # kinds and densities
    ("kind-0", table([(1, 0, 350)]), 0),
    ("kind-1", table([(1, 1, 350)]), 0),
    ("kind-2", table([(1, 2, 350)]), 15),
    ("kind-255", table([(1, 255, 350)]), 15),
    ("kind-2-last", table([C24, (9, 2, 530)]), 15),
    ("density-0", table([(1, 0, 0)]), 15),
    ("density-289", table([(1, 0, 289)]), 15),
    ("density-290", table([(1, 0, 290)]), 0),
    ("density-1100", table([(1, 1, 1100)]), 0),
    ("density-1101", table([(1, 1, 1101)]), 15),
    ("density-1101-last", table([C24, (9, 1, 1101)]), 15),
    ("density-65535", table([(1, 1, 65535)]), 15),
    ("density-big-endian", struct.pack("<HHH", 1, 6, 4) + struct.pack(">BBH", 1, 0, 350), 15),
    # the pair
    ("trailing-byte", table([C24], after=b"\0"), 14),
    ("trailing-entry", table([C24], after=entry(*OAK)), 14),
    ("entry-missing", table([C24], length=8), 14),
    ("offset-5", table([C24], offset=5), 14),
    ("offset-5-to-the-end", table([C24], offset=5, length=5), 14),
    ("offset-7", table([C24], offset=7), 14),
    ("offset-7-to-the-end", table([C24], offset=7, length=3), 14),
    ("offset-0", table([C24], offset=0, length=10), 14),
    ("offset-10-to-the-end", table([C24, OAK], offset=10, length=4), 14),
    ("length-0", table([]), 14),
    ("length-0-before-an-entry", table([C24], length=0), 14),
    ("length-1", struct.pack("<HHH", 1, 6, 1) + b"\1", 14),
    ("length-2", struct.pack("<HHH", 1, 6, 2) + b"\1\0", 14),
    ("length-3", struct.pack("<HHH", 1, 6, 3) + b"\1\0\x5e", 14),
    ("length-5", table([C24], length=5, after=b"\2"), 14),
    ("length-7", table([C24], length=7, after=b"\2\0\x5e"), 14),
    ("length-past-65535", struct.pack("<HHH", 1, 6, 4) + entry(*C24) + bytes(65536), 14),
    ("65541-bytes-length-65535", struct.pack("<HHH", 1, 6, 65535) + bytes(65535), 14),
    # the count and the front
    ("count-0", table([C24], count=0), 14),
    ("count-2", table([C24], count=2), 14),
    ("count-256", table([C24], count=256), 14),
    ("no-bytes", b"", 14),
    ("one-byte", b"\1", 14),
    ("five-bytes", table([C24])[:5], 14),
    ("six-bytes", table([C24])[:6], 14),
    ("front-alone", struct.pack("<HHH", 1, 6, 0), 14),
    # 14 before 15
    ("count-2-and-kind-2", table([(1, 2, 350)], count=2), 14),
    ("trailing-byte-and-codes-equal", table([C24, C24], after=b"\0"), 14),
    ("length-6-and-density-0", table([(1, 0, 0)], length=6, after=b"\0\0"), 14),
]


# a table that two firms share, and what it is for firm 1 and for firm 2; as a firm's own each is a 14
SHARED = [
    ("shared-one-entry-each", shared([C24], [OAK]), 0, 0),
    ("shared-same-codes", shared([C24], [C24]), 0, 0),
    ("shared-codes-5-9-and-1-5", shared([LIGHT, OAK], [C24, DENSE]), 0, 0),
    ("shared-falling-across-the-seam", shared([(255, 0, 350)], [C24]), 0, 0),
    ("shared-1-and-255-entries", shared([C24], [(k, k % 2, 290 + k) for k in range(1, 256)]), 0, 0),
    ("shared-255-and-1-entries", shared([(k, k % 2, 290 + k) for k in range(1, 256)], [C24]), 0, 0),
    # entries: 15 stays with its firm
    ("shared-firm-1-kind-2", shared([(1, 2, 350)], [C24]), 15, 0),
    ("shared-firm-2-kind-2", shared([C24], [(1, 2, 350)]), 0, 15),
    ("shared-both-kind-2", shared([(1, 2, 350)], [(1, 2, 350)]), 15, 15),
    ("shared-firm-1-codes-equal", shared([OAK, OAK], [C24, OAK]), 15, 0),
    ("shared-firm-2-codes-falling", shared([C24, OAK], [OAK, C24]), 0, 15),
    ("shared-firm-1-code-0", shared([(0, 0, 350)], [C24]), 15, 0),
    ("shared-firm-2-code-0-first", shared([C24], [(0, 0, 350), C24]), 0, 15),
    ("shared-firm-1-density-1101-last", shared([C24, (9, 1, 1101)], [C24]), 15, 0),
    ("shared-firm-2-density-289", shared([C24], [(1, 0, 289)]), 0, 15),
    ("shared-firm-2-zeros", shared([C24], bytes(400)), 0, 15),
    ("shared-firm-1-all-255", shared(b"\xff" * 400, [C24]), 15, 0),
    ("shared-most-entries-firm-1", shared(bytes(65524), [C24]), 15, 0),
    ("shared-firm-2-past-65535", shared(bytes(65524), [C24, OAK]), 15, 0),
    # the lengths: 14 to both
    ("shared-lengths-4-6", shared([C24], entry(*C24) + b"\2\0"), 14, 14),
    ("shared-lengths-6-4", shared(entry(*C24) + b"\2\0", [C24]), 14, 14),
    ("shared-lengths-4-2", shared([C24], b"\1\0"), 14, 14),
    ("shared-lengths-5-7", shared(entry(*C24) + b"\2", entry(*C24) + b"\2\0\x5e"), 14, 14),
    ("shared-lengths-6-6", shared(entry(*C24) + b"\2\0", entry(*C24) + b"\2\0"), 14, 14),
    ("shared-lengths-4-0", shared([C24], []), 14, 14),
    ("shared-lengths-0-4", shared([], [C24]), 14, 14),
    ("shared-lengths-0-0", shared([], []), 14, 14),
    ("shared-length-2-of-firm-2-faulty-entry-of-firm-1", shared([(1, 2, 350)], b"\1\0"), 14, 14),
    # the pairs
    ("shared-first-offset-6", shared([C24], [OAK], offsets=(6, 14)), 14, 14),
    ("shared-first-offset-6-to-the-end", shared(b"", [OAK], offsets=(6, 10), lengths=(4, 4)), 14, 14),
    ("shared-first-offset-14", shared([C24], [OAK], offsets=(14, 18), between=(bytes(4), b"")), 14, 14),
    ("shared-a-gap", shared([C24], [OAK], offsets=(10, 18), between=(b"", bytes(4))), 14, 14),
    ("shared-overlapping", shared([C24], [OAK], offsets=(10, 12), lengths=(4, 6)), 14, 14),
    ("shared-the-same-stretch", shared([C24], [], offsets=(10, 10), lengths=(4, 4)), 14, 14),
    ("shared-pairs-exchanged", shared([OAK], [C24], offsets=(14, 10)), 14, 14),
    ("shared-second-offset-by-256", shared([C24], [OAK], offsets=(10, 14 + 256)), 14, 14),
    ("shared-second-offset-wrapped", shared(bytes(65528), [C24], offsets=(10, 2)), 14, 14),
    ("shared-trailing-byte", shared([C24], [OAK], after=b"\0"), 14, 14),
    ("shared-trailing-entry", shared([C24], [OAK], after=entry(*OAK)), 14, 14),
    ("shared-an-entry-missing", shared([C24], [OAK], lengths=(4, 8)), 14, 14),
    ("shared-sum-past-65535-wrapped", shared([C24], [], offsets=(10, 14), lengths=(4, 65524)), 14, 14),
    # the count and the front
    ("shared-count-0", shared([C24], [OAK], count=0), 14, 14),
    ("shared-count-3", shared([C24], [OAK], count=3), 14, 14),
    ("shared-count-258", shared([C24], [OAK], count=258), 14, 14),
    ("shared-nine-bytes", shared([C24], [OAK])[:9], 14, 14),
    ("shared-ten-bytes", shared([C24], [OAK])[:10], 14, 14),
    ("shared-own-count-1-two-pairs", shared([C24], [OAK], count=1), 14, 14),
    # 14 before 15
    ("shared-trailing-byte-and-kind-2", shared([(1, 2, 350)], [(1, 2, 350)], after=b"\0"), 14, 14),
]


def main():
    root = pathlib.Path(__file__).resolve().parent
    own = CASES + [(name, (root.parent.parent / "examples" / name).read_bytes(), 0) for name in ("own-table.tab", "printed-table.tab")]
    # a firm's own table is none that firms share; 0, 3, 257 and 2^32 - 1 are no firms
    cases = [(name, bytes_, number, 14, 14) for name, bytes_, number in own]
    cases += [(name, bytes_, 14, first, second) for name, bytes_, first, second in SHARED]
    data = root / "data"
    data.mkdir(exist_ok=True)
    for old in data.iterdir():
        os.unlink(old)
    for name, bytes_, *_ in cases:
        (data / name).write_bytes(bytes_)
    (root / "args").write_text("".join(name + "\n" for name, *_ in cases))
    (root / "stdout").write_text("".join("%s: %d, for firms 16 %d %d 16 16 16\n" % (name, *numbers) for name, _, *numbers in cases))


main()
