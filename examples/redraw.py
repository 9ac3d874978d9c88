#!/usr/bin/env python3
"""Writes the record of the same joint drawn otherwise to standard output: redraw.py RECORD CHANGE.. > other.rec

Changes are made in turn: '--mirror x' negates every x and fx, '--mirror y' every y and fy, '--move DX DY' adds tenths of a millimetre,
'--reverse' lists the dowels from the last to the first. All other values and the order of the parts stay. Where the record passes
refusals 1 to 9, both get the same verdict, number, member, use, capacity and row share; a refusal may name other dowels. What leaves
the limits of a record is not written.
"""
import struct
import sys

MOST, MOST_FORCE = 100000, 1000000      # of a coordinate and of a component, of either sign


def parts_of(record):
    """Where the part of each kind begins; ValueError where the bytes are not laid out as a record is."""
    at, begins, lengths = 20, {}, {}
    for pair in (4, 8, 12, 16) if len(record) >= 20 else ():
        offset, length = struct.unpack_from("<HH", record, pair)
        if offset != at or length == 0 or offset + length > len(record):
            break
        kind = record[offset]
        begins[kind], lengths[kind], at = offset, length, offset + length
    dowels = record[begins[3] + 1] if lengths.get(3, 0) > 1 else 0
    if record[:4] not in (b"\1\0\4\0", b"\2\0\4\0") or at != len(record) or lengths != {1: 42, 2: 3, 3: 2 + 8 * dowels, 4: 11}:
        raise ValueError("no record of version 1 or 2")
    return begins, dowels


def mirror(axis, outlines, dowels, force):
    """Negates every x, axis 0, or every y, axis 1; of two limits the lower comes first."""
    for outline in outlines:
        outline[axis], outline[axis + 2] = -outline[axis + 2], -outline[axis]
    for xy in (*dowels, force):
        xy[axis] = -xy[axis]


def move(by, outlines, dowels, _):
    for numbers in (*outlines, *dowels):
        for k, number in enumerate(numbers):
            numbers[k] = number + by[k % 2]


def reverse(_, outlines, dowels, force):
    dowels.reverse()


def changes_of(words):
    """Each change with its argument; ValueError where the words name none."""
    words, out = iter(words), []
    for word in words:
        if word == "--mirror":
            out.append((mirror, ("x", "y").index(next(words, ""))))
        elif word == "--move":
            out.append((move, (int(next(words, "")), int(next(words, "")))))
        elif word == "--reverse":
            out.append((reverse, None))
        else:
            raise ValueError
    return out


def test_limits(outlines, dowels, force):
    if any(abs(z) > MOST for numbers in (*outlines, *dowels) for z in numbers) or any(abs(z) > MOST_FORCE for z in force):
        raise ValueError("outside the limits: a coordinate beyond %d or a force beyond %d" % (MOST, MOST_FORCE))


def redrawn(record, changes):
    begins, n = parts_of(record)
    # x0, y0, x1, y1 of each member, x and y of each dowel, fx and fy: where they stand, and the numbers
    places = [("<4i", begins[1] + at) for at in (6, 26)] + [("<2i", begins[3] + 2 + 8 * k) for k in range(n)] + [("<2i", begins[4] + 3)]
    numbers = [list(struct.unpack_from(form, record, at)) for form, at in places]
    outlines, dowels, force = numbers[:2], numbers[2:-1], numbers[-1]
    test_limits(outlines, dowels, force)
    for change, by in changes:
        change(by, outlines, dowels, force)
        test_limits(outlines, dowels, force)
    out = bytearray(record)
    for (form, at), line in zip(places, (*outlines, *dowels, force)):
        struct.pack_into(form, out, at, *line)
    return bytes(out)


if __name__ == "__main__":
    try:
        asked = changes_of(sys.argv[2:])
    except ValueError:
        asked = []
    if not asked:
        sys.exit("usage: redraw.py RECORD [--mirror x | --mirror y | --move DX DY | --reverse]..")
    try:
        with open(sys.argv[1], "rb") as f:
            sys.stdout.buffer.write(redrawn(f.read(), asked))
    except (OSError, ValueError) as fault:
        sys.exit("%s: %s" % (sys.argv[1], fault))
