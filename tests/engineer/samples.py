"""Writes the samples of records.py, the line of each, a firm's table, the lines by it, a table that two firms share, the lines by
firm 2's part of it, those of roots and of thicknesses into a folder.

  samples.py FOLDER           writes *.rec, *.tab, lines.txt and *-lines.txt
  samples.py --check FOLDER   compares them with what it would write
"""
import os
import sys

import engineer
import firms
import records
import tables

HEAD = """\
# The line that each record gives.  low..high: the figure is free from low to high, both
# included (U, C and E in this order); a verdict follows from U: fits up to 10,000.
"""

# above the line of the record
NOTES = {"eurocode-b": """\
# Records of version 2: edges by EN 1995-1-1, Table 8.5.  The force in joint B runs along the grain, no edge is loaded, and its
# line is the same.  In loaded-edge two hangers pull down at the beam between them, with 12 mm dowels: the beam's lower edge is
# loaded and needs (2 + 2 sin 90) 12 = 48 mm, but is 36 mm below dowel 1.  In version 1, loaded-edge-v1, these 36 mm are enough;
# in version 2 a beam that is 12 mm higher, loaded-edge-480.
""", "joint-b-mirrored": """\
# The same joint drawn otherwise, by redraw.py: joint-b with --mirror x, with --move 80000 -50000, which is as far to the right as a
# record goes, and with --reverse.  Each gets the figures of joint-b.  edge-719-reversed is member-1-edge-719 with --reverse: number and
# member are the same, and the dowel that is named is another, for the first one too near is now dowel 1.
"""}

OWN_HEAD = """\
# The line that each record gives by the table in own-table.tab, as lines.txt has those by the
# printed table.  Of the printed classes it has 1 and 9, and no more.
"""

SHARED_HEAD = """\
# The line that each record gives by what firm 2 has of the table in shared-table.tab: classes 1 and
# 200, and no more.  Firm 1 has the classes of own-table.tab, and the lines of own-table-lines.txt.
"""

ROOT_HEAD = """\
# The line that each number gives: its starting bracket, low and high, its whole square root, and how
# many halvings of the bracket lead to it.
"""
ROOTS = (0, 1, 2, 3, 4, 15, 16, 17, 2 ** 62 - 1, 2 ** 62, 2 ** 64 - 1)

THICKNESS_HEAD = """\
# The least thickness of member 1 in whole mm, from 20 to 400, with which each record fits, and its
# line then, as in lines.txt; of records for which no free figure can change the thickness.
"""
THICKNESSES = ("joint-b", "t1-200", "pair-504", "force-27000", "out-of-line", "dowels-599", "no-force", "loaded-edge")

# the sawmill of examples/write_own_table.py
SAWMILL = [(1, tables.SOFT, 372), (9, tables.HARD, 580), (200, tables.HARD, 660)]
OWN = tables.assemble(SAWMILL)
# firm 1 the sawmill: examples/write_shared_table.py
SHARED = firms.assemble(firms.stretch(SAWMILL), firms.stretch([(1, tables.SOFT, 350), (200, tables.SOFT, 440)]))


def lines(head, loaded, notes={}):
    """The head, then the line of each record, with what is said above it."""
    for name, data, _ in records.samples():
        head += "%s%s: %s\n" % (notes.get(name, ""), name, engineer.Reference(data, loaded=loaded).describe())
    return head.encode()


def with_thickness(data, mm):
    """The record with another thickness of member 1, whose part comes first in the samples."""
    assert data[20] == 1
    return data[:24] + (10 * mm).to_bytes(2, "little") + data[26:]


def thickness_line(name, data):
    for mm in range(20, 401):
        line = engineer.Reference(with_thickness(data, mm)).describe()
        if line.startswith("refused"):
            return "%s: %s\n" % (name, line)
        if not line.startswith("overloaded "):
            assert line.startswith("fits "), "%s: which thickness is least hangs on a free figure" % name
            return "%s: %d %s\n" % (name, mm, line)
    return "%s: none\n" % name


def files():
    for name, data, _ in records.samples():
        yield name + ".rec", data
    yield "lines.txt", lines(HEAD, engineer.PRINTED, NOTES)
    yield "own-table.tab", OWN
    yield "printed-table.tab", tables.PRINTED
    yield "shared-table.tab", SHARED
    assert engineer.load_for(1, SHARED) == engineer.load(OWN)
    yield "own-table-lines.txt", lines(OWN_HEAD, engineer.load(OWN))
    yield "shared-table-lines.txt", lines(SHARED_HEAD, engineer.load_for(2, SHARED))
    least = [thickness_line(name, data) for name, data, _ in records.samples() if name in THICKNESSES]
    yield "thickness-lines.txt", (THICKNESS_HEAD + "".join(least)).encode()
    yield "root-lines.txt", (ROOT_HEAD + "".join(engineer.root_line(n) + "\n" for n in ROOTS)).encode()


def main():
    check = sys.argv[1:2] == ["--check"]
    folder = sys.argv[-1]
    wrong = 0
    for name, content in files():
        path = os.path.join(folder, name)
        if check:
            with open(path, "rb") as f:
                if f.read() != content:
                    wrong += 1
                    print("differs: " + name)
        else:
            with open(path, "wb") as f:
                f.write(content)
    return 1 if wrong else 0


if __name__ == "__main__":
    if len(sys.argv) < 2:
        raise SystemExit(__doc__)
    raise SystemExit(main())
