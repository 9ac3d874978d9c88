"""Tests of the engineer itself: against the figures that document 01 prints, a joint of D30, joints out of line and
graded ones and loaded edges worked out by the formulas, and against their sentences taken literally with fractions, A3's with all
sets of dowels; of its writer, its tables, its firms and its roots against 02's sentences on A2, A4, A6 and A5; and of the pairs
of records, and its answers to them, against A8's.

  selftest.py [--count N] [--seed S]     with N records made by chance
"""
import argparse
from fractions import Fraction
from itertools import combinations, product
from math import isqrt
from random import Random
import struct

import drawn
import engineer
import firms
import judge
import records
import roots
import tables
import values
import written

DIGITS = 60
# class: k90 without its 0.015 d, and density
WOODS = {c: ("1.35" if c <= 8 else "0.90", density) for c, density in enumerate(
    (350, 380, 385, 365, 425, 390, 440, 400, 530, 550, 900), 1)}


SUBSETS = 8                 # up to so many dowels all sets of them are tried


def is_row(row, across, d):
    """02, A3: 'any set of dowels whose across coordinates all differ by less than d and to which no other dowel can be added'."""
    def all_near(some):
        return all(abs(across[i] - across[k]) < 10 * d for i, k in combinations(some, 2))
    return bool(row) and all_near(row) and not any(all_near((*row, k)) for k in range(len(across)) if k not in row)


def rows_of(across, d):
    """The rows, as tuples of dowel numbers: of all sets, or where these are too many of those from each dowel upwards, since a
    row lies within d above its lowest dowel."""
    dowels = range(len(across))
    if len(across) <= SUBSETS:
        some = (row for n in range(1, len(across) + 1) for row in combinations(dowels, n))
    else:
        some = {tuple(k for k in dowels if 0 <= across[k] - low < 10 * d) for low in across}
    return {row for row in some if is_row(row, across, d)}


class Literal:
    """Document 01 word for word, in fractions, with 02's rows and loaded edges and the woods of a table."""

    def __init__(self, j, woods=WOODS):
        self.j = j
        self.f2 = Fraction(j.fx ** 2 + j.fy ** 2)
        self.f = []
        for m in (0, 1):
            along = (j.fx, j.fy)[j.grain[m]]
            cos2 = along ** 2 / self.f2
            base, density = woods[j.cls[m]]
            k90 = Fraction(base) + Fraction("0.015") * j.d
            self.f.append(Fraction("0.082") * (1 - Fraction("0.01") * j.d) * density / (k90 * (1 - cos2) + cos2))
        f1, f2 = self.f
        fu = (360, 430, 510)[j.steel - 1]
        self.one = (Fraction("2.3") ** 10 * (j.d * f1 * f2 / (f1 + f2)) ** 5
                    * (Fraction("0.3") * fu) ** 5 * j.d ** 13)
        self.s2, self.c2 = f2 / (f1 + f2), f1 / (f1 + f2)
        self.k1 = f1 * j.d * Fraction(j.t[0], 10)
        self.k2 = f2 * j.d * Fraction(j.t[1], 10)

    def at_most_R(self, x):
        if x ** 10 > self.one:
            return False
        if not (x <= self.k1 and x ** 2 <= (self.k1 - x) ** 2 * self.s2):
            return False
        if self.j.p == 1:
            return x <= self.k2 and x ** 2 <= (self.k2 - x) ** 2 * self.c2
        return x <= self.k2 / 2

    def rows(self, m):
        """(n, a1) of every row of member m."""
        axis = self.j.grain[m]
        for row in rows_of([xy[1 - axis] for xy in self.j.dowels], self.j.d):
            along = [self.j.dowels[i][axis] for i in row]
            yield len(row), min((abs(a - b) for a, b in combinations(along, 2)), default=0)

    def not_below(self, e, n, a1):
        if n == 1:
            return e >= 1
        return e >= n or e ** 20 * (130 * self.j.d) ** 5 >= n ** 18 * a1 ** 5

    def not_above(self, e, n, a1):
        if n == 1:
            return e <= 1
        return e <= n and e ** 20 * (130 * self.j.d) ** 5 <= n ** 18 * a1 ** 5

    def just_not_below(self, n, a1):
        """A fraction not below the effective number and nearer than 10**-DIGITS."""
        low, high = 0, n * 10 ** DIGITS
        while high - low > 1:
            middle = (low + high) // 2
            if self.not_below(Fraction(middle, 10 ** DIGITS), n, a1):
                high = middle
            else:
                low = middle
        return Fraction(high, 10 ** DIGITS)

    def enough(self, v):
        """With one g and one e for each row, so near to their bounds that no v tried
        here lies between."""
        j = self.j
        h = ((60, 70, 80, 90, 110), (60, 70, 80, 90, 110), (50, 55, 65, 70, 90))[
            j.service - 1][j.duration - 1]
        count = len(j.dowels)
        t = Fraction(count * j.p) if count > 1 else Fraction(j.p, 2)
        g = Fraction(isqrt(int(self.f2) * 100 ** DIGITS), 10 ** DIGITS)
        if not self.at_most_R(130 * g / (t * h * v)):
            return False
        for m in (0, 1):
            c = abs((j.fx, j.fy)[j.grain[m]])
            for n, a1 in set(self.rows(m)):
                e = self.just_not_below(n, a1)
                if not self.at_most_R(130 * c * n / (e * t * h * v)):
                    return False
        return True

    def pair_passes(self, along, across, m):
        """along >= (3 + 2 cos) d or across >= 3d, lengths in tenths."""
        d = 10 * self.j.d
        cos2 = Fraction((self.j.fx, self.j.fy)[self.j.grain[m]] ** 2) / self.f2
        return (along >= 3 * d and Fraction(along - 3 * d) ** 2 >= 4 * cos2 * d * d) or across >= 3 * d

    def end_passes(self, dist, m, towards):
        d = 10 * self.j.d
        force = (self.j.fx, self.j.fy)[self.j.grain[m]] * (1 if m == 1 else -1)
        if force * towards > 0:
            return dist >= 7 * d and dist >= 800
        sin2 = 1 - Fraction(force ** 2) / self.f2
        return dist >= 3 * d and dist >= 0 and Fraction(dist) ** 2 >= 49 * d * d * sin2

    def edge_passes(self, dist, m, towards):
        """02, A7: 'a loaded edge needs (2 + 2 sin α) d and at least 3d'; 'the edge towards which the force in that member has a
        component is the loaded one, and the other needs 3d'; in version 1, 01: 'Both edges: at least 3d'."""
        d = 10 * self.j.d
        force = (self.j.fy, self.j.fx)[self.j.grain[m]] * (1 if m == 1 else -1)
        if self.j.version == 1 or force * towards <= 0:
            return dist >= 3 * d
        sin2 = Fraction(force ** 2) / self.f2
        # (2 + 2 sin) d is above dist where 2d is, or where (2 sin d) squared is above what dist has more than 2d, squared
        return dist >= 3 * d and Fraction(dist - 2 * d) ** 2 >= 4 * sin2 * d * d

    def spacing(self):
        j = self.j
        for m in (0, 1):
            axis = j.grain[m]
            x = j.outline[m]
            for i in range(len(j.dowels)):
                for k in range(i + 1, len(j.dowels)):
                    p, q = j.dowels[i], j.dowels[k]
                    if not self.pair_passes(abs(p[axis] - q[axis]), abs(p[1 - axis] - q[1 - axis]), m):
                        return 10, m + 1, i + 1, k + 1
            for i, xy in enumerate(j.dowels):
                if not (self.end_passes(xy[axis] - x[axis], m, -1)
                        and self.end_passes(x[axis + 2] - xy[axis], m, 1)):
                    return 11, m + 1, i + 1, 0
            for i, xy in enumerate(j.dowels):
                if not (self.edge_passes(xy[1 - axis] - x[1 - axis], m, -1)
                        and self.edge_passes(x[3 - axis] - xy[1 - axis], m, 1)):
                    return 12, m + 1, i + 1, 0
        return None


def printed():
    """The figures printed in document 01, and those of a joint of both kinds of wood."""
    for name, data, want in records.samples():
        ref = engineer.Reference(data)
        if isinstance(want, str):
            assert ref.describe() + "\n" == want, name
            continue
        use, cap, share = ref.values().ranges()
        verdict = ref.describe().split()[0]
        assert want[0] in (None, verdict), name
        for got, said in ((use, want[1]), (cap, want[2]), (share, want[3])):
            assert said is None or got == said, (name, got, said)
    # both verdicts are open from 26,781 to 26,916 and nowhere else
    for fx, verdict in ((26780, "fits"), (26781, "fits|overloaded"), (26916, "fits|overloaded"),
                        (26917, "overloaded")):
        data = records.write(records.joint_b(force=(fx, 0)))
        assert engineer.Reference(data).describe().split()[0] == verdict, fx


def hardwood():
    """D30 in both members, the force across the grain; and the same joint with softwood's k90."""
    data = dict(records.hardwood_joints())["d30-both-12mm-x-x-0-20000"]
    assert engineer.Reference(data).values().ranges()[1] == (8810, 8811)
    for kind, said in ((tables.HARD, (8810, 8811)), (tables.SOFT, (7401, 7402))):
        loaded = engineer.load(tables.assemble([(9, kind, 530)]))
        assert engineer.Reference(data, loaded=loaded).values().ranges()[1] == said, kind


# One dowel: d, the force along and across a member's grain, and what the edge needs towards which it has the component
# across, in tenths; by hand
LOADED_EDGES = (
    (12, 1000, 0, 360),                                             # sin 0: 3d, as up to sin 1/2
    (12, 1000000, 1, 360), (12, 954, 300, 360), (12, 12, 5, 360), (25, 24, 7, 750), (17, 15, 8, 510),
    (12, 4, 3, 384), (30, 4000, 3000, 960), (6, 4, 3, 192),         # sin 3/5: 3.2 d
    (12, 300, 400, 432), (30, 3, 4, 1080),                          # sin 4/5: 3.6 d
    (12, 0, 1, 480), (30, 0, 1000000, 1200),                        # sin 1: 4d
    (12, 1, 1000000, 480),                                          # a hair below 48 mm
    (13, 5, 12, 500), (12, 5, 12, 462),                             # sin 12/13: 26 + 24 mm; 46.15.. mm
    (25, 7, 24, 980), (17, 8, 15, 640), (29, 21, 20, 980), (29, 20, 21, 1000),      # 50 + 48, 34 + 30, 58 + 40, 58 + 42 mm
    (12, 1, 1, 410), (30, 1, 1, 1025), (30, 999999, 1000000, 1025),                 # 3.4142.. d: 40.97.., 102.42.. mm
    (30, 577350, 1000000, 1120),                                    # 111.96.. mm
    (30, 866025, 500000, 901), (30, 866026, 500000, 900),           # sin a hair above and below 1/2
    # 220**2 851525**2 is above 216**2 (164633**2 + 851525**2), by 16: 220 sin is a hair above 216
    (11, 164633, 851525, 437), (26, 504622, 686573, 940), (21, 434547, 808984, 790),
)


def loaded_edges():
    """Request A7: the figures above in both versions, at either edge of either member, with either grain; joint B; the record's
    version through writer and reader."""
    for (d, along, across, least), m, grain, turn, version in product(LOADED_EDGES, (0, 1), (0, 1), (1, -1), (1, 2)):
        # member 1 gets the opposite of the force; turned round it is the low edge that is loaded
        sign = turn if m == 1 else -turn
        force = sign * along, sign * across
        for side in (0, 1):
            loaded = version == 2 and side == (turn > 0)
            wanted = least if loaded else 30 * d
            for distance in (wanted - 1, wanted):
                data = records.write(records.by_edge(
                    m, side, distance, (grain, grain), version=version, d=d, force=force[::-1] if grain else force))
                found = engineer.Reference(data).refusal
                assert found == ((12, m + 1, 1, 0) if distance < wanted else None), (
                    d, along, across, m, grain, turn, version, side, distance, found)
    samples = {name: data for name, data, _ in records.samples()}
    b, hung = samples["joint-b"], samples["loaded-edge"]
    assert samples["eurocode-b"] == b"\2" + b[1:] and samples["loaded-edge-v1"] == b"\1" + hung[1:]
    assert engineer.Reference(samples["eurocode-b"]).describe() == engineer.Reference(b).describe()
    assert engineer.Reference(samples["loaded-edge-480"]).describe() == engineer.Reference(samples["loaded-edge-v1"]).describe()
    for version in (*range(20), *records.UNKNOWN_VERSIONS):
        data = records.in_version(b, version)
        line = engineer.Reference(data).describe()
        assert line == engineer.Reference(b).describe() if version in (1, 2) else line == "refused 2 0 0 0", version
        number, n, fields, x, y, _ = engineer.values_of(data)
        assert (number, fields[0]) == ((0, version) if version in (1, 2) else (2, 0)), version
        if number == 0:
            assert engineer.written(fields, x[:n], y[:n], 110) == (0, data), version
    for one, two, same in COMPARED:
        assert written.asked_more(one + "\n", two + "\n") == same, (one, two)


# lines of a record in version 1 and in version 2, and whether a loaded edge may have made the difference
COMPARED = (
    ("fits 1 2 3", "refused 12 1 1 0", True), ("overloaded 10001 2 3", "refused 12 2 64 0", True),
    ("refused 12 1 3 0", "refused 12 1 2 0", True), ("refused 12 1 2 0", "refused 12 1 3 0", False),
    ("refused 12 2 1 0", "refused 12 1 3 0", True), ("refused 10 2 1 2", "refused 12 1 4 0", True),
    ("refused 11 2 1 0", "refused 12 1 4 0", True), ("refused 11 2 1 0", "refused 12 2 1 0", False),
    ("refused 11 1 1 0", "refused 12 2 1 0", False), ("refused 7 0 0 0", "refused 12 1 1 0", False),
    ("fits 1 2 3", "fits 2 2 3", False), ("fits 1 2 3", "overloaded 1 2 3", False), ("fits 1 2 3", "refused 11 1 1 0", False),
    ("fits 1 2 3", "refused 2 0 0 0", False), ("refused 12 1 1 0", "fits 1 2 3", False), ("refused 2 0 0 0", "fits 1 2 3", False),
)


# a table in hexadecimal, and the number at loading; by hand
LOADED = (
    ("0100 0600 0400 c801 8403", 0), ("0100 0600 0800 0100 2201 ff01 4c04", 0), ("0100 0600 0400 0100 2101", 15),
    ("0100 0600 0400 0100 4d04", 15), ("0100 0600 0400 0102 8403", 15), ("0100 0600 0400 0000 8403", 15),
    ("0100 0600 0800 0700 5e01 0701 8403", 15), ("0100 0600 0800 0800 5e01 0701 8403", 15), ("0100 0600 0400 c801 0384", 15),
    ("", 14), ("0100 0600 00", 14), ("0100 0600 0000", 14), ("0100 0600 0300 c801 84", 14),
    ("0100 0600 0400 c801 8403 00", 14), ("0100 0600 0400 c801 84", 14), ("0000 0600 0400 c801 8403", 14), ("0200 0600 0400 c801 8403", 14),
    ("0001 0006 0004 c801 8403", 14), ("0100 0500 0400 c801 84", 14), ("0100 0700 0400 00 c801 8403", 14),
    ("0100 0600 0800 c801 8403", 14), ("0100 0600 0000 c801 8403", 14), ("0200 0600 0400 0002 0000", 14),
)


def graded():
    """Request A4: the numbers above, class 1 graded in joint B across the grain, a class of the firm's own."""
    for text, number in LOADED:
        loaded = engineer.load(bytes.fromhex(text))
        assert (0 if engineer.did_load(loaded) else loaded) == number, text
    assert engineer.load(bytes.fromhex(LOADED[1][0])) == {1: (engineer.SOFTWOOD, 290), 255: (engineer.HARDWOOD, 1100)}
    assert engineer.load(tables.PRINTED) == engineer.PRINTED
    assert len(tables.LONG[0]) == 65538 and engineer.load(tables.LONG[0]) == 15
    assert len(engineer.load(tables.assemble(tables.FULL))) == 255
    assert engineer.load(tables.assemble(tables.FULL + [(255, tables.SOFT, 400)])) == 15
    for kind, said in ((tables.HARD, (11480, 11481)), (tables.SOFT, (9645, 9646))):
        ref = engineer.Reference(records.write(tables.across_b()), loaded=engineer.load(tables.graded(kind)))
        assert ref.values().ranges()[1] == said, kind
    own = engineer.load(tables.assemble([(200, tables.SOFT, 350)]))
    b = records.write(records.joint_b())
    for classes in ((200, 200), (1, 200), (200, 1), (9, 200), (200, 9), (1, 9), (1, 1)):
        line = engineer.Reference(b).describe() if classes == (200, 200) else "refused 7 0 0 0"
        assert engineer.Reference(tables.reclassed(b, classes), loaded=own).describe() == line, classes
    # a table that did not load comes before every test
    _, _, fields, x, y, _ = engineer.values_of(b)
    for number in (14, 15):
        for data in (b"", b, b[:19], b"\2" + b[1:], b"\3" + b[1:], bytes(5000)):
            assert engineer.Reference(data, loaded=number).describe() == "refused %d 0 0 0" % number
            assert engineer.values_of(data, number) == (number, 0, [0] * 27, [0] * 64, [0] * 64, [0] * 64)
        lent = [9] + fields[1:], x[:4], y[:3], []
        assert engineer.after_write(*lent, b"kept", [5, 6, 7], number) == (0, b"kept", [number, 0, 7])
        assert engineer.after_write(fields[:26], x, y, [], b"kept", [5, 6], number) == (1, b"kept", [5, 6])
        assert engineer.after_read(b, fields, x, y, [1] * 63, [5, 6], number) == (1, fields, x, y, [1] * 63, [5, 6])


def entry_tests(entries):
    """02's A4 on entries, (code, kind, density)."""
    return ((15, not all(code >= 1 and kind in (0, 1) and 290 <= density <= 1100 for code, kind, density in entries)),
            (15, any(b[0] <= a[0] for a, b in zip(entries, entries[1:]))))


def unpacked(data, start, end):
    return [struct.unpack_from("<BBH", data, at) for at in range(start, min(end, len(data)) - 3, 4)]


def first_number(tests):
    return next((number for number, holds in tests if holds), 0)


def load_fault(table):
    """02's A4 sentence by sentence: the number, and the entries."""
    if isinstance(table, judge.Shared):
        return firm_fault(*table)
    if len(table) < 6:
        return 14, []
    count, offset, length = struct.unpack_from("<HHH", table)
    entries = unpacked(table, 6, len(table))
    return first_number((
        (14, count != 1), (14, offset != 6), (14, offset + length != len(table)), (14, length == 0), (14, length % 4 != 0),
        *entry_tests(entries))), entries


def firm_fault(firm, shared):
    """02's A6 sentence by sentence: the number, and the firm's entries."""
    if firm != 1 and firm != 2:
        return 16, []
    if len(shared) < 10:
        return 14, []
    count, first, one, second, two = struct.unpack_from("<HHHHH", shared)
    entries = unpacked(shared, 10, 10 + one) if firm == 1 else unpacked(shared, 10 + one, 10 + one + two)
    return first_number((
        (14, count != 2), (14, first != 10), (14, second != 10 + one), (14, 10 + one + two != len(shared)),
        (14, one == 0 or two == 0), (14, one % 4 != 0 or two % 4 != 0), *entry_tests(entries))), entries


# a shared table in hexadecimal, and the number for firm 1 and for firm 2; by hand
SHARED = (
    ("0200 0a00 0400 0e00 0400 0100 5e01 0101 8403", 0, 0), ("0200 0a00 0800 1200 0400 0100 2201 ff01 4c04 0100 5e01", 0, 0),
    ("0200 0a00 0400 0e00 0800 ff00 2201 0101 4c04 0200 5e01", 0, 0), ("0200 0a00 0400 0e00 0400 0000 5e01 0101 8403", 15, 0),
    ("0200 0a00 0400 0e00 0400 0100 5e01 0102 8403", 0, 15), ("0200 0a00 0400 0e00 0400 0100 2101 0101 4d04", 15, 15),
    ("0200 0a00 0400 0e00 0800 0900 5e01 0900 5e01 0900 5e01", 0, 15),
    ("0200 0a00 0800 1200 0400 0900 5e01 0100 5e01 0200 5e01", 15, 0), ("", 14, 14), ("0200 0a00 0400 0e00 04", 14, 14),
    ("0200 0a00 0000 0a00 0000", 14, 14), ("0200 0a00 0400 0e00 0000 0100 5e01", 14, 14),
    ("0200 0a00 0000 0a00 0400 0100 5e01", 14, 14), ("0100 0a00 0400 0e00 0400 0100 5e01 0101 8403", 14, 14),
    ("0300 0a00 0400 0e00 0400 0100 5e01 0101 8403", 14, 14), ("0002 000a 0004 000e 0004 0100 5e01 0101 8403", 14, 14),
    ("0200 0600 0400 0e00 0400 0100 5e01 0101 8403", 14, 14), ("0200 0600 0800 0e00 0400 0100 5e01 0101 8403", 14, 14),
    ("0200 0a00 0400 0f00 0400 0100 5e01 00 0101 8403", 14, 14), ("0200 0a00 0800 0e00 0400 0100 5e01 0201 8403", 14, 14),
    ("0200 0b00 0400 0f00 0400 00 0100 5e01 0101 8403", 14, 14), ("0200 0e00 0400 0a00 0400 0100 5e01 0101 8403", 14, 14),
    ("0200 0a00 0400 0a00 0400 0100 5e01", 14, 14), ("0200 0a00 0400 0e00 0300 0100 5e01 0101 84", 14, 14),
    ("0200 0a00 0500 0f00 0400 0100 5e01 00 0101 8403", 14, 14),
    ("0200 0a00 0600 1000 0600 0100 5e01 0200 0101 8403 0201", 14, 14),
    ("0200 0a00 0400 0e00 0400 0100 5e01 0101 8403 00", 14, 14), ("0200 0a00 0400 0e00 0400 0100 5e01 0101 84", 14, 14),
    ("0200 0a00 0400 0e00 0400 0102 5e01 0102 8403 00", 14, 14), ("0100 0600 0400 0100 5e01", 14, 14),
    ("0200 0a00 fcff 0600 0c00 0100 5e01 0101 8403", 14, 14), ("0200 0a00 0400 0e00 f8ff 0100", 14, 14),
)


def for_firms():
    """Request A6: the numbers above, each with numbers that are no firm's; sums past 65,535; joint B for either firm."""
    for text, *numbers in SHARED:
        data = bytes.fromhex(text)
        for firm in (1, 2):
            loaded = engineer.load_for(firm, data)
            assert (0 if engineer.did_load(loaded) else loaded) == numbers[firm - 1] == firm_fault(firm, data)[0], (text, firm)
        for firm in (0, 3, 255, 256, 257, 258, 65537, 2 ** 31 + 1, 2 ** 32 - 1):
            assert engineer.load_for(firm, data) == 16, (text, firm)
    data = bytes.fromhex(SHARED[1][0])
    assert engineer.load_for(1, data) == {1: (engineer.SOFTWOOD, 290), 255: (engineer.HARDWOOD, 1100)}
    assert engineer.load_for(2, data) == {1: (engineer.SOFTWOOD, 350)}
    few = firms.stretch(tables.TWO)
    for size, number in ((65520, 0), (65524, 0), (65528, 14)):      # the second offset is a u16
        data = firms.assemble(bytes(size), few)
        assert [firm_fault(firm, data)[0] for firm in (1, 2)] == [number or 15, number], size
        loaded = engineer.load_for(2, data)
        assert loaded == (number or engineer.load(tables.assemble(tables.TWO))), size
    b = records.write(records.joint_b())
    data = firms.assemble(*(firms.stretch([(code, kind, 900)]) for code, kind in ((1, tables.SOFT), (200, tables.HARD))))
    for firm, line in ((1, "fits 4634..4658 11931..11932 7346..7347"), (2, "refused 7 0 0 0"),
                       (0, "refused 16 0 0 0"), (257, "refused 16 0 0 0")):
        assert engineer.Reference(b, loaded=engineer.load_for(firm, data)).describe() == line, firm


def sharing(seed, count):
    """Shared tables by the literal text, and the numbers of model.py; alike for every other content of the other's stretch."""
    stand_in, right, n = judge.StandIn(), 0, -1
    for n, (name, table, _) in enumerate(shared_items(seed, count)):
        number, entries = load_fault(table)
        loaded = engineer.load_for(*table)
        assert loaded == number if number else loaded == {
            code: ((engineer.SOFTWOOD, engineer.HARDWOOD)[kind], density) for code, kind, density in entries}, name
        assert stand_in.load(table) == number, name
        for what, other in firms.others(seed, n, table, loaded):
            assert written.loaded_of(other) == loaded and load_fault(other)[0] == number, (name, what)
        if number in (0, 15):
            # the two stretches and nothing else behind ten bytes, each by itself
            one, two = (table.bytes[slice(*firms.named(table.bytes, firm))] for firm in (1, 2))
            assert table.bytes == firms.assemble(one, two), name
            assert loaded == engineer.load(firms.alone((one, two)[table.firm - 1])), name
        right += number == 0
    return n + 1, right


def shared_items(seed, count):
    yield from firms.firm_items()
    some = (tables.generate(seed, n, "", b"") for n in range(count))
    for n, (label, table, data) in enumerate(some):
        yield (*firms.shared(seed, n, label, table), data)


def woods_of(entries):
    return {code: (("1.35", "0.90")[kind], density) for code, kind, density in entries}


def loading(seed, count):
    """Tables by the literal text, and the numbers of model.py."""
    r, stand_in, right = Random(seed), judge.StandIn(), 0
    some = [(name, table) for name, table, _ in tables.systematic_tables()]
    some += [tables.some_table(r, [1, 9])[:2] for _ in range(count)]
    for name, table in some:
        number, entries = load_fault(table)
        loaded = engineer.load(table)
        assert loaded == number if number else loaded == {
            code: ((engineer.SOFTWOOD, engineer.HARDWOOD)[kind], density) for code, kind, density in entries}, name
        assert stand_in.load(table) == number, name
        right += number == 0
    return len(some), right


EVERY = {code: (engineer.SOFTWOOD, 350) for code in range(256)}


def read_number(data, codes):
    """The refusal 1 to 9 with a table of these codes, from what is read with every class known."""
    j = engineer.read(data, EVERY)
    number = 0 if isinstance(j, engineer.Joint) else j
    if 1 <= number <= 6:
        return number
    return number if all(data[at] in codes for at in tables.class_places(data)) else 7


# joint B otherwise in wide outlines: U and E of rows-.. in records.py
OUT_OF_LINE = (
    ("in-line", "overloaded", (10669, 10724), (6395, 6396)), ("hair-stair", "overloaded", (10669, 10724), (6395, 6396)),
    ("zigzag-119", "overloaded", (10669, 10724), (6395, 6396)), ("zigzag-120", "fits", (8371, 8414), (8151, 8152)),
    ("steps-100", "fits", (9908, 9958), (7346, 7347)), ("apart-119", "fits", None, (7346, 7347)),
    ("apart-120", "fits", None, (9999, 10000)), ("closest-pair", "fits", None, (7054, 7055)),
)


def out_of_line():
    """Request A3: the figures above in each drawing, and the rows themselves."""
    drawn = dict(records.row_joints())
    for name, verdict, use, share in OUT_OF_LINE:
        for way in ("", "-down", "-grain-y"):
            ref = engineer.Reference(drawn["rows-" + name + way])
            got_use, _, got_share = ref.values().ranges()
            assert ref.describe().split()[0] == verdict and use in (None, got_use) and got_share == share, (name, way)
    j = engineer.Joint()
    j.d, j.grain = 12, (0, 1)
    for across, rows in (((0, 100, 200), [{0, 1}, {1, 2}]), ((0, 119), [{0, 1}]), ((0, 120), [{0}, {1}]), ((7,), [{0}]),
                         ((0, 60, 119, 120), [{0, 1, 2}, {1, 2, 3}]), ((200, 0, 100, 0), [{0, 2}, {1, 2, 3}])):
        j.dowels = [(600 * k, c) for k, c in enumerate(across)]
        assert sorted(map(sorted, engineer.rows(j, 0))) == sorted(map(sorted, rows)), across


def all_sets(seed, count):
    """Each set of dowels is one of the reference's rows just if it is one by the text."""
    r = Random(seed)
    j = engineer.Joint()
    for _ in range(count):
        j.d, j.grain = r.randint(6, 30), (r.randint(0, 1), r.randint(0, 1))
        n = r.randint(1, SUBSETS if r.random() < 0.9 else 64)
        axis = j.grain[0]
        across = records.some_across(r, j.d, n)
        r.shuffle(across)
        j.dowels = [(0, c) if axis == 0 else (c, 0) for c in across]
        rows = [tuple(sorted(row)) for row in engineer.rows(j, 0)]
        assert len(rows) == len(set(rows)) and set(rows) == rows_of(across, j.d), (j.d, across)


def ties():
    """Exact figures."""
    hair = Fraction(1, 10 ** 40)
    for label, data in records.tie_records():
        x = engineer.Reference(data).values()
        if label.startswith("R "):
            r = int(label[2:].replace(",", ""))
            assert x.at_most_R(r) and not x.at_most_R(r + hair), label
        if label.startswith("use "):
            v = Fraction(label[4:])
            assert x.enough(v) and not x.enough(v - hair), label
            assert x.not_above_use(v.numerator, v.denominator)
            assert not x.not_above_use((v + hair).numerator, (v + hair).denominator)
            tenths = int(v * 10)
            assert x.ranges()[0] == (1000 * tenths, 1005 * tenths + 2), label


def plain_items(seed, count):
    """A seventh of the systematic records, then some by chance: (label, record, number of the table, loaded, woods)."""
    systematic = sum(1 for _ in records.systematic())
    for n, (label, data) in enumerate(records.stream(seed, systematic + count)):
        if n >= systematic or n % 7 == 0:
            yield label, data, 0, engineer.PRINTED, WOODS


def tabled_items(seed, count):
    """The same with tables; a fifth of the systematic ones."""
    some = [item for n, item in enumerate(tables.record_items()) if n % 5 == 0]
    some += [tables.generate(seed, n, *records.generate(seed, n)) for n in range(count)]
    yield from with_loaded(some)


def with_loaded(some):
    for label, table, data in some:
        number, entries = load_fault(table)
        yield label, data, number, written.loaded_of(table), {} if number else woods_of(entries)


def shared_records(seed, count):
    """The same for firms; a seventh of the systematic ones."""
    some = [item for n, item in enumerate(firms.record_items()) if n % 7 == 0]
    for n in range(count):
        label, table, data = tables.generate(seed, n, *records.generate(seed, n))
        some.append((*firms.shared(seed, n, label, table), data))
    yield from with_loaded(some)


def literal(seed, items):
    r = Random(seed)
    accepted = spaced = 0
    for n, (label, data, number, loaded, woods) in enumerate(items):
        j = engineer.read(data, loaded)
        if not isinstance(j, engineer.Joint):
            assert j == (number or read_number(data, woods)), (n, label)
            continue
        assert number == 0 == read_number(data, woods), (n, label)
        lit = Literal(j, woods)
        spaced += 1
        found = engineer.spacing(j)
        assert found == lit.spacing(), (n, label)
        if found or len(j.dowels) > 20:
            continue
        accepted += 1
        x = engineer.Exact(j, loaded)
        (low, high), (_, cap), (_, share) = x.ranges()
        for y in (Fraction(cap), Fraction(cap + 1), cap + Fraction(r.randrange(10 ** 9), 10 ** 9),
                  Fraction(r.randrange(2 * cap)), Fraction(0)):
            assert x.at_most_R(y) == lit.at_most_R(y), (n, label, y)
        assert lit.at_most_R(Fraction(cap)) and not lit.at_most_R(Fraction(cap + 1))
        rows = set(lit.rows(0)) | set(lit.rows(1))
        assert rows == x.rows[0] | x.rows[1]
        for k, a1 in rows:
            for e in (Fraction(k), Fraction(k, 2), Fraction(r.randrange(1, 10 ** 6), 10 ** 6) * k):
                assert x.not_below(e, k, a1) == lit.not_below(e, k, a1)
                assert x.not_above(e, k, a1) == lit.not_above(e, k, a1)
        assert all(lit.not_above(Fraction(share * k, 10000), k, a1) for k, a1 in rows)
        assert not all(lit.not_above(Fraction((share + 1) * k, 10000), k, a1) for k, a1 in rows)
        for v in (Fraction(low, 10000), Fraction(low - 1, 10000), Fraction(high - 2, 10050),
                  Fraction(high - 1, 10050), Fraction(r.randrange(1, 2 * low + 1), 10000)):
            if v <= 0:
                continue
            want = lit.enough(v)
            for quick in (True, False):
                assert x.enough_of(v.numerator, v.denominator, quick) == want, (n, label, v)
                below = x.not_above_use(v.numerator, v.denominator, quick)
                # at v itself both hold only on a tie
                assert below or want, (n, label, v)
                assert below == (not lit.enough(v - Fraction(1, 10 ** 30))), (n, label, v)
        assert x.enough_of(low, 10000) and not x.enough_of(low - 1, 10000)
        # bounds on U from the literal test alone
        assert not lit.enough(Fraction(high - 2, 10050) - Fraction(1, 10 ** 30)) or high <= 2
        assert lit.enough(Fraction(high - 1, 10050) + Fraction(1, 10 ** 30)) or high <= 1
    return spaced, accepted


def packed(fields, x, y):
    """A record of version 1 or 2, each part by its format."""
    n = len(x)
    version, p, *members, d, steel, _, service, duration, fx, fy = fields[:27]
    out = struct.pack("<10H", version, 4, 20, 42, 62, 3, 65, 2 + 8 * n, 67 + 8 * n, 11) + struct.pack("<BB", 1, p)
    for at in (0, 9):
        cls, grain, _, _, t, x0, y0, x1, y1 = members[at:at + 9]
        out += struct.pack("<BBHiiii", cls, grain, t, x0, y0, x1, y1)
    out += struct.pack("<BBB", 2, d, steel) + struct.pack("<BB", 3, n)
    out += b"".join(struct.pack("<ii", *xy) for xy in zip(x, y))
    return out + struct.pack("<BBBii", 4, service, duration, fx, fy)


def first_fault(fields, x, y, room, codes=tuple(WOODS)):
    """02's A2 sentence by sentence, with A7's versions and the codes of a table."""
    fits = [limit is None or limit[0] <= z <= limit[1] for z, limit in zip(fields, values.LIMITS)]
    for at in (values.CLASS_1, values.CLASS_2):
        fits[at] = fields[at] in codes
    places = [-100000 <= z <= 100000 for z in x + y]
    tests = (
        (2, fields[0] != 1 and fields[0] != 2),
        (7, len(x) != len(y) or not 1 <= len(x) <= 64 or not all(fits[1:]) or not all(places)),
        (8, any(fields[at] >= fields[at + 2] for at in (7, 8, 16, 17))),
        (9, fields[25:27] == [0, 0]),
        (13, room < 78 + 8 * len(x)),
    )
    return next((number for number, holds in tests if holds), 0)


# joint B with places of fields changed, the lengths of x and y, the room: the number
WRITTEN = (
    ({}, 4, 4, 110, 0), ({}, 4, 4, 109, 13), ({}, 4, 4, 0, 13), ({}, 64, 64, 590, 0), ({}, 64, 64, 589, 13),
    ({}, 65, 65, 4096, 7), ({}, 0, 0, 110, 7), ({}, 3, 4, 110, 7), ({}, 4, 3, 110, 7),
    ({25: 0}, 4, 4, 20, 9), ({7: 20000}, 3, 4, 110, 7), ({7: 20000}, 4, 4, 0, 8), ({7: 20000, 25: 0}, 4, 4, 110, 8),
    ({0: 9, 2: 0}, 4, 4, 110, 2), ({0: -1}, 4, 4, 110, 2), ({0: 65537}, 4, 4, 110, 2), ({0: 0}, 0, 1, 0, 2),
    ({0: 2}, 4, 4, 110, 0), ({0: 2}, 4, 4, 109, 13), ({0: 2, 2: 0}, 4, 4, 110, 7), ({0: 3, 2: 0}, 4, 4, 110, 2),
    ({0: 65538}, 3, 4, 0, 2), ({0: 258}, 4, 4, 110, 2), ({0: -2}, 4, 4, 110, 2), ({0: 2, 25: 0, 26: -5}, 4, 4, 110, 0),
    ({2: 257}, 4, 4, 110, 7), ({11: -1}, 4, 4, 110, 7), ({2: 11}, 4, 4, 110, 0), ({2: 12}, 4, 4, 110, 7),
    ({4: 5, 5: -7, 13: 2 ** 31 - 1, 14: -2 ** 31, 22: 300}, 4, 4, 110, 0),
)


def writing():
    """The writer and the reader of values: joint B and the numbers above."""
    b = records.write(records.joint_b())
    number, n, fields, x, y, marks = engineer.values_of(b)
    assert (number, n, marks) == (0, 4, [0] * 64) and packed(fields, x[:n], y[:n]) == b
    for change, nx, ny, room, want in WRITTEN:
        f = [change.get(at, z) for at, z in enumerate(fields)]
        got, record = engineer.written(f, x[:nx] + [1] * (nx - 64), y[:ny] + [1] * (ny - 64), room)
        assert got == want and len(record) == (78 + 8 * nx if want == 0 else 0), (change, nx, ny, room, got)


def plain_values(seed, count):
    """(label, table, values)"""
    systematic = sum(1 for _ in values.systematic())
    for label, h in values.stream(seed, systematic + count):
        yield label, None, h


def tabled_values(seed, count):
    yield from tables.value_stream(seed, sum(1 for _ in tables.value_items()))
    for n in range(count):
        label, it = values.generate(seed, n)
        yield tables.generate_values(seed, n, label, values.filled(seed, n, it))


def shared_values(seed, count):
    yield from firms.value_stream(seed, sum(1 for _ in firms.value_items()))
    for n, (label, table, h) in enumerate(tabled_values(seed, count)):
        if n % 5 == 0:
            yield (*firms.shared(seed, n, label, table), h)


def written_all(items):
    """Values by the literal text, and model.py's."""
    stand_in, written_ones = judge.StandIn(), 0
    for n, (label, table, h) in enumerate(items):
        number, entries = (0, None) if table is None else load_fault(table)
        loaded = written.loaded_of(table)
        code, buffer, answer = engineer.after_write(*h, loaded)
        if code:
            assert (len(h.fields) < 27 or len(h.answer) < 2) and (buffer, answer) == (h.buffer, h.answer), (n, label)
            continue
        codes = WOODS if table is None else {code for code, _, _ in entries}
        number = number or first_fault(h.fields, h.x, h.y, len(h.buffer), codes)
        record = b"" if number else packed(h.fields, h.x, h.y)
        written_ones += number == 0
        assert answer == [number, len(record)] + h.answer[2:], (n, label)
        assert buffer == record + h.buffer[len(record):], (n, label)
        assert written.check_write(stand_in, h, None, table, loaded) is True, (n, label)
    return written_ones


# a number, its low and high, its root and the halvings; by hand
ROOTS = (
    (0, 0, 1, 0, 0), (1, 1, 2, 1, 0), (2, 1, 2, 1, 0), (3, 1, 2, 1, 0), (4, 2, 4, 2, 1), (8, 2, 4, 2, 1), (9, 2, 4, 3, 1),
    (15, 2, 4, 3, 1), (16, 4, 8, 4, 2), (17, 4, 8, 4, 2), (48, 4, 8, 6, 2), (49, 4, 8, 7, 2), (63, 4, 8, 7, 2), (64, 8, 16, 8, 3),
    (10 ** 6 - 1, 512, 1024, 999, 9), (10 ** 6, 512, 1024, 1000, 9), (10 ** 12, 524288, 1048576, 1000000, 19),
    (2 ** 32 - 1, 32768, 65536, 65535, 15), (2 ** 32, 65536, 131072, 65536, 16),
    (2 ** 62 - 1, 1073741824, 2147483648, 2147483647, 30), (2 ** 62, 2147483648, 4294967296, 2147483648, 31),
    (2 ** 63, 2147483648, 4294967296, 3037000499, 31), (18446744065119617024, 2147483648, 4294967296, 4294967294, 31),
    (18446744065119617025, 2147483648, 4294967296, 4294967295, 31), (2 ** 64 - 1, 2147483648, 4294967296, 4294967295, 31),
)


def rooting(seed, count):
    """Request A5: the numbers above; for small ones all answers; then the literal text and model.py's."""
    for n, low, high, root, halvings in ROOTS:
        assert engineer.bracket(n) == (low, high) and engineer.halve(n) == (root, halvings), n
        assert engineer.root_line(n) == "%d: %d %d %d %d" % (n, low, high, root, halvings)
    assert engineer.halved(45, 4, 8) == (6, 8) and engineer.halved(45, 6, 8) == (6, 7) and engineer.halved(36, 4, 8) == (6, 8)
    few = range(34)
    for n in range(300):
        low, high, k = literal_bracket(n)
        passed = [(a, b) for a in few for b in few if engineer.check_bracket(n, a, b) is True]
        assert passed == [(low, high)], n
        passed = [(a, b) for a in few for b in few if engineer.check_root(n, a, b) is True]
        assert passed == [(next(z for z in few if z * z <= n < (z + 1) * (z + 1)), k)], n
    stand_in, n = judge.StandIn(), -1
    for n, (label, number) in enumerate(roots.stream(seed, count)):
        low, high, k = literal_bracket(number)
        assert engineer.check_bracket(number, low, high) is True, (n, label)
        root = isqrt(number)
        # a bracket 2 to the k wide is one wide after k halvings, and not before
        assert engineer.check_root(number, root, k) is True, (n, label)
        for by in (-1, 1):
            assert engineer.check_root(number, root + by, k) is not True, (n, label)
            assert engineer.check_root(number, root, k + by) is not True, (n, label)
        assert written.check_roots(stand_in, number, roots.lent(seed, n)) is True, (n, label)
    return n + 1


def literal_bracket(n):
    """02's A5: 'low, the greatest power of two whose square is not above the number, and high, its double'; and the k."""
    if n == 0:
        return 0, 1, 0
    k = max(k for k in range(roots.BITS) if (2 ** k) ** 2 <= n)
    return 2 ** k, 2 * 2 ** k, k


def is_drawn(one, two, kind, axis):
    """02, A8, of two Joints: 'listing the dowels in another order', 'adding one offset to all x and one to all y', or 'mirroring
    coordinates and force in x or in y', where 'a mirrored pair of outline limits is exchanged, the lower first'; or equal values."""
    def others(j):
        return j.version, j.p, j.cls, j.grain, j.t, j.d, j.steel, j.service, j.duration, len(j.dowels)

    def line(j, k):
        """All x or all y: of the dowels, the low limits and the high ones."""
        return [xy[k] for xy in j.dowels], [o[k] for o in j.outline], [o[k + 2] for o in j.outline]

    def negated(numbers):
        return [-z for z in numbers]
    if others(one) != others(two):
        return False
    if kind == "mirrored":
        (places, low, high), (new, new_low, new_high) = line(one, axis), line(two, axis)
        force, new_force = (one.fx, one.fy), (two.fx, two.fy)
        return ((new, new_low, new_high) == (negated(places), negated(high), negated(low))
                and new_force[axis] == -force[axis] and new_force[1 - axis] == force[1 - axis]
                and line(one, 1 - axis) == line(two, 1 - axis))
    if (one.fx, one.fy) != (two.fx, two.fy):
        return False
    if kind == "moved":
        return all(len({b - a for old, new in zip(line(one, k), line(two, k)) for a, b in zip(old, new)}) == 1 for k in (0, 1))
    if one.outline != two.outline:
        return False
    return sorted(one.dowels) == sorted(two.dowels) if kind == "listed" else one.dowels == two.dowels


def told(data, loaded, whole=False):
    """What the engineer says that is the same: the number and the member, or the ranges and the rows of each member; the place
    too where it is the same."""
    reference = engineer.Reference(data, False, loaded)
    if reference.refusal is not None:
        return reference.refusal if whole else reference.refusal[:2]
    return reference.values().ranges(), reference.values().rows


def redrawing(seed, count):
    """Request A8: each change by the literal text and undone; both drawings by the engineer and by model.py."""
    stand_in, n = judge.StandIn(), -1
    r = Random(seed)
    for n, pair in enumerate(drawn.stream(seed, count)):
        loaded = written.loaded_of(pair.table)
        drawing = drawn.drawing_of(pair.first)
        assert drawn.write(drawing) == pair.first and drawn.write(drawn.drawing_of(pair.second)) == pair.second, (n, pair.label)
        for change in [[change] for change in (drawn.Mirrored(0), drawn.Mirrored(1))] + [drawn.some_changes(r, drawing)]:
            before = [drawing, *drawn.steps_of(drawing, change)]
            for step, old, new in zip(change, before, before[1:]):
                joints = [engineer.read(drawn.write(one), loaded) for one in (old, new)]
                assert all(isinstance(j, engineer.Joint) for j in joints), (n, pair.label, step)
                assert is_drawn(*joints, step.kind, getattr(step, "axis", None)), (n, pair.label, step)
                assert step.back(old).of(new) == old, (n, pair.label, step)
        one, two = (told(data, loaded, pair.whole) for data in (pair.first, pair.second))
        assert one == two, (n, pair.label, one, two)
        assert drawn.check(pair, stand_in.judge(pair.first, pair.table), stand_in.judge(pair.second, pair.table)) is True, n
    return n + 1


def halfway(change, *names):
    """A change of values of which these stay as they were."""
    def of(v):
        w = change.of(drawn.Drawing(v, None)).values
        for name in names:
            if name in (0, 1):
                w["members"][name]["outline"] = v["members"][name]["outline"]
            else:
                w[name] = v[name]
        return w
    return of


def limits_changed(change):
    """The dowels and the force mirrored in x, and of each outline x0 and x1 changed: change(x0, x1)."""
    def of(v):
        w = halfway(drawn.Mirrored(0), 0, 1)(v)
        for m in w["members"]:
            x0, y0, x1, y1 = m["outline"]
            low, high = change(x0, x1)
            m["outline"] = [low, y0, high, y1]
        return w
    return of


def last_twice(v):
    """Two dowels mapped to one."""
    return dict(v, dowels=v["dowels"][-1:] + v["dowels"][1:])


# what is no drawing of the same joint
NOT_DRAWN = (
    ("force not mirrored", halfway(drawn.Mirrored(0), "force")), ("force not mirrored in y", halfway(drawn.Mirrored(1), "force")),
    ("limits negated, not exchanged", limits_changed(lambda x0, x1: (-x0, -x1))),
    ("limits exchanged, not negated", limits_changed(lambda x0, x1: (x1, x0))),
    ("limits neither negated nor exchanged", limits_changed(lambda x0, x1: (x0, x1))),
    ("outline of member 1 not mirrored", halfway(drawn.Mirrored(1), 0)),
    ("outline of member 2 not mirrored", halfway(drawn.Mirrored(1), 1)),
    ("dowels not mirrored", halfway(drawn.Mirrored(0), "dowels")),
    ("force alone mirrored", halfway(drawn.Mirrored(0), "dowels", 0, 1)),
    ("outline of member 1 not moved", halfway(drawn.Moved(100, 10), 0)),
    ("outline of member 2 not moved", halfway(drawn.Moved(-100, 10), 1)),
    ("dowels not moved", halfway(drawn.Moved(1, 1), "dowels")),
    ("two dowels mapped to one", last_twice),
    ("a dowel lost", lambda v: dict(v, dowels=v["dowels"][1:] or v["dowels"])),
    ("x and y exchanged in the list", lambda v: dict(v, dowels=[(y, x) for x, y in v["dowels"]])),
    ("the other version", lambda v: dict(v, version=3 - v["version"])),
)


def not_drawn(seed, count):
    """Each change above is seen: the engineer answers some joint otherwise, which may be refused by 7 or 8.  Where the literal text
    takes what is changed for a drawing of the same joint, as of one that is its own mirror, the answers are the same."""
    kept = [drawn.drawing_of(drawn.generate(seed, n, False).first) for n in range(count)]
    for name, change in NOT_DRAWN:
        seen = False
        for drawing in kept:
            other = drawing._replace(values=change(records.copy(drawing.values)))
            one, two = drawn.write(drawing), drawn.write(other)
            differ = told(one, engineer.PRINTED) != told(two, engineer.PRINTED)
            seen = seen or differ
            if differ and drawn.passes(two):
                assert not any(is_drawn(engineer.read(one), engineer.read(two), kind, axis) for kind, axis in (
                    ("parts", 0), ("listed", 0), ("moved", 0), ("mirrored", 0), ("mirrored", 1))), (name, one.hex())
        assert seen, name
    return len(NOT_DRAWN)


def main():
    p = argparse.ArgumentParser(description=__doc__)
    p.add_argument("--count", type=int, default=1000)
    p.add_argument("--seed", type=int, default=5)
    a = p.parse_args()
    printed()
    hardwood()
    loaded_edges()
    out_of_line()
    graded()
    for_firms()
    writing()
    all_sets(a.seed, 3 * a.count)
    ties()
    print("printed figures and ties right, the rows of %d joints as the literal text has them" % (3 * a.count))
    print("%d tables, %d of them right, as the literal text has them" % loading(a.seed, 5 * a.count))
    print("%d shared tables, %d of them right, as the literal text has them" % sharing(a.seed, 5 * a.count))
    print("brackets and roots of %d numbers as the literal text has them" % rooting(a.seed, 20 * a.count))
    print("%d pairs of one joint drawn otherwise as the literal text has them" % redrawing(a.seed, 3 * a.count))
    print("%d changes that draw another joint seen" % not_drawn(a.seed, a.count // 4))
    for items, handed, what in ((plain_items, plain_values, ""), (tabled_items, tabled_values, " with tables"),
                                (shared_records, shared_values, " for firms")):
        print("%d spacings and %d joints%s as the literal text has them" % (*literal(a.seed, items(a.seed, a.count)), what))
        print("%d records written%s as the literal text has them" % (written_all(handed(a.seed, a.count)), what))


if __name__ == "__main__":
    main()
