#!/usr/bin/env python3
"""Writes stdin and stdout of this folder, run there: joints, and what exact integers give for them.

Works from document 01 and 02's A3 and A7 alone: distances as integers, cosines through their squares, shares by their 20th power.
"""
from math import isqrt
from fractions import Fraction
from decimal import Decimal, getcontext

getcontext().prec = 80
cases = []


def dot(direction, point):
    return point[0] if direction == 0 else point[1]


def verdict_of(which, member, d, force, dowels, eurocode=False):
    grain, x0, y0, x1, y1 = member
    f = force if which == 2 else (-force[0], -force[1])
    along, across = dot(grain, f), dot(1 - grain, f)
    total = Fraction(along * along + across * across)
    cos2, sin2 = Fraction(along * along) / total, Fraction(across * across) / total
    low, high = dot(grain, (x0, y0)), dot(grain, (x1, y1))
    left, right = dot(1 - grain, (x0, y0)), dot(1 - grain, (x1, y1))
    n = len(dowels)
    for i in range(n):
        for j in range(i + 1, n):
            a = abs(dot(grain, dowels[i]) - dot(grain, dowels[j]))
            b = abs(dot(1 - grain, dowels[i]) - dot(1 - grain, dowels[j]))
            more = a - 30 * d
            if not (b >= 30 * d or (more >= 0 and Fraction(more * more) >= 400 * d * d * cos2)):
                return (10, which, i + 1, j + 1)
    for i, p in enumerate(dowels):
        for distance, loaded in ((dot(grain, p) - low, along < 0), (high - dot(grain, p), along > 0)):
            if loaded:
                good = distance >= 70 * d and distance >= 800
            else:
                good = distance >= 30 * d and Fraction(distance * distance) >= 4900 * d * d * sin2
            if not good:
                return (11, which, i + 1, 0)
    for i, p in enumerate(dowels):
        for distance, loaded in ((dot(1 - grain, p) - left, across < 0), (right - dot(1 - grain, p), across > 0)):
            good = distance >= 30 * d
            if eurocode and loaded:
                good = good and distance >= 20 * d and Fraction((distance - 20 * d) ** 2) >= 400 * d * d * sin2
            if not good:
                return (12, which, i + 1, 0)
    return None


def share_of(member, d, dowels):
    grain = member[0]
    best = 10000
    for lowest in dowels:
        # all dowels less than d above this one: each row (02, A3) is such a set, and any other is part of a row, whose share is no greater
        row = [dot(grain, p) for p in dowels if 0 <= dot(1 - grain, p) - dot(1 - grain, lowest) < 10 * d]
        n = len(row)
        if n == 1:
            continue
        a1 = min(abs(p - q) for k, p in enumerate(row) for q in row[k + 1:])
        e = int(10000 * Decimal(n) ** Decimal("-0.1") * (Decimal(a1) / (130 * d)) ** Decimal("0.25")) if a1 else 0
        e = min(e, 10000)
        # the decimal floor is confirmed, or corrected where it is next to a whole number, by integers
        while e and (e * n) ** 20 * (130 * d) ** 5 > n ** 18 * a1 ** 5 * 10000 ** 20:
            e -= 1
        while e < 10000 and ((e + 1) * n) ** 20 * (130 * d) ** 5 <= n ** 18 * a1 ** 5 * 10000 ** 20:
            e += 1
        best = min(best, e)
    return best


def both(d, force, side, middle, dowels, eurocode):
    return (verdict_of(1, side, d, force, dowels, eurocode) or verdict_of(2, middle, d, force, dowels, eurocode)
            or (0, 0, 0, 0))


def case(d, force, side, middle, dowels, expect=None, by_eurocode=None):
    got = both(d, force, side, middle, dowels, False)
    if expect is not None:
        assert got == expect, (got, expect)
    more = both(d, force, side, middle, dowels, True)
    if by_eurocode is not None:
        assert more == by_eurocode, (more, by_eurocode)
    line = (*got, share_of(side, d, dowels), share_of(middle, d, dowels), *more)
    cases.append(((d, *force, *side, *middle, len(dowels), *[c for p in dowels for c in p]), line))
    return line


FAR = 100000
ROOM = (-FAR, -FAR, FAR, FAR)
wide = lambda grain: (grain, *ROOM)

# Joint B of 01 and its variants (outputs printed in 01)
B1, B2 = (0, -840, -360, 20000, 720), (0, -20000, -360, 1440, 720)
BD = [(0, 0), (600, 0), (0, 360), (600, 360)]
assert case(12, (20000, 0), B1, B2, BD, (0, 0, 0, 0), (0, 0, 0, 0))[4] in (7346, 7347)
case(12, (20000, 0), B1, B2, [(0, 0), (599, 0), (0, 360), (599, 360)], (10, 1, 1, 2))
case(12, (20000, 0), B1, (0, -20000, -360, 1439, 720), BD, (11, 2, 2, 0))
case(12, (20000, 0), (0, -840, -360, 20000, 719), B2, BD, (12, 1, 3, 0))
assert case(12, (3000, 0), B1, B2, [(0, 0)], (0, 0, 0, 0))[4:6] == (10000, 10000)
case(12, (3000, 4000), wide(0), wide(0), [(0, 0), (504, 0)], (0, 0, 0, 0))
case(12, (3000, 4000), wide(0), wide(0), [(0, 0), (503, 0)], (10, 1, 1, 2))


def least(test):
    """The least whole number that passes, by doubling and halving."""
    high = 1
    while not test(high):
        high *= 2
    low = -1
    while high - low > 1:
        middle = (low + high) // 2
        low, high = (low, middle) if test(middle) else (middle, high)
    return high


# at and one tenth below each limit, for 3-4-5 and for irrational angles, both grains, both signs
for d, force in ((12, (3, 4)), (12, (-4000, 3000)), (6, (1, 0)), (30, (0, -1)), (10, (1, 1)), (20, (-7, 3)), (16, (1, 1000000)),
                 (30, (-1000000, 999999)), (24, (5, -12)), (7, (-20, -21))):
    for grain in (0, 1):
        put = (lambda a, b: (a, b)) if grain == 0 else (lambda a, b: (b, a))
        box = lambda low, high, left, right: (grain, *put(low, left), *put(high, right))
        room = wide(grain)
        pair = least(lambda a: verdict_of(2, room, d, force, [put(0, 0), put(a, 0)]) is None)
        for a in (pair, pair - 1):
            case(d, force, room, room, [put(0, 0), put(a, 0)])
        for b in (30 * d, 30 * d - 1):
            case(d, force, room, room, [put(0, 0), put(0, b)])
        for which in (1, 2):
            for end in (-1, 1):
                outline = lambda z: box(-z, FAR, -FAR, FAR) if end < 0 else box(-FAR, z, -FAR, FAR)
                z = least(lambda z: verdict_of(which, outline(z), d, force, [put(0, 0)]) is None)
                for at in (z, z - 1):
                    members = (outline(at), room) if which == 1 else (room, outline(at))
                    case(d, force, *members, [put(0, 0)])
        for low, high in ((30 * d, 30 * d), (30 * d - 1, 30 * d), (30 * d, 30 * d - 1)):
            case(d, force, room, box(-FAR, FAR, -low, high), [put(0, 0)])

# no force along: neither end is loaded and both need 7d (d 10: 700, never 800); 1 N along loads one at once
for force, end in (((0, 20000), 700), ((0, 20000), 699), ((1, 1000000), 750), ((1, 1000000), 800), ((-1, 1000000), 700)):
    case(10, force, wide(0), (0, -FAR, -FAR, end, FAR), [(0, 0)])
# no floor of 40 or 80 mm at an end that is not loaded
case(6, (1000, 0), wide(0), (0, -180, -FAR, FAR, FAR), [(0, 0)], (0, 0, 0, 0))
case(6, (1000, 0), wide(0), (0, -179, -FAR, FAR, FAR), [(0, 0)], (11, 2, 1, 0))
# outside each end and edge; two dowels on one spot; the first fault of several
for outline in ((0, 10, -FAR, FAR, FAR), (0, -FAR, -FAR, -10, FAR), (0, -FAR, 10, FAR, FAR), (0, -FAR, -FAR, FAR, -10)):
    case(12, (1000, 0), outline, wide(0), [(0, 0)])
    case(12, (1000, 0), wide(1), outline, [(0, 0)])
case(12, (1000, 0), wide(0), wide(0), [(0, 0), (5000, 0), (0, 0)], (10, 1, 1, 3))
case(12, (1000, 0), (0, 10, 10, FAR, FAR), wide(0), [(0, 0), (700, 0), (1300, 0), (1200, 0)], (10, 1, 2, 4))
case(12, (1000, 0), (0, 10, 10, FAR, FAR), wide(0), [(5000, 0), (0, 0)], (11, 1, 2, 0))
# grains that differ: the rows of one member are the columns of the other
case(12, (3000, 4000), wide(0), wide(1), [(0, 0), (600, 0), (1200, 0), (0, 700), (600, 700), (1200, 700)])
# rows: n = 1; a1 = 13 d and beside it; n = 32 with a1 = 3.25 d (share 1/2 exactly) and a1 = 52 d
for d in (6, 10, 30):
    for a1 in (130 * d - 1, 130 * d, 130 * d + 1, 30 * d, 160 * d):
        for n in (2, 3):
            case(d, (0, 1), wide(0), wide(1), [(k * a1, 0) for k in range(n)])
    case(d, (0, 1), wide(0), wide(1), [(0, 0)])
for d, tenths in ((12, 390), (12, 389), (12, 391), (8, 4160), (8, 4159)):
    case(d, (0, 1), wide(0), wide(1), [(k * tenths - 60000, 0) for k in range(32)])
# 001, Table 13-2, row of 0 degrees, a1 = 5 d, n from 2 to 10: n_ef in hundredths and n_ef/n in thousandths, typed from the print.
# The program writes E n and (E + 2) n, rounded to hundredths, and E, rounded to thousandths. The other rows of the table follow
# from (13.2), "für 0° ≤ α ≤ 90° wird n_ef linear interpoliert", which 01 does not use.
PRINTED = ((147, 735), (212, 706), (274, 686), (335, 670), (395, 658), (454, 648), (512, 640), (569, 632), (626, 626))
# rows that differ in number and distance, in either order: n = 3 at 70 mm decides against n = 2 at 64 mm, not at 56 mm
for near in (560, 640):
    long, short = [(k * 700, 0) for k in range(3)], [(k * near, 900) for k in range(2)]
    for dowels in (long + short, short + long):
        case(10, (0, 1), wide(0), wide(1), dowels)
# by turns along x and y, each step shorter than the one before it: 63 rows of two in all
stair = [(0, 0)]
for k in range(1, 64):
    step = 1500 - 14 * k
    stair.append((stair[-1][0] + step * (k % 2), stair[-1][1] + step * (1 - k % 2)))
case(12, (120000, -170000), wide(0), wide(1), stair)
# rows of dowels out of line: less than d apart, d apart; a dowel in two rows, drawn upwards and downwards; the closest pair neighbours
# neither in the list nor across; grains that differ; each of 64 within reach of the next
for apart, share in ((119, 7347), (120, 10000)):
    assert case(12, (1000, 0), wide(0), wide(0), [(0, 0), (600, apart)])[4:6] == (share, share)
for way in (1, -1):
    assert case(12, (1000, 0), wide(0), wide(0), [(0, 0), (3000, way * 100), (3600, way * 200)])[4:6] == (7347, 7347)
assert case(12, (1000, 0), wide(0), wide(0), [(0, 0), (3000, 60), (600, 119), (4000, 120)])[4:6] == (7055, 7055)
assert case(12, (3, 4), wide(0), wide(1), [(0, 0), (900, 100), (100, 600), (1000, 700)], (0, 0, 0, 0))[4:6] == (8131, 7347)
assert case(12, (1000, 0), wide(0), wide(0), [(k * 600 - 19000, k * 100) for k in range(64)])[4:6] == (7347, 7347)
# each edge by Eurocode, loaded and not, of each member, at its limit and a tenth below: sin α 0, 3/5, 4/5, 1, irrational, 1 N across;
# the last limit lies 5e-14 tenths above 436
for d, force in ((12, (3, 4)), (12, (-4000, 3000)), (6, (1, 0)), (30, (0, -1)), (10, (1, 1)), (20, (-7, 3)), (16, (1, 1000000)),
                 (16, (-1000000, -1)), (30, (-1000000, 999999)), (24, (5, -12)), (7, (-20, -21)), (30, (866025, 500000)), (30, (866026, 500000)), (11, (164633, 851525))):
    for grain in (0, 1):
        put = (lambda a, b: (a, b)) if grain == 0 else (lambda a, b: (b, a))
        for which in (1, 2):
            for side in (-1, 1):
                outline = lambda z: (grain, *put(-FAR, -z if side < 0 else -FAR), *put(FAR, FAR if side < 0 else z))
                z = least(lambda z: verdict_of(which, outline(z), d, force, [put(0, 0)], True) is None)
                for at in (z, z - 1):
                    members = (outline(at), wide(grain)) if which == 1 else (wide(grain), outline(at))
                    case(d, force, *members, [put(0, 0)], None, (0, 0, 0, 0) if at == z else (12, which, 1, 0))
# grains that differ: sin α is 3/5 in member 1 and 4/5 in member 2
for x0, y1, told in ((-320, 360, (0, 0, 0, 0)), (-319, 360, (12, 1, 1, 0)), (-320, 359, (12, 2, 1, 0))):
    case(10, (3000, 4000), (1, x0, -FAR, FAR, FAR), (0, -FAR, -FAR, FAR, y1), [(0, 0)], (0, 0, 0, 0), told)
# 3d where sin α is a hair below 1/2, a tenth more where it is a hair above; member 1's lower edge as member 2's upper one
for fx, z in ((866025, 901), (866026, 900)):
    for at in (z, z - 1):
        refused = at < z
        case(30, (fx, 500000), wide(0), (0, -FAR, -FAR, FAR, at), [(0, 0)], None, (12, 2, 1, 0) if refused else (0, 0, 0, 0))
        case(30, (fx, 500000), (0, -FAR, -at, FAR, FAR), wide(0), [(0, 0)], None, (12, 1, 1, 0) if refused else (0, 0, 0, 0))
# 64 dowels
case(6, (1000, 0), wide(0), wide(0), [(k % 8 * 300, k // 8 * 180) for k in range(64)])
case(6, (1000, 0), wide(0), wide(0), [(k % 8 * 300, k // 8 * 180) for k in range(63)] + [(7 * 300 - 1, 7 * 180)])

with open("stdin", "w") as out:
    for numbers, _ in cases:
        out.write(" ".join(f"{n:+08d}" for n in numbers) + "\n")
with open("stdout", "w") as out:
    for _, line in cases:
        out.write(" ".join(map(str, line)) + " \n")
    for number, ratio in PRINTED:
        out.write(f"{number} {number} {ratio} \n")
print(len(cases), "joints")
