#!/usr/bin/env python3
"""Writes the record files of data/, their names into args, and into stdout what document 01 says of each.

Run it in this folder. Each answer below is worked out by hand from 01: 'accepted', or the refusal's number, member, first and
second dowel. Nothing here judges a record.
"""
import itertools
import os
import struct

# Joint B of 01.
MEMBER1 = dict(cls=1, grain=0, t=600, x0=-840, y0=-360, x1=20000, y1=720)
MEMBER2 = dict(cls=1, grain=0, t=800, x0=-20000, y0=-360, x1=1440, y1=720)
DOWELS = [(0, 0), (600, 0), (0, 360), (600, 360)]
LOADS = dict(service=1, duration=3, fx=20000, fy=0)


def member(m):
    return struct.pack("<BBHiiii", m["cls"], m["grain"], m["t"], m["x0"], m["y0"], m["x1"], m["y1"])


def members(p=2, m1=None, m2=None):
    return bytes([1, p]) + member({**MEMBER1, **(m1 or {})}) + member({**MEMBER2, **(m2 or {})})


def dowel(d=12, steel=1):
    return bytes([2, d, steel])


def positions(points=None, n=None):
    points = DOWELS if points is None else points
    return bytes([3, len(points) if n is None else n]) + b"".join(struct.pack("<ii", x, y) for x, y in points)


def loads(**changes):
    v = {**LOADS, **changes}
    return bytes([4, v["service"], v["duration"]]) + struct.pack("<ii", v["fx"], v["fy"])


def pairs_of(parts):
    pairs, at = [], 20
    for part in parts:
        pairs.append((at, len(part)))
        at += len(part)
    return pairs


def record(parts, pairs=None, version=1, count=4):
    pairs = pairs_of(parts) if pairs is None else pairs
    return struct.pack("<HH", version, count) + b"".join(struct.pack("<HH", *p) for p in pairs) + b"".join(parts)


def joint(p=2, m1=None, m2=None, d=12, steel=1, points=None, n=None, version=1, count=4, **load):
    return record([members(p, m1, m2), dowel(d, steel), positions(points, n), loads(**load)], version=version, count=count)


def moved(dowel_number, x, y):
    points = list(DOWELS)
    points[dowel_number - 1] = (x, y)
    return points


B = joint()
M, D, P, L = members(), dowel(), positions(), loads()
RECORDS = []


def add(name, data, answer="accepted"):
    RECORDS.append((name, data, answer))


# ---- accepted: B (docs/RECORD.md explains this one byte by byte), and its parts in each order
add("joint-b", B)
for order in itertools.permutations((1, 2, 3, 4)):
    parts = {1: M, 2: D, 3: P, 4: L}
    add("order-" + "".join(map(str, order)), record([parts[k] for k in order]))

# ---- 1 fewer than 20 bytes
add("bytes-0", b"", "1 0 0 0")
add("bytes-1", B[:1], "1 0 0 0")
add("bytes-19", B[:19], "1 0 0 0")
add("bytes-19-version-3", joint(version=3)[:19], "1 0 0 0")
add("bytes-20", B[:20], "4 0 0 0")  # the last sum is not 20
add("bytes-20-zero", bytes(20), "2 0 0 0")

# ---- 2 version not yet known: neither 1 nor 2
add("version-2", joint(version=2))
for version in (0, 3, 255, 0x0101, 0x0102, 0x0200, 0x0201, 0xffff):
    add(f"version-{version}", joint(version=version), "2 0 0 0")
add("version-big-endian", joint(version=0x0100), "2 0 0 0")
add("version-3-count-3", joint(version=3, count=3), "2 0 0 0")
add("version-2-count-3", joint(version=2, count=3), "3 0 0 0")

# ---- 3 pair count not 4
add("count-3", joint(count=3), "3 0 0 0")
add("count-5", joint(count=5), "3 0 0 0")
add("count-big-endian", joint(count=0x0400), "3 0 0 0")
add("count-5-pairs-wrong", record([M, D, P, L], pairs=[(0, 0)] * 4, count=5), "3 0 0 0")

# ---- 4 pairs against the rule
right = pairs_of([M, D, P, L])


def with_pair(k, offset, length):
    pairs = list(right)
    pairs[k - 1] = (offset, length)
    return record([M, D, P, L], pairs=pairs)


add("pairs-exchanged", record([M, D, P, L], pairs=[right[1], right[0], right[2], right[3]]), "4 0 0 0")
add("pair-1-offset-19", with_pair(1, 19, 43), "4 0 0 0")
add("pair-1-offset-21", with_pair(1, 21, 41), "4 0 0 0")
add("pair-2-gap", with_pair(2, right[1][0] + 1, right[1][1] - 1), "4 0 0 0")
add("pair-2-overlap", with_pair(2, right[1][0] - 1, right[1][1] + 1), "4 0 0 0")
add("pair-3-late", with_pair(3, right[2][0] + 1, right[2][1] - 1), "4 0 0 0")
add("pair-4-late", with_pair(4, right[3][0] + 1, right[3][1] - 1), "4 0 0 0")
add("last-sum-short", with_pair(4, right[3][0], right[3][1] - 1), "4 0 0 0")
add("last-sum-past", with_pair(4, right[3][0], right[3][1] + 1), "4 0 0 0")
add("byte-more", B + b"\0", "4 0 0 0")
add("byte-less", B[:-1], "4 0 0 0")
for k in (1, 2, 3, 4):
    parts = [M, D, P, L]
    parts[k - 1] = b""
    add(f"length-0-pair-{k}", record(parts), "4 0 0 0")
add("offset-big-endian", record([M, D, P, L], pairs=[(0x1400, right[0][1])] + right[1:]), "4 0 0 0")
# sums that wrap at 65,536 come back to the record's length; true sums do not
add("sums-wrap", record([M, D, P, L], pairs=[(20, 65535), (19, 1), (20, 1), (21, len(B) - 21)]), "4 0 0 0")
add("sum-wraps-once", record([M, D, P, L], pairs=right[:3] + [(right[3][0], 65535)]), "4 0 0 0")
add("pairs-and-kinds", record([D, D, P, L], pairs=[(21, 3), (24, 3), (27, 34), (61, 11)]), "4 0 0 0")

# ---- 5 kinds not once each
add("kind-2-twice", record([M, D, P, b"\2" + L[1:]]), "5 0 0 0")
add("kind-1-twice", record([M, b"\1" + D[1:], P, L]), "5 0 0 0")
add("kind-3-twice", record([M, D, P, P]), "5 0 0 0")
add("kind-4-four-times", record([L, L, L, L]), "5 0 0 0")
for kind in (0, 5, 255):
    add(f"kind-{kind}", record([M, D, P, bytes([kind]) + L[1:]]), "5 0 0 0")
add("kind-twice-and-length", record([M, D + b"\0", P, b"\2" + L[1:]]), "5 0 0 0")

# ---- 6 a part's length wrong for its kind
add("members-41", record([M[:-1], D, P, L]), "6 0 0 0")
add("members-43", record([M + b"\0", D, P, L]), "6 0 0 0")
add("dowel-2", record([M, D[:-1], P, L]), "6 0 0 0")
add("dowel-4", record([M, D + b"\0", P, L]), "6 0 0 0")
add("positions-1", record([M, D, b"\3", L]), "6 0 0 0")
add("positions-33", record([M, D, P[:-1], L]), "6 0 0 0")
add("positions-35", record([M, D, P + b"\0", L]), "6 0 0 0")
add("positions-n-3-for-4", joint(n=3), "6 0 0 0")
add("positions-n-5-for-4", joint(n=5), "6 0 0 0")
add("positions-n-0-for-4", joint(n=0), "6 0 0 0")
add("positions-n-255-for-4", joint(n=255), "6 0 0 0")
add("loads-10", record([M, D, P, L[:-1]]), "6 0 0 0")
add("loads-12", record([M, D, P, L + b"\0"]), "6 0 0 0")
add("length-and-field", record([M, dowel(31) + b"\0", P, L]), "6 0 0 0")
# more than 65,535 bytes: the chain is right by true sums, the part too long
add("long-positions", record([M, D, L, b"\3\xff" + bytes(65500)]), "6 0 0 0")
add("long-kind-twice", record([M, D, b"\3" + L[1:], b"\3\xff" + bytes(65500)]), "5 0 0 0")
add("long-byte-more", record([M, D, L, b"\3\xff" + bytes(65500)]) + b"\0", "4 0 0 0")
add("bytes-5000", record([M, D, L, b"\3\x04" + bytes(5000 - 20 - len(M + D + L) - 2)]), "6 0 0 0")

# ---- 7 a field outside its values or limits: each at its limits and one beyond
for p in (0, 3, 255):
    add(f"planes-{p}", joint(p=p), "7 0 0 0")
add("planes-1", joint(p=1))
for which in ("m1", "m2"):
    for cls in (1, 8, 9, 10, 11):
        add(f"{which}-class-{cls}", joint(**{which: dict(cls=cls)}))
    for cls in (0, 12, 255):
        add(f"{which}-class-{cls}", joint(**{which: dict(cls=cls)}), "7 0 0 0")
    add(f"{which}-grain-2", joint(**{which: dict(grain=2)}), "7 0 0 0")
    for t, answer in ((0, "7 0 0 0"), (199, "7 0 0 0"), (200, "accepted"), (4000, "accepted"), (4001, "7 0 0 0"), (65535, "7 0 0 0")):
        add(f"{which}-thickness-{t}", joint(**{which: dict(t=t)}), answer)
    for limit, sign in (("x0", -1), ("y0", -1), ("x1", 1), ("y1", 1)):
        add(f"{which}-{limit}-limit", joint(**{which: {limit: sign * 100000}}))
        add(f"{which}-{limit}-beyond", joint(**{which: {limit: sign * 100001}}), "7 0 0 0")
    # the other sign: x0 past the limit is a 7 before it is an 8
    for limit, sign in (("x0", 1), ("y0", 1), ("x1", -1), ("y1", -1)):
        add(f"{which}-{limit}-far-limit", joint(**{which: {limit: sign * 100000}}), "8 0 0 0")
        add(f"{which}-{limit}-far-beyond", joint(**{which: {limit: sign * 100001}}), "7 0 0 0")
    add(f"{which}-x1-most", joint(**{which: dict(x1=2147483647)}), "7 0 0 0")
    add(f"{which}-x0-least", joint(**{which: dict(x0=-2147483648)}), "7 0 0 0")
# grain along y with the force along x: the ends lie at y0 and y1, 360 away where 7d = 840 are asked
add("m1-grain-1", joint(m1=dict(grain=1)), "11 1 1 0")
add("m2-grain-1", joint(m2=dict(grain=1)), "11 2 1 0")
for d, answer in ((5, "7 0 0 0"), (6, "accepted"), (30, "10 1 1 2"), (31, "7 0 0 0"), (0, "7 0 0 0"), (255, "7 0 0 0")):
    add(f"diameter-{d}", joint(d=d), answer)
for steel, answer in ((0, "7 0 0 0"), (1, "accepted"), (3, "accepted"), (4, "7 0 0 0")):
    add(f"steel-{steel}", joint(steel=steel), answer)
add("positions-n-0", record([M, D, b"\3\0", L]), "7 0 0 0")
add("positions-n-1", joint(points=DOWELS[:1]))
wide = dict(x0=-90000, y0=-90000, x1=90000, y1=90000)
add("positions-n-64", joint(m1=wide, m2=wide, points=[(600 * i, 360 * j) for j in range(8) for i in range(8)]))
add("positions-n-65", joint(m1=wide, m2=wide, points=[(600 * i, 0) for i in range(65)]), "7 0 0 0")
add("positions-n-255", joint(m1=wide, m2=wide, points=[(300 * i, 0) for i in range(255)]), "7 0 0 0")
# a dowel at the limit lies outside both members: along the grain an end, across it an edge
for x, answer in ((100000, "11 1 4 0"), (100001, "7 0 0 0"), (-100000, "11 1 4 0"), (-100001, "7 0 0 0")):
    add(f"dowel-4-x-{x}", joint(points=moved(4, x, 360)), answer)
for y, answer in ((100000, "12 1 4 0"), (100001, "7 0 0 0"), (-100000, "12 1 4 0"), (-100001, "7 0 0 0")):
    add(f"dowel-4-y-{y}", joint(points=moved(4, 600, y)), answer)
add("dowel-1-x-100001", joint(points=moved(1, 100001, 0)), "7 0 0 0")
add("dowel-1-y-least", joint(points=moved(1, 0, -2147483648)), "7 0 0 0")
add("dowel-64-beyond", joint(m1=wide, m2=wide, points=[(600 * i, 360 * j) for j in range(8) for i in range(8)][:63] + [(0, 100001)]), "7 0 0 0")
# -1 is ff ff ff ff: the loaded low end of member 1 is then 839 away where 840 are asked
add("dowel-1-x-minus-1", joint(points=moved(1, -1, 0)), "11 1 1 0")
for service, answer in ((0, "7 0 0 0"), (1, "accepted"), (3, "accepted"), (4, "7 0 0 0")):
    add(f"service-{service}", joint(service=service), answer)
for duration, answer in ((0, "7 0 0 0"), (1, "accepted"), (5, "accepted"), (6, "7 0 0 0")):
    add(f"duration-{duration}", joint(duration=duration), answer)
for f, answer in ((1000000, "accepted"), (1000001, "7 0 0 0"), (-1000000, "accepted"), (-1000001, "7 0 0 0")):
    add(f"fx-{f}", joint(fx=f), answer)
    add(f"fy-{f}", joint(fy=f), answer)
add("fields-before-outline", joint(m1=dict(x0=20000), duration=6), "7 0 0 0")
add("fields-before-force", joint(fx=0, fy=0, steel=4), "7 0 0 0")

# ---- 8 an outline with x0 >= x1 or y0 >= y1
add("m1-x0-is-x1", joint(m1=dict(x0=20000)), "8 0 0 0")
add("m1-x0-above-x1", joint(m1=dict(x0=20001)), "8 0 0 0")
add("m1-x0-below-x1", joint(m1=dict(x0=19999)), "11 1 1 0")
add("m1-y0-is-y1", joint(m1=dict(y0=720)), "8 0 0 0")
add("m2-x0-is-x1", joint(m2=dict(x1=-20000)), "8 0 0 0")
add("m2-y0-is-y1", joint(m2=dict(y1=-360)), "8 0 0 0")
add("m2-y0-below-y1", joint(m2=dict(y1=-359)), "12 2 1 0")
add("outline-before-force", joint(m2=dict(x1=-20000), fx=0, fy=0), "8 0 0 0")

# ---- 9 both force components 0
add("force-0-0", joint(fx=0, fy=0), "9 0 0 0")
add("force-0-0-too-close", joint(fx=0, fy=0, d=30), "9 0 0 0")
add("force-0-1", joint(fx=0, fy=1))
add("force-0-minus-1", joint(fx=0, fy=-1))
add("force-minus-1-0", joint(fx=-1, fy=0))
add("force-0-65536", joint(fx=0, fy=65536))

# ---- 10 to 12, the drill plan
add("too-close", joint(points=[(0, 0), (599, 0), (0, 360), (599, 360)]), "10 1 1 2")
add("end-too-near", joint(m2=dict(x1=1439)), "11 2 2 0")
add("edge-too-near", joint(m1=dict(y1=719)), "12 1 3 0")
# member 1 first: its 12 before member 2's 11; and 11 before 12 in one member
add("m1-edge-before-m2-end", joint(m1=dict(y1=719), m2=dict(x1=1439)), "12 1 3 0")
add("end-before-edge", joint(m1=dict(x0=-839, y1=719)), "11 1 1 0")
add("too-close-before-end", joint(m1=dict(x0=-839), points=[(0, 0), (599, 0), (0, 360), (599, 360)]), "10 1 1 2")
add("too-close-3-4", joint(points=[(0, 0), (600, 0), (0, 360), (599, 360)]), "10 1 3 4")

# ---- 01's other starred joints: what refuses them is decided here, their figures are not
add("b-fx-27000", joint(fx=27000))
add("b-t1-200", joint(m1=dict(t=200)))
add("b-one-dowel", joint(points=DOWELS[:1], fx=3000))
# force (3,000, 4,000), across 0: (3 + 2 * 3/5) * 12 mm = 504 tenths along
big = dict(x0=-20000, y0=-20000, x1=20000, y1=20000)
add("along-504", joint(m1=big, m2=big, points=[(0, 0), (504, 0)], fx=3000, fy=4000))
add("along-503", joint(m1=big, m2=big, points=[(0, 0), (503, 0)], fx=3000, fy=4000), "10 1 1 2")


# ---- 02, A7: the edges of version 2. One dowel of 30 mm at the origin, every limit but one far away; (2 + 2 sin α) d is 600 and 600 sin α
def edge(version, force, which="m2", d=30, grain=0, **limit):
    far = dict(x0=-90000, y0=-90000, x1=90000, y1=90000, grain=grain)
    outlines = {"m1": dict(far), "m2": dict(far)}
    outlines[which].update(limit)
    return joint(**outlines, d=d, points=[(0, 0)], version=version, fx=force[0], fy=force[1])


# sin α a hair above 1/2, and a hair below it: 3d are 900
for fx, z in ((866025, 901), (866026, 900)):
    for at, good in ((z, True), (z - 1, False)):
        add(f"edge-m2-y1-{fx}-{at}", edge(2, (fx, 500000), "m2", y1=at), "accepted" if good else "12 2 1 0")
        add(f"edge-m1-y0-{fx}-{at}", edge(2, (fx, 500000), "m1", y0=-at), "accepted" if good else "12 1 1 0")
add("edge-m2-y1-866025-900-version-1", edge(1, (866025, 500000), "m2", y1=900))
add("edge-m2-y1-866025-899-version-1", edge(1, (866025, 500000), "m2", y1=899), "12 2 1 0")
# the other edges need 3d: the force in member 2 runs away from y0, that in member 1 from y1
for which, limit, sign in (("m2", "y0", -1), ("m1", "y1", 1)):
    for at, good in ((900, True), (899, False)):
        add(f"edge-{which}-{limit}-not-loaded-{at}", edge(2, (0, 500000), which, **{limit: sign * at}), "accepted" if good else f"12 {which[1]} 1 0")
# sin α = 1, 4/5, 3/5 with d = 10: 400, 360, 320, in each member and with the grain along x and y; 0: no edge is loaded
for grain in (0, 1):
    low, high = ("y0", "y1") if grain == 0 else ("x0", "x1")
    turned = (lambda along, across: (along, across)) if grain == 0 else (lambda along, across: (across, along))
    for along, across, z in ((0, 1, 400), (3, 4, 360), (-4, 3, 320), (5, 0, 300)):
        for which, limit, sign in (("m2", high, 1), ("m1", low, -1)):
            for at, good in ((z, True), (z - 1, False)):
                add(f"edge-{which}-grain-{grain}-{along}-{across}-{at}",
                    edge(2, turned(along * 1000, across * 1000), which, 10, grain, **{limit: sign * at}),
                    "accepted" if good else f"12 {which[1]} 1 0")
                add(f"edge-{which}-grain-{grain}-{along}-{across}-{at}-back",
                    edge(2, turned(along * 1000, across * -1000), which, 10, grain, **{"m2": {low: -at}, "m1": {high: at}}[which]),
                    "accepted" if good else f"12 {which[1]} 1 0")
# 1 N across of a million: (2 + 0.000002) d is far below 3d
add("edge-1-n-across", edge(2, (1000000, 1), "m2", y1=900))
add("edge-1-n-across-899", edge(2, (1000000, 1), "m2", y1=899), "12 2 1 0")
# the edges of one member come before all of the next, and after its own pairs and ends; joint B in version 2 with a force across
add("b-version-2-across", joint(version=2, fx=0, fy=20000), "12 1 1 0")
add("b-version-2-across-end", joint(version=2, m1=dict(x0=-839), fx=0, fy=20000), "11 1 1 0")
add("b-version-2-across-member-2", joint(version=2, m1=dict(y0=-480), fx=0, fy=20000), "12 2 3 0")
add("b-version-2-across-wide", joint(version=2, m1=dict(y0=-480), m2=dict(y1=840), fx=0, fy=20000))
add("b-version-1-across", joint(version=1, fx=0, fy=20000))
# version 1 refuses member 2's end, version 2 member 1's edge before it
for version, answer in ((1, "11 2 2 0"), (2, "12 1 1 0")):
    add(f"b-version-{version}-skew-end", joint(version=version, m2=dict(x1=1439), fx=20000, fy=20000), answer)
# grains that differ: with force (3,000, 4,000) sin α is 3/5 in member 1, grain y, and 4/5 in member 2, grain x
for x0, y1, answer in ((-320, 360, "accepted"), (-319, 360, "12 1 1 0"), (-320, 359, "12 2 1 0")):
    far = dict(x0=-90000, y0=-90000, x1=90000, y1=90000)
    add(f"edge-crossed-{-x0}-{y1}",
        joint(m1={**far, "grain": 1, "x0": x0}, m2={**far, "y1": y1}, d=10, points=[(0, 0)], version=2, fx=3000, fy=4000), answer)

os.makedirs("data", exist_ok=True)
names = [name for name, _, _ in RECORDS]
assert len(names) == len(set(names))
for old in os.listdir("data"):
    os.remove(os.path.join("data", old))
for name, data, _ in RECORDS:
    with open(os.path.join("data", name), "wb") as out:
        out.write(data)
with open("args", "w") as out:
    out.write("".join(f"{name}\n" for name in names))
with open("stdout", "w") as out:
    out.write("".join(f"{name}: {answer}\n" for name, _, answer in RECORDS))
