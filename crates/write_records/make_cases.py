#!/usr/bin/env python3
"""Writes the files of data/, their names into args, and into stdout what document 02, A2, says of each.

Run it in this folder. A case is the numbers that a firm hands to the writer; its answer, a refusal's number or 0, stands beside it, worked
out by hand. A record is read and written again; its refusal by reading stands beside it. Bytes are packed here and nowhere judged.
"""
import itertools
import os
import struct

# Joint B of 01, as the 27 numbers, x and y.
NAMES = ["version", "planes"]
NAMES += [k + n for n in "12" for k in ("class", "grain", "gx", "gy", "thickness", "x0_", "y0_", "x1_", "y1_")]
NAMES += ["diameter", "steel", "plate", "service", "duration", "fx", "fy"]
B = [1, 2, 1, 0, 0, 0, 600, -840, -360, 20000, 720, 1, 0, 0, 0, 800, -20000, -360, 1440, 720, 12, 1, 0, 1, 3, 20000, 0]
X = [0, 600, 0, 600]
Y = [0, 0, 360, 360]
LEAST, MOST = -(2**31), 2**31 - 1


def bytes_of(f, x, y, order=(1, 2, 3, 4)):
    v = dict(zip(NAMES, f))
    members = bytes([1, v["planes"]]) + b"".join(
        struct.pack("<BBHiiii", *(v[k + n] for k in ("class", "grain", "thickness", "x0_", "y0_", "x1_", "y1_"))) for n in "12"
    )
    dowel = bytes([2, v["diameter"], v["steel"]])
    positions = bytes([3, len(x)]) + b"".join(struct.pack("<ii", *p) for p in zip(x, y))
    loads = bytes([4, v["service"], v["duration"]]) + struct.pack("<ii", v["fx"], v["fy"])
    parts = [(members, dowel, positions, loads)[k - 1] for k in order]
    pairs, at = b"", 20
    for p in parts:
        pairs += struct.pack("<HH", at, len(p))
        at += len(p)
    return struct.pack("<HH", v["version"], 4) + pairs + b"".join(parts)


files, lines = {}, []


def line(name, numbers, buffer):
    lines.append(f"{name}: " + " ".join(str(n) for n in numbers) + " :" + "".join(f" {b}" for b in buffer))


def case(name, number, room=None, x=X, y=Y, marks=(), fields=27, **changes):
    """The case `name`: joint B with `changes`, into a buffer of `room` bytes, or of just enough."""
    f = [changes.pop(k, n) for k, n in zip(NAMES, B)]
    assert not changes, changes
    length = 78 + 8 * len(x)
    room = length if room is None else room
    marks = list(marks)
    numbers = [room, fields, len(x), len(y), len(marks), 0, 0] + f + [0] * (32 - 27)
    numbers += list(x) + [0] * (80 - len(x)) + list(y) + [0] * (80 - len(y)) + marks + [0] * (80 - len(marks))
    assert name not in files, name
    files[name] = b"case" + struct.pack(f"<{len(numbers)}i", *numbers)
    untouched = bytes([170] * room)
    if fields < 27:
        line(name, [1, 7, 7, 7, 7], untouched)
    elif number:
        line(name, [0, number, 0, 7, 7], untouched)
    else:
        made = bytes_of(f, x, y)
        assert len(made) == length <= room
        line(name, [0, 0, length, 7, 7], made + untouched[length:])
    return files[name]


def record(name, number, data, f=B, x=X, y=Y):
    """The record `data`, read and written again, where it has the values f, x and y."""
    assert name not in files, name
    files[name] = data
    if number:
        lines.append(f"{name}: 0 {number} 0")
        return
    made = bytes_of(f, x, y)
    line(name, [0, 0, len(x), 0, 0, len(made), 7, 7], made + bytes([170] * (len(data) - len(made))))


with open("../../examples/joint-b.rec", "rb") as f:
    assert bytes_of(B, X, Y) == f.read()

# ---- lengths of the buffer
for room in (110, 111, 640):
    case(f"b-into-{room}", 0, room)
for room in (0, 1, 20, 109):
    case(f"b-into-{room}", 13, room)
many = [(500 * i - 20000) for i in range(64)]
case("64-into-590", 0, 590, many, many[::-1])
case("64-into-640", 0, 640, many, many[::-1])
case("64-into-589", 13, 589, many, many[::-1])
case("one-into-86", 0, 86, [-100000], [100000])
case("one-into-85", 13, 85, [-100000], [100000])

# ---- 1 and 2 are written as they are named; any other version is a 2, and before 7
case("version-2", 0, version=2)
case("version-2-64-into-590", 0, 590, many, many[::-1], version=2)
case("version-2-class-0", 7, version=2, class1=0)
case("version-2-no-room", 13, room=0, version=2)
for n in (0, 3, 9, -1, 256, 257, 258, 512, 65535, 65536, 65537, 65538, LEAST, MOST):
    case(f"version-{n}", 2, version=n)
case("version-9-class-0", 2, version=9, class1=0)
case("version-9-no-dowels", 2, x=[], y=[], version=9)
case("version-9-no-room", 2, room=0, version=9)

# ---- 7, each field beside its limits and far outside them
LIMITS = dict(planes=(1, 2), grain1=(0, 1), grain2=(0, 1), class1=(1, 11), class2=(1, 11), thickness1=(200, 4000), thickness2=(200, 4000))
LIMITS |= dict(diameter=(6, 30), steel=(1, 3), service=(1, 3), duration=(1, 5), fx=(-1000000, 1000000), fy=(-1000000, 1000000))
LIMITS |= dict(x0_1=(-100000, None), y0_1=(-100000, None), x0_2=(-100000, None), y0_2=(-100000, None))
LIMITS |= dict(x1_1=(None, 100000), y1_1=(None, 100000), x1_2=(None, 100000), y1_2=(None, 100000))
for k, (low, high) in LIMITS.items():
    wrong = [LEAST, MOST]
    if low is not None:
        case(f"{k}-{low}", 0, **{k: low})
        wrong += [low - 1]
    if high is not None:
        case(f"{k}-{high}", 0, **{k: high})
        wrong += [high + 1]
    if k in ("planes", "class1", "class2", "diameter", "steel", "service", "duration", "grain1", "grain2"):
        wrong += [low + 256, low - 256, -high]
    if k.startswith("thickness"):
        wrong += [600 + 65536, 600 - 65536, -600]
    for n in sorted(set(wrong) - {low, high}):
        if k.startswith("grain") and n == 0:
            continue
        case(f"{k}-{n}", 7, **{k: n})
for k in range(4):
    for n in (100001, -100001, LEAST, MOST):
        case(f"x{k}-{n}", 7, x=X[:k] + [n] + X[k + 1 :])
        case(f"y{k}-{n}", 7, y=Y[:k] + [n] + Y[k + 1 :])
case("no-dowels", 7, x=[], y=[])
case("no-x", 7, x=[])
case("3-x-4-y", 7, x=X[:3])
case("4-x-3-y", 7, y=Y[:3])
for n in (65, 66, 80):
    case(f"{n}-dowels", 7, 640, x=[0] * n, y=[0] * n)
case("64-x-65-y", 7, 640, x=[0] * 64, y=[0] * 65)
case("65-x-64-y", 7, 640, x=[0] * 65, y=[0] * 64)

# ---- 8 and 9, and the order
case("outline-empty", 8, x0_1=20000)
case("outline-turned", 8, y0_2=720, y1_2=-360)
case("outline-1-flat", 8, y0_1=720)
case("outline-2-turned-x", 8, x0_2=1440, x1_2=-20000)
case("no-force", 9, fx=0, fy=0)
case("force-along-y", 0, fx=0, fy=-1)
case("3-x-4-y-outline-empty", 7, x=X[:3], x0_1=20000)
case("class-0-outline-empty", 7, class1=0, x0_1=20000)
case("class-257-no-force", 7, class2=257, fx=0, fy=0)
case("outline-empty-no-force", 8, x0_1=20000, fx=0, fy=0)
case("outline-empty-no-room", 8, 0, x0_1=20000)
case("no-force-no-room", 9, 109, fx=0, fy=0)
case("class-0-no-room", 7, 0, class1=0)

# ---- 10 to 12 are not tested
case("dowels-599", 0, x=[0, 599, 0, 599])
case("dowels-at-one-place", 0, x=[0, 0, 0, 0], y=[0, 0, 0, 0])

# ---- what versions 1 and 2 have no field for is not looked at
case("gx-gy-plate", 0, gx1=1, gy1=LEAST, gx2=MOST, gy2=-1, plate=700)
case("marks", 0, marks=[1, 0, 9, LEAST])
case("80-marks", 0, marks=[5] * 80)
case("version-2-gx-gy-plate-marks", 0, version=2, gx1=1, gy1=LEAST, gx2=MOST, gy2=-1, plate=700, marks=[1, 0, 9, LEAST])

# ---- lengths of the fields
case("26-fields", 0, fields=26)
case("no-fields", 0, fields=0)
case("28-fields", 0, fields=28)

# ---- records, read and written again
for order in itertools.permutations((1, 2, 3, 4)):
    record("parts-" + "".join(str(k) for k in order), 0, bytes_of(B, X, Y, order))
b = bytes_of(B, X, Y)
signs = [1, 1] + [11, 1, 0, 0, 4000, -100000, -99999, -1, 0] + [9, 0, 0, 0, 200, -1, -100000, 100000, 1] + [30, 3, 0, 3, 5, -1000000, 1]
record("signs", 0, bytes_of(signs, many, many, (3, 1, 4, 2)), signs, many, many)
record("19-bytes", 1, b[:19])
record("no-bytes", 1, b"")
in_version_2 = [2] + B[1:]
record("record-version-2", 0, b"\2" + b[1:], in_version_2)
record("record-version-2-parts-4321", 0, bytes_of(in_version_2, X, Y, (4, 3, 2, 1)), in_version_2)
record("record-version-3", 2, b"\3" + b[1:])
record("record-version-257", 2, b"\1\1" + b[2:])
record("record-version-258", 2, b"\2\1" + b[2:])
record("three-pairs", 3, b[:2] + b"\3" + b[3:])
record("pair-too-long", 4, b[:6] + b"\53" + b[7:])
record("kind-twice", 5, b[:62] + b"\1" + b[63:])
record("n-5", 6, b[:66] + b"\5" + b[67:])
record("class-12", 7, b[:22] + b"\14" + b[23:])
record("outline-0", 8, b[:26] + b[34:38] + b[30:])
record("no-force-0", 9, b[:102] + bytes(8))
record("dowels-599-record", 0, bytes_of(B, [0, 599, 0, 599], Y), B, [0, 599, 0, 599])

os.makedirs("data", exist_ok=True)
for old in os.listdir("data"):
    os.remove(f"data/{old}")
for name, data in files.items():
    with open(f"data/{name}", "wb") as f:
        f.write(data)
assert len(files) == len(lines) < 1000
with open("args", "w") as f:
    f.write("".join(f"{name}\n" for name in files))
with open("stdout", "w") as f:
    f.write("".join(f"{text}\n" for text in lines))
