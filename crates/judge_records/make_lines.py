#!/usr/bin/env python3
"""Writes data/, args and stdout of this folder: the joints of document 01, of requests A1, A3 and A7 and some more, and the line of
each.

Refusals come from the reference engineer. Figures are worked out here with exact integers, as docs/DECISIONS.md says which figure
within its bracket is reported, and are held to the engineer's brackets.
"""
import math
import pathlib
import struct
import sys

HERE = pathlib.Path(__file__).resolve().parent
ROOT = HERE.parent.parent
sys.path.insert(0, str(ROOT / "tests" / "engineer"))
import engineer  # noqa: E402
import records  # noqa: E402

SOFTWOOD, HARDWOOD = 1350, 900      # k90 without its 15 d, in thousandths
WOOD = {1: (SOFTWOOD, 350), 2: (SOFTWOOD, 380), 3: (SOFTWOOD, 385), 4: (SOFTWOOD, 365), 5: (SOFTWOOD, 425), 6: (SOFTWOOD, 390),
        7: (SOFTWOOD, 440), 8: (SOFTWOOD, 400), 9: (HARDWOOD, 530), 10: (HARDWOOD, 550), 11: (HARDWOOD, 900)}
STEEL = {1: 360, 2: 430, 3: 510}
KMOD = {1: (60, 70, 80, 90, 110), 2: (60, 70, 80, 90, 110), 3: (50, 55, 65, 70, 90)}


def root(n, q, k):
    """The greatest r with r^k q <= n."""
    low, high = 0, 1
    while high ** k * q <= n:
        high *= 2
    while high - low > 1:
        middle = (low + high) // 2
        low, high = (middle, high) if middle ** k * q <= n else (low, middle)
    return low


def figures(record, woods=WOOD):
    """U, C and E of an accepted record, by a table: the printed one, or another."""
    parts = {}
    for k in range(4):
        offset, length = struct.unpack_from("<HH", record, 4 + 4 * k)
        parts[record[offset]] = record[offset:offset + length]
    p = parts[1][1]
    members = [struct.unpack_from("<BBH", parts[1], 2 + 20 * k) for k in range(2)]
    d, fu = parts[2][1], STEEL[parts[2][2]]
    n = parts[3][1]
    places = [struct.unpack_from("<ii", parts[3], 2 + 8 * i) for i in range(n)]
    h = KMOD[parts[4][1]][parts[4][2] - 1]
    force = struct.unpack_from("<ii", parts[4], 3)
    total = force[0] ** 2 + force[1] ** 2
    along = [abs(force[m[1]]) for m in members]
    wood = [woods[m[0]] for m in members]
    num = [density * total for _, density in wood]
    den = [(k90 + 15 * d) * (total - a * a) + 1000 * a * a for (k90, _), a in zip(wood, along)]
    cross = [num[0] * den[1], num[1] * den[0]]
    k = 82 * (100 - d) * d
    moment = root((300 * fu) ** 5 * d ** 13, 1, 5)
    terms = [math.isqrt(529 * k * moment * num[0] * num[1] // (10 * sum(cross)))]

    def wedge(i):
        r = math.isqrt((cross[1 - i] << 60) // sum(cross))
        return k * members[i][2] * num[i] * r // (den[i] * ((1 << 30) + r))

    terms.append(wedge(0))
    terms.append(wedge(1) if p == 1 else k * members[1][2] * num[1] // (2 * den[1]))
    c = min(terms)
    shares = []
    for m in members:
        share = 10000
        for low in {q[1 - m[1]] for q in places}:
            # 02, A3: a row lies within d above its lowest dowel; what lies there and is no row deducts no more than one that holds it
            row = sorted(q[m[1]] for q in places if low <= q[1 - m[1]] < low + 10 * d)
            if len(row) > 1:
                a1 = min(b - a for a, b in zip(row, row[1:]))
                share = min(share, root(10 ** 80 * a1 ** 5, len(row) ** 2 * (130 * d) ** 5, 20))
        shares.append(share)
    planes2 = p if n == 1 else 2 * n * p
    g = math.isqrt(total << 20) + 1
    uses = [-(-26 * 10 ** 8 * g // (1024 * planes2 * h * c))]
    uses += [-(-26 * 10 ** 12 * a // (planes2 * h * e * c)) for a, e in zip(along, shares)]
    return max(uses), c // 1000, min(shares)


def line(record):
    if len(record) > 4096:
        return "refused 4 0 0 0"
    refusal = engineer.parse(record)
    if isinstance(refusal, tuple):
        return "refused %d %d %d %d" % refusal
    u, c, e = figures(record)
    text = "%s %d %d %d" % ("fits" if u <= 10000 else "overloaded", u, c, e)
    fault = engineer.check(record, text + "\n")
    if fault is not True:
        sys.exit("%s: %s" % (text, fault))
    return text


def main():
    joints = {path.stem: path.read_bytes() for path in sorted((ROOT / "examples").glob("*.rec"))}
    b = joints["joint-b"]
    joints["no-bytes"] = b""
    joints["twenty-bytes"] = b[:20]
    joints["most-bytes"] = b[:18] + struct.pack("<H", 4096 - 99) + b[20:] + bytes(4096 - len(b))    # its last part fills it
    joints["too-long"] = b + bytes(4097 - len(b))
    joints.update(records.hardwood_joints())
    joints.update(records.row_joints())
    # 02, A7: joint B with its force across, and dowels at the limits of an edge, in both versions; versions that are not known
    read = ROOT / "crates" / "read_records" / "data"
    for path in sorted(read.glob("edge-m?-y?-86602?-*")) + sorted(read.glob("b-version-?-across*")):
        joints[path.name] = path.read_bytes()
    for version in (0, 3, 256, 257, 258, 65535):
        joints["b-version-%d" % version] = struct.pack("<H", version) + b[2:]
    (HERE / "data").mkdir(exist_ok=True)
    for old in (HERE / "data").iterdir():
        old.unlink()
    for name, record in joints.items():
        (HERE / "data" / name).write_bytes(record)
    (HERE / "args").write_text("".join(name + "\n" for name in joints))
    (HERE / "stdout").write_text("".join("%s: %s\n" % (name, line(record)) for name, record in joints.items()))


if __name__ == "__main__":
    main()
