"""Records for the engineer's test: written from readable values, systematic and by chance, half of them in version 2.

stream(seed, count) gives (label, bytes): first the systematic records, then records
made by chance; a record depends on the seed and its number alone.
"""
from fractions import Fraction
from itertools import permutations, product
from math import gcd, isqrt
from random import Random
import struct

from model import Model

# ------------------------------------------------------------------- writing


def parts(v):
    """The four parts of the values v, kinds 1 to 4.  Numbers that do not fit wrap."""
    members = bytearray([1, v["p"] & 255])
    for m in v["members"]:
        members += bytes([m["class"] & 255, m["grain"] & 255])
        members += (m["t"] & 0xFFFF).to_bytes(2, "little")
        for x in m["outline"]:
            members += (x & 0xFFFFFFFF).to_bytes(4, "little")
    flat = [c & 0xFFFFFFFF for xy in v["dowels"] for c in xy]
    count = v.get("count", len(v["dowels"])) & 255
    places = bytes([3, count]) + struct.pack("<%dI" % len(flat), *flat)
    fx, fy = v["force"]
    loads = struct.pack("<BBBII", 4, v["service"] & 255, v["duration"] & 255,
                        fx & 0xFFFFFFFF, fy & 0xFFFFFFFF)
    return [bytes(members), bytes([2, v["d"] & 255, v["steel"] & 255]), places, loads]


def assemble(blocks, version=1, count=4, pairs=None):
    """Header, pairs in a right chain (or the given ones) and the blocks."""
    if pairs is None:
        pairs, at = [], 20
        for b in blocks:
            pairs.append((at, len(b)))
            at += len(b)
    head = struct.pack("<HH", version & 0xFFFF, count & 0xFFFF)
    for o, n in pairs:
        head += struct.pack("<HH", o & 0xFFFF, n & 0xFFFF)
    return head + b"".join(blocks)


def write(v, order=(1, 2, 3, 4)):
    blocks = parts(v)
    return assemble([blocks[k - 1] for k in order], v["version"])


def in_version(data, version):
    """The record with another version."""
    return struct.pack("<H", version) + data[2:]


def in_half(n):
    """Whether item number n is one of the half in version 2: by how many ones the number has, so that no loop keeps step."""
    return bin(n).count("1") % 2 == 1


def halved(items):
    """The items, each with a record in the last place, half of those of version 1 in version 2."""
    for n, (label, *more, data) in enumerate(items):
        if in_half(n) and data[:2] == b"\1\0":
            label, data = label + " in version 2", in_version(data, 2)
        yield (label, *more, data)


def copy(v):
    w = dict(v)
    w["members"] = [dict(m, outline=list(m["outline"])) for m in v["members"]]
    w["dowels"] = list(v["dowels"])
    return w


def joint_b(**change):
    """Joint B, with top-level values changed."""
    v = {
        "version": 1,
        "p": 2,
        "members": [
            {"class": 1, "grain": 0, "t": 600, "outline": [-840, -360, 20000, 720]},
            {"class": 1, "grain": 0, "t": 800, "outline": [-20000, -360, 1440, 720]},
        ],
        "d": 12, "steel": 1,
        "dowels": [(0, 0), (600, 0), (0, 360), (600, 360)],
        "service": 1, "duration": 3, "force": (20000, 0),
    }
    v.update(change)
    return v


def joint_b_member(m, **change):
    v = joint_b()
    v["members"][m - 1].update(change)
    return v


def square(step):
    """Four dowels, a step apart in x and in y."""
    return [(0, 0), (step, 0), (0, step), (step, step)]


def drawn_b(dowels, outline_1, outline_2, force=(20000, 0)):
    """Joint B with other places and limits."""
    v = joint_b(dowels=dowels, force=force)
    for member, outline in zip(v["members"], (outline_1, outline_2)):
        member["outline"] = list(outline)
    return v


def roomy(dowels, grains=(0, 0), **change):
    """Joint B with other dowels, both members 18 m long and wide."""
    v = joint_b(dowels=list(dowels), **change)
    for m, grain in zip(v["members"], grains):
        m.update(grain=grain, outline=[-90000, -90000, 90000, 90000])
    return v


def oak_post():
    """Two beams of C24, grain x, on the post of D30 between them, grain y, which they press down."""
    v = joint_b(dowels=square(600), force=(0, -15000))
    v["members"][0]["outline"] = [-20000, -360, 1440, 960]
    v["members"][1].update({"class": 9, "grain": 1, "outline": [-360, -20000, 960, 960]})
    return v


def hung_beam(version, below=360):
    """A beam of C24, grain x, between two hangers, grain y, that pull down at it, towards its lower edge, which is so far below
    the lower dowels."""
    v = joint_b(version=version, dowels=square(600), force=(0, -15000))
    v["members"][0].update({"grain": 1, "outline": [-360, -20000, 960, 1440]})
    v["members"][1]["outline"] = [-20000, -below, 20000, 960]
    return v


def own_class():
    """The post of class 200, which only a firm's own table has (02, A4): see examples/own-table.tab."""
    v = oak_post()
    v["members"][1]["class"] = 200
    return v


def samples():
    """'Joints to try' with the line or bounds printed there; a joint of softwood and hardwood, one whose dowels stand a
    hair out of line, and a beam in which an edge is loaded, with bounds from the printed formulas in decimals; a class that is not
    printed; two of these joints drawn otherwise: (name, record, line or bounds).
    Bounds: (verdict, U range or None, C range or None, E range or None)."""
    as_b = ("fits", (7431, 7469), (7440, 7441), (7346, 7347))
    hung = ("fits", (6268, 6301), (6614, 6615), (7346, 7347))
    b, backwards = write(joint_b()), joint_b()["dowels"][::-1]
    pair = joint_b(force=(3000, 4000), dowels=[(0, 0), (504, 0)])
    near = joint_b(force=(3000, 4000), dowels=[(0, 0), (503, 0)])
    exchanged = b[:4] + b[8:12] + b[4:8] + b[12:]
    return [
        ("joint-b", b, as_b),
        ("force-26700", write(joint_b(force=(26700, 0))), ("fits", None, None, None)),
        ("force-27000", write(joint_b(force=(27000, 0))), ("overloaded", None, None, None)),
        ("dowels-599", write(joint_b(dowels=[(0, 0), (599, 0), (0, 360), (599, 360)])),
         "refused 10 1 1 2\n"),
        ("member-2-end-1439", write(joint_b_member(2, outline=[-20000, -360, 1439, 720])),
         "refused 11 2 2 0\n"),
        ("member-1-edge-719", write(joint_b_member(1, outline=[-840, -360, 20000, 719])),
         "refused 12 1 3 0\n"),
        ("t1-200", write(joint_b_member(1, t=200)), ("overloaded", None, (2509, 2510), None)),
        ("t1-199", write(joint_b_member(1, t=199)), "refused 7 0 0 0\n"),
        ("lone-dowel", write(joint_b(dowels=[(0, 0)], force=(3000, 0))),
         (None, (6552, 6586), None, (9999, 10000))),
        ("pair-504", write(pair), (None, None, None, None)),
        ("pair-503", write(near), "refused 10 1 1 2\n"),
        ("no-force", write(joint_b(force=(0, 0))), "refused 9 0 0 0\n"),
        ("nineteen-bytes", b[:19], "refused 1 0 0 0\n"),
        ("pairs-exchanged", exchanged, "refused 4 0 0 0\n"),
        ("oak-post", write(oak_post()), ("fits", (7664, 7703), (5409, 5410), (7346, 7347))),
        ("out-of-line", write(roomy([(600 * k, k % 2) for k in range(8)], force=(50000, 0))),
         ("overloaded", (10669, 10724), (7440, 7441), (6395, 6396))),
        ("own-class", write(own_class()), "refused 7 0 0 0\n"),
        # 02, A7.  Joint B: no edge is loaded, the line is that of joint-b
        ("eurocode-b", write(joint_b(version=2)), as_b),
        # the hangers pull square at the beam's lower edge: it needs (2 + 2) 12 = 48 mm and has 36, what version 1 asks of every edge
        ("loaded-edge", write(hung_beam(2)), "refused 12 2 1 0\n"),
        ("loaded-edge-v1", write(hung_beam(1)), hung),
        ("loaded-edge-480", write(hung_beam(2, 480)), hung),
        # 02, A8: what examples/redraw.py makes of two of these
        ("joint-b-mirrored", write(drawn_b([(0, 0), (-600, 0), (0, 360), (-600, 360)], (-20000, -360, 840, 720), (
            -1440, -360, 20000, 720), (-20000, 0))), as_b),
        ("joint-b-moved", write(drawn_b([(80000, -50000), (80600, -50000), (80000, -49640), (80600, -49640)], (
            79160, -50360, 100000, -49280), (60000, -50360, 81440, -49280))), as_b),
        ("joint-b-reversed", write(joint_b(dowels=backwards)), as_b),
        ("edge-719-reversed", write(drawn_b(backwards, (-840, -360, 20000, 719), (-20000, -360, 1440, 720))),
         "refused 12 1 1 0\n"),
    ]


# ------------------------------------------------- lengths that just pass the version's table

def up_root(num, den):
    k = isqrt(num // den)
    while k * k * den < num:
        k += 1
    return k


def rules(v, m):
    """Least lengths in member m (0, 1): pair along, pair across, low end, high end, low edge, high edge."""
    d, (fx, fy) = v["d"], v["force"]
    a, c = (fx, fy) if v["members"][m]["grain"] == 0 else (fy, fx)
    if m == 0:
        a, c = -a, -c
    f2 = a * a + c * c
    other = max(30 * d, up_root(4900 * d * d * c * c, f2))
    loaded = max(70 * d, 800)
    edge = max(30 * d, 20 * d + up_root(400 * d * d * c * c, f2)) if v["version"] == 2 else 30 * d
    return (30 * d + up_root(400 * d * d * a * a, f2), 30 * d,
            loaded if a < 0 else other, loaded if a > 0 else other,
            edge if c < 0 else 30 * d, edge if c > 0 else 30 * d)


def steps(v):
    """Least grid steps in x and y that suit both members, whatever lies in the other axis."""
    out = [30 * v["d"], 30 * v["d"]]
    for m in (0, 1):
        axis = v["members"][m]["grain"]
        out[axis] = max(out[axis], rules(v, m)[0])
    return out


def outlines(v, slack, edges_of=None):
    """Outlines around the dowels; slack(m, name) is added to each least length; edges as other values need them."""
    for m in (0, 1):
        _, _, low, high, left, right = rules(v, m)
        if edges_of is not None:
            left, right = rules(edges_of, m)[4:]
        axis = v["members"][m]["grain"]
        along = [xy[axis] for xy in v["dowels"]]
        across = [xy[1 - axis] for xy in v["dowels"]]
        a0, a1 = min(along) - low - slack(m, "low"), max(along) + high + slack(m, "high")
        c0, c1 = min(across) - left - slack(m, "left"), max(across) + right + slack(m, "right")
        v["members"][m]["outline"] = [a0, c0, a1, c1] if axis == 0 else [c0, a0, c1, a1]


def none(m, name):
    return 0


# ------------------------------------------------------------------- by chance

RIGHT = ((3, 4), (4, 3), (5, 12), (12, 5), (8, 15), (15, 8), (7, 24), (20, 21), (2, 3), (3, 2),
         (1, 1), (1, 2), (9, 40), (28, 45))
ORDERS = list(permutations((1, 2, 3, 4)))
HARDWOODS = (9, 10, 11)


def some_force(r):
    size = r.randrange(1, 10 ** r.randint(1, 6) + 1)
    way = r.random()
    if way < 0.30:
        fx, fy = size, 0
    elif way < 0.42:
        fx, fy = 0, size
    elif way < 0.66:
        a, b = r.choice(RIGHT)
        k = max(1, size // (a + b))
        fx, fy = a * k, b * k
    elif way < 0.72:
        fx, fy = r.choice(((1, 1), (1, 2), (1, 1000000), (1000000, 1), (1000000, 1000000),
                           (1, 3), (999999, 1000000), (707, 707), (1000000, 0), (0, 1000000)))
    else:
        fx, fy = r.randrange(0, size + 1), r.randrange(1, size + 1)
    if r.random() < 0.5:
        fx = -fx
    if r.random() < 0.5:
        fy = -fy
    return fx, fy


def some_thickness(r):
    way = r.random()
    if way < 0.1:
        return 200
    if way < 0.15:
        return 4000
    if way < 0.75:
        return r.randint(200, 1200)
    return r.randint(200, 4000)


def some_class(r):
    return r.choice(HARDWOODS) if r.random() < 0.35 else r.randint(1, 8)


def some_values(r, force=None):
    """All but the dowels and outlines."""
    g = r.randint(0, 1)
    return {
        "version": r.randint(1, 2),
        "p": r.randint(1, 2),
        "members": [
            {"class": some_class(r), "grain": g, "t": some_thickness(r)},
            {"class": some_class(r), "grain": g if r.random() < 0.5 else 1 - g,
             "t": some_thickness(r)},
        ],
        "d": r.randint(6, 30) if r.random() < 0.8 else r.choice((6, 8, 10, 11, 12, 30)),
        "steel": r.randint(1, 3),
        "service": r.randint(1, 3), "duration": r.randint(1, 5),
        "force": force or some_force(r),
    }


def some_count(r):
    way = r.random()
    if way < 0.1:
        return 1
    if way < 0.75:
        return r.randint(2, 12)
    if way < 0.92:
        return r.randint(13, 32)
    if way < 0.98:
        return r.randint(33, 64)
    return 64


def grid(v, r, sx, sy, count, shifts):
    """count dowels on lines in x; each line may be shifted along x."""
    nx = r.randint(1, count) if r.random() < 0.7 else r.choice((1, count))
    nx = max(1, min(nx, 150000 // sx))
    if -(-count // nx) * sy > 150000:
        nx = count
    places = []
    line = 0
    while len(places) < count:
        off = r.randrange(0, sx) if shifts and r.random() < 0.5 else 0
        for k in range(min(nx, count - len(places))):
            places.append((off + k * sx, line * sy))
        line += 1
    if r.random() < 0.3 and len(places) > 3:
        # leave some out, so that rows differ
        keep = [xy for xy in places if r.random() < 0.75]
        places = keep or places[:1]
    if r.random() < 0.3:
        r.shuffle(places)
    v["dowels"] = places


def move(v, r):
    """Somewhere else, within the coordinates."""
    if r.random() < 0.3:
        return
    shift = []
    for axis in (0, 1):
        low = min([xy[axis] for xy in v["dowels"]] + [m["outline"][axis] for m in v["members"]])
        high = max([xy[axis] for xy in v["dowels"]] + [m["outline"][axis + 2] for m in v["members"]])
        way = r.random()
        if way < 0.1:
            shift.append(-100000 - low)
        elif way < 0.2:
            shift.append(100000 - high)
        else:
            shift.append(r.randint(-100000, max(-100000, 100000 - (high - low))) - low)
    sx, sy = shift
    v["dowels"] = [(x + sx, y + sy) for x, y in v["dowels"]]
    for m in v["members"]:
        x0, y0, x1, y1 = m["outline"]
        m["outline"] = [x0 + sx, y0 + sy, x1 + sx, y1 + sy]


def grid_values(r, tight=False):
    """A joint that keeps to the version's table."""
    v = some_values(r)
    sx, sy = steps(v)
    if not tight:
        sx += r.choice((0, 0, 1, r.randrange(0, 4 * v["d"] * 10)))
        sy += r.choice((0, 0, 1, r.randrange(0, 4 * v["d"] * 10)))
        if r.random() < 0.1:
            sx += r.randrange(0, 130 * v["d"])
    count = some_count(r)
    grid(v, r, sx, sy, count, shifts=r.random() < 0.3)
    if tight:
        outlines(v, lambda m, name: r.choice((0, 0, 0, 1)))
    else:
        outlines(v, lambda m, name: r.choice((0, 1, r.randrange(0, 5000), r.randrange(0, 300))))
    return v


def scatter_values(r):
    """Dowels anywhere they are allowed."""
    v = some_values(r)
    lim = [rules(v, m)[:2] for m in (0, 1)]
    grains = [m["grain"] for m in v["members"]]
    span = 30 * v["d"] * r.randint(3, 30)
    places = []
    for _ in range(some_count(r)):
        x, y = r.randint(0, span), r.randint(0, span)
        if places and r.random() < 0.4:
            x = r.choice(places)[0] + off_line(r, v["d"])
        if places and r.random() < 0.4:
            y = r.choice(places)[1] + off_line(r, v["d"])
        good = True
        for px, py in places:
            d = abs(px - x), abs(py - y)
            for m in (0, 1):
                if d[grains[m]] < lim[m][0] and d[1 - grains[m]] < lim[m][1]:
                    good = False
                    break
            if not good:
                break
        if good:
            places.append((x, y))
    v["dowels"] = places
    outlines(v, lambda m, name: r.choice((0, 1, r.randrange(0, 3000))))
    return v


def off_line(r, d):
    """How far a dowel stands out of line: not at all, a hair, or about d."""
    return r.choice((0, 0, 0, 1, -1, r.randint(-10 * d, 10 * d), 10 * d - 1, 10 * d, 1 - 10 * d, -10 * d))


def some_across(r, d, count):
    """count places across the grain: a hair out of line, in stairs, within a few diameters."""
    reach = 10 * d
    way = r.random()
    if way < 0.15:
        wide = r.choice((1, 1, 2, 5, reach // 4, reach - 1, reach))
        return [r.randint(0, wide) for _ in range(count)]
    if way < 0.25:
        step = r.choice((1, reach - 1, reach, reach + 1, r.randint(1, reach)))
        return [k % 2 * step for k in range(count)]
    if way < 0.45:
        # a stair; the last of these just holds all in one row, or just not
        step = r.choice((1, 2, reach // 4, reach // 2, (reach - 1) // 2, reach - 1, reach, r.randint(1, reach),
                         (reach - 1) // max(1, count - 1), reach // max(1, count - 1)))
        return [k * step for k in range(count)]
    if way < 0.65:
        places = [0]
        while len(places) < count:
            places.append(places[-1] + r.choice((0, 0, 1, reach // 2, reach - 1, reach, r.randint(1, reach), 3 * reach)))
        return places
    if way < 0.8:
        span = reach * r.randint(1, 5)
        return [r.randint(0, span) for _ in range(count)]
    if way < 0.9:
        marks = [k * reach // 2 + by for k in range(r.randint(2, 6)) for by in (-1, 0, 1)]
        return [r.choice(marks) for _ in range(count)]
    lines = [r.randint(0, 4 * reach) for _ in range(r.randint(2, 4))]
    return [r.choice(lines) for _ in range(count)]


def unaligned_values(r):
    """A joint that keeps to the version's table, its dowels out of line: in blocks, each with places along far enough apart."""
    v = some_values(r)
    d, axis = v["d"], r.choice(v["members"])["grain"]
    least, pitch = steps(v)[axis], steps(v)[1 - axis]
    count = some_count(r)
    blocks = r.choice((1, 1, 1, 2, r.randint(1, 4), 8)) if count > 1 else 1
    blocks = min(blocks, count)
    each = count // blocks
    spare = max(1, (140000 - least * each) // each)
    across = some_across(r, d, each)
    places, low = [], 0
    for _ in range(blocks):
        if r.random() < 0.5:
            r.shuffle(across)               # neighbours along are then no neighbours across
        at = off_line(r, d)
        for c in across:
            places.append((at, low + c))
            at += least + min(spare, r.choice((0, 0, 0, 1, r.randrange(20 * d), r.randrange(130 * d))))
        low += max(across) - min(across) + pitch + r.choice((0, 0, 1, r.randrange(20 * d)))
    if low > 150000:
        places = places[:each]
    if r.random() < 0.4:
        places = [(a, -c) for a, c in places]
    if r.random() < 0.5:
        r.shuffle(places)
    v["dowels"] = places if axis == 0 else [(c, a) for a, c in places]
    outlines(v, lambda m, name: r.choice((0, 1, r.randrange(0, 5000), r.randrange(0, 300))))
    return v


def near_one(r):
    """A joint whose use is close to 1: the force is scaled in its own direction."""
    v = grid_values(r) if r.random() < 0.6 else unaligned_values(r)
    fx, fy = v["force"]
    g = gcd(fx, fy)
    fx, fy = fx // g, fy // g
    base = max(1, 100000 // max(abs(fx), abs(fy)))
    v["force"] = (fx * base, fy * base)
    line = Model().judge(write(v)).split()
    if line[0] == "refused":
        return v
    k = base * 10000 // int(line[1]) + r.randint(-60, 60) // r.choice((1, 5, 20, 60))
    k = max(1, min(k, 1000000 // max(abs(fx), abs(fy), 1)))
    v["force"] = (fx * k, fy * k)
    return v


def almost(r, whole, over):
    """(a, b) with a/sqrt(a*a + b*b) next to whole/over, equal or beside by a hair."""
    ratio = Fraction(isqrt(whole * whole * 10 ** 40 // (over * over - whole * whole)), 10 ** 20)
    if ratio > 1:
        near = (1 / ratio).limit_denominator(r.choice((1000, 30000, 1000000)))
        return near.denominator, near.numerator
    near = ratio.limit_denominator(r.choice((1000, 30000, 1000000)))
    return near.numerator, near.denominator


STEP, EDGE, OTHER_EDGE = "step", "edge", "other edge"
LIMITS = (STEP, STEP, "both", "end", "end", "end", EDGE, EDGE, "none")
EDGES = (EDGE, EDGE, EDGE, OTHER_EDGE)


def as_others_have_it(r, v):
    """The values by which a wrong program measures edges: with the other version, the force turned round, or either angle."""
    fx, fy = v["force"]
    return dict(v, **r.choice(({"version": 3 - v["version"]}, {"force": (-fx, -fy)}, {"force": (fy, fx)}, {"force": (-fx, fy)})))


def at_limit(r, limits=LIMITS):
    """All lengths just pass; then one of them, perhaps, is one tenth beside, or edges are such as pass another rule."""
    v = some_values(r, force=some_force(r) if r.random() < 0.5 else None)
    way = r.random()
    if way < 0.2:
        # the limit itself is next to a whole number of tenths
        kind = r.random()
        if limits is EDGES or kind < 0.3:
            b, a = almost(r, r.randrange(10 * v["d"], 20 * v["d"]), 20 * v["d"])    # sine, loaded edge
        elif kind < 0.65:
            a, b = almost(r, r.randrange(1, 20 * v["d"]), 20 * v["d"])      # cosine
        else:
            b, a = almost(r, r.randrange(30 * v["d"], 70 * v["d"]), 70 * v["d"])    # sine
        if v["members"][r.randint(0, 1)]["grain"] == 1:
            a, b = b, a
        if (a, b) != (0, 0):
            v["force"] = (r.choice((-1, 1)) * a, r.choice((-1, 1)) * b)
    elif way < 0.7:
        a, b = r.choice(((1, 0), (0, 1), (1, 0), (0, 1)) + RIGHT[:6])
        k = r.randint(1, 900)
        v["force"] = (r.choice((-1, 1)) * a * k, r.choice((-1, 1)) * b * k)
    sx, sy = steps(v)
    which = r.choice(limits)
    by = r.choice((-1, -1, 0, 1))
    count = r.choice((2, 3, 4, 6, r.randint(2, 20)))
    shifts = r.random() < 0.3
    if which == STEP:
        if r.random() < 0.5:
            sx += by
        else:
            sy += by
    elif which == "both":
        sx += r.choice((-1, 0))
        sy += r.choice((-1, 0))
    grid(v, r, sx, sy, count, shifts)
    if which == "both" and len(v["dowels"]) > 1:
        # two dowels beside in both axes at once
        k = r.randrange(len(v["dowels"]))
        x, y = v["dowels"][k]
        v["dowels"][k - 1] = (x + r.choice((-1, 1)) * sx, y + r.choice((-1, 1)) * sy)
    hit = (r.randint(0, 1), r.choice(("low", "high")) if which == "end" else
           r.choice(("left", "right")) if which == EDGE else "")
    loose = r.random() < 0.5

    def slack(m, name):
        if (m, name) == hit:
            return by
        return 200 if loose and which != OTHER_EDGE else 0
    outlines(v, slack, as_others_have_it(r, v) if which == OTHER_EDGE else None)
    return v


def fault_values(r, v):
    """One fault of the values, in place; each may or may not turn out to be one."""
    way = r.randrange(12)
    m = r.choice(v["members"])
    k = r.randrange(len(v["dowels"])) if v["dowels"] else None
    if way == 0:
        m["outline"][r.randrange(4)] = r.choice((-100001, 100001, r.randint(-100000, 100000),
                                                 -2 ** 31, 2 ** 31 - 1))
    elif way == 1:
        x0, y0, x1, y1 = m["outline"]
        m["outline"] = r.choice(([x1, y0, x0, y1], [x0, y1, x1, y0], [x0, y0, x0, y1],
                                 [x0, y0, x1, y0], [x0, y0, x0 + 1, y1]))
    elif way == 2:
        v["force"] = r.choice(((0, 0), (0, 0), (1000001, 0), (0, -1000001), (-2 ** 31, 5)))
    elif way == 3 and k is not None:
        v["dowels"][k] = v["dowels"][r.randrange(len(v["dowels"]))]
    elif way == 4 and k is not None:
        x, y = v["dowels"][k]
        v["dowels"][k] = (x + r.choice((-1, 1, 300, -300, 5000)), y + r.choice((0, 1, -1, -300)))
    elif way == 5 and k is not None:
        v["dowels"][k] = (r.randint(-100001, 100001), r.randint(-100001, 100001))
    elif way == 6:
        m["outline"][r.randrange(4)] += r.choice((-1000, -1, 1, 1000, 300, -300))
    elif way == 7:
        m["class"] = r.choice((0, 12, 255))
    elif way == 8:
        m["t"] = r.choice((0, 199, 4001, 65535))
    elif way == 9:
        v[r.choice(("p", "service", "duration", "steel"))] = r.choice((0, 3, 4, 6, 255))
    elif way == 10:
        v["d"] = r.choice((0, 5, 31, 255, r.randint(6, 30)))
    else:
        m["grain"] = r.choice((1 - m["grain"], 2, 255)) if m["grain"] in (0, 1) else 2


def fault_blocks(r, blocks):
    way = r.randrange(5)
    k = r.randrange(4)
    if way == 0:
        blocks[k] = bytes([r.choice((0, 1, 2, 3, 4, 5, 255))]) + blocks[k][1:]
    elif way == 1:
        blocks[k] = blocks[k] + bytes(r.choice((1, 1, 8, 20)))
    elif way == 2:
        blocks[k] = blocks[k][:-r.choice((1, 1, 8))] or blocks[k]
    elif way == 3:
        blocks[k] = blocks[r.randrange(4)]
    else:
        n = r.choice((0, 1, 63, 64, 65, 255))
        for i, b in enumerate(blocks):
            if b[0] == 3:
                blocks[i] = bytes([3, n]) + b[2:]


def fault_head(r, data):
    """Version, count, pairs or length."""
    data = bytearray(data)
    way = r.randrange(8)
    if way == 0:
        data[0:2] = struct.pack("<H", r.choice((1, 2, *UNKNOWN_VERSIONS)))
    elif way == 1:
        data[2:4] = struct.pack("<H", r.choice((0, 3, 5, 1024, 65535)))
    elif way == 2:
        k = 4 + 2 * r.randrange(8)
        old = struct.unpack_from("<H", data, k)[0]
        new = r.choice((0, old + 1, old - 1, old + 8, 65535, 65536 - old, old + 256)) & 0xFFFF
        struct.pack_into("<H", data, k, new)
    elif way == 3:
        a, b = r.sample(range(4), 2)
        pairs = [bytes(data[4 + 4 * i:8 + 4 * i]) for i in range(4)]
        pairs[a], pairs[b] = pairs[b], pairs[a]
        data[4:20] = b"".join(pairs)
    elif way == 4:
        del data[r.randrange(len(data)):]
    elif way == 5:
        data += bytes(r.randrange(1, 30))
    elif way == 6:
        # pairs that wrap: true sums differ from the chain by 65,536 once
        return wrapping(r, data)
    else:
        at = r.randrange(len(data))
        data[at] = r.randrange(256)
    return bytes(data)


def wrapping(r, data):
    """Sums that are right only in 16 bits."""
    data = bytearray(data)
    pairs = [list(struct.unpack_from("<HH", data, 4 + 4 * k)) for k in range(4)]
    k = r.randrange(3)
    back = r.randrange(1, 60)
    # pair k runs over the end and its follower starts that much earlier
    pairs[k][1] = (pairs[k][1] - back) & 0xFFFF
    pairs[k + 1][0] = (pairs[k][0] + pairs[k][1]) & 0xFFFF
    pairs[k + 1][1] = (pairs[k + 1][1] + back) & 0xFFFF
    data[4:20] = b"".join(struct.pack("<HH", *p) for p in pairs)
    return bytes(data)


def record_b_like(r):
    v = joint_b(version=r.randint(1, 2))
    if r.random() < 0.5:
        v = grid_values(r, tight=r.random() < 0.5)
    return v


def generate(seed, index):
    """Record number index made by chance: (label, bytes)."""
    r = Random(seed * 1000003 + index)
    way = r.random()
    order = r.choice(ORDERS)
    if way < 0.14:
        label, v = "grid", grid_values(r, tight=r.random() < 0.3)
    elif way < 0.34:
        label, v = "unaligned", unaligned_values(r)
    elif way < 0.42:
        label, v = "scatter", scatter_values(r)
    elif way < 0.54:
        label, v = "near one", near_one(r)
    elif way < 0.67:
        label, v = "at limit", at_limit(r)
    elif way < 0.76:
        label, v = "edge", at_limit(r, EDGES)
    elif way < 0.79:
        label, v = "tie", tie_values(r)
    elif way < 0.80:
        label, v = "hair", hair_values(r)
    elif way < 0.86:
        label, v = "values", record_b_like(r)
        for _ in range(r.choice((1, 1, 2, 3))):
            fault_values(r, v)
    else:
        v = record_b_like(r)
        if r.random() < 0.3:
            fault_values(r, v)
        blocks = [parts(v)[k - 1] for k in order]
        if way < 0.91:
            label = "parts"
            fault_blocks(r, blocks)
            if r.random() < 0.2:
                fault_blocks(r, blocks)
            return label, assemble(blocks, v["version"])
        data = assemble(blocks, v["version"])
        if way < 0.96:
            label = "head"
            if r.random() < 0.2:
                data = fault_head(r, data) if len(data) >= 20 else data
            return label, fault_head(r, data) if len(data) >= 20 else data
        if way < 0.985:
            label = "damaged"
            data = bytearray(data)
            for _ in range(r.choice((1, 1, 1, 2, 4))):
                data[r.randrange(len(data))] = r.choice((0, 1, 255, r.randrange(256)))
            return label, bytes(data)
        return "wrapping", wrapping(r, data)
    if label in ("grid", "unaligned", "near one", "scatter", "at limit", "edge"):
        move(v, r)
    return label, write(v, order)


# ----------------------------------------------------------------------- ties

# p = 1, s or c rational: d, class and grain of each member, (a, b) of the force, which
# thickness counts, and the thickness of which every multiple makes that term whole.
BENT_TIES = (
    (10, 5, 0, 1, 1, 2, 3, 1, 500), (10, 1, 0, 5, 1, 3, 2, 2, 500),
    (10, 8, 0, 1, 1, 1, 4, 2, 625), (10, 1, 0, 8, 1, 4, 1, 1, 625),
    (10, 8, 0, 5, 1, 3, 7, 2, 625), (10, 5, 0, 8, 1, 7, 3, 1, 625),
    (14, 8, 0, 8, 1, 1, 0, 1, 1625), (14, 8, 0, 8, 1, 0, 1, 2, 1625),
    (15, 2, 0, 11, 0, 3, 4, 2, 24), (15, 11, 0, 2, 0, 3, 4, 1, 24),
    (10, 8, 0, 10, 1, 0, 1, 2, 25), (20, 10, 0, 7, 1, 1, 0, 1, 25),
    (15, 10, 0, 10, 1, 5, 12, 2, 300), (15, 11, 0, 10, 1, 12, 5, 1, 200),
    (30, 8, 0, 11, 0, 0, 1, 2, 15), (24, 10, 0, 8, 1, 8, 9, 1, 345),
)


def middle_term(d, c, across):
    """f2 d/2 for each tenth of t2, the force along the grain or across it, as (numerator, denominator)."""
    k90 = (900 if c in HARDWOODS else 1350) + 15 * d
    return 82 * (100 - d) * Model.density[c] * d, 2000 * (k90 if across else 1000)


def middle_ties():
    """p = 2: f2 d t2/2 whole; (d, class, whether the force is across, least thickness)."""
    out = []
    for across in (0, 1):
        for d in range(6, 31):
            for c in Model.density:
                num, den = middle_term(d, c, across)
                t = den // gcd(den, num)
                if t <= 1000:
                    out.append((d, c, across, t))
    return out


MIDDLE_TIES = middle_ties()


def row_of(v, count, step, axis, apart=0):
    """count dowels, step apart along an axis (and as far apart in the other as asked)."""
    v["dowels"] = [(k * step, k * apart) if axis == 0 else (k * apart, k * step)
                   for k in range(count)]


def tie_values(r):
    """R, the share or the use is a plain fraction."""
    way = r.random()
    v = some_values(r)
    if way < 0.35:
        d, c1, g1, c2, g2, a, b, which, least = r.choice(BENT_TIES)
        v.update(p=1, d=d, steel=3)
        flip = r.randint(0, 1)
        k = r.randint(1, 1000000 // max(a, b)) if r.random() < 0.5 else r.randint(1, 400)
        a, b = a * k * r.choice((-1, 1)), b * k * r.choice((-1, 1))
        v["force"] = (b, a) if flip else (a, b)
        t = least * r.randint(-(-200 // least), max(-(-200 // least), 500 // least))
        ts = (t, 4000) if which == 1 else (4000, t)
        for m, (c, g, t) in enumerate(((c1, g1, ts[0]), (c2, g2, ts[1]))):
            v["members"][m].update({"class": c, "grain": g ^ flip, "t": t})
    elif way < 0.7:
        d, c, across, least = r.choice(MIDDLE_TIES)
        g = r.randint(0, 1)
        v.update(p=2, d=d, steel=3)
        t = least * r.randint(-(-200 // least), max(-(-200 // least), 400 // least))
        v["members"][0].update({"class": c, "grain": g, "t": 4000})
        v["members"][1].update({"class": c, "grain": g, "t": t})
        f = r.choice((-1, 1)) * r.randint(1, 50000)
        v["force"] = (f, 0) if g == across else (0, f)
        if r.random() < 0.5:
            # the use too: each dowel a row of its own, force a multiple of R
            num, den = middle_term(d, c, across)
            cap = num * t // den
            m = r.randint(1, 20)
            f = cap * m if cap * m <= 1000000 else cap
            v["force"] = (f, 0) if g == across else (0, f)
            v.update(service=3, duration=1)
            row_of(v, 13, 50 * d, g, apart=30 * d)
            outlines(v, none)
            return v
    elif way < 0.85:
        # 32 in a row: share 1/2, or both branches at once
        g = r.randint(0, 1)
        for m in v["members"]:
            m["grain"] = g
        d = r.choice((6, 8, 10, 12))
        half = r.random() < 0.6
        v["d"] = d
        k = r.randint(1, 50000)
        v["force"] = (k, 9 * k + r.randint(0, 9)) if g == 0 else (9 * k, k)
        if half:
            step = 65 * d // 2
        else:
            d = v["d"] = 6
            step = 520 * d
        row_of(v, 32, step + r.choice((0, 0, -1, 1)), g)
        low = 0 if half else -48000
        v["dowels"] = [(x + low, y) if g == 0 else (x, y + low) for x, y in v["dowels"]]
        outlines(v, none)
        return v
    sx, sy = steps(v)
    count = r.choice((1, 2, 4, 6))
    v["dowels"] = [((k % 2) * sx, (k // 2) * sy) for k in range(count)]
    outlines(v, none)
    return v


def hair_values(r):
    """Capacity or share a hair above or below a whole number."""
    v = some_values(r)
    model = Model()
    v["dowels"] = [(0, 0)]
    v["members"][0]["outline"] = v["members"][1]["outline"] = [-9000, -9000, 9000, 9000]
    side = r.choice((min, max))
    if r.random() < 0.6:
        # a thin side member decides, R is in proportion to t1
        v.update(steel=3, d=r.randint(10, 30))
        v["members"][0]["t"], v["members"][1]["t"] = 1000, 4000
        model.read(write(v))
        fine = 10 ** 15
        model.scale = fine
        per = model.second_term(model.bearing(0), model.bearing(1))     # for 100 mm
        v["members"][0]["t"] = side(range(200, 500), key=lambda t: per * t // 1000 % fine)
    else:
        d, n = v["d"], r.randint(2, 64)
        first = r.randrange(50 * d, 100 * d)
        model.d, model.scale = d, 10 ** 6
        step = side(range(first, first + 60), key=lambda a: model.row_share(n, a) % 10 ** 6)
        row_of(v, n, step, 0)
        for m in v["members"]:
            m["grain"] = 0
        v["dowels"] = [(x - n * step // 2, y) for x, y in v["dowels"]]
    outlines(v, none)
    return v


# ------------------------------------------------------------------ systematic

U8_FIELDS = [  # label, part (kind), place in the part, values
    ("p", 1, 1, (0, 1, 2, 3, 255)),
    ("class 1", 1, 2, (*range(13), 255)),
    ("grain 1", 1, 3, (0, 1, 2, 255)),
    ("class 2", 1, 22, (*range(13), 255)),
    ("grain 2", 1, 23, (0, 1, 2, 255)),
    ("d", 2, 1, (0, 5, 6, 7, 8, 9, 12, 29, 30, 31, 255)),
    ("steel", 2, 2, (0, 1, 2, 3, 4, 255)),
    ("service", 4, 1, (0, 1, 2, 3, 4, 255)),
    ("duration", 4, 2, (0, 1, 2, 3, 4, 5, 6, 255)),
]
THICK = (0, 1, 199, 200, 201, 3999, 4000, 4001, 65535, 256)
COORD = (-2 ** 31, -100001, -100000, -99999, -1, 0, 1, 99999, 100000, 100001, 2 ** 31 - 1)
FORCE = (-2 ** 31, -1000001, -1000000, -999999, -1, 0, 1, 999999, 1000000, 1000001, 2 ** 31 - 1)


def wide_b(**change):
    """A single dowel in members as wide as can be: any diameter and grain passes."""
    v = joint_b(dowels=[(0, 0)], **change)
    for m in v["members"]:
        m["outline"] = [-100000, -100000, 100000, 100000]
    return v


def field_records():
    for base_label, base in (("B", joint_b()), ("wide", wide_b()),
                             ("skew", wide_b(force=(-300, 400)))):
        blocks = parts(base)

        def put(kind, at, raw):
            new = list(blocks)
            part = bytearray(new[kind - 1])
            part[at:at + len(raw)] = raw
            new[kind - 1] = bytes(part)
            return assemble(new)
        for name, kind, at, values in U8_FIELDS:
            for x in values:
                yield "field %s %s %d" % (base_label, name, x), put(kind, at, bytes([x]))
        for m, at in ((1, 4), (2, 24)):
            for x in THICK:
                yield ("field %s t%d %d" % (base_label, m, x),
                       put(1, at, struct.pack("<H", x)))
        for m, at in ((1, 6), (2, 26)):
            for k in range(4):
                for x in COORD:
                    yield ("field %s outline %d %d %d" % (base_label, m, k, x),
                           put(1, at + 4 * k, struct.pack("<i", x)))
        for k in range(2 * len(base["dowels"])):
            for x in COORD:
                yield ("field %s position %d %d" % (base_label, k, x),
                       put(3, 2 + 4 * k, struct.pack("<i", x)))
        for k in (0, 1):
            for x in FORCE:
                yield ("field %s force %d %d" % (base_label, k, x),
                       put(4, 3 + 4 * k, struct.pack("<i", x)))
    # every class, steel, service class and duration where each of them tells
    for c1 in range(1, 12):
        for c2 in range(1, 12):
            for force in ((20000, 0), (0, 20000), (-300, 400)):
                v = wide_b(p=1, d=8, force=force)
                v["members"][0].update({"class": c1, "t": 300})
                v["members"][1].update({"class": c2, "t": 300, "grain": 1})
                yield "classes %d %d" % (c1, c2), write(v)
    for steel in (1, 2, 3):
        for service in (1, 2, 3):
            for duration in (1, 2, 3, 4, 5):
                yield ("steel %d service %d duration %d" % (steel, service, duration),
                       write(wide_b(steel=steel, service=service, duration=duration)))
    yield from diameter_records(1, 1, 0)


def diameter_records(c1, c2, g2):
    """Every diameter; classes of both members, grain of member 2."""
    for d in range(6, 31):
        for force in ((1000, 0), (0, 1000), (300, -400)):
            for p in (1, 2):
                v = wide_b(d=d, p=p, force=force)
                v["members"][0]["class"] = c1
                v["members"][1].update({"class": c2, "grain": g2})
                yield "d %d p %d" % (d, p), write(v)
                v["members"][0]["t"] = 300
                yield "d %d p %d thin side" % (d, p), write(v)
                v["members"][0]["t"], v["members"][1]["t"] = 4000, 200
                yield "d %d p %d thin middle" % (d, p), write(v)


def hardwood_joints():
    """Request A1: (name, record).  Joint B with each hardwood in the side members, in the middle one and in both;
    as it is, and in wide outlines with other diameters, grains and forces."""
    for c, trade in zip(HARDWOODS, ("d30", "d40", "d70")):
        for where, members in (("side", (0,)), ("middle", (1,)), ("both", (0, 1))):
            v = joint_b()
            for m in members:
                v["members"][m]["class"] = c
            yield "b-%s-%s" % (trade, where), write(v)
            for m in v["members"]:
                m["outline"] = [-90000, -90000, 90000, 90000]
            grains = ((0, 0), (0, 1), (1, 0), (1, 1)) if (trade, where) == ("d30", "both") else ((0, 0), (0, 1))
            for d, step in ((6, 600), (12, 600), (30, 1500)):
                for g1, g2 in grains:
                    for force in ((20000, 0), (0, 20000), (3000, 4000)):
                        w = dict(copy(v), d=d, dowels=square(step), force=force)
                        w["members"][0]["grain"], w["members"][1]["grain"] = g1, g2
                        name = "%s-%s-%dmm-%s-%s-%d-%d" % (trade, where, d, "xy"[g1], "xy"[g2], *force)
                        yield name, write(w)


def hardwood_records():
    for name, data in hardwood_joints():
        yield "hardwood " + name, data
    for c1, c2, g2 in ((9, 9, 0), (1, 10, 1), (11, 2, 1)):
        yield from diameter_records(c1, c2, g2)


def layout_records():
    b = write(joint_b())
    blocks = parts(joint_b())
    for order in ORDERS:
        yield "order %d%d%d%d" % order, write(joint_b(), order)
    for n in range(len(b)):
        yield "truncated %d" % n, b[:n]
    for n in (1, 2, 8, 100, 1000):
        yield "lengthened %d" % n, b + bytes(n)
        yield "lengthened %d" % n, b + b"\x01" * n
    for at in range(len(b)):
        for x in {0, 1, 2, 255, b[at] ^ 1, b[at] ^ 128, (b[at] + 1) & 255, (b[at] - 1) & 255}:
            if x != b[at]:
                yield "damaged %d %d" % (at, x), b[:at] + bytes([x]) + b[at + 1:]
    for at in range(20):
        # kinds and header bytes through all values
        for x in range(0, 256, 5):
            yield "header %d %d" % (at, x), b[:at] + bytes([x]) + b[at + 1:]
    # kinds: each slot with each code
    for k in range(4):
        for kind in (0, 1, 2, 3, 4, 5, 128, 255):
            new = list(blocks)
            new[k] = bytes([kind]) + new[k][1:]
            yield "kind %d in slot %d" % (kind, k + 1), assemble(new)
    for k in range(4):
        for other in range(4):
            new = list(blocks)
            new[k] = blocks[other]
            yield "part %d for %d" % (other + 1, k + 1), assemble(new)
    # lengths: each part shorter and longer, chain right
    for k in range(4):
        for n in list(range(0, len(blocks[k]))) + [len(blocks[k]) + x for x in (1, 2, 7, 8, 9, 16, 256)]:
            new = list(blocks)
            new[k] = (blocks[k] + bytes(300))[:n]
            yield "part %d of %d bytes" % (k + 1, n), assemble(new)
    # counts against lengths
    for n in range(0, 256):
        v = wide_b(count=n)
        v["dowels"] = [(k % 8 * 1000, k // 8 * 1000) for k in range(n)]
        yield "count %d" % n, write(v)
    for n in (0, 1, 2, 3, 4, 5, 64, 65, 255):
        yield "count %d of 4" % n, write(joint_b(count=n))
    # pairs
    right = [(20, 42), (62, 3), (65, 34), (99, 11)]
    for order in permutations(range(4)):
        yield "pairs in order", assemble(blocks, pairs=[right[k] for k in order])
    for k in range(4):
        for do in (-1, 1, -20, 8, 65535):
            for dn in (-1, 0, 1, 65535):
                pairs = list(right)
                pairs[k] = ((right[k][0] + do) & 65535, (right[k][1] + dn) & 65535)
                yield "pair %d by %d, %d" % (k + 1, do, dn), assemble(blocks, pairs=pairs)
        for dn in (-1, 1, 2, -2, 8):
            pairs = list(right)
            pairs[k] = (right[k][0], right[k][1] + dn)
            yield "pair %d longer %d" % (k + 1, dn), assemble(blocks, pairs=pairs)
            # the same with the following pairs moved
            at, moved = 20, []
            for i in range(4):
                n = right[i][1] + (dn if i == k else 0)
                moved.append((at, n))
                at += n
            yield "pairs %d stretched %d" % (k + 1, dn), assemble(blocks, pairs=moved)
    # a pair of no length, with the chain right
    for k in range(5):
        pairs = [(20, 42), (62, 3), (65, 34)]
        at = sum(n for _, n in pairs[:k]) + 20 if k <= 3 else 99
        pairs.insert(min(k, 3), (at, 0))
        yield "empty pair", assemble(blocks[:3], pairs=pairs)
    # the parts right, one of them cut out, its pair empty
    for k in range(4):
        new = list(blocks)
        new[k] = b""
        yield "empty part %d" % (k + 1), assemble(new)
    # sums right in 16 bits only
    total = len(b)
    for lens in ((65535, 1, 1), (65516, 20, 42), (42, 65500, 34), (42, 3, 65535), (65535, 65535, 65535)):
        at, pairs = 20, []
        for n in lens:
            pairs.append((at & 65535, n))
            at += n
        pairs.append((at & 65535, (total - at) & 65535))
        yield "wrapping", assemble(blocks, pairs=pairs)
    # overlapping: every pair the whole rest, all pairs alike
    yield "overlapping", assemble(blocks, pairs=[(20, 90)] * 4)
    yield "overlapping", assemble(blocks, pairs=[(20, 90), (62, 48), (65, 45), (99, 11)])
    yield "overlapping", assemble(blocks, pairs=[(20, 42), (20, 42), (65, 34), (99, 11)])
    # long records
    for size in (4095, 4096, 4097, 4098, 5000, 8192):
        for kind in (1, 2, 3, 4):
            new = list(blocks)
            new[kind - 1] += bytes(size - len(b))
            yield "%d bytes, part %d long" % (size, kind), assemble(new)
        yield "%d bytes, B and zeros" % size, b + bytes(size - len(b))
        yield "%d zeros" % size, bytes(size)
    new = list(blocks)
    new[0] += bytes(65535 - 42)
    yield "beyond 65,535", assemble(new, pairs=[(20, 65535), (19, 3), (22, 34), (56, 11)])
    new = list(blocks)
    new[2] += bytes(65000)
    new[3] += bytes(1000)
    yield "65,535 in the last pair", assemble(new)
    new = [blocks[0], blocks[1], blocks[3], blocks[2] + bytes(65535 - 34)]
    yield "true sum above 65,535", assemble(new)
    for n in range(0, 20):
        yield "%d zeros" % n, bytes(n)
    yield "20 zeros", bytes(20)
    yield "count 1024", b[:2] + b"\x00\x04" + b[4:]


def order_records():
    """Two faults at once, each earlier and each later."""
    def pick(v, name):
        if name == 7:
            v["members"][1]["class"] = 12
        elif name == "7 load":
            v["duration"] = 6
        elif name == 8:
            x0, y0, x1, y1 = v["members"][0]["outline"]
            v["members"][0]["outline"] = [x1, y0, x0, y1]
        elif name == "8 second":
            x0, y0, x1, y1 = v["members"][1]["outline"]
            v["members"][1]["outline"] = [x0, y1, x1, y1]
        elif name == 9:
            v["force"] = (0, 0)
        elif name == 10:
            v["dowels"][-1] = v["dowels"][0]
        elif name == 11:
            v["members"][0]["outline"][0] += 1
        elif name == "11 second":
            v["members"][1]["outline"][2] -= 1
        elif name == "11 far":
            v["members"][0]["outline"][2] = 700
        elif name == 12:
            v["members"][0]["outline"][3] -= 1
        elif name == "12 second":
            v["members"][1]["outline"][1] += 1
    names = (7, "7 load", 8, "8 second", 9, 10, 11, "11 second", "11 far", 12, "12 second")
    for a in names:
        for b in names:
            v = copy(joint_b())
            pick(v, a)
            pick(v, b)
            yield "faults %s and %s" % (a, b), write(v)
            blocks = parts(v)
            yield "faults %s, %s and length" % (a, b), assemble([blocks[0] + b"\0"] + blocks[1:])
            yield "faults %s, %s and kind" % (a, b), assemble([b"\2" + blocks[0][1:]] + blocks[1:])
            yield ("faults %s, %s, kind and length" % (a, b),
                   assemble([blocks[0] + b"\0", b"\7" + blocks[1][1:]] + blocks[2:]))
            yield "faults %s, %s and version" % (a, b), assemble(blocks, version=3, count=3)
            yield "faults %s, %s and count" % (a, b), assemble(blocks, count=5, pairs=[(0, 0)] * 4)
            yield "faults %s, %s and pairs" % (a, b), assemble(
                [b"\2" + blocks[0][1:]] + blocks[1:], pairs=[(20, 0)] * 4)
    # several close pairs: by i, then by j
    rows = [(0, 0), (5000, 0), (10000, 0), (15000, 0), (20000, 0)]
    for close in (((3, 4),), ((1, 4), (2, 3)), ((2, 4), (1, 3)), ((0, 4), (1, 2)), ((0, 3), (0, 2)),
                  ((3, 4), (0, 4))):
        v = wide_b(force=(1000, 0))
        places = list(rows)
        for i, j in close:
            places[j] = (places[i][0] + 100, 100)
        v["dowels"] = places
        yield "close pairs", write(v)
        v = copy(v)
        for m in v["members"]:
            m["grain"] = 1
        yield "close pairs", write(v)
    # close in one member only
    for force in ((1000, 0), (0, 1000), (600, 800)):
        for g1 in (0, 1):
            for dx, dy in ((360, 0), (0, 360), (599, 0), (600, 0), (0, 600), (0, 599), (500, 200),
                           (359, 359), (360, 359), (359, 360), (0, 0)):
                v = wide_b(force=force)
                v["members"][0]["grain"] = g1
                v["members"][1]["grain"] = 1 - g1
                v["dowels"] = [(0, 0), (dx, dy)]
                yield "crossed pair", write(v)
    # ends and edges: which dowel is named
    for bad in ((0,), (1,), (2,), (0, 2), (1, 2)):
        for m in (0, 1):
            for far in (100000 - 1, -100000 + 1, 100000, -100000):
                for axis in (0, 1):
                    v = wide_b(force=(1000, 300))
                    places = [[0, 0], [3000, 3000], [6000, 6000]]
                    for k in bad:
                        places[k][axis] = far
                    v["dowels"] = [tuple(xy) for xy in places]
                    v["members"][m]["grain"] = axis
                    yield "named end or edge", write(v)
    for (low, high), m, axis, grain in product(permutations(range(3), 2), (0, 1), (0, 1), (0, 1)):
        v = wide_b(force=(1000, 300))
        places = [[0, 0], [3000, 3000], [6000, 6000]]
        places[low][axis], places[high][axis] = -99999, 99999
        v["dowels"] = [tuple(xy) for xy in places]
        v["members"][m]["grain"] = grain
        yield "both ends or edges", write(v)


def spacing_records():
    """At every limit and one tenth beside, over diameters, grains and directions; edges in both versions."""
    directions = ((1000, 0), (-1000, 0), (0, 1000), (0, -1000), (300, 400), (-400, 300),
                  (400, -300), (-5, -12), (12, 5), (1, 1), (1, 1000000), (1000000, -1), (3, 1))
    for n, (d, force, g1, g2) in enumerate(product((6, 8, 11, 12, 13, 30), directions, (0, 1), (0, 1))):
        for version in (1, 2):
            v = wide_b(version=version, d=d, force=force)
            v["members"][0]["grain"], v["members"][1]["grain"] = g1, g2
            sx, sy = steps(v)
            v["dowels"] = [(0, 0), (sx, sy)]
            outlines(v, none)
            yield "tight", write(v)
            here = version == 1 + in_half(n)
            for m in (0, 1):
                for name in ("low", "high", "left", "right") if here else ("left", "right"):
                    w = copy(v)
                    outlines(w, lambda k, s: -1 if (k, s) == (m, name) else 0)
                    yield "one tenth short %d %s" % (m + 1, name), write(w)
            if not here:
                continue
            for by in (-1, 0, 1):
                for axis in (0, 1):
                    w = copy(v)
                    w["dowels"] = [(0, 0), (sx + by, 0) if axis == 0 else (0, sy + by)]
                    outlines(w, none)
                    yield "pair %d by %d" % (axis, by), write(w)
            w = copy(v)
            w["dowels"] = [(0, 0), (sx - 1, sy - 1)]
            outlines(w, none)
            yield "pair both short", write(w)
    yield from halved(end_records())


def end_records():
    # d 10 and 11: the 80 mm; a tiny component loads an end
    for d in (6, 10, 11, 12):
        for force in ((0, 20000), (1, 1000000), (-1, 1000000), (20000, 0), (-20000, 0)):
            for dist in (30 * d - 1, 30 * d, 399, 400, 70 * d - 1, 70 * d, 750, 799, 800, 801):
                for m in (0, 1):
                    for side in (0, 2):
                        v = wide_b(d=d, force=force)
                        v["members"][m]["outline"][side] = -dist if side == 0 else dist
                        yield "end", write(v)
    # outside, or on the line itself
    for m in (0, 1):
        for side in range(4):
            for at in (0, 1, -1, 500, -500, 5000, -5000):
                v = wide_b(force=(1000, 500))
                v["members"][m]["outline"][side] = at
                yield "outside", write(v)


# Request A7: versions that are not known, of which some have a byte or some bits of one that is
UNKNOWN_VERSIONS = (0, 3, 4, 5, 6, 9, 17, 18, 128, 129, 130, 254, 255, 256, 257, 258, 259, 512, 513, 514, 769, 4097, 4098,
                    32767, 32768, 32769, 32770, 65281, 65282, 65534, 65535)


def version_records():
    """Each version that is not known, alone and with other faults; joint B in version 2, and a fault of each number."""
    b = write(joint_b())
    for version in UNKNOWN_VERSIONS:
        for name, data in (("B", b), ("19 bytes of B", b[:19]), ("20 bytes of B", b[:20]), ("count 3", b[:2] + b"\3" + b[3:]),
                           ("a byte more", b + b"\0"), ("class 0", b[:22] + b"\0" + b[23:]),
                           ("dowels at 599", write(joint_b(dowels=[(0, 0), (599, 0), (0, 360), (599, 360)])))):
            yield "version %d, %s" % (version, name), in_version(data, version)
    for name, data, _ in samples():
        yield "version 2, sample %s" % name, in_version(data, 2)


def by_edge(m, side, distance, grains=(0, 0), **change):
    """One dowel, so far from an edge of member m, 0 the low and 1 the high one; all other edges and ends far away."""
    v = wide_b(**change)
    for member, grain in zip(v["members"], grains):
        member["grain"] = grain
    v["members"][m]["outline"][1 - grains[m] + 2 * side] = distance if side else -distance
    return v


def edge_joints():
    """Request A7: (name, record).  One dowel by each edge of each member in each version, at 3d and at what version 2 asks of the
    edge where it is loaded, and a tenth below either: by sines of 0, 3/5, 4/5 and 1, just above and below 1/2, next to 216/220 and
    1/sqrt 2, and by 1 N across.  The force points to higher places, so the high edge of member 2 and the low edge of member 1 are
    loaded."""
    for d, along, across, least in ((30, 866025, 500000, 901), (30, 866026, 500000, 900), (12, 1000, 0, 360), (12, 400, 300, 384),
                                    (12, 300, 400, 432), (12, 0, 1000, 480), (12, 1000000, 1, 360), (12, 0, 1, 480),
                                    (12, 1, 1, 410), (11, 164633, 851525, 437)):
        for grain, m, side, version in product((0, 1), (1, 0), (1, 0), (1, 2)):
            for distance in sorted({30 * d - 1, 30 * d} | ({least - 1, least} if m == side else set())):
                fx, fy = (across, along) if grain else (along, across)
                v = by_edge(m, side, distance, (grain, grain), version=version, d=d, force=(fx, fy))
                name = "edge-%dmm-%s-%d-%d-member-%d-%s-%d-v%d" % (
                    d, "xy"[grain], fx, fy, m + 1, ("low", "high")[side], distance, version)
                yield name, write(v)


# Forces along and across: sin 0, 3/5, 4/5 and 1; 12/13 and 5/13, 1/2 and a hair beside it, 1 N across; others that are no fractions
DIRECTIONS = ((1000, 0), (4, 3), (3, 4), (0, 1), (0, 1000000), (5, 12), (12, 5), (866025, 500000), (866026, 500000), (1000000, 1),
              (1, 1), (2, 1), (1, 1000000), (577, 1000), (999, 1000), (1000, 999))
# d, force along and across: 20 d sin is a hair beside a whole number, by less than a part in 10**14 (of all forces that follow from
# continued fractions the nearest); above it in the first row, below it in the second.  Floating point is wrong with some of them
HAIRS = ((11, 164633, 851525), (22, 164633, 851525), (26, 504622, 686573), (27, 820708, 621499), (15, 204041, 503022),
         (21, 434547, 808984), (19, 500972, 846279), (23, 146009, 178430), (8, 284040, 633589), (30, 332047, 610080))


def edge_records():
    """Each edge of each member, loaded and not, at its limit and a tenth below, and at 3d, which may be too near for a loaded
    one."""
    for d, force, m, grain, turn, side in product((6, 12, 30), DIRECTIONS, (0, 1), (0, 1), (1, -1), (0, 1)):
        along, across = force
        n = 7 * d + 31 * along + 2 * side + m
        along = -along if in_half(n) else along
        across = turn * across
        if turn < 0 and across == 0:
            continue
        grains = [grain, grain]
        grains[1 - m] = int(in_half(n // 2 + grain))
        for version in (1, 2):
            change = {"version": version, "p": 1 + in_half(n // 4 + side), "d": d,
                      "force": (across, along) if grain else (along, across)}
            least = rules(by_edge(m, side, 0, grains, **change), m)[4 + side]
            for distance in sorted({least, least - 1, 30 * d, 30 * d - 1}):
                w = by_edge(m, side, distance, grains, **change)
                yield "edge %d of member %d at %d, d %d" % (side, m + 1, distance, d), write(w)
    for (d, along, across), m, grain, side in product(HAIRS, (0, 1), (0, 1), (0, 1)):
        sign = 1 if m == side else -1               # the edge is loaded
        force = (sign * across, along) if grain else (along, sign * across)
        v = by_edge(m, side, 0, (grain, grain), version=2, d=d, force=force)
        for by in (-1, 0):
            w = by_edge(m, side, rules(v, m)[4 + side] + by, (grain, grain), version=2, d=d, force=force)
            yield "edge a hair beside, by %d" % by, write(w)


def edge_place_records():
    """Which of three dowels is named.  They stand in the middle, or by the low or the high edge: 300 away is too near, 400 is
    where the edge is loaded."""
    for (m, grain, turn), places in product(product((0, 1), (0, 1), (1, -1)), product((0, -4600, 4600, 4700), repeat=3)):
        if places == (0, 0, 0):
            continue
        dowels = [(3000 * k, c) for k, c in enumerate(places)]
        for version in (1, 2):
            v = wide_b(version=version, force=(turn * 1000, 10) if grain else (10, turn * 1000))
            v["dowels"] = turned(dowels) if grain else dowels
            for member in v["members"]:
                member["grain"] = grain
            outline = v["members"][m]["outline"]
            outline[1 - grain], outline[3 - grain] = -5000, 5000
            yield "edge of one of three, member %d" % (m + 1), write(v)


def across_upwards(version, *faults):
    """Three dowels in wide members, grain x; the force loads the low edge of member 1 and the high edge of member 2."""
    v = wide_b(version=version, force=(0, 1000))
    v["dowels"] = [(0, 0), (3000, 3000), (6000, 1500)]
    one, two = (member["outline"] for member in v["members"])
    for fault in faults:
        if fault == "loaded edge 1":
            one[1] = -400
        elif fault == "loaded edge 2":
            two[3] = 3400
        elif fault == "edge 1":
            one[3] = 3300
        elif fault == "edge 2":
            two[1] = -300
        elif fault == "end 1":
            one[0] = -100
        elif fault == "end 2":
            two[2] = 3100
        elif fault == "pair":
            v["dowels"][2] = (3100, 2900)
        elif fault == "class":
            v["members"][0]["class"] = 12
        elif fault == "outline":
            two[0] = two[2]
        elif fault == "force":
            v["force"] = (0, 0)
    return v


def edge_order_records():
    """A loaded edge before and after other refusals."""
    names = ("loaded edge 1", "loaded edge 2", "edge 1", "edge 2", "end 1", "end 2", "pair", "class", "outline", "force")
    for one, two, version in product(names, names, (1, 2)):
        yield "edge faults %s and %s" % (one, two), write(across_upwards(version, one, two))


def far_edge_records():
    """Loaded edges so far away, and forces so great, that squares of them do not fit 64 bits: around distances where what is above
    2d, squared, times the squared force is 2**63 and 2**64."""
    for force in ((0, 1000000), (1000000, 1000000), (1000000, 999999), (1, 1000000)):
        for distance in (1200, 2747, 2748, 3637, 3638, 4894, 4895, 4896, 5500, 9000, 30000, 43500, 65536, 99999, 100000):
            for m, side in ((0, 0), (1, 1)):
                yield "edge far away", write(by_edge(m, side, distance, version=2, d=30, force=force))
    v = by_edge(1, 1, 100000, version=2, d=30, force=(0, 1000000))
    v["dowels"] = [(0, -95000)]
    yield "edge farthest away", write(v)


def tie_records():
    for k in (1, 2, 100, 333333):
        v = wide_b(p=1, d=10, steel=3, force=(2 * k, 3 * k))
        v["members"][0].update({"class": 5, "t": 500})
        v["members"][1].update({"class": 1, "grain": 1, "t": 4000})
        yield "R 4,797", write(v)
    for k in (1, 2, 100, 250000):
        v = wide_b(p=1, d=15, steel=3, force=(3 * k, 4 * k))
        v["members"][0].update({"class": 2, "t": 4000})
        v["members"][1].update({"class": 11, "t": 216})
        yield "R 6,273", write(v)
    v = wide_b(p=1, d=15, steel=3, force=(-50, 120))
    v["members"][0].update({"class": 10, "t": 4000})
    v["members"][1].update({"class": 10, "grain": 1, "t": 300})
    yield "R 6,929", write(v)
    v = wide_b(d=10, steel=3, force=(1000, 0))
    v["members"][0]["t"], v["members"][1]["t"] = 4000, 200
    yield "R 2,583", write(v)
    for m in range(1, 21):
        v = wide_b(d=10, steel=3, service=3, duration=1, force=(2583 * m, 0))
        v["members"][0]["t"], v["members"][1]["t"] = 4000, 200
        row_of(v, 13, 500, 0, apart=300)
        yield "use %d/10" % m, write(v)
    for d, step, name in ((6, 195, "share 1/2"), (6, 3120, "share 1"), (8, 260, "share 1/2")):
        for by in (-1, 0, 1):
            v = wide_b(d=d, force=(100, 1000))
            row_of(v, 32, step + by, 0)
            v["dowels"] = [(x - 48000, y) for x, y in v["dowels"]]
            yield name, write(v)


def force_records():
    """A whole newton after the other round use 1, and tiny forces."""
    for fx in range(26700, 27001, 3):
        yield "B with fx %d" % fx, write(joint_b(force=(fx, 0)))
    for force in ((1, 0), (0, 1), (1, 1), (-1, -1), (1, 2), (1000000, 1000000), (-1000000, 1000000)):
        for count in (1, 2, 16, 64):
            for p in (1, 2):
                v = wide_b(force=force, p=p)
                v["dowels"] = [(k % 8 * 1000, k // 8 * 1000) for k in range(count)]
                yield "force %d, %d on %d" % (force[0], force[1], count), write(v)
    for n in range(1, 65):
        for step in (60, 100, 130):
            v = wide_b(force=(5000, 0), d=10)
            row_of(v, n, 10 * step, 0)
            v["dowels"] = [(x - 60000, y) for x, y in v["dowels"]]
            yield "row of %d" % n, write(v)
            v["members"][0]["grain"] = 1
            yield "row of %d, crossed" % n, write(v)
    # row checks at angles where they still decide, in either member
    for n in (12, 32, 64):
        for force in ((1000, 900), (1000, 1000), (3000, 4000), (-3000, 4000), (2000, -1000)):
            for g1, g2 in ((0, 0), (0, 1), (1, 0)):
                v = wide_b(force=force, d=10)
                v["members"][0]["grain"], v["members"][1]["grain"] = g1, g2
                row_of(v, n, 500, 0)
                yield "skew row of %d" % n, write(v)
    # distances beyond 13d: the effective number stops at n
    for n in (2, 3, 10):
        for step in (1300, 1400, 1500, 2000, 2600, 9000):
            v = wide_b(force=(5000, 0), d=10)
            row_of(v, n, step, 0)
            yield "wide row of %d" % n, write(v)
    # rows not in the order of the record
    v = wide_b(force=(5000, 0), d=10)
    v["dowels"] = [(0, 0), (2000, 0), (600, 0), (5000, 0), (3000, 0)]
    yield "mixed row", write(v)
    # rows of different length and step; the worst is not the longest
    v = wide_b(force=(5000, 0), d=10)
    v["dowels"] = [(k * 1300, 0) for k in range(5)] + [(k * 500, 1000) for k in range(3)]
    yield "two rows", write(v)
    v["dowels"] = [(0, 0), (2000, 0), (2500, 0), (7000, 0)]
    yield "uneven row", write(v)


def turned(dowels):
    """The same with x and y exchanged."""
    return [(y, x) for x, y in dowels]


def row_joints():
    """Request A3: (name, record).  Joint B otherwise in wide outlines, with rows that 02 makes of dowels out of line; drawn as
    listed, with y negated, and with the grain along y; then crossed grains."""
    for name, dowels, force in (
            ("in-line", [(600 * k, 0) for k in range(8)], 50000),
            ("hair-stair", [(600 * k, k) for k in range(8)], 50000),                # each a tenth further than the one before
            ("zigzag-119", [(600 * k, k % 2 * 119) for k in range(8)], 50000),      # one row of 8
            ("zigzag-120", [(600 * k, k % 2 * 120) for k in range(8)], 50000),      # two of 4
            ("steps-100", [(0, 0), (3000, 100), (3600, 200)], 20000),               # rows of 1 and 2, of 2 and 3
            ("steps-100-low", [(0, 0), (600, 100), (3600, 200)], 20000),
            ("steps-60", [(0, 0), (600, 60), (1200, 120)], 20000),                  # two rows of 2
            ("steps-59", [(0, 0), (600, 59), (1200, 118)], 20000),                  # one of 3
            ("apart-119", [(0, 0), (600, 119)], 10000),                             # one row
            ("apart-120", [(0, 0), (600, 120)], 10000),                             # two
            ("closest-pair", [(0, 0), (3000, 60), (600, 119), (4000, 120)], 20000),  # neighbours neither here nor across
            ("long-stair", [(600 * k - 19000, 100 * k - 3000) for k in range(64)], 400000),
            ("flat-stair", [(600 * k - 19000, 10 * k) for k in range(64)], 400000),
            ("staggered", [(600 * (k % 4) + 2400 * (k // 16), 90 * (k % 16)) for k in range(64)], 400000)):
        for drawn, places, grain in (("", dowels, 0), ("-down", [(x, -y) for x, y in dowels], 0),
                                     ("-grain-y", turned(dowels), 1)):
            yield "rows-" + name + drawn, write(roomy(places, (grain, grain), force=(0, force) if grain else (force, 0)))
    for name, dowels in (("square", [(0, 0), (900, 100), (100, 600), (1000, 700)]),
                         ("angle", [(0, 0), (700, 50), (1400, 110), (40, 1500), (90, 2300)])):
        for g1, g2 in ((0, 1), (1, 0)):
            for force in ((12000, 16000), (16000, 12000)):
                yield ("rows-crossed-%s-%s-%s-%d-%d" % (name, "xy"[g1], "xy"[g2], *force),
                       write(roomy(dowels, (g1, g2), force=force)))


def cost_joints():
    """64 dowels, for what a call costs: (name, record).  One row; 8 rows of 8; a grid with crossed grains; stairs, each dowel
    within reach of the next, of the next 2 and of the next 11, and one whose windows are each closer than those before.
    'Backwards' is the order of the list."""
    def long_row(step, way=1, shorter=0):
        # the last distance along is 5d, the least that a force along allows
        places = [(600 * k - 19000 + shorter * (125 - k) * k // 2, step * k) for k in range(64)]
        return write(roomy(places[::way], force=(200000, 0)))
    yield "one row of 64", long_row(0)
    yield "one row of 64, backwards", long_row(0, -1)
    yield "8 rows of 8", write(roomy([(600 * (k % 8), 360 * (k // 8)) for k in range(64)], force=(200000, 0)))
    yield "8 by 8, crossed grains", write(roomy([(650 * (k % 8), 610 * (k // 8)) for k in range(64)], (0, 1),
                                                force=(120000, -170000)))
    for step in (100, 50, 10):
        yield "stair of 64, steps of %d" % step, long_row(step)
    yield "stair of 64, backwards", long_row(100, -1)
    yield "stair of 64, closing", long_row(100, shorter=14)


def row_records():
    """Rows that 02's A3 makes: at and beside d, over diameters and grains; three dowels in all orders; stairs, zigzags."""
    for joints in (row_joints, cost_joints):
        for name, data in joints():
            yield "rows " + name, data

    def laid(axis, along, across, grains, force, **change):
        """Dowels by places along an axis and across it; the force by components along and across."""
        dowels = list(zip(along, across))
        if axis == 1:
            dowels, force = turned(dowels), force[::-1]
        return write(roomy(dowels, grains, force=force, **change))
    for d in range(6, 31):
        for axis in (0, 1):
            for apart in (10 * d - 1, 10 * d, 10 * d + 1, 1 - 10 * d, -10 * d):
                for grains, force in (((axis, axis), (10000, 0)), ((axis, 1 - axis), (8000, 6000)),
                                      ((1 - axis, axis), (-8000, 6000))):
                    yield "rows d %d, %d apart" % (d, apart), laid(axis, (0, 50 * d), (0, apart), grains, force, d=d)
    for d in (6, 12, 13, 30):
        for step in (5 * d - 1, 5 * d, 10 * d - 1, 10 * d):
            for along in permutations((0, 50 * d, 300 * d)):
                for axis in (0, 1):
                    for way in (1, -1):
                        yield "rows of three, steps of %d" % step, laid(
                            axis, along, (0, way * step, 2 * way * step), (axis, axis), (20000, 0), d=d)
    for order in permutations([(0, 0), (3000, 60), (600, 119), (4000, 120)]):
        for way in (1, -1):
            for axis in (0, 1):
                yield "rows of four, all orders", laid(axis, [a for a, _ in order], [way * c for _, c in order],
                                                       (axis, axis), (20000, 0))
    for d in (6, 12, 30):
        reach = 10 * d
        for n in (3, 8, 9, 16, 33, 64):
            steps_up = {1, (reach - 1) // (n - 1), reach // (n - 1), reach // 4, reach // 2, reach - 1, reach}
            for step in sorted(steps_up - {0}):
                for mixed in (False, True):
                    for axis, grains in ((0, (0, 0)), (1, (1, 1)), (0, (0, 1)), (1, (0, 1))):
                        places = [(50 * d * k + k * k - 48000, step * k) for k in range(n)]
                        if mixed:
                            Random(n * step).shuffle(places)
                        yield "rows in stairs of %d, steps of %d" % (n, step), laid(
                            axis, [a for a, _ in places], [c for _, c in places], grains, (3000 * n, 1000 * n), d=d)
            for high in (1, reach - 1, reach, reach + 1):
                yield "rows in zigzag of %d, %d high" % (n, high), laid(
                    0, [50 * d * k - 48000 for k in range(n)], [k % 2 * high for k in range(n)], (0, 0), (3000 * n, 0), d=d)
    # lines beside one another that share no place along
    for lines in (2, 3, 4, 5):
        for pitch in (1, 60, 100, 119, 120, 180, 359, 360):
            for axis in (0, 1):
                yield "rows in %d lines, %d apart" % (lines, pitch), laid(
                    axis, [600 * k for k in range(16)], [k % lines * pitch for k in range(16)], (axis, axis), (60000, 0))
    # as far apart along as can be
    for apart in (0, 1, 119, 120):
        for n in (2, 3):
            yield "rows far apart", laid(0, [-88000, 88000, 0][:n], [0, apart, 0][:n], (0, 0), (20000, 0))


def systematic():
    for name, data, _ in samples():
        yield "sample " + name, data
    for name, data in edge_joints():
        yield name.replace("-", " "), data
    yield from version_records()
    for group in (tie_records, force_records, order_records, field_records, layout_records):
        yield from halved(group())
    for group in (spacing_records, edge_records, edge_place_records, edge_order_records, far_edge_records):
        yield from group()              # in both versions
    for group in (hardwood_records, row_records):
        yield from halved(group())


def stream(seed, count):
    made = 0
    for label, data in systematic():
        if made == count:
            return
        yield label, data
        made += 1
    index = 0
    while made < count:
        yield generate(seed, index)
        index += 1
        made += 1
