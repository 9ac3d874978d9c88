"""Values for the writer, half of them for version 2, and what the reader writes to: systematic and by chance.

stream(seed, count) gives (label, Handed), all that a call of the writer is lent, its old content
too; lent(seed, number) gives the slices that a call of the reader writes to.  Both depend on the
seed and the number alone.
"""
from array import array
from collections import namedtuple
from itertools import combinations
from random import Random

import records
from records import joint_b, wide_b

# fields, x, y, marks, answer: lists of numbers; buffer: bytes
Handed = namedtuple("Handed", "fields x y marks buffer answer")

LEAST, MOST = -2 ** 31, 2 ** 31 - 1
SIDE = ((1, 11), (0, 1), None, None, (200, 4000)) + ((-100000, 100000),) * 4
# lowest and highest value of each place; None: no field in versions 1 and 2
LIMITS = ((1, 2), (1, 2)) + SIDE + SIDE + ((6, 30), (1, 3), None, (1, 3), (1, 5)) + ((-1000000, 1000000),) * 2
PLACES = len(LIMITS)
VERSION, CLASS_1, CLASS_2, FX, FY = 0, 2, 11, 25, 26
X0_1, X0_2 = 7, 16
SIZES = (0, 1, 2, 3, 4, 5, 63, 64, 65, 66, 70, 255, 256, 257, 258, 260, 320)


def record_length(n):
    return 78 + 8 * n


def fields_of(v):
    """The numbers of a joint of records.py; 0 where versions 1 and 2 have no field."""
    out = [v["version"], v["p"]]
    for m in v["members"]:
        out += [m["class"], m["grain"], 0, 0, m["t"], *m["outline"]]
    return out + [v["d"], v["steel"], 0, v["service"], v["duration"], *v["force"]]


def item(v, room=None, marks=None, answer=2, **change):
    """[fields, x, y, marks, room, length of answer]; change: what is put in place of a list."""
    x, y = [x for x, _ in v["dowels"]], [y for _, y in v["dowels"]]
    return [change.get("fields", fields_of(v)), change.get("x", x), change.get("y", y),
            [0] * len(x) if marks is None else marks, record_length(len(x)) if room is None else room, answer]


def lattice(n):
    """A joint of n dowels, no two coordinates of them alike."""
    v = wide_b()
    v["dowels"] = [(700 * k - 20000, 30000 - 611 * k) for k in range(n)]
    return v


def interesting(at):
    """Numbers for a place: at, below and above its limits, and far outside."""
    if LIMITS[at] is None:
        return (LEAST, -1001, -1000, -1, 0, 1, 255, 1000, 1001, MOST)
    low, high = LIMITS[at]
    near = {low - 1, low, low + 1, high - 1, high, high + 1, -low, -high}
    far = {z + by for z in (low, high) for by in (-2 ** 24, -65536, -256, 256, 65536, 2 ** 24)}
    if at == VERSION:
        far |= {z for version in records.UNKNOWN_VERSIONS for z in (version, -version, version + 65536)}
    return sorted(near | far | {LEAST, LEAST + 1, -1, 0, 1, 127, 128, 255, 256, 257, 32768, 65535, 65536, 65537,
                                MOST - 1, MOST})


# ------------------------------------------------------------------ systematic

def halved(items):
    """The items, half of those for version 1 for version 2; but for those that try the version's own place."""
    for n, (label, *more, it) in enumerate(items):
        if records.in_half(n) and it[0][:1] == [1] and not label.startswith("place 0 "):
            label, it = label + " in version 2", [[2] + it[0][1:], *it[1:]]
        yield (label, *more, it)


def field_items():
    for name, v in (("B", joint_b()), ("wide", wide_b(force=(-300, 400))), ("64", lattice(64))):
        for at in range(PLACES):
            for z in interesting(at):
                fields = fields_of(v)
                fields[at] = z
                yield "place %d of %s, %d" % (at, name, z), item(v, fields=fields)
        # every place without a field at once
        fields = [3 * k + 1 if limit is None else z for k, (z, limit) in enumerate(zip(fields_of(v), LIMITS))]
        yield "junk in %s" % name, item(v, fields=fields)


def position_items():
    for n in (1, 4, 64):
        for k in {0, n // 2, n - 1}:
            for axis in ("x", "y"):
                for z in interesting(X0_1):
                    v = lattice(n)
                    line = [xy["xy".index(axis)] for xy in v["dowels"]]
                    line[k] = z
                    yield "%s of dowel %d of %d, %d" % (axis, k + 1, n, z), item(v, **{axis: line})


def list_items():
    for nx in SIZES:
        for ny in SIZES:
            for room in (record_length(min(nx, 64)), 0, 3000):
                line = [100 * k - 9000 for k in range(max(SIZES))]
                yield "%d x, %d y" % (nx, ny), item(lattice(4), room=room, x=line[:nx], y=line[:ny][::-1])


def mark_items():
    for n in (0, 1, 3, 4, 5, 64, 65, 256, 1000):
        for z in (0, 1, 2, -1, LEAST, MOST):
            yield "%d marks of %d" % (n, z), item(joint_b(), marks=[z] * n)


def buffer_items():
    for room in range(0, 131):
        yield "B into %d" % room, item(joint_b(), room=room)
    for n in range(1, 65):
        length = record_length(n)
        for room in (0, 1, 2, 19, 20, 62, length - 9, length - 8, length - 1, length, length + 1, length + 8, 700, 4096):
            yield "%d dowels into %d" % (n, room), item(lattice(n), room=room)
    for force in ((20000, 0), (-1, -1), (1, 0), (0, -1), (-1000000, 1000000), (66051, -131844)):
        yield "force %d, %d" % force, item(joint_b(force=force))


def slice_items():
    """Slices of fewer numbers than are needed, and of more."""
    for n in (*range(PLACES + 3), 40, 100):
        for answer in (0, 1, 2, 3, 5):
            for room in (0, 110, 120):
                fields = (fields_of(joint_b()) + [5] * 100)[:n]
                yield "%d fields, answer of %d" % (n, answer), item(joint_b(), fields=fields, answer=answer, room=room)


# Faults for two and three at once: (name, what it does to an item)
def put(*pairs):
    def change(it):
        for at, z in pairs:
            it[0][at] = z
    return change


def cut(which, by):
    def change(it):
        it[which] = it[which][:by] if by <= 0 else it[which] + [0] * by
    return change


def shorten(by):
    def change(it):
        it[4] = 0 if by is None else it[4] - by
    return change


def both(n):
    def change(it):
        it[1], it[2] = [0] * n, [0] * n
    return change


def all_of(*changes):
    def change(it):
        for one in changes:
            one(it)
    return change


FAULTS = (
    *(("version %d" % z, put((VERSION, z))) for z in (9, 0, -1, -2, 3, 257, 258, 65537, 65538, 131074, LEAST)),
    ("class 0", put((CLASS_1, 0))), ("class 257", put((CLASS_2, 257))), ("class -1", put((CLASS_1, -1))),
    ("grain 2", put((12, 2))), ("thickness 199", put((6, 199))), ("x0 of 100,001", put((X0_1, 100001))),
    ("y1 of -100,001", put((19, -100001))), ("planes 258", put((1, 258))), ("d 5", put((20, 5))),
    ("steel 4", put((21, 4))), ("service 0", put((23, 0))), ("duration 6", put((24, 6))),
    ("fx of 1,000,001", put((FX, 1000001))), ("far position", lambda it: it[1].__setitem__(-1, 100001) if it[1] else None),
    ("no dowels", both(0)), ("65 dowels", both(65)), ("one y more", cut(2, 1)), ("one x less", cut(1, -1)),
    ("no y", lambda it: it[2].clear()),
    *(("empty outline at %d" % at, put((at, 720), (at + 2, 720))) for at in (X0_1, X0_1 + 1, X0_2, X0_2 + 1)),
    ("outline turned round", put((X0_2, 1440), (X0_2 + 2, -20000))),
    ("no force", put((FX, 0), (FY, 0))),
    ("buffer one short", shorten(1)), ("no buffer", shorten(None)),
    ("version 3 and a fault of each number", all_of(
        put((VERSION, 3), (CLASS_1, 0), (X0_1, 720), (X0_1 + 2, 720), (FX, 0), (FY, 0)), cut(1, -1), shorten(None))),
)


def order_items():
    yield "B", item(joint_b())
    for name, change in FAULTS:
        it = item(joint_b())
        change(it)
        yield name, it
    for (a, one), (b, two) in combinations(FAULTS, 2):
        it = item(joint_b())
        one(it)
        two(it)
        yield "%s, %s" % (a, b), it
    few = [f for f in FAULTS if f[0] in ("version 9", "class 0", "one y more", "empty outline at 7", "no force",
                                         "buffer one short")]
    for k in (3, 4, 5, 6):
        for some in combinations(few, k):
            it = item(joint_b())
            for _, change in some:
                change(it)
            yield ", ".join(name for name, _ in some), it


def systematic():
    return halved(systematic_items())


def systematic_items():
    for group in (order_items, slice_items, mark_items, buffer_items, field_items, list_items, position_items):
        for label, it in group():
            yield label, it
    for name, v in (("oak post", records.oak_post()), ("dowels at 599", joint_b(dowels=[(0, 0), (599, 0)])),
                    ("two on one spot", joint_b(dowels=[(5, 5), (5, 5)])), ("outside", joint_b(dowels=[(90000, -90000)]))):
        yield name, item(v)             # spacing is not tested


# ------------------------------------------------------------------- by chance

def some_joint(r):
    way = r.random()
    if way < 0.3:
        v = records.grid_values(r, tight=r.random() < 0.3)
    elif way < 0.5:
        v = records.scatter_values(r)
    elif way < 0.8:
        v = records.at_limit(r)
    else:
        v = joint_b(version=r.randint(1, 2))
    if r.random() < 0.5:
        records.move(v, r)
    for _ in range(r.choice((0, 0, 0, 0, 0, 1, 2))):
        records.fault_values(r, v)
    return v


def some_number(r, at):
    way = r.random()
    if way < 0.6:
        return r.choice(interesting(at))
    if way < 0.8:
        return r.randint(LEAST, MOST)
    low, high = LIMITS[at] or (-1000, 1000)
    return r.randint(low, high)


def generate(seed, index):
    """Item number index made by chance."""
    r = Random(seed * 1000003 + index + 500000000)
    it = item(some_joint(r))
    it[0] = [z if limit else r.choice((0, 1, -1, r.randint(LEAST, MOST))) for z, limit in zip(it[0], LIMITS)]
    label = "chance"
    if r.random() < 0.2:
        label = "chance, numbers"
        for _ in range(r.choice((1, 1, 2, 3))):
            at = r.randrange(PLACES)
            it[0][at] = some_number(r, at)
    if r.random() < 0.1:
        label = "chance, lists"
        for k in r.choice(((1,), (2,), (1, 2))):
            way = r.random()
            if way < 0.4:
                it[k] = it[k][:r.randrange(len(it[k]) + 1)]
            elif way < 0.8:
                it[k] = it[k] + [r.randint(-100, 100)] * r.choice((1, 2, 64 - len(it[k]) % 64, 256))
            elif it[k]:
                it[k][r.randrange(len(it[k]))] = some_number(r, X0_1)
    if r.random() < 0.1:
        it[3] = [r.randint(LEAST, MOST) for _ in range(r.choice((0, 1, 2, 64, 65, 200)))]
    way = r.random()
    if way < 0.3:
        it[4] = max(0, it[4] + r.choice((-8, -1, -1, 1, 7, 8, 300)))
    elif way < 0.4:
        it[4] = r.randrange(700)
    if r.random() < 0.05:
        label = "chance, slices"
        it[0] = (it[0] + [r.randint(LEAST, MOST)] * 5)[:r.choice((0, 1, 20, 26, 26, 27, 28, 32))]
        it[5] = r.choice((0, 1, 2, 3, 4))
    for k in (0, 1, 2):
        it[k] = [max(LEAST, min(MOST, z)) for z in it[k]]
    return label, it


def filled(seed, number, it):
    """The item with its old content."""
    fields, x, y, marks, room, answer = it
    r = Random(seed * 7919 + number)
    return Handed(fields, x, y, marks, r.randbytes(room), [r.getrandbits(64) for _ in range(answer)])


def stream(seed, count):
    made = 0
    for label, it in systematic():
        if made == count:
            return
        yield label, filled(seed, made, it)
        made += 1
    index = 0
    while made < count:
        label, it = generate(seed, index)
        yield label, filled(seed, made, it)
        index += 1
        made += 1


# --------------------------------------------------------- what the reader writes to

NEEDED = (PLACES, 64, 64, 64, 2)


def lent(seed, number):
    """fields, x, y, marks, answer, with their old content; most of the lengths needed, some longer, some shorter."""
    r = Random(seed * 104729 + number)
    lengths = list(NEEDED)
    way = r.random()
    if way < 0.3:
        lengths = [n + r.choice((0, 1, 5)) for n in lengths]
    elif way < 0.4:
        k = r.randrange(5)
        lengths[k] = r.choice((lengths[k] - 1, lengths[k] - 1, r.randrange(lengths[k])))
    numbers = [array("i", r.randbytes(4 * n)).tolist() for n in lengths[:4]]
    return (*numbers, [r.getrandbits(64) for _ in range(lengths[4])])
