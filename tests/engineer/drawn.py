"""One joint drawn otherwise (02, A8): pairs of records for the engineer's test, and what is the same in their reports.

A change makes one drawing of a joint from another: its dowels in another order, one offset to all x and one to all y, a mirror in x
or in y; or its parts in another order, which changes no value.  stream(seed, count) gives Pairs of records that pass 1 to 9 by the
pair's table, the second made from the first by one change or by several, one after the other: first each change of some named joints,
then changes by chance, half of them of records with a table of a firm's own or with one that two firms share.  An item depends on the
seed and its number alone.  A label starts with the kind of change and a comma.
"""
from collections import namedtuple
from functools import lru_cache
from random import Random
import struct

import engineer
import firms
import records
import tables
from written import loaded_of

# table: as the entries take it; whole: no value differs, so all of the report is the same
Pair = namedtuple("Pair", "label table first second whole")
# values: those of a joint of records.py; parts: the kinds in the order in which they stand
Drawing = namedtuple("Drawing", "values parts")

MOST = 100000                                                 # of a coordinate, of either sign

# ------------------------------------------------------------------- drawings


def drawing_of(data):
    """The drawing in a record that passes 1 to 9."""
    part, order = {}, []
    for at in (4, 8, 12, 16):
        offset, length = struct.unpack_from("<HH", data, at)
        order.append(data[offset])
        part[data[offset]] = data[offset:offset + length]
    members = []
    for at in (2, 22):
        cls, grain, t, *outline = struct.unpack_from("<BBH4i", part[1], at)
        members.append({"class": cls, "grain": grain, "t": t, "outline": outline})
    places = struct.unpack_from("<%di" % (2 * part[3][1]), part[3], 2)
    _, service, duration, *force = struct.unpack("<BBBii", part[4])
    return Drawing({"version": data[0] + 256 * data[1], "p": part[1][1], "members": members, "d": part[2][1], "steel": part[2][2],
                    "dowels": list(zip(places[::2], places[1::2])), "service": service, "duration": duration,
                    "force": tuple(force)}, tuple(order))


def write(drawing):
    return records.write(*drawing)


def passes(data, loaded=engineer.PRINTED):
    """Whether the record passes 1 to 9."""
    return isinstance(engineer.read(data, loaded), engineer.Joint)


# -------------------------------------------------------------------- changes

class Listed(namedtuple("Listed", "order")):
    """Dowel k, from 0, is dowel order[k] of the drawing before."""
    kind = "listed"

    def of(self, drawing):
        v = records.copy(drawing.values)
        v["dowels"] = [v["dowels"][k] for k in self.order]
        return drawing._replace(values=v)

    def back(self, drawing):
        """The change that undoes this one of the drawing."""
        return Listed(tuple(sorted(range(len(self.order)), key=self.order.__getitem__)))


class Moved(namedtuple("Moved", "x y")):
    """All x by one offset, all y by another."""
    kind = "moved"

    def of(self, drawing):
        v = records.copy(drawing.values)
        v["dowels"] = [(x + self.x, y + self.y) for x, y in v["dowels"]]
        for m in v["members"]:
            m["outline"] = [c + by for c, by in zip(m["outline"], (self.x, self.y) * 2)]
        return drawing._replace(values=v)

    def back(self, drawing):
        return Moved(-self.x, -self.y)


class Mirrored(namedtuple("Mirrored", "axis")):
    """All x negated where axis is 0, all y where it is 1; of two limits the lower comes first."""
    kind = "mirrored"

    def of(self, drawing):
        v, low, high = records.copy(drawing.values), self.axis, self.axis + 2
        v["dowels"] = [self.turned(xy) for xy in v["dowels"]]
        v["force"] = self.turned(v["force"])
        for m in v["members"]:
            m["outline"][low], m["outline"][high] = -m["outline"][high], -m["outline"][low]
        return drawing._replace(values=v)

    def turned(self, xy):
        return tuple(-c if k == self.axis else c for k, c in enumerate(xy))

    def back(self, drawing):
        return self


class Parts(namedtuple("Parts", "order")):
    """The parts by their kinds in this order."""
    kind = "parts"

    def of(self, drawing):
        return drawing._replace(parts=self.order)

    def back(self, drawing):
        return Parts(drawing.parts)


def steps_of(drawing, changes):
    """The drawing after each of the changes."""
    out = []
    for change in changes:
        drawing = change.of(drawing)
        out.append(drawing)
    return out


# ---------------------------------------------------------- what is the same

def same(line):
    """What a line says of the joint and not of its drawing: verdict, number and member, or verdict, use, capacity and share."""
    words = line.split()
    return words[:3] if words[:1] == ["refused"] else words


def check(pair, one, two):
    """True, or how the lines of the pair's records differ."""
    if (one == two if pair.whole else same(one) == same(two)):
        return True
    return "%r, drawn otherwise %r" % (one, two)


# ------------------------------------------------------------- changes by chance

def room(v, axis):
    """The least and the greatest offset within the coordinates."""
    used = [xy[axis] for xy in v["dowels"]] + [c for m in v["members"] for c in m["outline"][axis::2]]
    return -MOST - min(used), MOST - max(used)


def orders(n):
    """Backwards, the last first, the first last, the first two exchanged, each second one first."""
    line = tuple(range(n))
    return [line[::-1], line[-1:] + line[:-1], line[1:] + line[:1], line[1::-1] + line[2:], line[1::2] + line[::2]]


def some_listed(r, v):
    places = v["dowels"]
    n = len(places)
    if n == 1:
        return None
    way = r.random()
    if way < 0.4:
        return Listed(r.choice(orders(n)))
    if way < 0.6:
        axis, turn = r.randint(0, 1), r.choice((1, -1))
        return Listed(tuple(sorted(range(n), key=lambda k: (turn * places[k][axis], places[k][1 - axis]))))
    return Listed(tuple(r.sample(range(n), n)))


def some_offset(r, low, high):
    way = r.random()
    if way < 0.15:
        return 0
    if way < 0.45:
        return r.choice((low, high))
    if way < 0.65:
        by = r.choice((1, -1, 2, 5, 10, -10, 97))
        return min(max(by, low), high)
    return r.randint(low, high)


def some_moved(r, v):
    by = Moved(*(some_offset(r, *room(v, axis)) for axis in (0, 1)))
    return None if by == (0, 0) else by


def some_change(r, drawing):
    way = r.random()
    if way < 0.1:
        return Parts(r.choice(records.ORDERS))
    if way < 0.4:
        return Mirrored(r.randint(0, 1))
    change = (some_listed if way < 0.7 else some_moved)(r, drawing.values)
    return change or Mirrored(r.randint(0, 1))


def some_changes(r, drawing):
    """One change, or several one after the other."""
    out = []
    for _ in range(1 if r.random() < 0.6 else r.randint(2, 5)):
        out.append(some_change(r, drawing))
        drawing = out[-1].of(drawing)
    return out


# ---------------------------------------------------------------------- pairs

def pair_of(label, table, drawing, changes):
    kinds = {change.kind for change in changes}
    kind = changes[0].kind if len(changes) == 1 else "several"
    return Pair("%s, %s" % (kind, label), table, write(drawing), write(steps_of(drawing, changes)[-1]), kinds == {"parts"})


def each_change(v):
    """Each kind of change of the values, then some one after the other."""
    n = len(v["dowels"])
    (left, right), (down, up) = room(v, 0), room(v, 1)
    listed = [Listed(order) for order in orders(n)] if n > 1 else []
    moved = [by for by in (Moved(left, down), Moved(right, up), Moved(left, 0), Moved(0, up), Moved(min(1, right), max(-1, down)))
             if by != (0, 0)]
    mirrored = [Mirrored(0), Mirrored(1)]
    parts = [Parts(order) for order in ((4, 3, 2, 1), (2, 1, 4, 3), (3, 1, 2, 4))]
    for change in listed + moved + mirrored + parts:
        yield [change]
    yield mirrored
    yield moved[:1] + mirrored[1:]
    yield listed[:1] + mirrored[:1]
    yield parts[:1] + moved[1:2] + mirrored[:1] + listed[1:2]      # no mirror leaves the limits


def named_joints():
    """(name, record)"""
    for name, data, _ in records.samples():
        yield name, data
    for joints, step in ((records.row_joints, 4), (records.cost_joints, 2), (records.edge_joints, 23),
                         (records.edge_place_records, 41), (records.edge_order_records, 17)):
        yield from list(joints())[::step]
    yield from list(records.order_records())[-90::5]            # which pair or dowel is named


@lru_cache(maxsize=None)
def passing():
    """The systematic records that pass 1 to 9, as (label, record)."""
    return [(label, data) for label, data in records.systematic() if passes(data)]


def systematic():
    for name, data in named_joints():
        if passes(data):
            drawing = drawing_of(data)
            for changes in each_change(drawing.values):
                yield pair_of(name, None, drawing, changes)


def draw_in(r, v, m, side):
    """An end or an edge, by the place of its limit, moved to where a dowel is just too near, at the limit, or beyond it."""
    outline, grain = v["members"][m]["outline"], v["members"][m]["grain"]
    axis, high = side % 2, side // 2
    least = records.rules(v, m)[(2 if axis == grain else 4) + high] + r.choice((-1, -1, 0, -r.randint(0, 2000)))
    outline[side] = r.choice(v["dowels"])[axis] + (least if high else -least)


def draw_near(r, v):
    """A dowel moved to where another is too close in a member along its grain, or just not."""
    i, k = r.randrange(len(v["dowels"])), r.randrange(len(v["dowels"]))
    m, reach = r.randint(0, 1), 30 * v["d"]
    least = records.rules(v, m)[0]
    along, across = r.choice((1, -1)) * r.choice((least, least - 1, reach, r.randint(0, least))), r.randint(1 - reach, reach)
    x, y = v["dowels"][i]
    v["dowels"][k] = (x + across, y + along) if v["members"][m]["grain"] else (x + along, y + across)


def draw_wrong(r, v):
    """Some dowels too close, or too near to ends and edges; one may hide another."""
    way, m = r.random(), r.randint(0, 1)
    if way < 0.3:
        # an end and an edge of one member
        for side in (r.choice((0, 2)), r.choice((1, 3))):
            draw_in(r, v, m, side)
        return
    for _ in range(r.choice((1, 1, 2, 3))):
        if r.random() < 0.6:
            draw_in(r, v, r.randint(0, 1), r.randint(0, 3))
        else:
            draw_near(r, v)


def some_drawing(r, seed):
    """A drawing that passes 1 to 9, a quarter of them drawn wrong."""
    while True:
        label, data = r.choice(passing()) if r.random() < 0.25 else records.generate(seed, r.getrandbits(40))
        if not passes(data):
            continue
        drawing = drawing_of(data)
        if r.random() < 0.25:
            label = "drawn wrong, " + label
            draw_wrong(r, drawing.values)
        if passes(write(drawing)):
            return label, drawing


def with_table(r, seed, label, data):
    """(label, table, record), with a table of one firm's own or of two, or with none."""
    way = r.random()
    if way < 0.5:
        return label, None, data
    label, table, data = tables.generate(seed, r.getrandbits(40), label, data)
    if way >= 0.75:
        label, table = firms.shared(seed, r.getrandbits(40), label, table)
    return label, table, data


def generate(seed, number, tabled=True):
    """Pair number made by chance."""
    r = Random(seed * 67867967 + number)
    while True:
        label, drawing = some_drawing(r, seed)
        label, table, data = with_table(r, seed, label, write(drawing)) if tabled else (label, None, write(drawing))
        if passes(data, loaded_of(table)):
            drawing = drawing_of(data)
            return pair_of(label, table, drawing, some_changes(r, drawing))


def stream(seed, count, tabled=True):
    """tabled: whether there are pairs with tables."""
    made = 0
    for pair in systematic():
        if made == count:
            return
        yield pair
        made += 1
    for number in range(count - made):
        yield generate(seed, number, tabled)
