"""Tables for the engineer's test (02, A4): right and faulty, systematic and by chance, each with a record or values.

stream(seed, count) gives (label, table, record), value_stream(seed, count) gives (label, table, Handed): first the
systematic ones, half of them in version 2, then the records of records.py and the values of values.py, each with a table
made by chance; most get codes of their table for classes.  An item depends on the seed and its number alone.  A label
starts with the kind of item and a comma.
"""
from itertools import product
from math import gcd
from random import Random
import struct

import records
import values
from records import joint_b, roomy, wide_b, write

SOFT, HARD = 0, 1
LEAST, MOST = 290, 1100
CODES = range(1, 256)

# ------------------------------------------------------------------- writing


def assemble(entries, count=1, offset=6, length=None, between=b""):
    """The bytes of a table; entries: (code, kind, density).  Numbers that do not fit wrap."""
    body = b"".join(struct.pack("<BBH", code & 255, kind & 255, density & 0xFFFF) for code, kind, density in entries)
    if length is None:
        length = len(body)
    return struct.pack("<HHH", count & 0xFFFF, offset & 0xFFFF, length & 0xFFFF) + between + body


PRINTED_ENTRIES = ((1, SOFT, 350), (2, SOFT, 380), (3, SOFT, 385), (4, SOFT, 365), (5, SOFT, 425), (6, SOFT, 390),
                   (7, SOFT, 440), (8, SOFT, 400), (9, HARD, 530), (10, HARD, 550), (11, HARD, 900))
PRINTED = assemble(PRINTED_ENTRIES)
PRINTED_CODES = range(1, 12)


def class_places(data):
    """Where a record has the classes of its members; nowhere if no pair names a part of kind 1 that is long enough."""
    for at in (4, 8, 12, 16):
        if at + 4 > len(data):
            break
        offset = data[at] + 256 * data[at + 1]
        if offset + 22 < len(data) and data[offset] == 1:
            return offset + 2, offset + 22
    return ()


def reclassed(data, classes):
    """The record with other classes."""
    data = bytearray(data)
    for at, code in zip(class_places(data), classes):
        data[at] = code & 255
    return bytes(data)


# ------------------------------------------------------- tables, systematic: (name, table, codes for both members)

def spread(n, step=None):
    """n codes: from 1 in steps, or as far apart as can be, up to 255."""
    return [1 + k * step for k in range(n)] if step else [255 - (n - 1 - k) * (255 // n) for k in range(n)]


def entries_of(codes):
    """An entry for each code, no two alike beside each other."""
    return [(code, k % 2, LEAST + k * 797 % (MOST - LEAST + 1)) for k, code in enumerate(codes)]


FULL = entries_of(CODES)
TWO = [(3, SOFT, 350), (200, HARD, 900)]
THREE = [(5, SOFT, 350), (90, HARD, 900), (255, SOFT, 1100)]


def right_tables():
    yield "printed", PRINTED, (1, 9)
    for code, kind, density in product((1, 2, 9, 11, 12, 127, 128, 200, 254, 255), (SOFT, HARD),
                                       (290, 291, 350, 511, 512, 900, 1099, 1100)):
        yield "one entry", assemble([(code, kind, density)]), (code, code)
    for (a, b), (k, m), (d, e) in product(
            ((1, 2), (1, 255), (254, 255), (127, 128), (9, 200)), product((SOFT, HARD), repeat=2),
            ((290, 1100), (1100, 290), (350, 900))):
        yield "two entries", assemble([(a, k, d), (b, m, e)]), (a, b)
        yield "two entries", assemble([(a, k, d), (b, m, e)]), (b, a)
    for n in (3, 4, 11, 12, 16, 63, 64, 65, 126, 127, 128, 129, 254, 255):
        for codes in (spread(n, 1), spread(n), spread(n, 254 // (n - 1))):
            for classes in ((codes[0], codes[-1]), (codes[-1], codes[n // 2])):
                yield "%d entries" % n, assemble(entries_of(codes)), classes


def entry_faults():
    """15: one entry changed, in tables of several lengths and at several places of them; some changes are none."""
    for base in (THREE[:1], TWO, THREE, entries_of(spread(11, 20)), FULL):
        size = len(base)
        for k in sorted({0, 1, size // 2, size - 1} & set(range(size))):
            code, kind, density = base[k]
            before, behind = base[k - 1][0], base[(k + 1) % size][0]

            def changed(*entry):
                return assemble(base[:k] + [entry] + base[k + 1:])
            for new in (289, 290, 1100, 1101, 1102, 0, 1, 255, 256, LEAST + 1024, MOST + 256, 8705, 19460,
                        32768 + 350, 65535):
                yield "entry %d of %d, density %d" % (k + 1, size, new), changed(code, kind, new), (code, code)
            for new in (2, 3, 128, 254, 255):
                yield "entry %d of %d, kind %d" % (k + 1, size, new), changed(code, new, density), (code, code)
            beside = {z + by for z in (before, behind) for by in (-1, 0, 1)}
            for new in sorted((beside | {0, 1, 255}) & set(range(256))):
                yield "entry %d of %d, code %d" % (k + 1, size, new), changed(new, kind, density), (new, new)
                yield "entry %d of %d, code %d" % (k + 1, size, new), changed(new, kind, density), (before, behind)
    for base in (TWO, THREE, FULL):
        yield "entries falling", assemble(base[::-1]), (base[0][0], base[-1][0])
        yield "two entries exchanged", assemble(base[:-2] + base[:-3:-1]), (base[-1][0], base[-2][0])
        yield "an entry twice", assemble(base + base[-1:]), (base[-1][0], base[0][0])
        yield "all entries twice", assemble(base + base), (base[-1][0], base[0][0])
    for kinds in ((SOFT, HARD), (HARD, SOFT)):
        for woods in ((300, 1000), (1000, 300)):
            yield "equal codes", assemble([(7, k, d) for k, d in zip(kinds, woods)]), (7, 7)
            yield "falling codes", assemble([(c, k, d) for c, k, d in zip((8, 7), kinds, woods)]), (7, 8)
            yield "code 0 first", assemble([(c, k, d) for c, k, d in zip((0, 7), kinds, woods)]), (7, 0)
            yield "code 0 last", assemble([(c, k, d) for c, k, d in zip((7, 0), kinds, woods)]), (0, 7)
    for last in (0, 1, 254, 255):
        for more in (1, 2, 45):
            yield "%d entries" % (255 + more), assemble(FULL + [(last, SOFT, 400)] * more), (last or 1, 255)


def layout_faults():
    """14: the count, the pair, the end; some changes are none."""
    for base in (TWO[:1], THREE):
        right = assemble(base)
        size, classes = len(right) - 6, (base[-1][0], base[0][0])
        for n in range(len(right)):
            yield "cut to %d" % n, right[:n], classes
        for n in (1, 2, 3, 4, 5, 6, 8, 100):
            yield "%d bytes more" % n, right + bytes(n), classes
        yield "an entry more", right + assemble([(255, SOFT, 400)])[6:], classes
        yield "a table twice", right + right, classes
        for count in (0, 2, 3, 4, 255, 256, 257, 513, 65535):
            yield "count %d" % count, assemble(base, count=count), classes
        for offset in (0, 1, 2, 3, 4, 5, 7, 8, 9, 10, 255, 256, 262, 1536, 65530, 65535):
            yield "offset %d, entries at 6" % offset, assemble(base, offset=offset), classes
            yield "offset %d, the sum right" % offset, assemble(base, offset=offset, length=len(right) - offset), classes
            if 6 < offset < 2000:
                there = assemble(base, offset=offset, between=bytes(offset - 6))
                yield "offset %d, entries there" % offset, there, classes
            if offset < 6:
                yield "offset %d, overlapping" % offset, assemble(base, offset=offset)[:offset + size], classes
        for by in range(-8, 9):
            if size + by >= 0:
                body = (right[6:] + bytes(8))[:size + by]
                yield "length by %d" % by, assemble(base, length=size + by), classes
                yield "length by %d, so many bytes" % by, assemble((), length=size + by) + body, classes
        for length in (0, 1, 2, 3, 256 * size, size + 256, size + 6, 65532, 65535):
            yield "length %d" % length, assemble(base, length=length), classes
    for length in (0, 1, 2, 3, 5, 6, 7):
        yield "%d bytes of entries" % length, assemble((), length=length) + bytes(length), (1, 1)
    for n in range(21):
        yield "%d zeros" % n, bytes(n), (1, 1)
        yield "%d of 255" % n, b"\xff" * n, (1, 1)
    right = assemble(TWO)
    for at in range(len(right)):
        z = right[at]
        for x in sorted({0, 1, 2, 255, z ^ 1, z ^ 128, z + 1 & 255, z - 1 & 255} - {z}):
            yield "damaged %d %d" % (at, x), right[:at] + bytes([x]) + right[at + 1:], (3, 200)


def long_tables():
    """65,538 bytes hold the most entries that a pair can name."""
    most = 16383
    yield "long, all codes again and again", assemble([FULL[k % 255] for k in range(most)]), (1, 255)
    yield "long, one code", assemble([(1, SOFT, 350)] * most), (1, 1)
    yield "long, the first entry wrong", assemble([(0, SOFT, 350)] * most), (1, 1)
    yield "long, zeros", assemble((), length=4 * most) + bytes(4 * most), (0, 0)
    for n in (65534, 65535):
        yield "long, length %d" % n, assemble((), length=n) + bytes(n), (1, 1)
    for n in (-4, -1, 1, 4):
        yield "long, length by %d" % n, assemble((), length=4 * most) + bytes(4 * most + n), (1, 1)
    # the length is right in 16 bits only
    for base in (TWO, THREE):
        yield "long, 65,536 bytes more", assemble(base) + bytes(65536), (base[0][0], base[-1][0])
    yield "long, 100,000 zeros", bytes(100000), (1, 1)


ENTRY_FAULTS = (("density 289", (90, HARD, 289)), ("density 1,101", (90, HARD, 1101)), ("kind 2", (90, 2, 900)),
                ("code 0", (0, HARD, 900)), ("equal codes", (5, HARD, 900)), ("falling codes", (4, HARD, 900)))
LAYOUT_FAULTS = (("count 0", {"count": 0}), ("count 2", {"count": 2}), ("offset 5", {"offset": 5}),
                 ("offset 7", {"offset": 7, "between": b"\0"}), ("offset 7, the sum right", {"offset": 7, "length": 11}),
                 ("length 0", {"length": 0}), ("length 11", {"length": 11}), ("length 8", {"length": 8}),
                 ("length 16", {"length": 16}), ("a byte between", {"between": b"\0"}))


def both_faults():
    """14 and 15 at once: 14."""
    for name, entry in ENTRY_FAULTS:
        # in the second place, and in the first where it is a fault there too
        for entries in ([THREE[0], entry, THREE[2]], [entry, (100, SOFT, 400), THREE[2]])[:1 if "codes" in name else 2]:
            classes = (entry[0], 255)
            for what, change in LAYOUT_FAULTS:
                yield "%s and %s" % (name, what), assemble(entries, **change), classes
            yield "%s and a byte more" % name, assemble(entries) + b"\0", classes
            yield "%s and a byte less" % name, assemble(entries)[:-1], classes


# One of each kind that does not load, then some that do
BAD = (("no bytes", b""), ("5 bytes", PRINTED[:5]), ("count 2", assemble(PRINTED_ENTRIES, count=2)),
       ("a byte more", PRINTED + b"\0"), ("offset 7", assemble(PRINTED_ENTRIES, offset=7, between=b"\0")),
       ("length 0", assemble(())), ("equal codes", assemble(((1, SOFT, 350),) + PRINTED_ENTRIES)),
       ("density 1,101", assemble(PRINTED_ENTRIES + ((12, SOFT, 1101),))),
       ("count 0 and kind 2", assemble(PRINTED_ENTRIES + ((12, 2, 400),), count=0)))
GOOD = (("printed", PRINTED), ("200 alone", assemble([(200, HARD, 700)])), ("all codes", assemble(FULL)),
        ("1 to 8", assemble(PRINTED_ENTRIES[:8])), ("9 to 11", assemble(PRINTED_ENTRIES[8:])),
        ("1 alone", assemble([(1, SOFT, 350)])), ("255 alone", assemble([(255, SOFT, 350)])),
        ("even codes", assemble(entries_of(range(2, 256, 2)))),
        ("12 and 128", assemble([(12, SOFT, 400), (128, HARD, 600)])))


def codes_of(table):
    return list(table[6::4])


def systematic_tables():
    for group in (both_faults, layout_faults, entry_faults, long_tables, right_tables):
        for name, table, classes in group():
            yield name, table, classes


# ------------------------------------------------------------- with records, systematic

def graded(kind, density=900):
    """A table of class 1 alone."""
    return assemble([(1, kind, density)])


def across_b():
    """Joint B in wide outlines, the force across the grain: kind and density both tell."""
    return roomy(joint_b()["dowels"], force=(0, 20000))


def telling(n, classes):
    """A record with these classes; a third each shows the wood of both members, of the side and of the middle one."""
    v = across_b()
    if n % 3:
        v = wide_b(p=n % 2 + 1, d=8, steel=3, force=(300, -400))
        v["members"][n % 3 - 1]["t"] = 200
        v["members"][2 - n % 3]["t"] = 4000
    return reclassed(write(v), classes)


def refused_records():
    """One record or more of each number, then some that are judged: (name, record)."""
    b = write(joint_b())
    yield "no bytes", b""
    for name, data, want in records.samples():
        yield name, data
    yield "version 3", b"\3" + b[1:]
    yield "version 258", b"\2\1" + b[2:]
    yield "pair count 5", b[:2] + b"\5" + b[3:]
    yield "kind 5", b[:62] + b"\5" + b[63:]
    yield "class 0", reclassed(b, (0, 1))
    yield "class 200", reclassed(b, (1, 200))
    yield "d 31", write(wide_b(d=31))
    yield "turned outline", write(records.joint_b_member(1, outline=[20000, -360, -840, 720]))
    blocks = records.parts(joint_b())
    yield "length 43", records.assemble([blocks[0] + b"\0"] + blocks[1:])
    yield "5,000 bytes", b + bytes(5000 - len(b))


def record_items():
    """(label, table, record)"""
    return records.halved(plain_record_items())


def plain_record_items():
    for kind in (SOFT, HARD):
        yield "sample, class 1 graded as %s 900" % ("softwood", "hardwood")[kind], graded(kind), write(across_b())
    for (name, table), (what, data) in product(BAD + GOOD, refused_records()):
        yield "order, %s with %s" % (name, what), table, data
    for name, table in GOOD:
        codes = codes_of(table)
        for c in (0, 1, 2, 8, 9, 11, 12, 13, 127, 128, 199, 200, 201, 254, 255):
            for n, classes in enumerate(((c, codes[0]), (codes[-1], c), (c, c))):
                yield "classes, %s with %d and %d" % (name, *classes), table, telling(n, classes)
    for n, (name, table, classes) in enumerate(systematic_tables()):
        yield "systematic, " + name, table, telling(n, classes)
    table = assemble(FULL)
    for c in CODES:
        yield "codes, %d of 255" % c, table, telling(c, (c, 256 - c))
    for kinds, woods, d, force, p, t in product(
            product((SOFT, HARD), repeat=2), ((290, 290), (290, 1100), (1100, 290), (1100, 1100), (291, 1099)),
            (6, 13, 30), ((20000, 0), (0, 20000), (300, -400)), (1, 2), ((4000, 4000), (200, 4000), (4000, 200))):
        v = wide_b(d=d, p=p, steel=3, force=force)
        for m in (0, 1):
            v["members"][m].update({"class": 30 + m, "t": t[m]})
        table = assemble([(30 + m, kinds[m], woods[m]) for m in (0, 1)])
        yield "woods, %d %d" % woods, table, write(v)


# -------------------------------------------------------------- with values, systematic

def value_items():
    """(label, table, item of values.py)"""
    return values.halved(plain_value_items())


def plain_value_items():
    def b(classes, **change):
        it = values.item(joint_b(), **change)
        it[0][values.CLASS_1], it[0][values.CLASS_2] = classes
        return it
    for name, table in BAD + GOOD:
        codes = codes_of(table) or [1]
        for what, change in values.FAULTS:
            it = b((codes[0], codes[-1]))
            change(it)
            yield "order, %s with %s" % (name, what), table, it
        for fields, answer, room in product((0, 2, 26, 27, 28), (0, 1, 2, 3), (0, 120)):
            it = b((codes[0], codes[-1]), answer=answer, room=room)
            it[0] = (it[0] + [5])[:fields]
            yield "slices, %s with %d fields, answer of %d" % (name, fields, answer), table, it
        near = {z + by for z in (0, 1, 9, 11, 12, 128, 200, 255) for by in (-1, 0, 1)}
        far = {z + by for c in (codes[0], codes[-1], 1) for z in (c, -c) for by in (0, -65536, -256, 256, 65536)}
        for c in sorted(near | far | {values.LEAST, values.MOST}):
            yield "classes, %s with %d" % (name, c), table, b((c, codes[-1]))
            yield "classes, %s with %d" % (name, c), table, b((codes[0], c))
    for name, table, classes in systematic_tables():
        yield "systematic, " + name, table, b(classes)
    table = assemble(FULL)
    for c in CODES:
        yield "codes, %d of 255" % c, table, b((c, 256 - c))


# ------------------------------------------------------------------- by chance

SIZES = (1, 1, 1, 2, 2, 2, 3, 4, 5, 7, 8, 11, 12, 20, 40)


def some_density(r):
    way = r.random()
    if way < 0.3:
        return r.choice((290, 1100, 290, 1100, 291, 1099))
    if way < 0.5:
        return r.choice((350, 365, 380, 385, 390, 400, 425, 440, 530, 550, 900)) + r.choice((-1, 0, 0, 1))
    return r.randint(LEAST, MOST)


def some_codes(r):
    """Rising codes; now and then many of them."""
    n = r.choice(SIZES) if r.random() < 0.96 else r.choice((100, 127, 128, 254, 255, r.randint(1, 255)))
    way = r.random()
    if way < 0.2:
        return list(range(1, n + 1))
    if way < 0.3:
        return list(range(256 - n, 256))
    if way < 0.4:
        first = r.randint(1, 256 - n)
        return list(range(first, first + n))
    return sorted(r.sample(CODES, n))


def some_entries(r, codes):
    kind = r.choice((None, None, SOFT, HARD))
    return [(code, r.randint(0, 1) if kind is None else kind, some_density(r)) for code in codes]


def renamed(r):
    """The printed woods under other codes: entries, and the code of each class."""
    codes = sorted(r.sample(CODES, len(PRINTED_ENTRIES)))
    order = r.sample(PRINTED_ENTRIES, len(PRINTED_ENTRIES))
    return [(code, kind, density) for code, (_, kind, density) in zip(codes, order)], \
        {c: code for code, (c, _, _) in zip(codes, order)}


def lacking(r, codes):
    """A code that the table does not have; often beside one that it has."""
    beside = [c + by for c in codes for by in (-1, 1)]
    wanted = r.choice((beside, beside, (0, 255), PRINTED_CODES, range(256)))
    left = sorted(set(wanted) & set(range(256)) - set(codes))
    return r.choice(left) if left else 0


def fault_entry(r, entries):
    """A fault of the entries; often so that a lax loader goes on."""
    entries = list(entries)
    k = r.choice((0, len(entries) - 1, r.randrange(len(entries))))
    code, kind, density = entries[k]
    way = r.randrange(8)
    if way < 2:
        new = r.choice((289, 1101, 289, 1101, 0, 1102, 65535, MOST + 256, density + 1024, density << 8))
        entries[k] = (code, kind, new)
    elif way == 2:
        entries[k] = (code, r.choice((2, 2, 3, 128, 255)), density)
    elif way == 3:
        entries[0] = (0, *entries[0][1:])
    elif way == 4:
        entries.insert(k + r.randint(0, 1), (code, r.randint(0, 1), some_density(r)))
    elif way == 5:
        other = r.randrange(len(entries))
        entries[k], entries[other] = entries[other], entries[k]
    elif way == 6:
        entries[k] = (entries[r.randrange(len(entries))][0] - r.randint(0, 1), kind, density)
    else:
        entries.append((r.randint(0, entries[-1][0]), r.randint(0, 1), some_density(r)))
    return entries


def fault_layout(r, entries):
    """A fault of the count, the pair or the end."""
    way = r.randrange(9)
    size = 4 * len(entries)
    if way == 0:
        return assemble(entries, count=r.choice((0, 2, 2, 3, 256, 257, 65535)))
    if way == 1:
        return assemble(entries, offset=r.choice((5, 7, 0, 4, 8, 262, 1536, 65535)))
    if way == 2:
        offset = r.choice((7, 7, 8, 10, 262))
        return assemble(entries, offset=offset, between=r.randbytes(offset - 6))
    if way == 3:
        return assemble(entries, length=r.choice((0, size + 4, size - 4, size + 1, size - 1, size + 256, 65535,
                                                  r.randrange(65536))))
    if way == 4:
        n = size + r.choice((1, 2, 3, -1, -2, -3))
        return assemble((), length=n) + (assemble(entries)[6:] + r.randbytes(3))[:n]
    if way == 5:
        return assemble(entries) + r.randbytes(r.choice((1, 1, 2, 3, 4, 4, 8, 40)))
    if way == 6:
        right = assemble(entries)
        return right[:len(right) - r.choice((1, 1, 2, 3, 4, 5))]
    if way == 7:
        return assemble(entries)[:r.randrange(7)]
    n = r.choice((4, 5, 7))
    return assemble(entries, offset=n, length=6 + size - n)


def some_fault(r, entries):
    way = r.random()
    if way < 0.4:
        return assemble(fault_entry(r, entries))
    if way < 0.75:
        return fault_layout(r, entries)
    if way < 0.9:
        return fault_layout(r, fault_entry(r, entries))
    data = bytearray(assemble(entries))
    for _ in range(r.choice((1, 1, 2))):
        data[r.randrange(len(data))] = r.choice((0, 1, 2, 255, r.randrange(256)))
    return bytes(data)


def some_bytes(r, entries):
    way = r.random()
    if way < 0.3:
        return r.randbytes(r.choice((0, 1, 5, 6, 7, 10, 14, r.randrange(300))))
    if way < 0.8:
        n = r.choice((1, 2, 3, 4, 4, 8, 40, 1020, r.randrange(1, 1100)))
        return assemble((), length=n) + r.randbytes(n)
    if way < 0.98:
        # codes rise, the rest as it comes
        return assemble([(code, r.choice((0, 1, 1, 2)), r.randint(250, 1150)) for code, _, _ in entries])
    return r.choice(LONG)


LONG = [table for _, table, _ in long_tables()]


def some_table(r, own):
    """A table by chance for something of the classes `own`: (label, table, new classes)."""
    way = r.random()
    if way < 0.05:
        return "printed", PRINTED, own
    if way < 0.17:
        entries, name = renamed(r)
        return "renamed", assemble(entries), [name.get(c, c) for c in own]
    codes = some_codes(r)
    if way < 0.27:
        codes = sorted({c for c in own if c in CODES}.union(codes))
        return "own classes", assemble(some_entries(r, codes)), own
    entries = some_entries(r, codes)
    # a class that is a fault without a table stays
    classes = [r.choice(codes) if c in PRINTED_CODES else c for c in own]
    if way < 0.72:
        return "firm's", assemble(entries), classes
    if way < 0.80:
        for m in r.choice(((0,), (1,), (0, 1))):
            if m < len(classes):
                classes[m] = lacking(r, codes)
        return "lacking", assemble(entries), classes
    if way < 0.97:
        return "faulty", some_fault(r, entries), classes
    return "bytes", some_bytes(r, entries), classes


def all_ties():
    """R is a whole number of newtons: (p, member that is thin, d, kind, whether the force is across, densities, least
    thickness).  With p = 1 the densities are as two squares, so that s and c are fractions."""
    out = []
    squares = [(a, b, h, k) for a, b, h, upto in ((3, 4, 5, 68), (4, 3, 5, 68), (20, 21, 29, 2), (21, 20, 29, 2))
               for k in range(1, upto + 1) if LEAST <= min(a * a * k, b * b * k)]
    for d, (kind, across) in product(range(6, 31), ((SOFT, 0), (SOFT, 1), (HARD, 1))):
        k90 = (1350, 900)[kind] + 15 * d if across else 1000

        def keep(p, thin, woods, num, den):
            least = 1000 * k90 * den // gcd(1000 * k90 * den, 82 * (100 - d) * d * woods[thin] * num)
            if least <= 500:
                out.append((p, thin, d, kind, across, woods, least))
        for a, b, h, k in squares:
            keep(1, 0, (a * a * k, b * b * k), b, h + b)
            keep(1, 1, (a * a * k, b * b * k), a, h + a)
        for density in range(LEAST, MOST + 1):
            keep(2, 1, (MOST, density), 1, 2)
    return out


TIES = all_ties()


def some_tie(r):
    """A table and a record of the kind above."""
    p, thin, d, kind, across, woods, least = r.choice(TIES)
    v = records.some_values(r)
    g, f = r.randint(0, 1), r.choice((-1, 1)) * r.randint(1, 50000)
    v.update(p=p, d=d, steel=3, force=(f, 0) if g == across else (0, f))
    codes = sorted(r.sample(CODES, 2))
    for m in (0, 1):
        v["members"][m].update({"class": codes[m], "grain": g, "t": 4000})
    v["members"][thin]["t"] = least * r.randint(-(-200 // least), max(-(-200 // least), 500 // least))
    sx, sy = records.steps(v)
    v["dowels"] = [(k % 2 * sx, k // 2 * sy) for k in range(r.choice((1, 2, 4, 6)))]
    records.outlines(v, records.none)
    return assemble([(code, kind, density) for code, density in zip(codes, woods)]), write(v)


def generate(seed, number, label, data):
    """The record with a table."""
    r = Random(seed * 15485863 + number)
    if r.random() < 0.03:
        return ("tie, whole R", *some_tie(r))
    own = [data[at] for at in class_places(data)]
    name, table, classes = some_table(r, own)
    return "%s, %s" % (name, label), table, reclassed(data, classes)


def generate_values(seed, number, label, handed):
    """The values with a table."""
    r = Random(seed * 32452843 + number)
    places = [at for at in (values.CLASS_1, values.CLASS_2) if at < len(handed.fields)]
    name, table, classes = some_table(r, [handed.fields[at] for at in places])
    fields = list(handed.fields)
    for at, c in zip(places, classes):
        fields[at] = c
    return "%s, %s" % (name, label), table, handed._replace(fields=fields)


def stream(seed, count):
    made = 0
    for item in record_items():
        if made == count:
            return
        yield item
        made += 1
    for number, (label, data) in enumerate(records.stream(seed, count - made)):
        yield generate(seed, number, label, data)


def value_stream(seed, count):
    made = 0
    for label, table, it in value_items():
        if made == count:
            return
        yield label, table, values.filled(seed, made, it)
        made += 1
    for number, (label, handed) in enumerate(values.stream(seed, count - made)):
        yield generate_values(seed, number, label, handed)
