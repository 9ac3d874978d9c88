"""Tables that two firms share for the engineer's test (02, A6): right and faulty, systematic and by chance, each with a firm's
number and a record or values.

stream(seed, count) gives (label, Shared, record), value_stream(seed, count) gives (label, Shared, Handed): first the systematic
ones, then those of tables.py, whose tables become what one firm has of a shared one, what is wrong with them too, while the
other's stretch is made by chance.  others(seed, number, table, loaded) gives the tables by which every answer must be the same.
An item depends on the seed and its number alone.  A label starts with the kind of item and a comma.
"""
from itertools import product
from random import Random
import struct

import records
import tables
import values
from judge import Shared
from records import joint_b
from tables import FULL, HARD, PRINTED_ENTRIES, SOFT, THREE, TWO, entries_of, telling

FRONT = 10                                                    # bytes before the first stretch

# ------------------------------------------------------------------- writing


def stretch(entries):
    return tables.assemble(entries)[6:]


def assemble(one, two, count=2, offsets=(None, None), lengths=(None, None), gaps=(b"", b"")):
    """The bytes of a shared table; one and two: the firms' stretches; gaps: what stands before each.  Offsets and lengths
    that are not given are right where there is no gap; numbers that do not fit wrap."""
    places, sizes = (FRONT, FRONT + len(one)), (len(one), len(two))
    numbers = [count]
    for k in (0, 1):
        numbers += [places[k] if offsets[k] is None else offsets[k], sizes[k] if lengths[k] is None else lengths[k]]
    return struct.pack("<5H", *(z & 0xFFFF for z in numbers)) + gaps[0] + one + gaps[1] + two


def alone(part):
    """A firm's own table of the same entries."""
    return tables.assemble((), length=len(part)) + part


def named(data, firm):
    """Where the pair says that a firm's stretch begins and ends."""
    offset, length = struct.unpack_from("<HH", data, 4 * firm - 2)
    return offset, offset + length


# ------------------------------------------------------------ systematic: (name, table)

def layout_faults():
    """14: the count, the pairs, the end; some changes are none."""
    for one, two in ((stretch(TWO[:1]), stretch(THREE[:1])), (stretch(THREE), stretch(TWO))):
        right = assemble(one, two)
        n, m, size = len(one), len(two), len(right)
        middle = FRONT + n
        for k in range(size):
            yield "cut to %d" % k, right[:k]
        for k in (1, 2, 3, 4, 5, 6, 8, 100):
            yield "%d bytes more" % k, right + bytes(k)
        yield "an entry more", right + stretch([(255, SOFT, 400)])
        yield "a table twice", right + right
        for count in (0, 1, 3, 4, 255, 256, 257, 258, 512, 514, 65535):
            yield "count %d" % count, assemble(one, two, count=count)
        yield from offset_faults(one, two, right)
        for by in range(-8, 9):
            if min(n, m) + by < 0:
                continue
            yield "length 1 by %d" % by, assemble(one, two, lengths=(n + by, None))
            yield "length 1 and offset 2 by %d" % by, assemble(one, two, lengths=(n + by, None), offsets=(None, middle + by))
            yield "length 1 by %d, length 2 back" % by, assemble(one, two, lengths=(n + by, m - by), offsets=(None, middle + by))
            yield "length 1 by %d, so many bytes" % by, assemble((one + bytes(8))[:n + by], two)
            yield "length 2 by %d" % by, assemble(one, two, lengths=(None, m + by))
            yield "length 2 by %d, so many bytes" % by, assemble(one, (two + bytes(8))[:m + by])
        for length in (0, 1, 2, 3, 256 * n, n + 256, n + FRONT, 65532, 65535):
            yield "length 1 of %d" % length, assemble(one, two, lengths=(length, None))
            yield "length 2 of %d" % length, assemble(one, two, lengths=(None, length))
        for at, z in ((at, z) for at in range(FRONT) for z in {0, 1, 2, 255, right[at] ^ 1, right[at] ^ 128} - {right[at]}):
            yield "damaged %d %d" % (at, z), right[:at] + bytes([z]) + right[at + 1:]
    for k, l in product(range(9), repeat=2):
        yield "%d and %d bytes of entries" % (k, l), assemble(stretch(TWO)[:k], stretch(THREE)[:l])
    for k in range(31):
        yield "%d zeros" % k, bytes(k)
        yield "%d of 255" % k, b"\xff" * k
    for entries in (TWO, THREE, FULL):
        yield "a firm's own table", tables.assemble(entries)
        yield "a firm's own table, count 2", tables.assemble(entries, count=2)
        yield "a shared table with the count of an own one", assemble(stretch(entries), stretch(TWO), count=1)


def offset_faults(one, two, right):
    n, m, size = len(one), len(two), len(right)
    middle = FRONT + n
    for offset in (*range(FRONT), *range(FRONT + 1, FRONT + 9), 255, 266, 2560, 65530, 65535):
        yield "offset 1 of %d" % offset, assemble(one, two, offsets=(offset, None))
        yield "offset 1 of %d, the sum right" % offset, assemble(
            one, two, offsets=(offset, None), lengths=(middle - offset, None))
        in_line = {"offsets": (offset, offset + n)}
        if offset < FRONT:
            yield "offset 1 of %d, the rest in line" % offset, assemble(one, two, **in_line)[:offset + n + m]
        elif offset < 300:
            yield "offset 1 of %d, a gap" % offset, assemble(one, two, gaps=(bytes(offset - FRONT), b""), **in_line)
    beside = set(range(middle - 8, middle + 9)) | {0, 6, FRONT, middle + 256, middle + 512, 256 * middle, 65535}
    for offset in sorted(beside - {middle}):
        there = {"offsets": (None, offset)}
        yield "offset 2 of %d" % offset, assemble(one, two, **there)
        yield "offset 2 of %d, the sum right" % offset, assemble(one, two, lengths=(None, size - offset), **there)
        if middle < offset < 300:
            yield "offset 2 of %d, a gap" % offset, assemble(one, two, gaps=(b"", bytes(offset - middle)), **there)
        elif offset < middle:
            yield "offset 2 of %d, overlapping" % offset, assemble(one, two, **there)[:offset + m]
    yield "stretches exchanged", assemble(two, one, offsets=(FRONT + m, FRONT), lengths=(n, m))
    yield "one stretch for both", assemble(one, b"", offsets=(None, FRONT), lengths=(None, n))
    yield "one stretch in the other", assemble(one, b"", offsets=(None, FRONT + n - 4), lengths=(None, 4))
    yield "pairs exchanged", right[:2] + right[6:10] + right[2:6] + right[10:]


def long_tables():
    """Sums past 65,535: right ones, and some that are right in 16 bits only."""
    few = stretch(TWO)
    for one, two in product((stretch([FULL[k % 255] for k in range(16381)]), bytes(65524)), (few, few[:4])):
        yield "long, the second past 65,535", assemble(one, two)
        yield "long, a byte more", assemble(one, two) + b"\0"
        yield "long, a byte less", assemble(one, two)[:-1]
    yield "long, 16,383 entries behind", assemble(few, stretch([FULL[k % 255] for k in range(16383)]))
    yield "long, zeros behind", assemble(few, bytes(65532))
    yield "long, zeros before", assemble(bytes(40000), few)
    for n in (65528, 65532):
        # 10 + n wraps to 2 or 6, and the second begins among the pairs
        for k in (1, 2, 3):
            yield "long, the first sum wraps", assemble(stretch(THREE)[:4 * k], b"", offsets=(None, FRONT + n), lengths=(
                n, 4 * k + 65536 - n))
        yield "long, the second offset wraps", assemble(bytes(n), few)
    for entries in (TWO[:1], THREE):
        one = stretch(entries)
        for m in (65524, 65528, 65532):
            size = FRONT + len(one) + m - 65536
            yield "long, the second sum wraps", assemble(one, few, lengths=(None, m))[:max(size, 0)]
            yield "long, the second length too great", assemble(one, few, lengths=(None, m))
    for one, two in ((few, stretch(THREE)), (stretch(THREE), few)):
        yield "long, 65,536 bytes more", assemble(one, two) + bytes(65536)
    yield "long, 140,000 zeros", bytes(140000)


SOUND = (("two", stretch(TWO)), ("three", stretch(THREE)), ("the printed ones", stretch(PRINTED_ENTRIES)),
         ("1 alone", stretch([(1, HARD, 700)])), ("255 alone", stretch([(255, SOFT, 290)])), ("all codes", stretch(FULL)),
         ("the printed codes, other woods", stretch([(c, 1 - kind, 1390 - d) for c, kind, d in PRINTED_ENTRIES])))
FAULTY = (("density 289", stretch([(3, SOFT, 289), (200, HARD, 900)])), ("kind 2", stretch([(3, 2, 350)])),
          ("kind 255", stretch([(3, 255, 350)])),
          ("the third code above the first alone", stretch([(1, SOFT, 350), (9, HARD, 530), (5, HARD, 900)])),
          ("density 1,101 last", stretch([(3, SOFT, 350), (200, HARD, 1101)])),
          ("code 0", stretch([(0, SOFT, 350), (9, HARD, 530)])), ("code 0 last", stretch([(200, SOFT, 350), (0, SOFT, 350)])),
          ("equal codes", stretch([(7, SOFT, 350), (7, HARD, 900)])),
          ("falling codes", stretch([(9, SOFT, 350), (1, HARD, 900)])), ("zeros", bytes(400)), ("255", b"\xff" * 8))


def systematic_tables():
    """(name, table, codes of each firm that tell, the same where the layout alone does)"""
    for (a, one), (b, two) in product(SOUND + FAULTY, repeat=2):
        yield "%s and %s" % (a, b), assemble(one, two), (codes_of(one), codes_of(two))
    for n, m in product((1, 2, 11, 64, 128, 254, 255), repeat=2):
        # the second's codes begin where the first's end, or before that
        for one, two in ((range(1, n + 1), range(256 - m, 256)), (range(256 - n, 256), range(1, m + 1))):
            yield "%d and %d entries" % (n, m), assemble(stretch(entries_of(one)), stretch(entries_of(two))), (
                (one[0], one[-1]), (two[0], two[-1]))
    for group in (layout_faults, long_tables):
        for name, table in group():
            yield name, table, ((3, 200), (3, 200))


def codes_of(part):
    return part[0], part[-4]


# ------------------------------------------------------------- with records and values, systematic

FIRMS = (1, 2)
OTHER_FIRMS = sorted({0, 3, 4, 2 ** 32 - 1, 2 ** 32 - 2} | {(2 ** k + by) % 2 ** 32 for k in range(2, 32) for by in (0, 1, 2)}
                     | {255, 511, 513, 514, 65535, 2 ** 31 - 1})
ONE, THE_OTHER, PRINTED_PART = stretch(TWO), stretch(THREE), stretch(PRINTED_ENTRIES)
FAULT, ANOTHER = stretch([(3, SOFT, 289), (200, HARD, 900)]), stretch([(3, 2, 350)])
A_GAP = {"offsets": (None, FRONT + len(ONE) + 1), "gaps": (b"", b"\0")}
# Where a call is turned away, by each number, and where it is not
TURNED_AWAY = (("no bytes", b""), ("9 bytes", assemble(ONE, THE_OTHER)[:9]), ("count 1", assemble(ONE, THE_OTHER, count=1)),
               ("a gap", assemble(ONE, THE_OTHER, **A_GAP)), ("a byte more", assemble(ONE, THE_OTHER) + b"\0"),
               ("length 2 of 0", assemble(ONE, b"")), ("length 1 of 6", assemble(ONE[:6], THE_OTHER)),
               ("a gap, both faulty", assemble(FAULT, ANOTHER, **A_GAP)), ("both faulty", assemble(FAULT, ANOTHER)),
               ("firm 1 faulty", assemble(FAULT, PRINTED_PART)), ("firm 2 faulty", assemble(PRINTED_PART, ANOTHER)),
               ("the printed ones for both", assemble(PRINTED_PART, PRINTED_PART)))


def firm_items():
    """(label, Shared, codes that tell) but for the records and the values"""
    for name, table, codes in systematic_tables():
        for firm in FIRMS:
            yield "systematic, %s for %d" % (name, firm), Shared(firm, table), codes[firm - 1]
            if codes[0] != codes[1]:
                yield "the other's codes, %s for %d" % (name, firm), Shared(firm, table), codes[2 - firm]
    for (name, table), firm in product(TURNED_AWAY, OTHER_FIRMS):
        yield "other firm, %s for %d" % (name, firm), Shared(firm, table), (3, 200)


def record_items():
    """(label, Shared, record)"""
    return records.halved(plain_record_items())


def plain_record_items():
    for (name, table), (what, data), firm in product(TURNED_AWAY, tables.refused_records(), (1, 2, 0, 257)):
        yield "order, %s for %d with %s" % (name, firm, what), Shared(firm, table), data
    for n, (label, table, codes) in enumerate(firm_items()):
        yield label, table, telling(n, codes)


def value_items():
    """(label, Shared, item of values.py)"""
    return values.halved(plain_value_items())


def plain_value_items():
    for (name, table), firm in product(TURNED_AWAY, (1, 2, 0, 257)):
        for what, change in values.FAULTS:
            it = values.item(joint_b())
            change(it)
            yield "order, %s for %d with %s" % (name, firm, what), Shared(firm, table), it
        for fields, answer in product((0, 26, 27, 28), (0, 1, 2, 3)):
            it = values.item(joint_b(), answer=answer)
            it[0] = (it[0] + [5])[:fields]
            yield "slices, %s for %d with %d fields, answer of %d" % (name, firm, fields, answer), Shared(firm, table), it
    for label, table, codes in firm_items():
        it = values.item(joint_b())
        it[0][values.CLASS_1], it[0][values.CLASS_2] = codes
        yield label, table, it


# ------------------------------------------------------------------- by chance

def some_stretch(r, own):
    """The other firm's stretch beside this firm's own; often faulty."""
    entries = tables.some_entries(r, tables.some_codes(r))
    codes = sorted(set(own[0:160:4]) - {0})
    way = r.random()
    if way < 0.3:
        return stretch(entries)
    if way < 0.5 and codes:
        # the same classes, other woods
        return stretch(tables.some_entries(r, codes))
    if way < 0.75:
        return stretch(tables.fault_entry(r, entries))
    if way < 0.85:
        return r.randbytes(4 * r.choice(tables.SIZES))
    if way < 0.9:
        return r.choice((b"\0", b"\xff")) * (4 * r.choice(tables.SIZES))
    return own[:1020] if own and len(own) % 4 == 0 else stretch(entries)


def laid_wrong(r, parts, other):
    """A shared table with a fault of its layout; other: the number of the other firm's part in parts."""
    one, two = parts
    by = r.choice((1, 2, 3, 4, 4, 8))
    way = r.randrange(10)
    if way == 0:
        return assemble(one, two) + r.randbytes(by)
    if way == 1:
        return assemble(one, two)[:-by]
    if way == 2:
        # only the other's length
        parts[other] = r.choice((b"", parts[other][:-r.randint(1, 3)], parts[other] + r.randbytes(r.randint(1, 3))))
        return assemble(*parts)
    if way == 3:
        return assemble(one, two, count=r.choice((0, 1, 3, 258, 513, r.randrange(65536))))
    if way == 4:
        return assemble(one, two, offsets=(None, FRONT + len(one) + by), gaps=(b"", r.randbytes(by)))
    if way == 5:
        return assemble(one, two, offsets=(None, FRONT + len(one) - by))[:r.choice((None, -by))]
    if way == 6:
        return assemble(one, two, offsets=(FRONT + by, FRONT + by + len(one)), gaps=(r.randbytes(by), b""))
    if way == 7:
        by = min(by, 4)
        return assemble(one, two, offsets=(FRONT - by, FRONT - by + len(one)))[:-by]
    if way == 8:
        return assemble(two, one, offsets=(FRONT + len(two), FRONT), lengths=(len(one), len(two)))
    data = bytearray(assemble(one, two))
    for _ in range(r.choice((1, 1, 2))):
        data[r.randrange(FRONT)] = r.choice((0, 1, 2, 255, r.randrange(256)))
    return bytes(data)


def as_part(r, table):
    """A firm's own table as what one firm has of a shared one, with what is wrong with its count, its pair and its end."""
    firm, own = r.choice(FIRMS), table[6:]
    other = some_stretch(r, own)
    parts = [own, other] if firm == 1 else [other, own]
    if len(table) < 6:
        return Shared(firm, assemble(*parts)[:len(table) + r.randint(0, 4)])
    if own and len(own) % 4 == 0 and r.random() < 0.12:
        return Shared(firm, laid_wrong(r, parts, 2 - firm))
    count, offset, length = struct.unpack_from("<HHH", table)
    offset += FRONT - 6
    if firm == 1:
        behind = r.choice((None, offset + length))
        return Shared(firm, assemble(*parts, count + 1, (offset, behind), (length, None)))
    return Shared(firm, assemble(*parts, count + 1, (None, offset + len(other)), (None, length)))


def shared(seed, number, label, table):
    """The label and the table of an item of tables.py, for a firm; for one in 20 a number that is no firm's."""
    r = Random(seed * 49979687 + number)
    made = as_part(r, table)
    if r.random() < 0.05:
        return "other firm, " + label, made._replace(firm=r.choice(OTHER_FIRMS + [r.randint(3, 2 ** 32 - 1)]))
    return label, made


def joined(seed, count, first, rest):
    made = 0
    for item in first:
        if made == count:
            return
        yield item
        made += 1
    for number, (label, table, what) in enumerate(rest(seed, count - made)):
        yield (*shared(seed, number, label, table), what)


def stream(seed, count):
    return joined(seed, count, record_items(), tables.stream)


def value_stream(seed, count):
    first = ((label, table, values.filled(seed, n, it)) for n, (label, table, it) in enumerate(value_items()))
    return joined(seed, count, first, tables.value_stream)


# ------------------------------------------------------- what must make no difference

def anew(r, old, own):
    """Other bytes, as many."""
    n = len(old)
    way = r.random()
    if way < 0.4:
        return r.randbytes(n)
    if way < 0.5:
        return r.choice((b"\0", b"\xff")) * n
    if way < 0.7:
        return (stretch(tables.some_entries(r, tables.some_codes(r))) * (n // 4 + 1))[:n]
    if way < 0.8 and own:
        return (own * (n // len(own) + 1))[:n]
    data = bytearray(old)
    if data:
        data[r.randrange(n)] ^= r.randint(1, 255)
    return bytes(data)


def others(seed, number, table, loaded):
    """(what, table): those by which every answer must be that by this one.  loaded: what engineer.load_for gives for it."""
    if not isinstance(table, Shared):
        return ()
    r = Random(seed * 86028121 + number)
    firm, data = table
    if loaded == 16:
        bare = r.choice((b"", data[:r.randrange(12)], anew(r, data, b"")))
        return (("another table", Shared(firm, bare)),)
    if loaded == 14:
        return (("other bytes behind the pairs", Shared(firm, data[:FRONT] + anew(r, data[FRONT:], b""))),)
    (start, end), (own_start, own_end) = named(data, 3 - firm), named(data, firm)
    own = data[own_start:own_end]
    return (("the other's stretch filled anew", Shared(firm, data[:start] + anew(r, data[start:end], own) + data[end:])),
            ("the same entries alone", alone(own)))
