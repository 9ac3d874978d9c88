"""A stand-in program: one record on standard input, one line on standard output.
write, read_values, load, bracket and root stand in for the library's C entries; with a
table in `handed` judge, write and read_values stand in for those that take one, and with
a firm's number in `firm` too they and load for those that take a shared one.

Whole numbers only.  It shares nothing with engineer.py and finds its figures by
whole roots, where the engineer tests powers.  The small methods are there so that
wrong programs can be made by replacing one of them.
"""
from math import gcd, isqrt
import sys


class Refused(Exception):
    def __init__(self, number, member=0, first=0, second=0):
        self.place = (number, member, first, second)


def floor_root5(n):
    """Whole part of the fifth root, by halving."""
    high = 1 << (n.bit_length() // 5 + 1)
    low = 0
    while high - low > 1:
        mid = (low + high) >> 1
        if mid ** 5 <= n:
            low = mid
        else:
            high = mid
    return low


def ceil_div(a, b):
    return -(-a // b)


class Model:
    byteorder = "little"
    most = 4096
    scale = 1               # capacity and share are found in parts of 1/scale
    limits = {
        "p": (1, 2), "class": (1, 11), "grain": (0, 1), "thickness": (200, 4000),
        "coordinate": (-100000, 100000), "diameter": (6, 30), "steel": (1, 3),
        "count": (1, 64), "position": (-100000, 100000), "service": (1, 3),
        "duration": (1, 5), "force": (-1000000, 1000000),
    }
    density = {1: 350, 2: 380, 3: 385, 4: 365, 5: 425, 6: 390, 7: 440, 8: 400, 9: 530, 10: 550, 11: 900}
    hardwood = {9, 10, 11}
    fu = {1: 360, 2: 430, 3: 510}
    kmod_dry = (60, 70, 80, 90, 110)
    kmod_wet = (50, 55, 65, 70, 90)
    versions = (1, 2)       # that are read
    value_tests = ("test_fields", "test_outlines", "test_force")
    layout_tests = ("test_version", "test_count", "test_pairs")
    part_tests = ("test_kinds", "test_lengths")
    members = (0, 1)
    spacing_tests = ("test_pairs_of_dowels", "test_ends", "test_edges")

    # ---- the line

    def judge(self, data):
        try:
            return self.answer(data)
        except Refused as r:
            return self.print_refusal(*r.place)

    def print_refusal(self, number, member, first, second):
        return "refused %d %d %d %d\n" % (number, member, first, second)

    def answer(self, data):
        self.test_table()
        if len(data) > self.most:
            raise Refused(4)
        self.read(data)
        for m in self.members:
            for test in self.spacing_tests:
                getattr(self, test)(m)
        return self.print_answer(*self.figures())

    def print_answer(self, use, cap, share):
        return "%s %d %d %d\n" % ("fits" if self.fits(use) else "overloaded", use, cap, share)

    def fits(self, use):
        return use <= 10000

    # ---- a firm's table (02, A4)

    handed = None           # its bytes; none in a call that takes no table
    table = None            # what was loaded: code, then kind and density
    table_tests = ("test_firm", "test_layout", "test_entries")
    table_order = "little"
    before_first = 0        # the first code is above it
    densities = (290, 1100)

    def load(self, table):
        """0, 14, 15 or 16"""
        self.handed = table
        try:
            self.test_table()
        except Refused as r:
            return r.place[0]
        return 0

    def test_table(self):
        if self.no_table():
            return
        for test in self.table_tests:
            getattr(self, test)()
        self.table = self.kept()

    def no_table(self):
        return self.handed is None

    def table_u16(self, at):
        return int.from_bytes(self.handed[at:at + 2], self.table_order)

    def test_layout(self):
        if self.firm is not None:
            self.test_shared()
            return
        size = len(self.handed)
        if self.small(size):
            raise Refused(14)
        count, offset, length = self.table_u16(0), self.table_u16(2), self.table_u16(4)
        if self.wrong_count(count) or self.wrong_offset(offset) or self.wrong_end(offset, length, size) \
                or self.no_entry(length) or self.cut_entry(length):
            raise Refused(14)

    def small(self, size):
        return size < 6

    def wrong_count(self, count):
        return count != 1

    def wrong_offset(self, offset):
        return offset != 6

    def wrong_end(self, offset, length, size):
        return offset + length != size

    def no_entry(self, length):
        return length == 0

    def cut_entry(self, length):
        return length % 4 != 0

    def stretch(self):
        """the bytes that the pair names, the firm's where there are two, as far as there are any"""
        if self.firm is not None:
            return self.stretch_of(self.firm)
        offset = self.table_u16(2)
        return self.handed[offset:offset + self.table_u16(4)]

    def entries(self):
        """(code, kind, density) of each; bytes left over are no entry"""
        found = self.stretch()
        return [self.entry(found[at:at + 4]) for at in range(0, len(found) - 3, 4)]

    def entry(self, four):
        return four[0], four[1], int.from_bytes(four[2:], self.table_order)

    def test_entries(self):
        before = self.before_first
        for code, kind, density in self.tested(self.entries()):
            if self.not_above(code, before) or self.wrong_kind(kind) or self.wrong_density(density):
                raise Refused(15)
            before = code

    def tested(self, entries):
        return entries

    def not_above(self, code, before):
        return code <= before

    def wrong_kind(self, kind):
        return kind > 1

    def wrong_density(self, density):
        low, high = self.densities
        return density < low or density > high

    def kept(self):
        return {code: (kind, density) for code, kind, density in self.entries()}

    def look_up(self, c):
        """kind and density in the firm's table, or None"""
        return self.table.get(c)

    def known_class(self, m):
        c = self.cls[m]
        if self.table is None:
            low, high = self.limits["class"]
            return low <= c <= high
        return self.look_up(c) is not None

    def is_hardwood(self, m):
        c = self.cls[m]
        return c in self.hardwood if self.table is None else self.look_up(c)[0] == 1

    def density_of(self, m):
        c = self.cls[m]
        return self.density[c] if self.table is None else self.look_up(c)[1]

    # ---- a table that two firms share (02, A6)

    firm = None             # the firm's number; none in a call that takes no firm

    def test_firm(self):
        if self.firm is not None and self.other_firm(self.firm):
            raise Refused(16)

    def other_firm(self, firm):
        return firm not in (1, 2)

    def test_shared(self):
        size = len(self.handed)
        if self.pairs_cut(size) or self.not_two(self.table_u16(0)):
            raise Refused(14)
        end = self.first_at()
        for firm in (1, 2):
            offset, length = self.named_by(firm)
            if self.apart(firm, offset, end) or self.unfit(firm, length):
                raise Refused(14)
            end = self.add_up(firm, offset, length)
        if self.end_missed(end, size):
            raise Refused(14)

    def pairs_cut(self, size):
        return size < 10

    def not_two(self, count):
        return count != 2

    def first_at(self):
        return 10

    def named_by(self, firm):
        """offset and length of a firm's stretch"""
        return self.table_u16(4 * firm - 2), self.table_u16(4 * firm)

    def apart(self, firm, offset, end):
        """end: where the stretch before ends"""
        return offset != end

    def unfit(self, firm, length):
        return length == 0 or length % 4 != 0

    def add_up(self, firm, offset, length):
        return offset + length

    def end_missed(self, end, size):
        return end != size

    def stretch_of(self, firm):
        offset, length = self.named_by(firm)
        return self.handed[offset:offset + length]

    # ---- reading

    def u16(self, at):
        return int.from_bytes(self.data[at:at + 2], self.byteorder)

    def i32(self, at):
        return int.from_bytes(self.data[at:at + 4], self.byteorder, signed=True)

    def read(self, data):
        self.data = data
        if len(data) < 20:
            raise Refused(1)
        for test in self.layout_tests:
            getattr(self, test)()
        self.pairs = [(self.u16(4 * k), self.u16(4 * k + 2)) for k in (1, 2, 3, 4)]
        self.sort_parts()
        for test in self.part_tests:
            getattr(self, test)()
        self.take_values()
        for test in self.value_tests:
            getattr(self, test)()

    def test_version(self):
        if self.u16(0) not in self.versions:
            raise Refused(2)

    def test_count(self):
        if self.u16(2) != 4:
            raise Refused(3)

    def add(self, a, b):
        return a + b

    def zero_length(self, n):
        return n == 0

    def end_wrong(self, at):
        return at != len(self.data)

    def gap(self, offset, at):
        return offset != at

    def test_pairs(self):
        at = 20
        for k in (1, 2, 3, 4):
            offset, length = self.u16(4 * k), self.u16(4 * k + 2)
            if self.gap(offset, at) or self.zero_length(length):
                raise Refused(4)
            at = self.add(offset, length)
        if self.end_wrong(at):
            raise Refused(4)

    def sort_parts(self):
        self.parts = {self.data[o]: (o, n) for o, n in self.pairs}

    def test_kinds(self):
        if set(self.parts) != {1, 2, 3, 4}:
            raise Refused(5)

    def test_lengths(self):
        for kind, want in ((1, 42), (2, 3), (4, 11)):
            if self.parts[kind][1] != want:
                raise Refused(6)
        o, n = self.parts[3]
        if n < 2 or n != 2 + 8 * self.data[o + 1]:
            raise Refused(6)

    def take_values(self):
        data = self.data
        self.version = self.u16(0)
        o = self.parts[1][0]
        self.p = data[o + 1]
        self.cls = [data[o + 2], data[o + 22]]
        self.grain = [data[o + 3], data[o + 23]]
        self.t = [self.u16(o + 4), self.u16(o + 24)]
        self.outline = [[self.i32(o + k + 4 * i) for i in range(4)] for k in (6, 26)]
        o = self.parts[2][0]
        self.d, self.steel = data[o + 1], data[o + 2]
        o = self.parts[3][0]
        self.n = data[o + 1]
        self.xy = [(self.i32(o + 2 + 8 * k), self.i32(o + 6 + 8 * k)) for k in range(self.n)]
        o = self.parts[4][0]
        self.service, self.duration = data[o + 1], data[o + 2]
        self.force = (self.i32(o + 3), self.i32(o + 7))

    def test_fields(self):
        limits = self.limits

        def test(name, *values):
            low, high = limits[name]
            for v in values:
                if v < low or v > high:
                    raise Refused(7)
        test("p", self.p)
        if not (self.known_class(0) and self.known_class(1)):
            raise Refused(7)
        test("grain", *self.grain)
        test("thickness", *self.t)
        test("coordinate", *self.outline[0], *self.outline[1])
        test("diameter", self.d)
        test("steel", self.steel)
        test("count", self.n)
        for xy in self.xy:
            test("position", *xy)
        test("service", self.service)
        test("duration", self.duration)
        test("force", *self.force)

    def empty(self, low, high):
        return low >= high

    def test_outlines(self):
        for x0, y0, x1, y1 in self.outline:
            if self.empty(x0, x1) or self.empty(y0, y1):
                raise Refused(8)

    def test_force(self):
        if self.force == (0, 0):
            raise Refused(9)

    # ---- writing (02, A2), with the reader's tests of values

    needs = {"fields": 27, "positions": 64, "answer": 2}
    known = (1, 2)          # versions that are written
    writer_tests = ("test_table", "test_known", "test_lists") + value_tests + ("test_room",)
    kind_order = (1, 2, 3, 4)

    def write(self, fields, x, y, marks, buffer, answer):
        """The code; answer (a list) and buffer (a bytearray) are changed in place."""
        if self.short("fields", fields) or self.short("answer", answer):
            return 1
        self.take_handed(fields, x, y, marks)
        self.room = len(buffer)
        try:
            for test in self.writer_tests:
                getattr(self, test)()
        except Refused as r:
            self.refuse_write(r.place[0], buffer, answer)
            return 0
        record = self.record()
        self.fill(buffer, record)
        answer[0], answer[1] = 0, len(record)
        return 0

    def short(self, name, numbers):
        return len(numbers) < self.needs[name]

    def fill(self, buffer, record):
        buffer[:len(record)] = record

    def refuse_write(self, number, buffer, answer):
        answer[0], answer[1] = number, 0

    def take_handed(self, fields, x, y, marks):
        self.version, self.p = fields[0], fields[1]
        one, two = fields[2:11], fields[11:20]
        self.cls, self.grain, self.t = ([one[k], two[k]] for k in (0, 1, 4))
        self.outline = [list(one[5:9]), list(two[5:9])]
        self.d, self.steel, _, self.service, self.duration, fx, fy = fields[20:27]
        self.force = (fx, fy)
        self.lists = (x, y, marks)
        self.n, self.xy = len(x), list(zip(x, y))

    def test_known(self):
        if self.version not in self.known:
            raise Refused(2)

    def test_lists(self):
        x, y, _ = self.lists
        if len(x) != len(y):
            raise Refused(7)

    def test_room(self):
        if self.room < self.record_length():
            raise Refused(13)

    def record_length(self):
        return 78 + 8 * self.n

    def number(self, n, width):
        """n in width bytes, two's complement"""
        return (n % 256 ** width).to_bytes(width, self.byteorder)

    def part(self, kind):
        u8, i32 = (lambda n: self.number(n, 1)), (lambda n: self.number(n, 4))
        if kind == 1:
            out = u8(self.p)
            for m in self.members:
                out += u8(self.cls[m]) + u8(self.grain[m]) + self.number(self.t[m], 2)
                out += b"".join(i32(z) for z in self.outline[m])
        elif kind == 2:
            out = u8(self.d) + u8(self.steel)
        elif kind == 3:
            out = u8(self.n) + b"".join(i32(z) for xy in self.xy for z in xy)
        else:
            out = u8(self.service) + u8(self.duration) + b"".join(i32(z) for z in self.force)
        return u8(kind) + out

    def pair_of(self, offset, length):
        return self.number(offset, 2) + self.number(length, 2)

    def record(self):
        parts = [self.part(kind) for kind in self.kind_order]
        head = self.number(self.version, 2) + self.number(len(parts), 2)
        at = 20
        for part in parts:
            head += self.pair_of(at, len(part))
            at += len(part)
        return head + b"".join(parts)

    # ---- reading values

    def read_values(self, data, fields, x, y, marks, answer):
        """The code; the lists are changed in place."""
        if self.short("fields", fields) or self.short("answer", answer) \
                or any(self.short("positions", z) for z in (x, y, marks)):
            return 1
        try:
            self.test_table()
            self.read(data)
        except Refused as r:
            self.refuse_read(r.place[0], fields, x, y, marks, answer)
            return 0
        fields[:27] = self.handed_back()
        for k in range(64):
            x[k], y[k] = self.xy[k] if k < self.n else self.past(k)
            marks[k] = self.mark(k)
        answer[0], answer[1] = 0, self.n
        return 0

    def handed_back(self):
        out = [self.version, self.p]
        for m in self.members:
            out += [self.cls[m], self.grain[m], *self.no_field(), self.t[m], *self.outline[m]]
        return out + [self.d, self.steel, self.no_field()[0], self.service, self.duration, *self.force]

    def no_field(self):
        return 0, 0

    def past(self, k):
        """x and y past the last dowel"""
        return 0, 0

    def mark(self, k):
        return 0

    def refuse_read(self, number, fields, x, y, marks, answer):
        fields[:27] = [0] * 27
        for z in (x, y, marks):
            z[:64] = [0] * 64
        answer[0], answer[1] = number, 0

    # ---- whole roots (02, A5)

    def bracket(self, n, answer):
        """The code; answer is changed in place."""
        if self.short("answer", answer):
            return 1
        answer[0], answer[1] = self.starting(n)
        return 0

    def root(self, n, answer):
        """The code; answer is changed in place."""
        if self.short("answer", answer):
            return 1
        answer[0], answer[1] = self.counted(n)
        return 0

    def starting(self, n):
        """low and high"""
        if n == 0:
            return self.nothing()
        low = 1 << self.low_bits(n)
        return low, self.high(low)

    def nothing(self):
        return 0, 1

    def low_bits(self, n):
        """a square has one bit less than twice as many as its root, or just as many"""
        return (n.bit_length() - 1) // 2

    def high(self, low):
        return low << 1

    def counted(self, n):
        """the root, bit by bit below low, and how many bits were tried"""
        low, high = self.begun(n)
        root, step, count = low, (high - low) // 2, self.none_yet()
        while step > 0 and not self.ended(root, n):
            kept = self.passes(root + step, n)
            root += step * kept
            count = self.one_more(count, kept)
            step //= 2
        return self.told(n, root, count)

    def begun(self, n):
        """the bracket that is halved"""
        return self.starting(n)

    def none_yet(self):
        return 0

    def ended(self, root, n):
        return False

    def passes(self, root, n):
        return root * root <= n

    def one_more(self, count, kept):
        return count + 1

    def told(self, n, root, count):
        return root, count

    # ---- axes and angles

    def axes(self, m, xy):
        """(along, across) of a pair of numbers in member m."""
        return xy if self.grain[m] == 0 else (xy[1], xy[0])

    def sign(self, m):
        return 1 if m == 1 else -1

    def squares(self, m):
        """along squared, across squared, their sum, of the force."""
        a, c = self.axes(m, self.force)
        return a * a, c * c, a * a + c * c

    def spacing_squares(self, m):
        return self.squares(m)

    def bearing_squares(self, m):
        return self.squares(m)

    # ---- spacing: every test says whether the length passes

    def pair_along(self, a, m):
        d = self.d
        a2, _, f2 = self.spacing_squares(m)
        over = a - 30 * d
        return over >= 0 and over * over * f2 >= 400 * d * d * a2

    def pair_across(self, c, m):
        return c >= 30 * self.d

    def pair(self, a, c, m):
        return self.pair_across(c, m) or self.pair_along(a, m)

    def loaded_7d(self, a):
        return a >= 70 * self.d

    def loaded_80(self, a):
        return a >= 800

    def other_sine(self, a, m):
        _, c2, f2 = self.spacing_squares(m)
        return a >= 0 and a * a * f2 >= 4900 * self.d * self.d * c2

    def other_3d(self, a):
        return a >= 30 * self.d

    def loaded_end(self, a, m):
        return self.loaded_7d(a) and self.loaded_80(a)

    def other_end(self, a, m):
        return self.other_3d(a) and self.other_sine(a, m)

    def end_is_loaded(self, component):
        """component: of the force in the member, towards this end."""
        return component > 0

    def has_loaded_edges(self):
        """02, A7"""
        return self.version >= 2

    def edge_sign(self, m):
        return self.sign(m)

    def edge_axes(self, m, xy):
        return self.axes(m, xy)

    def edge_squares(self, m):
        return self.squares(m)

    def edge_is_loaded(self, component, m):
        """component: of the force in the member, towards this edge."""
        return component > 0

    def edge_3d(self, c):
        return c >= 30 * self.d

    def edge_sine(self, c, m):
        """(2 + 2 sin) d"""
        _, c2, f2 = self.edge_squares(m)
        over = c - 20 * self.d
        return over >= 0 and over * over * f2 >= 400 * self.d * self.d * c2

    def loaded_edge(self, c, m):
        return self.edge_3d(c) and self.edge_sine(c, m)

    def other_edge(self, c, m):
        return self.edge_3d(c)

    def edge(self, c, m, component):
        loaded = self.has_loaded_edges() and self.edge_is_loaded(component, m)
        return self.loaded_edge(c, m) if loaded else self.other_edge(c, m)

    def test_pairs_of_dowels(self, m):
        along_across = [self.axes(m, xy) for xy in self.xy]
        pair = self.pair
        for i, (a, c) in enumerate(along_across):
            for j in range(i + 1, self.n):
                b, e = along_across[j]
                if not pair(abs(a - b), abs(c - e), m):
                    raise self.close(m, i, j)

    def close(self, m, i, j):
        return Refused(10, m + 1, i + 1, j + 1)

    def in_order(self):
        return range(self.n)

    def test_ends(self, m):
        x0, y0, x1, y1 = self.outline[m]
        low, high = self.axes(m, (x0, y0))[0], self.axes(m, (x1, y1))[0]
        force = self.sign(m) * self.axes(m, self.force)[0]
        at_low = self.loaded_end if self.end_is_loaded(-force) else self.other_end
        at_high = self.loaded_end if self.end_is_loaded(force) else self.other_end
        for i in self.in_order():
            a = self.axes(m, self.xy[i])[0]
            if not (at_low(a - low, m) and at_high(high - a, m)):
                raise Refused(11, m + 1, i + 1, 0)

    def test_edges(self, m):
        x0, y0, x1, y1 = self.outline[m]
        low, high = self.axes(m, (x0, y0))[1], self.axes(m, (x1, y1))[1]
        force = self.edge_sign(m) * self.edge_axes(m, self.force)[1]
        for i in self.in_order():
            c = self.axes(m, self.xy[i])[1]
            if not (self.edge(c - low, m, -force) and self.edge(high - c, m, force)):
                raise Refused(12, m + 1, i + 1, 0)

    # ---- capacity

    def k90(self, m):
        """of member m, in thousandths"""
        return (900 if self.is_hardwood(m) else 1350) + 15 * self.d

    def bearing(self, m):
        """f as (numerator, denominator)"""
        a2, c2, f2 = self.bearing_squares(m)
        num = 82 * (100 - self.d) * self.density_of(m) * f2
        den = 100 * (self.k90(m) * c2 + 1000 * a2)
        g = gcd(num, den)
        return num // g, den // g

    def moment_factor(self):
        """0.3 fu in tenths"""
        return 3 * self.fu[self.steel]

    def first_term(self, f1, f2):
        (a, b), (c, e) = f1, f2
        w = self.d * a * c
        num = (23 * self.scale) ** 10 * w ** 5 * self.moment_factor() ** 5 * self.d_to_13()
        return self.root10(num, (a * e + c * b) ** 5 * 10 ** 15)

    def d_to_13(self):
        return self.d ** 13

    def root10(self, num, den):
        return floor_root5(isqrt(num // den))

    def second_term(self, f1, f2):
        return self.bent(f1, self.t[0], *self.s_squared(f1, f2))

    def third_term(self, f1, f2):
        if self.p == 2:
            return self.middle(f2)
        return self.bent(f2, self.t[1], *self.c_squared(f1, f2))

    def middle(self, f2):
        return self.scale * f2[0] * self.d * self.t[1] // (20 * f2[1])

    def s_squared(self, f1, f2):
        (a, b), (c, e) = f1, f2
        return c * b, a * e + c * b

    def c_squared(self, f1, f2):
        (a, b), (c, e) = f1, f2
        return a * e, a * e + c * b

    def bent(self, f, t, num, den):
        """whole part of K s/(1+s), K = f d t, s squared = num/den:
        K (sqrt(num den) - num)/(den - num)"""
        k, below = self.scale * f[0] * self.d * t, 10 * f[1]
        return (isqrt(k * k * num * den) - k * num) // (below * (den - num))

    def terms(self):
        f1, f2 = self.bearing(0), self.bearing(1)
        return self.first_term(f1, f2), self.second_term(f1, f2), self.third_term(f1, f2)

    def capacity(self):
        return min(self.terms())

    # ---- rows

    def rows(self, m):
        """(n, a1) of the rows of member m with more than one dowel"""
        return [(self.number_in(row), self.a1(self.gaps(m, row))) for row in self.row_sets(m) if len(row) > 1]

    def row_sets(self, m):
        """the rows of member m (02, A3) as dowel numbers in across order: from each dowel as far up as the reach goes,
        where that is further up than from the dowel before"""
        order = self.across_order(m)
        out, end, upto = [], 0, 0
        for first, low in enumerate(order):
            while upto < self.n and self.near(self.across(m, order[upto]) - self.across(m, low)):
                upto += 1
            if upto > end:
                out.append(order[first:upto])
                end = upto
        return out

    def across_order(self, m):
        return sorted(range(self.n), key=lambda k: (self.across(m, k), k))

    def near(self, distance):
        """dowels this far apart across, 0 or more, may stand in one row"""
        return distance < 10 * self.d

    def along(self, m, k):
        return self.row_axes(m, self.xy[k])[0]

    def across(self, m, k):
        return self.row_axes(m, self.xy[k])[1]

    def row_axes(self, m, xy):
        return self.axes(m, xy)

    def number_in(self, row):
        return len(row)

    def gaps(self, m, row):
        """from each dowel to the next along"""
        places = sorted(self.along(m, k) for k in row)
        return [b - a for a, b in zip(places, places[1:])]

    def a1(self, gaps):
        return min(gaps)

    def row_share(self, n, a1):
        """10,000 effective numbers over n, whole part"""
        ten = (10000 * self.scale) ** 20 * a1 ** 5 // ((130 * self.d) ** 5 * n * n)
        return self.at_most_n(self.root20(ten))

    def root20(self, n):
        return floor_root5(isqrt(isqrt(n)))

    def at_most_n(self, share):
        return min(share, 10000 * self.scale)

    def member_share(self, m):
        rows = set(self.rows(m))
        return min((self.row_share(n, a1) for n, a1 in rows), default=10000 * self.scale)

    def shares(self):
        return self.member_share(0), self.member_share(1)

    def share(self, shares):
        return min(shares)

    # ---- use

    def kmod(self):
        return (self.kmod_wet if self.service == 3 else self.kmod_dry)[self.duration - 1]

    def twice_t(self):
        return 2 * self.n * self.p if self.n > 1 else self.p

    def gamma(self):
        return 130

    def force_size(self):
        """not below the size of the force, in 2**-40 newtons"""
        fx, fy = self.force
        square = (fx * fx + fy * fy) << 80
        root = isqrt(square)
        return root if root * root == square else root + 1

    def row_force(self, m):
        return abs(self.axes(m, self.force)[0])

    def row_check(self, m):
        return True

    def total_check(self):
        return True

    def use(self, cap, shares):
        """10,000 times the use, with both figures rounded down and so never too low"""
        below = self.twice_t() * self.kmod() * cap
        use = 1
        if self.total_check():
            use = max(use, self.up(20000 * self.gamma() * self.force_size(), below << 40))
        for m in (0, 1):
            if self.row_check(m):
                use = max(use, self.up(20000 * 10000 * self.gamma() * self.row_force(m),
                                       shares[m] * below))
        return use

    def up(self, a, b):
        return ceil_div(a, b)

    def figures(self):
        cap = self.capacity()
        shares = self.shares()
        return self.use(cap, shares), cap, self.share(shares)


if __name__ == "__main__":
    sys.stdout.write(Model().judge(sys.stdin.buffer.read(Model.most + 1)))
