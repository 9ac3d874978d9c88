"""The engineer: an exact reference for document 01 with requests A1 to A7 of 02, written from these documents alone.

Whole numbers and fractions only.  Reference(record) settles the refusal or the
exact quantities once; its check(line) says whether an output line is right.
after_write and after_read say what the C entries that write and read leave behind.
load(table) says what a firm's table holds, load_for(firm, shared) what a firm's stretch of
a shared one does.  All others take what these give, `loaded`: the table, or the refusal of
one that did not load; without it the printed table.
check_bracket and check_root say whether what the C entries for whole roots answer is right.
"""
from fractions import Fraction
from math import gcd, isqrt
import re

SOFTWOOD, HARDWOOD = "softwood", "hardwood"
PRINTED = {                                                   # class: kind, density in kg/m3
    1: (SOFTWOOD, 350), 2: (SOFTWOOD, 380), 3: (SOFTWOOD, 385), 4: (SOFTWOOD, 365),
    5: (SOFTWOOD, 425), 6: (SOFTWOOD, 390), 7: (SOFTWOOD, 440), 8: (SOFTWOOD, 400),
    9: (HARDWOOD, 530), 10: (HARDWOOD, 550), 11: (HARDWOOD, 900),
}
K90 = {SOFTWOOD: (1350, 15), HARDWOOD: (900, 15)}             # thousandths, and for each mm of d
FU = (None, 360, 430, 510)                                    # steels 1 to 3, N/mm2
KMOD_1_2 = (None, 60, 70, 80, 90, 110)                        # hundredths, durations 1 to 5
KMOD_3 = (None, 50, 55, 65, 70, 90)
VERSIONS = (1, 2)                                             # known; edges by EN 1995-1-1, Table 8.5 from 2 on
LOADED_EDGES = 2
PROGRAM_LIMIT = 4096
BITS = 32                                                     # finer part of the quick brackets


def _u16(b, at):
    return b[at] + 256 * b[at + 1]


def _i32(b, at):
    n = b[at] + 256 * b[at + 1] + 65536 * b[at + 2] + 16777216 * b[at + 3]
    return n - 4294967296 if n >= 2147483648 else n


# ----------------------------------------------------------------- the table

def _entries(stretch):
    """The classes of a stretch of entries, or 15."""
    loaded, before = {}, None
    for at in range(0, len(stretch), 4):
        code, kind, density = stretch[at], stretch[at + 1], _u16(stretch, at + 2)
        if code < 1 or kind not in (0, 1) or not 290 <= density <= 1100:
            return 15
        if before is not None and code <= before:
            return 15
        loaded[code] = (HARDWOOD if kind == 1 else SOFTWOOD, density)
        before = code
    return loaded


def load(table):
    """What a firm's table says (02, A4): class: kind and density, as PRINTED has them; or the refusal 14 or 15."""
    if len(table) < 6:
        return 14
    count, offset, length = _u16(table, 0), _u16(table, 2), _u16(table, 4)
    if count != 1:
        return 14
    if offset != 6 or offset + length != len(table):
        return 14
    if length == 0 or length % 4 != 0:
        return 14
    return _entries(table[offset:])


def load_for(firm, shared):
    """What a shared table says for a firm (02, A6): as load; or the refusal 14, 15 or 16."""
    if firm not in (1, 2):
        return 16
    if len(shared) < 10 or _u16(shared, 0) != 2:
        return 14
    end, stretches = 10, []
    for at in (2, 6):
        offset, length = _u16(shared, at), _u16(shared, at + 2)
        if offset != end or length == 0 or length % 4 != 0:
            return 14
        end = offset + length
        stretches.append(shared[offset:end])
    if end != len(shared):
        return 14
    return _entries(stretches[firm - 1])


def did_load(loaded):
    return isinstance(loaded, dict)


# ---------------------------------------------------------------- the record

class Joint:
    """The values of a record that passes 1 to 9."""
    __slots__ = ("version", "p", "cls", "grain", "t", "outline", "d", "steel", "dowels",
                 "service", "duration", "fx", "fy")


def read(data, loaded=PRINTED):
    """The refusal number 1 to 9, 14 or 15, or the Joint."""
    if not did_load(loaded):
        return loaded
    if len(data) < 20:
        return 1
    if _u16(data, 0) not in VERSIONS:
        return 2
    if _u16(data, 2) != 4:
        return 3
    pairs = [(_u16(data, 4 + 4 * k), _u16(data, 6 + 4 * k)) for k in range(4)]
    at = 20
    for offset, length in pairs:
        if offset != at or length == 0:
            return 4
        at = offset + length                    # a true sum
    if at != len(data):
        return 4
    parts = [data[o:o + n] for o, n in pairs]
    if sorted(part[0] for part in parts) != [1, 2, 3, 4]:
        return 5
    members, dowel, places, loads = sorted(parts, key=lambda part: part[0])
    if len(members) != 42 or len(dowel) != 3 or len(loads) != 11:
        return 6
    if len(places) < 2 or len(places) != 2 + 8 * places[1]:
        return 6

    j = Joint()
    j.version = _u16(data, 0)
    j.p = members[1]
    j.cls = (members[2], members[22])
    j.grain = (members[3], members[23])
    j.t = (_u16(members, 4), _u16(members, 24))
    j.outline = tuple(tuple(_i32(members, at + k) for k in (0, 4, 8, 12)) for at in (6, 26))
    j.d = dowel[1]
    j.steel = dowel[2]
    count = places[1]
    j.dowels = [(_i32(places, 2 + 8 * k), _i32(places, 6 + 8 * k)) for k in range(count)]
    j.service = loads[1]
    j.duration = loads[2]
    j.fx = _i32(loads, 3)
    j.fy = _i32(loads, 7)

    return value_fault(j, loaded) or j


def value_fault(j, loaded):
    """The refusal 7, 8 or 9, or 0."""
    within = (1 <= j.p <= 2 and 6 <= j.d <= 30 and 1 <= j.steel <= 3 and 1 <= len(j.dowels) <= 64
              and 1 <= j.service <= 3 and 1 <= j.duration <= 5
              and -1000000 <= j.fx <= 1000000 and -1000000 <= j.fy <= 1000000)
    for m in (0, 1):
        within = (within and j.cls[m] in loaded and 0 <= j.grain[m] <= 1
                  and 200 <= j.t[m] <= 4000
                  and all(-100000 <= x <= 100000 for x in j.outline[m]))
    if not within or not all(-100000 <= x <= 100000 and -100000 <= y <= 100000
                             for x, y in j.dowels):
        return 7
    for x0, y0, x1, y1 in j.outline:
        if x0 >= x1 or y0 >= y1:
            return 8
    return 9 if j.fx == 0 and j.fy == 0 else 0


# ------------------------------------------------------- values to bytes and back

# The numbers handed over, in order; 'None' has no field in versions 1 and 2.
HANDED = ("version", "p",
          *(name and "%s %d" % (name, m) for m in (1, 2)
            for name in ("class", "grain", None, None, "thickness", "x0", "y0", "x1", "y1")),
          "d", "steel", None, "service", "duration", "fx", "fy")
PLACES = len(HANDED)
DOWELS = 64                                                   # places of x, y and marks that are read back


def joint_of(fields, x, y):
    """The values handed over, as a Joint; x and y of one length."""
    v = dict(zip(HANDED, fields))
    j = Joint()
    j.version, j.p, j.d, j.steel = v["version"], v["p"], v["d"], v["steel"]
    j.cls, j.grain, j.t = ((v[name + " 1"], v[name + " 2"]) for name in ("class", "grain", "thickness"))
    j.outline = tuple(tuple(v["%s %d" % (limit, m)] for limit in ("x0", "y0", "x1", "y1")) for m in (1, 2))
    j.dowels = list(zip(x, y))
    j.service, j.duration, j.fx, j.fy = v["service"], v["duration"], v["fx"], v["fy"]
    return j


def _le(number, width):
    return bytes(number >> 8 * k & 255 for k in range(width))


def record_of(j):
    """The record's bytes, its parts in the order of their kinds."""
    members = _le(1, 1) + _le(j.p, 1)
    for m in (0, 1):
        members += _le(j.cls[m], 1) + _le(j.grain[m], 1) + _le(j.t[m], 2) + b"".join(_le(x, 4) for x in j.outline[m])
    dowel = _le(2, 1) + _le(j.d, 1) + _le(j.steel, 1)
    places = _le(3, 1) + _le(len(j.dowels), 1) + b"".join(_le(x, 4) + _le(y, 4) for x, y in j.dowels)
    loads = _le(4, 1) + _le(j.service, 1) + _le(j.duration, 1) + _le(j.fx, 4) + _le(j.fy, 4)
    at, head, body = 20, _le(j.version, 2) + _le(4, 2), b""
    for part in (members, dowel, places, loads):
        head += _le(at, 2) + _le(len(part), 2)
        at += len(part)
        body += part
    return head + body


def written(fields, x, y, room, loaded=PRINTED):
    """(refusal, record): one of the two is 0 or empty.  The marks have no field in versions 1 and 2."""
    if not did_load(loaded):
        return loaded, b""
    if fields[0] not in VERSIONS:
        return 2, b""
    if len(x) != len(y):
        return 7, b""
    j = joint_of(fields, x, y)
    number = value_fault(j, loaded)
    if number:
        return number, b""
    record = record_of(j)
    return (13, b"") if room < len(record) else (0, record)


def after_write(fields, x, y, marks, buffer, answer, loaded=PRINTED):
    """(code, buffer, answer) after the C entry's call."""
    if len(fields) < PLACES or len(answer) < 2:
        return 1, buffer, answer
    number, record = written(fields, x, y, len(buffer), loaded)
    return 0, record + buffer[len(record):], [number, len(record)] + answer[2:]


def values_of(data, loaded=PRINTED):
    """(refusal, number of dowels, fields, x, y, marks)."""
    j = read(data, loaded)
    if not isinstance(j, Joint):
        return j, 0, [0] * PLACES, [0] * DOWELS, [0] * DOWELS, [0] * DOWELS
    fields = [j.version, j.p]
    for m in (0, 1):
        fields += [j.cls[m], j.grain[m], 0, 0, j.t[m], *j.outline[m]]
    fields += [j.d, j.steel, 0, j.service, j.duration, j.fx, j.fy]
    rest = [0] * (DOWELS - len(j.dowels))
    return 0, len(j.dowels), fields, [x for x, _ in j.dowels] + rest, [y for _, y in j.dowels] + rest, [0] * DOWELS


def after_read(data, fields, x, y, marks, answer, loaded=PRINTED):
    """(code, fields, x, y, marks, answer) after the C entry's call."""
    if len(fields) < PLACES or min(len(x), len(y), len(marks)) < DOWELS or len(answer) < 2:
        return 1, fields, x, y, marks, answer
    number, n, *lists = values_of(data, loaded)
    return (0, *(new + old[len(new):] for new, old in zip(lists, (fields, x, y, marks))), [number, n] + answer[2:])


def normal(fields):
    """What reads back of the fields written: 0 where versions 1 and 2 have no field."""
    return [number if name else 0 for name, number in zip(HANDED, fields)]


# ------------------------------------------------------------------- spacing

def least_root(num, den):
    """The least whole k >= 0 with k*k*den >= num, for num >= 0 and den > 0."""
    if num == 0:
        return 0
    return isqrt(-(-num // den) - 1) + 1


def components(j, m):
    """Force along and across the grain of member m (0 or 1), signed as in that member."""
    fx, fy = (j.fx, j.fy) if m == 1 else (-j.fx, -j.fy)
    return (fx, fy) if j.grain[m] == 0 else (fy, fx)


def needed(j, m):
    """Least whole tenths that satisfy each rule of the version's table in member m:
    pair along, pair across, low end, high end, low edge, high edge."""
    d = j.d
    along, across = components(j, m)
    f2 = j.fx * j.fx + j.fy * j.fy
    # (a - 30d) >= 20d cos, squared and exact
    pair = 30 * d + least_root(400 * d * d * along * along, f2)
    loaded = max(70 * d, 800)
    other = max(least_root(4900 * d * d * across * across, f2), 30 * d)
    low = loaded if along < 0 else other
    high = loaded if along > 0 else other
    left = right = 30 * d
    if j.version >= LOADED_EDGES and across != 0:
        # z - 20d >= 20d sin, squared and exact; and 3d
        edge = max(20 * d + least_root(400 * d * d * across * across, f2), 30 * d)
        left, right = (edge, right) if across < 0 else (left, edge)
    return pair, 30 * d, low, high, left, right


def spacing(j):
    """The refusal 10 to 12 with its place, or None."""
    for m in (0, 1):
        pair_along, pair_across, low_end, high_end, low_edge, high_edge = needed(j, m)
        x0, y0, x1, y1 = j.outline[m]
        if j.grain[m] == 0:
            along, across = [x for x, _ in j.dowels], [y for _, y in j.dowels]
            a0, a1, c0, c1 = x0, x1, y0, y1
        else:
            along, across = [y for _, y in j.dowels], [x for x, _ in j.dowels]
            a0, a1, c0, c1 = y0, y1, x0, x1
        count = len(along)
        for i in range(count - 1):
            ai, ci = along[i], across[i]
            for k in range(i + 1, count):
                if (-pair_along < along[k] - ai < pair_along
                        and -pair_across < across[k] - ci < pair_across):
                    return 10, m + 1, i + 1, k + 1
        for i, a in enumerate(along):
            if a - a0 < low_end or a1 - a < high_end:
                return 11, m + 1, i + 1, 0
        for i, c in enumerate(across):
            if c - c0 < low_edge or c1 - c < high_edge:
                return 12, m + 1, i + 1, 0
    return None


def parse(data, loaded=PRINTED):
    """(number, member, first, second) for a refused record, else the Joint."""
    j = read(data, loaded)
    if not isinstance(j, Joint):
        return j, 0, 0, 0
    return spacing(j) or j


# ------------------------------------------------------------ capacity, rows, use

def _fifth_root(n):
    """The whole part of the fifth root."""
    if n == 0:
        return 0
    x = 1 << -(-n.bit_length() // 5)
    while True:
        y = (4 * x + n // x ** 4) // 5
        if y >= x:
            return x
        x = y


def _tenth_root(n):
    return _fifth_root(isqrt(n))


def _twentieth_root(n):
    return _fifth_root(isqrt(isqrt(n)))


def rows(j, m):
    """The rows of member m (02, A3), each as a set of dowel numbers from 0: each two of its dowels differ across by less
    than d, and no other dowel can be added."""
    across = [xy[1 - j.grain[m]] for xy in j.dowels]
    near = [{k for k, other in enumerate(across) if k != i and abs(other - c) < 10 * j.d} for i, c in enumerate(across)]
    found = []

    def extend(row, may, barred):
        """The rows that hold all of row, some of may and none of barred; may and barred: what is near to all of row."""
        if not may and not barred:
            found.append(row)
        if not may:
            return
        # a row without the pivot holds a dowel that is not near to it
        pivot = max(may | barred, key=lambda k: len(may & near[k]))
        for i in sorted(may - near[pivot]):
            extend(row | {i}, may & near[i], barred & near[i])
            may = may - {i}
            barred = barred | {i}

    extend(frozenset(), set(range(len(across))), set())
    return found


def least_distance(along):
    """a1 of the dowels at these places; 0 for a lone one."""
    along = sorted(along)
    return min((b - a for a, b in zip(along, along[1:])), default=0)


class Exact:
    """The exact quantities of an accepted joint."""

    def __init__(self, j, loaded=PRINTED):
        self.joint = j
        d = j.d
        f2 = j.fx * j.fx + j.fy * j.fy
        bearing, force_along = [], []
        for m in (0, 1):
            a, c = components(j, m)
            force_along.append(abs(a))
            kind, density = loaded[j.cls[m]]
            base, by_d = K90[kind]
            k = (base + by_d * d) * c * c + 1000 * a * a    # 1000 f2 (k90 sin2 + cos2)
            num, den = 82 * (100 - d) * density * f2, 100 * k
            g = gcd(num, den)
            bearing.append((num // g, den // g))
        (n1, d1), (n2, d2) = bearing
        self.bearing = bearing
        total = n1 * d2 + n2 * d1                       # f1 + f2 over d1 d2
        wn, wd = d * n1 * n2, total                     # d f1 f2 / (f1 + f2)
        g = gcd(wn, wd)
        wn, wd = wn // g, wd // g
        # first term to the tenth power
        self.one = (23 ** 10 * (3 * FU[j.steel] * wn) ** 5 * d ** 13, 10 ** 15 * wd ** 5)
        # K and the squared factor of the second and third term
        sn, cn = n2 * d1, n1 * d2
        g = gcd(sn, cn)
        sn, cn, sd = sn // g, cn // g, total // g
        self.bent = [(n1 * d * j.t[0], 10 * d1, sn, sd)]
        self.plain = None
        if j.p == 1:
            self.bent.append((n2 * d * j.t[1], 10 * d2, cn, sd))
        else:
            self.plain = (n2 * d * j.t[1], 20 * d2)

        # rows: (n, a1) of each member, one of a kind; a1 is 0 where n is 1
        self.rows = []
        for m in (0, 1):
            along = [xy[j.grain[m]] for xy in j.dowels]
            self.rows.append({(len(row), least_distance([along[i] for i in row])) for row in rows(j, m)})

        h = (KMOD_3 if j.service == 3 else KMOD_1_2)[j.duration]
        count = len(j.dowels)
        self.t2h = (2 * count * j.p if count > 1 else j.p) * h      # 2 T h

        # the greatest of sqrt(f2) and c n / effective number, to the 20th power
        top, bottom = f2 ** 10, 1
        for m in (0, 1):
            c20 = force_along[m] ** 20
            for n, a1 in self.rows[m]:
                num, den = c20, 1
                if n > 1 and n * n * (130 * d) ** 5 > a1 ** 5:
                    num, den = c20 * n * n * (130 * d) ** 5, a1 ** 5
                if num * bottom > top * den:
                    top, bottom = num, den
        self.load = (top, bottom)
        self._quick = None

    # -- predicates as printed

    def at_most_R(self, x):
        x = Fraction(x)
        return self.at_most(x.numerator, x.denominator)

    def at_most(self, xn, xd):
        """xn/xd <= R, for xn >= 0 and xd > 0."""
        num, den = self.one
        if xn ** 10 * den > num * xd ** 10:
            return False
        for kn, kd, sn, sd in self.bent:
            rest = kn * xd - xn * kd
            if rest < 0 or (xn * kd) ** 2 * sd > rest * rest * sn:
                return False
        if self.plain is not None:
            kn, kd = self.plain
            if xn * kd > kn * xd:
                return False
        return True

    def not_below(self, e, n, a1):
        """The fraction e >= 0 is not below the effective number of a row."""
        e = Fraction(e)
        if n == 1:
            return e >= 1
        return e >= n or e ** 20 * (130 * self.joint.d) ** 5 >= n ** 18 * a1 ** 5

    def not_above(self, e, n, a1):
        e = Fraction(e)
        return self.not_above_of(e.numerator, e.denominator, n, a1)

    def not_above_of(self, en, ed, n, a1):
        if en > n * ed:
            return False
        return n == 1 or en ** 20 * (130 * self.joint.d) ** 5 <= n ** 18 * a1 ** 5 * ed ** 20

    def share_holds(self, e):
        """e/10,000 times n is not above the effective number, in every row."""
        return all(self.not_above_of(e * n, 10000, n, a1) for rows in self.rows for n, a1 in rows)

    # -- use

    def _terms_against(self, vn, vd):
        """For y = 130 L/(T h v), v = vn/vd > 0, the sign of y - term for each term of R.
        All is raised to the 20th power; L**20 is a fraction."""
        yn = (260 * vd) ** 20 * self.load[0]
        yd = (self.t2h * vn) ** 20 * self.load[1]
        num, den = self.one
        yield _sign(yn * den * den - num * num * yd)
        for kn, kd, sn, sd in self.bent:
            # K s/(1 + s) = K (sqrt(w) - sn)/(sd - sn), w = sn sd
            a, b = _power20(-sn, sn * sd)
            # sign of yn/yd - (kn/(kd (sd - sn)))**20 (a + b sqrt(w))
            left = yn * (kd * (sd - sn)) ** 20
            right = yd * kn ** 20
            yield _sign_root(left - right * a, -right * b, sn * sd)
        if self.plain is not None:
            kn, kd = self.plain
            yield _sign(yn * kd ** 20 - kn ** 20 * yd)

    def _brackets(self):
        """Whole parts of R and of the greatest load, both times 2**BITS."""
        if self._quick is None:
            num, den = self.one
            least = _tenth_root((num << 10 * BITS) // den)
            for kn, kd, sn, sd in self.bent:
                # floor(floor(x)/whole) = floor(x/whole)
                k = kn << BITS
                least = min(least, (isqrt(k * k * sn * sd) - k * sn) // (kd * (sd - sn)))
            if self.plain is not None:
                kn, kd = self.plain
                least = min(least, (kn << BITS) // kd)
            top, bottom = self.load
            self._quick = least, _twentieth_root((top << 20 * BITS) // bottom)
        return self._quick

    def enough(self, v):
        v = Fraction(v)
        return v > 0 and self.enough_of(v.numerator, v.denominator)

    def enough_of(self, vn, vd, quick=True):
        """vn/vd is enough, i.e. not below the exact use."""
        if vn <= 0:
            return False
        if quick:
            r, load = self._brackets()
            left, right = vn * self.t2h, 260 * vd
            if left * r >= right * (load + 1):
                return True
            if left * (r + 1) < right * load:
                return False
        return all(s <= 0 for s in self._terms_against(vn, vd))

    def not_above_use(self, vn, vd, quick=True):
        """vn/vd is at most every enough v, i.e. not above the exact use."""
        if vn <= 0:
            return True
        if quick:
            r, load = self._brackets()
            left, right = vn * self.t2h, 260 * vd
            if left * (r + 1) <= right * load:
                return True
            if left * r > right * (load + 1):
                return False
        return any(s >= 0 for s in self._terms_against(vn, vd))

    # -- the free ranges, both ends included

    def ranges(self):
        cap = _last(lambda x: self.at_most(x, 1))
        share = _last(self.share_holds)
        low = 1 + _last(lambda u: not self.enough_of(u, 10000))
        high = _last(lambda u: self.not_above_use(u - 2, 10050))
        return (low, high), (max(cap - 1, 0), cap), (max(share - 1, 0), share)


def _sign(n):
    return (n > 0) - (n < 0)


def _sign_root(a, b, w):
    """The sign of a + b sqrt(w), w >= 0."""
    sa, sb = _sign(a), _sign(b) if w else 0
    if sa == sb or sb == 0:
        return sa
    if sa == 0:
        return sb
    return sa * _sign(a * a - b * b * w)


def _power20(a, w):
    """(a + sqrt(w))**20 as (A, B) with A + B sqrt(w)."""
    def times(p, q):
        return p[0] * q[0] + p[1] * q[1] * w, p[0] * q[1] + p[1] * q[0]
    one = (a, 1)
    two = times(one, one)
    four = times(two, two)
    sixteen = times(times(four, four), times(four, four))
    return times(sixteen, four)


def _last(holds):
    """The greatest whole x >= 0 with holds(x); holds(0) is true and it never turns true again."""
    high = 1
    while holds(high):
        high *= 2
    low = high // 2
    while high - low > 1:
        middle = (low + high) // 2
        if holds(middle):
            low = middle
        else:
            high = middle
    return low


# --------------------------------------------------------------- whole roots (02, A5)

def power_of_two(number):
    """The k where the number is 2 to the k, or None."""
    k = 0
    while 2 ** k < number:
        k += 1
    return k if 2 ** k == number else None


def check_bracket(n, low, high):
    """True, or the reason why this is not the starting bracket of n: low, the greatest power of two whose square is not
    above n, and high, its double; for 0 they are 0 and 1."""
    if n == 0:
        return (low, high) == (0, 1) or "low %d and high %d for 0" % (low, high)
    if power_of_two(low) is None:
        return "low %d is no power of two" % low
    if low * low > n:
        return "the square of low %d is above %d" % (low, n)
    if (2 * low) * (2 * low) <= n:
        return "the square of twice low %d is not above %d" % (low, n)
    return high == 2 * low or "high %d is not the double of low %d" % (high, low)


def bracket(n):
    """The starting bracket of n."""
    if n == 0:
        return 0, 1
    low = 1
    while (2 * low) * (2 * low) <= n:
        low = 2 * low
    return low, 2 * low


def halved(n, low, high):
    """The half that is kept: the upper one where the square of the middle is not above n."""
    middle = (low + high) // 2
    return (middle, high) if middle * middle <= n else (low, middle)


def halve(n):
    """(root, halvings): halved from the starting bracket on, until high is one more than low."""
    low, high = bracket(n)
    count = 0
    while high - low != 1:
        low, high = halved(n, low, high)
        count += 1
    return low, count


def check_root(n, root, halvings):
    """True, or the reason why these are not the whole root of n and its halvings, at most k from 2 to the k; none for 0."""
    if root * root > n:
        return "the square of root %d is above %d" % (root, n)
    if (root + 1) * (root + 1) <= n:
        return "the square of root %d plus 1 is not above %d" % (root, n)
    most = 0 if n == 0 else power_of_two(bracket(n)[0])
    if halvings > most:
        return "%d halvings for %d, at most %d" % (halvings, n, most)
    counted = halve(n)[1]
    return halvings == counted or "%d halvings for %d, there are %d" % (halvings, n, counted)


def root_line(n):
    """Low, high, root and halvings of n, as the examples print them."""
    return "%d: %d %d %d %d" % (n, *bracket(n), *halve(n))


# ------------------------------------------------------------------ the check

ANSWER = re.compile(r"(fits|overloaded) (0|[1-9][0-9]*) (0|[1-9][0-9]*) (0|[1-9][0-9]*)\n")


class Reference:
    """What documents 01 and 02 say of one record.  With program=False the 4,096 bytes of the
    program are no rule (the library judges any length)."""

    def __init__(self, data, program=True, loaded=PRINTED):
        self.refusal = self.joint = self.exact = None
        self.loaded = loaded
        if program and did_load(loaded) and len(data) > PROGRAM_LIMIT:
            self.refusal = (4, 0, 0, 0)
            return
        found = parse(data, loaded)
        if isinstance(found, Joint):
            self.joint = found
        else:
            self.refusal = found

    def values(self):
        if self.exact is None:
            self.exact = Exact(self.joint, self.loaded)
        return self.exact

    def check(self, line):
        """True, or the reason why the line is wrong."""
        if isinstance(line, bytes):
            line = line.decode("latin-1")
        if self.refusal is not None:
            right = "refused %d %d %d %d\n" % self.refusal
            return True if line == right else "expected %r, got %r" % (right, line)
        found = ANSWER.fullmatch(line)
        if not found:
            return "expected an answer, got %r" % line
        use, cap, share = (int(found.group(k)) for k in (2, 3, 4))
        x = self.values()
        if not x.at_most(cap, 1):
            return "C %d is above R" % cap
        if x.at_most(cap + 2, 1):
            return "C %d: R is not below C + 2" % cap
        if not x.share_holds(share):
            return "E %d is above 10,000 shares" % share
        if x.share_holds(share + 2):
            return "E %d: the share is not below E + 2" % share
        if use == 0 or not x.enough_of(use, 10000):
            return "U %d is not enough" % use
        if not x.not_above_use(use - 2, 10050):
            return "U %d is above 10,050 v + 2" % use
        if (found.group(1) == "fits") != (use <= 10000):
            return "verdict %s with U %d" % (found.group(1), use)
        return True

    def describe(self):
        """The line, with a range low..high where the figure is free."""
        if self.refusal is not None:
            return "refused %d %d %d %d" % self.refusal
        use, cap, share = self.values().ranges()
        verdict = "fits" if use[1] <= 10000 else "overloaded" if use[0] > 10000 else "fits|overloaded"
        return " ".join([verdict] + ["%d..%d" % r if r[0] < r[1] else "%d" % r[0]
                                     for r in (use, cap, share)])


def check(record, line, program=True, loaded=PRINTED):
    return Reference(record, program, loaded).check(line)
