"""Wrong programs, wrong writers and readers, and programs wrong with tables, with firms, with one joint drawn otherwise or with
roots: model.py with one thing changed in each.  The harness must report all."""
from itertools import takewhile
from math import atan2, cos, isqrt, log2, sin, sqrt      # floating point in wrong programs only

from model import Model, Refused, ceil_div

WRONG = []          # (group, name, class)
WRONG_WRITERS = []  # the same, for the entries that write and read values
WRONG_TABLES = []   # (entry that is wrong, name, class), for the entries that take a table
WRONG_FIRMS = []    # the same, for those that take a shared one: wrong there alone
WRONG_DRAWN = []    # (group, name, class), for two drawings of one joint
WRONG_ROOTS = []    # (what is wrong, name, class), for the entries that find brackets and roots


def wrong(group, name):
    def keep(cls):
        WRONG.append((group, name, cls))
        return cls
    return keep


def changed(group, name, **methods):
    WRONG.append((group, name, type("Wrong", (Model,), methods)))


FREE = ("use one higher", "capacity one lower", "share one lower")


def beside(k, holds):
    """The figure k of these three elsewhere within its bracket, where holds(self)."""
    return {"print_answer": lambda self, *figures: Model.print_answer(self, *(
        z + (1, -1, -1)[i] * (i == k and holds(self)) for i, z in enumerate(figures)))}


# ------------------------------------------------------ mistakes that look reasonable

MISTAKE, WORTHLESS = "mistake", "worthless"


def nearest(self, find):
    """find() in halves, rounded to the nearest whole number."""
    self.scale = 2
    try:
        return (find() + 1) // 2
    finally:
        self.scale = 1


changed(MISTAKE, "capacity rounded to nearest",
        capacity=lambda self: nearest(self, lambda: min(self.terms())))


@wrong(MISTAKE, "share rounded to nearest")
class _(Model):
    def row_share(self, n, a1):
        return nearest(self, lambda: Model.row_share(self, n, a1))


@wrong(MISTAKE, "effective number rounded to a whole number")
class _(Model):
    def row_share(self, n, a1):
        share = Model.row_share(self, n, a1)
        whole = (share * n + 5000) // 10000
        return min(10000, whole * 10000 // n)


changed(MISTAKE, "force in member 1 signed as in member 2", sign=lambda self, m: 1)
changed(MISTAKE, "member 1's angle for both bearings",
        bearing_squares=lambda self, m: self.squares(0))
changed(MISTAKE, "both spacings of a pair asked",
        pair=lambda self, a, c, m: self.pair_across(c, m) and self.pair_along(a, m))
changed(MISTAKE, "lone dowel with its full capacity", twice_t=lambda self: 2 * self.n * self.p)

# ------------------------------------------------------------------ worthless versions

changed(WORTHLESS, "refuses all, 4", judge=lambda self, data: "refused 4 0 0 0\n")
changed(WORTHLESS, "refuses all, 7", judge=lambda self, data: "refused 7 0 0 0\n")
changed(WORTHLESS, "refuses all that it could accept, 9",
        figures=lambda self: self.refuse(), refuse=lambda self: (_ for _ in ()).throw(Refused(9)))
changed(WORTHLESS, "all overloaded, with a huge use", use=lambda self, cap, shares: 99999999)
changed(WORTHLESS, "one fixed report", judge=lambda self, data: "fits 7431 7440 7346\n")
changed(WORTHLESS, "one fixed report where accepted", figures=lambda self: (7431, 7440, 7346))
changed(WORTHLESS, "zero report, fits", figures=lambda self: (0, 0, 0))
changed(WORTHLESS, "zero report, overloaded",
        figures=lambda self: (0, 0, 0), fits=lambda self, use: False)
changed(WORTHLESS, "zero capacity only", print_answer=lambda self, u, c, e:
        Model.print_answer(self, u, 0, e))
changed(WORTHLESS, "row share made up: 10,000", share=lambda self, shares: 10000)
changed(WORTHLESS, "row share made up: 9,999", share=lambda self, shares: 9999)
changed(WORTHLESS, "row share made up: 0", share=lambda self, shares: 0)
changed(WORTHLESS, "row share made up, use from it", shares=lambda self: (7346, 7346))
changed(WORTHLESS, "no row share, use from it", shares=lambda self: (10000, 10000))
changed(WORTHLESS, "names dowels 1 and 2 unmeasured", close=lambda self, m, i, j: Refused(10, m + 1, 1, 2))
changed(WORTHLESS, "always 10 1 1 2",
        test_pairs_of_dowels=lambda self, m: (_ for _ in ()).throw(Refused(10, 1, 1, 2)))

# -------------------------------------------------------------------------- spacing

SPACE = "spacing"


@wrong(SPACE, "strict: pair along")
class _(Model):
    def pair_along(self, a, m):
        a2, _, f2 = self.squares(m)
        over = a - 30 * self.d
        return over > 0 and over * over * f2 > 400 * self.d ** 2 * a2


@wrong(SPACE, "strict: pair along, force along only")
class _(Model):
    def pair_along(self, a, m):
        a2, c2, f2 = self.squares(m)
        return Model.pair_along(self, a, m) and not (c2 == 0 and a == 50 * self.d)


@wrong(SPACE, "strict: pair along, skew only")
class _(Model):
    def pair_along(self, a, m):
        a2, c2, f2 = self.squares(m)
        over = a - 30 * self.d
        return (Model.pair_along(self, a, m)
                and not (a2 and c2 and over * over * f2 == 400 * self.d ** 2 * a2))


changed(SPACE, "strict: pair across", pair_across=lambda self, c, m: c > 30 * self.d)
changed(SPACE, "strict: loaded end 7d", loaded_7d=lambda self, a: a > 70 * self.d)
changed(SPACE, "strict: loaded end 80 mm", loaded_80=lambda self, a: a > 800)
changed(SPACE, "strict: other end 3d", other_3d=lambda self, a: a > 30 * self.d)
changed(SPACE, "strict: edges 3d", edge_3d=lambda self, c: c > 30 * self.d)


@wrong(SPACE, "strict: other end 7d sin")
class _(Model):
    def other_sine(self, a, m):
        _, c2, f2 = self.squares(m)
        return a >= 0 and a * a * f2 > 4900 * self.d ** 2 * c2


@wrong(SPACE, "strict: other end 7d sin, skew only")
class _(Model):
    def other_sine(self, a, m):
        a2, c2, f2 = self.squares(m)
        return (Model.other_sine(self, a, m)
                and not (a2 and c2 and a * a * f2 == 4900 * self.d ** 2 * c2))


for _name, _by in (("one tenth lax", 1), ("one tenth severe", -1)):
    def _pair_along(self, a, m, by=_by):
        return Model.pair_along(self, a + by, m)

    def _other_sine(self, a, m, by=_by):
        return Model.other_sine(self, a + by, m)
    changed(SPACE, "%s: pair along" % _name, pair_along=_pair_along)
    changed(SPACE, "%s: pair across" % _name,
            pair_across=lambda self, c, m, by=_by: c + by >= 30 * self.d)
    changed(SPACE, "%s: loaded end 7d" % _name, loaded_7d=lambda self, a, by=_by: a + by >= 70 * self.d)
    changed(SPACE, "%s: loaded end 80 mm" % _name, loaded_80=lambda self, a, by=_by: a + by >= 800)
    changed(SPACE, "%s: other end 7d sin" % _name, other_sine=_other_sine)
    changed(SPACE, "%s: other end 3d" % _name, other_3d=lambda self, a, by=_by: a + by >= 30 * self.d)
    changed(SPACE, "%s: edges" % _name, edge_3d=lambda self, c, by=_by: c + by >= 30 * self.d)

changed(SPACE, "80 mm left out", loaded_80=lambda self, a: True)
changed(SPACE, "80 mm at every end", other_end=lambda self, a, m: Model.other_end(self, a, m) and a >= 800)
changed(SPACE, "40 mm at the other end", other_end=lambda self, a, m: Model.other_end(self, a, m) and a >= 400)
changed(SPACE, "80 mm sin at the other end", other_end=lambda self, a, m: Model.other_end(self, a, m)
        and a * a * self.squares(m)[2] >= 640000 * self.squares(m)[1])
changed(SPACE, "7d left out at the loaded end", loaded_7d=lambda self, a: True)
changed(SPACE, "3d left out at the other end", other_3d=lambda self, a: True)
changed(SPACE, "7d sin left out at the other end", other_sine=lambda self, a, m: True)
changed(SPACE, "7d at the other end", other_sine=lambda self, a, m: a >= 70 * self.d)
changed(SPACE, "other end from the cosine", other_sine=lambda self, a, m: a >= 0 and a * a * self.squares(m)[2]
        >= 4900 * self.d ** 2 * self.squares(m)[0])
changed(SPACE, "no component: both ends loaded", end_is_loaded=lambda self, c: c >= 0)


@wrong(SPACE, "no component: the high end loaded")
class _(Model):
    def test_ends(self, m):
        if self.axes(m, self.force)[0] == 0:
            # asked for the low end, then for the high end
            self.end_is_loaded = lambda c, it=iter((False, True)): next(it)
        try:
            Model.test_ends(self, m)
        finally:
            self.__dict__.pop("end_is_loaded", None)


changed(SPACE, "a small component loads no end",
        end_is_loaded=lambda self, c: c > 0 and c * c * 10000 > sum(f * f for f in self.force))
changed(SPACE, "both ends loaded", end_is_loaded=lambda self, c: True)
changed(SPACE, "no end loaded", end_is_loaded=lambda self, c: False)
changed(SPACE, "force reversed in both members", sign=lambda self, m: -1 if m == 1 else 1)
changed(SPACE, "force in member 2 signed as in member 1", sign=lambda self, m: -1)
changed(SPACE, "the other member's angle", spacing_squares=lambda self, m: self.squares(1 - m))
changed(SPACE, "member 1's angle for both", spacing_squares=lambda self, m: self.squares(0))
changed(SPACE, "angle from x whatever the grain", spacing_squares=lambda self, m: (
    self.force[0] ** 2, self.force[1] ** 2, self.force[0] ** 2 + self.force[1] ** 2))
changed(SPACE, "pair along 5d", pair_along=lambda self, a, m: a >= 50 * self.d)
changed(SPACE, "pair along 3d", pair_along=lambda self, a, m: a >= 30 * self.d)
changed(SPACE, "pair from the sine", pair_along=lambda self, a, m: a >= 30 * self.d and
        (a - 30 * self.d) ** 2 * self.squares(m)[2] >= 400 * self.d ** 2 * self.squares(m)[1])


@wrong(SPACE, "pair with a signed cosine")
class _(Model):
    def pair_along(self, a, m):
        if self.sign(m) * self.axes(m, self.force)[0] < 0:
            over = 30 * self.d - a
            a2, _, f2 = self.squares(m)
            return over <= 0 or over * over * f2 <= 400 * self.d ** 2 * a2
        return Model.pair_along(self, a, m)


changed(SPACE, "pair by straight distance",
        pair=lambda self, a, c, m: self.pair_across(c, m) or self.pair_along(isqrt(a * a + c * c), m))
changed(SPACE, "pairs not tested", test_pairs_of_dowels=lambda self, m: None,
        a1=lambda self, gaps: max(1, min(gaps)))
changed(SPACE, "ends not tested", test_ends=lambda self, m: None)
changed(SPACE, "edges not tested", test_edges=lambda self, m: None)
changed(SPACE, "member 1 only", members=(0,))
changed(SPACE, "member 2 only", members=(1,))
changed(SPACE, "distances outside taken as positive", edge_3d=lambda self, c: abs(c) >= 30 * self.d)
changed(SPACE, "ends outside taken as positive",
        other_end=lambda self, a, m: Model.other_end(self, abs(a), m),
        loaded_end=lambda self, a, m: Model.loaded_end(self, abs(a), m))


@wrong(SPACE, "only neighbours in the record tested as pairs")
class _(Model):
    def a1(self, gaps):
        return max(1, min(gaps))

    def test_pairs_of_dowels(self, m):
        for i in range(self.n - 1):
            (a, c), (b, e) = self.axes(m, self.xy[i]), self.axes(m, self.xy[i + 1])
            if not self.pair(abs(a - b), abs(c - e), m):
                raise Refused(10, m + 1, i + 1, i + 2)


@wrong(SPACE, "two dowels on one spot pass")
class _(Model):
    def a1(self, gaps):
        return max(1, min(gaps))

    def pair(self, a, c, m):
        return (a, c) == (0, 0) or Model.pair(self, a, c, m)


@wrong(SPACE, "one end only, the high one")
class _(Model):
    def test_ends(self, m):
        self.outline[m][0 if self.grain[m] == 0 else 1] = -10 ** 9
        Model.test_ends(self, m)


@wrong(SPACE, "one edge only, the low one")
class _(Model):
    def test_edges(self, m):
        self.outline[m][3 if self.grain[m] == 0 else 2] = 10 ** 9
        Model.test_edges(self, m)


@wrong(SPACE, "cosine to six places, rounded up")
class _(Model):
    def pair_along(self, a, m):
        a2, _, f2 = self.squares(m)
        cosine = ceil_div(10 ** 12 * a2, f2)
        root = isqrt(cosine)
        root += root * root < cosine
        return (a - 30 * self.d) * 10 ** 6 >= 20 * self.d * root


@wrong(SPACE, "cosine to six places, rounded down")
class _(Model):
    def pair_along(self, a, m):
        a2, _, f2 = self.squares(m)
        return (a - 30 * self.d) * 10 ** 6 >= 20 * self.d * isqrt(10 ** 12 * a2 // f2)


@wrong(SPACE, "sine to six places, rounded up")
class _(Model):
    def other_sine(self, a, m):
        _, c2, f2 = self.squares(m)
        sine = ceil_div(10 ** 12 * c2, f2)
        root = isqrt(sine)
        root += root * root < sine
        return a * 10 ** 6 >= 70 * self.d * root


@wrong(SPACE, "pairs in floating point")
class _(Model):
    def pair_along(self, a, m):
        fa, fc = self.axes(m, self.force)
        return a / 10 >= (3 + 2 * abs(cos(atan2(fc, fa)))) * self.d


@wrong(SPACE, "ends in floating point")
class _(Model):
    def other_sine(self, a, m):
        fa, fc = self.axes(m, self.force)
        return a / 10 >= 7 * self.d * abs(sin(atan2(fc, fa)))


# ---------------------------------------------------------------------- loaded edges (02, A7)

EDGES = "loaded edge"


def least_by(limit):
    """The loaded edge at least limit(self, along squared, across squared, their sum) away, in tenths; and 3d."""
    return {"edge_sine": lambda self, c, m: c >= limit(self, *self.squares(m))}


def root_up(num, den):
    """the least whole number whose square is not below num/den"""
    root = isqrt(num // den)
    return root + (root * root * den < num)


def in_version_2(name, otherwise):
    """A method of Model changed in records of version 2 alone."""
    plain = getattr(Model, name)
    return {name: lambda self, *more: (otherwise if self.version == 2 else plain)(self, *more)}


changed(EDGES, "cosine for sine", edge_squares=lambda self, m: (lambda a2, c2, f2: (c2, a2, f2))(*self.squares(m)))
changed(EDGES, "3d left out at the loaded edge", loaded_edge=lambda self, c, m: self.edge_sine(c, m))
changed(EDGES, "3d left out at the other edge, 2d there", **in_version_2("other_edge", lambda self, c, m: c >= 20 * self.d))
changed(EDGES, "other edge not tested in version 2", **in_version_2("other_edge", lambda self, c, m: True))
changed(EDGES, "loaded edge not tested", loaded_edge=lambda self, c, m: True)
changed(EDGES, "version 1's rule in version 2", has_loaded_edges=lambda self: False)
changed(EDGES, "version 2's rule in version 1", has_loaded_edges=lambda self: True)
changed(EDGES, "the versions' rules exchanged", has_loaded_edges=lambda self: self.version == 1)
changed(EDGES, "version 2's rule in member 1 only", edge_is_loaded=lambda self, c, m: c > 0 and m == 0)
changed(EDGES, "version 2's rule in member 2 only", edge_is_loaded=lambda self, c, m: c > 0 and m == 1)
changed(EDGES, "version 2's rule with one shear plane only", edge_is_loaded=lambda self, c, m: c > 0 and self.p == 1)
changed(EDGES, "version 2's rule with two shear planes only", edge_is_loaded=lambda self, c, m: c > 0 and self.p == 2)
for _g in (0, 1):
    changed(EDGES, "version 2's rule with grain %s only" % "xy"[_g], edge_is_loaded=lambda self, c, m, g=_g: (
        c > 0 and self.grain[m] == g))
    changed(EDGES, "loaded side turned round with grain %s" % "xy"[_g], edge_sign=lambda self, m, g=_g: (
        self.sign(m) * (-1 if self.grain[m] == g else 1)))
changed(EDGES, "version 2's rule where the grains are alike only", edge_is_loaded=lambda self, c, m: (
    c > 0 and self.grain[0] == self.grain[1]))
changed(EDGES, "member 2's loaded side for member 1", edge_sign=lambda self, m: 1)
changed(EDGES, "member 1's loaded side for member 2", edge_sign=lambda self, m: -1)
changed(EDGES, "loaded side turned round", edge_sign=lambda self, m: -self.sign(m))
changed(EDGES, "both edges loaded", edge_is_loaded=lambda self, c, m: True)
changed(EDGES, "the edge loaded from which the force runs away", edge_is_loaded=lambda self, c, m: c < 0)
changed(EDGES, "the high edge always loaded", edge_sign=lambda self, m: 1 if self.axes(m, self.force)[1] > 0 else -1)
changed(EDGES, "the low edge always loaded", edge_sign=lambda self, m: -1 if self.axes(m, self.force)[1] > 0 else 1)
changed(EDGES, "the edge loaded by the component along", edge_axes=lambda self, m, xy: self.axes(m, xy)[::-1])
changed(EDGES, "the edge loaded by fy whatever the grain", edge_axes=lambda self, m, xy: xy)
changed(EDGES, "the edge loaded by fx whatever the grain", edge_axes=lambda self, m, xy: xy[::-1])
changed(EDGES, "the edge loaded by the other member's grain", edge_axes=lambda self, m, xy: self.axes(1 - m, xy))
changed(EDGES, "the edge loaded by member 1's grain", edge_axes=lambda self, m, xy: self.axes(0, xy))
changed(EDGES, "the edge loaded by member 2's grain", edge_axes=lambda self, m, xy: self.axes(1, xy))
changed(EDGES, "a component of 1 N loads no edge", edge_is_loaded=lambda self, c, m: c > 1)
changed(EDGES, "a component below 10 N loads no edge", edge_is_loaded=lambda self, c, m: c >= 10)
for _degrees, _square in ((45, 5000), (40, 4132), (60, 7500), (31, 2653)):      # of the sine, in ten-thousandths
    changed(EDGES, "loaded above %d degrees only" % _degrees, edge_is_loaded=lambda self, c, m, square=_square: (
        c > 0 and 10000 * self.squares(m)[1] > square * self.squares(m)[2]))
changed(EDGES, "loaded where the force is square to the grain only", edge_is_loaded=lambda self, c, m: (
    c > 0 and self.squares(m)[0] == 0))
changed(EDGES, "loaded where the force is not square to the grain only", edge_is_loaded=lambda self, c, m: (
    c > 0 and self.squares(m)[0] > 0))
changed(EDGES, "4d at both edges where the force runs along", edge=lambda self, c, m, component: (
    Model.edge(self, c, m, component) and (self.version == 1 or component != 0 or c >= 40 * self.d)))

changed(EDGES, "member 1's angle for both", edge_squares=lambda self, m: self.squares(0))
changed(EDGES, "member 2's angle for both", edge_squares=lambda self, m: self.squares(1))
changed(EDGES, "the other member's angle", edge_squares=lambda self, m: self.squares(1 - m))
changed(EDGES, "angle from x whatever the grain", edge_squares=lambda self, m: (
    self.force[0] ** 2, self.force[1] ** 2, self.force[0] ** 2 + self.force[1] ** 2))
changed(EDGES, "angle from y whatever the grain", edge_squares=lambda self, m: (
    self.force[1] ** 2, self.force[0] ** 2, self.force[0] ** 2 + self.force[1] ** 2))
changed(EDGES, "tangent for sine", edge_squares=lambda self, m: (
    lambda a2, c2, f2: (a2, c2, max(a2, 1)))(*self.squares(m)))
changed(EDGES, "sine squared", **least_by(lambda self, a2, c2, f2: 20 * self.d + ceil_div(20 * self.d * c2, f2)))
for _whole, _times in ((2, 1), (2, 3), (1, 2), (3, 2), (3, 1), (2, 4), (1, 3), (3, 4)):
    changed(EDGES, "(%d + %d sin) d" % (_whole, _times), **least_by(lambda self, a2, c2, f2, k=_whole, n=_times: (
        10 * k * self.d + root_up(100 * n * n * self.d ** 2 * c2, f2))))
changed(EDGES, "4 sin d", **least_by(lambda self, a2, c2, f2: root_up(1600 * self.d ** 2 * c2, f2)))
changed(EDGES, "7 sin d, as at an end", **least_by(lambda self, a2, c2, f2: root_up(4900 * self.d ** 2 * c2, f2)))
changed(EDGES, "4d whatever the angle", **least_by(lambda self, a2, c2, f2: 40 * self.d))
changed(EDGES, "(3 + 2 cos) d, as between dowels", **least_by(lambda self, a2, c2, f2: (
    30 * self.d + root_up(400 * self.d ** 2 * a2, f2))))
changed(EDGES, "7d and 80 mm, as at an end", **least_by(lambda self, a2, c2, f2: max(70 * self.d, 800)))
changed(EDGES, "at least 80 mm", **least_by(lambda self, a2, c2, f2: max(
    800, 20 * self.d + root_up(400 * self.d ** 2 * c2, f2))))
changed(EDGES, "at least 40 mm", **least_by(lambda self, a2, c2, f2: max(
    400, 20 * self.d + root_up(400 * self.d ** 2 * c2, f2))))


@wrong(EDGES, "strict: (2 + 2 sin) d")
class _(Model):
    def edge_sine(self, c, m):
        _, c2, f2 = self.squares(m)
        over = c - 20 * self.d
        return over >= 0 and over * over * f2 > 400 * self.d ** 2 * c2


@wrong(EDGES, "strict: (2 + 2 sin) d, skew only")
class _(Model):
    def edge_sine(self, c, m):
        a2, c2, f2 = self.squares(m)
        over = c - 20 * self.d
        return Model.edge_sine(self, c, m) and not (a2 and over * over * f2 == 400 * self.d ** 2 * c2)


changed(EDGES, "strict: 4d, square to the grain only", edge_sine=lambda self, c, m: (
    Model.edge_sine(self, c, m) and not (c == 40 * self.d and self.squares(m)[0] == 0)))
changed(EDGES, "strict: 3d at the loaded edge", loaded_edge=lambda self, c, m: (
    c > 30 * self.d and self.edge_sine(c, m)))
changed(EDGES, "strict: 3d at the other edge of version 2", **in_version_2("other_edge", lambda self, c, m: c > 30 * self.d))
for _name, _by in (("one tenth lax", 1), ("one tenth severe", -1)):
    changed(EDGES, "%s: (2 + 2 sin) d" % _name, edge_sine=lambda self, c, m, by=_by: Model.edge_sine(self, c + by, m))
    changed(EDGES, "%s: 3d at the loaded edge" % _name, loaded_edge=lambda self, c, m, by=_by: (
        self.edge_3d(c + by) and self.edge_sine(c, m)))
    changed(EDGES, "%s: 3d at the other edge of version 2" % _name, **in_version_2(
        "other_edge", lambda self, c, m, by=_by: self.edge_3d(c + by)))
changed(EDGES, "limit rounded down to a tenth", **least_by(lambda self, a2, c2, f2: (
    20 * self.d + isqrt(400 * self.d ** 2 * c2 // f2))))
changed(EDGES, "limit rounded to the nearest tenth", **least_by(lambda self, a2, c2, f2: (
    20 * self.d + (isqrt(1600 * self.d ** 2 * c2 // f2) + 1) // 2)))
changed(EDGES, "limit rounded down to a millimetre", **least_by(lambda self, a2, c2, f2: (
    20 * self.d + 10 * isqrt(4 * self.d ** 2 * c2 // f2))))
changed(EDGES, "limit rounded to the nearest millimetre", **least_by(lambda self, a2, c2, f2: (
    20 * self.d + 10 * ((isqrt(16 * self.d ** 2 * c2 // f2) + 1) // 2))))
changed(EDGES, "limit rounded up to a millimetre", **least_by(lambda self, a2, c2, f2: (
    20 * self.d + 10 * root_up(4 * self.d ** 2 * c2, f2))))
for _places in (3, 6, 9):
    changed(EDGES, "sine to %d places, rounded down" % _places, edge_sine=lambda self, c, m, k=10 ** _places: (
        lambda a2, c2, f2: (c - 20 * self.d) * k >= 20 * self.d * isqrt(k * k * c2 // f2))(*self.squares(m)))
    changed(EDGES, "sine to %d places, rounded up" % _places, edge_sine=lambda self, c, m, k=10 ** _places: (
        lambda a2, c2, f2: (c - 20 * self.d) * k >= 20 * self.d * root_up(k * k * c2, f2))(*self.squares(m)))
changed(EDGES, "sine in floating point, by the angle", edge_sine=lambda self, c, m: (
    lambda fa, fc: c / 10 >= (2 + 2 * abs(sin(atan2(fc, fa)))) * self.d)(*self.axes(m, self.force)))
changed(EDGES, "sine in floating point, by a root", edge_sine=lambda self, c, m: (
    lambda fa, fc: c / 10 >= 2 * self.d + 2 * self.d * abs(fc) / sqrt(fa * fa + fc * fc))(*self.axes(m, self.force)))
changed(EDGES, "sine as the root of 1 less cosine squared in floating point", edge_sine=lambda self, c, m: (
    lambda a2, c2, f2: c >= 20 * self.d * (1 + sqrt(1 - a2 / f2)))(*self.squares(m)))
changed(EDGES, "squares in 64 bits", edge_sine=lambda self, c, m: (lambda over, a2, c2, f2: (
    over >= 0 and over * over * f2 % 2 ** 64 >= 400 * self.d ** 2 * c2))(c - 20 * self.d, *self.squares(m)))
changed(EDGES, "squares in 64 bits with a sign", edge_sine=lambda self, c, m: (lambda over, a2, c2, f2: (
    over >= 0 and (over * over * f2 + 2 ** 63) % 2 ** 64 - 2 ** 63 >= 400 * self.d ** 2 * c2))(
        c - 20 * self.d, *self.squares(m)))
changed(EDGES, "squares in 32 bits", edge_sine=lambda self, c, m: (lambda over, a2, c2, f2: (
    over >= 0 and over * over * f2 % 2 ** 32 >= 400 * self.d ** 2 * c2 % 2 ** 32))(c - 20 * self.d, *self.squares(m)))
changed(EDGES, "what is left of 2d taken as positive", edge_sine=lambda self, c, m: (lambda over, a2, c2, f2: (
    over * over * f2 >= 400 * self.d ** 2 * c2))(c - 20 * self.d, *self.squares(m)), edge_3d=lambda self, c: (
        c >= 30 * self.d or c < 0 and self.version == 2))
changed(EDGES, "distances outside taken as positive at the loaded edge", loaded_edge=lambda self, c, m: (
    Model.loaded_edge(self, abs(c), m)))

# the rule where it has no place
changed(EDGES, "version 2's rule at the other end for 7 sin d", **in_version_2(
    "other_sine", lambda self, a, m: self.edge_sine(a, m)))
changed(EDGES, "version 2's rule at the loaded end for 7d", **in_version_2("loaded_7d", lambda self, a: a >= 40 * self.d))
changed(EDGES, "no 80 mm in version 2", **in_version_2("loaded_80", lambda self, a: True))
changed(EDGES, "80 mm at every end in version 2", **in_version_2("other_end", lambda self, a, m: (
    Model.other_end(self, a, m) and a >= 800)))
changed(EDGES, "version 2's rule between dowels across", pair=lambda self, a, c, m: (
    self.pair_across(c, m) and (self.version == 1 or self.edge_sine(c, m)) or self.pair_along(a, m)))
changed(EDGES, "both spacings of a pair asked in version 2", **in_version_2("pair", lambda self, a, c, m: (
    self.pair_across(c, m) and self.pair_along(a, m))))
changed(EDGES, "(3 + 2 sin) d along in version 2", **in_version_2("pair_along", lambda self, a, m: (
    lambda a2, c2, f2: a >= 30 * self.d + root_up(400 * self.d ** 2 * c2, f2))(*self.squares(m))))
changed(EDGES, "ends not tested in version 2", **in_version_2("test_ends", lambda self, m: None))
changed(EDGES, "edges not tested in version 2", **in_version_2("test_edges", lambda self, m: None))
changed(EDGES, "pairs not tested in version 2", a1=lambda self, gaps: max(1, min(gaps)), **in_version_2(
    "test_pairs_of_dowels", lambda self, m: None))
changed(EDGES, "force in member 1 signed as in member 2 in version 2", **in_version_2("sign", lambda self, m: 1))


# the number and the place
def edge_faults(self, m):
    """(dowel from 0, side 0 or 1, whether that edge is loaded, how far away) of each edge too near in member m."""
    found = []
    low, high = (self.axes(m, self.outline[m][k:k + 2])[1] for k in (0, 2))
    force = self.sign(m) * self.axes(m, self.force)[1]
    for i in range(self.n):
        c = self.axes(m, self.xy[i])[1]
        for side, away, component in ((0, c - low, -force), (1, high - c, force)):
            if not self.edge(away, m, component):
                found.append((i, side, component > 0, away))
    return found


def names_edge(name, pick):
    """Another dowel named where an edge is too near in version 2: pick(faults) -> the fault."""
    def test_edges(self, m):
        found = edge_faults(self, m)
        if found:
            raise Refused(12, m + 1, pick(found)[0] + 1)
    changed(EDGES, name, **in_version_2("test_edges", test_edges))


names_edge("the last dowel too near named", lambda found: found[-1])
names_edge("the first dowel too near a loaded edge named first", lambda found: min(found, key=lambda f: (not f[2], f[0])))
names_edge("the first dowel too near another edge named first", lambda found: min(found, key=lambda f: (f[2], f[0])))
names_edge("the first dowel too near the low edge named first", lambda found: min(found, key=lambda f: (f[1], f[0])))
names_edge("the first dowel too near the high edge named first", lambda found: min(found, key=lambda f: (-f[1], f[0])))
names_edge("the dowel nearest to an edge named", lambda found: min(found, key=lambda f: f[3]))
names_edge("dowel 1 named always", lambda found: (0,))
names_edge("dowels counted from 0 in version 2", lambda found: (found[0][0] - 1,))


def renamed_edge(name, line):
    """12 printed otherwise in version 2: line(self, member, first)."""
    def print_refusal(self, number, member, first, second):
        if number == 12 and self.version == 2:
            return line(self, member, first)
        return Model.print_refusal(self, number, member, first, second)
    changed(EDGES, name, print_refusal=print_refusal)


renamed_edge("members exchanged", lambda self, m, i: "refused 12 %d %d 0\n" % (3 - m, i))
renamed_edge("the dowel named twice", lambda self, m, i: "refused 12 %d %d %d\n" % (m, i, i))
renamed_edge("no place", lambda self, m, i: "refused 12 0 0 0\n")
renamed_edge("11 for 12", lambda self, m, i: "refused 11 %d %d 0\n" % (m, i))
renamed_edge("13 for 12", lambda self, m, i: "refused 13 %d %d 0\n" % (m, i))
renamed_edge("2 for 12", lambda self, m, i: "refused 2 0 0 0\n")


def test_loaded_edges(self, m):
    """What version 2 asks more than version 1."""
    for i, _, loaded, away in edge_faults(self, m):
        if loaded and self.edge_3d(away):
            raise Refused(12, m + 1, i + 1)


def loaded_edges_apart(name, order):
    """The loaded edges of a record of version 2 by themselves: order is a list of tests, each with a member."""
    def answer(self, data):
        self.read(data)
        for test, m in order:
            if test == "loaded":
                if Model.has_loaded_edges(self):
                    test_loaded_edges(self, m)
                continue
            self.has_loaded_edges = lambda: False
            try:
                getattr(self, test)(m)
            finally:
                del self.has_loaded_edges
        return self.print_answer(*self.figures())
    changed(EDGES, name, answer=lambda self, data: (
        answer(self, data) if len(data) <= self.most else Model.answer(self, data)))


PAIRS, ENDS, EDGE = Model.spacing_tests
loaded_edges_apart("loaded edges after all else", [
    (test, m) for m in (0, 1) for test in Model.spacing_tests] + [("loaded", 0), ("loaded", 1)])
loaded_edges_apart("loaded edges before all else", [
    ("loaded", 0), ("loaded", 1)] + [(test, m) for m in (0, 1) for test in Model.spacing_tests])
loaded_edges_apart("loaded edges before ends", [
    (test, m) for m in (0, 1) for test in (PAIRS, "loaded", ENDS, EDGE)])
loaded_edges_apart("loaded edges before pairs", [
    (test, m) for m in (0, 1) for test in ("loaded", PAIRS, ENDS, EDGE)])
loaded_edges_apart("a member's loaded edges after its others", [
    (test, m) for m in (0, 1) for test in (PAIRS, ENDS, EDGE, "loaded")])
loaded_edges_apart("a member's loaded edges before its others", [
    (test, m) for m in (0, 1) for test in (PAIRS, ENDS, "loaded", EDGE)])

# within the brackets: only the line in the other version tells
for _k, _what in enumerate(FREE):
    for _version in (1, 2):
        changed(EDGES, "%s in version %d" % (_what, _version), **beside(_k, lambda self, v=_version: self.version == v))
changed(EDGES, "no row share in version 2", **in_version_2("shares", lambda self: (10000, 10000)))
changed(EDGES, "rows as 01 had them in version 2", **in_version_2("near", lambda self, c: c == 0))
changed(EDGES, "softwood's k90 for hardwood in version 2", **in_version_2("k90", lambda self, m: 1350 + 15 * self.d))
changed(EDGES, "the other member's angle for bearing in version 2", **in_version_2(
    "bearing_squares", lambda self, m: self.squares(1 - m)))


@wrong(EDGES, "overloaded, not refused, where an edge is too near in version 2")
class _(Model):
    too_near = False

    def test_edges(self, m):
        try:
            Model.test_edges(self, m)
        except Refused:
            if self.version == 1:
                raise
            self.too_near = True

    def fits(self, use):
        return use <= 10000 and not self.too_near


# ------------------------------------------------------------------- order and place

ORDER = "order and place"
changed(ORDER, "first and second dowel exchanged", close=lambda self, m, i, j: Refused(10, m + 1, j + 1, i + 1))


@wrong(ORDER, "first and second fault exchanged: pairs")
class _(Model):
    def test_pairs_of_dowels(self, m):
        found = []
        for i in range(self.n):
            for j in range(i + 1, self.n):
                (a, c), (b, e) = self.axes(m, self.xy[i]), self.axes(m, self.xy[j])
                if not self.pair(abs(a - b), abs(c - e), m):
                    found.append((i, j))
        if found:
            raise self.close(m, *found[min(1, len(found) - 1)])


@wrong(ORDER, "last close pair")
class _(Model):
    def test_pairs_of_dowels(self, m):
        for i in reversed(range(self.n)):
            for j in reversed(range(i + 1, self.n)):
                (a, c), (b, e) = self.axes(m, self.xy[i]), self.axes(m, self.xy[j])
                if not self.pair(abs(a - b), abs(c - e), m):
                    raise self.close(m, i, j)


@wrong(ORDER, "pairs by j, then by i")
class _(Model):
    def test_pairs_of_dowels(self, m):
        for j in range(self.n):
            for i in range(j):
                (a, c), (b, e) = self.axes(m, self.xy[i]), self.axes(m, self.xy[j])
                if not self.pair(abs(a - b), abs(c - e), m):
                    raise self.close(m, i, j)


@wrong(ORDER, "two ends at once: low end of all, then high end")
class _(Model):
    def test_ends(self, m):
        k = 0 if self.grain[m] == 0 else 1
        for far in (k + 2, k):
            kept = self.outline[m][far]
            self.outline[m][far] = 10 ** 9 if far > 1 else -10 ** 9
            try:
                Model.test_ends(self, m)
            finally:
                self.outline[m][far] = kept


changed(ORDER, "last dowel near an end or edge", in_order=lambda self: reversed(range(self.n)))
changed(ORDER, "dowels counted from 0", close=lambda self, m, i, j: Refused(10, m + 1, i, j))
changed(ORDER, "member counted from 0", print_refusal=lambda self, n, m, i, j:
        Model.print_refusal(self, n, m - 1 if n > 9 else m, i, j))
changed(ORDER, "second dowel repeats the first", print_refusal=lambda self, n, m, i, j:
        Model.print_refusal(self, n, m, i, i if n > 10 else j))
changed(ORDER, "no place", print_refusal=lambda self, n, m, i, j: Model.print_refusal(self, n, 0, 0, 0))
changed(ORDER, "a place for 1 to 9", print_refusal=lambda self, n, m, i, j:
        Model.print_refusal(self, n, m or 1, i, j))
changed(ORDER, "member 2 first", members=(1, 0))
changed(ORDER, "members exchanged in the place", print_refusal=lambda self, n, m, i, j:
        Model.print_refusal(self, n, 3 - m if m else 0, i, j))
changed(ORDER, "11 before 10", spacing_tests=("test_ends", "test_pairs_of_dowels", "test_edges"))
changed(ORDER, "12 before 11", spacing_tests=("test_pairs_of_dowels", "test_edges", "test_ends"))
changed(ORDER, "11 and 12 exchanged", print_refusal=lambda self, n, m, i, j:
        Model.print_refusal(self, {11: 12, 12: 11}.get(n, n), m, i, j))


@wrong(ORDER, "by number, then by member")
class _(Model):
    def answer(self, data):
        if len(data) > self.most:
            raise Refused(4)
        self.read(data)
        for test in self.spacing_tests:
            for m in (0, 1):
                getattr(self, test)(m)
        return self.print_answer(*self.figures())


@wrong(ORDER, "11 and 12 dowel by dowel")
class _(Model):
    spacing_tests = ("test_pairs_of_dowels", "dowel_by_dowel")

    def dowel_by_dowel(self, m):
        count = self.n
        for i in range(count):
            self.in_order = lambda i=i: (i,)
            try:
                self.test_ends(m)
                self.test_edges(m)
            finally:
                del self.in_order


changed(ORDER, "8 before 7", value_tests=("test_outlines", "test_fields", "test_force"))
changed(ORDER, "9 before 7", value_tests=("test_force", "test_fields", "test_outlines"))
changed(ORDER, "9 before 8", value_tests=("test_fields", "test_force", "test_outlines"))
changed(ORDER, "3 before 2", layout_tests=("test_count", "test_version", "test_pairs"))
changed(ORDER, "4 before 2", layout_tests=("test_pairs", "test_version", "test_count"))
changed(ORDER, "4 before 3", layout_tests=("test_version", "test_pairs", "test_count"))


@wrong(ORDER, "6 before 5")
class _(Model):
    def test_kinds(self):
        for kind, want in ((1, 42), (2, 3), (4, 11)):
            if kind in self.parts and self.parts[kind][1] != want:
                raise Refused(6)
        Model.test_kinds(self)


@wrong(ORDER, "loads tested after the outlines")
class _(Model):
    def test_fields(self):
        kept = self.duration
        self.duration = 1
        Model.test_fields(self)
        self.duration = kept

    def test_outlines(self):
        Model.test_outlines(self)
        if not 1 <= self.duration <= 5:
            raise Refused(7)


# --------------------------------------------------------------------------- reading

READ = "reading"
changed(READ, "big-endian", byteorder="big")
changed(READ, "big-endian, 32 bits only",
        i32=lambda self, at: int.from_bytes(self.data[at:at + 4], "big", signed=True))
changed(READ, "big-endian, pairs only",
        u16=lambda self, at: int.from_bytes(self.data[at:at + 2], "big" if 4 <= at < 20 else "little"))
changed(READ, "big-endian, thickness only",
        u16=lambda self, at: int.from_bytes(self.data[at:at + 2], "big" if at >= 20 else "little"))
changed(READ, "32 bits unsigned", i32=lambda self, at: int.from_bytes(self.data[at:at + 4], "little"))
changed(READ, "sign and magnitude", i32=lambda self, at: (lambda n: -(n - 2 ** 31) if n >= 2 ** 31 else n)(
    int.from_bytes(self.data[at:at + 4], "little")))
changed(READ, "16 bits of 32", i32=lambda self, at: int.from_bytes(self.data[at:at + 2], "little", signed=True))
changed(READ, "sums wrap", add=lambda self, a, b: (a + b) & 65535)
changed(READ, "empty pairs pass", zero_length=lambda self, n: False)
changed(READ, "bytes after the last part pass", end_wrong=lambda self, at: at > len(self.data))
changed(READ, "a last part that runs out passes", end_wrong=lambda self, at: at < len(self.data))
changed(READ, "a last part that runs out is filled with zeros", read=lambda self, data: Model.read(
    self, data + bytes(max(0, int.from_bytes(data[16:18], "little") + int.from_bytes(data[18:20], "little")
                           - len(data))) if len(data) >= 100 else data))
changed(READ, "end not tested", end_wrong=lambda self, at: False)
changed(READ, "gaps pass", gap=lambda self, offset, at: offset < at)
changed(READ, "overlaps pass", gap=lambda self, offset, at: offset > at)
changed(READ, "first offset not tested", gap=lambda self, offset, at: at != 20 and offset != at)
changed(READ, "version not tested", test_version=lambda self: None)
for _what, _some in (
        ("0 accepted", (0, 1, 2)), ("3 accepted", (1, 2, 3)), ("1 refused", (2,)), ("2 refused", (1,)),
        ("up to 255 accepted", range(1, 256)), ("from 1 on accepted", range(1, 65536)), ("up to 2 accepted", range(3)),
        ("256 accepted", (1, 2, 256)), ("512 accepted", (1, 2, 512)), ("257 accepted", (1, 2, 257)), ("258 accepted", (1, 2, 258)),
        ("32,770 accepted", (1, 2, 32770)), ("65,535 accepted", (1, 2, 65535))):
    changed(READ, "version %s" % _what, versions=_some)


def read_version(taken):
    """The version taken otherwise: taken(number in bytes 0 and 1)."""
    def test_version(self):
        if taken(self.u16(0)) not in self.versions:
            raise Refused(2)

    def take_values(self):
        Model.take_values(self)
        self.version = taken(self.version)
    return {"test_version": test_version, "take_values": take_values}


changed(READ, "version by its low byte", **read_version(lambda n: n & 255))
changed(READ, "version by its high byte", **read_version(lambda n: n >> 8))
changed(READ, "version by either byte", **read_version(lambda n: n & 255 or n >> 8))
changed(READ, "version by both bytes together", **read_version(lambda n: n & 255 | n >> 8))
changed(READ, "version's high byte first", **read_version(lambda n: (n & 255) << 8 | n >> 8))
for _bits in (2, 3, 4, 7, 9, 12, 15):
    changed(READ, "version by its low %d bits" % _bits, **read_version(lambda n, most=2 ** _bits: n % most))
changed(READ, "version with a sign, its sign lost", **read_version(lambda n: min(n, 65536 - n)))
changed(READ, "versions exchanged", **read_version(lambda n: {1: 2, 2: 1}.get(n, n)))
changed(READ, "version 3 taken for 2", **read_version(lambda n: 2 if n == 3 else n))
for _number in (1, 3, 7):
    changed(READ, "unknown version is %d" % _number, test_version=lambda self, n=_number: (
        self.u16(0) not in self.versions and throw(n)))
changed(READ, "count not tested", test_count=lambda self: None)
changed(READ, "19 bytes enough", read=lambda self, data: Model.read(self, data + bytes(len(data) == 19)))
changed(READ, "unknown kind is 7", test_kinds=lambda self: (_ for _ in ()).throw(
    Refused(7 if set(self.parts) - {1, 2, 3, 4} else 5)) if set(self.parts) != {1, 2, 3, 4} else None)


@wrong(READ, "pairs sorted first")
class _(Model):
    def test_pairs(self):
        head = bytearray(self.data[:20])
        pairs = sorted((head[k:k + 4] for k in (4, 8, 12, 16)), key=lambda b: b[0] + 256 * b[1])
        self.data = bytes(head[:4]) + b"".join(bytes(p) for p in pairs) + self.data[20:]
        Model.test_pairs(self)


@wrong(READ, "kinds in fixed order only")
class _(Model):
    def test_kinds(self):
        if [self.data[o] for o, _ in self.pairs] != [1, 2, 3, 4]:
            raise Refused(5)


@wrong(READ, "kinds not tested, by place")
class _(Model):
    part_tests = ("test_lengths",)

    def sort_parts(self):
        self.parts = {k + 1: p for k, p in enumerate(self.pairs)}


@wrong(READ, "longer parts pass")
class _(Model):
    def test_lengths(self):
        for kind, want in ((1, 42), (2, 3), (4, 11)):
            if self.parts[kind][1] < want:
                raise Refused(6)
        o, n = self.parts[3]
        if n < 2 or n < 2 + 8 * self.data[o + 1]:
            raise Refused(6)


@wrong(READ, "number of dowels from the length")
class _(Model):
    def test_lengths(self):
        o, n = self.parts[3]
        if (n - 2) % 8 == 0 and 10 <= n <= 514:
            self.data = self.data[:o + 1] + bytes([(n - 2) // 8]) + self.data[o + 2:]
        Model.test_lengths(self)


@wrong(READ, "no dowels is 6")
class _(Model):
    def test_lengths(self):
        Model.test_lengths(self)
        if self.data[self.parts[3][0] + 1] == 0:
            raise Refused(6)


@wrong(READ, "65 dowels is 6")
class _(Model):
    def test_lengths(self):
        Model.test_lengths(self)
        if self.data[self.parts[3][0] + 1] > 64:
            raise Refused(6)


@wrong(READ, "position part of 1 byte not tested")
class _(Model):
    def test_lengths(self):
        o, n = self.parts[3]
        if n == 1:
            raise Refused(7)
        Model.test_lengths(self)


changed(READ, "x0 = x1 passes", empty=lambda self, low, high: low > high)
changed(READ, "outlines not tested", test_outlines=lambda self: None)


@wrong(READ, "outlines in x only")
class _(Model):
    def test_outlines(self):
        for x0, y0, x1, y1 in self.outline:
            if x0 >= x1:
                raise Refused(8)


@wrong(READ, "outline of member 1 only")
class _(Model):
    def test_outlines(self):
        x0, y0, x1, y1 = self.outline[0]
        if x0 >= x1 or y0 >= y1:
            raise Refused(8)


changed(READ, "force 0 not tested", test_force=lambda self: None)
changed(READ, "force 0 taken as 1 N", test_force=lambda self: setattr(
    self, "force", (1, 0) if self.force == (0, 0) else self.force))


@wrong(READ, "one component 0 refused")
class _(Model):
    def test_force(self):
        if 0 in self.force:
            raise Refused(9)


for _field, (_low, _high) in Model.limits.items():
    for _side, _by in ((0, -1), (0, 1), (1, -1), (1, 1)):
        if _field == "grain" and (_side, _by) == (0, -1):
            continue                    # a u8 below 0: no such byte
        _limit = [_low, _high]
        _limit[_side] += _by
        if _field in ("p", "class", "grain", "diameter", "steel", "count", "service", "duration") \
                and _limit[0] < 0:
            continue
        # the tables go on a little, so that a wider limit gives an answer and no crash
        changed("limits", "%s from %d to %d" % (_field, _limit[0], _limit[1]),
                limits=dict(Model.limits, **{_field: tuple(_limit)}),
                density=Model.density | {0: 350, 12: 350}, fu=Model.fu | {0: 360, 4: 510},
                kmod_dry=Model.kmod_dry + (110,), kmod_wet=Model.kmod_wet + (90,),
                twice_t=lambda self: Model.twice_t(self) or 1)

# -------------------------------------------------------------------------- capacity

CAP = "capacity"
changed(CAP, "the other member's angle", bearing_squares=lambda self, m: self.squares(1 - m))
changed(CAP, "member 2's angle for both bearings", bearing_squares=lambda self, m: self.squares(1))
changed(CAP, "sine and cosine exchanged", bearing_squares=lambda self, m: (
    self.squares(m)[1], self.squares(m)[0], self.squares(m)[2]))
changed(CAP, "k90 = 1 for d <= 8", k90=lambda self, m: 1000 if self.d <= 8 else Model.k90(self, m))
changed(CAP, "k90 = 1 for d <= 6", k90=lambda self, m: 1000 if self.d <= 6 else Model.k90(self, m))
changed(CAP, "k90 without d", k90=lambda self, m: Model.k90(self, m) - 15 * self.d)
changed(CAP, "s and c exchanged", s_squared=Model.c_squared, c_squared=Model.s_squared)
changed(CAP, "s for both", c_squared=Model.s_squared)
changed(CAP, "c for both", s_squared=Model.c_squared)
changed(CAP, "first term only", capacity=lambda self: self.terms()[0])
changed(CAP, "first term left out", capacity=lambda self: min(self.terms()[1:]))
changed(CAP, "second term left out", capacity=lambda self: min(self.terms()[::2]))
changed(CAP, "third term left out", capacity=lambda self: min(self.terms()[:2]))
changed(CAP, "third term of p = 1 for p = 2", third_term=lambda self, f1, f2:
        self.bent(f2, self.t[1], *self.c_squared(f1, f2)))
changed(CAP, "third term of p = 2 for p = 1", third_term=lambda self, f1, f2: self.middle(f2))
changed(CAP, "middle member not halved", middle=lambda self, f2: f2[0] * self.d * self.t[1] // (10 * f2[1]))
changed(CAP, "thicknesses exchanged", terms=lambda self: (self.t.reverse(), Model.terms(self))[1])
changed(CAP, "one density for both", terms=lambda self: (self.cls.__setitem__(1, self.cls[0]),
                                                         Model.terms(self))[1])
changed(CAP, "classes exchanged", terms=lambda self: (self.cls.reverse(), Model.terms(self))[1])
changed(CAP, "M with d to the 2.5", d_to_13=lambda self: isqrt(self.d ** 25))
changed(CAP, "M with d to the 3", d_to_13=lambda self: self.d ** 15)
changed(CAP, "M 1 % high", moment_factor=lambda self: 3 * self.fu[self.steel] * 101 // 100)
changed(CAP, "M with 0.8 fu d^3/6 of older papers",
        first_term=lambda self, f1, f2: self.root10(
            23 ** 10 * (self.d * f1[0] * f2[0]) ** 5 * (8 * self.fu[self.steel] * self.d ** 3) ** 5,
            (f1[0] * f2[1] + f2[0] * f1[1]) ** 5 * 10 ** 10 * 60 ** 5))
changed(CAP, "2 for 2.3", root10=lambda self, num, den: Model.root10(self, num * 20 ** 10, den * 23 ** 10))
changed(CAP, "rounded up", capacity=lambda self: min(self.terms()) + 1)
changed(CAP, "2 below", capacity=lambda self: min(self.terms()) - 2)


@wrong(CAP, "2 below the next whole number (shows on exact ties)")
class _(Model):
    def figures(self):
        use, cap, share = Model.figures(self)
        self.scale = 1 << 60
        fine = min(self.terms())
        self.scale = 1
        return use, ceil_div(fine, 1 << 60) - 2 if fine % (1 << 60) == 0 else cap, share


@wrong(CAP, "floor of a value a hair low (strict at exact ties, 2 off)")
class _(Model):
    def capacity(self):
        self.scale = 1 << 60
        fine = min(self.terms())
        self.scale = 1
        return (fine - 1 >> 60) - 1


changed(CAP, "halved for a lone dowel", print_answer=lambda self, u, c, e:
        Model.print_answer(self, u, c // 2 if self.n == 1 else c, e))
changed(CAP, "of both planes", print_answer=lambda self, u, c, e: Model.print_answer(self, u, c * self.p, e))
changed(CAP, "of the joint", print_answer=lambda self, u, c, e: Model.print_answer(self, u, c * self.n, e))
changed(CAP, "design value", print_answer=lambda self, u, c, e:
        Model.print_answer(self, u, c * self.kmod() // 130, e))
changed(CAP, "fifth root at whole numbers only", root10=lambda self, num, den:
        Model.root10(self, num // den // 10 ** 10, 1) * 10)
for _c in Model.density:
    for _by in (-5, 5):
        changed("tables", "density of class %d by %d" % (_c, _by),
                density=Model.density | {_c: Model.density[_c] + _by})
    changed("tables", "class %d of the other kind" % _c, hardwood=Model.hardwood ^ {_c})
for _s in Model.fu:
    changed("tables", "fu of steel %d by 10" % _s, fu=Model.fu | {_s: Model.fu[_s] + 10})
for _k in range(5):
    for _table in ("kmod_dry", "kmod_wet"):
        for _by in (-5, 5):
            _new = list(getattr(Model, _table))
            _new[_k] += _by
            changed("tables", "%s of duration %d by %d" % (_table, _k + 1, _by), **{_table: tuple(_new)})

# -------------------------------------------------------------------------- hardwood

WOOD = "hardwood"


def mixed(self):
    return len({c in self.hardwood for c in self.cls}) == 2


def accepts_in(m, classes):
    """Member m's class is one of these."""
    def test_fields(self):
        kept = self.cls[m]
        self.cls[m] = 1 if kept in classes else 0
        Model.test_fields(self)
        self.cls[m] = kept
    return test_fields


changed(WOOD, "softwood's k90 for hardwood", hardwood=set())
changed(WOOD, "hardwood's k90 for softwood", hardwood=set(Model.density))
changed(WOOD, "k90 of member 1 for both", k90=lambda self, m: Model.k90(self, 0))
changed(WOOD, "k90 of member 2 for both", k90=lambda self, m: Model.k90(self, 1))
changed(WOOD, "k90 exchanged between the members", k90=lambda self, m: Model.k90(self, 1 - m))
changed(WOOD, "softwood's k90 in mixed joints", k90=lambda self, m: 1350 + 15 * self.d if mixed(self)
        else Model.k90(self, m))
changed(WOOD, "hardwood's k90 in mixed joints", k90=lambda self, m: 900 + 15 * self.d if mixed(self)
        else Model.k90(self, m))
changed(WOOD, "k90 not below 1", k90=lambda self, m: max(1000, Model.k90(self, m)))
changed(WOOD, "k90 = 1 for hardwood", k90=lambda self, m: 1000 if self.cls[m] in self.hardwood else Model.k90(self, m))
changed(WOOD, "class 9 refused still", limits=dict(Model.limits, **{"class": (1, 8)}))
for _m in (0, 1):
    for _c in (0, 9, 10, 11, 12, 255):
        _says = "refused still" if _c in Model.density else "accepted"
        changed(WOOD, "class %d %s in member %d" % (_c, _says, _m + 1),
                test_fields=accepts_in(_m, set(Model.density) ^ {_c}), density={_c: 350} | Model.density)
for _c, _other in ((9, 10), (10, 9), (10, 11), (11, 10), (9, 8), (8, 9)):
    changed(WOOD, "density of class %d for %d" % (_other, _c), density=Model.density | {_c: Model.density[_other]})

# ------------------------------------------------------------------------------ rows

ROWS = "rows"


def along_gaps(self, m, row):
    """from each dowel of the list to the next one in it, along"""
    places = [self.along(m, k) for k in row]
    return [abs(b - a) for a, b in zip(places, places[1:])]


changed(ROWS, "a1 the greatest distance", a1=lambda self, gaps: max(gaps))
changed(ROWS, "a1 the mean distance", a1=lambda self, gaps: sum(gaps) // len(gaps))
changed(ROWS, "a1 the first distance", a1=lambda self, gaps: gaps[0])
changed(ROWS, "a1 in whole mm", a1=lambda self, gaps: min(gaps) // 10 * 10)
changed(ROWS, "a1 from dowels in record order", gaps=lambda self, m, row: along_gaps(self, m, sorted(row)))
changed(ROWS, "rows by the along coordinate", row_axes=lambda self, m, xy: self.axes(m, xy)[::-1])
changed(ROWS, "rows of member 1 for both", row_axes=lambda self, m, xy: self.axes(0, xy))
changed(ROWS, "rows of member 2 for both", row_axes=lambda self, m, xy: self.axes(1, xy))
changed(ROWS, "all dowels one row", row_axes=lambda self, m, xy: (self.axes(m, xy)[0], 0),
        a1=lambda self, gaps: min([g for g in gaps if g] or [1]))
changed(ROWS, "first row only", rows=lambda self, m: Model.rows(self, m)[:1])
changed(ROWS, "longest row only", rows=lambda self, m: sorted(Model.rows(self, m))[-1:])
changed(ROWS, "share of member 1 only", share=lambda self, shares: shares[0])
changed(ROWS, "share of member 2 only", share=lambda self, shares: shares[1])
changed(ROWS, "greatest share", share=lambda self, shares: max(shares))
changed(ROWS, "product of the shares", share=lambda self, shares: shares[0] * shares[1] // 10000)
changed(ROWS, "mean of the shares", share=lambda self, shares: sum(shares) // 2)
changed(ROWS, "effective number above n", at_most_n=lambda self, share: share)
changed(ROWS, "effective number never above n - 1", row_share=lambda self, n, a1:
        min(Model.row_share(self, n, a1), (n - 1) * 10000 // n))
changed(ROWS, "n to the 0.9 forgotten", row_share=lambda self, n, a1: Model.row_share(self, 1, a1))
changed(ROWS, "a1 over 10d", row_share=lambda self, n, a1: Model.row_share(self, n, a1 * 13 // 10))
changed(ROWS, "square root for fourth root", root20=lambda self, n: isqrt(Model.root20(self, n) ** 2)
        * Model.root20(self, n) // 10000)
changed(ROWS, "rows skipped where the force is across", rows=lambda self, m:
        Model.rows(self, m) if self.axes(m, self.force)[0] else [])
changed(ROWS, "share rounded up", share=lambda self, shares: min(shares) + 1)
changed(ROWS, "share 2 below", share=lambda self, shares: min(shares) - 2)
changed(ROWS, "share 2 below where it is exact", share=lambda self, shares:
        min(shares) - 2 * (min(shares) in (5000, 10000)))
changed(ROWS, "the effective number printed", print_answer=lambda self, u, c, e:
        Model.print_answer(self, u, c, e * self.n))
changed(ROWS, "the share of all dowels", print_answer=lambda self, u, c, e:
        Model.print_answer(self, u, c, min(10000, e * 101 // 100)))

# ---------------------------------------------------------------- rows of dowels out of line

LINE = "out of line"


def at_least_one(self, gaps):
    """A tenth where two dowels of a wrong row have one place along: an answer and no crash."""
    return max(1, min(gaps))


def limit(name, near):
    """Another reach of a row."""
    changed(LINE, name, near=near, a1=at_least_one)


limit("at most d for less than d", lambda self, c: c <= 10 * self.d)
limit("one tenth less than d", lambda self, c: c < 10 * self.d - 1)
limit("rows as 01 had them: the same across", lambda self, c: c == 0)
limit("a hair only: less than a millimetre", lambda self, c: c < 10)
limit("d taken as tenths", lambda self, c: c < self.d)
limit("less than d/2", lambda self, c: 2 * c < 10 * self.d)
limit("less than 2d", lambda self, c: c < 20 * self.d)
limit("less than 3d", lambda self, c: c < 30 * self.d)
limit("less than 5d", lambda self, c: c < 50 * self.d)
limit("less than d + 1 mm, the hole", lambda self, c: c < 10 * self.d + 10)
limit("in whole mm, rounded up", lambda self, c: ceil_div(c, 10) < self.d)
limit("less than 12 mm whatever d is", lambda self, c: c < 120)


def sets(name, row_sets):
    """Other sets of dowels as rows."""
    changed(LINE, name, row_sets=row_sets, a1=at_least_one)


def cut(order, near):
    """The list cut where near(row so far, next) fails."""
    out = []
    for k in order:
        if out and near(out[-1], k):
            out[-1].append(k)
        else:
            out.append([k])
    return out


def near_two(self, m, i, k):
    return self.near(abs(self.across(m, i) - self.across(m, k)))


sets("chained neighbours as one row", lambda self, m: cut(
    self.across_order(m), lambda row, k: near_two(self, m, row[-1], k)))
sets("cut greedily from the lowest", lambda self, m: cut(
    self.across_order(m), lambda row, k: near_two(self, m, row[0], k)))
sets("cut greedily from the highest", lambda self, m: cut(
    self.across_order(m)[::-1], lambda row, k: near_two(self, m, row[0], k)))
sets("cut greedily in record order", lambda self, m: cut(
    range(self.n), lambda row, k: all(near_two(self, m, i, k) for i in row)))
sets("chained in record order", lambda self, m: cut(
    range(self.n), lambda row, k: near_two(self, m, row[-1], k)))
sets("cut greedily along", lambda self, m: cut(
    sorted(range(self.n), key=lambda k: self.along(m, k)), lambda row, k: all(near_two(self, m, i, k) for i in row)))
sets("chained along", lambda self, m: cut(
    sorted(range(self.n), key=lambda k: self.along(m, k)), lambda row, k: near_two(self, m, row[-1], k)))


def gathered(self, taken_by):
    """Each dowel not yet in a row starts one, with those of the rest for which taken_by(it, other)."""
    rest, out = list(range(self.n)), []
    while rest:
        row = [k for k in rest if k == rest[0] or taken_by(rest[0], k)]
        rest = [k for k in rest if k not in row]
        out.append(row)
    return out


sets("each dowel in one row, from the first listed", lambda self, m: gathered(
    self, lambda i, k: near_two(self, m, i, k)))
sets("each dowel in one row, upwards from the first listed", lambda self, m: gathered(
    self, lambda i, k: self.across(m, i) <= self.across(m, k) and near_two(self, m, i, k)))


def in_one_row_only(rows):
    """The rows in turn, each without the dowels of those before it."""
    seen, out = set(), []
    for row in rows:
        row = [k for k in row if k not in seen]
        seen.update(row)
        out.append(row)
    return out


sets("a dowel in several rows counted in the lowest", lambda self, m: in_one_row_only(Model.row_sets(self, m)))
sets("a dowel in several rows counted in the highest",
     lambda self, m: in_one_row_only(Model.row_sets(self, m)[::-1]))
sets("a dowel in several rows counted in the longest",
     lambda self, m: in_one_row_only(sorted(Model.row_sets(self, m), key=len, reverse=True)))
sets("a dowel in several rows counted in none", lambda self, m: (lambda rows: [
    [k for k in row if sum(k in other for other in rows) == 1] for row in rows])(Model.row_sets(self, m)))
sets("d to both sides of each dowel", lambda self, m: [
    [k for k in range(self.n) if near_two(self, m, i, k)] for i in range(self.n)])
sets("d/2 to both sides of each dowel", lambda self, m: [
    [k for k in range(self.n) if 2 * abs(self.across(m, i) - self.across(m, k)) < 10 * self.d] for i in range(self.n)])
sets("upwards from each dowel, those listed after it only", lambda self, m: [
    [k for k in range(i, self.n) if 0 <= self.across(m, k) - self.across(m, i) and near_two(self, m, i, k)]
    for i in range(self.n)])
sets("near to the first listed dowel of each row", lambda self, m: [
    [k for k in range(i, self.n) if near_two(self, m, i, k)] for i in range(self.n)])
sets("the distance across signed", lambda self, m: [
    [k for k in range(self.n) if self.across(m, k) - self.across(m, i) < 10 * self.d] for i in range(self.n)])
sets("each two near dowels a row of two", lambda self, m: [
    [i, k] for i in range(self.n) for k in range(i) if near_two(self, m, i, k)])
sets("neighbours across, rows of two", lambda self, m: [
    [i, k] for i, k in zip(self.across_order(m), self.across_order(m)[1:]) if near_two(self, m, i, k)])
sets("one dowel of each place across", lambda self, m: [
    list({self.across(m, k): k for k in row}.values()) for row in Model.row_sets(self, m)])


def bands(self, m, whole):
    """Bands d wide, fixed in the drawing."""
    out = {}
    for k in range(self.n):
        out.setdefault(whole(self.across(m, k), 10 * self.d), []).append(k)
    return list(out.values())


sets("bands d wide from 0", lambda self, m: bands(self, m, lambda c, d: c // d))
sets("bands d wide, rounded to nearest", lambda self, m: bands(self, m, lambda c, d: (2 * c + d) // (2 * d)))
sets("bands d wide, cut towards 0", lambda self, m: bands(self, m, lambda c, d: abs(c) // d))
sets("bands d wide from the lowest dowel", lambda self, m: bands(
    self, m, lambda c, d: (c - min(self.across(m, k) for k in range(self.n))) // d))
sets("bands d wide from the outline", lambda self, m: bands(
    self, m, lambda c, d: (c - self.axes(m, self.outline[m][:2])[1]) // d))

sets("the lowest row only", lambda self, m: Model.row_sets(self, m)[:1])
sets("the highest row only", lambda self, m: Model.row_sets(self, m)[-1:])
sets("the lowest and the highest row only", lambda self, m: (lambda rows: rows[:1] + rows[-1:])(Model.row_sets(self, m)))
sets("the highest row left out", lambda self, m: Model.row_sets(self, m)[:-1] or Model.row_sets(self, m))
sets("every second row", lambda self, m: Model.row_sets(self, m)[::2])
sets("the row of the first dowel only", lambda self, m: [row for row in Model.row_sets(self, m) if 0 in row])
sets("the lowest dowel of a row left out", lambda self, m: [row[1:] for row in Model.row_sets(self, m)])
sets("the highest dowel of a row of several left out", lambda self, m: [
    row[:-1] if len(row) > 2 else row for row in Model.row_sets(self, m)])
sets("at most 8 dowels in a row", lambda self, m: [row[:8] for row in Model.row_sets(self, m)])
sets("at most 32 dowels in a row", lambda self, m: [row[:32] for row in Model.row_sets(self, m)])
sets("at most 63 dowels in a row", lambda self, m: [row[:63] for row in Model.row_sets(self, m)])
sets("rows of member 1, measured along each member", lambda self, m: Model.row_sets(self, 0))
sets("rows of member 2, measured along each member", lambda self, m: Model.row_sets(self, 1))
sets("the other member's rows, measured along each member", lambda self, m: Model.row_sets(self, 1 - m))
sets("rows by y in both members", lambda self, m: Model.row_sets(self, self.grain.index(0) if 0 in self.grain else m))
sets("along for across", lambda self, m: (lambda order: cut(
    order, lambda row, k: abs(self.along(m, row[0]) - self.along(m, k)) < 10 * self.d))(
        sorted(range(self.n), key=lambda k: self.along(m, k))))
sets("straight distance below d", lambda self, m: gathered(self, lambda i, k: (
    self.along(m, i) - self.along(m, k)) ** 2 + (self.across(m, i) - self.across(m, k)) ** 2 < 100 * self.d ** 2))


def distance(name, gaps):
    changed(LINE, name, gaps=gaps)


def pairs(row):
    return [(i, k) for at, i in enumerate(row) for k in row[:at]]


distance("a1: neighbours across only", along_gaps)
distance("a1: from the lowest dowel only", lambda self, m, row: [
    abs(self.along(m, k) - self.along(m, row[0])) for k in row[1:]])
distance("a1: from the first listed dowel only", lambda self, m, row: [
    abs(self.along(m, k) - self.along(m, min(row))) for k in row if k != min(row)])
distance("a1: lowest to highest", lambda self, m, row: [abs(self.along(m, row[-1]) - self.along(m, row[0]))])
distance("a1: the straight distance", lambda self, m, row: [isqrt(
    (self.along(m, i) - self.along(m, k)) ** 2 + (self.across(m, i) - self.across(m, k)) ** 2) for i, k in pairs(row)])
distance("a1: along plus across", lambda self, m, row: [
    abs(self.along(m, i) - self.along(m, k)) + abs(self.across(m, i) - self.across(m, k)) for i, k in pairs(row)])
distance("a1: over the whole member", lambda self, m, row: [
    g for g in Model.gaps(self, m, range(self.n)) if g] or Model.gaps(self, m, row))
distance("a1: dowels of the same across only", lambda self, m, row: [
    abs(self.along(m, i) - self.along(m, k)) for i, k in pairs(row) if self.across(m, i) == self.across(m, k)]
    or [10 ** 6])
distance("a1: dowels of another across only", lambda self, m, row: [
    abs(self.along(m, i) - self.along(m, k)) for i, k in pairs(row) if self.across(m, i) != self.across(m, k)]
    or Model.gaps(self, m, row))
distance("a1: of dowels in no other row", lambda self, m, row: Model.gaps(self, m, [
    k for k in row if sum(k in other for other in self.row_sets(m)) == 1]) or Model.gaps(self, m, row))
distance("a1: at most 13d", lambda self, m, row: [min(g, 130 * self.d) for g in Model.gaps(self, m, row)])
distance("a1: at least 5d", lambda self, m, row: [max(g, 50 * self.d) for g in Model.gaps(self, m, row)])
distance("a1: along the other member", lambda self, m, row: [g for g in Model.gaps(self, 1 - m, row) if g] or [1])
distance("a1: along member 1", lambda self, m, row: [g for g in Model.gaps(self, 0, row) if g] or [1])


def figures_of(name, change):
    """(n, a1) of the rows changed: change(list of rows) -> list of rows."""
    changed(LINE, name, rows=lambda self, m: change(Model.rows(self, m)))


figures_of("n of the longest row for all", lambda rows: [(max(rows)[0], a1) for _, a1 in rows])
figures_of("n of the shortest row for all", lambda rows: [(min(rows)[0], a1) for _, a1 in rows])
figures_of("a1 of the closest row for all", lambda rows: [(n, min(a1 for _, a1 in rows)) for n, _ in rows])
figures_of("the row of the least a1 only", lambda rows: sorted(rows, key=lambda row: row[1])[:1])
figures_of("rows of two left out", lambda rows: [row for row in rows if row[0] > 2])
changed(LINE, "n: places across", number_in=lambda self, row: max(2, len({self.xy[k][1 - self.grain[0]] for k in row})))
changed(LINE, "n: all dowels", number_in=lambda self, row: self.n)
changed(LINE, "n: one less", number_in=lambda self, row: max(2, len(row) - 1))


def by_01(self, m):
    """The share of member m with rows as 01 had them."""
    self.near = lambda c: c == 0
    try:
        return Model.member_share(self, m)
    finally:
        del self.near


changed(LINE, "share by 01's rows, use by 02's", share=lambda self, shares: min(by_01(self, 0), by_01(self, 1)))
changed(LINE, "use by 01's rows, share by 02's",
        use=lambda self, cap, shares: Model.use(self, cap, (by_01(self, 0), by_01(self, 1))))
changed(LINE, "02's rows in member 1 only", member_share=lambda self, m: by_01(self, 1) if m else Model.member_share(self, 0))
changed(LINE, "02's rows in member 2 only", member_share=lambda self, m: Model.member_share(self, 1) if m else by_01(self, 0))

# ------------------------------------------------------------------------------- use

USE = "use"
changed(USE, "gamma 1", gamma=lambda self: 100)
changed(USE, "gamma 1.25", gamma=lambda self: 125)
changed(USE, "service class 2 as 3", kmod=lambda self: (
    self.kmod_dry if self.service == 1 else self.kmod_wet)[self.duration - 1])
changed(USE, "service class not looked at", kmod=lambda self: self.kmod_dry[self.duration - 1])
changed(USE, "duration reversed", kmod=lambda self: (
    self.kmod_wet if self.service == 3 else self.kmod_dry)[5 - self.duration])
changed(USE, "one shear plane always", twice_t=lambda self: 2 * self.n if self.n > 1 else 1)
changed(USE, "two shear planes always", twice_t=lambda self: 4 * self.n if self.n > 1 else 2)
changed(USE, "lone dowel counts a quarter", up=lambda self, a, b: ceil_div(a * (2 if self.n == 1 else 1), b))
changed(USE, "single rows count half", twice_t=lambda self: (
    self.n * self.p if all(not self.rows(m) for m in (0, 1)) else 2 * self.n * self.p))
changed(USE, "one dowel less", twice_t=lambda self: 2 * max(1, self.n - 1) * self.p if self.n > 1 else self.p)
changed(USE, "force rounded up to a newton", force_size=lambda self: ceil_div(Model.force_size(self), 1 << 40) << 40)
changed(USE, "force rounded down to a newton", force_size=lambda self: Model.force_size(self) >> 40 << 40)
changed(USE, "sum of the components", force_size=lambda self: sum(map(abs, self.force)) << 40)
changed(USE, "greater component", force_size=lambda self: max(map(abs, self.force)) << 40)
changed(USE, "x only", force_size=lambda self: abs(self.force[0]) << 40)
changed(USE, "row check left out", row_check=lambda self, m: False)
changed(USE, "row check in member 1 only", row_check=lambda self, m: m == 0)
changed(USE, "row check in member 2 only", row_check=lambda self, m: m == 1)
changed(USE, "row check left out above 40 degrees", row_check=lambda self, m: (lambda a2, c2, f2:
        c2 * 1000000 <= 413176 * f2)(*self.squares(m)))
changed(USE, "row check left out above 45 degrees", row_check=lambda self, m: (lambda a2, c2, f2:
        c2 <= a2)(*self.squares(m)))
changed(USE, "total check left out", total_check=lambda self: False)
changed(USE, "row check with the whole force", row_force=lambda self, m: isqrt(sum(f * f for f in self.force)))
changed(USE, "row check with the component across", row_force=lambda self, m: abs(self.axes(m, self.force)[1]))
changed(USE, "row check with the signed component", row_force=lambda self, m:
        self.sign(m) * self.axes(m, self.force)[0])
changed(USE, "row check with the signed component, member 2", row_force=lambda self, m:
        self.axes(m, self.force)[0])
changed(USE, "row check with the least share of both", use=lambda self, cap, shares:
        Model.use(self, cap, (min(shares),) * 2))
changed(USE, "shares exchanged", use=lambda self, cap, shares: Model.use(self, cap, shares[::-1]))
changed(USE, "checks added", use=lambda self, cap, shares: Model.use(self, cap, shares)
        + Model.use(self, cap, (10000, 10000)))
changed(USE, "rounded down", up=lambda self, a, b: a // b)
changed(USE, "rounded to nearest", up=lambda self, a, b: (2 * a + b) // (2 * b))
changed(USE, "1 % high", up=lambda self, a, b: ceil_div(a * 101, b * 100))
changed(USE, "0.6 % high", up=lambda self, a, b: ceil_div(a * 1006, b * 1000))
changed(USE, "3 too high", up=lambda self, a, b: ceil_div(a, b) + 3)
changed(USE, "0.1 % low", up=lambda self, a, b: ceil_div(a * 999, b * 1000))
changed(USE, "0 for a tiny force", use=lambda self, cap, shares: (lambda u: 0 if u < 3 else u)(
    Model.use(self, cap, shares)))
changed(USE, "cut at 65,535", use=lambda self, cap, shares: min(65535, Model.use(self, cap, shares)))
changed(USE, "cut at 10,001", use=lambda self, cap, shares: min(10001, Model.use(self, cap, shares)))
changed(USE, "below the exact tie", use=lambda self, cap, shares: (lambda u: u - (u % 1000 == 0))(
    Model.use(self, cap, shares)))
changed(USE, "fits below 10,000 only", fits=lambda self, use: use < 10000)
changed(USE, "fits up to 10,001", fits=lambda self, use: use <= 10001)
changed(USE, "fits up to 10,050", fits=lambda self, use: use <= 10050)
changed(USE, "always fits", fits=lambda self, use: True)
changed(USE, "always overloaded", fits=lambda self, use: False)
changed(USE, "verdict turned round", fits=lambda self, use: use > 10000)

# -------------------------------------------------------------------------- printing

PRINT = "printing"
changed(PRINT, "no newline", judge=lambda self, data: Model.judge(self, data)[:-1])
changed(PRINT, "carriage return", judge=lambda self, data: Model.judge(self, data)[:-1] + "\r\n")
changed(PRINT, "two newlines", judge=lambda self, data: Model.judge(self, data) + "\n")
changed(PRINT, "leading zeros", print_answer=lambda self, u, c, e:
        "%s %05d %05d %05d\n" % ("fits" if u <= 10000 else "overloaded", u, c, e))
changed(PRINT, "order C U E", print_answer=lambda self, u, c, e:
        "%s %d %d %d\n" % ("fits" if u <= 10000 else "overloaded", c, u, e))
changed(PRINT, "order U E C", print_answer=lambda self, u, c, e:
        "%s %d %d %d\n" % ("fits" if u <= 10000 else "overloaded", u, e, c))
changed(PRINT, "number only on refusals", print_refusal=lambda self, n, m, i, j: "refused %d\n" % n)
changed(PRINT, "no 4,096 rule", most=10 ** 9)
changed(PRINT, "4,096 bytes refused", most=4095)
changed(PRINT, "4,097 bytes judged", most=4097)
changed(PRINT, "cut to 4,096 bytes and judged", answer=lambda self, data: Model.answer(self, data[:4096]))
changed(PRINT, "too long is 1", answer=lambda self, data: (_ for _ in ()).throw(Refused(1))
        if len(data) > 4096 else Model.answer(self, data))
changed(PRINT, "too long only if nothing else", answer=lambda self, data: (
    Model.answer(self, data) if len(data) <= 4096 else (setattr(self, "most", 10 ** 9), Model.answer(self, data))[1]))

# -------------------------------------------------------------------------- writing

WRITE = "writing"


def miswrites(name, group=WRITE, **methods):
    WRONG_WRITERS.append((group, name, type("Wrong", (Model,), methods)))


def retaken(change):
    """The values handed over, changed before anything is tested."""
    def take_handed(self, fields, x, y, marks):
        Model.take_handed(self, *change(list(fields), list(x), list(y), list(marks)))
    return take_handed


def after(change):
    """What is written, changed: change(buffer, length)."""
    def fill(self, buffer, record):
        Model.fill(self, buffer, record)
        change(buffer, len(record))
    return fill


def rerecorded(change):
    """The record's bytes, changed: change(self, bytearray)."""
    def record(self):
        out = bytearray(Model.record(self))
        return bytes(change(self, out) or out)
    return record


def refusing(change):
    def refuse_write(self, number, buffer, answer):
        Model.refuse_write(self, number, buffer, answer)
        change(self, number, buffer, answer)
    return refuse_write


def rewritten(change, refused=None):
    """Whatever came: change(fields, x, y, marks, buffer, answer), where the number is 0 or is not."""
    def write(self, *lent):
        code = Model.write(self, *lent)
        if code == 0 and refused in (None, lent[5][0] != 0):
            change(*lent)
        return code
    return write


def set_to(which, at, z):
    return lambda *lent: lent[which].__setitem__(at, z) if len(lent[which]) > at else None


def one_less(entry, which, need):
    """The entry takes need - 1 numbers of a slice for enough."""
    def call(self, *lent):
        if len(lent[which]) != need - 1:
            return entry(self, *lent)
        longer = [z if k != which else list(z) + [0] for k, z in enumerate(lent)]
        code = entry(self, *longer)
        lent[which][:] = longer[which][:-1]
        return code
    return call


def narrowed(places, bits):
    """Numbers at these places taken by their low bits only."""
    def change(fields, x, y, marks):
        for at in places:
            fields[at] = fields[at] % 2 ** bits
        return fields, x, y, marks
    return retaken(change)


def moved(order):
    """The writer's tests in another order, by name."""
    return tuple("test_" + name for name in order.split())


def wider(byteorder, width):
    return lambda self, n, w: (n % 256 ** w).to_bytes(w, byteorder if w == width else "little")


def exchange(a, b):
    def change(fields, x, y, marks):
        fields[a], fields[b] = fields[b], fields[a]
        return fields, x, y, marks
    return retaken(change)


miswrites("refuses all, 7", writer_tests=("test_no",), test_no=lambda self: (_ for _ in ()).throw(Refused(7)))
miswrites("refuses all that it could write, 13", record_length=lambda self: 10 ** 9)
miswrites("four dowels at 0, 0 always", record=lambda self: Model.record(self)[:67] + bytes(32) + Model.record(self)[-11:])
miswrites("writes nothing", fill=lambda self, buffer, record: None)
miswrites("writes zeros", fill=lambda self, buffer, record: Model.fill(self, buffer, bytes(len(record))))
miswrites("adds to what stood there", fill=lambda self, buffer, record: Model.fill(
    self, buffer, bytes(a | b for a, b in zip(buffer, record))))
miswrites("x and y exchanged", take_handed=retaken(lambda f, x, y, m: (f, y, x, m)))
miswrites("all x, then all y", part=lambda self, kind: Model.part(self, kind) if kind != 3 else
          bytes([3, self.n]) + b"".join(self.number(z, 4) for line in self.lists[:2] for z in line))
miswrites("dowels reversed", take_handed=retaken(lambda f, x, y, m: (f, x[::-1], y[::-1], m)))
miswrites("dowel 1 left as it was", part=lambda self, kind: Model.part(self, kind) if kind != 3 else
          bytes([3, self.n]) + bytes(8) + Model.part(self, 3)[10:])
miswrites("last dowel zeros", part=lambda self, kind: Model.part(self, kind) if kind != 3 else
          Model.part(self, 3)[:-8] + bytes(8))
miswrites("big-endian", number=lambda self, n, w: (n % 256 ** w).to_bytes(w, "big"))
miswrites("big-endian, 16 bits only", number=wider("big", 2))
miswrites("big-endian, 32 bits only", number=wider("big", 4))
miswrites("big-endian both ways", byteorder="big")
miswrites("sign lost", number=lambda self, n, w: abs(n).to_bytes(w, "little"))
miswrites("sign and magnitude", number=lambda self, n, w: (abs(n) | (2 ** 31 if n < 0 else 0)).to_bytes(w, "little"))
miswrites("sign lost in y0 of member 2", take_handed=retaken(lambda f, x, y, m: (f[:17] + [abs(f[17])] + f[18:], x, y, m)))
miswrites("sign lost in x", take_handed=retaken(lambda f, x, y, m: (f, [abs(z) for z in x], y, m)))
miswrites("sign lost in fy", take_handed=retaken(lambda f, x, y, m: (f[:26] + [abs(f[26])], x, y, m)))
miswrites("low 16 bits of coordinates", number=lambda self, n, w: (n % 65536).to_bytes(w, "little") if w == 4 and n > 0
          else Model.number(self, n, w))
for _a, _b, _what in ((2, 11, "classes"), (3, 12, "grains"), (6, 15, "thicknesses"), (7, 9, "x0 and x1 of member 1"),
                      (7, 8, "x0 and y0 of member 1"), (18, 19, "x1 and y1 of member 2"), (20, 21, "diameter and steel"),
                      (23, 24, "service class and duration"), (25, 26, "fx and fy"), (1, 23, "planes and service class")):
    miswrites("%s exchanged" % _what, take_handed=exchange(_a, _b))
miswrites("members exchanged", take_handed=retaken(lambda f, x, y, m: (f[:2] + f[11:20] + f[2:11] + f[20:], x, y, m)))
miswrites("member 1 twice", take_handed=retaken(lambda f, x, y, m: (f[:11] + f[2:11] + f[20:], x, y, m)))
for _order in ((2, 1, 3, 4), (4, 3, 2, 1), (1, 2, 4, 3), (1, 3, 2, 4)):
    miswrites("parts in the order %s" % (_order,), kind_order=_order)
miswrites("pairs in another order than the parts", pair_of=lambda self, at, n: Model.pair_of(
    self, *{20: (62, 3), 62: (20, 42)}.get(at, (at, n))))
miswrites("offsets from the first part", pair_of=lambda self, at, n: Model.pair_of(self, at - 20, n))
miswrites("ends for lengths", pair_of=lambda self, at, n: Model.pair_of(self, at, at + n))
miswrites("lengths for offsets", pair_of=lambda self, at, n: Model.pair_of(self, n, at))
miswrites("lengths in one byte", pair_of=lambda self, at, n: Model.pair_of(self, at, n & 255))
miswrites("offsets in one byte", pair_of=lambda self, at, n: Model.pair_of(self, at & 255, n))
miswrites("version 2 written always", record=rerecorded(lambda self, out: out.__setitem__(0, 2)))
miswrites("version 1 written always", record=rerecorded(lambda self, out: out.__setitem__(0, 1)))
miswrites("version 0 written", record=rerecorded(lambda self, out: out.__setitem__(0, 0)))
miswrites("the versions exchanged", record=rerecorded(lambda self, out: out.__setitem__(0, 3 - self.version)))
miswrites("version's bytes exchanged", record=rerecorded(lambda self, out: out.__setitem__(slice(0, 2), out[1::-1])))
miswrites("version in both bytes", record=rerecorded(lambda self, out: out.__setitem__(1, out[0])))
miswrites("version in version 2 in both bytes", record=rerecorded(lambda self, out: out.__setitem__(1, out[0] - 1)))
miswrites("a third part more in version 2", record=rerecorded(lambda self, out: out.__setitem__(2, 3 + self.version)))
miswrites("number of pairs 3", record=rerecorded(lambda self, out: out.__setitem__(2, 3)))
miswrites("N one off", record=rerecorded(lambda self, out: out.__setitem__(66, self.n - 1)))
miswrites("N always 4", record=rerecorded(lambda self, out: out.__setitem__(66, 4)))
miswrites("grain always 0", record=rerecorded(lambda self, out: out.__setitem__(43, 0)))
miswrites("64 places always", record=rerecorded(lambda self, out: out + bytes(8 * (64 - self.n))))
miswrites("last byte left out", record=rerecorded(lambda self, out: out[:-1]))

LEFT = "what stays"
miswrites("a byte past the length cleared", LEFT, fill=after(
    lambda buffer, n: buffer.__setitem__(n, 0) if len(buffer) > n else None))
miswrites("the last byte of the buffer cleared", LEFT, fill=after(
    lambda buffer, n: buffer.__setitem__(-1, 0) if len(buffer) > n + 5 else None))
miswrites("the rest of the buffer cleared", LEFT, fill=after(
    lambda buffer, n: buffer.__setitem__(slice(n, None), bytes(len(buffer) - n))))
for _number in (2, 7, 8, 9, 13):
    miswrites("buffer changed on refusal %d" % _number, LEFT, refuse_write=refusing(
        lambda self, n, buffer, answer, k=_number: buffer.__setitem__(0, buffer[0] ^ 1) if n == k and buffer else None))
    miswrites("length not 0 on refusal %d" % _number, LEFT, refuse_write=refusing(
        lambda self, n, buffer, answer, k=_number: answer.__setitem__(1, self.record_length()) if n == k else None))
miswrites("as much as fits written on refusal 13", LEFT, refuse_write=refusing(
    lambda self, n, buffer, answer: Model.fill(self, buffer, Model.record(self)[:len(buffer)]) if n == 13 else None))
miswrites("buffer cleared on every refusal", LEFT, refuse_write=refusing(
    lambda self, n, buffer, answer: buffer.__setitem__(slice(None), bytes(len(buffer)))))
miswrites("length left as it was on a refusal", LEFT, refuse_write=lambda self, n, buffer, answer: answer.__setitem__(0, n))
miswrites("the length of the buffer answered", LEFT, write=rewritten(
    lambda f, x, y, m, buffer, answer: answer.__setitem__(1, len(buffer)), False))
miswrites("length one off", LEFT, write=rewritten(
    lambda f, x, y, m, buffer, answer: answer.__setitem__(1, answer[1] + 1), False))
miswrites("answers exchanged", LEFT, write=rewritten(
    lambda f, x, y, m, buffer, answer: answer.__setitem__(slice(0, 2), answer[1::-1])))
miswrites("a third answer cleared", LEFT, write=rewritten(set_to(5, 2, 0)))
miswrites("a field cleared", LEFT, write=rewritten(set_to(0, 3, 7)))
miswrites("a mark cleared", LEFT, write=rewritten(set_to(3, 0, 7)))
miswrites("1 number of answer enough", LEFT, write=one_less(Model.write, 5, 2))
miswrites("26 fields enough", LEFT, write=one_less(Model.write, 0, 27))
miswrites("3 numbers of answer asked", LEFT, needs=dict(Model.needs, answer=3))
miswrites("28 fields asked", LEFT, needs=dict(Model.needs, fields=28))
miswrites("code 0 on a short slice", LEFT, write=lambda self, *lent: Model.write(self, *lent) and 0)
miswrites("code 1 on a refusal", LEFT, write=lambda self, *lent: Model.write(self, *lent) or int(lent[5][0] != 0))
miswrites("answer cleared where a slice is short", LEFT, write=lambda self, *lent: Model.write(self, *lent)
          and (lent[5].__setitem__(slice(0, 2), [0] * len(lent[5][:2])), 1)[1])

TESTS = "writer's tests"
miswrites("version not tested", TESTS, known=range(-2 ** 31, 2 ** 31))
for _what, _some in (("0 known", (0, 1, 2)), ("3 known", (1, 2, 3)), ("-1 known", (-1, 1, 2)), ("-2 known", (-2, 1, 2)),
                     ("1 not known", (2,)), ("2 not known", (1,)), ("from 1 on known", range(1, 2 ** 31)),
                     ("up to 2 known", range(-2 ** 31, 3)), ("65,538 known", (1, 2, 65538)), ("131,074 known", (1, 2, 131074))):
    miswrites("version %s" % _what, TESTS, known=_some)
for _what, _taken in (("an unknown version taken for 1", lambda n: 2 if n == 2 else 1),
                      ("an unknown version taken for 2", lambda n: 1 if n == 1 else 2),
                      ("version 3 taken for 2", lambda n: 2 if n == 3 else n),
                      ("versions counted from 0", lambda n: n + 1), ("versions exchanged", lambda n: {1: 2, 2: 1}.get(n, n))):
    miswrites(_what, TESTS, take_handed=retaken(lambda f, x, y, m, taken=_taken: ([taken(f[0])] + f[1:], x, y, m)))
miswrites("unknown version is 13", TESTS, test_known=lambda self: self.version not in self.known and throw(13))
miswrites("unknown version is 1", TESTS, test_known=lambda self: self.version not in self.known and throw(1))
miswrites("unknown version writes nothing, number 0", TESTS, refuse_write=lambda self, n, buffer, answer: (
    Model.refuse_write(self, 0 if n == 2 else n, buffer, answer)))
miswrites("loaded edges tested as well", TESTS, writer_tests=Model.writer_tests[:-1] + ("test_loaded", "test_room"),
          test_loaded=lambda self: self.version == 2 and [test_loaded_edges(self, m) for m in (0, 1)] and None)
miswrites("version by its low byte", TESTS, take_handed=narrowed((0,), 8))
miswrites("version by its low 16 bits", TESTS, take_handed=narrowed((0,), 16))
miswrites("version's sign lost", TESTS, take_handed=retaken(lambda f, x, y, m: ([abs(f[0])] + f[1:], x, y, m)))
miswrites("unknown version is 7", TESTS, test_known=lambda self: (_ for _ in ()).throw(Refused(7))
          if self.version not in self.known else None)
for _at, _bits, _what in ((1, 8, "planes"), (2, 8, "class 1"), (3, 8, "grain 1"), (6, 16, "thickness 1"),
                          (11, 8, "class 2"), (12, 8, "grain 2"), (15, 16, "thickness 2"), (20, 8, "diameter"),
                          (21, 8, "steel"), (23, 8, "service class"), (24, 8, "duration")):
    miswrites("%s taken modulo %d" % (_what, 2 ** _bits), TESTS, take_handed=narrowed((_at,), _bits))
    miswrites("sign of %s lost" % _what, TESTS, take_handed=retaken(
        lambda f, x, y, m, at=_at: (f[:at] + [abs(f[at])] + f[at + 1:], x, y, m)))
for _at in (1, 2, 3, *range(6, 11), 11, 12, *range(15, 20), 20, 21, 23, 24, 25, 26):
    _inside = {1: 1, 2: 1, 3: 0, 6: 200, 11: 1, 12: 0, 15: 200, 20: 6, 21: 1, 23: 1, 24: 1}.get(_at)
    miswrites("place %d not tested" % _at, TESTS, take_handed=(
        narrowed((_at,), 1) if _at == 3 or _at == 12 else retaken(lambda f, x, y, m, at=_at, z=_inside: (
            f[:at] + [z if z is not None else max(-100000, min(100000, f[at]))] + f[at + 1:], x, y, m))))
for _field, (_low, _high) in Model.limits.items():
    for _side, _by in ((0, -1), (0, 1), (1, -1), (1, 1)):
        _limit = [_low, _high]
        _limit[_side] += _by
        miswrites("%s from %d to %d" % (_field, *_limit), "writer's limits",
                  limits=dict(Model.limits, **{_field: tuple(_limit)}))
miswrites("lists of unequal length cut to the shorter", TESTS, test_lists=lambda self: setattr(self, "n", len(self.xy)))
miswrites("y longer than x passes", TESTS, test_lists=lambda self: (_ for _ in ()).throw(Refused(7))
          if len(self.lists[1]) < self.n else None)
miswrites("lists of unequal length are 13", TESTS, test_lists=lambda self: (_ for _ in ()).throw(Refused(13))
          if len(self.lists[1]) != self.n else None)
miswrites("number of dowels modulo 256", TESTS, take_handed=lambda self, f, x, y, m: (
    Model.take_handed(self, f, x, y, m), setattr(self, "n", len(x) % 256), setattr(self, "xy", self.xy[:self.n]))[0])
miswrites("65 dowels cut to 64", TESTS, take_handed=retaken(lambda f, x, y, m: (f, x[:64], y[:64], m)))
miswrites("marks of unequal number are 7", TESTS, test_lists=lambda self: (_ for _ in ()).throw(Refused(7))
          if len({len(z) for z in self.lists}) > 1 else None)
miswrites("a mark other than 0 and 1 is 7", TESTS, test_lists=lambda self: Model.test_lists(self) or (
    (_ for _ in ()).throw(Refused(7)) if set(self.lists[2]) - {0, 1} else None))
for _at, _what in ((4, "gx"), (14, "gy of member 2"), (22, "plate")):
    miswrites("%s looked at" % _what, TESTS, take_handed=lambda self, f, x, y, m, at=_at: (
        Model.take_handed(self, f, x, y, m), setattr(self, "p", self.p if -1000 <= f[at] <= 1000 else 0))[0])
miswrites("gx in the place of the grain", TESTS, take_handed=exchange(3, 4))
miswrites("direction 0, 0 refused by 21", TESTS, test_force=lambda self: Model.test_force(self) or (
    _ for _ in ()).throw(Refused(21)))
miswrites("spacing tested as well", TESTS, writer_tests=Model.writer_tests[:-1] + ("test_spacing", "test_room"),
          test_spacing=lambda self: [getattr(self, t)(m) for m in (0, 1) for t in self.spacing_tests] and None)
for _name, _order in (
        ("7 before 2", "lists fields known outlines force room"), ("13 first", "room known lists fields outlines force"),
        ("2 last", "lists fields outlines force room known"), ("2 after the lists", "lists known fields outlines force room"),
        ("2 after 8", "lists fields outlines known force room"), ("2 after 9", "lists fields outlines force known room"),
        ("2 not tested", "lists fields outlines force room"),
        ("8 before 7", "known lists outlines fields force room"), ("8 before 7, the lists too", "known outlines lists fields force room"),
        ("9 before 7", "known force lists fields outlines room"), ("9 before 8", "known lists fields force outlines room"),
        ("13 before 9", "known lists fields outlines room force"), ("13 before 8", "known lists fields room outlines force"),
        ("13 before 7", "known room lists fields outlines force"),
        ("lists after 8", "known fields outlines lists force room"), ("lists after 9", "known fields outlines force lists room"),
        ("lists after 13", "known fields outlines force room lists"), ("lists not tested", "known fields outlines force room"),
        ("7 not tested", "known lists outlines force room"), ("8 not tested", "known lists fields force room"),
        ("9 not tested", "known lists fields outlines room"), ("13 not tested", "known lists fields outlines force")):
    miswrites(_name, TESTS, writer_tests=moved(_order))
for _by, _what in ((1, "one byte more asked"), (-1, "one byte less asked"), (8, "a place more asked"), (-8, "a place less asked")):
    miswrites(_what, TESTS, record_length=lambda self, by=_by: Model.record_length(self) + by)
miswrites("590 bytes asked always", TESTS, record_length=lambda self: 590)

# -------------------------------------------------------------------- reading values

VALUES = "reading values"


def rehanded(change):
    """The numbers read, changed: change(list of 27)."""
    def handed_back(self):
        out = Model.handed_back(self)
        return change(out) or out
    return handed_back


def reread(change, refused=None):
    """Whatever came: change(fields, x, y, marks, answer), where the number is 0 or is not."""
    def read_values(self, data, *lent):
        code = Model.read_values(self, data, *lent)
        if code == 0 and refused in (None, lent[4][0] != 0):
            change(*lent)
        return code
    return read_values


def unread(name, **methods):
    miswrites(name, VALUES, **methods)


unread("x and y exchanged", read_values=lambda self, data, f, x, y, m, a: Model.read_values(self, data, f, y, x, m, a))
unread("x and marks exchanged", read_values=lambda self, data, f, x, y, m, a: Model.read_values(self, data, f, m, y, x, a))
unread("past the last dowel: -1", past=lambda self, k: (-1, -1))
unread("past the last dowel: the last again", past=lambda self, k: self.xy[-1])
unread("place 64 left as it was", read_values=lambda self, data, *lent: (lambda old: (
    Model.read_values(self, data, *lent), lent[1].__setitem__(63, old) if old is not None else None)[0])(
        lent[1][63] if len(lent[1]) > 63 else None))
unread("marks 1", mark=lambda self, k: 1 if k < self.n else 0)
unread("marks left as they were", read_values=lambda self, data, f, x, y, m, a: (
    Model.read_values(self, data, f, x, y, list(m), a)))
unread("gx and gy from the grain", handed_back=rehanded(lambda z: z.__setitem__(4, 1 - z[3])))
unread("plate -1", handed_back=rehanded(lambda z: z.__setitem__(22, -1)))
unread("version 0", handed_back=rehanded(lambda z: z.__setitem__(0, 0)))
unread("version lost, 1 for 2", handed_back=rehanded(lambda z: z.__setitem__(0, 1)))
unread("version lost, 2 for 1", handed_back=rehanded(lambda z: z.__setitem__(0, 2)))
unread("the versions exchanged", handed_back=rehanded(lambda z: z.__setitem__(0, 3 - z[0])))
unread("version counted from 0", handed_back=rehanded(lambda z: z.__setitem__(0, z[0] - 1)))
unread("the number of pairs for the version", handed_back=lambda self: [self.u16(2)] + Model.handed_back(self)[1:])
unread("version 1 in x where there are no dowels", past=lambda self, k: (self.version - 1, 0))
unread("marks 1 in version 2", mark=lambda self, k: int(self.version == 2 and k < self.n))
unread("gx 1 in version 2", handed_back=rehanded(lambda z: z.__setitem__(4, z[0] - 1)))
unread("plate 1 in version 2", handed_back=rehanded(lambda z: z.__setitem__(22, z[0] - 1)))
for _what, _some in (("2 refused", (1,)), ("1 refused", (2,)), ("3 read", (1, 2, 3)), ("0 read", (0, 1, 2)),
                     ("258 read", (1, 2, 258)), ("from 1 on read", range(1, 65536))):
    unread("version %s" % _what, versions=_some)
unread("version by its low byte", **read_version(lambda n: n & 255))
unread("loaded edges tested as well", read=lambda self, data: (Model.read(self, data), self.version == 2 and [
    test_loaded_edges(self, m) for m in (0, 1)])[0])
for _a, _b, _what in ((2, 11, "classes"), (3, 12, "grains"), (6, 15, "thicknesses"), (7, 8, "x0 and y0 of member 1"),
                      (18, 19, "x1 and y1 of member 2"), (20, 21, "diameter and steel"), (21, 22, "steel and plate"),
                      (23, 24, "service class and duration"), (25, 26, "fx and fy")):
    unread("%s exchanged" % _what, handed_back=rehanded(
        lambda z, a=_a, b=_b: z[:a] + [z[b]] + z[a + 1:b] + [z[a]] + z[b + 1:]))
unread("members exchanged", handed_back=rehanded(lambda z: z[:2] + z[11:20] + z[2:11] + z[20:]))
unread("32 bits unsigned", i32=lambda self, at: int.from_bytes(self.data[at:at + 4], "little"))
unread("big-endian, thickness only",
       u16=lambda self, at: int.from_bytes(self.data[at:at + 2], "big" if at >= 20 else "little"))
unread("number of dowels one off", read_values=reread(lambda f, x, y, m, a: a.__setitem__(1, a[1] + 1), False))
unread("number of dowels always 64", read_values=reread(lambda f, x, y, m, a: a.__setitem__(1, 64), False))
unread("answers exchanged", read_values=reread(lambda f, x, y, m, a: a.__setitem__(slice(0, 2), a[1::-1])))
unread("number of dowels on a refusal", read_values=reread(lambda f, x, y, m, a: a.__setitem__(1, 1), True))
unread("fields left as they were on a refusal", refuse_read=lambda self, n, f, x, y, m, a: (
    Model.refuse_read(self, n, list(f), x, y, m, a)))
unread("x left as it was on a refusal", refuse_read=lambda self, n, f, x, y, m, a: (
    Model.refuse_read(self, n, f, list(x), y, m, a)))
unread("y left as it was on a refusal", refuse_read=lambda self, n, f, x, y, m, a: (
    Model.refuse_read(self, n, f, x, list(y), m, a)))
unread("marks left as they were on a refusal", refuse_read=lambda self, n, f, x, y, m, a: (
    Model.refuse_read(self, n, f, x, y, list(m), a)))
unread("values shown on refusals 7 to 9", refuse_read=lambda self, n, f, x, y, m, a: (
    Model.refuse_read(self, n, f, x, y, m, a), f.__setitem__(slice(0, 27), self.handed_back()) if n > 6 else None)[0])
for _which, _at, _what in ((0, 27, "fields"), (1, 64, "x"), (2, 64, "y"), (3, 64, "marks"), (4, 2, "answer")):
    unread("a number past the places of %s cleared" % _what, read_values=reread(set_to(_which, _at, 0)))
    unread("one number less of %s enough" % _what, read_values=one_less(Model.read_values, _which + 1, _at))
    unread("one number more of %s asked" % _what, read_values=lambda self, data, *lent, k=_which, n=_at: (
        1 if len(lent[k]) == n else Model.read_values(self, data, *lent)))
unread("spacing tested as well", read=lambda self, data: (Model.read(self, data), [
    getattr(self, t)(m) for m in (0, 1) for t in self.spacing_tests])[0])
unread("4,096 bytes at most", read=lambda self, data: Model.read(self, data) if len(data) <= 4096
       else (_ for _ in ()).throw(Refused(4)))
unread("code 1 on a refusal", read_values=lambda self, data, *lent: Model.read_values(self, data, *lent)
       or int(lent[4][0] != 0))
unread("8 before 7", value_tests=("test_outlines", "test_fields", "test_force"))
unread("9 before 8", value_tests=("test_fields", "test_force", "test_outlines"))
unread("kinds in fixed order only", test_kinds=lambda self: (_ for _ in ()).throw(Refused(5))
       if [self.data[o] for o, _ in self.pairs] != [1, 2, 3, 4] else None)
unread("version not tested", test_version=lambda self: None)

# ---------------------------------------------------------------------------- tables

ENTRY = {"loading": "load", "judging": "judge", "reading": "read_values", "writing": "write"}


def one_entry_wrong(what, bad, holds=lambda self: True):
    """A program with the fault of `bad` in this entry alone, and there where it holds."""
    def call(self, *lent):
        self.__class__ = bad if holds(self) else Model
        return getattr(self, ENTRY[what])(*lent)
    return type("Wrong", (Model,), {ENTRY[what]: call})


# What a call for a firm does not come to
OWN_ALONE = {"table_tests", "small", "wrong_count", "wrong_offset", "wrong_end", "no_entry", "cut_entry", "stretch"}


def mistables(where, name, /, firms=True, **methods):
    """For each of these entries a program with the fault in this entry alone; and where it is one of calls for firms too, a
    program with the fault in these calls alone."""
    bad = type("Bad", (Model,), methods)
    WRONG_TABLES.extend((what, name, one_entry_wrong(what, bad)) for what in where)
    if firms and not OWN_ALONE & set(methods):
        add_firms(where, name, bad)


def add_firms(where, name, bad):
    WRONG_FIRMS.extend((what, name, one_entry_wrong(what, bad, lambda self: self.firm is not None)) for what in where)


def throw(number):
    raise Refused(number)


def misloads(name, /, **methods):
    mistables(ENTRY, name, **methods)


def renumbered(numbers):
    """A table's refusals by other numbers."""
    def test_table(self):
        try:
            Model.test_table(self)
        except Refused as r:
            throw(numbers.get(r.place[0], r.place[0]))
    return test_table


def not_loaded(then):
    """What is done with a table that does not load."""
    def test_table(self):
        try:
            Model.test_table(self)
        except Refused as r:
            then(self, r)
    return test_table


misloads("15 tested before 14", table_tests=("test_entries", "test_layout"))
misloads("14 and 15 exchanged", test_table=renumbered({14: 15, 15: 14}))
misloads("15 for both", test_table=renumbered({14: 15}))
misloads("14 for both", test_table=renumbered({15: 14}))
misloads("always 14", test_layout=lambda self: throw(14))
misloads("always 15", test_layout=lambda self: throw(15))
misloads("nothing tested", table_tests=())
misloads("14 not tested", table_tests=("test_entries",))
misloads("15 not tested", table_tests=("test_layout",))
misloads("no bytes taken as the printed table", no_table=lambda self: not self.handed)
misloads("fewer than 6 bytes taken as the printed table", no_table=lambda self: self.handed is None or len(self.handed) < 6)
misloads("fewer than 6 bytes is 15", small=lambda self, size: size < 6 and throw(15))
misloads("no bytes is 15", small=lambda self, size: throw(15) if size == 0 else size < 6)
misloads("what does not load taken as the printed table", test_table=not_loaded(lambda self, r: None))
misloads("15 taken as the printed table", test_table=not_loaded(lambda self, r: throw(14) if r.place[0] == 14 else None))
misloads("14 taken as the printed table", test_table=not_loaded(lambda self, r: throw(15) if r.place[0] == 15 else None))

misloads("count not tested", wrong_count=lambda self, n: False)
misloads("count 0 accepted", wrong_count=lambda self, n: n > 1)
misloads("count 2 accepted", wrong_count=lambda self, n: n not in (1, 2))
misloads("count by its low byte", wrong_count=lambda self, n: n & 255 != 1)
misloads("count by its low bit", wrong_count=lambda self, n: n & 1 != 1)
misloads("count 2 asked", wrong_count=lambda self, n: n != 2)

misloads("offset not tested", wrong_offset=lambda self, at: False)
misloads("offset not tested, entries from 6", wrong_offset=lambda self, at: False,
         stretch=lambda self: self.handed[6:])
misloads("offset 5 accepted", wrong_offset=lambda self, at: at not in (5, 6))
misloads("offset 7 accepted", wrong_offset=lambda self, at: at not in (6, 7))
misloads("offset 7 accepted, entries from 6", wrong_offset=lambda self, at: at not in (6, 7),
         stretch=lambda self: self.handed[6:])
misloads("offset above 6 accepted", wrong_offset=lambda self, at: at < 6)
misloads("offset below 6 accepted", wrong_offset=lambda self, at: at > 6)
misloads("offset by its low byte", wrong_offset=lambda self, at: at & 255 != 6)

misloads("end not tested", wrong_end=lambda self, at, n, size: False)
misloads("trailing bytes accepted", wrong_end=lambda self, at, n, size: at + n > size)
misloads("up to 3 trailing bytes accepted", wrong_end=lambda self, at, n, size: not 0 <= size - at - n < 4)
misloads("one trailing byte accepted", wrong_end=lambda self, at, n, size: size - at - n not in (0, 1))
misloads("trailing bytes taken for entries", wrong_end=lambda self, at, n, size: at + n > size,
         stretch=lambda self: self.handed[6:])
misloads("a pair beyond the end accepted", wrong_end=lambda self, at, n, size: at + n < size)
misloads("a pair one byte beyond the end accepted", wrong_end=lambda self, at, n, size: at + n - size not in (0, 1))
misloads("length counted from the table's start", wrong_end=lambda self, at, n, size: n != size)
misloads("sum in 16 bits", wrong_end=lambda self, at, n, size: (at + n) % 65536 != size)
misloads("size in 16 bits", wrong_end=lambda self, at, n, size: at + n != size % 65536)
misloads("sum and size in 16 bits", wrong_end=lambda self, at, n, size: (at + n - size) % 65536 != 0)
misloads("length by its low byte", wrong_end=lambda self, at, n, size: at + n % 256 != size)

misloads("length 0 accepted", no_entry=lambda self, n: False)
misloads("length 0 is 15", no_entry=lambda self, n: n == 0 and throw(15))
misloads("length no multiple of 4 accepted", cut_entry=lambda self, n: False)
misloads("length a multiple of 2 enough", cut_entry=lambda self, n: n % 2 != 0)
misloads("length a multiple of 8 asked", cut_entry=lambda self, n: n % 8 != 0)
misloads("length no multiple of 4 is 15", cut_entry=lambda self, n: n % 4 != 0 and throw(15))
misloads("length 3 accepted", cut_entry=lambda self, n: n % 4 != 0 and n != 3)

for _low, _high in ((289, 1100), (291, 1100), (290, 1099), (290, 1101), (0, 1100), (290, 65535), (300, 1100), (290, 1000)):
    misloads("density from %d to %d" % (_low, _high), densities=(_low, _high))
misloads("big-endian density", entry=lambda self, four: (four[0], four[1], int.from_bytes(four[2:], "big")))
misloads("big-endian throughout", table_order="big")
misloads("density in 15 bits", entry=lambda self, four: (four[0], four[1], int.from_bytes(four[2:], "little") & 32767))
misloads("density in 10 bits", entry=lambda self, four: (four[0], four[1], int.from_bytes(four[2:], "little") & 1023))
misloads("kind before code", entry=lambda self, four: (four[1], four[0], int.from_bytes(four[2:], "little")))
misloads("density first", entry=lambda self, four: (four[2], four[3], int.from_bytes(four[:2], "little")))
misloads("kind 2 accepted", wrong_kind=lambda self, kind: kind > 2)
misloads("kind 255 accepted", wrong_kind=lambda self, kind: kind not in (0, 1, 255))
misloads("kind not tested", wrong_kind=lambda self, kind: False)
misloads("kind 1 refused", wrong_kind=lambda self, kind: kind > 0)
misloads("kind 0 refused", wrong_kind=lambda self, kind: kind != 1)
misloads("kind by its low bit", entry=lambda self, four: (four[0], four[1] & 1, int.from_bytes(four[2:], "little")))
misloads("kind as 1 and 2", wrong_kind=lambda self, kind: kind not in (1, 2),
         is_hardwood=lambda self, m: self.look_up(self.cls[m])[0] == 2)

misloads("code 0 accepted", before_first=-1)
misloads("code 1 refused", before_first=1)
misloads("code 255 refused", not_above=lambda self, code, before: code <= before or code == 255)
misloads("equal codes accepted, the last of them", not_above=lambda self, code, before: code < before or code == 0)
misloads("equal codes accepted, the first of them", not_above=lambda self, code, before: code < before or code == 0,
         kept=lambda self: {code: (kind, density) for code, kind, density in self.entries()[::-1]})
misloads("falling codes accepted", not_above=lambda self, code, before: code in (0, before))
misloads("codes not tested", not_above=lambda self, code, before: False)
misloads("codes 0 only tested", not_above=lambda self, code, before: code == 0)
misloads("codes that leave one out refused",
         not_above=lambda self, code, before: code <= before or before > 0 and code > before + 1)
misloads("codes from 1 on asked", not_above=lambda self, code, before: code != before + 1)
misloads("codes as signed bytes", not_above=lambda self, code, before: code == 0 or (
    before > 0 and (code ^ 128) <= (before ^ 128)))
misloads("codes up to 11 only", not_above=lambda self, code, before: code <= before or code > 11)
misloads("codes up to 127 only", not_above=lambda self, code, before: code <= before or code > 127)
misloads("the printed codes refused", not_above=lambda self, code, before: code <= before or code < 12)


def test_by_first(self):
    """Each code compared with the first one."""
    found = self.entries()
    for k, (code, kind, density) in enumerate(found):
        if code <= (found[0][0] if k else 0) or self.wrong_kind(kind) or self.wrong_density(density):
            throw(15)


misloads("codes compared with the first one", test_entries=test_by_first)
misloads("an entry twice accepted", tested=lambda self, found: [
    e for k, e in enumerate(found) if k == 0 or e != found[k - 1]])
misloads("code 0 ends the table", entries=lambda self: list(takewhile(lambda e: e[0] > 0, Model.entries(self))))
misloads("the first entry not tested", tested=lambda self, found: found[1:])
misloads("the last entry not tested", tested=lambda self, found: found[:-1])
misloads("the first entry only tested", tested=lambda self, found: found[:1])
misloads("every second entry tested", tested=lambda self, found: found[::2])
for _n in (11, 64, 128, 254, 255):
    misloads("%d entries tested" % _n, tested=lambda self, found, n=_n: found[:n])
    if _n < 255:
        misloads("more than %d entries refused by 15" % _n,
                 tested=lambda self, found, n=_n: found if len(found) <= n else throw(15))
misloads("more than 255 entries are 14", wrong_end=lambda self, at, n, size: at + n != size or n > 1020)
misloads("2 entries asked", no_entry=lambda self, n: n < 8)


# ---- what is looked up

USES = ("judging", "reading", "writing")


def mislooks(name, where=USES, /, **methods):
    mistables(where, name, **methods)


def found_or(other):
    """Other wood for a code that the table lacks: other(self, code)."""
    return lambda self, c: Model.look_up(self, c) or other(self, c)


def nearest_code(pick, beyond):
    """The wood of the nearest code on one side."""
    def look_up(self, c):
        some = [code for code in self.table if beyond(code, c)]
        return self.table[pick(some)] if some else None
    return look_up


def printed_wood(self, c):
    return (int(c in self.hardwood), self.density[c]) if c in self.density else None


def no_wood_figures(self):
    """Without density nothing is carried."""
    return (99999999, 0, 10000) if 0 in (self.density_of(0), self.density_of(1)) else Model.figures(self)


mislooks("a missing code taken for density 0", look_up=found_or(lambda self, c: (0, 0)), figures=no_wood_figures)
mislooks("a missing code taken for C24", look_up=found_or(lambda self, c: (0, 350)))
mislooks("a missing code taken for the first entry", look_up=found_or(lambda self, c: self.table[min(self.table)]))
mislooks("a missing code taken for the last entry", look_up=found_or(lambda self, c: self.table[max(self.table)]))
mislooks("a missing code taken for the next lower one", look_up=nearest_code(max, lambda code, c: code <= c))
mislooks("a missing code taken for the next higher one", look_up=nearest_code(min, lambda code, c: code >= c))
mislooks("the printed class where the table lacks the code", look_up=found_or(printed_wood))
mislooks("the printed table used", kept=lambda self: None)
mislooks("the printed table where it has the code", look_up=lambda self, c: printed_wood(self, c) or Model.look_up(self, c))
mislooks("the printed table for 11 entries", kept=lambda self: None if len(self.entries()) == 11 else Model.kept(self))
mislooks("codes above 11 refused", look_up=lambda self, c: Model.look_up(self, c) if c <= 11 else None)
mislooks("codes 9 to 11 refused", look_up=lambda self, c: None if 9 <= c <= 11 else Model.look_up(self, c))
mislooks("codes from 128 refused", look_up=lambda self, c: Model.look_up(self, c) if c < 128 else None)
mislooks("code 255 refused", look_up=lambda self, c: Model.look_up(self, c) if c < 255 else None)
mislooks("code 1 refused", look_up=lambda self, c: Model.look_up(self, c) if c != 1 else None)
mislooks("class 0 accepted", look_up=lambda self, c: (0, 350) if c == 0 else Model.look_up(self, c))
mislooks("code in 7 bits", look_up=lambda self, c: Model.look_up(self, c & 127))
for _m in (0, 1):
    mislooks("class of member %d not tested" % (_m + 1), look_up=found_or(lambda self, c: (0, 350)),
             known_class=lambda self, m, at=_m: Model.known_class(self, m) if self.table is None
             else m == at or self.cls[m] in self.table)
mislooks("entry by its place", look_up=lambda self, c: (lambda woods: woods[c - 1] if 0 < c <= len(woods) else None)(
    list(self.table.values())))
mislooks("entry by its place, from 0", look_up=lambda self, c: (lambda woods: woods[c] if 0 <= c < len(woods) else None)(
    list(self.table.values())))
for _name, _cut in (("the first entry not found", slice(1, None)), ("the last entry not found", slice(-1)),
                    ("the first 11 entries only", slice(11)), ("the first 64 entries only", slice(64)),
                    ("the first 128 entries only", slice(128)), ("the first 254 entries only", slice(254))):
    mislooks(_name, kept=lambda self, cut=_cut: {code: wood for code, *wood in self.entries()[cut]})
for _number in (6, 14, 15):
    mislooks("a missing code is %d" % _number, known_class=lambda self, m, n=_number: Model.known_class(self, m) or throw(n))
mislooks("class in 8 bits", ("writing",), look_up=lambda self, c: Model.look_up(self, c % 256))
mislooks("class in 16 bits", ("writing",), look_up=lambda self, c: Model.look_up(self, c % 65536))
mislooks("sign of the class lost", ("writing",), look_up=lambda self, c: Model.look_up(self, abs(c)))


def remembering(what):
    """A program that keeps something from call to call: what(memory, self)."""
    memory = {}
    return lambda self: what(memory, self)


def or_last(memory, self):
    """The table before, where this one does not load."""
    try:
        Model.test_table(self)
        memory["table"] = self.table or memory.get("table")
    except Refused:
        if "table" not in memory:
            raise
        self.table = memory["table"]


mislooks("the first table for ever", kept=remembering(lambda memory, self: memory.setdefault("table", Model.kept(self))))
mislooks("tables kept by their length", kept=remembering(
    lambda memory, self: memory.setdefault(len(self.handed), Model.kept(self))))
mislooks("tables kept by their first entry", kept=remembering(
    lambda memory, self: memory.setdefault(self.handed[:10], Model.kept(self))))
mislooks("the table before where this one does not load", test_table=remembering(or_last))


def placed(self):
    """The classes as places in the table, for what is handed back or written."""
    codes = sorted(self.table) if self.table else []
    return [codes.index(c) + 1 if c in codes else c for c in self.cls]


def with_places(entry):
    def call(self, *what):
        kept, self.cls = self.cls, placed(self)
        out = entry(self, *what)
        self.cls = kept
        return out
    return call


mislooks("the place in the table handed back for the class", ("reading",), handed_back=with_places(Model.handed_back))
mislooks("the place in the table written for the class", ("writing",), part=with_places(Model.part))


# ---- what comes first, and what is left behind

class AnyClass(Model):
    """For a record's faults but those of its classes."""
    def known_class(self, m):
        return True


def record_first(numbers):
    """The record's refusals by these numbers come before the table's, for judging and for reading."""
    def first(self, data):
        try:
            AnyClass().read(data)
        except Refused as r:
            if r.place[0] in numbers:
                self.handed = None

    def answer(self, data):
        first(self, data)
        return Model.answer(self, data)

    def read_values(self, data, *lent):
        first(self, data)
        return Model.read_values(self, data, *lent)
    return {"answer": answer, "read_values": read_values}


mislooks("the record's fault before the table's", ("judging", "reading"), **record_first(range(1, 10)))
mislooks("the record's layout before the table", ("judging", "reading"), **record_first(range(1, 7)))
for _number in (1, 2, 3, 4, 5, 6, 7, 8, 9):
    mislooks("the record's %d before the table" % _number, ("judging", "reading"), **record_first((_number,)))
for _name, _order in (
        ("2 before 14", "known table lists fields outlines force room"),
        ("2 and 7 before 14", "known lists fields table outlines force room"),
        ("lists of unequal length before 14", "lists table known fields outlines force room"),
        ("13 before 14", "room table known lists fields outlines force"),
        ("9 before 14", "force table known lists fields outlines room"),
        ("8 before 14", "outlines table known lists fields force room"),
        ("the table last", "known lists fields outlines force room table"),
        ("the table not looked at", "known lists fields outlines force room")):
    mislooks(_name, ("writing",), writer_tests=moved(_order))


def table_number(table):
    return Model().load(table) if table is not None else 0


def refused_before_slices(entry, number_of):
    """A table that does not load is answered where another slice is too short."""
    def call(self, *lent):
        number, answer = number_of(self), lent[-1]
        code = entry(self, *lent)
        if code == 1 and number and len(answer) >= 2:
            answer[:2] = [number, 0]
            return 0
        return code
    return call


for _what, _entry in (("reading", Model.read_values), ("writing", Model.write)):
    mislooks("14 before a slice that is too short", (_what,), **{
        ENTRY[_what]: refused_before_slices(_entry, lambda self: table_number(self.handed))})
    mislooks("the table's number for the code", (_what,), **{
        ENTRY[_what]: lambda self, *lent, entry=_entry: entry(self, *lent) or table_number(self.handed)})
    mislooks("code 1 where the table does not load", (_what,), **{
        ENTRY[_what]: lambda self, *lent, entry=_entry: int(entry(self, *lent) or table_number(self.handed) > 0)})
for _which, _name in enumerate(("fields", "x", "y", "marks")):
    mislooks("%s left as they were on 14 and 15" % _name, ("reading",), refuse_read=lambda self, n, *lent, k=_which: (
        Model.refuse_read(self, n, *(list(z) if i == k and n > 13 else z for i, z in enumerate(lent)))))
mislooks("number of dowels on 14 and 15", ("reading",), refuse_read=lambda self, n, *lent: (
    Model.refuse_read(self, n, *lent), lent[4].__setitem__(1, int(n > 13)))[0])
for _number in (14, 15):
    mislooks("buffer changed on refusal %d" % _number, ("writing",), refuse_write=refusing(
        lambda self, n, buffer, answer, k=_number: buffer.__setitem__(0, buffer[0] ^ 1) if n == k and buffer else None))
    mislooks("length not 0 on refusal %d" % _number, ("writing",), refuse_write=refusing(
        lambda self, n, buffer, answer, k=_number: answer.__setitem__(1, self.record_length()) if n == k else None))
    mislooks("written for all that on refusal %d" % _number, ("writing",), refuse_write=refusing(
        lambda self, n, buffer, answer, k=_number: n == k and len(buffer) >= self.record_length()
        and Model.fill(self, buffer, Model.record(self))))
    mislooks("a place on %d" % _number, ("judging",), print_refusal=lambda self, n, m, i, j, k=_number: (
        Model.print_refusal(self, n, int(n == k) or m, i, j)))
mislooks("7 for 14 and 15", test_table=renumbered({14: 7, 15: 7}))
mislooks("1 for 14, 2 for 15", test_table=renumbered({14: 1, 15: 2}))
mislooks("a zero report for 14 and 15", ("judging",), print_refusal=lambda self, n, m, i, j: (
    "fits 0 0 0\n" if n > 13 else Model.print_refusal(self, n, m, i, j)))

# ---- what is made of it


def misgrades(name, /, **methods):
    mistables(("judging",), name, **methods)


def firms(hard):
    """Another kind of wood with a table: hard(self, m, kind, density)."""
    return lambda self, m: Model.is_hardwood(self, m) if self.table is None else hard(self, m, *self.look_up(self.cls[m]))


def weighed(density):
    """Another density with a table: density(self, m, density)."""
    return lambda self, m: Model.density_of(self, m) if self.table is None else density(self, m, Model.density_of(self, m))


misgrades("softwood's k90 for kind 1", is_hardwood=firms(lambda self, m, kind, density: False))
misgrades("hardwood's k90 for kind 0", is_hardwood=firms(lambda self, m, kind, density: True))
misgrades("kinds exchanged", is_hardwood=firms(lambda self, m, kind, density: kind == 0))
misgrades("kind by the printed codes", is_hardwood=firms(lambda self, m, kind, density: self.cls[m] in self.hardwood))
misgrades("kind hardwood for codes above 8", is_hardwood=firms(lambda self, m, kind, density: self.cls[m] > 8))
misgrades("kind of the printed class where there is one", is_hardwood=firms(
    lambda self, m, kind, density: self.cls[m] in self.hardwood if self.cls[m] in self.density else kind))
misgrades("kind by the density, from 500", is_hardwood=firms(lambda self, m, kind, density: density >= 500))
misgrades("kind by the density, from 530", is_hardwood=firms(lambda self, m, kind, density: density >= 530))
misgrades("kind of member 1 for both", is_hardwood=lambda self, m: Model.is_hardwood(self, 0))
misgrades("kind of member 2 for both", is_hardwood=lambda self, m: Model.is_hardwood(self, 1))
misgrades("kinds of the members exchanged", is_hardwood=lambda self, m: Model.is_hardwood(self, 1 - m))
misgrades("kind of the first entry for all", is_hardwood=firms(
    lambda self, m, kind, density: self.table[min(self.table)][0] == 1))
misgrades("density of member 1 for both", density_of=lambda self, m: Model.density_of(self, 0))
misgrades("density of member 2 for both", density_of=lambda self, m: Model.density_of(self, 1))
misgrades("densities of the members exchanged", density_of=lambda self, m: Model.density_of(self, 1 - m))
misgrades("density of the printed class where there is one", density_of=weighed(
    lambda self, m, density: self.density.get(self.cls[m], density)))
misgrades("density of the first entry for all", density_of=weighed(lambda self, m, density: self.table[min(self.table)][1]))
for _by, _what in ((-1, "before"), (1, "behind")):
    misgrades("density of the entry %s" % _what, density_of=weighed(lambda self, m, density, by=_by: (
        lambda codes: self.table[codes[(codes.index(self.cls[m]) + by) % len(codes)]][1])(sorted(self.table))))
    misgrades("density by %d" % _by, density_of=weighed(lambda self, m, density, by=_by: density + by))
misgrades("density at most 900", density_of=weighed(lambda self, m, density: min(900, density)))
misgrades("density at most 1,099", density_of=weighed(lambda self, m, density: min(1099, density)))
misgrades("density at least 350", density_of=weighed(lambda self, m, density: max(350, density)))
misgrades("density at least 291", density_of=weighed(lambda self, m, density: max(291, density)))
misgrades("density in whole fives", density_of=weighed(lambda self, m, density: density // 5 * 5))
misgrades("density in 10 bits", density_of=weighed(lambda self, m, density: density & 1023 or 1))
misgrades("density 350 for all", density_of=weighed(lambda self, m, density: 350))

# ---- the version, in calls with a table

misgrades("version 1's rule of edges in version 2", has_loaded_edges=lambda self: False)
misgrades("version 2's rule of edges in version 1", has_loaded_edges=lambda self: True)
misgrades("cosine for sine at a loaded edge", edge_squares=lambda self, m: (lambda a2, c2, f2: (c2, a2, f2))(*self.squares(m)))
misgrades("member 2's loaded edge for member 1", edge_sign=lambda self, m: 1)
misgrades("both edges loaded", edge_is_loaded=lambda self, c, m: True)
mislooks("version 3 accepted", versions=(1, 2, 3), known=(1, 2, 3))
mislooks("version 2 refused", versions=(1,), known=(1,))
mislooks("version 1 refused", versions=(2,), known=(2,))
mislooks("version by its low byte", ("judging", "reading"), **read_version(lambda n: n & 255))
mislooks("version by its low 16 bits", ("writing",), take_handed=narrowed((0,), 16))
mislooks("version lost, 1 for 2", ("reading",), handed_back=rehanded(lambda z: z.__setitem__(0, 1)))
mislooks("version lost, 2 for 1", ("reading",), handed_back=rehanded(lambda z: z.__setitem__(0, 2)))
mislooks("version 1 written always", ("writing",), record=rerecorded(lambda self, out: out.__setitem__(0, 1)))
mislooks("version 2 written always", ("writing",), record=rerecorded(lambda self, out: out.__setitem__(0, 2)))
mislooks("2 after 7", ("writing",), writer_tests=moved("table lists fields known outlines force room"))
mislooks("2 last", ("writing",), writer_tests=moved("table lists fields outlines force room known"))

# within the brackets: only the printed table's answer without a table tells
for _k, _what in enumerate(FREE):
    misgrades(_what + " with a table", **beside(_k, lambda self: self.table is not None))
    misgrades(_what + " without a table", firms=False, **beside(_k, lambda self: self.table is None))

# ----------------------------------------------------------------------------- firms


def misfirms(name, where=ENTRY, /, **methods):
    """For each of these entries a program with the fault in this entry alone, and there where a firm is named."""
    add_firms(where, name, type("Bad", (Model,), methods))


def firm_as(change):
    """The firm's number taken for another one: change(number)."""
    def test_table(self):
        self.firm = change(self.firm)
        Model.test_table(self)
    return test_table


misfirms("16 not tested, firm 1 for all others", test_table=firm_as(lambda n: 2 if n == 2 else 1))
misfirms("16 not tested, firm 2 for all others", test_table=firm_as(lambda n: 1 if n == 1 else 2))
misfirms("firm 0 as firm 1", test_table=firm_as(lambda n: n or 1))
misfirms("firm 0 as firm 2", test_table=firm_as(lambda n: n or 2))
misfirms("firm 3 as firm 1", test_table=firm_as(lambda n: 1 if n == 3 else n))
misfirms("firm 3 as firm 2", test_table=firm_as(lambda n: 2 if n == 3 else n))
misfirms("firms counted from 0", test_table=firm_as(lambda n: n + 1))
misfirms("firms counted from 0, and firm 2 too", test_table=firm_as(lambda n: min(n, 1) + 1 if n < 3 else n))
for _bits in (1, 2, 8, 16, 31):
    misfirms("firm by its lowest %d bits" % _bits, test_table=firm_as(lambda n, bits=_bits: n % 2 ** bits))
misfirms("firm by its lowest byte, 0 for 2", test_table=firm_as(lambda n: n % 256 or 2))
misfirms("firm by its highest byte where the lowest is 0", test_table=firm_as(lambda n: n >> 24 if n % 2 ** 24 == 0 else n))
misfirms("firm as a signed number, its sign lost", test_table=firm_as(lambda n: min(n, 2 ** 32 - n)))
misfirms("firm 1 only", other_firm=lambda self, firm: firm != 1)
misfirms("firm 2 only", other_firm=lambda self, firm: firm != 2)
misfirms("firm 2's stretch for firm 1", stretch_of=lambda self, firm: Model.stretch_of(self, 2))
misfirms("firm 1's stretch for firm 2", stretch_of=lambda self, firm: Model.stretch_of(self, 1))
misfirms("the stretches exchanged", stretch_of=lambda self, firm: Model.stretch_of(self, 3 - firm))


# ---- the order, and what else is answered

def entries_of_any(self, firm):
    """For numbers that are no firm's the first stretch."""
    return Model.stretch_of(self, firm if firm in (1, 2) else 1)


misfirms("14 before 16", table_tests=("test_layout", "test_firm", "test_entries"))
misfirms("16 last", table_tests=("test_layout", "test_entries", "test_firm"), stretch_of=entries_of_any)
misfirms("15 before 14", table_tests=("test_firm", "test_entries", "test_layout"))
for _shown, _told in ((14, 16), (15, 16), (16, 14), (16, 15), (16, 7), (16, 1)):
    misfirms("%d for %d" % (_told, _shown), test_table=renumbered({_shown: _told}))
misfirms("16 for firm 0 alone, 14 for others", test_firm=lambda self: self.other_firm(self.firm) and throw(
    16 if self.firm == 0 else 14))
misfirms("16 with no bytes is 14", test_firm=lambda self: self.other_firm(self.firm) and throw(16 if self.handed else 14))
misfirms("16 taken as the printed table", test_table=not_loaded(lambda self, r: r.place[0] != 16 and throw(r.place[0])))
misfirms("always 16", other_firm=lambda self, firm: True)
misfirms("14 not tested", test_shared=lambda self: None)
misfirms("15 not tested", test_entries=lambda self: None)


# ---- the layout

def as_own(count):
    """A firm's own table taken too, where the count says so or it does not load as a shared one."""
    def test_table(self):
        if self.firm in (1, 2) and len(self.handed) >= 6 and (self.table_u16(0) in count):
            self.firm = None
        Model.test_table(self)
    return test_table


misfirms("a firm's own table for both", test_table=as_own((1,)))
misfirms("a shared table by its first pair alone", test_shared=lambda self: (
    self.pairs_cut(len(self.handed)) or self.not_two(self.table_u16(0)) or self.apart(1, self.table_u16(2), 10)
    or self.unfit(1, self.table_u16(4)) or 10 + self.table_u16(4) > len(self.handed)) and throw(14))
misfirms("one entry for each firm too few", pairs_cut=lambda self, size: size < 22)
misfirms("fewer than 10 bytes is 15", pairs_cut=lambda self, size: size < 10 and throw(15))
misfirms("count not tested", not_two=lambda self, n: False)
misfirms("count 1 accepted", not_two=lambda self, n: n not in (1, 2))
misfirms("count 3 accepted", not_two=lambda self, n: n not in (2, 3))
misfirms("count 0 accepted", not_two=lambda self, n: n not in (0, 2))
misfirms("count of two or more accepted", not_two=lambda self, n: n < 2)
misfirms("count by its low byte", not_two=lambda self, n: n & 255 != 2)
misfirms("count by its high byte", not_two=lambda self, n: n not in (2, 512))
misfirms("count 1 asked", not_two=lambda self, n: n != 1)

misfirms("first offset 6", first_at=lambda self: 6)
misfirms("first offset 6 accepted too", apart=lambda self, firm, offset, end: offset != end and (firm, offset) != (1, 6))
misfirms("first offset 14", first_at=lambda self: 14)
misfirms("first offset not tested", apart=lambda self, firm, offset, end: firm == 2 and offset != end)
misfirms("second offset not tested", apart=lambda self, firm, offset, end: firm == 1 and offset != end)
misfirms("offsets not tested", apart=lambda self, firm, offset, end: False)
misfirms("offsets not tested, entries end to end", apart=lambda self, firm, offset, end: False, stretch_of=lambda self, firm: (
    lambda one, two: self.handed[10:10 + one] if firm == 1 else self.handed[10 + one:10 + one + two])(
        self.table_u16(4), self.table_u16(8)))
misfirms("a gap allowed", apart=lambda self, firm, offset, end: offset < end)
misfirms("a gap allowed between", apart=lambda self, firm, offset, end: offset < end if firm == 2 else offset != end)
misfirms("a gap allowed before the first", apart=lambda self, firm, offset, end: offset < end if firm == 1 else offset != end)
misfirms("a gap of a byte allowed", apart=lambda self, firm, offset, end: offset not in (end, end + 1))
misfirms("a gap of an entry allowed", apart=lambda self, firm, offset, end: offset not in (end, end + 4))
misfirms("an overlap allowed", apart=lambda self, firm, offset, end: offset > end or firm == 1 and offset != end)
misfirms("an overlap of an entry allowed", apart=lambda self, firm, offset, end: offset != end and (firm, offset) != (2, end - 4))
misfirms("pairs allowed to overlap", apart=lambda self, firm, offset, end: offset > end or firm == 2 and offset != end)
misfirms("one stretch for both allowed", apart=lambda self, firm, offset, end: offset not in (10, end))
misfirms("offsets by their low byte", apart=lambda self, firm, offset, end: (offset - end) % 256 != 0)
misfirms("offsets from the first stretch on", apart=lambda self, firm, offset, end: offset != end - 10,
         stretch_of=lambda self, firm: (lambda offset, n: self.handed[10 + offset:10 + offset + n])(*self.named_by(firm)))
misfirms("firm 2's pair first", named_by=lambda self, firm: Model.named_by(self, 3 - firm))
misfirms("firm 2's pair first, in either order", named_by=lambda self, firm: Model.named_by(
    self, firm if self.table_u16(2) == 10 else 3 - firm))

misfirms("the last sum not met", end_missed=lambda self, end, size: False)
misfirms("trailing bytes accepted", end_missed=lambda self, end, size: end > size)
misfirms("one trailing byte accepted", end_missed=lambda self, end, size: size - end not in (0, 1))
misfirms("a trailing entry accepted", end_missed=lambda self, end, size: size - end not in (0, 4))
misfirms("a second pair beyond the end accepted", end_missed=lambda self, end, size: end < size)
misfirms("a second pair one byte beyond the end accepted", end_missed=lambda self, end, size: end - size not in (0, 1))
misfirms("sums in 16 bits", add_up=lambda self, firm, offset, n: (offset + n) % 65536)
misfirms("the first sum in 16 bits", add_up=lambda self, firm, offset, n: (offset + n) % 65536 if firm == 1 else offset + n)
misfirms("the second sum in 16 bits", add_up=lambda self, firm, offset, n: (offset + n) % 65536 if firm == 2 else offset + n)
misfirms("the size in 16 bits", end_missed=lambda self, end, size: end != size % 65536)
misfirms("sum and size in 16 bits", end_missed=lambda self, end, size: (end - size) % 65536 != 0)
misfirms("at most 65,535 bytes", end_missed=lambda self, end, size: end != size or size > 65535)
misfirms("a firm's stretch up to the end", end_missed=lambda self, end, size: end > size, stretch_of=lambda self, firm: (
    self.handed[self.table_u16(6):] if firm == 2 else Model.stretch_of(self, 1)))

misfirms("lengths not tested", unfit=lambda self, firm, n: False)
misfirms("the other firm's length not tested", unfit=lambda self, firm, n: firm == self.firm and Model.unfit(self, firm, n))
misfirms("its own length not tested", unfit=lambda self, firm, n: firm != self.firm and Model.unfit(self, firm, n))
misfirms("firm 1's length not tested", unfit=lambda self, firm, n: firm == 2 and Model.unfit(self, firm, n))
misfirms("firm 2's length not tested", unfit=lambda self, firm, n: firm == 1 and Model.unfit(self, firm, n))
misfirms("length 0 accepted", unfit=lambda self, firm, n: n % 4 != 0)
misfirms("the other firm's length 0 accepted", unfit=lambda self, firm, n: n % 4 != 0 or firm == self.firm and n == 0)
misfirms("firm 2's length 0 accepted", unfit=lambda self, firm, n: n % 4 != 0 or firm == 1 and n == 0)
misfirms("firm 1's length 0 accepted", unfit=lambda self, firm, n: n % 4 != 0 or firm == 2 and n == 0)
misfirms("lengths no multiple of 4 accepted", unfit=lambda self, firm, n: n == 0)
misfirms("the other firm's length no multiple of 4 accepted", unfit=lambda self, firm, n: (
    n == 0 or firm == self.firm and n % 4 != 0))
misfirms("a multiple of 4 of both lengths enough", unfit=lambda self, firm, n: (
    n == 0 or (self.table_u16(4) + self.table_u16(8)) % 4 != 0))
misfirms("lengths multiples of 2 enough", unfit=lambda self, firm, n: n == 0 or n % 2 != 0)
misfirms("lengths multiples of 8 asked", unfit=lambda self, firm, n: n == 0 or n % 8 != 0)
misfirms("lengths alike asked", unfit=lambda self, firm, n: Model.unfit(self, firm, n) or self.table_u16(4) != self.table_u16(8))
misfirms("a length no multiple of 4 is 15", unfit=lambda self, firm, n: n == 0 or n % 4 != 0 and throw(15))
misfirms("a length of 0 is 15", unfit=lambda self, firm, n: n == 0 and throw(15) or n % 4 != 0)
misfirms("the other firm's wrong length is 15", unfit=lambda self, firm, n: (
    Model.unfit(self, firm, n) and (firm == self.firm or throw(15))))
misfirms("more than 255 entries of the other are 14", unfit=lambda self, firm, n: (
    Model.unfit(self, firm, n) or firm != self.firm and n > 1020))
misfirms("14 to the firm whose pair is wrong alone", test_shared=lambda self: (lambda offset, n: (
    len(self.handed) < 10 or self.table_u16(0) != 2 or offset < 10 or offset + n > len(self.handed) or Model.unfit(self, 1, n))
    and throw(14))(*self.named_by(self.firm)))


# ---- the entries

def parts_of(self):
    return Model.stretch_of(self, 1), Model.stretch_of(self, 2)


def fours(self, part):
    return [self.entry(part[at:at + 4]) for at in range(0, len(part) - 3, 4)]


def are_faulty(entries):
    codes = [0] + [code for code, _, _ in entries]
    return any(a >= b for a, b in zip(codes, codes[1:])) or any(k > 1 or not 290 <= d <= 1100 for _, k, d in entries)


def test_both(self):
    """The other firm's entries too."""
    if any(are_faulty(fours(self, part)) for part in parts_of(self)):
        throw(15)


def further(before, behind):
    """So many bytes before and behind the stretch, as far as there are any, are tested too."""
    def tested(self, entries):
        offset, n = self.named_by(self.firm)
        return fours(self, self.handed[offset - before:offset + n + behind])
    return tested


misfirms("15 to both", test_entries=test_both)
misfirms("15 of firm 1 to both", test_entries=lambda self: test_both(self) if self.firm == 2 else Model.test_entries(self))
misfirms("15 of firm 2 to both", test_entries=lambda self: test_both(self) if self.firm == 1 else Model.test_entries(self))
misfirms("15 of the other firm alone", tested=lambda self, entries: fours(self, Model.stretch_of(self, 3 - self.firm)))
misfirms("15 only where both are faulty", test_entries=lambda self: (
    all(are_faulty(fours(self, part)) for part in parts_of(self)) and throw(15)))
misfirms("both firms' entries tested as one list", tested=lambda self, entries: [
    e for part in parts_of(self) for e in fours(self, part)])
misfirms("firm 2's codes above firm 1's", not_above=lambda self, code, before: code <= before or (
    self.firm == 2 and before == 0 and code <= parts_of(self)[0][-4]))
misfirms("an entry read past its stretch, and tested", tested=further(0, 4))
misfirms("an entry read before its stretch, and tested", tested=further(4, 0))
misfirms("all entries up to the table's end tested", tested=further(0, 2 ** 17))
misfirms("the other firm's kinds tested", tested=lambda self, entries: entries + [
    (255, e[1], 290) for e in fours(self, Model.stretch_of(self, 3 - self.firm)) if e[1] > 1])


def lookup_in(choose):
    """The classes kept: choose(own, other), of dictionaries."""
    def kept(self):
        own, other = (
            {code: (kind, density) for code, kind, density in fours(self, Model.stretch_of(self, firm))}
            for firm in (self.firm, 3 - self.firm))
        return choose(own, other)
    return kept


misfirms("the other firm's classes too", USES, kept=lookup_in(lambda own, other: {**other, **own}))
misfirms("the other firm's classes first", USES, kept=lookup_in(lambda own, other: {**own, **other}))
misfirms("the other firm's classes", USES, kept=lookup_in(lambda own, other: other))
misfirms("classes that both have", USES, kept=lookup_in(lambda own, other: {c: own[c] for c in own if c in other}))
misfirms("classes that the other lacks", USES, kept=lookup_in(lambda own, other: {c: own[c] for c in own if c not in other}))
misfirms("an entry read past its stretch, and looked up", USES, kept=lookup_in(
    lambda own, other: {**dict(list(other.items())[:1]), **own}))
misfirms("as many entries as the other has", USES, kept=lookup_in(lambda own, other: dict(list(own.items())[:len(other)])))
misfirms("the other firm's woods", ("judging",), look_up=lambda self, c: (
    lambda wood, other: wood and next(((k, d) for code, k, d in other if code == c), wood))(
        Model.look_up(self, c), fours(self, Model.stretch_of(self, 3 - self.firm))))
misfirms("the stretch of the call before", USES, kept=remembering(lambda memory, self: (
    lambda now, before: now if before is None else before)(Model.kept(self), memory.setdefault("table", Model.kept(self)))))
misfirms("stretches kept by the pairs", USES, kept=remembering(
    lambda memory, self: memory.setdefault((self.firm, self.handed[:10]), Model.kept(self))))
misfirms("stretches kept by the table, for either firm", USES, kept=remembering(
    lambda memory, self: memory.setdefault(self.handed, Model.kept(self))))

# ---- what comes first, and what is left behind

def number_for(self):
    one = Model()
    one.firm = self.firm
    return one.load(self.handed)


for _what, _entry in (("reading", Model.read_values), ("writing", Model.write)):
    misfirms("16 before a slice that is too short", (_what,), **{ENTRY[_what]: refused_before_slices(_entry, number_for)})
    misfirms("the number for the code", (_what,), **{
        ENTRY[_what]: lambda self, *lent, entry=_entry: entry(self, *lent) or number_for(self)})
    misfirms("code 1 for 16", (_what,), **{
        ENTRY[_what]: lambda self, *lent, entry=_entry: entry(self, *lent) or int(number_for(self) == 16)})
for _which, _name in enumerate(("fields", "x", "y", "marks")):
    misfirms("%s left as they were on 16" % _name, ("reading",), refuse_read=lambda self, n, *lent, k=_which: (
        Model.refuse_read(self, n, *(list(z) if i == k and n == 16 else z for i, z in enumerate(lent)))))
misfirms("number of dowels on 16", ("reading",), refuse_read=lambda self, n, *lent: (
    Model.refuse_read(self, n, *lent), lent[4].__setitem__(1, int(n == 16)))[0])
misfirms("buffer changed on refusal 16", ("writing",), refuse_write=refusing(
    lambda self, n, buffer, answer: buffer.__setitem__(0, buffer[0] ^ 1) if n == 16 and buffer else None))
misfirms("length not 0 on refusal 16", ("writing",), refuse_write=refusing(
    lambda self, n, buffer, answer: answer.__setitem__(1, self.record_length()) if n == 16 else None))
misfirms("written for all that on refusal 16", ("writing",), refuse_write=refusing(
    lambda self, n, buffer, answer: n == 16 and len(buffer) >= self.record_length()
    and Model.fill(self, buffer, Model.record(self))))
misfirms("the firm for a place", ("judging",), print_refusal=lambda self, n, m, i, j: Model.print_refusal(
    self, n, m or self.firm * (n > 13), i, j))
misfirms("a zero report for 16", ("judging",), print_refusal=lambda self, n, m, i, j: (
    "fits 0 0 0\n" if n == 16 else Model.print_refusal(self, n, m, i, j)))

# within the brackets: only the answer by the same entries alone, or by another content of the other stretch, tells
for _k, _what in enumerate(FREE):
    for _when, _holds in (("for firm 1", lambda self: self.firm == 1), ("for firm 2", lambda self: self.firm == 2),
                          ("where the other's first code is odd", lambda self: Model.stretch_of(self, 3 - self.firm)[0] % 2 == 1)):
        misfirms("%s %s" % (_what, _when), ("judging",), **beside(_k, _holds))

# ----------------------------------------------------------- one joint drawn otherwise (02, A8)

WITHIN = "within the brackets"      # only the other drawing's answer tells


def misdraws(group, name, /, **methods):
    WRONG_DRAWN.append((group, name, type("Wrong", (Model,), methods)))


def frees(name, holds, free=(0, 1, 2)):
    """For each of these figures a program that has it elsewhere within its bracket where holds(self)."""
    for k in free:
        misdraws(WITHIN, "%s %s" % (FREE[k], name), **beside(k, holds))


def xs(self):
    return [x for x, _ in self.xy]


def centre(self):
    return [sum(line) // self.n for line in zip(*self.xy)]


def order_of_parts(self):
    return [self.data[offset] for offset, _ in self.pairs]


# the order of the dowels
frees("where dowel 1 is right of the last", lambda self: self.xy[0][0] > self.xy[-1][0])
frees("where dowel 1 is not in the lowest place along", lambda self: self.along(0, 0) != min(self.along(0, k) for k in range(self.n)))
frees("where the dowels are not listed from left to right", lambda self: xs(self) != sorted(xs(self)))
frees("where x of dowel 1 is odd", lambda self: self.xy[0][0] % 2 == 1)
frees("where the last dowel is in dowel 1's row", lambda self: self.n > 1 and any(
    {0, self.n - 1} <= set(row) for row in self.row_sets(0)))
frees("of 64 dowels where dowel 1 is right of dowel 2", lambda self: self.n == 64 and self.xy[0][0] > self.xy[1][0], (1,))
misdraws(WITHIN, "share rounded down to an even number where its row does not hold dowel 1", share=lambda self, shares: min(
    share - share % 2 * all(0 not in row for row in self.row_sets(m)
                            if len(row) > 1 and self.row_share(len(row), self.a1(self.gaps(m, row))) == share)
    for m, share in enumerate(shares)))
# where it is drawn
frees("where x0 of member 1 is odd", lambda self: self.outline[0][0] % 2 == 1)
frees("where a dowel is at a negative x", lambda self: min(xs(self)) < 0)
frees("where the dowels' centre is above the axis of x", lambda self: centre(self)[1] > 0)
frees("where a limit is beyond 80,000", lambda self: max(map(abs, self.outline[0] + self.outline[1])) > 80000)
frees("where a limit is at 100,000", lambda self: 100000 in self.outline[0] + self.outline[1], (1,))
frees("where a limit is at -100,000", lambda self: -100000 in self.outline[0] + self.outline[1], (1,))
frees("where a lone dowel is not at 0", lambda self: self.n == 1 and self.xy[0] != (0, 0))
frees("where the outlines do not hold the origin", lambda self: any(x0 > 0 or y0 > 0 or x1 < 0 or y1 < 0 for x0, y0, x1, y1 in self.outline))
# on which side
frees("where fx is negative", lambda self: self.force[0] < 0)
frees("where fy is positive", lambda self: self.force[1] > 0)
frees("where the force in member 2 runs to its low end", lambda self: self.axes(1, self.force)[0] < 0)
frees("where member 1 goes on to the right", lambda self: sum(self.outline[0][::2]) > 2 * centre(self)[0])
frees("where the rows climb", lambda self: sum((x - centre(self)[0]) * (y - centre(self)[1]) for x, y in self.xy) > 0)
for _what, _holds in (("in version 1", lambda self: self.version == 1), ("in version 2", lambda self: self.version == 2),
                      ("with a table", lambda self: self.table is not None), ("without a table", lambda self: self.table is None),
                      ("for firm 1", lambda self: self.firm == 1), ("for firm 2", lambda self: self.firm == 2),
                      ("with crossed grains", lambda self: self.grain[0] != self.grain[1]),
                      ("with the grain along y", lambda self: self.grain == [1, 1]), ("with one shear plane", lambda self: self.p == 1),
                      ("of hardwood", lambda self: self.is_hardwood(0)), ("of one dowel", lambda self: self.n == 1),
                      ("of more than 32 dowels", lambda self: self.n > 32),
                      ("that are overloaded", lambda self: Model.figures(self)[0] > 10000)):
    frees("where fx is negative, in joints " + _what, lambda self, holds=_holds: self.force[0] < 0 and holds(self), (1,))
# the parts, whose order changes no value
frees("where the positions come before the members", lambda self: order_of_parts(self).index(3) < order_of_parts(self).index(1))


def halved_down(value, high):
    """Halved from 0 and high until the two are 2 apart: low, with low <= value < high."""
    low = 0
    while high - low > 2:
        middle = (low + high) // 2
        low, high = (middle, high) if middle <= value else (low, middle)
    return low


for _what, _high in (("that hangs on the place of dowel 1", lambda self: abs(self.xy[0][0])),
                     ("that hangs on the order of the dowels", lambda self: sum(k * abs(x) for k, (x, _) in enumerate(self.xy))),
                     ("that hangs on the outline", lambda self: self.outline[0][2] + 100000),
                     ("that hangs on the side to which the force runs", lambda self: self.force[0] + 1000000)):
    misdraws(WITHIN, "capacity halved from a bracket " + _what, capacity=lambda self, high=_high: (
        halved_down(min(self.terms()), 10 ** 6 + high(self))))
    misdraws(WITHIN, "share halved from a bracket " + _what, share=lambda self, shares, high=_high: (
        halved_down(min(shares), 20000 + high(self))))
misdraws(WITHIN, "use a five-hundredth higher where the force runs to the left", use=lambda self, cap, shares: (
    Model.use(self, cap, shares) * (1002 if self.force[0] < 0 else 1000) // 1000))
misdraws(WITHIN, "use raised by the force's moment about the origin, by 1 at the most", use=lambda self, cap, shares: (
    Model.use(self, cap, shares) + (centre(self)[0] * self.force[1] != centre(self)[1] * self.force[0])))

# what the engineer finds too
PLACES, SIDES, LISTS = "absolute places", "sides", "order of the dowels"


def taken(group, name, change):
    """A program that changes what it has read: change(self)."""
    def test_force(self):
        Model.test_force(self)
        change(self)
    misdraws(group, name, test_force=test_force)


def bounded(name, limits, tests=("test_ends", "test_edges")):
    """Outlines taken otherwise by these tests: limits(x0, y0, x1, y1)."""
    def of(test):
        def tested(self, m):
            kept = self.outline
            self.outline = [limits(*outline) for outline in kept]
            try:
                getattr(Model, test)(self, m)
            finally:
                self.outline = kept
        return tested
    misdraws(PLACES, name, **{test: of(test) for test in tests})


for _tests, _what in ((("test_ends",), "end"), (("test_edges",), "edge")):
    bounded("a dowel's place taken for its distance to the low " + _what, lambda x0, y0, x1, y1: (0, 0, x1, y1), _tests)
    bounded("a dowel's place taken for its distance to the high " + _what, lambda x0, y0, x1, y1: (x0, y0, 0, 0), _tests)
bounded("a member's length taken for its high limit", lambda x0, y0, x1, y1: (x0, y0, x1 - x0, y1 - y0))
bounded("outlines as far on both sides of the origin", lambda x0, y0, x1, y1: (
    -max(-x0, x1), -max(-y0, y1), max(-x0, x1), max(-y0, y1)))
bounded("limits in whole mm, rounded down", lambda *limits: [z // 10 * 10 for z in limits])
taken(PLACES, "dowels in whole mm, rounded down", lambda self: setattr(self, "xy", [(x // 10 * 10, y // 10 * 10) for x, y in self.xy]))
taken(PLACES, "dowels in whole mm, cut towards 0", lambda self: setattr(self, "xy", [
    tuple(int(z / 10) * 10 for z in xy) for xy in self.xy]))
taken(PLACES, "dowels in whole mm, to the nearest", lambda self: setattr(self, "xy", [
    tuple((z + 5) // 10 * 10 for z in xy) for xy in self.xy]))
taken(PLACES, "dowels measured from dowel 1", lambda self: setattr(self, "xy", [
    (x - self.xy[0][0], y - self.xy[0][1]) for x, y in self.xy]))
taken(PLACES, "dowels mirrored to positive places", lambda self: setattr(self, "xy", [(abs(x), abs(y)) for x, y in self.xy]))
misdraws(PLACES, "places across squared in 32 bits", row_axes=lambda self, m, xy: (
    lambda a, c: (a, c * c % 2 ** 32))(*self.axes(m, xy)), a1=at_least_one)
misdraws(PLACES, "the force's moment about the origin in the use", use=lambda self, cap, shares: (
    Model.use(self, cap, shares) + abs(centre(self)[0] * self.force[1] - centre(self)[1] * self.force[0]) // 10 ** 4))
misdraws(LISTS, "the force's moment about dowel 1 in the use", use=lambda self, cap, shares: Model.use(self, cap, shares) + abs(
    (centre(self)[0] - self.xy[0][0]) * self.force[1] - (centre(self)[1] - self.xy[0][1]) * self.force[0]) // 10 ** 4)

misdraws(SIDES, "the low end always loaded", edge_sign=Model.sign, sign=lambda self, m: (
    -1 if self.axes(m, self.force)[0] > 0 else 1))
misdraws(SIDES, "the high end always loaded", edge_sign=Model.sign, sign=lambda self, m: (
    1 if self.axes(m, self.force)[0] > 0 else -1))
misdraws(SIDES, "the left end always loaded with the grain along x", edge_sign=Model.sign, sign=lambda self, m: (
    -1 if self.grain[m] == 0 and self.force[0] > 0 else 1))
taken(SIDES, "fx without its sign", lambda self: setattr(self, "force", (abs(self.force[0]), self.force[1])))
taken(SIDES, "fy without its sign", lambda self: setattr(self, "force", (self.force[0], abs(self.force[1]))))
taken(SIDES, "the force without its signs", lambda self: setattr(self, "force", tuple(map(abs, self.force))))
for _m in (0, 1):
    misdraws(SIDES, "member %d named by the sign of fx" % (_m + 1), print_refusal=lambda self, n, m, i, j, named=_m + 1: (
        Model.print_refusal(self, n, named if m and self.force[0] < 0 else m, i, j)))
misdraws(SIDES, "the edge tested first where fy is negative", test_ends=lambda self, m: (
    self.force[1] < 0 and Model.test_edges(self, m), Model.test_ends(self, m)))
misdraws(SIDES, "the high edge not tested where the force runs to the left", other_edge=lambda self, c, m: (
    self.edge_3d(c) or self.force[0] < 0))

misdraws(LISTS, "ends and edges of the first dowel only", in_order=lambda self: range(1))
misdraws(LISTS, "ends and edges of the last dowel not tested", in_order=lambda self: range(max(1, self.n - 1)))
misdraws(LISTS, "the row of the last dowel only", row_sets=lambda self, m: [
    row for row in Model.row_sets(self, m) if self.n - 1 in row])
misdraws(LISTS, "rows of the first 32 dowels", row_sets=lambda self, m: [
    row for row in ([k for k in row if k < 32] for row in Model.row_sets(self, m)) if row])
misdraws(LISTS, "the first dowel of each row not counted", row_sets=lambda self, m: [
    [k for k in row if k != min(row)] for row in Model.row_sets(self, m)])
misdraws(LISTS, "member named by the first dowel's number", print_refusal=lambda self, n, m, i, j: (
    Model.print_refusal(self, n, m and 2 - i % 2, i, j)))
misdraws(LISTS, "11 for 10 where the dowels are not neighbours in the list", print_refusal=lambda self, n, m, i, j: (
    Model.print_refusal(self, 11 if n == 10 and j - i > 1 else n, m, i, j)))


@wrong(LISTS, "the members dowel by dowel")
class _(Model):
    spacing_tests = ()

    def figures(self):
        for i in range(self.n):
            for m in (0, 1):
                self.in_order = lambda i=i: (i,)
                for test in Model.spacing_tests[1:]:
                    getattr(self, test)(m)
        del self.in_order
        for m in (0, 1):
            self.test_pairs_of_dowels(m)
        return Model.figures(self)


PARTS = "order of the parts"
misdraws(PARTS, "the last dowel named where the loads come first", in_order=lambda self: (
    reversed(range(self.n)) if order_of_parts(self)[0] == 4 else range(self.n)))
misdraws(PARTS, "dowels counted from the last where the positions come first", print_refusal=lambda self, n, m, i, j: (
    Model.print_refusal(self, n, m, self.n + 1 - i, self.n + 1 - j if j else 0)
    if n > 9 and order_of_parts(self)[0] == 3 else Model.print_refusal(self, n, m, i, j)))

# of those above: what any engineer finds, and two drawings too
WRONG_DRAWN += [(group, name, cls) for group, name, cls in WRONG if name in (
    "pair with a signed cosine", "one end only, the high one", "one edge only, the low one", "no component: the high end loaded",
    "only neighbours in the record tested as pairs", "the high edge always loaded", "the low edge always loaded",
    "11 and 12 dowel by dowel", "32 bits unsigned", "sign and magnitude", "16 bits of 32", "kinds in fixed order only",
    "kinds not tested, by place", "a1 the first distance", "a1 from dowels in record order", "first row only",
    "cut greedily from the lowest", "cut greedily from the highest", "cut greedily in record order", "chained in record order",
    "each dowel in one row, from the first listed", "each dowel in one row, upwards from the first listed",
    "a dowel in several rows counted in the lowest", "upwards from each dowel, those listed after it only",
    "near to the first listed dowel of each row", "bands d wide from 0",
    "bands d wide, rounded to nearest", "bands d wide, cut towards 0", "bands d wide from the lowest dowel",
    "bands d wide from the outline", "the lowest row only", "the highest row left out", "every second row",
    "the row of the first dowel only", "the lowest dowel of a row left out", "a1: from the lowest dowel only",
    "a1: from the first listed dowel only", "row check with the signed component", "row check with the signed component, member 2",
    "the members dowel by dowel")]

# ----------------------------------------------------------------------------- roots


def misroots(what, name, /, **methods):
    WRONG_ROOTS.append((what, name, type("Wrong", (Model,), methods)))


def right_start(self, n):
    return Model().starting(n)


def misbrackets(name, change):
    """Another bracket but for 0, change(n, low, high); the root is found from the right one."""
    misroots("bracket", name, begun=right_start,
             starting=lambda self, n: change(n, *right_start(self, n)) if n else (0, 1))


def begins(name, change):
    """The root looked for from another bracket but for 0, change(n, low, high)."""
    misroots("root", name, begun=lambda self, n: change(n, *right_start(self, n)) if n else (0, 1))


def misfinds(name, change):
    """Another root or count but for 0, change(n, root, count)."""
    misroots("root", name, told=lambda self, n, root, count: change(n, root, count) if n else (0, 0))


def signed(number, bits):
    """The low bits, the highest of them a sign, as they stand in 64."""
    number %= 2 ** bits
    return (number - (number >> bits - 1 << bits)) % 2 ** 64


misbrackets("high the square of low", lambda n, low, high: (low, low * low))
misbrackets("high four times low", lambda n, low, high: (low, 4 * low))
misbrackets("high one more than low", lambda n, low, high: (low, low + 1))
misbrackets("high one less, the greatest root that there may be", lambda n, low, high: (low, high - 1))
misbrackets("high the number itself", lambda n, low, high: (low, n))
misbrackets("one power too small", lambda n, low, high: (low // 2, low) if low > 1 else (low, high))
misbrackets("low one power too small", lambda n, low, high: (low // 2, high) if low > 1 else (low, high))
misbrackets("one power too large", lambda n, low, high: (high, 2 * high))
misbrackets("one power too large for squares of powers less one", lambda n, low, high: (
    (high, 2 * high) if n == high * high - 1 else (low, high)))
misbrackets("one power too large for roots nearer to high", lambda n, low, high: (
    (high, 2 * high) if 4 * n >= 9 * low * low else (low, high)))
misbrackets("low's square below the number, for not above", lambda n, low, high: (
    (low // 2, low) if n == low * low > 1 else (low, high)))
misbrackets("low the root", lambda n, low, high: (isqrt(n), high))
misbrackets("low not above the number, its square not looked at", lambda n, low, high: (
    1 << n.bit_length() - 1, 1 << n.bit_length()))
misbrackets("low and high exchanged", lambda n, low, high: (high, low))
misbrackets("0 and 1 for 1 too", lambda n, low, high: (low, high) if n > 1 else (0, 1))
misbrackets("high in 32 bits, 2^32 becomes 0", lambda n, low, high: (low, high % 2 ** 32))
misbrackets("high in 32 bits, at most 2^32 - 1", lambda n, low, high: (low, min(high, 2 ** 32 - 1)))
misbrackets("low in 32 bits with a sign", lambda n, low, high: (signed(low, 32), high))
misbrackets("0 and 1 from 2^63 on", lambda n, low, high: (low, high) if n < 2 ** 63 else (0, 1))
misbrackets("one power too small from 2^62 on", lambda n, low, high: (low, high) if n < 2 ** 62 else (2 ** 30, 2 ** 31))
misbrackets("the bracket of 2^64 for 2^64 - 1", lambda n, low, high: (low, high) if n < 2 ** 64 - 1 else (2 ** 32, 2 ** 33))
misbrackets("by a logarithm", lambda n, low, high: (2 ** int(log2(n) / 2), 2 ** int(log2(n) / 2 + 1)))
for _both in ((1, 2), (0, 0), (1, 1), (0, 2), (1, 0)):
    misroots("bracket", "%d and %d for 0" % _both, nothing=lambda self, both=_both: both, begun=right_start)

for _by, _what in ((1, "one leading zero more"), (-1, "one leading zero less")):
    misroots("both", _what, low_bits=lambda self, n, by=_by: max(0, n.bit_length() - 1 - by) // 2)
for _bits in (32, 63):
    misroots("both", "the leading zeros of the low %d bits" % _bits, low_bits=lambda self, n, bits=_bits: (
        max(0, (n % 2 ** bits).bit_length() - 1) // 2))
misroots("both", "one bracket for all: 1 and 2", low_bits=lambda self, n: 0)
misroots("both", "one bracket for all: 2^31 and 2^32", low_bits=lambda self, n: 31)
misroots("both", "0 like 1", nothing=lambda self: (1, self.high(1)))
misroots("both", "high four times low, halved from there", high=lambda self, low: 4 * low)

misroots("root", "begun at 0 and 2^32", begun=lambda self, n: (0, 2 ** 32))
begins("begun at 0 and 2^32, but for 0", lambda n, low, high: (0, 2 ** 32))
begins("begun at 0 and high", lambda n, low, high: (0, high))
begins("begun one power lower", lambda n, low, high: (low // 2, high))
begins("begun one power lower for squares of powers", lambda n, low, high: (low // 2 if low * low == n else low, high))
begins("begun at low and twice high", lambda n, low, high: (low, 2 * high))
begins("begun at the middle for roots nearer to high", lambda n, low, high: (
    (low, high) if 4 * n < 9 * low * low or low < 2 else (low + low // 2, high)))
misroots("root", "ended at a square", ended=lambda self, root, n: root * root == n)
misroots("root", "the last bit never kept", passes=lambda self, root, n: root % 2 == 0 and root * root <= n)
misroots("root", "the middle's square below the number, for not above", passes=lambda self, root, n: root * root < n)
misroots("root", "the middle's square at most one above the number", passes=lambda self, root, n: root * root <= n + 1)
misroots("root", "squares in 32 bits", passes=lambda self, root, n: root * root % 2 ** 32 <= n)
misroots("root", "squares with a sign", passes=lambda self, root, n: root * root - (root >> 31 << 64) <= n)
misroots("root", "the number with a sign", passes=lambda self, root, n: root * root <= n - (n >> 63 << 64))
misroots("root", "squares by floating point", passes=lambda self, root, n: float(root) ** 2 <= n)
misroots("root", "the number by floating point", passes=lambda self, root, n: root * root <= int(float(n)))
misfinds("root to nearest", lambda n, root, count: (root + (n > root * root + root), count))
misfinds("root rounded up", lambda n, root, count: (root + (n > root * root), count))
misfinds("root one too large for squares less one", lambda n, root, count: (root + ((root + 1) ** 2 == n + 1), count))
misfinds("root one too small for squares", lambda n, root, count: (root - (root * root == n), count))
misfinds("root one too small for the greatest square", lambda n, root, count: (root - (n == (2 ** 32 - 1) ** 2), count))
misfinds("root 2^32 for the greatest number", lambda n, root, count: (root + (n == 2 ** 64 - 1), count))
misfinds("root by floating point", lambda n, root, count: (int(sqrt(n)), count))
misfinds("root in 31 bits", lambda n, root, count: (root % 2 ** 31, count))
misfinds("root in 32 bits with a sign", lambda n, root, count: (signed(root, 32), count))
misfinds("high for the root", lambda n, root, count: (root + 1, count))
misfinds("low for the root", lambda n, root, count: (1 << root.bit_length() - 1, count))
misfinds("root and halvings exchanged", lambda n, root, count: (count, root))
misroots("root", "root 1 for 0", told=lambda self, n, root, count: (root if n else 1, count))
misroots("root", "halvings 1 for 0", told=lambda self, n, root, count: (root, count if n else 1))
misfinds("one halving more counted", lambda n, root, count: (root, count + 1))
misfinds("one halving less counted", lambda n, root, count: (root, max(0, count - 1)))
misfinds("one halving less for the greatest numbers", lambda n, root, count: (root, min(count, 30)))
misfinds("halvings 1 where there is none", lambda n, root, count: (root, max(1, count)))
misfinds("halvings 1 for 1", lambda n, root, count: (root, 1 if n == 1 else count))
misfinds("halvings by the number's bits", lambda n, root, count: (root, n.bit_length() // 2))
misfinds("halvings 31 for all", lambda n, root, count: (root, 31))
misfinds("2 to the k for the halvings", lambda n, root, count: (root, 2 ** count))
misroots("root", "count not raised", one_more=lambda self, count, kept: count)
misroots("root", "upper halves counted only", one_more=lambda self, count, kept: count + kept)
misroots("root", "lower halves counted only", one_more=lambda self, count, kept: count + (not kept))
misroots("root", "count raised by 2", one_more=lambda self, count, kept: count + 2)
misroots("root", "count in 4 bits", one_more=lambda self, count, kept: (count + 1) % 16)
misroots("root", "count begun at 1", none_yet=lambda self: 1)


def misanswers(name, change):
    """For each of the two entries a program with the fault in it: change(self, entry, n, answer) calls it, gives the code."""
    for what in ("bracket", "root"):
        misroots(what, name, **{what: lambda self, n, answer, entry=getattr(Model, what): change(self, entry, n, answer)})


def keeping(places):
    """The answer in these places only."""
    def change(self, entry, n, answer):
        found = list(answer)
        code = entry(self, n, found)
        answer[places] = found[places]
        return code
    return change


def short_told(self, entry, n, answer):
    """1 for a slice of one number, which is written."""
    found = (answer + [0])[:2]
    code = entry(self, n, found)
    answer[:2] = found[:len(answer)]
    return int(len(answer) < 2) or code


def rest_lost(self, entry, n, answer):
    code = entry(self, n, answer)
    answer[2:] = [0] * len(answer[2:])
    return code


misanswers("a slice of one number enough", lambda self, entry, n, answer: one_less(entry, 1, 2)(self, n, answer))
misanswers("short slice written, and told", short_told)
misanswers("0 for a short slice", lambda self, entry, n, answer: entry(self, n, answer) * 0)
misanswers("2 for a short slice", lambda self, entry, n, answer: entry(self, n, answer) * 2)
misanswers("three numbers needed", lambda self, entry, n, answer: entry(self, n, answer) if len(answer) > 2 else 1)
misanswers("a longer slice refused", lambda self, entry, n, answer: entry(self, n, answer) if len(answer) < 3 else 1)
misanswers("a longer slice's rest set to 0", rest_lost)
misanswers("nothing written", keeping(slice(0, 0)))
misanswers("the first number only", keeping(slice(0, 1)))
misanswers("the second number only", keeping(slice(1, 2)))
misanswers("1 for 0", lambda self, entry, n, answer: entry(self, n, answer) or int(n == 0))
misanswers("1 for the greatest number", lambda self, entry, n, answer: entry(self, n, answer) or int(n == 2 ** 64 - 1))
for _bits in (16, 31, 32, 48, 53, 63):
    misanswers("the number in %d bits" % _bits, lambda self, entry, n, answer, bits=_bits: (
        entry(self, n % 2 ** bits, answer)))
misroots("bracket", "root and halvings for low and high", bracket=Model.root)
misroots("root", "low and high for root and halvings", root=Model.bracket)
