"""Numbers whose roots are looked for: systematic and by chance, fixed by seed and number.

stream(seed, many) gives (label, number): first powers of two and squares with what stands beside them, then by turns the
numbers from 0 to SMALL and numbers by chance, then these alone.  lent(seed, number) gives the slice that a call writes to.
"""
from itertools import count, islice
from random import Random

BITS = 64
MOST = 2 ** BITS - 1
GREATEST = 2 ** 32 - 1      # the root of MOST
SMALL = 20000


def beside(n):
    return [z for z in (n - 1, n, n + 1) if 0 <= z <= MOST]


# ------------------------------------------------------------------ systematic

def some_roots():
    """The least, the greatest, and those whose bits are two, or ones in a row, or one with ones at the end."""
    roots = set(range(100)) | set(range(GREATEST - 99, GREATEST + 2))
    for k in range(32):
        for j in range(k):
            roots |= {2 ** k + 2 ** j, 2 ** k - 2 ** j, 2 ** k + 2 ** j - 1}
    return sorted(roots)


def systematic():
    for k in range(BITS + 1):
        for n in beside(2 ** k):
            yield "power of two", n
    for root in some_roots():
        for n in beside(root * root):
            yield "square", n


# ------------------------------------------------------------------- by chance

def generate(seed, index):
    """Number index made by chance: by turns of each length in bits, or with a root of each, a square or beside it."""
    r = Random(seed * 1000003 + index + 700000000)
    turn, way = divmod(index, 2)
    if way == 0:
        bits = turn % BITS + 1
        return "chance", r.getrandbits(bits) | 1 << bits - 1
    bits = turn % 32 + 1
    root = r.getrandbits(bits) | 1 << bits - 1
    return "chance square", root * root + r.choice((-1, 0, 0, 1))


def numbers(seed):
    yield from systematic()
    for index in count():
        if index <= SMALL:
            yield "small", index
        yield generate(seed, index)


def stream(seed, many):
    return islice(numbers(seed), many)


# ------------------------------------------------------- what a call writes to

NEEDED = 2


def lent(seed, number):
    """The answer with its old content; most of the length needed, some longer, some shorter."""
    r = Random(seed * 15485863 + number)
    length = NEEDED + r.choice((0, 0, 0, 0, 0, 0, 1, 3, -1, -2))
    return [r.getrandbits(64) for _ in range(length)]
