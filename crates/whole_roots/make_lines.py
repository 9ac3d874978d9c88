#!/usr/bin/env python3
"""Writes stdout: the lines of the numbers in src/main.rt, the bracket and the halvings found by search and the roots by Python's own."""
import math
import pathlib
import re

HERE = pathlib.Path(__file__).resolve().parent


def listed(name, text):
    found = re.search(rf"const {name}: \[u64; \d+\] = \[([^\]]*)\];", text)
    return [int(n) for n in re.findall(r"\d+", found.group(1))]


def line(n):
    k = 0
    while 4 ** (k + 1) <= n:
        k += 1
    start = (2 ** k, 2 ** (k + 1)) if n else (0, 1)
    low, high = start
    halvings = 0
    while high - low > 1:
        middle = (low + high) // 2
        low, high = (middle, high) if middle * middle <= n else (low, middle)
        halvings += 1
    assert low == math.isqrt(n) and halvings <= k
    return f"{n}: 0 0, from {start[0]} {start[1]}, root {low} in {halvings}, past them 7 7\n"


text = (HERE / "src" / "main.rt").read_text()
numbers = listed("NUMBERS", text) + [root * root + d for root in listed("ROOTS", text) for d in (-1, 0, 1)]
short = [f"{n}, short: 1 1, 7 7\n" for n in (0, 16)]
(HERE / "stdout").write_text("".join(short + [line(n) for n in numbers]))
