#!/usr/bin/env python3
# Prints the numbers of `COS_SQUARED` (src/tables.rt): for 0°, 5°, .. 90° the nearest whole number to 10^12 cos²φ = 10^12 (1 + cos 2φ)/2.
from decimal import Decimal, getcontext

getcontext().prec = 60
PI = Decimal("3.14159265358979323846264338327950288419716939937510582097494")


def cos(x):
    """The series of the cosine, to 60 digits."""
    term = total = Decimal(1)
    n = 0
    while abs(term) > Decimal(10) ** -58:
        n += 2
        term *= -x * x / (n * (n - 1))
        total += term
    return total


for angle in range(19):
    print(f"    {round(10**12 * (1 + cos(PI * 10 * angle / 180)) / 2)},")
