"""What strip_check must write: commission.py < blocks > listing.

Each good block's readings are drawn over a triangle with S = T = 1/2 under margins of 9/10 and 4/5, in exact fractions: a line
`block index l a b` for each. They are read back: `block: count readings, count home, count home again`. No number on the way may grow too large for the library's
fractions, so this stops with an error where one comes near.
"""
import sys
from fractions import Fraction as F

import listing

NEAR = 2**61


def fine(*numbers):
    for x in numbers:
        assert abs(x.numerator) < NEAR and x.denominator < NEAR, x
    return numbers


def root(x):
    from math import isqrt

    n, d = isqrt(x.numerator), isqrt(x.denominator)
    assert n * n == x.numerator and d * d == x.denominator, x
    return F(n, d)


def values(l):
    top = min(l / 2, (1 - l) / 2) * F(9, 10) * F(4, 5)
    return top / 2, top * F(3, 5), top


def read_back(l, a, b):
    chroma = root(a * a + b * b)
    u = listing.K3 * l - listing.K1
    lightness = (u + root(u * u + 4 * listing.K2 * listing.K3 * l)) / 2
    temperature = 120 * lightness - 10
    if chroma == 0:
        return 0, temperature, 0
    zero, mid, top = values(l)
    if chroma < mid:
        j1 = F("0.8") * zero
        s = chroma / (j1 + (1 - j1 / mid) * chroma) * F("0.8")
    else:
        j1 = F("0.2") * mid**2 * F("1.25") ** 2 / zero
        j2 = 1 - j1 / (top - mid)
        s = F("0.8") + F("0.2") * (chroma - mid) / (j1 + j2 * (chroma - mid))
    products = [(a * x + b * y) / chroma for x, y in listing.DIRECTIONS.values()]
    return 1 + products.index(max(products)), temperature, 1000 * s


def draw(reading):
    valve, temperature, opening = reading
    l = listing.inverse_toe(F(10 + temperature, 120))
    chroma = listing.chroma(F(opening, 1000), *values(l))
    x, y = listing.DIRECTIONS[valve]
    return fine(l, chroma * x, chroma * y)


def comes_home(reading):
    valve, temperature, opening = reading
    return read_back(*draw(reading)) == (valve if opening else 0, temperature, opening)


while block := sys.stdin.buffer.read(512):
    answer = listing.read(block)
    if isinstance(answer, int):
        continue
    number, readings = answer
    for i, reading in enumerate(readings):
        print(number, i, *(f"{n.numerator}/{n.denominator}" for n in draw(reading)))
    home = sum(map(comes_home, readings))
    print(f"{number}: {len(readings)} readings, {home} home, {home} home again")
