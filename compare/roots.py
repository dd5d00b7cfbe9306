# Writes the table of exact roots that crates/root_vectors replays: lines `sqrt XXXXXXXX = YYYYYYYY`
# and `cbrt XXXXXXXX = YYYYYYYY`, the bit patterns of an f32 and of the f32 nearest to its root.
#
# Run in the repository's root: python3 compare/roots.py > crates/root_vectors/stdin
#
# All of it is arithmetic on whole numbers, and not the way of the library: among all patterns the
# root is found by halving, where the power of the middle of two neighbours is compared with the
# operand. No float is computed with. The same table comes out of each run.
import random

SIGN, INFINITY, NAN = 0x8000_0000, 0x7F80_0000, 0x7FC0_0000
LOW = 149  # a float is a whole number of times 2^-149


def units(pattern):
    exponent, fraction = divmod(pattern, 0x80_0000)
    return fraction if exponent == 0 else (0x80_0000 + fraction) << (exponent - 1)


def pattern_of(n, shift):
    """The pattern of n * 2^shift, which must be a float."""
    n, rest = divmod(n << max(LOW + shift, 0), 1 << max(-LOW - shift, 0))
    assert rest == 0
    drop = max(n.bit_length() - 24, 0)
    assert n % (1 << drop) == 0
    return drop * 0x80_0000 + (n >> drop)


def nearest_root(degree, pattern):
    """The pattern nearest to the root of a finite float above 0."""
    # (u / 2 units)^degree against x units: u^degree * 2^LOW against x * 2^((LOW + 1) * degree)
    x = units(pattern) << (LOW + 1) * degree
    low, high = 0, INFINITY - 1  # the root's pattern lies from low up to high
    while low < high:
        middle = (low + high) // 2
        power = (units(middle) + units(middle + 1)) ** degree << LOW
        assert power != x  # no root is as near to two floats
        if x < power:
            high = middle
        else:
            low = middle + 1
    return low


def root(degree, pattern):
    sign, size = pattern & SIGN, pattern & ~SIGN
    if size > INFINITY:
        return NAN
    if degree == 2 and sign and size:
        return NAN
    if size == 0 or size == INFINITY:
        return pattern
    return sign | nearest_root(degree, size)


def operands(degree):
    rng = random.Random(degree)
    scale = lambda: rng.randrange(-120 // degree, 120 // degree)
    yield from [0, INFINITY, NAN, 0x7F80_0001, 0x7FFF_FFFF]
    yield from range(1, 41)  # the smallest subnormals
    yield from range(INFINITY - 40, INFINITY)  # the largest
    yield from range(0x80_0000 - 20, 0x80_0000 + 20)  # where subnormals end
    yield from (1 << k for k in range(23))
    yield from (rng.randrange(1, 0x80_0000) for _ in range(100))
    for exponent in range(255):
        for fraction in [0, 1, 0x7F_FFFF, rng.randrange(0x80_0000)]:
            yield exponent * 0x80_0000 + fraction
    # exact powers, and the floats next to them
    most = 4095 if degree == 2 else 255
    for n in [*range(1, 21), *rng.sample(range(21, most), 100), most]:
        at = pattern_of(n**degree, (scale() // 2) * degree)
        yield from [at - 1, at, at + 1]
    # next to the middle of two floats, to the power
    for _ in range(100):
        q = rng.randrange(1 << 24, 1 << 25) | 1
        power = q**degree
        drop = power.bit_length() - 24
        at = pattern_of(power >> drop << drop, (scale() - 24) * degree)
        yield from [at, at + 1]
    # a little below the power of a number of 25 digits: roots that floats of 64 bits hardly tell from it
    found = 0
    while found < 20:
        q = rng.randrange(1 << 24, 1 << 25)
        power = q**degree
        drop = power.bit_length() - 24
        if power % (1 << drop) < degree * q ** (degree - 1) >> 14:
            found += 1
            yield pattern_of(power >> drop << drop, (scale() - 24) * degree)
    yield from (rng.randrange(INFINITY) for _ in range(200))


for name, degree in [("sqrt", 2), ("cbrt", 3)]:
    patterns = list(dict.fromkeys(operands(degree)))
    for at, pattern in enumerate(patterns):
        assert 0 <= pattern < SIGN
        print(f"{name} {pattern:08x} = {root(degree, pattern):08x}")
        if at % 4 == 0 or pattern == 0 or pattern >= INFINITY:
            print(f"{name} {pattern | SIGN:08x} = {root(degree, pattern | SIGN):08x}")
