#!/usr/bin/env python3
"""Writes the test vectors of the cube root and of the cosine and sine of a third of an angle.

Usage: make_vectors.py FOLDER

Everything is computed with Python's whole numbers, far beyond 53 bits, and rounded once at the end. Nothing here is
shared with the oracle's own functions. FOLDER gets cbrt.txt (argument, result) and third.txt (t, cosine, sine), all as
16 hexadecimal digits of a double's bits.
"""

import math
import os
import random
import struct
import sys

PRECISION = 400  # bits after the point; three times that holds every double from -1 to 1 exactly


def to_bits(x):
    return struct.unpack(">Q", struct.pack(">d", x))[0]


def from_bits(bits):
    return struct.unpack(">d", struct.pack(">Q", bits))[0]


def split(x):
    """A finite double's size as significand and exponent."""
    bits = to_bits(x)
    field, fraction = bits >> 52 & 0x7FF, bits & (1 << 52) - 1
    return (fraction | 1 << 52, field - 1075) if field else (fraction, -1074)


def rounded(value, exponent, more):
    """The double nearest value * 2^exponent, or nearest a little above it where `more`; a tie goes to the even one."""
    extra = value.bit_length() - 53
    if extra <= 0:
        assert not more, "more bits are needed to round"
        return math.ldexp(value, exponent)
    significand, rest = value >> extra, value & (1 << extra) - 1
    half = 1 << extra - 1
    if rest > half or rest == half and (more or significand & 1):
        significand += 1
    return math.ldexp(significand, exponent + extra)


def signed(value, exponent):
    size = rounded(abs(value), exponent, False)
    return -size if value < 0 else size


def whole_cube_root(n):
    """The cube root of n rounded down, by Newton's method from above."""
    root = 1 << -(-n.bit_length() // 3)
    while True:
        better = (2 * root + n // (root * root)) // 3
        if better >= root:
            return root
        root = better


def cube_root(x):
    if x == 0 or math.isinf(x) or math.isnan(x):
        return x
    significand, exponent = split(x)
    shift = 3 * PRECISION + exponent % 3
    cube = significand << shift
    root = whole_cube_root(cube)
    size = rounded(root, (exponent - shift) // 3, root**3 != cube)
    return math.copysign(size, x)


def cosine_below(t):
    """The c from 1/2 to 1 with 4c^3 - 3c = t, times 2^PRECISION and rounded down, and whether that is exact."""
    significand, exponent = split(t)
    wanted = significand << 3 * PRECISION + exponent
    wanted = -wanted if t < 0 else wanted

    def left(c):
        return 4 * c**3 - (3 * c << 2 * PRECISION)

    low, high = 1 << PRECISION - 1, (1 << PRECISION) + 1
    while high - low > 1:
        middle = (low + high) // 2
        if left(middle) <= wanted:
            low = middle
        else:
            high = middle
    return low, left(low) == wanted


def sine_below(c):
    return math.isqrt((1 << 2 * PRECISION) - c * c)


def cosine_and_sine(t):
    c, exact = cosine_below(t)
    cosine = rounded(c, -PRECISION, not exact)
    highest = sine_below(c)
    if exact:
        return cosine, rounded(highest, -PRECISION, highest**2 != (1 << 2 * PRECISION) - c * c)
    # The exact sine lies between these two; they must round alike.
    lowest = sine_below(c + 1)
    sine = rounded(lowest, -PRECISION, True)
    assert sine == rounded(highest + 1, -PRECISION, False), t
    return cosine, sine


def around(x, reach=1):
    """A positive double and its neighbours, as far as they are finite."""
    bits = to_bits(x)
    return [from_bits(b) for b in range(max(bits - reach, 0), min(bits + reach, 0x7FEFFFFFFFFFFFFF) + 1)]


def below_one(x):
    return [y for y in around(x) if y <= 1]


def cube_root_arguments(rng):
    yield from [0.0, -0.0, math.inf, -math.inf, math.nan, 1.0, -27.0, 27.0, 8.0, 0.125]
    yield from [5e-324, 1e-323, 2.2250738585072009e-308, 2.2250738585072014e-308, 1.7976931348623157e308]
    for exponent in range(-1074, 1024, 5):
        yield from around(math.ldexp(1, exponent))
    for _ in range(250):
        root = rng.getrandbits(17) | 1
        yield from around(math.ldexp(float(root**3), 3 * (rng.getrandbits(9) - 256)))
    # Cubes of midpoints, rounded: roots as near a midpoint as they come.
    for _ in range(300):
        middle = (1 << 53) + 2 * rng.getrandbits(52) + 1
        yield rounded(middle**3, 3 * (rng.getrandbits(9) - 300), False)
    for _ in range(300):
        yield from_bits(rng.getrandbits(52) >> rng.getrandbits(5))
    for _ in range(800):
        yield from_bits(rng.getrandbits(64))


def third_arguments(rng):
    for size in [0.0, 5e-324, 2.2250738585072014e-308, 1e-300, 1e-20, 0.25, 0.5, 0.75]:
        yield from [size, -size]
    for k in range(40):
        yield from [from_bits(to_bits(1.0) - k), -from_bits(to_bits(1.0) - k)]
    for exponent in list(range(-60, 1)) + list(range(-1074, -60, 31)):
        for x in below_one(math.ldexp(1, exponent)):
            yield from [x, -x]
    for exponent in range(-53, 0):
        for x in below_one(1 - math.ldexp(1, exponent)):
            yield from [x, -x]
    # t at which the cosine, or the sine, is as near a midpoint as it comes.
    for _ in range(300):
        c = (1 << 53) + 2 * rng.getrandbits(52) + 1
        t = 4 * c**3 - (3 * c << 108)
        yield signed(t, -162)
    for _ in range(300):
        scale = 54 + rng.getrandbits(3)
        y = ((1 << 53) + 2 * rng.getrandbits(52) + 1) << PRECISION - scale
        if 4 * y**2 < 3 << 2 * PRECISION:
            c = math.isqrt((1 << 2 * PRECISION) - y * y)
            t = 4 * c**3 - (3 * c << 2 * PRECISION)
            yield signed(t, -3 * PRECISION)
    for _ in range(600):
        yield math.ldexp(rng.getrandbits(53), -53) * rng.choice([1, -1])
    for _ in range(200):
        yield math.ldexp(rng.getrandbits(53), -53 - rng.getrandbits(10)) * rng.choice([1, -1])


def write(path, arguments, results):
    with open(path, "w", encoding="ascii") as file:
        for argument in arguments:
            numbers = [argument, *results(argument)]
            file.write(" ".join(f"{to_bits(number):016X}" for number in numbers) + "\n")


def main():
    if len(sys.argv) != 2:
        sys.exit(__doc__)
    rng = random.Random(20261115)
    folder = sys.argv[1]
    write(os.path.join(folder, "cbrt.txt"), cube_root_arguments(rng), lambda x: [cube_root(x)])
    write(os.path.join(folder, "third.txt"), third_arguments(rng), cosine_and_sine)


main()
