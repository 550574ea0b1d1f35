#!/usr/bin/env python3
"""Writes the stored test of the elementary functions: crates/elementary_test/stdin and stdout.

Each of the arguments goes through all four functions. The square root is the machine's own (IEEE 754). The cube root, and the cosine and sine of a third of an
angle, are computed here with whole numbers of several hundred bits and rounded once, to the nearest double with a tie to the even significand; where the working
precision would not decide the rounding, the script stops. It needs nothing but Python 3.
"""
import math
import os
import random
import struct

COUNT = 12000
SEED = 20261115
WORK = 420  # binary digits of the fixed-point cosine and sine


def of_bits(bits):
    return struct.unpack(">d", struct.pack(">Q", bits))[0]


def to_bits(x):
    return struct.unpack(">Q", struct.pack(">d", x))[0]


def nearest(low, high, shift):
    """The double nearest to every number from low to high, each over 2^shift; low > 0."""
    first, last = (rounded(n, shift) for n in (low, high))
    if first != last:
        raise ArithmeticError("the working precision does not decide the rounding")
    return first


def rounded(n, shift):
    """n / 2^shift rounded to 53 digits, a tie to the even one; for numbers in the normal range."""
    extra = n.bit_length() - 53
    if extra <= 0:
        return math.ldexp(n, -shift)
    q, rest = divmod(n, 1 << extra)
    half = 1 << (extra - 1)
    if rest > half or (rest == half and q % 2 == 1):
        q += 1
    return math.ldexp(q, extra - shift)


def sqrt(x):
    return math.sqrt(x) if x >= 0 else math.nan


def integer_cube_root(n):
    r = 1 << (n.bit_length() // 3 + 1)
    while True:
        s = (2 * r + n // (r * r)) // 3
        if s >= r:
            return r
        r = s


def cbrt(x):
    if x != x or math.isinf(x) or x == 0:
        return x
    m, d = abs(x).as_integer_ratio()
    k = 450  # m / d * 2^(3k) is whole for every double, and its root has at least 90 digits
    n = (m << (3 * k)) // d
    root = integer_cube_root(n)
    sticky = 2 * root + (root ** 3 != n)
    return math.copysign(rounded(sticky, k + 1), x)


def cosine_bounds(t):
    """The floor of c * 2^WORK for the c from 1/2 to 1 with 4c^3 - 3c = t, and whether it is exact."""
    one = 1 << WORK
    num, den = t.as_integer_ratio()
    low, high = one // 2, one
    while high - low > 1:
        mid = (low + high) // 2
        if (4 * mid ** 3 - 3 * mid * one * one) * den <= num * one ** 3:
            low = mid
        else:
            high = mid
    if (4 * one ** 3 - 3 * one * one * one) * den <= num * one ** 3:
        low = one
    exact = (4 * low ** 3 - 3 * low * one * one) * den == num * one ** 3
    return low, exact


def cosine_and_sine(t):
    if not -1 <= t <= 1:
        return math.nan, math.nan
    if t == -1:
        # 4c^3 - 3c is flat at 1/2: c is 1/2 and the sine √3 / 2
        root = math.isqrt(3 << (2 * WORK))
        return 0.5, nearest(root, root + 1, WORK + 1)
    low, exact = cosine_bounds(t)
    high = low if exact else low + 1
    cosine = nearest(low, high, WORK)
    one = 1 << (2 * WORK)
    least, most = one - high * high, one - low * low
    if most == 0:
        return cosine, 0.0
    return cosine, nearest(math.isqrt(least), math.isqrt(most) + 1, WORK)


def around(bits, width):
    return [b for b in range(bits - width, bits + width + 1) if 0 <= b < 1 << 64]


def arguments():
    r = random.Random(SEED)
    bits = []
    for special in (0, 1, 1 << 52, 0x7FF0 << 48, 0x7FF8 << 48, 1 << 63, 0xFFF0 << 48, 0x3FF0 << 48, 0xBFF0 << 48, 0x3FE0 << 48, 0xBFE0 << 48):
        bits += around(special, 3)
    for e in range(0, 2047, 2):
        bits += around(e << 52, 1)
    for _ in range(700):  # squares and cubes of short numbers, and their neighbours
        n = r.getrandbits(26) | 1
        bits += around(to_bits(math.ldexp(n * n, r.randrange(-480, 480) * 2)), 1)
        n = r.getrandbits(17) | 1
        bits += around(to_bits(math.ldexp(n ** 3, r.randrange(-300, 300) * 3)), 1)
    for _ in range(600):  # subnormal numbers
        bits.append(r.getrandbits(r.randrange(1, 53)))
    for _ in range(1200):  # from -1 to 1, and close to the ends, to 0, and to where c or s is a short number
        bits.append(to_bits(r.uniform(-1, 1)))
        bits.append(to_bits(math.copysign(1 - math.ldexp(r.random(), -r.randrange(1, 53)), r.choice((-1, 1)))))
        bits.append(to_bits(math.copysign(math.ldexp(r.random(), -r.randrange(1, 90)), r.choice((-1, 1)))))
        c = r.randrange(1 << 11, (1 << 12) + 1) / (1 << 12)
        bits += around(to_bits(4 * c ** 3 - 3 * c), 0)
    while len(bits) < COUNT:
        bits.append(r.getrandbits(64))
    return bits[:COUNT]


def shown(x):
    return "7FF8000000000000" if x != x else "%016X" % to_bits(x)


def stored():
    """What the two files hold."""
    words = arguments()
    lines = []
    for x in map(of_bits, words):
        cosine, sine = cosine_and_sine(x) if x == x else (x, x)
        lines.append(" ".join(shown(y) for y in (sqrt(x), cbrt(x), cosine, sine)) + "\n")
    return struct.pack(f">{len(words)}Q", *words), "".join(lines).encode("ascii")


def main():
    folder = os.path.join(os.path.dirname(os.path.abspath(__file__)), "..", "crates", "elementary_test")
    for name, content in zip(("stdin", "stdout"), stored()):
        with open(os.path.join(folder, name), "wb") as file:
            file.write(content)


if __name__ == "__main__":
    main()
