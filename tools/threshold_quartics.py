#!/usr/bin/env python3
"""Writes quartics whose discriminants, or the resolvent's x2, lie beside a threshold: 32 bytes each, a b c d as big-endian doubles.

Candidates are drawn at a scale where the threshold has the size of the number tested, and kept where that number is the threshold, a neighbour, or as
near as its rounding lets it come, up to 20 for each test and side. The functions are correctly rounded, by decimals of 70 digits. The draw is fixed.
"""
import math
import struct
import sys
from decimal import Decimal, getcontext
from random import Random

getcontext().prec = 70
EPS = 2.0**-52
NAN = float("nan")
KEPT = 20
ROUNDS = 400_000
# how near counts, relative to the threshold: the resolvent's x2 and the second discriminant of equal constants are known only roughly there
REACH = {"x2": 2.0**-10, "equal": 2.0**-16}


def divide(x, y):
    if y != 0:
        return x / y
    return NAN if x == 0 or x != x else math.copysign(math.inf, x) * math.copysign(1.0, y)


def square_root(x):
    return math.sqrt(x) if x >= 0 else NAN


def cube_root(x):
    return math.copysign(float(Decimal(abs(x)) ** (Decimal(1) / 3)), x) if x else x


def third_angle_pair(t):
    if abs(t) == 1:
        return (1.0, 0.0) if t > 0 else (0.5, float(Decimal(3).sqrt() / 2))
    c = Decimal(math.cos(math.acos(t) / 3))
    for _ in range(8):
        c -= (4 * c**3 - 3 * c - Decimal(t)) / (12 * c**2 - 3)
    return float(c), float((1 - c**2).sqrt())


def resolvent(a, b, c, tests):
    a = a / 3
    a2 = a * a
    q = a2 - b / 3
    r = (a * (2 * a2 - b) + c) / 2
    r2 = r * r
    q3 = q * q * q
    if r2 < q3:
        q_sqrt = square_root(q)
        cosine, sine = third_angle_pair(max(min(divide(r, q * q_sqrt), 1.0), -1.0))
        ux, uyi = cosine * (-2 * q_sqrt), sine * (-2 * q_sqrt)
        x1 = ux * -0.5 - uyi * 0.8660254037844386 - a
        return 3, [ux - a, x1, ux * -0.5 + uyi * 0.8660254037844386 - a]
    u = cube_root(-abs(r) - square_root(r2 - q3))
    u = -u if r < 0 else u
    v = 0.0 if u == 0 else divide(q, u)
    x2 = 1.7320508075688772 * (u - v) / 2
    tests.append(("x2", abs(x2), EPS))
    x1 = -(u + v) / 2 - a
    return (2, [u + v - a, x1, x1]) if abs(x2) < EPS else (1, [u + v - a, x1, x2])


def tests_of(a, b, c, d):
    """The numbers that the quartic compares with a threshold past its coefficients."""
    tests = []
    if abs(d) < EPS and (abs(c) < EPS or abs(a) < EPS and abs(b) < EPS):
        if abs(c) < EPS:
            tests.append(("quadratic", abs(a * a - 4 * b), EPS))
        return tests
    count, x = resolvent(-b, a * c - 4 * d, -(a * a) * d - c * c + 4 * b * d, tests)
    y = x[0]
    if count != 1:
        y = x[1] if abs(x[1]) > abs(y) else y
        y = x[2] if abs(x[2]) > abs(y) else y
    e = y * y - 4 * d
    tests.append(("constants", abs(e), EPS))
    if abs(e) < EPS:
        q1 = q2 = y / 2
        e = a * a - 4 * (b - y)
        tests.append(("equal", abs(e), EPS))
        root = 0.0 if abs(e) < EPS else square_root(e)
        p1, p2 = (a + root) / 2, (a - root) / 2
    else:
        root = square_root(e)
        q1, q2 = (y + root) / 2, (y - root) / 2
        p1, p2 = divide(a * q1 - c, q1 - q2), divide(c - a * q2, q1 - q2)
    tests.append(("factor 1", abs(p1 * p1 - 4 * q1), 16 * EPS))
    tests.append(("factor 2", abs(p2 * p2 - 4 * q2), 16 * EPS))
    return tests


def side(name, number, threshold):
    if number == threshold:
        return "at"
    if number == math.nextafter(threshold, 0):
        return "just below"
    if number == math.nextafter(threshold, 1):
        return "just above"
    if abs(number - threshold) <= threshold * REACH.get(name, 2.0**-26):
        return "below" if number < threshold else "above"
    return None


class Draw:
    def __init__(self, seed):
        self.random = Random(seed).random

    def pick(self, items):
        return items[int(self.random() * len(items))]

    def between(self, low, high):
        return low + (high - low) * self.random()

    def number(self):
        return self.pick([0.0, 0.5, 1.0, -0.5, -1.0, 2.0, -2.0, 1.5, 3.0, self.between(-2, 2)])

    def quartic(self):
        """Two factors p, q and r, s, multiplied out and scaled; then mostly one coefficient moved by some units in the last place."""
        (p, q, r, s), scale = self.pick([self.constants, self.small_constant, self.equal, self.factor, self.small_factor, self.double])()
        f = [(p + r) * scale, (q + s + p * r) * scale**2, (p * s + r * q) * scale**3, q * s * scale**4]
        if self.random() < 0.7:
            place = int(self.random() * 4)
            steps = int(self.between(-6, 7))
            for _ in range(abs(steps)):
                f[place] = math.nextafter(f[place], math.copysign(math.inf, steps))
        return f

    def constants(self):
        q = self.number()
        return (self.number(), q, self.number(), q + 1), 2.0**-13

    def small_constant(self):
        q = self.pick([0.0, self.between(-1, 1) * 2.0 ** -int(self.between(0, 60))])
        return (self.number(), q, self.number(), q + 1), 2.0**-13

    def equal(self):
        scale = 2.0 ** -int(self.between(13, 17))
        q = self.between(0.5, 4)
        p = self.between(-1, 1) * math.sqrt(q)
        return (p, q, p + 2.0**-26 / scale * self.between(1 - 2.0**-17, 1 + 2.0**-17), q), scale

    def factor(self):
        scale = 2.0 ** -self.pick([10, 11, 12, 13, 16, 20])
        p = self.number()
        return (p, (p * p - self.pick([1, -1]) * 16 * EPS / scale**2) / 4, self.number(), self.number()), scale

    def small_factor(self):
        p = self.between(-1, 1) * 2.0 ** -int(self.between(20, 26))
        return (p, (p * p - self.pick([1, -1]) * 16 * EPS) / 4, self.number(), self.number()), 1.0

    def double(self):
        g = self.number()
        return (-2 * g, g * g + self.pick([1, -1]) * 2.0 ** self.between(-60, -18), self.number(), self.number()), 2.0 ** -int(self.between(14, 18))


def main():
    draw = Draw(4)
    kept = {}
    for _ in range(ROUNDS):
        quartic = draw.quartic()
        for name, number, threshold in tests_of(*quartic):
            group = side(name, number, threshold)
            if group and kept.setdefault((name, group), 0) < KEPT:
                kept[name, group] += 1
                sys.stdout.buffer.write(struct.pack(">4d", *quartic))
                break
    for (name, group), count in sorted(kept.items()):
        print(f"{name} {group}: {count}", file=sys.stderr)


main()
