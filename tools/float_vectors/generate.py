#!/usr/bin/env python3
"""Edge vectors of FLOAT, computed with exact fractions and apart from the crates.

usage: tools/float_vectors/generate.py DIR        writes DIR/stdin (the patterns, four bytes each, high byte first) and DIR/stdout (a line a pattern)

A line of stdout, its fields in hex:
    PATTERN TOCHAR TOINT ROUND FLOOR CEIL SIZE PRINT EQUALS ZERO SQRT LONG
TOCHAR .. CEIL: the whole number as 32 bits in two's complement, and 100000000 where it is out of range.
SIZE: OPEN's size, 1 to 863, and 0 where it is refused. LONG: the same on a long disc, 1 to 3935.
PRINT: a digit and ten: 0 nan, 1 inf, 2 -inf, 3 ovf, 4 -ovf, 5 hundredths, 6 the same with '-'.
EQUALS: a bit for each of WHOLES, the first lowest: the value is equal to it. ZERO: 1 if the value counts as zero.
SQRT: the pattern of the root.
"""
import random, sys
from fractions import Fraction
from math import isqrt

if "--help" in sys.argv[1:]:
    sys.exit(print(__doc__.strip()))

WHOLES = [0, 1, -1, 32767, -32768, 16777217, 2147483647, -2147483648]
NAN = 0x7FC00000


def value(n):
    """None for a NaN, 'inf', '-inf', or (is the sign minus, the size)."""
    sign, field, fraction = n >> 31, n >> 23 & 255, n & 0x7FFFFF
    if field == 255:
        return None if fraction else ("-inf" if sign else "inf")
    significand, exponent = (fraction, 1) if field == 0 else (fraction + 0x800000, field)
    return (bool(sign), Fraction(significand) * Fraction(2) ** (exponent - 150))


def pattern(x):
    """The pattern of an exact value that binary32 holds."""
    for field in range(255):
        significand = abs(x) / Fraction(2) ** (max(field, 1) - 150)
        if significand.denominator == 1 and significand < 0x1000000 and (field == 0) == (significand < 0x800000):
            return (0x80000000 if x < 0 else 0) + (field << 23) + int(significand) % 0x800000
    raise ValueError(x)


def floor(x):
    return x.numerator // x.denominator


def whole(v, rounding, least, most):
    if v is None or isinstance(v, str):
        return 1 << 32
    x = -v[1] if v[0] else v[1]
    size = v[1]
    if rounding == "cut":
        z = floor(size) * (-1 if v[0] else 1)
    elif rounding == "half":
        z = floor(size + Fraction(1, 2)) * (-1 if v[0] else 1)
    elif rounding == "floor":
        z = floor(x)
    else:
        z = -floor(-x)
    return z % (1 << 32) if least <= z <= most else 1 << 32


def printed(v):
    if v is None:
        return 0, 0
    if isinstance(v, str):
        return (2 if v == "-inf" else 1), 0
    if v[1] > 4294967040:
        return (4 if v[0] else 3), 0
    return (6 if v[0] and v[1] > 0 else 5), floor(v[1] * 100 + Fraction(1, 2))


def root(n):
    v = value(n)
    if v is None or v == "-inf":
        return NAN
    if v == "inf" or v[1] == 0:
        return n
    if v[0]:
        return NAN
    scale = 0
    while v[1] / Fraction(4) ** scale >= Fraction(4) ** 24:
        scale += 1
    while v[1] / Fraction(4) ** scale < Fraction(4) ** 23:
        scale -= 1
    size = v[1] / Fraction(4) ** scale
    below = isqrt(floor(size))
    middle = (below + Fraction(1, 2)) ** 2
    assert size != middle
    return pattern((below + (size > middle)) * Fraction(2) ** scale)


def patterns():
    found = [0x7F800001, 0x7FBFFFFF, 0x7FC00000, 0x7FC00001, 0x7FFFFFFF, 0xFF800001, 0xFFC00000, 0xFFFFFFFF, 0x7F800000, 0xFF800000]
    found += [0, 1, 2, 3, 0x7FFFFF, 0x800000, 0x800001, 0x7F7FFFFF]
    sizes = [Fraction(k) for k in (1, 2, 3, 4, 5, 127, 128, 129, 255, 256, 862, 863, 864, 3934, 3935, 3936, 32766, 32767, 32768, 32769, 65535, 65536, 65537, 16777215, 16777216)]
    sizes += [Fraction(2) ** k for k in (31, 32, 33, 63, 64, 126, 127, -1, -2, -126, -127, -148)] + [Fraction(4294967040)]
    sizes += [k + Fraction(1, 2) for k in (0, 1, 2, 3, 126, 127, 128, 863, 3935, 32766, 32767, 32768)]
    sizes += [Fraction(k, 8) for k in range(1, 32, 2)] + [1000 + Fraction(k, 8) for k in (1, 3, 5, 7)]
    sizes += [32768 + Fraction(15, 16), 128 + Fraction(15, 16), 32767 + Fraction(7, 16)]
    for x in sizes:
        n = pattern(x)
        found += [n - 1, n, n + 1]
    found += [0x3BA3D70A, 0x3BA3D70B, 0x3C75C28F, 0x3C75C290, 0x3A83126F, 0x42F6E666, 0x46FFFE00, 0x47000000]
    found += [0x3F7FFFFF, 0x40000001, 0x407FFFFF, 0x7F000000, 0x00000004, 0x00400000]
    chance = random.Random(1)
    found += [chance.getrandbits(31) for _ in range(60)] + [(127 + chance.randrange(-12, 40) << 23) + chance.getrandbits(23) for _ in range(120)]
    both = []
    for n in found:
        for m in (n, n ^ 0x80000000):
            if m not in both:
                both.append(m)
    return both


def line(n):
    v = value(n)
    exact = None if v is None or isinstance(v, str) else (-v[1] if v[0] else v[1])
    size, long_size = (whole(v, "cut", 1, most) for most in (863, 3935))
    kind, hundredths = printed(v)
    equals = sum(1 << i for i, z in enumerate(WHOLES) if exact is not None and exact == z)
    return "%08X %09X %09X %09X %09X %09X %03X %X%010X %02X %X %08X %03X" % (
        n, whole(v, "cut", -128, 127), whole(v, "cut", -32768, 32767), whole(v, "half", -32768, 32767), whole(v, "floor", -32768, 32767),
        whole(v, "ceil", -32768, 32767), 0 if size > 863 else size, kind, hundredths, equals, exact == 0, root(n), 0 if long_size > 3935 else long_size)


def main():
    where = sys.argv[1]
    all_patterns = patterns()
    with open(where + "/stdin", "wb") as f:
        f.write(b"".join(n.to_bytes(4, "big") for n in all_patterns))
    with open(where + "/stdout", "w") as f:
        f.write("".join(line(n) + "\n" for n in all_patterns))
    print(len(all_patterns), "patterns")


main()
