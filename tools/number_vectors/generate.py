#!/usr/bin/env python3
"""Vectors of the operators on numbers, computed with exact integers and fractions, apart from the crates.

usage: tools/number_vectors/generate.py DIR        writes DIR/stdin (the operands) and DIR/stdout (what the program must write)

Sources: document 01 'Instructions', shared/readings.md 'Numbers' and 'Instruction numbers', tables 2 and 3 of the guide; for CONSTRAIN, MAP
and POW document 02, Q-3, and its part of shared/readings-02.md.

stdin: 200 operands of five bytes, a type (1 CHAR, 2 INT, 4 FLOAT) and the value's bytes as they lie on the stack, high byte first, zeros behind; type 0: no operand.
stdout, in this order, the operators by their numbers:
    U TYPE SUM SEVENS EIGHTS            operator U of one operand over every CHAR, every INT, and the FLOATs of stdin
    B FIRST SECOND SUM SEVENS EIGHTS    operator B of two operands over all pairs of operands of stdin with these types
    38 TYPE.. SUM SEVENS EIGHTS         CONSTRAIN over all triples of CHARs, and of operands of stdin with other types
    39 TYPE.. SUM SEVENS EIGHTS         MAP over 4096 drawn fives of operands with these types
    40 FIRST SECOND SUM SEVENS EIGHTS   POW over every CHAR, every INT, and the FLOATs of stdin, to each of EXPONENTS
    text                                PRINT of each multiple of 997, then of each INT and FLOAT of stdin, a line each
    TYPE SUM                            PRINT of every CHAR and every INT
    I T..                               instruction I, 0 to 255, and the operand types of 0 to 5 that the operator I takes first; none where I is no operator
    I P T..                             the same of 38, 39 and 40 for the operands pushed later, place P from 1
A type that an operator does not take has no line. SEVENS and EIGHTS count the outcomes that are faults 7 and 8.
SUM, in hex: from 0, each byte x turns h into (h * 16777619 + x) mod 4294967291. An outcome's bytes are its type and four value bytes, zeros behind; or its fault number alone.
A text's bytes are its length and its own.
"""
import sys
from fractions import Fraction
from functools import cache, lru_cache
from itertools import product
from math import isqrt
from struct import pack

if "--help" in sys.argv[1:]:
    sys.exit(print(__doc__.strip()))

CHAR, INT, FLOAT = 1, 2, 4
NAN = 0x7FC00000
GREATEST_PRINTED = 4294967040
NUMBER, WHOLE = (CHAR, INT, FLOAT), (CHAR, INT)

# Table 2: number, operand types. ANALOGREAD and DIGITALREAD are not built.
UNARY = {
    "INCREMENT": (7, NUMBER), "DECREMENT": (8, NUMBER), "UNARYMINUS": (14, NUMBER), "LOGICALNOT": (24, NUMBER), "BITWISENOT": (28, WHOLE),
    "TOCHAR": (29, (INT, FLOAT)), "TOINT": (30, (CHAR, FLOAT)), "TOFLOAT": (31, WHOLE), "ROUND": (32, NUMBER), "FLOOR": (33, NUMBER),
    "CEIL": (34, NUMBER), "ABS": (37, NUMBER), "SQ": (41, NUMBER), "SQRT": (42, NUMBER),
}
# Table 3: number, types of both operands; POW is below.
BINARY = {
    "PLUS": (9, NUMBER), "MINUS": (10, NUMBER), "TIMES": (11, NUMBER), "DIVIDEDBY": (12, NUMBER), "MODULUS": (13, WHOLE),
    "EQUALS": (15, NUMBER), "NOTEQUALS": (16, NUMBER), "LESSTHAN": (17, NUMBER), "LESSTHANOREQUALS": (18, NUMBER), "GREATERTHAN": (19, NUMBER),
    "GREATERTHANOREQUALS": (20, NUMBER), "LOGICALAND": (21, NUMBER), "LOGICALOR": (22, NUMBER), "LOGICALXOR": (23, NUMBER),
    "BITWISEAND": (25, WHOLE), "BITWISEOR": (26, WHOLE), "BITWISEXOR": (27, WHOLE), "MIN": (35, NUMBER), "MAX": (36, NUMBER),
}

# Document 02, Q-3: number, types of each operand, the one pushed first first.
SCALING = {"CONSTRAIN": (38, (NUMBER,) * 3), "MAP": (39, (NUMBER,) * 5), "POW": (40, (NUMBER, WHOLE))}
# The last two would be 15 if only their low byte were looked at. A CHAR has the low byte of each.
EXPONENTS = (*range(16), -1, 16, 127, -128, 32767, -32768, 256 + 15, -256 + 15)
CASES = 4096


class Fault(Exception):
    pass


# A FLOAT is its pattern. `real` gives (rank, size, minus): rank -1 and 1 for the infinities, 0 for a finite value, None for NaN.

@lru_cache(65536)
def real(pattern):
    minus, field, fraction = pattern >> 31 == 1, pattern >> 23 & 255, pattern & 0x7FFFFF
    if field == 255:
        return (None, Fraction(0), minus) if fraction else ((-1 if minus else 1), Fraction(0), minus)
    significand, exponent = (fraction, 1) if field == 0 else (fraction + 0x800000, field)
    size = Fraction(significand * 2 ** exponent, 2 ** 150)
    return 0, size, minus


@cache
def power(exponent):
    return Fraction(2) ** exponent


def infinity(minus):
    return 0xFF800000 if minus else 0x7F800000


def nearest(size, minus):
    """The pattern nearest to an exact size, ties to the even significand, with this sign."""
    sign = 0x80000000 if minus else 0
    exponent = max(-149, size.numerator.bit_length() - size.denominator.bit_length() - 25)
    while size >= power(exponent + 24):
        exponent += 1
    units = size / power(exponent)
    significand = units.numerator // units.denominator
    rest = units - significand
    if rest > Fraction(1, 2) or rest == Fraction(1, 2) and significand % 2 == 1:
        significand += 1
    if significand == 0x1000000:
        significand, exponent = 0x800000, exponent + 1
    if exponent > 104:
        return infinity(minus)
    if significand < 0x800000:
        return sign | significand
    return sign | exponent + 150 << 23 | significand - 0x800000


@cache
def float_of_whole(n):
    return nearest(Fraction(abs(n)), n < 0)


@lru_cache(65536)
def exact(pattern):
    rank, size, minus = real(pattern)
    return -size if minus else size


def add(x, y):
    (rx, _, mx), (ry, _, my) = real(x), real(y)
    if rx is None or ry is None or rx * ry == -1:
        return NAN
    if rx or ry:
        return infinity(mx if rx else my)
    total = exact(x) + exact(y)
    if total == 0:
        return nearest(Fraction(0), mx and my)
    return nearest(abs(total), total < 0)


def subtract(x, y):
    return add(x, y ^ 0x80000000)


def multiply(x, y):
    (rx, sx, mx), (ry, sy, my) = real(x), real(y)
    if rx is None or ry is None:
        return NAN
    if rx or ry:
        return NAN if (rx == 0 and sx == 0) or (ry == 0 and sy == 0) else infinity(mx != my)
    return nearest(sx * sy, mx != my)


def divide(x, y):
    (rx, sx, mx), (ry, sy, my) = real(x), real(y)
    if rx is None or ry is None or rx and ry:
        return NAN
    if ry:
        return nearest(Fraction(0), mx != my)
    if rx:
        return infinity(mx != my)
    if sy == 0:
        return NAN if sx == 0 else infinity(mx != my)
    return nearest(sx / sy, mx != my)


def root(x):
    rank, size, minus = real(x)
    if rank is None or (minus and (rank or size)):
        return NAN
    if rank or size == 0:
        return x
    # The root of size * 4^k cut to a whole of 46 bits or more; an odd last bit says that something was cut off.
    k = 120
    scaled = size * 4 ** k
    cut = isqrt(scaled.numerator // scaled.denominator)
    more = 0 if Fraction(cut * cut) == scaled else 1
    return nearest(Fraction(2 * cut + more, 2 ** (k + 1)), False)


def order(x, y):
    """-1, 0, 1, or None with a NaN."""
    rx, ry = real(x)[0], real(y)[0]
    if rx is None or ry is None:
        return None
    a, b = (rx, exact(x)), (ry, exact(y))
    return (a > b) - (a < b)


# A number is (type, value): a CHAR or an INT by its whole number, a FLOAT by its pattern.

def wrapped(kind, n):
    bits = 8 * kind
    n %= 1 << bits
    return kind, n - (1 << bits) if n >> bits - 1 else n


def flag(holds):
    return CHAR, 1 if holds else 0


def is_zero(a):
    kind, x = a
    return x in (0, 0x80000000) if kind == FLOAT else x == 0


def in_range(kind, n):
    half = 1 << 8 * kind - 1
    if not -half <= n < half:
        raise Fault(8)
    return kind, n


def whole_of(x, rounding, kind):
    rank, size, minus = real(x)
    if rank != 0:
        raise Fault(8)
    value = exact(x)
    down = value.numerator // value.denominator
    up = -(-value.numerator // value.denominator)
    half = size + Fraction(1, 2)
    away = half.numerator // half.denominator
    return in_range(kind, {"cut": up if minus else down, "down": down, "up": up, "half away": -away if minus else away}[rounding])


ROUNDING = {"ROUND": "half away", "FLOOR": "down", "CEIL": "up", "TOCHAR": "cut", "TOINT": "cut"}


def unary_float(name, x):
    if name in ROUNDING:
        return whole_of(x, ROUNDING[name], CHAR if name == "TOCHAR" else INT)
    one = float_of_whole(1)
    return FLOAT, {
        "INCREMENT": lambda: add(x, one), "DECREMENT": lambda: subtract(x, one), "UNARYMINUS": lambda: x ^ 0x80000000,
        "ABS": lambda: x & 0x7FFFFFFF, "SQ": lambda: multiply(x, x), "SQRT": lambda: root(x),
    }[name]()


def unary(name, a):
    kind, x = a
    if name == "LOGICALNOT":
        return flag(is_zero(a))
    if kind == FLOAT:
        return unary_float(name, x)
    if name == "SQRT":
        if x < 0:
            raise Fault(8)
        return kind, isqrt(x)
    if name == "TOFLOAT":
        return FLOAT, float_of_whole(x)
    if name in ROUNDING:
        return wrapped(CHAR if name == "TOCHAR" else INT, x)
    return wrapped(kind, {"INCREMENT": x + 1, "DECREMENT": x - 1, "UNARYMINUS": -x, "ABS": abs(x), "SQ": x * x, "BITWISENOT": -1 - x}[name])


def divided(x, y):
    """Quotient cut toward zero, and the remainder, which has the dividend's sign."""
    if y == 0:
        raise Fault(7)
    quotient = abs(x) // abs(y) * (1 if (x < 0) == (y < 0) else -1)
    return quotient, x - quotient * y


WHOLE_RESULT = {
    "PLUS": lambda x, y: x + y, "MINUS": lambda x, y: x - y, "TIMES": lambda x, y: x * y, "DIVIDEDBY": lambda x, y: divided(x, y)[0],
    "MODULUS": lambda x, y: divided(x, y)[1], "BITWISEAND": lambda x, y: x & y, "BITWISEOR": lambda x, y: x | y, "BITWISEXOR": lambda x, y: x ^ y,
}
FLOAT_RESULT = {"PLUS": add, "MINUS": subtract, "TIMES": multiply, "DIVIDEDBY": divide}
HOLDS = {
    "EQUALS": (0,), "NOTEQUALS": (-1, 1, None), "LESSTHAN": (-1,), "LESSTHANOREQUALS": (-1, 0), "GREATERTHAN": (1,), "GREATERTHANOREQUALS": (0, 1),
}
LOGICAL = {"LOGICALAND": lambda p, q: p and q, "LOGICALOR": lambda p, q: p or q, "LOGICALXOR": lambda p, q: p != q}


def binary(name, a, b):
    if name in LOGICAL:
        return flag(LOGICAL[name](not is_zero(a), not is_zero(b)))
    kind = max(a[0], b[0])
    x, y = (float_of_whole(v) if kind == FLOAT and k != FLOAT else v for k, v in (a, b))
    if name in HOLDS or name in ("MIN", "MAX"):
        o = order(x, y) if kind == FLOAT else (x > y) - (x < y)
        if name in HOLDS:
            return flag(o in HOLDS[name])
        return kind, y if o == (1 if name == "MIN" else -1) else x
    if kind == FLOAT:
        return FLOAT, FLOAT_RESULT[name](x, y)
    return wrapped(kind, WHOLE_RESULT[name](x, y))


def as_float(a):
    kind, x = a
    return x if kind == FLOAT else float_of_whole(x)


def constrain(x, a, b):
    """'our MIN of (our MAX of x, a) and b'"""
    return binary("MIN", binary("MAX", x, a), b)


def scaled(*five):
    """'(a − b) × (e − d) / (c − b) + d': in FLOAT each operation rounds once; of whole numbers only the result is reduced."""
    kind = max(k for k, _ in five)
    if kind == FLOAT:
        a, b, c, d, e = map(as_float, five)
        return FLOAT, add(divide(multiply(subtract(a, b), subtract(e, d)), subtract(c, b)), d)
    a, b, c, d, e = (n for _, n in five)
    return wrapped(kind, divided((a - b) * (e - d), c - b)[0] + d)


def raised(x, y):
    """'multiplying from the left starting at 1, in the wider operand's type'. To reduce the whole power is to reduce each product."""
    if not 0 <= y[1] <= 15:
        raise Fault(8)
    kind = max(x[0], y[0])
    if kind != FLOAT:
        return wrapped(kind, x[1] ** y[1])
    product = float_of_whole(1)
    for _ in range(y[1]):
        product = multiply(product, x[1])
    return FLOAT, product


def text(a):
    kind, x = a
    if kind == CHAR:
        return pack(">b", x)
    if kind == INT:
        return str(x).encode()
    rank, size, minus = real(x)
    if rank is None:
        return b"nan"
    below = b"-" if minus and (rank or size) else b""
    if rank:
        return below + b"inf"
    if size > GREATEST_PRINTED:
        return below + b"ovf"
    hundredths = (2 * 100 * size + 1) // 2
    return below + b"%d.%02d" % (hundredths // 100, hundredths % 100)


def laid(a):
    """The type and the value's bytes as they lie on the stack, in five bytes."""
    kind, x = a
    return bytes([kind]) + (pack(">b", x) if kind == CHAR else pack(">h", x) if kind == INT else pack(">I", x)).ljust(4, b"\0")


def step(h, byte):
    return (h * 16777619 + byte) % 4294967291


class Tally:
    def __init__(self):
        self.sum, self.length, self.faults = 0, 0, {7: 0, 8: 0}

    def mix(self, data):
        for byte in data:
            self.sum = step(self.sum, byte)
        self.length += len(data)

    def follow(self, other):
        """As if all that went into the other came behind: h turned by n bytes is h * 16777619^n and what they turn 0 into."""
        self.sum = (self.sum * pow(16777619, other.length, 4294967291) + other.sum) % 4294967291
        self.length += other.length
        for number in self.faults:
            self.faults[number] += other.faults[number]

    def run(self, operator, *operands):
        try:
            kind, x = operator(*operands)
        except Fault as fault:
            self.faults[fault.args[0]] += 1
            self.mix([fault.args[0]])
            return
        self.mix(laid((kind, NAN if kind == FLOAT and real(x)[0] is None else x)))

    def fields(self):
        return b"%08x %d %d" % (self.sum, self.faults[7], self.faults[8])


def float_operands():
    sizes = [Fraction(k) for k in (0, 1, 2, 3, 10, 127, 128, 129, 255, 256, 863, 32766, 32767, 32768, 32769, 65535, 65536, 16777215, 16777216, 16777218)]
    sizes += [Fraction(2) ** k for k in (-149, -148, -126, -75, -63, -1, -2, 31, 32, 63, 64, 100, 127)] + [Fraction(GREATEST_PRINTED)]
    sizes += [Fraction(k, 2) for k in (3, 5, 7, 255, 257, 65533, 65535, 65537)] + [Fraction(k, 8) for k in (1, 3, 5, 7)] + [1000 + Fraction(1, 8)]
    sizes += [Fraction(2 ** 23 - 1, 2 ** 149), Fraction(3, 2 ** 76), Fraction(1, 3), Fraction(1, 10), Fraction(1, 1000), Fraction(1, 200), Fraction(3, 200)]
    sizes += [Fraction(12345, 100), Fraction(995, 1000), Fraction(99995, 1000), 32768 + Fraction(15, 16)]
    patterns = [nearest(size, False) for size in sizes]
    beside = [0x3F800000, 0x00800000, 0x4F7FFFFF, nearest(Fraction(1, 200), False), nearest(Fraction(3, 200), False), 0x3F000000]
    patterns += [p - 1 for p in beside] + [p + 1 for p in beside] + [0x7F7FFFFF, 0x7F800000, 0x7F800001, 0x7FC00000, 0x7FFFFFFF]
    seen = []
    for p in patterns:
        seen += [q for q in (p, p | 0x80000000) if q not in seen]
    return [(FLOAT, p) for p in seen]


def operands():
    ints = (-32768, -32767, -32766, -4096, -256, -255, -182, -181, -129, -128, -127, -7, -2, -1, 0, 1, 2, 7, 127, 128, 181, 182, 255, 256, 4096, 32766, 32767)
    chars = (-128, -127, -126, -64, -12, -11, -7, -3, -2, -1, 0, 1, 2, 3, 7, 11, 12, 64, 126, 127)
    found = [(CHAR, n) for n in chars] + [(INT, n) for n in ints] + float_operands()
    assert len(found) <= 200
    return found


def every(kind):
    """All numbers of a whole type, by rising bytes."""
    return [wrapped(kind, n) for n in range(1 << 8 * kind)]


def over_triples(firsts, seconds, thirds):
    """CONSTRAIN over all triples. The thirds meet each greater of x and a in one way: they are tallied once for each."""
    tally, behind = Tally(), {}
    for x, a in product(firsts, seconds):
        greater = binary("MAX", x, a)
        if greater not in behind:
            behind[greater] = Tally()
            for b in thirds:
                behind[greater].run(constrain, x, a, b)
        tally.follow(behind[greater])
    return tally


def drawn(of_type, kind, draw):
    """The operand of this type for a number drawn: every other one is of stdin, the others any CHAR, any INT, a FLOAT of a size from 1/8 to 32."""
    n = draw // 2
    if draw % 2 == 0:
        return of_type[kind][n % len(of_type[kind])]
    if kind != FLOAT:
        return wrapped(kind, n)
    high = 62 + n % 4 + 128 * (n // 4 % 2)
    return FLOAT, high << 24 | n // 8 % 256 << 16 | n // 2048 % 256 << 8 | n // 524288 % 256


def over_draws(of_type, kinds):
    """MAP over drawn operands. A draw is the one before with the byte 1 more in the checksum; the first comes behind that of the types."""
    tally, types = Tally(), Tally()
    types.mix(kinds)
    draw = types.sum
    for _ in range(CASES):
        five = []
        for kind in kinds:
            draw = step(draw, 1)
            five.append(drawn(of_type, kind, draw))
        tally.run(scaled, *five)
    return tally


def over(name, kinds, of_type):
    tally, given = Tally(), [of_type[kind] for kind in kinds]
    if name == "CONSTRAIN":
        return over_triples(*([every(CHAR)] * 3 if kinds == (CHAR,) * 3 else given))
    if name == "MAP":
        return over_draws(of_type, kinds)
    if name in BINARY:
        for a, b in product(*given):
            tally.run(binary, name, a, b)
        return tally
    for a in given[0] if kinds[0] == FLOAT else every(kinds[0]):
        if name in UNARY:
            tally.run(unary, name, a)
        else:
            for y in EXPONENTS:
                tally.run(raised, a, wrapped(kinds[1], y))
    return tally


def places(name, types):
    """The types that the operator takes at each place."""
    return types if name in SCALING else (types,) * (1 if name in UNARY else 2)


def fields(*numbers):
    return b" ".join(b"%d" % n for n in numbers)


def lines(given):
    of_type = {kind: [a for a in given if a[0] == kind] for kind in NUMBER}
    for name, (number, types) in sorted({**UNARY, **BINARY, **SCALING}.items(), key=lambda row: row[1][0]):
        for kinds in product(*places(name, types)):
            yield b"%s %s" % (fields(number, *kinds), over(name, kinds, of_type).fields())
    for a in [(INT, 997 * k) for k in range(-32, 33)] + of_type[INT] + of_type[FLOAT]:
        yield text(a)
    for kind in WHOLE:
        tally = Tally()
        for a in every(kind):
            tally.mix([len(text(a))])
            tally.mix(text(a))
        yield b"%d %08x" % (kind, tally.sum)
    taken = {number: places(name, types) for name, (number, types) in {**UNARY, **BINARY, **SCALING}.items()}
    for number in range(256):
        yield fields(number, *taken.get(number, [()])[0])
    for number, _ in SCALING.values():
        for place, types in list(enumerate(taken[number]))[1:]:
            yield fields(number, place, *types)


def main():
    where, given = sys.argv[1], operands()
    with open(where + "/stdin", "wb") as f:
        f.write(b"".join(laid(a) for a in given).ljust(1000, b"\0"))
    with open(where + "/stdout", "wb") as f:
        f.write(b"".join(line + b"\n" for line in lines(given)))
    print(len(given), "operands")


main()
