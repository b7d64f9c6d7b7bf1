#!/usr/bin/env python3
"""Writes the rows of the float cases, which the program `sheet` runs. From the repository's root:

    python3 tools/float_cases.py > crates/sheet/data/floats.txt

Each case is one instruction on type f, run by itself: of size 1 from r2.0 and r3.0 to r4.0, or a mov of size 4 of an immediate vf to r4.

Results are worked out with Python's exact fractions from the sentences of 02 §8, which stand beside them here, and from nothing of the bench or of the host's
floats. The gate does not run this script: it reads the file, which is committed. Running it again writes the same file.
"""
from fractions import Fraction

NAN = 0x7FC00000
INFINITY = 0x7F800000
SIGN = 0x80000000
OPCODES = {'mov': 0x01, 'cmp': 0x10, 'add': 0x40, 'mul': 0x41}
CONDITIONS = ('', 'z', 'nz', 'g', 'ge', 'l', 'le')

# Zeros, the least number, the greatest subnormal and the least normal one, 1, the two beside 1, 2^24, numbers whose products are ties, the greatest, ∞, two NaNs.
PATTERNS = (0, SIGN, 1, 0x007FFFFF, 0x00800000, 0x80800000, 0x3F7FFFFF, 0x3F800000, 0x3F800001, 0xBF800001, 0x3F000000, 0x4B800000, 0x7F7FFFFF, 0xFF7FFFFF,
            INFINITY, 0xFF800000, NAN, 0xFF812345)


def is_nan(x):
    return x % SIGN > INFINITY


def is_infinite(x):
    return x % SIGN == INFINITY


def negative(x):
    return x >= SIGN


def value(x):
    """The exact number of a pattern that is neither a NaN nor infinite."""
    exponent, fraction = x // 2 ** 23 % 256, x % 2 ** 23
    size = Fraction(fraction, 2 ** 149) if exponent == 0 else Fraction(2 ** 23 + fraction) * Fraction(2) ** (exponent - 150)
    return -size if negative(x) else size


def nearest(q):
    """A fraction's nearest whole number, ties to even."""
    low = q.numerator // q.denominator
    rest = q - low
    return low + (rest > Fraction(1, 2) or rest == Fraction(1, 2) and low % 2 == 1)


def rounded(v, zero):
    """The pattern of an exact number, rounded once, to nearest, ties to even; subnormal numbers are kept. An exact zero has the sign that is told."""
    if v == 0:
        return zero
    sign, size = (SIGN if v < 0 else 0), abs(v)
    scale = -149
    while size >= Fraction(2) ** (scale + 24):
        scale += 1
    units = nearest(size / Fraction(2) ** scale)
    if units == 2 ** 24:
        units, scale = 2 ** 23, scale + 1
    if scale > 104:
        return sign + INFINITY
    return sign + (units if units < 2 ** 23 else (scale + 150) * 2 ** 23 + units - 2 ** 23)


def sum_of(x, y):
    """Any NaN sum is 0x7FC00000. A sum that is exactly zero is +0 unless both are −0."""
    if is_nan(x) or is_nan(y) or is_infinite(x) and is_infinite(y) and x != y:
        return NAN
    if is_infinite(x) or is_infinite(y):
        return x if is_infinite(x) else y
    return rounded(value(x) + value(y), SIGN if x == y == SIGN else 0)


def product_of(x, y):
    sign = SIGN if negative(x) != negative(y) else 0
    if is_nan(x) or is_nan(y) or is_infinite(x) and y % SIGN == 0 or is_infinite(y) and x % SIGN == 0:
        return NAN
    if is_infinite(x) or is_infinite(y):
        return sign + INFINITY
    return rounded(value(x) * value(y), sign)


def compares(condition, x, y):
    """cmp compares the two floats themselves; with a NaN it is false but for nz."""
    if is_nan(x) or is_nan(y):
        return condition == 'nz'
    large = 2 ** 200
    a, b = ((-large if negative(p) else large) if is_infinite(p) else value(p) for p in (x, y))
    return {'z': a == b, 'nz': a != b, 'g': a > b, 'ge': a >= b, 'l': a < b, 'le': a <= b}[condition]


def modified(m, x):
    """Modifiers act on the sign bit: 1, 2, 3 are absolute, negated, negated absolute."""
    return {0: x, 1: x % SIGN, 2: (x + SIGN) % (2 * SIGN), 3: x % SIGN + SIGN}[m]


def result(op, condition, x, y):
    """mov copies bits. A destination of cmp gets the bits of the whole number 1 or 0."""
    return {'mov': lambda: x, 'add': lambda: sum_of(x, y), 'mul': lambda: product_of(x, y), 'cmp': lambda: int(compares(condition, x, y))}[op]()


BEFORE = 0xA5A5A5A5  # what the destination holds before the instruction


def run(words, sets, holds, flag=None):
    print('long %08x %08x %08x %08x' % words)
    for at, dword in sets:
        print('set %x %08x' % (at, dword))
    print('start f 0 0')
    print('run 1')
    print('answer 14 0 1')
    for at, dword in holds:
        print('holds %x %08x' % (at, dword))
    if flag is not None:
        print('stands 0 %x' % flag)


def case(op, x, y=0, m0=0, m1=0, condition=''):
    """By the paper's "The long word": size 1, files 01, types 7; strides, widths and subregisters 0, but the destination's stride 1."""
    two = op != 'mov'
    first = OPCODES[op] | CONDITIONS.index(condition) << 24
    second = 1 | 7 << 2 | 1 << 5 | 7 << 7 | 4 << 21 | 1 << 29 | ((1 << 10 | 7 << 12) if two else 0)
    signs = ('', 'abs ', 'neg ', 'neg abs ')
    name = op + ('.' + condition if condition else '')
    print('case %s f, %s%08x' % (name, signs[m0], x) + (', %s%08x' % (signs[m1], y) if two else ''))
    given = result(op, condition, modified(m0, x), modified(m1, y))
    run((first, second, 2 << 5 | m0 << 13, (3 << 5 | m1 << 13) if two else 0), ((0x40, x), (0x60, y), (0x80, BEFORE)), ((0x80, given), (0x84, 0)),
        given if op == 'cmp' else None)


def restricted(byte):
    """Sign, 3 exponent bits biased by 3, 4 fraction bits; 0x00 and 0x80 are zeros."""
    sign = SIGN if byte >= 128 else 0
    if byte % 128 == 0:
        return sign
    v = Fraction(16 + byte % 16, 16) * Fraction(2) ** (byte // 16 % 8 - 3)
    return rounded(-v if sign else v, sign)


def vector(first_byte):
    """mov of size 4 of an immediate vf, channel n from byte n."""
    octets = [first_byte + n for n in range(4)]
    immediate = sum(b << 8 * n for n, b in enumerate(octets))
    print('case mov f, vf %08x' % immediate)
    run((1 | 2 << 21, 1 | 7 << 2 | 3 << 5 | 5 << 7 | 4 << 21 | 1 << 29, 0, immediate), ((0x80, BEFORE), (0x90, BEFORE)),
        [(0x80 + 4 * n, restricted(b)) for n, b in enumerate(octets)] + [(0x90, BEFORE)])


def main():
    print('# Floats, written by tools/float_cases.py from the rules of 02 §8. sheet.txt says how rows are written.')
    print('# A title names the operation and the patterns of its sources.')
    print('# mov with each modifier')
    for x in PATTERNS:
        for m in range(4):
            case('mov', x, m0=m)
    print('# sums and products')
    for op in ('add', 'mul'):
        for i, x in enumerate(PATTERNS):
            for y in PATTERNS[i:]:
                case(op, x, y)
    print('# differences: the second source negated; and from the other side, sums and products of a modified first one')
    for x, y in ((0x3F800000, 0x3F800000), (0, SIGN), (SIGN, 0), (INFINITY, INFINITY), (0x4B800000, 0x3F800001), (0x00800000, 1)):
        case('add', x, y, m1=2)
        case('add', y, x, m0=3)
        case('mul', y, x, m0=2, m1=1)
    print('# cmp by each condition')
    for condition in CONDITIONS[1:]:
        for x, y in ((0, SIGN), (1, 0), (0, 1), (0xBF800001, 0x3F800000), (0x7F7FFFFF, INFINITY), (0xFF800000, 0xFF7FFFFF), (NAN, NAN), (0x3F800000, NAN), (0xFF812345, 0)):
            case('cmp', x, y, condition=condition)
    print('# every restricted float')
    for byte in range(0, 256, 4):
        vector(byte)


main()
