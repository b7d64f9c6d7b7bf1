#!/usr/bin/env python3
"""Writes the rows of the element cases, which the program `sheet` runs. From the repository's root:

    python3 tools/element_cases.py > crates/sheet/data/elements.txt

Each case is one instruction of size 1, run by itself: from r2.0 and r3.0 to r4.0. What stands beside the elements in their registers is neither 0 nor asked for.

Results are worked out with Python's exact integers from the sentences of the paper's "Operations", which stand beside them here, and from nothing of the bench.
The gate does not run this script: it reads the file, which is committed. Running it again writes the same file.
"""

TYPES = {'ud': (0, 32, False), 'd': (1, 32, True), 'uw': (2, 16, False), 'w': (3, 16, True), 'ub': (4, 8, False), 'b': (5, 8, True)}
OPCODES = {'mov': 0x01, 'sel': 0x02, 'not': 0x04, 'and': 0x05, 'or': 0x06, 'xor': 0x07, 'shr': 0x08, 'shl': 0x09, 'asr': 0x0C, 'cmp': 0x10,
           'add': 0x40, 'mul': 0x41, 'avg': 0x42}
CONDITIONS = {1: lambda v: v == 0, 2: lambda v: v != 0, 3: lambda v: v > 0, 4: lambda v: v >= 0, 5: lambda v: v < 0, 6: lambda v: v <= 0}
SATURATE = ('mov', 'sel', 'add', 'mul', 'avg')  # the operations on which Saturate is served


def least(t):
    code, width, signed = TYPES[t]
    return -2 ** (width - 1) if signed else 0


def greatest(t):
    code, width, signed = TYPES[t]
    return 2 ** (width - 1) - 1 if signed else 2 ** width - 1


def limits(t):
    return sorted({v for v in (least(t), -1, 0, 1, greatest(t)) if least(t) <= v <= greatest(t)})


def modified(m, v):
    """Modifiers 1, 2, 3 are absolute, negated, negated absolute."""
    return {0: v, 1: abs(v), 2: -v, 3: -abs(v)}[m]


def result(op, condition, holds, a, b):
    """Values are exact whole numbers. In Python // rounds down and % is the least non-negative remainder."""
    count, dword = b % 32, 2 ** 32
    return {
        'mov': lambda: a,
        'sel': lambda: a if holds else b,  # src0 where the predicate holds, else src1
        'not': lambda: dword - 1 - a % dword,  # logic works on values modulo 2^32
        'and': lambda: a % dword & b % dword,
        'or': lambda: a % dword | b % dword,
        'xor': lambda: a % dword ^ b % dword,
        'shr': lambda: a // 2 ** count,  # shifts multiply or divide by 2 to the count modulo 32, rounding down
        'shl': lambda: a * 2 ** count,
        'asr': lambda: a // 2 ** count,
        'cmp': lambda: 1 if CONDITIONS[condition](a - b) else 0,  # compares src0 − src1 with 0
        'add': lambda: a + b,
        'mul': lambda: a * b,
        'avg': lambda: (a + b + 1) // 2,  # (a+b+1)/2 rounded down
    }[op]()


def stored(saturate, t, v):
    """Clamped to the destination type if Saturate is set, else taken modulo its width."""
    return (min(max(v, least(t)), greatest(t)) if saturate else v) % 2 ** TYPES[t][1]


BESIDE_SOURCES, BEFORE = 0x5A5A5A5A, 0xA5A5A5A5  # what the registers hold around the sources, and in the destination before the instruction


def beside(pattern, t, around):
    """A dword whose lowest element is the pattern."""
    mask = 2 ** TYPES[t][1] - 1
    return around & ~mask | pattern & mask


def instruction(op, to, t0, t1, m0, m1, condition, saturate):
    """The long word's dwords, by the paper's "The long word". Files are 01; strides, widths and subregisters 0, but the destination's stride 1."""
    two = op not in ('mov', 'not')
    first = OPCODES[op] | (op == 'sel') << 16 | condition << 24 | saturate << 31  # PredCtrl 1 on sel
    second = 1 | TYPES[to][0] << 2 | 1 << 5 | TYPES[t0][0] << 7 | 4 << 21 | 1 << 29
    second |= (1 << 10 | TYPES[t1][0] << 12) if two else 0
    return first, second, 2 << 5 | m0 << 13, (3 << 5 | m1 << 13) if two else 0


def title(op, to, t0, a, t1, b, m0, m1, condition, holds, saturate):
    signs = ('', 'abs ', 'neg ', 'neg abs ')
    name = op + ('.sat' if saturate else '') + ('', '.z', '.nz', '.g', '.ge', '.l', '.le')[condition]
    sources = '%s%s %d' % (signs[m0], t0, a) + ('' if op in ('mov', 'not') else ', %s%s %d' % (signs[m1], t1, b))
    return '%s %s, %s' % (name, to, sources) + ((' by 0', ' by 1')[holds] if op == 'sel' else '')


def case(op, to, t0, a, t1='ud', b=0, m0=0, m1=0, condition=0, holds=1, saturate=0):
    kept = beside(stored(saturate, to, result(op, condition, holds, modified(m0, a), modified(m1, b))), to, BEFORE)
    assert kept != BEFORE
    print('case', title(op, to, t0, a, t1, b, m0, m1, condition, holds, saturate))
    print('long %08x %08x %08x %08x' % instruction(op, to, t0, t1, m0, m1, condition, saturate))
    print('set 40 %08x' % beside(a, t0, BESIDE_SOURCES))
    if op not in ('mov', 'not'):
        print('set 60 %08x' % beside(b, t1, BESIDE_SOURCES))
    print('set 80 %08x' % BEFORE)
    print('start 1 %d 0' % (holds if op == 'sel' else 0))
    print('run 1')
    print('holds 80 %08x' % kept)


def saturates(op):
    return (0, 1) if op in SATURATE else (0,)


def main():
    print("# Elements at the limits of the types, written by tools/element_cases.py from the paper's rules. sheet.txt says how rows are written.")
    print('# A title names the operation, the destination type, and the type and value of each source.')
    print('# mov from each type to each, at the limits')
    for t in TYPES:
        for to in TYPES:
            for v in (least(t), greatest(t)):
                for s in (0, 1):
                    case('mov', to, t, v, saturate=s)
    print('# mov with each modifier, and not')
    for t in TYPES:
        for v in limits(t):
            for m in (1, 2, 3):
                for s in (0, 1):
                    case('mov', t, t, v, m0=m, saturate=s)
            case('not', t, t, v)
    print('# two sources and a destination of one type: at each limit of the first, the least, the greatest and 1 as the second')
    for op in ('add', 'avg', 'mul', 'and', 'or', 'xor', 'shl', 'shr', 'asr'):
        for t, (code, width, signed) in TYPES.items():
            # mul has no dword sources; shr's src0 is unsigned, asr's signed
            if op == 'mul' and width == 32 or op == 'shr' and signed or op == 'asr' and not signed:
                continue
            for a in limits(t):
                for b in (least(t), 1, greatest(t)):
                    for s in saturates(op):
                        case(op, t, t, a, t, b, saturate=s)
    print('# differences: the second source negated')
    for t in TYPES:
        for a, b in ((least(t), greatest(t)), (greatest(t), least(t)), (least(t), 1), (0, least(t))):
            for s in (0, 1):
                case('add', t, t, a, t, b, m1=2, saturate=s)
    print('# shift counts around 32, and below 0')
    for count in (31, 32, 33):
        for t in TYPES:
            case('shl', t, t, greatest(t), 'uw', count)
            case('asr' if TYPES[t][2] else 'shr', t, t, least(t) if TYPES[t][2] else greatest(t), 'uw', count)
    case('shl', 'd', 'd', 1, 'w', -1)
    case('asr', 'd', 'd', least('d'), 'w', -1)
    case('shr', 'ud', 'ud', greatest('ud'), 'w', -31)
    print('# sel by both predicates')
    for t in TYPES:
        for holds in (0, 1):
            for s in (0, 1):
                case('sel', t, t, least(t), t, greatest(t), holds=holds, saturate=s)
                case('sel', t, 'w', -1, 'uw', greatest('uw'), holds=holds, saturate=s)
    print('# cmp by each condition; the last pair of each type has one pattern and two values')
    for t, other in (('ud', 'd'), ('d', 'ud'), ('uw', 'w'), ('w', 'uw'), ('ub', 'b'), ('b', 'ub')):
        for condition in CONDITIONS:
            for a, b in ((least(t), greatest(t)), (greatest(t), least(t)), (greatest(t), greatest(t))):
                case('cmp', t, t, a, t, b, condition=condition)
            one = greatest(t) if least(t) == 0 else -1
            two = -1 if least(t) == 0 else greatest(other)
            case('cmp', t, t, one, other, two, condition=condition)


main()
