#!/usr/bin/env python3
"""Outside vectors for the door: readings and their answers, worked out with exact fractions.

  door_vectors.py           says whether the stored files are what this program makes
  door_vectors.py --write   writes them: crates/door_vectors/stdin and crates/door_vectors/stdout

It shares nothing with the Rattle code but documents 01 and 02: a pattern is taken apart by the struct module, its exact
value is a Fraction, and the nearest thousandth, halves up, is floor(value + 1/2). An answer is its number, its
thousandths and its kind: 0 none, 1 a trace, which is above zero with nearest thousandth 0, 2 measured.
"""
import random
import struct
import sys
from fractions import Fraction
from math import floor

import stored

UNITS = {'i': (100, Fraction(1000)), 'm': (2540, Fraction(5000, 127))}


def value(bits):
    """The number that a binary32 pattern stands for: a Fraction, or None of a NaN or an infinity."""
    x = struct.unpack('>f', struct.pack('>I', bits))[0]
    if x != x or x in (float('inf'), float('-inf')):
        return None
    return Fraction(x)


def converted(unit, bits):
    most, factor = UNITS[unit]
    x = value(bits)
    if x is None or x < 0 or x > most:
        return '9 0 0'
    n = floor(x * factor + Fraction(1, 2))
    return '0 %d %d' % (n, 2 if n else 1 if x > 0 else 0)


def whole(bits):
    n = bits - (1 << 32) if bits >= 1 << 31 else bits
    return '0 %d %d' % (n, 2 if n else 0) if 0 <= n <= 100000 else '9 0 0'


def pattern(x):
    """The pattern of the largest binary32 number that is at most the Fraction x, for x of 0 or more."""
    low, high = 0, 0x7f7fffff
    while low < high:
        middle = (low + high + 1) // 2
        if value(middle) <= x:
            low = middle
        else:
            high = middle - 1
    return low


def lines():
    """(letter, first, second) for each vector."""
    # document 01's own four: 0.0625 inch, 2^-11 inch, 7.9375 mm, 2,540 mm
    for unit, x in (('i', Fraction(1, 16)), ('i', Fraction(1, 2048)), ('m', Fraction(127, 16)), ('m', Fraction(2540))):
        yield unit, pattern(x), 0
    # what is no number, and zero: both zeros, both infinities, NaNs of several payloads, the largest finite
    odd = [0x00000000, 0x80000000, 0x7f800000, 0xff800000, 0x7fc00000, 0xffc00000, 0x7f800001, 0x7fffffff, 0xffffffff, 0xff800001,
           0x7fa00000, 0x7f7fffff, 0xff7fffff]
    # the smallest subnormals, the largest, the smallest normal number, and their negatives
    odd += [0x00000001, 0x00000002, 0x007fffff, 0x00800000, 0x80000001, 0x807fffff, 0x80800000]
    for unit, (most, factor) in UNITS.items():
        for bits in odd:
            yield unit, bits, 0
        # the end of the range, the number below it and the one above; their negatives
        end = pattern(Fraction(most))
        for bits in (end - 1, end, end + 1, end | 0x80000000):
            yield unit, bits, 0
        # every exact half: x * factor = k + 1/2, the number below it and the one above. In inches they are the odd
        # sixteenths, in millimetres 127 times those; each is a binary32 number
        k = 0
        halves = 0
        while True:
            x = (Fraction(2 * k + 1, 2)) / factor
            if x > most:
                break
            bits = pattern(x)
            if value(bits) == x:
                halves += 1
                for b in (bits - 1, bits, bits + 1):
                    yield unit, b, 0
            k += 1
        assert halves == {'i': 800, 'm': 160}[unit]
        # the two numbers around each of some hundreds of other edges, small ones and all over the range
        chance = random.Random(1965)
        for k in list(range(60)) + [chance.randrange(100000) for _ in range(400)]:
            bits = pattern(Fraction(2 * k + 1, 2) / factor)
            for b in (bits, bits + 1):
                yield unit, b, 0
        # any patterns
        for _ in range(300):
            yield unit, chance.randrange(1 << 32), 0
        for _ in range(300):
            yield unit, chance.randrange(end + 1), 0
    for n in (0, 1, 99999, 100000, 100001, -1, -100000, 2 ** 31 - 1, -2 ** 31):
        yield 'w', n % (1 << 32), 0
    yield '-', 0, 0
    # months of two inches: each way round, one refused, both refused
    some = [pattern(Fraction(1, 16)), pattern(Fraction(100)), pattern(Fraction(100)) + 1, 0x7fc00000, 0x80000000, 0xbf800000, pattern(Fraction(5, 2)), pattern(Fraction(1, 2048))]
    for a in some:
        for b in some:
            yield 'p', a, b


def answer(letter, first, second):
    if letter in UNITS:
        return converted(letter, first)
    if letter == 'w':
        return whole(first)
    if letter == 'p':
        return converted('i', first) + ' ' + converted('i', second)
    return '8 0 0'


def main():
    vectors = list(lines())
    made = {'stdin': ''.join('%s %08x %08x\n' % v for v in vectors), 'stdout': ''.join(answer(*v) + '\n' for v in vectors)}
    stored.settle(stored.crate('door_vectors', made), '--write' in sys.argv)
    print('%d vectors' % len(vectors))


main()
