#!/usr/bin/env python3
"""Holds tables of 64 constants to RFC 1321's definition (3.4).

    table.py FILE..

Each file has one table, a `const T: [u32; 64]` or a `table =`, in hex: T[i] is the integer part of 4294967296 times
abs(sin(i)), for i from 1 to 64 in radians.
"""
import fractions
import math
import pathlib
import re
import sys

COUNT = 64
TABLE = re.compile(r'(?:const T: \[u32; 64\] = \[|^table =)(.*?)\]', re.S | re.M)
# Terms of the series: up to 64 radians the first that is left out is below 10^-100, and the error is not more.
TERMS = 200


def sine(i):
    """sin(i) by its series, in fractions, and how far it is off at most."""
    term, total = fractions.Fraction(i), fractions.Fraction(0)
    for n in range(TERMS):
        total += term
        term *= fractions.Fraction(-i * i, (2 * n + 2) * (2 * n + 3))
    return total, abs(term)


def constant(i):
    """The integer part, which is the same at both ends of what the sine may be."""
    value, off = sine(i)
    low, high = ((abs(value) - off) * 2**32, (abs(value) + off) * 2**32)
    if math.floor(low) != math.floor(high):
        sys.exit(f'table: sin({i}) is not known well enough')
    return math.floor(low)


def main():
    wanted = [constant(i) for i in range(1, COUNT + 1)]
    if len(sys.argv) < 2:
        sys.exit(__doc__)
    for name in sys.argv[1:]:
        tables = TABLE.findall(pathlib.Path(name).read_text())
        if len(tables) != 1:
            sys.exit(f'table: {name}: {len(tables)} tables')
        found = [int(number, 16) for number in re.findall(r'\b0x([0-9A-Fa-f]+)\b', tables[0])]
        if len(found) != COUNT:
            sys.exit(f'table: {name}: {len(found)} constants')
        for i, (number, right) in enumerate(zip(found, wanted), 1):
            if number != right:
                sys.exit(f'table: {name}: T[{i}] is {number:08x}, right is {right:08x}')


if __name__ == '__main__':
    main()
