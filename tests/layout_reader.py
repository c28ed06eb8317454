"""A reader of division files of its own: one line, and what the program prints of a whole file.

Written from the rules of the layout alone, without looking at the Rattle code. A line is taken apart by one regular
expression, and a value is a Decimal.
"""
import re
from collections import namedtuple
from decimal import Decimal

MALFORMED, OTHER, YEAR = 14, 15, 16
PRECIPITATION = 1
MISSING = Decimal('-9.99')
MOST = Decimal(100)

HEAD = rb'([0-9]{2})([0-9]{2})([0-9]{2})([0-9]{4})'
# what F7.2 prints, in seven bytes: where there are two digits after it, the point is the fifth
VALUE = re.compile(rb' *-?(0|[1-9][0-9]*)?\.[0-9]{2}')
LINE = re.compile(HEAD + rb'(.{7})' * 12 + rb' *', re.DOTALL)

Answer = namedtuple('Answer', 'number amounts present count missing')


def refused(number):
    return Answer(number, (0,) * 12, 0, 0, 0)


def fields(line):
    """State, division, element and year as numbers and twelve Decimals; None of a line that is malformed."""
    parts = LINE.fullmatch(line)
    if not parts:
        return None
    values = parts.groups()[4:]
    if not all(VALUE.fullmatch(value) for value in values):
        return None
    return tuple(int(digits) for digits in parts.groups()[:4]) + ([Decimal(value.decode().strip()) for value in values],)


def read(line, state, division, year):
    """The answer for a line, where this state, division and year are asked for; of any year where it is None."""
    found = fields(line)
    if found is None:
        return refused(MALFORMED)
    element, values = found[2], found[4]
    if element == PRECIPITATION and not all(value == MISSING or 0 <= value <= MOST for value in values):
        return refused(MALFORMED)
    if found[:3] != (state, division, PRECIPITATION):
        return refused(OTHER)
    if year is not None and found[3] != year:
        return refused(YEAR)
    there = [month for month, value in enumerate(values) if value != MISSING]
    gone = [month for month in range(12) if month not in there]
    amounts = tuple(int(1000 * value) if month in there else 0 for month, value in enumerate(values))
    return Answer(0, amounts, sum(1 << month for month in there), len(there), gone[0] + 1 if gone else 0)


def lines(data):
    """The lines of an input: closed by a line feed, the last one by a line feed or by the end."""
    parts = data.split(b'\n')
    return parts[:-1] if parts[-1] == b'' else parts


def century(data, state, division):
    """What the program prints on standard output for these bytes, and whether that is a refusal."""
    rows, due, number = [], None, 0
    for number, line in enumerate(lines(data), 1):
        answer = read(line, state, division, due)
        if answer.number == OTHER:
            continue
        if answer.number:
            return b'refused %d %d\n' % (number, answer.number), True
        year = fields(line)[3]
        due = year + 1
        shown = [str(amount) if answer.present >> month & 1 else '-' for month, amount in enumerate(answer.amounts)]
        rows.append(' '.join([str(year)] + shown + [str(answer.count)]) + '\n')
    if not rows:
        return b'refused %d %d\n' % (number, OTHER), True
    return ''.join(rows).encode(), False
