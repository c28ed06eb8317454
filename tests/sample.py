#!/usr/bin/env python3
"""The sample series: western Kansas, June 1932 to September 1939, and what the program prints of it.

Z is table 4's, column 14, for June 1932 to May 1935, and K d from tables 3 and 5 after that, as they stand in
tests/paper/tables.txt. The scan of table 5 has lost the minus sign of seven months (RESTORED). They were found by table
13, and so was where the sample begins and ends: that the series then agrees with table 13 is no evidence of its own. What
is printed says how it agrees with the signs as scanned, too.

`sample.py` says whether the stored files are what this program makes, and how the series agrees with table 13;
`--write` writes them. The reckoning is that of source_tables.py, which has its own reading of the outline.
"""
import os
import sys

import source_tables as source
import stored

SERIES = os.path.join(stored.TOP, 'samples', 'western-kansas.txt')
# what the gate gives the program, and what it must print
GIVEN = os.path.join(stored.TOP, 'crates', 'palmer', 'stdin')
PRINTED = os.path.join(stored.TOP, 'crates', 'palmer', 'stdout')

FIRST, LAST = (1932, 6), (1939, 9)

TABLE_4, TABLE_5, TABLE_13 = (source.PRINTED['table %d, western Kansas' % number] for number in (4, 5, 13))
# the months of which the scan of table 5 has lost the minus sign
RESTORED = list(source.PRINTED['table 5, minus signs lost'].rows)


def anomaly(when):
    """A month's Z, in thousandths."""
    if when in TABLE_4.rows:
        return 10 * TABLE_4.of(when)['Z']
    d = TABLE_5.month(when)
    k = source.PRINTED['table 3, western Kansas'].constants(when[1])[4]
    return source.nearest((-d if when in RESTORED else d) * k, 1000)


def row(month, figures, settled):
    return '%d %d %d %d %d %d %s' % (month, figures['X1'], figures['X2'], figures['X3'], figures['percent'], figures['X'], 'S' if settled else 'O')


def rows(anomalies):
    """What the program prints: a row is settled where a month from it onward decides."""
    decides, run = [], source.FRESH
    for z in anomalies:
        run, by = source.step(run, z)
        decides.append(by is not None)
    figures = source.series(source.FRESH, anomalies)
    return [row(i + 1, f, any(decides[i:])) for i, f in enumerate(figures)]


def table_13(when):
    """The X that table 13 prints, in thousandths."""
    return 10 * TABLE_13.month(when)


def close(whens, anomalies, allowed):
    """Of how many months the index is table 13's to within so much, lost signs aside; and of how many a sign is lost."""
    pairs = [(table_13(when), f['X']) for when, f in zip(whens, source.series(source.FRESH, anomalies))]
    near = [(p, x) for p, x in pairs if abs(abs(p) - abs(x)) <= allowed]
    return len(near), sum((p < 0) != (x < 0) for p, x in near)


def furthest(whens, anomalies):
    """Of the restored months, how far the furthest is from table 13's X, from table 13's X of the month before."""
    off = []
    for when in RESTORED:
        at = whens.index(when)
        before = -abs(table_13(whens[at - 1]))
        off.append(abs(source.nearest(2691 * before + 1000 * anomalies[at], 3000) + abs(table_13(when))))
    return max(off)


def main():
    whens = [when for when in source.months(*FIRST, 88) if when <= LAST]
    anomalies = [anomaly(when) for when in whens]
    made = {SERIES: anomalies, GIVEN: anomalies, PRINTED: rows(anomalies)}
    stored.settle({path: ''.join('%s\n' % line for line in lines) for path, lines in made.items()}, sys.argv[1:] == ['--write'])
    scanned = [-z if when in RESTORED else z for when, z in zip(whens, anomalies)]
    near, lost = close(whens, anomalies, 30)
    print('%d months; within 0.02 of table 13: %d; within 0.03: %d, of these %d but for a sign that its scan lost' % (len(whens), close(whens, anomalies, 20)[0], near, lost))
    print('with the signs of table 5 as scanned, within 0.03: %d' % close(whens, scanned, 30)[0])
    print('the %d restored months by themselves: off by at most %d thousandths' % (len(RESTORED), furthest(whens, anomalies)))


if __name__ == '__main__':
    main()
