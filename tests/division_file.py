#!/usr/bin/env python3
"""Prints a division file of the published size and layout, with rainfall made from a seed.

  division_file.py SEED                    344 divisions of 130 years from 1895
  division_file.py SEED DIVISIONS YEARS    so many

No figure in it was measured. The draws are those of a generator of its own and every figure is worked out in whole
numbers, so a seed makes the same bytes everywhere.
"""
import sys

STATES = 48
DIVISIONS, YEARS, FIRST = 344, 130, 1895
# the months of the last year that have been
LAST_MONTHS = 8
MISSING = -999
# twelve steps of a cosine, in thousandths
SEASON = (1000, 866, 500, 0, -500, -866, -1000, -866, -500, 0, 500, 866)


class Draw:
    """A linear congruential generator of 64 bits, of which the upper 31 are used."""

    def __init__(self, seed):
        self.state = seed % (1 << 64)
        for _ in range(4):
            self.below(1)

    def below(self, n):
        """A whole number from 0 to n - 1."""
        self.state = (self.state * 6364136223846793005 + 1442695040888963407) % (1 << 64)
        return (self.state >> 33) * n >> 31

    def among(self, things):
        return things[self.below(len(things))]


def value(hundredths):
    """A number of hundredths as F7.2 prints it."""
    return ('%s%d.%02d' % ('-' if hundredths < 0 else '', abs(hundredths) // 100, abs(hundredths) % 100)).rjust(7).encode()


def line(state, division, year, hundredths, element=1):
    """A line as in the published files, four spaces after the last value; without its line feed."""
    return b'%02d%02d%02d%04d' % (state, division, element, year) + b''.join(map(value, hundredths)) + b'    '


def climate(draw):
    """A division's month on the average in hundredths, its wettest month, and how much wetter that is, in thousandths."""
    return 60 + draw.below(420), draw.below(12), draw.below(700)


def rainfall(draw, climate):
    """Twelve months in hundredths: mostly near the season's, sometimes a few times that, sometimes next to nothing."""
    average, peak, swing = climate
    months = []
    for month in range(12):
        usual = average * (1000000 + swing * SEASON[(month - peak) % 12])
        chance = draw.below(2000) * draw.below(2000) + 1000 * draw.below(2000)
        months.append(usual * chance // 2000000000000)
    return months


def places(count):
    """So many divisions, spread over the states as evenly as can be: (state, division) in the published order."""
    for state in range(1, STATES + 1):
        for division in range(1, count // STATES + (state <= count % STATES) + 1):
            yield state, division


def file(seed, where, years, first=FIRST):
    """The lines of a file: these divisions one after the other, each of so many years; the last year is not over."""
    draw = Draw(seed)
    for state, division in where:
        kind = climate(draw)
        for year in range(first, first + years):
            months = rainfall(draw, kind)
            if year == first + years - 1:
                months[LAST_MONTHS:] = [MISSING] * (12 - LAST_MONTHS)
            yield line(state, division, year, months)


def published(seed, divisions=DIVISIONS, years=YEARS):
    return b''.join(text + b'\n' for text in file(seed, places(divisions), years))


def main():
    given = sys.argv[1:]
    if len(given) not in (1, 3) or not all(text.isdecimal() for text in given):
        sys.exit('division_file.py SEED [DIVISIONS YEARS]')
    numbers = [int(text) for text in given]
    if len(numbers) == 3 and (numbers[1] > 99 * STATES or numbers[2] > 10000 - FIRST):
        sys.exit('at most %d divisions and %d years fit the layout' % (99 * STATES, 10000 - FIRST))
    sys.stdout.buffer.write(published(*numbers))


if __name__ == '__main__':
    main()
