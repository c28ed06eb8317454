#!/usr/bin/env python3
"""table.py [held]: the table of bench/run, which says what is in it, of what bench/run has built.

Instructions are counted by an emulator that writes a line for each one it executes: the lines of one round of work
less those of none, so that what comes before and after the round drops out. The loop around the operations and the
passing of their arguments and answers are counted with them, on all sides; a repeated string instruction counts as
often as it repeats. A line of a division file is counted by a longer file less a shorter one.
"""
import os
import re
import subprocess
import sys
from fractions import Fraction

TOP = os.path.join(os.path.dirname(os.path.abspath(__file__)), '..')
sys.path.insert(0, os.path.join(TOP, 'tests'))
import division_file  # noqa: E402

OUT = os.environ['OUT']
RUN = os.environ['RUN'].split()
# The same program over the library and over bench/peer.rs, and what each is linked with.
OVER_LIBRARY, OVER_PEER = os.path.join(OUT, 'bench-library'), os.path.join(OUT, 'bench-peer')
LIBRARY, PEER = os.path.join(OUT, 'libcard.a'), os.path.join(OUT, 'libpeer.a')
# How the two readers of division files are started.
READERS = [os.environ['DIVISION'].split(), [os.path.join(OUT, 'division-rust')]]

# A division in the middle of the file, and the years of the two files. Both have as many divisions as are published,
# so of the lines in which they differ the division's own are as large a share as of the published ones.
PLACE = ['24', '04']
YEARS = (2, 8)

# The kinds of whole series that are told by the month, ordinary and left open; the kinds whose operation is a month of a call
# over all of them; and from how many months to how many both grow.
SERIES = ('series-%d', 'series-%d-open')
BY_MONTH = ('work-out-%d', 'sum-month-%d')
GROWN = (2400, 12000)

# What `held` asks: at most so many times the instructions of Rust behind the same interface, at most so many times those
# of the shorter series, and less stack than this.
MOST = Fraction(1)
MOST_OF = dict.fromkeys(('season-6', 'start', 'division'), Fraction(102, 100))
MOST_OF.update(dict.fromkeys(('repair-2400', 'repair-12000'), Fraction(101, 100)))
MOST_GROWTH = Fraction(52, 10)
STACK_UNDER = {'add water': 1000, 'repair': 1000, 'whole series': 1000}

WIDTHS = (-37, 10, 12, 8, 10, 8, 10, 11, 10)
HEADS = [
    ['', '', 'Rust, same', '', 'Rust in', '', '', 'ns, same', 'ns, in'],
    ['instructions', 'library', 'interface', 'ratio', 'place', 'ratio', 'ns', 'interface', 'place'],
]


def stop(words):
    sys.exit('bench: ' + words)


def said(words, given=os.devnull):
    """What a program prints on an input."""
    with open(given, 'rb') as stdin:
        done = subprocess.run(words, stdin=stdin, stdout=subprocess.PIPE)
    if done.returncode != 0:
        stop('%s ended with status %d' % (' '.join(words), done.returncode))
    return done.stdout.decode()


# ---- Counting ----------------------------------------------------------------------------------------------


def emulator():
    """One instruction at a time, for which later versions have another word."""
    later = 'one-insn-per-tb' in said(['qemu-x86_64', '-help'])
    return ['qemu-x86_64', '-one-insn-per-tb' if later else '-singlestep', '-d', 'nochain,exec']


EMULATOR = emulator()


def executed(words, given=os.devnull):
    """The instructions that a program executes on an input."""
    with open(given, 'rb') as stdin:
        run = subprocess.Popen(EMULATOR + words, stdin=stdin, stdout=subprocess.DEVNULL, stderr=subprocess.PIPE)
    lines = sum(piece.count(b'\n') for piece in iter(lambda: run.stderr.read(1 << 16), b''))
    if run.wait() != 0:
        stop('%s ended with status %d under the emulator' % (' '.join(words), run.returncode))
    return lines


def each_of(words, many, few, operations):
    """The instructions of an operation, where one run has so many operations more than another."""
    if many <= few:
        stop('the instructions of %s were not counted' % ' '.join(words))
    return Fraction(many - few, operations)


# ---- Rows --------------------------------------------------------------------------------------------------


class Row:
    """A row: its name, what it is of, and three figures, of the library, of Rust behind the same interface and of Rust
    in place; then their times. A figure may be missing."""

    def __init__(self, name, what, figures, times=(None, None, None)):
        self.name, self.what, self.figures, self.times = name, what, figures, times
        self.library, self.same, self.place = figures

    def cells(self):
        yield from (self.what, whole(self.library))
        for other in (self.same, self.place):
            yield from (whole(other), ratio(self.library, other))
        yield from map(brief, self.times)


def whole(figure):
    return '-' if figure is None else '{:,}'.format(int(figure + Fraction(1, 2)))


def brief(time):
    return '-' if time is None else '{:,.{}f}'.format(time, 0 if time >= 100 else 1)


def ratio(ours, theirs):
    return '-' if ours is None or theirs is None else '%.2f' % (ours / theirs)


def show(cells):
    print(''.join('%*s' % pair for pair in zip(WIDTHS, cells)).rstrip(), flush=True)


def shown(rows):
    """The rows, each printed as soon as it is there."""
    found = []
    for row in rows:
        show(row.cells())
        found.append(row)
    return found


def operations():
    for listed in said(RUN + [OVER_LIBRARY, 'list']).splitlines():
        kind, number, sides, what = listed.split(' ', 3)
        ways = [(OVER_LIBRARY, 'library'), (OVER_PEER, 'library'), (OVER_LIBRARY, 'rust')]
        if sides == 'handed':
            ways = [None, (OVER_PEER, 'handed'), None]
        yield operation(kind, what, int(number), ways)
        if sides.endswith('double'):
            yield operation(kind, what + ' by way of a double', int(number), [None, None, (OVER_LIBRARY, 'double')])


def operation(kind, what, number, ways):
    """The row of a kind of work, each figure by a program and one of its sides."""
    counts, times = [None] * 3, [None] * 3
    for column, way in enumerate(ways):
        if way:
            program, side = way
            words = [program, kind, side]
            counts[column] = each_of(words, executed(words + ['1']), executed(words + ['0']), number)
            times[column] = float(said(RUN + [program, 'time', kind, side]))
    return Row(kind, what, counts, times)


def division():
    """A line of a division file."""
    counts = []
    for years in YEARS:
        path = os.path.join(OUT, 'division-%d.txt' % years)
        with open(path, 'wb') as file:
            file.write(division_file.published(1, years=years))
        if len({said(RUN + reader + PLACE, path) for reader in READERS}) > 1:
            stop('the two readers of division files print differently of %s' % path)
        counts.append([executed(reader + PLACE, path) for reader in READERS])
    lines = division_file.DIVISIONS * (YEARS[1] - YEARS[0])
    found = [each_of(reader, many, few, lines) for reader, few, many in zip(READERS, *counts)]
    yield Row('division', 'a line of a division file', found + [None])


def sizes():
    """Code and tables. Those of bench/peer.rs are its own, without what it needs of Rust's library."""
    for section, what in (('.text', 'code'), ('.rodata', 'tables')):
        found = []
        for archive in (LIBRARY, PEER):
            listed = said([os.environ['SIZE'], '-A', archive])
            found.append(sum(map(int, re.findall(r'(?m)^\%s\S*\s+(\d+)' % section, listed))))
        yield Row(section, '%s (%s)' % (what, section), found + [None])


def stacks():
    """The deepest stack of each call."""
    listed = [said(RUN + [program, 'stack']).splitlines() for program in (OVER_LIBRARY, OVER_PEER)]
    for ours, theirs in zip(*listed):
        call, figure = ours.rsplit(None, 1)
        yield Row(call, 'stack of ' + call, [int(figure), int(theirs.split()[-1]), None])


# ---- Below the table ---------------------------------------------------------------------------------------


def show_under(what, figures):
    """Something else that is said of a row, for each of its three figures."""
    library, same, place = ('%.2f' % figure for figure in figures)
    show([what, library, same, '', place])


def show_seasons(rows):
    """A month of a season, as a share of a single add."""
    for name in ('season-6', 'season-2400'):
        show_under(rows[name].what, share(rows[name], rows['add-water']))


def show_repairs(rows):
    """A month of a repair, as a share of one of a season: of adding all the months afresh."""
    for months in GROWN:
        row = rows['repair-%d' % months]
        show_under(row.what, share(row, rows['season-%d' % months]))


def show_months(rows):
    """A month of a whole series."""
    for row, months in ((rows[kind % months], months) for kind in SERIES for months in GROWN):
        show_under(row.what, [figure / months for figure in row.figures])


def grown(rows):
    """Each longer series or run, and how many times the instructions of the shorter one it takes."""
    times = Fraction(GROWN[1], GROWN[0])
    for kind in SERIES + BY_MONTH:
        shorter, longer = (rows[kind % months] for months in GROWN)
        yield longer.what, [figure * (times if kind in BY_MONTH else 1) for figure in share(longer, shorter)]


def share(row, other):
    """Each figure of a row in those of another."""
    return [ours / theirs for ours, theirs in zip(row.figures, other.figures)]


# ---- The whole ---------------------------------------------------------------------------------------------


def agree():
    """That all sides come to the same, over both libraries."""
    sums = [said(RUN + [program, 'check']) for program in (OVER_LIBRARY, OVER_PEER)]
    if sums[0] != sums[1]:
        stop('the library and bench/peer.rs come to different sums:\n%s\n%s' % tuple(sums))


def hold(counted, growth, stacked):
    """Says what is not as asked, with status 1, or how much is."""
    faults = []
    rows = [row for row in counted if None not in (row.library, row.same)]
    for row in rows:
        most = MOST_OF.get(row.name, MOST)
        if row.library > most * row.same:
            times = float(row.library / row.same)
            faults.append('%s: %.5f times as many instructions, at most %.2f asked' % (row.what, times, most))
    for what, (library, _, _) in growth:
        if library > MOST_GROWTH:
            faults.append('%s: %.5f times as many as the shorter one, at most %.1f asked' % (what, library, MOST_GROWTH))
    for row in stacked:
        if row.library >= STACK_UNDER.get(row.name, row.library + 1):
            faults.append('%s: %d bytes, less than %d asked' % (row.what, row.library, STACK_UNDER[row.name]))
    if faults:
        stop('\nbench: '.join(['not held:'] + faults))
    counts = (len(rows), len(growth), len(STACK_UNDER))
    print('held: %d ratios to Rust behind the same interface, %d growths and %d stacks' % counts)


def main():
    agree()
    for heads in HEADS:
        show(heads)
    counted = shown(operations()) + shown(division())
    rows = {row.name: row for row in counted}
    show(['of a single add of water'])
    show_seasons(rows)
    show(['of a month of a season of as many'])
    show_repairs(rows)
    show(['instructions a month'])
    show_months(rows)
    show(['times those of {:,} months'.format(GROWN[0])])
    growth = list(grown(rows))
    for what, figures in growth:
        show_under(what, figures)
    show(['bytes'])
    shown(sizes())
    stacked = shown(stacks())
    if sys.argv[1:] == ['held']:
        hold(counted, growth, stacked)


if __name__ == '__main__':
    main()
