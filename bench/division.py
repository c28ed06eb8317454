#!/usr/bin/env python3
"""division.py FILE RUST..: the program `division`, a Rust reader, awk and cut on a division file.

Milliseconds of the whole process, standard input a file and standard output nothing, the least of 20 runs; the
commands take turns. What a command takes on no input is its start. The program's is mostly that of host/start, a
shell script, so on x86-64 it is also started without it. Instructions are in the table of bench/run.
"""
import os
import shutil
import subprocess
import sys
import time

TOP = os.path.join(os.path.dirname(os.path.abspath(__file__)), '..')
PROGRAM = [os.path.join(TOP, 'host', 'start'), os.path.join(TOP, 'target', 'bin', 'division')]
# the first division of the published file, a middle one and the last
PLACES = [('01', '01'), ('24', '04'), ('48', '07')]
RUNS = 20
NONE = os.devnull

CUT = ['cut', '-c7-10,11-94']
# the rows that the program prints, of lines that are taken to be good
AWK = '''substr($0, 1, 6) == asked {
    row = substr($0, 7, 4) + 0
    count = 0
    for (at = 11; at < 95; at += 7) {
        inches = substr($0, at, 7) + 0
        if (inches == -9.99) { row = row " -" } else { row = row " " int(1000 * inches + 0.5); count++ }
    }
    print row " " count
}'''


def commands(rust, state, division):
    """(name, words): each command, for this division."""
    emulated = ' (emulated)' if len(rust) > 1 else ''
    heading = state + division + '01'
    yield 'division' + emulated, PROGRAM + [state, division]
    if not emulated:
        yield 'division, no host/start', PROGRAM[1:] + [state, division]
    yield 'Rust, same checks' + emulated, rust + [state, division]
    yield 'awk, no checks', ['awk', '-v', 'asked=' + heading, AWK]
    yield 'grep | cut, no checks', ['sh', '-c', 'grep "^$1" | ' + ' '.join(CUT), 'sh', heading]
    yield 'cut, the whole file', CUT


def ran(words, path, **others):
    with open(path, 'rb') as given:
        return subprocess.run(words, stdin=given, check=True, env=dict(os.environ, LC_ALL='C'), **others)


def check(rust, path):
    """The program, the Rust reader and awk print the same rows, as many as grep finds lines."""
    for place in PLACES:
        *readers, found, _ = [ran(words, path, stdout=subprocess.PIPE).stdout for _, words in commands(rust, *place)]
        if len(set(readers)) > 1 or readers[0].count(b'\n') != found.count(b'\n'):
            sys.exit('bench: division %s %s: what is printed differs' % place)


def milliseconds(words, path):
    began = time.perf_counter()
    ran(words, path, stdout=subprocess.DEVNULL, stderr=subprocess.DEVNULL)
    return 1000 * (time.perf_counter() - began)


def main():
    path, rust = sys.argv[1], sys.argv[2:]
    check(rust, path)
    # a row for each command: the divisions in turn, and the middle one on no input
    inputs = [(place, path) for place in PLACES] + [(PLACES[1], NONE)]
    columns = [(list(commands(rust, *place)), given) for place, given in inputs]
    rows = range(len(columns[0][0]))
    best = [[float('inf')] * len(columns) for _ in rows]
    for _ in range(RUNS):
        for column, (listed, given) in enumerate(columns):
            for row, (_, words) in enumerate(listed):
                best[row][column] = min(best[row][column], milliseconds(words, given))
    print('milliseconds on %d bytes' % os.path.getsize(path))
    print('%-30s%9s%9s%9s%10s' % ('', *('%s %s' % place for place in PLACES), 'no input'))
    for row in rows:
        print('%-30s%9.1f%9.1f%9.1f%10.1f' % (columns[1][0][row][0], *best[row]))
    print('awk is %s' % os.path.basename(os.path.realpath(shutil.which('awk'))))


if __name__ == '__main__':
    main()
