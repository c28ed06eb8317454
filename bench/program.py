#!/usr/bin/env python3
"""The program's time on its largest inputs, the least of nine runs, less that of an empty input."""
import os
import random
import subprocess
import time

TOP = os.path.join(os.path.dirname(os.path.abspath(__file__)), '..')
COMMAND = [os.path.join(TOP, 'host', 'start'), os.path.join(TOP, 'target', 'bin', 'palmer')]


def milliseconds(data):
    best = None
    for _ in range(9):
        began = time.perf_counter()
        subprocess.run(COMMAND, input=data, stdout=subprocess.DEVNULL, stderr=subprocess.DEVNULL, check=True)
        took = 1000 * (time.perf_counter() - began)
        best = took if best is None else min(best, took)
    return best


def main():
    draw = random.Random(1965)
    inputs = [
        ('2,400 lines, ordinary', b''.join(b'%d\n' % draw.randint(-3000, 3000) for _ in range(2400))),
        ('2,400 lines, left open', b'12\n-3\n' + b'0\n' * 2398),
        ('a million digits', b'7' * 1000000 + b'\n'),
    ]
    none = milliseconds(b'')
    for name, data in inputs:
        print('%-24s%8.1f' % (name, max(0.0, milliseconds(data) - none)))


if __name__ == '__main__':
    main()
