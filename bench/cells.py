#!/usr/bin/env python3
"""The memory of live cells, beside how many there are.

    (cd crates/tx_vectors && rt run)   # builds it
    python3 bench/cells.py [--most 220]

The program tx_vectors adds made-up rows, one after the other. Each line has
a count of rows, the peak of resident memory in bytes, and how many that is a
row: all of it, and without what the program takes for no row. The counts are
1,000,000 and those at which the table is full and has just grown. Where all of
it is above --most at one of them, the status is 1.
"""

import argparse
import os
import subprocess
import sys

sys.dont_write_bytecode = True
from chaingen import encoding  # noqa: E402

PROGRAM = os.path.join(os.path.dirname(os.path.abspath(__file__)), '..', 'crates', 'tx_vectors', 'out', 'tx_vectors')
# 9 rows on average fill a group of the table, and the groups are a power of 2
COUNTS = (9 << 16, (9 << 16) + 1, 1000000, 9 << 17, (9 << 17) + 1)


def genesis():
    """A block without transactions, in hex."""
    return encoding.block(encoding.header()).hex()


def peak(count):
    """The peak in bytes. A small process runs the program, so that the peak is not that of this one."""
    text = 'state\tgenesis\t%s\nstate\tload %d\t\n' % (genesis(), count)
    runner = ('import resource, subprocess, sys\n'
              'p = subprocess.run(sys.argv[1:])\n'
              'print(resource.getrusage(resource.RUSAGE_CHILDREN).ru_maxrss, file=sys.stderr)\n'
              'sys.exit(p.returncode)\n')
    p = subprocess.run([sys.executable, '-c', runner, PROGRAM], input=text, capture_output=True, text=True)
    if p.returncode != 0 or p.stdout != '2 of 2 rows agree\n':
        sys.exit('the rows were not added: %s' % p.stdout)
    return int(p.stderr.split()[-1]) * 1024


def main():
    a = argparse.ArgumentParser(description=__doc__.split('\n')[0])
    a.add_argument('--most', type=float, default=220)
    a = a.parse_args()
    none, worst = peak(0), 0.0
    for count in COUNTS:
        bytes_used = peak(count)
        worst = max(worst, bytes_used / count)
        print('%9d rows: %11d bytes, %.1f a row, %.1f without the program' % (count, bytes_used, bytes_used / count, (bytes_used - none) / count))
    sys.exit(1 if worst > a.most else 0)


main()
