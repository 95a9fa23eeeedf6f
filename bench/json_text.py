#!/usr/bin/env python3
"""A block as JSON, beside Python.

    (cd crates/rule_vectors && rt run)   # builds it
    python3 bench/json_text.py [--most 2]

The program rule_vectors makes the text of one block of 597,000 bytes again
and again. Python decodes the same block and calls json.dumps. A line has the
processor time of each for one text, and the ratio: for a block of many small
transactions, and for one whose bytes are nearly all in one witness. Where the
ratio of the first is above --most, the status is 1.

Then the program reads texts of 4 and 16 MiB: blocks of one witness, and lists of
one number again and again, which are no blocks. Four times the bytes are to take
at most five times the processor time above that of no row, and five times the
peak of resident memory; else the status is 1. The process that starts the
program is smaller than either peak.
"""

import argparse
import os
import subprocess
import sys
import time

sys.dont_write_bytecode = True
TOP = os.path.dirname(os.path.dirname(os.path.abspath(__file__)))
sys.path.insert(0, os.path.join(TOP, 'examples'))
import encoding  # noqa: E402 (beside the path above)
from block_json import of_block  # noqa: E402
from encoding import cell_input, cell_output, out_point, raw_transaction, script  # noqa: E402

PROGRAM = os.path.join(TOP, 'crates', 'rule_vectors', 'out', 'rule_vectors')
SIZE, OFTEN = 597000, 40
RUNNER = ('import resource, subprocess, sys\n'
          'p = subprocess.run(sys.argv[1:])\n'
          'u = resource.getrusage(resource.RUSAGE_CHILDREN)\n'
          'print(u.ru_utime + u.ru_stime, u.ru_maxrss * 1024, file=sys.stderr)\n'
          'sys.exit(p.returncode)\n')


def transaction(i, witness):
    lock = script(bytes([i % 251]) * 32, 1, bytes(20))
    raw = raw_transaction([cell_input(out_point(bytes([i % 13]) * 32, i))], [cell_output(10 ** 10 + i, lock)] * 2, [b'', b''],
                          [out_point(bytes(32), i) + b'\0'])
    return encoding.transaction(raw, [witness])


def block(transactions):
    return encoding.block(bytes(range(208)), transactions)


def busy():
    """A block of many transactions."""
    small = transaction(0, bytes(65))
    count = (SIZE - len(block([])) - 1000) // (len(small) + 4)
    many = [transaction(i, bytes(65)) for i in range(count)]
    rest = SIZE - len(block(many)) - len(transaction(0, b'')) - 4
    return block(many + [transaction(0, bytes(rest))])


def plain(size):
    """A block whose bytes are nearly all in one witness."""
    rest = size - len(block([transaction(0, b'')]))
    return block([transaction(0, bytes(i % 256 for i in range(rest)))])


# ------------------------------------------------------------------ the program

def run(rows):
    """The processor time in seconds and the peak in bytes. A small process runs the program, so that they are its own."""
    p = subprocess.run([sys.executable, '-c', RUNNER, PROGRAM], input=''.join(rows), capture_output=True, text=True)
    if p.returncode != 0 or p.stdout != '%d of %d rows agree\n' % (len(rows), len(rows)):
        sys.exit('the rows do not agree: %s' % p.stdout[:200])
    seconds, peak = p.stderr.split()[-2:]
    return float(seconds), int(peak)


def text_ratio(name, b):
    """The program's time for one text over that of Python."""
    ours, theirs = [], []
    for _ in range(5):
        least = run(['format\tagain\t1\t%s\n' % b.hex()])[0]
        ours.append((run(['format\tagain\t%d\t%s\n' % (OFTEN + 1, b.hex())])[0] - least) / OFTEN)
        begin = time.process_time()
        for _ in range(5):
            made = of_block(b)
        theirs.append((time.process_time() - begin) / 5)
    run(['format\tjson\t%s\t%s\n' % (b.hex(), made)])
    print('%-17s %d bytes: %.2f ms, Python %.2f ms, ratio %.2f' % (name, len(b), min(ours) * 1e3, min(theirs) * 1e3, min(ours) / min(theirs)))
    return min(ours) / min(theirs)


def witness_row(mib):
    """A text of so many MiB of which nearly all is one witness, and its block."""
    b = plain((mib << 19) - 1200)
    return 'format\tunjson\t%s\t%s\n' % (of_block(b).encode().hex(), b.hex())


def token_row(mib):
    """A text of so many MiB that is one list of the number 0, which is no block."""
    return 'format\tunjson\t%s\tbad\n' % (b'[' + b'0,' * ((mib << 19) - 1) + b'0]').hex()


def reading(name, row_of, mib):
    """The time above that of no row, and the peak, for a text of so many MiB."""
    row = row_of(mib)
    seconds, peak = min(run([row]) for _ in range(3))
    seconds -= run([])[0]
    print('%-17s a text of %2d MiB: %.3f s, peak %.1f MiB' % (name, mib, seconds, peak / 2 ** 20))
    return seconds, peak


def growth(name, row_of):
    """The most of how many times the time, and the memory, a text of four times the bytes takes."""
    small, large = reading(name, row_of, 4), reading(name, row_of, 16)
    times = [y / x for x, y in zip(small, large)]
    print('%-17s four times the bytes: %.2f times the time, %.2f times the memory' % (name, *times))
    return max(times)


def main():
    a = argparse.ArgumentParser(description=__doc__.split('\n')[0])
    a.add_argument('--most', type=float, default=2)
    a = a.parse_args()
    ratio = text_ratio('many transactions', busy())
    text_ratio('one witness', plain(SIZE))
    most = max(growth('one witness', witness_row), growth('many numbers', token_row))
    sys.exit(1 if ratio > a.most or most > 5 else 0)


main()
