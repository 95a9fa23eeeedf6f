#!/usr/bin/env python3
"""The speed of `ckbhash` beside the same hash in plain C.

    python3 bench/hash.py [PROGRAM] [--megabytes 500] [--rounds 5]

PROGRAM is the built program; `rt run` in crates/ckbhash makes it, at the default
place. Both hash one file on standard input, in turns, and must print one digest.
The least processor time of the rounds counts. The baseline, ckbref.c, is built by
`clang -O2`, or by `cc -O2` where there is no clang. The last line is the ratio of
the program's time to the baseline's; above 1.3 the status is 1.
"""

import argparse
import os
import shutil
import subprocess
import sys
import tempfile

HERE = os.path.dirname(os.path.abspath(__file__))
PROGRAM = os.path.join(HERE, '..', 'crates', 'ckbhash', 'out', 'ckbhash')
MOST = 1.3


def build(folder):
    compiler = shutil.which('clang') or 'cc'
    to = os.path.join(folder, 'ckbref')
    subprocess.run([compiler, '-std=c11', '-O2', os.path.join(HERE, 'ckbref.c'), '-o', to],
                   check=True)
    return to


def write_input(path, megabytes):
    block = os.urandom(1000 * 1000)
    with open(path, 'wb') as f:
        for _ in range(megabytes):
            f.write(block)


def run(program, path):
    """Processor seconds, and the digest that was printed."""
    with open(path, 'rb') as f:
        p = subprocess.Popen([program], stdin=f, stdout=subprocess.PIPE)
        printed = p.stdout.read().decode()
        _, status, usage = os.wait4(p.pid, 0)
        p.returncode = os.waitstatus_to_exitcode(status)
    if p.returncode != 0:
        sys.exit('%s ended with status %d' % (program, p.returncode))
    return usage.ru_utime + usage.ru_stime, printed.split()[0]


def main():
    p = argparse.ArgumentParser(description='The speed of ckbhash beside plain C.')
    p.add_argument('program', nargs='?', default=PROGRAM)
    p.add_argument('--megabytes', type=int, default=500)
    p.add_argument('--rounds', type=int, default=5)
    args = p.parse_args()
    if not os.path.exists(args.program):
        sys.exit('no program at %s: `rt run` in crates/ckbhash makes it' % args.program)
    with tempfile.TemporaryDirectory() as folder:
        path = os.path.join(folder, 'input')
        write_input(path, args.megabytes)
        programs = [('ckbref', build(folder)), ('ckbhash', args.program)]
        least = {name: float('inf') for name, _ in programs}
        digests = set()
        for _ in range(args.rounds):
            for name, file in programs:
                seconds, digest = run(file, path)
                least[name] = min(least[name], seconds)
                digests.add(digest)
    if len(digests) != 1:
        sys.exit('the digests differ: %s' % ' '.join(sorted(digests)))
    for name, _ in programs:
        print('%-8s %6.3f s %7.0f MB/s' % (name, least[name], args.megabytes / least[name]))
    ratio = least['ckbhash'] / least['ckbref']
    print('ratio    %6.2f' % ratio)
    return 0 if ratio <= MOST else 1


if __name__ == '__main__':
    sys.exit(main())
