"""The time of a start of the machine, beside a plain interpreter in C.

    python3 start.py PROGRAM [--starts 100000] [--rounds 3]

PROGRAM is the program `machine_vectors`, run as `PROGRAM < ROW`. It and `rvref`
each run a file of three instructions, which exits with 0, that many times: a new
machine, the file loaded, run, and given back. `machine_vectors` must find that
each run takes the cycles that the row has, and `rvref` must print the sum of them.
The processor time of a run counts, the least of the rounds in which they take
turns, and of the baseline the faster of the builds by `cc -O2` and `clang -O2`.
Above 3 microseconds a start the status is 1.
"""

import argparse
import os
import shutil
import subprocess
import sys
import tempfile

import chaingen
from exec import BUDGET, FLAGS, HERE, run

CYCLES = 505        # 3 of loading, 1 and 1, and 500 of ECALL
MOST = 3.0


def addi(register, value):
    return (value & 0xfff) << 20 | register << 7 | 0x13


FILE = chaingen.program([addi(17, 93), addi(10, 0), 0x73])


def main():
    a = argparse.ArgumentParser(description=__doc__.split('\n')[0])
    a.add_argument('program')
    a.add_argument('--starts', type=int, default=100000)
    a.add_argument('--rounds', type=int, default=3)
    a = a.parse_args()
    own = os.path.abspath(a.program)
    if not os.access(own, os.X_OK):
        sys.exit('there is no program %s' % a.program)
    starts = str(a.starts)
    with tempfile.TemporaryDirectory() as folder:
        elf, row = (os.path.join(folder, it) for it in ('elf', 'row'))
        with open(elf, 'wb') as f:
            f.write(FILE)
        with open(row, 'w') as f:
            f.write('program\t%s\t%s\t%d\n' % (FILE.hex(), starts, CYCLES))
        programs = {'machine_vectors': [own]}
        for compiler in ('cc', 'clang'):
            if shutil.which(compiler):
                to = os.path.join(folder, 'rvref-' + compiler)
                subprocess.run([compiler] + FLAGS + [os.path.join(HERE, 'rvref.c'), '-o', to], check=True)
                programs['rvref ' + compiler] = [to, '-', BUDGET, starts]
        best = {}
        for _ in range(a.rounds):
            for name, words in programs.items():
                used, _, text, status = run(words, row if words[0] == own else elf)
                wanted = '1 of 1 rows agree' if words[0] == own else str(CYCLES * a.starts)
                if (text.split('\n')[0], status) != (wanted, 0):
                    sys.exit('%s prints %r, status %d' % (name, text, status))
                best[name] = min(used, best.get(name, used))
    each = {name: seconds / a.starts * 1e6 for name, seconds in best.items()}
    for name, microseconds in each.items():
        print('%-15s %7.2f microseconds a start' % (name, microseconds))
    least = min(it for name, it in each.items() if name != 'machine_vectors')
    print('ratio           %7.2f' % (each['machine_vectors'] / least))
    return 1 if each['machine_vectors'] > MOST else 0


if __name__ == '__main__':
    sys.exit(main())
