"""The time of the script groups of a transaction, beside a plain interpreter in C.

    python3 scripts.py PROGRAM [--calls 20000] [--rounds 3]

PROGRAM is the program `tx_vectors`, run as `PROGRAM < ROWS`. Each call runs the
one group of a transaction; `rvref` runs the same file as often. Two files take
part: one of three instructions, which exits with 0, for the start of a group; and
one that first goes through a loop of 500 cycles. `tx_vectors` must find that each
call takes the cycles that its row has, and `rvref` must print the sum of them.
The processor time of a run counts, the least of the
rounds in which they take turns, and of the baseline the faster of the builds by
`cc -O2` and `clang -O2`. The status is 1 above 5 microseconds a start, and above
8 milliseconds for 1,000 calls with the loop.
"""

import argparse
import os
import shutil
import subprocess
import sys
import tempfile

from chaingen import NULL_OUT_POINT, W_FAR, cell_input, cell_output, ckbhash, encoding, out_point, program, raw_transaction, \
    script, specification
from exec import BUDGET, FLAGS, HERE, run
from start import addi

LOOPS = 125         # of 4 cycles: an ADDI and a branch


ENDS = [addi(17, 93), addi(10, 0), 0x73]
COUNTS = [addi(5, LOOPS), -1 << 20 & 0xfff00000 | 5 << 15 | addi(5, 0), 0xfe029ee3]     # x5 -= 1; bne x5, x0, -4

# name: the file, its cycles (a cycle for four bytes that are loaded, and 500 of ECALL), the most microseconds
FILES = {'start': (program(ENDS), 3 + 2 + 500, 5.0),
         'loop': (program(COUNTS + ENDS), 6 + 1 + 4 * LOOPS + 2 + 500, 8.0)}


def rows(code, cycles, calls):
    """What `tx_vectors` reads: a transaction with one input, whose lock is the code, and a dep that holds it, many times."""
    output = cell_output(10 ** 12, script(ckbhash(code)))
    raw = raw_transaction([cell_input(NULL_OUT_POINT)], [output], [b''], [out_point(ckbhash(b'dep'), 0) + b'\0'])
    genesis = encoding.block(encoding.header())
    lines = [('spec', specification(W_FAR)), ('genesis', genesis), ('blob', 'output', output), ('blob', 'none', b''), ('blob', 'code', code),
             ('rounds', str(calls), 'ok %d' % cycles, BUDGET, encoding.transaction(raw), '0,0,output,none', '0,0,output,code', '-')]
    return ''.join('\t'.join(it if isinstance(it, str) else it.hex() for it in line) + '\n' for line in lines)


def main():
    a = argparse.ArgumentParser(description=__doc__.split('\n')[0])
    a.add_argument('program')
    a.add_argument('--calls', type=int, default=20000)
    a.add_argument('--rounds', type=int, default=3)
    a = a.parse_args()
    own = os.path.abspath(a.program)
    if not os.access(own, os.X_OK):
        sys.exit('there is no program %s' % a.program)
    calls, bad = str(a.calls), 0
    with tempfile.TemporaryDirectory() as folder:
        programs = {'tx_vectors': [own]}
        for compiler in ('cc', 'clang'):
            if shutil.which(compiler):
                to = os.path.join(folder, 'rvref-' + compiler)
                subprocess.run([compiler] + FLAGS + [os.path.join(HERE, 'rvref.c'), '-o', to], check=True)
                programs['rvref ' + compiler] = [to, '-', BUDGET, calls]
        for kind, (code, cycles, most) in FILES.items():
            paths = {}
            for suffix, content in (('rows', rows(code, cycles, a.calls).encode()), ('elf', code)):
                paths[suffix] = os.path.join(folder, suffix)
                with open(paths[suffix], 'wb') as f:
                    f.write(content)
            best = {}
            for _ in range(a.rounds):
                for name, words in programs.items():
                    used, _, text, status = run(words, paths['rows' if words[0] == own else 'elf'])
                    wanted = '6 of 6 rows agree\n' if words[0] == own else '%d\n' % (cycles * a.calls)
                    if (text, status) != (wanted, 0):
                        sys.exit('%s prints %r, status %d' % (name, text, status))
                    best[name] = min(used, best.get(name, used))
            each = {name: seconds / a.calls * 1e6 for name, seconds in best.items()}
            for name, microseconds in each.items():
                print('%-6s %-14s %7.2f microseconds a call' % (kind, name, microseconds))
            least = min(it for name, it in each.items() if name != 'tx_vectors')
            print('%-6s ratio          %7.2f' % (kind, each['tx_vectors'] / least))
            bad |= each['tx_vectors'] > most
    return bad


if __name__ == '__main__':
    sys.exit(main())
