#!/usr/bin/env python3
"""The time of a question to `ckbask` beside its opening, over a generated chain.

    python3 bench/ask.py CKBDEV CKBASK [--blocks 20000] [--questions 10000] [--rounds 5]

The store is made by `import`. Then come runs that ask as many questions of one kind as are named, and runs that ask none,
in turns; what a run takes more is the questions' (the least processor times count). Questions are of a seed. The first
`transaction` makes an index of the best branch: so it is asked alone too, and its time is taken off. Each answer is looked
at: `header` has the height that was asked, `cell` and `transaction` are of transactions that are there. Then a run is held
open, with as many blocks in memory as it may have: how much more is resident once a first `transaction` was answered, for
each transaction of the best branch. The
status is 1 where `cell` or `header` takes more than 20 microseconds each, `transaction` more than 50 after the first, or the
index more than 60 bytes a transaction.
"""

import argparse
import os
import random
import shutil
import subprocess
import sys
import tempfile

sys.dont_write_bytecode = True
import chaingen  # noqa: E402
from importing import HERE, Run  # noqa: E402

sys.path.insert(0, os.path.join(HERE, '..', 'examples'))
from encoding import ckbhash, fields_of  # noqa: E402

MOST = {'header': 20.0, 'cell': 20.0, 'transaction': 50.0}
MOST_BYTES = 60
# so many blocks a node holds
HELD = 64


def hashes_of(block):
    return [ckbhash(fields_of(it)[0]) for it in fields_of(fields_of(block)[2])]


def main():
    a = argparse.ArgumentParser(description=__doc__.split('\n')[0])
    a.add_argument('ckbdev')
    a.add_argument('ckbask')
    a.add_argument('--blocks', type=int, default=20000)
    a.add_argument('--questions', type=int, default=10000)
    a.add_argument('--rounds', type=int, default=5)
    a = a.parse_args()
    work = tempfile.mkdtemp(dir='/dev/shm' if os.path.isdir('/dev/shm') else None)
    try:
        return measure(a, work)
    finally:
        shutil.rmtree(work)


def measure(a, work):
    spec, genesis, blocks, _, _ = chaingen.make(0, a.blocks)
    chance = random.Random(1)

    def file(name, content):
        path = os.path.join(work, name)
        with open(path, 'wb') as f:
            f.write(content)
        return path

    folder = os.path.join(work, 'store')
    os.mkdir(folder)
    assert Run([a.ckbdev, folder, 'init'], file('init', spec + genesis), work, 60).status == 0
    assert Run([a.ckbdev, folder, 'import'], file('blocks', b''.join(blocks)), work, 600).status == 0
    tip = Run([a.ckbdev, folder, 'tip'], file('none', b''), work, 60).out
    height = int(tip.split()[1])
    made = [it for block in blocks for it in hashes_of(block)]
    kinds = {
        'header': ['header %d' % chance.randrange(height + 1) for _ in range(a.questions)],
        'cell': ['cell 0x%s 0' % chance.choice(made).hex() for _ in range(a.questions)],
        'transaction': ['transaction 0x%s' % chance.choice(made).hex() for _ in range(a.questions)],
    }
    kinds['first'] = kinds['transaction'][:1]
    files = {kind: file(kind, ''.join(line + '\n' for line in asked).encode()) for kind, asked in kinds.items()}
    least = {}
    for _ in range(a.rounds):
        for kind in ('none', *kinds):
            run = Run([a.ckbask, folder], files.get(kind) or os.path.join(work, 'none'), work, 600)
            assert run.status == 0, run.status
            lines = run.out.splitlines()
            assert len(lines) == len(kinds.get(kind, [])), kind
            for question, line in zip(kinds.get(kind, []), lines):
                words = line.split()
                assert words == ['none'] or (words[0] == {'header': 'header', 'cell': 'live'}.get(kind, 'committed')
                                             and (kind != 'header' or words[1] == question.split()[1])), line
            least[kind] = min(least.get(kind, run.cpu), run.cpu)
    print('opening %.1f ms over %d blocks' % (least['none'] * 1e3, height + 1))
    passed = True
    print('first transaction %.1f ms' % ((least['first'] - least['none']) * 1e3))
    for kind, most in MOST.items():
        before, count = ('first', len(kinds[kind]) - 1) if kind == 'transaction' else ('none', len(kinds[kind]))
        each = (least[kind] - least[before]) / max(1, count) * 1e6
        print('%s %.1f us each, of %d' % (kind, each, count))
        passed &= each <= most
    size, count = held(a, folder, kinds['first'][0]), count_of(a, folder, made)
    print('%d bytes more for %d transactions: %.1f each' % (size, count, size / count))
    return 0 if passed and size <= MOST_BYTES * count else 1


def count_of(a, folder, made):
    """How many of these transactions the best branch has."""
    with subprocess.Popen([a.ckbask, folder], stdin=subprocess.PIPE, stdout=subprocess.PIPE) as asked:
        text, _ = asked.communicate(''.join('transaction 0x%s\n' % it.hex() for it in made).encode())
    return text.count(b'committed ')


def held(a, folder, question):
    """How many bytes more are resident once a question was answered, than before, where as many blocks are held as there may be."""
    with subprocess.Popen([a.ckbask, folder], stdin=subprocess.PIPE, stdout=subprocess.PIPE) as asked:
        sizes = []
        for line in [*('json %d' % height for height in range(1, HELD + 1)), question]:
            asked.stdin.write(line.encode() + b'\n')
            asked.stdin.flush()
            assert asked.stdout.readline()
            with open('/proc/%d/statm' % asked.pid, encoding='ascii') as f:
                sizes.append(int(f.read().split()[1]) * os.sysconf('SC_PAGE_SIZE'))
        asked.stdin.close()
    return sizes[-1] - sizes[-2]


if __name__ == '__main__':
    sys.exit(main())
