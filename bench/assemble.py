#!/usr/bin/env python3
"""The time of `assemble` beside that of the `import` of the block that it makes.

    python3 bench/assemble.py CKBDEV [--count 1000] [--rounds 5] [--disk FOLDER]

A chain (chaingen.py) of two blocks proposes so many transfers, each of which spends
two cells and makes two, with one lock. `assemble` reads them and makes the third
block, and `import` reads that; both open the same store, in turns. Each must print
the lines that this script knows: the block is made here too. The least processor
times count. The status is 1 where `assemble` takes more than 2.5 times what `import`
does: it judges each transaction once as it is put in, and the block once more.

--disk FOLDER  where the store is made (default: /dev/shm where that is there,
               so that no disk is waited for)
"""

import argparse
import os
import shutil
import subprocess
import sys
import tempfile

sys.dont_write_bytecode = True
import chaingen  # noqa: E402
from importing import Run, Wrong, want  # noqa: E402

MOST_RATIO = 2.5
# the program of the lock has 12 bytes, a cycle for each four, and three instructions, of which ECALL takes 500
CYCLES = 505


class Chain:
    """The two blocks, what `assemble` reads and prints after them, and what `import` does."""

    def __init__(self, count):
        spec, genesis, blocks, kept, _ = chaingen.make(0, 3, plain=True, pairs=count, row=True)
        heights = chaingen.Heights(chaingen.genesis_transaction(pairs=count), True, 0, count, chaingen.W_FAR)
        for height in (1, 2, 3):
            transactions, _ = heights.at(height)
        # the median of 1,000, 2,000 and 3,000 milliseconds, and one more; the third block proposes nothing
        item, hash_of_it = chaingen.block(3, 3 << 24 | chaingen.L << 40, 2001, kept[2][1], heights.dao[3], 0, transactions, [])
        self.first, self.blocks = spec + genesis, b''.join(blocks[:2])
        self.first_text = 'genesis 0x%s\n' % kept[0][1].hex()
        self.blocks_text = ''.join('joined %d 0x%s\n' % (h, x.hex()) for h, x in kept[1:3])
        self.items, self.item = chaingen.witness() + b''.join(it[0] for it in transactions[1:]), item
        self.lines = ('commit %d %d\n' % (chaingen.FEE, CYCLES)) * count + 'block 0x%s\n' % item.hex()
        self.joined = 'joined 3 0x%s\n' % hash_of_it.hex()


def main():
    a = argparse.ArgumentParser(description=__doc__.split('\n')[0])
    a.add_argument('ckbdev')
    a.add_argument('--count', type=int, default=1000)
    a.add_argument('--rounds', type=int, default=5)
    a.add_argument('--disk', default='/dev/shm' if os.path.isdir('/dev/shm') else None)
    a = a.parse_args()
    program = os.path.abspath(shutil.which(a.ckbdev) or a.ckbdev)
    if not os.access(program, os.X_OK):
        sys.exit('there is no program %s' % a.ckbdev)
    # a script that builds the program at its first use does so here
    subprocess.run([program, '/dev/null/any', 'tip'], stdin=subprocess.DEVNULL, stdout=subprocess.DEVNULL)
    chain = Chain(a.count)
    with tempfile.TemporaryDirectory(dir=a.disk) as work:

        def run(folder, command, given, text):
            path = os.path.join(work, 'given')
            with open(path, 'wb') as f:
                f.write(given)
            ran = Run([program, folder, command], path, work, 600)
            want(ran, text, command)
            return ran

        store = os.path.join(work, 'store')
        os.mkdir(store)
        run(store, 'init', chain.first, chain.first_text)
        run(store, 'import', chain.blocks, chain.blocks_text)
        times = {'assemble': [], 'import': []}
        for _ in range(a.rounds):
            times['assemble'].append(run(store, 'assemble', chain.items, chain.lines).cpu)
            copy = os.path.join(work, 'copy')
            shutil.copytree(store, copy)
            times['import'].append(run(copy, 'import', chain.item, chain.joined).cpu)
            shutil.rmtree(copy)
    assembling, importing = min(times['assemble']), min(times['import'])
    ratio = assembling / importing
    print('%d transfers: assemble %.1f ms of the processor, import %.1f ms, %.1f us and %.1f us a transaction'
          % (a.count, assembling * 1e3, importing * 1e3, assembling * 1e6 / a.count, importing * 1e6 / a.count))
    print('ratio %.2f' % ratio)
    return int(ratio > MOST_RATIO)


if __name__ == '__main__':
    try:
        sys.exit(main())
    except Wrong as wrong:
        print('WRONG: %s' % wrong)
        sys.exit(1)
