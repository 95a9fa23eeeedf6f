#!/usr/bin/env python3
"""The time of each query beside that of `tip`, on one store.

    python3 bench/queries.py CKBDEV [--blocks 20000] [--rounds 9] [--disk FOLDER]

The log has a generated chain (chaingen.py); `header`, `epoch`, `cell`, `dao` and
`audit` take turns with `tip`, which opens the same store. Each must print the line that
this script knows. The least processor times count. The status is 1 where a query
takes more than 1.1 times what `tip` does, and `audit`, which reads each block again,
more than 3 times.

--disk FOLDER  where the store is made (default: /dev/shm where that is there,
               so that no disk is waited for)
"""

import argparse
import os
import shutil
import subprocess
import sys
import tempfile

sys.dont_write_bytecode = True
import chaingen  # noqa: E402
from importing import Run  # noqa: E402
from opening import must_print, store_model  # noqa: E402

MOST_RATIO = {'audit': 3.0}
MOST_OF_OTHERS = 1.1


def write_store(folder, count):
    """Writes the log of a chain, and answers the words and the line of each query, that of `tip` first."""
    spec, genesis, blocks, kept, tip = chaingen.make(0, count, plain=True)
    with open(os.path.join(folder, 'log.bin'), 'wb') as f:
        f.write(b'CKBDEV01' + store_model.record(1, spec) + store_model.record(2, genesis))
        # no block commits anything, so each has an ext without fees and cells
        f.writelines(store_model.record(3, chaingen.as_bytes(block) + bytes(8)) for block in blocks)
        f.write(b'\0')
    height, hash_of_tip = kept[tip]
    # the header of a block is the first of its four fields: it has 208 bytes after the table's 20
    header = blocks[tip - 1][20:228]
    # the coin of the genesis, which no block spends
    coin = ['0x' + chaingen.genesis_transaction()[1].hex(), '1']
    live = 'live %d %d 0 0x%s - 0x%s 0\n' % (chaingen.COIN, chaingen.OCCUPIED, chaingen.ckbhash(chaingen.LOCK).hex(),
                                            chaingen.ZERO_HASH.hex())
    return [
        (['tip'], 'tip %d 0x%s\n' % (height, hash_of_tip.hex())),
        (['header', str(height)], 'header %d 0x%s 0x%s\n' % (height, hash_of_tip.hex(), header.hex())),
        (['epoch'], 'epoch %d %d %d\n' % (height // chaingen.L, height % chaingen.L, chaingen.L)),
        (['cell', *coin], live),
        (['dao', *coin], 'not dao\n'),
        (['audit'], 'audit 0 0\n'),
    ]


def main():
    a = argparse.ArgumentParser(description=__doc__.split('\n')[0])
    a.add_argument('ckbdev')
    a.add_argument('--blocks', type=int, default=20000)
    a.add_argument('--rounds', type=int, default=9)
    a.add_argument('--disk', default='/dev/shm' if os.path.isdir('/dev/shm') else None)
    a = a.parse_args()
    program = os.path.abspath(shutil.which(a.ckbdev) or a.ckbdev)
    # a script that builds the program at its first use does so here
    subprocess.run([program, '/dev/null/any', 'tip'], stdin=subprocess.DEVNULL, stdout=subprocess.DEVNULL)
    with tempfile.TemporaryDirectory() as work, tempfile.TemporaryDirectory(dir=a.disk) as folder:
        queries = write_store(folder, a.blocks)
        times = {words[0]: [] for words, _ in queries}
        for _ in range(a.rounds):
            for words, line in queries:
                run = Run([program, folder, *words], os.devnull, work, 600)
                must_print(run, line, words[0])
                times[words[0]].append(run.cpu)
    base = min(times['tip'])
    print('%d blocks: tip %.1f ms of the processor' % (a.blocks, base * 1e3))
    above = False
    for name, some in list(times.items())[1:]:
        ratio, most = min(some) / base, MOST_RATIO.get(name, MOST_OF_OTHERS)
        print('%s %.1f ms: ratio %.2f, at most %.1f' % (name, min(some) * 1e3, ratio, most))
        above = above or ratio > most
    return 1 if above else 0


if __name__ == '__main__':
    sys.exit(main())
