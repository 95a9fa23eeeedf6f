#!/usr/bin/env python3
"""The time and the memory of opening a store, beside a floor in C.

    python3 bench/opening.py CKBDEV [--blocks 20000] [--bytes 0] [--rounds 9] [--disk FOLDER]
        [--no-snapshot]

`tip` opens a store whose log has a generated chain (chaingen.py), with the last
snapshot that its import would have left, in turn with logread.c on the same log:
that reads it and hashes each header. Both must print the same line, which this
script knows. The least elapsed and processor times count. The status is 1 where
`tip` takes more than 1.5 times the elapsed time of the floor, or more memory than
600 bytes a block beside 16 MB and the 64 blocks that a node holds. A MB is 10^6
bytes. With `--blocks 999999 --rounds 1 --no-snapshot` the store has as many blocks
as may be kept.

--no-snapshot  the live cells are made from the genesis: at most 3 times the floor
--bytes N      each block is made so long, if it is not longer
--disk FOLDER  where the store is made (default: /dev/shm where that is there,
               so that no disk is waited for)
"""

import argparse
import os
import shutil
import subprocess
import sys
import tempfile

sys.dont_write_bytecode = True
import chaingen  # noqa: E402
from importing import HERE, Run  # noqa: E402

sys.path.insert(0, os.path.join(HERE, '..', 'tests'))
import store_model  # noqa: E402

MOST_RATIO, MOST_RATIO_ALONE = 1.5, 3.0
EVERY = 1000
# the blocks that a node holds in memory (docs/STORE.md, "Kept blocks read by their places")
HELD = 64


def write_store(folder, count, size, snapshot):
    """Writes the log of a chain and its last snapshot, and answers the log's length and the line of the tip."""
    spec, genesis, blocks, _, _ = chaingen.make(0, count, plain=True, block_bytes=size)
    chain = store_model.Chain(spec, genesis, blocks)
    path = os.path.join(folder, 'log.bin')
    with open(path, 'wb') as f:
        f.write(b'CKBDEV01' + store_model.record(1, spec) + store_model.record(2, genesis))
        # no block commits anything, so each has an ext without fees and cells
        f.writelines(store_model.record(3, chaingen.as_bytes(block) + bytes(8)) for block in blocks)
        f.write(b'\0')
    number = count // EVERY
    if snapshot and number:
        with open(os.path.join(folder, 'snap_a.bin' if number % 2 else 'snap_b.bin'), 'wb') as f:
            f.write(chain.snapshot(number, chain.tip(number * EVERY)))
    return os.path.getsize(path), chain.line(b'tip', chain.tip(count)).decode()


def must_print(run, line, what):
    if run.status != 0 or run.out != line:
        sys.exit('%s: status %d, and the line %r, which should be %r' % (what, run.status, run.out, line))


def main():
    a = argparse.ArgumentParser(description=__doc__.split('\n')[0])
    a.add_argument('ckbdev')
    a.add_argument('--blocks', type=int, default=20000)
    a.add_argument('--bytes', type=int, default=0)
    a.add_argument('--no-snapshot', action='store_true')
    a.add_argument('--rounds', type=int, default=9)
    a.add_argument('--disk', default='/dev/shm' if os.path.isdir('/dev/shm') else None)
    a = a.parse_args()
    program = os.path.abspath(shutil.which(a.ckbdev) or a.ckbdev)
    # a script that builds the program at its first use does so here
    subprocess.run([program, '/dev/null/any', 'tip'], stdin=subprocess.DEVNULL, stdout=subprocess.DEVNULL)
    with tempfile.TemporaryDirectory() as work, tempfile.TemporaryDirectory(dir=a.disk) as folder:
        floor = os.path.join(work, 'logread')
        subprocess.run([os.environ.get('CC', 'cc'), '-std=c11', '-O2', os.path.join(HERE, 'logread.c'), '-o', floor],
                       check=True)
        size, line = write_store(folder, a.blocks, a.bytes, not a.no_snapshot)
        mine, under = [], []
        for _ in range(a.rounds):
            for runs, words in ((under, [floor, os.path.join(folder, 'log.bin')]), (mine, [program, folder, 'tip'])):
                runs.append(Run(words, os.devnull, work, 600))
                must_print(runs[-1], line, words[0])
    wall, base = min(it.wall for it in mine), min(it.wall for it in under)
    cpu, low = min(it.cpu for it in mine), min(it.cpu for it in under)
    peak, most = max(it.peak for it in mine) * 1024, 600 * a.blocks + HELD * size // a.blocks + 16e6
    ratio = MOST_RATIO_ALONE if a.no_snapshot else MOST_RATIO
    print('%d blocks, a log of %.1f MB, %s a snapshot' % (a.blocks, size / 1e6, 'without' if a.no_snapshot else 'with'))
    print('tip %.1f ms, the floor %.1f ms: ratio %.2f, of the processor %.2f; at most %.1f'
          % (wall * 1e3, base * 1e3, wall / base, cpu / low, ratio))
    print('drift of the floor %.2f' % (max(it.wall for it in under) / base))
    print('peak of tip %.1f MB, at most %.1f MB' % (peak / 1e6, most / 1e6))
    return 0 if wall <= ratio * base and peak <= most else 1


if __name__ == '__main__':
    sys.exit(main())
