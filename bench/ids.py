#!/usr/bin/env python3
"""What proposal ids cost an import, whoever picked them.

    python3 bench/ids.py CKBDEV [--blocks 60] [--ids 1500] [--many 100] [--rounds 3] [--before EARLIER] [--no-limit]

Three chains in a row, whose blocks have their cellbase alone and propose as many ids as
the specification allows, a new list at each height: ids that are as good as random;
ids that were chosen so that a hash table of the toolchain's library has all of them at
one place (chosen_ids.c; the lists have them in another order each); and --many blocks of
100,000 random ids, under a specification that allows these. From the window's reach
on a cellbase pays the block that reaches it, for which the proposals of blocks
before and after that one are asked.

The least processor time of `import` counts, of all rounds. Above 1.5 times the time of the random
ids for the chosen ones, or 20 ms for a block of 100,000, the status is 1. With --before
an earlier program imports the same chains, and no limit is its.
"""

import argparse
import hashlib
import os
import random
import shutil
import subprocess
import sys
import tempfile

sys.dont_write_bytecode = True
import chaingen  # noqa: E402
from importing import Run, want  # noqa: E402
from encoding import ZERO_HASH  # noqa: E402 (beside the path of chaingen)
from make_store import Spec  # noqa: E402

HERE = os.path.dirname(os.path.abspath(__file__))
MANY = 100_000
MOST_RATIO, MOST_MS = 1.5, 20


def random_ids(height, count):
    return [hashlib.blake2b(b'%d %d' % (height, i), digest_size=10).digest() for i in range(count)]


class Chain:
    """A chain in a row whose block at a height proposes what `ids_at` gives."""

    def __init__(self, name, blocks, most, ids_at, work):
        far, self.n = chaingen.W_FAR, blocks
        first = chaingen.genesis_transaction()
        heights = chaingen.Heights(first, True, 0, 0, far)
        size = max(597000, 10 * most + 4096)
        spec = Spec(epoch_length=chaingen.L, w_far=far, primary_reward=chaingen.PRIMARY, secondary_reward=chaingen.SECONDARY,
                    halving_interval=chaingen.HALVING, max_proposals=most, max_block_bytes=size)
        genesis, top = chaingen.block(0, 0, 1000, ZERO_HASH, heights.dao[0], 0, [first], [])
        self.genesis_text = 'genesis 0x%s\n' % top.hex()
        self.first, self.blocks = (os.path.join(work, '%s.%s' % (name, it)) for it in ('init', 'blocks'))
        with open(self.first, 'wb') as f:
            f.write(spec.item() + genesis)
        lines = []
        with open(self.blocks, 'wb') as f:
            for h in range(1, blocks + 1):
                txs, _ = heights.at(h)
                item, top = chaingen.block(h, h // chaingen.L + (h % chaingen.L << 24) + (chaingen.L << 40), 1000 + 1000 * h,
                                           top, heights.dao[h], h, txs, ids_at(h))
                f.write(item)
                lines.append('joined %d 0x%s\n' % (h, top.hex()))
        self.text = ''.join(lines)

    def cost(self, program, work):
        """The processor time of its import, in milliseconds a block."""
        folder = tempfile.mkdtemp(prefix='store-', dir=work)
        try:
            want(Run([program, folder, 'init'], self.first, work, 600), self.genesis_text, 'init')
            run = Run([program, folder, 'import'], self.blocks, work, 3600)
            want(run, self.text, 'import')
            return run.cpu * 1e3 / self.n
        finally:
            shutil.rmtree(folder)


def chosen_ids(count, work):
    program = os.path.join(work, 'chosen_ids')
    subprocess.run([os.environ.get('CC', 'cc'), '-O2', os.path.join(HERE, 'chosen_ids.c'), '-o', program], check=True)
    said = subprocess.run([program, str(count)], stdout=subprocess.PIPE, check=True, text=True).stdout
    return [bytes.fromhex(it) for it in said.split()]


def main():
    a = argparse.ArgumentParser(description=__doc__.split('\n')[0])
    a.add_argument('ckbdev')
    a.add_argument('--blocks', type=int, default=60)
    a.add_argument('--ids', type=int, default=1500)
    a.add_argument('--many', type=int, default=100)
    a.add_argument('--rounds', type=int, default=3)
    a.add_argument('--before')
    a.add_argument('--no-limit', action='store_true')
    a = a.parse_args()
    programs = {'now': os.path.abspath(shutil.which(a.ckbdev) or a.ckbdev)}
    if a.before:
        programs['before'] = os.path.abspath(a.before)
    place = '/dev/shm' if os.path.isdir('/dev/shm') else None
    with tempfile.TemporaryDirectory(dir=place) as work:
        chosen = chosen_ids(a.ids, work)

        def chosen_at(height):
            return random.Random(height).sample(chosen, len(chosen))

        chains = {'random': Chain('random', a.blocks, a.ids, lambda h: random_ids(h, a.ids), work),
                  'chosen': Chain('chosen', a.blocks, a.ids, chosen_at, work)}
        if a.many:
            chains['many'] = Chain('many', a.many, MANY, lambda h: random_ids(h, MANY), work)
        costs = {(who, name): [] for who in programs for name in chains}
        for _ in range(a.rounds):
            for who, program in programs.items():
                for name, chain in chains.items():
                    costs[who, name].append(chain.cost(program, work))
        good = True
        for who in programs:
            best = {name: min(costs[who, name]) for name in chains}
            ratio = best['chosen'] / best['random']
            print('%s: %d blocks of %d ids: random %.2f ms a block, chosen %.2f ms, ratio %.2f'
                  % (who, a.blocks, a.ids, best['random'], best['chosen'], ratio))
            if a.many:
                print('%s: %d blocks of %d ids: %.1f ms a block' % (who, a.many, MANY, best['many']))
            if who == 'now':
                good = ratio <= MOST_RATIO and best.get('many', 0) <= MOST_MS
    return 0 if good or a.no_limit else 1


if __name__ == '__main__':
    sys.exit(main())
