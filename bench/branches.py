#!/usr/bin/env python3
"""The time of blocks on two branches in turn, by how far they fork below and how long the chain is.

    python3 bench/branches.py CKBDEV [--sizes 2000,20000] [--depths 10,1000]
        [--switches 200] [--rounds 3] [--seed 0] [--limit SECONDS]

Chains of each size are made, at whose end two branches of each depth stand, as
long as each other; one `import` takes them.  Then the branches grow in turn: the
one that is not the tip's gets a block that is as high as the tip, and one above
it, which makes it the tip's, so often as --switches says.  A second `import` takes
these blocks, and `tip` opens the store beside it.  The stores lie in /dev/shm.
Every line is checked.

A block on the other branch is judged where its parent stands: the live cells go
there, a step for each block that is taken back or taken again, and back where the
block does not become the tip.  These steps are counted here from the blocks'
parents.

Columns: the chain's size and the depth; the blocks of the second import; the
steps; milliseconds of the processor for each of these blocks, opening left out;
microseconds for each step.  Of several rounds the least times count.  The growth
is that of the time per block from the shortest chain to the longest, for each
depth.
"""

import argparse
import os
import shutil
import sys
import tempfile

sys.dont_write_bytecode = True
import chaingen  # noqa: E402
import importing  # noqa: E402


class Branches:
    """A chain with two branches, in two files, and the texts that they must give."""

    def __init__(self, seed, size, depth, switches, work):
        fork = size - depth
        on = list(range(fork))                      # the blocks below the fork, one on the other
        tops = [fork, fork]
        for _ in range(depth):                      # both branches, block for block
            self.grow(on, tops, 0)
            self.grow(on, tops, 1)
        first = len(on)
        self.steps = 0
        heights = [size, size]
        best = 0
        for _ in range(switches):
            other = 1 - best
            if heights[other] < heights[best]:
                self.grow(on, tops, other)
                self.steps += 2 * (heights[best] + heights[other] - 2 * fork)
                heights[other] += 1
            self.grow(on, tops, other)
            self.steps += heights[best] + heights[other] - 2 * fork + 1
            heights[other] += 1
            best = other
        spec, genesis, blocks, kept, tip = chaingen.make(seed, len(on), stands_on=on)
        self.blocks = len(on) - first
        self.init = self.file(work, 'init', spec + genesis)
        self.parts = [self.file(work, 'first', b''.join(blocks[:first])), self.file(work, 'second', b''.join(blocks[first:]))]
        lines = ['joined %d 0x%s\n' % (h, x.hex()) for h, x in kept[1:]]
        self.genesis_text = 'genesis 0x%s\n' % kept[0][1].hex()
        self.texts = [''.join(lines[:first]), ''.join(lines[first:])]
        self.tip_text = 'tip %d 0x%s\n' % (kept[tip][0], kept[tip][1].hex())

    @staticmethod
    def grow(on, tops, branch):
        on.append(tops[branch])
        tops[branch] = len(on)

    @staticmethod
    def file(work, name, content):
        path = os.path.join(work, name)
        with open(path, 'wb') as f:
            f.write(content)
        return path


def seconds(program, chain, work, a):
    """Of the processor, for the second import alone."""
    folder = tempfile.mkdtemp(prefix='store-', dir='/dev/shm')
    try:
        importing.want(importing.Run([program, folder, 'init'], chain.init, work, a.limit), chain.genesis_text, 'init')
        importing.want(importing.Run([program, folder, 'import'], chain.parts[0], work, a.limit), chain.texts[0], 'the first import')
        opening = min(importing.Run([program, folder, 'tip'], os.devnull, work, a.limit).cpu for _ in range(3))
        second = importing.Run([program, folder, 'import'], chain.parts[1], work, a.limit)
        importing.want(second, chain.texts[1], 'the second import')
        importing.want(importing.Run([program, folder, 'tip'], os.devnull, work, a.limit), chain.tip_text, 'tip')
        return second.cpu - opening
    finally:
        shutil.rmtree(folder)


def main():
    a = argparse.ArgumentParser(description=__doc__.split('\n')[0])
    a.add_argument('ckbdev')
    a.add_argument('--sizes', default='2000,20000')
    a.add_argument('--depths', default='10,1000')
    a.add_argument('--switches', type=int, default=200)
    a.add_argument('--rounds', type=int, default=3)
    a.add_argument('--seed', type=int, default=0)
    a.add_argument('--limit', type=float, default=600)
    a = a.parse_args()
    program = os.path.abspath(a.ckbdev)
    sizes = [int(x) for x in a.sizes.split(',')]
    rows = [('size', 'depth', 'blocks', 'steps', 'ms/block', 'us/step')]
    growths = []
    for depth in map(int, a.depths.split(',')):
        per_block = []
        for size in sizes:
            with tempfile.TemporaryDirectory() as work:
                chain = Branches(a.seed, size, depth, a.switches, work)
                least = min(seconds(program, chain, work, a) for _ in range(a.rounds))
            per_block.append(least / chain.blocks)
            rows.append((str(size), str(depth), str(chain.blocks), str(chain.steps), '%.3f' % (1e3 * least / chain.blocks),
                         '%.2f' % (1e6 * least / chain.steps)))
        growths.append('depth %d: the time per block grows by %.2f' % (depth, per_block[-1] / per_block[0]))
    importing.show(rows)
    for growth in growths:
        print(growth)


if __name__ == '__main__':
    try:
        main()
    except importing.Wrong as wrong:
        sys.exit('branches.py: %s' % wrong)
