#!/usr/bin/env python3
"""A generated chain, in plain Python: one specification, one genesis, n blocks
with a fork now and then.

    python3 bench/chaingen.py SEED COUNT PREFIX [--plain]

writes PREFIX.init (the input of `init`) and PREFIX.blocks (the input of
`import`).  With --plain no block proposes or commits anything, so that each
has its cellbase alone.  As a module it also makes chains in which each block
commits as many transactions as the genesis has pairs of cells.  The chain is
valid under all rules in each case.
"""

import os
import sys

sys.path.insert(0, os.path.join(os.path.dirname(os.path.abspath(__file__)), '..', 'examples'))
import encoding  # noqa: E402 (beside the path above)
from encoding import (NULL_OUT_POINT, ZERO_HASH, as_bytes, cell_input, cell_output, ckbhash, hash_of_all,  # noqa: E402
                      out_point, raw_transaction, root, script, table, uint)
from make_store import Spec  # noqa: E402

COIN, FEE, OCCUPIED = 10 ** 15, 1000, 41 * 10 ** 8
PAIRED = 10 ** 12       # what each cell of a pair has in the genesis
L, W_FAR, PRIMARY, SECONDARY, HALVING = 10, 10, 10 ** 12, 10 ** 11, 1000
CODE = bytes.fromhex('9308d0051305000073000000')       # exits with 0


def elf(code):
    n = uint(len(code), 8)
    return bytes.fromhex(
        '7f454c460201010000000000000000000200f300010000007800010000000000'
        '4000000000000000000000000000000000000000400038000100000000000000'
        '0100000005000000780000000000000078000100000000007800010000000000'
    ) + n + n + uint(4096, 8) + code


def program(words):
    """The file of these instructions, four bytes each."""
    return elf(b''.join(uint(it, 4) for it in words))


FILE = elf(CODE)
LOCK = script(ckbhash(FILE))
DAO = (1_000_017_300_000_000, 10 ** 16, 0, 21_400_000_000)


def witness(message=b''):
    """The witness of a cellbase: who is paid, and a message."""
    return table([LOCK, as_bytes(message)])


def output(capacity):
    return cell_output(capacity, LOCK)


def transaction(deps, inputs, outputs, data, witnesses):
    """(bytes, hash, witness hash)"""
    raw = raw_transaction(inputs, outputs, data, deps)
    whole = encoding.transaction(raw, witnesses)
    return whole, ckbhash(raw), ckbhash(whole)


def block(number, epoch, timestamp, parent, dao, nonce, txs, ids):
    """(bytes, hash)"""
    roots = root([root([t[1] for t in txs]), root([t[2] for t in txs])])
    header = encoding.header(number, parent, compact_target=0x20000000, timestamp=timestamp, epoch=epoch,
                             transactions_root=roots, proposals_hash=hash_of_all(ids), dao=dao, nonce=nonce)
    return encoding.block(header, [t[0] for t in txs], ids), ckbhash(header)


# --------------------------------------------------------------------- rules

def share(h, reward):
    return reward // L + (1 if h % L < reward % L else 0)


def primary(h):
    return share(h, PRIMARY >> (h // L // HALVING))


def specification(far):
    """That of a proposal window from 2 blocks to so many."""
    return Spec(epoch_length=L, w_far=far, primary_reward=PRIMARY, secondary_reward=SECONDARY, halving_interval=HALVING).item()


class Heights:
    """What a block holds by its height alone.  Forks are one block deep and
    both their blocks commit and pay the same, so a branch has no say in it."""

    def __init__(self, genesis_tx, plain, block_bytes, pairs, far, cells=0):
        self.plain, self.block_bytes, self.far = plain, block_bytes, far
        self.dep = out_point(genesis_tx[1], 0) + b'\0'
        self.coin, self.capacity = out_point(genesis_tx[1], 1), COIN
        # the cells of each pair, and what the first of them has: each fee is taken from it
        self.pairs = [(out_point(genesis_tx[1], k), out_point(genesis_tx[1], k + 1))
                      for k in range(2, 2 + 2 * pairs, 2)]
        self.first_of_pair = PAIRED
        c, ar, s, u = DAO
        others = 2 * pairs + cells
        self.dao = [(c + others * PAIRED, ar, s, u + others * OCCUPIED)]
        self.coming = {}        # height: the transactions that it commits
        self.made = {}          # height: (transactions, ids)

    def count_at(self, h):
        """How many transactions a height commits. They are proposed two blocks before."""
        if self.pairs:
            return len(self.pairs) if h >= 3 else 0
        return int(not self.plain and h % 4 == 2 and h >= 6)

    def commit_at(self, h):
        """Heights are asked for in rising order."""
        if h not in self.coming:
            self.coming[h] = self.of_pairs() if self.pairs else [self.of_the_coin()]
        return self.coming[h]

    def of_the_coin(self):
        self.capacity -= FEE
        tx = transaction([self.dep], [cell_input(self.coin)], [output(self.capacity)],
                         [b''], [])
        self.coin = out_point(tx[1], 0)
        return tx

    def of_pairs(self):
        """One for each pair, which spends its cells and makes the next: two cells with one lock, one script group."""
        self.first_of_pair -= FEE
        outputs = [output(self.first_of_pair), output(PAIRED)]
        txs = [transaction([self.dep], [cell_input(a), cell_input(b)], outputs, [b'', b''], [])
               for a, b in self.pairs]
        self.pairs = [(out_point(tx[1], 0), out_point(tx[1], 1)) for tx in txs]
        return txs

    def reward(self, t):
        c, _, _, u = self.dao[t - 1]
        fees = self.count_at(t) * (FEE - 4 * FEE // 10) + self.count_at(t + 2) * (4 * FEE // 10)
        return primary(t) + share(t, SECONDARY) * u // c + fees

    def at(self, h):
        if h in self.made:
            return self.made[h]
        outputs, made = [], 0
        if h > self.far + 1:
            reward = self.reward(h - self.far - 1)
            if reward >= OCCUPIED:
                outputs, made = [output(reward)], OCCUPIED
        others = self.commit_at(h) if self.count_at(h) else []
        ids = [tx[1][:10] for tx in self.commit_at(h + 2)] if self.count_at(h + 2) else []

        def with_cellbase(message):
            return [transaction([], [cell_input(NULL_OUT_POINT, h)], outputs, [b''] * len(outputs),
                                [witness(message)])] + others

        txs = with_cellbase(bytes(lacking(self.block_bytes, with_cellbase(b''), ids)))
        c, ar, s, u = self.dao[h - 1]
        second = share(h, SECONDARY)
        self.dao.append((c + primary(h) + second, ar + ar * second // c,
                         s + second - second * u // c, u + made))
        self.made[h] = txs, ids
        return self.made[h]


def lacking(size, txs, ids=()):
    """How many bytes a block of these lacks to be as long as `size`."""
    return max(0, size - len(block(0, 0, 0, ZERO_HASH, DAO, 0, txs, list(ids))[0]))


def genesis_transaction(data=b'', pairs=0, cells=0):
    """The program, the coin with some data, pairs of cells, and cells that no transaction spends."""
    others = 2 * pairs + cells
    return transaction([], [cell_input(NULL_OUT_POINT)], [output(17_300_000_000), output(COIN)] + [output(PAIRED)] * others,
                       [FILE, data] + [b''] * others, [])


def make(seed, n, plain=False, block_bytes=0, genesis_bytes=0, pairs=0, row=False, far=W_FAR, stands_on=None, cells=0):
    """(specification, genesis, blocks, [(number, hash)] of genesis and blocks,
    the tip's place).  The genesis, by data of a cell, and each block, by the
    message of its cellbase, is made as long as is asked, if it is not longer.
    With pairs each block from the third on commits so many transactions, and
    none of the others.  In a row each block stands on the one before it; else
    some have a sibling that a later one stands on, or each stands on the place
    that `stands_on` has for it, which counts from 1.  The proposal window
    reaches so far back.  The genesis has so many cells more."""

    first = genesis_transaction(bytes(lacking(genesis_bytes, [genesis_transaction(b'', pairs, cells)])), pairs, cells)
    heights = Heights(first, plain, block_bytes, pairs, far, cells)
    genesis, top = block(0, 0, 1000, ZERO_HASH, heights.dao[0], 0, [first], [])
    kept = [(0, top)]
    parents = [0]
    blocks = []
    tip, sibling = 0, False
    for i in range(1, n + 1):
        if stands_on:
            parent = stands_on[i - 1]
        elif sibling:
            parent, sibling = i - 1, False
        elif not row and i >= 2 and (seed + 3 * i) % 7 == 0:
            parent, sibling = parents[tip], True
        else:
            parent = tip
        h = kept[parent][0] + 1
        txs, ids = heights.at(h)
        item, top = block(h, h // L + (h % L << 24) + (L << 40), 1000 + 1000 * h,
                          kept[parent][1], heights.dao[h], i, txs, ids)
        blocks.append(item)
        kept.append((h, top))
        parents.append(parent)
        if h > kept[tip][0]:
            tip = i
    return specification(far), genesis, blocks, kept, tip


if __name__ == '__main__':
    seed, n, prefix = int(sys.argv[1]), int(sys.argv[2]), sys.argv[3]
    spec, genesis, blocks, _, _ = make(seed, n, '--plain' in sys.argv[4:])
    with open(prefix + '.init', 'wb') as f:
        f.write(spec + genesis)
    with open(prefix + '.blocks', 'wb') as f:
        f.write(b''.join(blocks))
