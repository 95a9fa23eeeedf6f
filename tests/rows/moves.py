#!/usr/bin/env python3
"""Rows of crates/tx_vectors/stdin on the live cells, which are gone to over a tree of blocks.

    python3 tests/rows/moves.py

They stand after those of live_cells.py. A row is `moves`, and with a tab between two, bytes
in hex:

    genesis BLOCK           the tree of a genesis alone, and its cells
    block BLOCK EXT         it is kept on the block whose hash it names, at the next place
    at PLACE COUNT HASH     how many cells are live there, and the hash of all their rows in
                            order, as docs/STORE.md has a row
    damaged PLACE PLACE PLACE
                            from the first to the second the block at the third is the first
                            that cannot be taken back or applied, and its record is damaged;
                            the cells are then those of the first place again, made anew from
                            the genesis

The cells of each place are made by a replay of its branch from the genesis, in a dict,
as docs/RULES.md ("Cells") and docs/STORE.md say; nothing is taken from the program.
Blocks are taken back only to find which of them a move stops at.
"""

import random

import common  # noqa: F401 (finds encoding)

import encoding
from encoding import ZERO_HASH, ckbhash, fixvec, uint
from live_cells import BYTE, NULL, Cells, Output, cellbase, order, out_point, transaction


def header(parent_hash, number, nonce):
    return encoding.header(number, parent_hash, compact_target=7, timestamp=9, nonce=nonce)


class Tree:
    def __init__(self, rows):
        self.rows, self.blocks = rows, []

    def genesis(self, transactions):
        self.blocks = [(None, 0, ckbhash(header(ZERO_HASH, 0, 0)), transactions, None)]
        self.put('genesis', header(ZERO_HASH, 0, 0), transactions, None)

    def put(self, word, head, transactions, ext):
        block = encoding.block(head, [t[0] for t in transactions])
        self.rows.append('\t'.join(['moves', word, block.hex()] + ([] if ext is None else [ext.hex()])))

    def branch(self, place):
        """The places from the genesis to this one."""
        parent = self.blocks[place][0]
        return ([] if parent is None else self.branch(parent)) + [place]

    def replayed(self, place):
        """The cells at a place, from the genesis on."""
        cells = Cells()
        for at in self.branch(place):
            transactions = self.blocks[at][3]
            if at == 0:
                for tx, (_, (tx_hash, _, outputs, datas)) in enumerate(transactions):
                    cells.make(0, tx, tx_hash, outputs, datas, False)
            else:
                assert cells.tried(at, transactions) is None, at
        return cells

    def block(self, parent, transactions, ext=None, cells=None):
        """Keeps a block on a parent with its own ext, or with one that is not its own, and answers its place."""
        _, number, parent_hash, _, _ = self.blocks[parent]
        head = header(parent_hash, number + 1, len(self.blocks))
        if ext is None:
            ext = (cells or self.replayed(parent)).spent(transactions)
        place = len(self.blocks)
        self.blocks.append((parent, number + 1, ckbhash(head), transactions, ext))
        self.put('block', head, transactions, fixvec([uint(0, 8) for _ in transactions[1:]]) + fixvec(ext))
        return place

    def at(self, place):
        rows = self.replayed(place).rows
        live = sorted(rows, key=order)
        self.rows.append('moves\tat\t%d\t%d\t%s' % (place, len(live), ckbhash(b''.join(rows[o] for o in live)).hex()))

    def stops_at(self, first, other):
        """The first block that cannot be taken back from the first place down, or that does not fit from there up to the other."""
        before, after = self.branch(first), self.branch(other)
        cells = self.replayed(first)
        for place in reversed([place for place in before if place not in after]):
            _, _, _, transactions, ext = self.blocks[place]
            for _, (tx_hash, _, outputs, _) in transactions:
                for i in range(len(outputs)):
                    cells.rows.pop(tx_hash + uint(i, 4), None)
            for row in ext:
                if row[:36] in cells.rows:
                    return place
                cells.rows[row[:36]] = row
        for place in after:
            if place not in before and cells.tried(place, self.blocks[place][3]) is not None:
                return place

    def damaged(self, first, other):
        self.rows.append('moves\tdamaged\t%d\t%d\t%d' % (first, other, self.stops_at(first, other)))


def small(tree):
    """Branches that spend one cell differently, spend and make an out-point again, and make a cell and spend it in one block."""
    first = transaction([NULL], [Output(500 * BYTE, b'a', None, b'12345'), Output(1000 * BYTE, b'', b'type', b'')])
    free = transaction([], [Output(6 * BYTE, b'f'), Output(7 * BYTE, b'g')])
    tree.genesis([first])
    tree.at(0)
    root = tree.block(0, [cellbase(1, [Output(70 * BYTE, b'base')])])
    # the same cell, to different ends
    left = tree.block(root, [cellbase(2), transaction([out_point(first, 0)], [Output(BYTE, b'l')])])
    right = tree.block(root, [cellbase(3), transaction([out_point(first, 0)], [Output(BYTE, b'r'), Output(2 * BYTE, b'r')])])
    # the same transaction on both branches: one out-point, two rows
    same = transaction([out_point(first, 1)], [Output(3 * BYTE, b's')])
    left_same = tree.block(left, [cellbase(4), same])
    right_more = tree.block(right, [])
    right_same = tree.block(right_more, [cellbase(5), same])
    # a cell is made and spent in one block
    inner = transaction([out_point(same, 0)], [Output(BYTE, b'x'), Output(BYTE, b'y')])
    within = tree.block(left_same, [cellbase(6), inner, transaction([out_point(inner, 1)], [Output(BYTE, b'z')])])
    # cells without inputs are made, spent and made again in one block, and over blocks
    made = tree.block(right_same, [cellbase(7), free])
    again = tree.block(made, [cellbase(8), transaction([out_point(free, 0), out_point(free, 1)], [Output(BYTE, b'1')]), free])
    spent = tree.block(again, [cellbase(9), transaction([out_point(free, 1)], [Output(BYTE, b'2')]),
                               transaction([out_point(free, 0)], [Output(BYTE, b'3')])])
    over = tree.block(spent, [cellbase(10), free])
    twice = tree.block(over, [cellbase(11), transaction([out_point(free, 0)], []), transaction([out_point(free, 1)], []), free,
                              transaction([out_point(free, 0)], [Output(BYTE, b'4')])])
    # siblings of one parent, and of the genesis
    sibling = tree.block(within, [cellbase(12, [Output(9 * BYTE, b'i')])])
    other = tree.block(within, [cellbase(12, [Output(9 * BYTE, b'i')])])
    low = tree.block(0, [cellbase(13, [Output(8 * BYTE, b'o')])])
    places = [0, root, left, right, left_same, right_more, right_same, within, made, again, spent, over, twice, sibling, other, low]
    for one in places:
        for two in places:
            tree.at(one)
            tree.at(two)
    # a block whose events do not fit, which stands beside rows that it does not spend, and exts that are not their block's
    odd = tree.block(left, [cellbase(14), transaction([out_point(first, 0)], [Output(BYTE, b'q')])], ext=[])
    tree.damaged(root, odd)
    tree.damaged(twice, odd)
    # the odd block in the middle of the way up
    beyond = tree.block(odd, [cellbase(16)], ext=[])
    last = tree.block(beyond, [cellbase(17)], ext=[])
    tree.damaged(twice, last)
    tree.damaged(left, beyond)
    tree.at(within)
    live = tree.replayed(within).rows
    kept = sorted(live)[0]
    wrong = tree.block(within, [cellbase(15)], ext=[live[kept]])
    tree.at(wrong)
    tree.damaged(wrong, within)
    tree.at(wrong)
    tree.damaged(wrong, other)
    # the one with the wrong ext in the middle of the way down, and above an odd one
    later = tree.block(tree.block(wrong, [cellbase(18)]), [cellbase(19)])
    tree.at(later)
    tree.damaged(later, other)
    tree.damaged(later, last)
    tree.damaged(later, root)


def large(tree):
    """A tree of 200 blocks in three branches, between which the cells go 500 times."""
    random.seed(3)
    first = transaction([NULL], [Output((100 + i) * BYTE, bytes([i])) for i in range(40)])
    tree.genesis([first])
    ends = [tree.block(0, [cellbase(100)])] * 3
    free = [transaction([], [Output((6 + i) * BYTE, b'f'), Output(7 * BYTE, bytes([i]))], version=i) for i in range(4)]
    branches = [[0, ends[0]] for _ in ends]
    while len(tree.blocks) < 200:
        which = random.randrange(3)
        parent = ends[which]
        cells = tree.replayed(parent)
        before = cells.rows
        transactions = [cellbase(1000 + len(tree.blocks) * random.randrange(2), [Output(random.randrange(1, 99) * BYTE, b'c')])]
        rows = dict(before)
        if transactions[0][1][0] + uint(0, 4) in rows:
            transactions = [cellbase(5000 + len(tree.blocks))]
        live = sorted(rows)
        for _ in range(random.randrange(4)):
            kind = random.randrange(3)
            if kind == 0 and live:
                o = live.pop(random.randrange(len(live)))
                made = transaction([o], [Output(random.randrange(1, 9) * BYTE, bytes([which])) for _ in range(random.randrange(1, 4))])
                here = [out_point(made, i) for i in range(len(made[1][2]))]
                if not any(o in live for o in here):
                    transactions.append(made)
                    live += here
            elif kind == 1:
                made = random.choice(free)
                here = [out_point(made, i) for i in range(2)]
                if not any(o in live for o in here):
                    transactions.append(made)
                    live += here
            elif live:
                o = live.pop(random.randrange(len(live)))
                transactions.append(transaction([o], [], version=9))
        place = tree.block(parent, transactions, cells=cells)
        ends[which] = place
        branches[which].append(place)
    assert all(len(branch) > 40 for branch in branches)
    for i in range(500):
        branch = branches[i % 3]
        tree.at(branch[-1] if i % 5 else random.choice(branch))


def main():
    rows = []
    small(Tree(rows))
    large(Tree(rows))
    print('\n'.join(rows))


if __name__ == '__main__':
    main()
