#!/usr/bin/env python3
"""Rows of tests/rows/runs.txt over branches that spend a cell differently, `cell` after
each import, and of crates/run_vectors/stdin where a call of the disk fails.

    python3 tests/rows/branch_runs.py

A cell of the genesis is spent on one
branch to one end, on another to another, and on a third not at all. After each block,
one that is refused, one that joins beside the tip's branch and one that becomes the tip,
`cell` is asked for each cell. What it says is a replay of the tip's branch from the
genesis, in a dict, by docs/RULES.md ("Cells"). Then all blocks are imported in one run,
where a block is judged over what those before it left. At last three imports, a `check`, a
`header` and a `cell` are run over disks of which one call fails, each call in its turn:
none may answer anything else, and nothing that was kept is lost. Nothing is taken from
the program.
"""

from common import emit, emit_listed

from make_contract_chain import ANYONE, First, Transaction
from make_first_blocks import genesis_line, known
from make_store import COIN
from paying_chain import ancestors
from script_scene import Cell, data_hash
from told_chain import Chain

NAME = 'branches that spend a cell differently'

# the calls of the disk that `init` makes, and fewer than the runs after it make: each of the blocks that join takes four
INIT_CALLS = 8
LEAST_CALLS = 100
# the status of a call of the disk that failed
DISK_FAULT = 5


def spending(spent, *capacities):
    return Transaction([spent], [Cell(ANYONE, capacity=it) for it in capacities])


# the same cell to two ends, and one that goes on from the first
LEFT = spending((First, 1), COIN - 1000)
RIGHT = spending((First, 1), COIN // 2, COIN // 2 - 3000)
LEFT_ON = spending((LEFT, 0), COIN - 5000)
ASKED = (First, 1), (LEFT, 0), (RIGHT, 0), (RIGHT, 1), (LEFT_ON, 0)


def live_cells(tip):
    """The live cells on a block's branch, with the heights at which they were made. No cellbase of these pays."""
    cells = {}
    for block in ancestors(tip):
        commits = block.commits if block.number else (First,)
        for transaction in commits:
            for spent in getattr(transaction, 'cell_inputs', ()):
                del cells[spent[8:]]
            for place, cell in enumerate(transaction.outputs):
                cells[transaction.hash + place.to_bytes(4, 'little')] = cell, block.number
    return cells


def line_of(cells, output):
    transaction, place = output
    found = cells.get(transaction.hash + place.to_bytes(4, 'little'))
    if not found:
        return 'none'
    cell, height = found
    return 'live %d %d %d 0x%s - 0x%s %d' % (cell.capacity, cell.occupied(), height, cell.lock.hash().hex(),
                                             data_hash(cell.content).hex(), len(cell.content))


def branches():
    chain = Chain()
    root = chain.joins(chain.genesis, proposes=[LEFT, RIGHT, LEFT_ON])
    left = chain.joins(root, commits=[LEFT])
    left_3 = chain.joins(left)
    # on another branch: where only the DAO field is wrong, where what is live at the tip is spent, and where a second
    # block stands beside what was refused
    chain.refuses(32, root, commits=[RIGHT], dao=(1, 1, 1, 1))
    chain.refuses(20, root, commits=[LEFT_ON])
    chain.says(left, known(left))
    chain.refuses(20, left_3, commits=[RIGHT])
    # a sibling, and blocks on it: one that spends the cell twice, and one as high as the tip
    right = chain.joins(root, commits=[RIGHT])
    chain.refuses(20, right, commits=[LEFT])
    right_3 = chain.joins(right)
    # the other branch is the tip's, and the first one again
    right_4 = chain.joins(right_3)
    chain.refuses(20, left_3, commits=[LEFT_ON, RIGHT])
    chain.refuses(20, right_4, commits=[LEFT_ON])
    left_4 = chain.joins(left_3, commits=[LEFT_ON])
    chain.joins(left_4)
    # a branch that spends none of them
    bare = root
    for _ in range(5):
        bare = chain.joins(bare, nonce=1)
    chain.joins(bare, commits=[LEFT])
    return chain


def main():
    chain = branches()
    given = chain.spec.item() + chain.genesis.item()

    def begins(put=emit):
        put(NAME, 'init', 0, given, (genesis_line(chain.genesis) + '\n').encode())

    def starts(name):
        emit('folder', name)
        begins()

    def imports(items, put=emit):
        refused = any(line.startswith('refused') for _, line in items)
        put(NAME, 'import', int(refused), b''.join(item for item, _ in items), ''.join(line + '\n' for _, line in items).encode())

    def asks(tip, put=emit):
        cells = live_cells(tip)
        for output in ASKED:
            put(NAME, 'cell 0x%s %d' % (output[0].hash.hex(), output[1]), 0, b'', (line_of(cells, output) + '\n').encode())

    starts(NAME + ', item by item')
    for item, best in zip(chain.items, chain.best[1:]):
        imports([item])
        asks(best)
    starts(NAME + ', in one run')
    imports(chain.items)
    asks(chain.best[-1])
    begins(emit_listed)
    # the last run is opened on one branch, and reads the blocks of the other from the disk where it judges on them
    for first, end in ((0, 7), (7, 12), (12, None)):
        imports(chain.items[first:end], emit_listed)
    # its input is spent on the tip's branch
    emit_listed(NAME, 'check', 1, LEFT.item, b'refused J20\n')
    root = next(it for it in ancestors(chain.best[-1]) if it.number == 1)
    emit_listed(NAME, 'header 1', 0, b'', ('header 1 0x%s 0x%s\n' % (root.hash().hex(), root.header().hex())).encode())
    asks(chain.best[-1], emit_listed)
    emit('faults', DISK_FAULT, INIT_CALLS, LEAST_CALLS)


if __name__ == '__main__':
    main()
