#!/usr/bin/env python3
"""Rows of tests/rows/runs.txt on the index by lock: `list` and `watch`.

    python3 tests/rows/index_runs.py

The first are of the generated chain's genesis, and of four blocks of which the last two leave the
branch of the second. Then come trees of blocks, made from a seed: each block commits some of what
its branch lets it, so that branches spend and make cells differently, a block spends what it makes
itself, and a cell's type script is what another's lock is. Each tree is imported by `watch` in one
run, and once more item by item, of one lock after the other, with `list` of each lock after each
item. What a lock has is a replay of the tip's branch from the genesis, in a dict, by docs/RULES.md
("Cells"). At last there are words that are none. Nothing is taken from the program.
"""

import os
import random
import sys

from common import emit

TESTS = os.path.dirname(os.path.dirname(os.path.abspath(__file__)))
sys.path[1:1] = [os.path.join(os.path.dirname(TESTS), 'bench')]
import chaingen  # noqa: E402 (beside the line above)
from encoding import ckbhash  # noqa: E402
from make_contract_chain import ANYONE, First, Transaction  # noqa: E402
from make_first_blocks import genesis_line, known  # noqa: E402
from make_store import COIN, PROGRAM, SHANNONS  # noqa: E402
from paying_chain import ancestors  # noqa: E402
from script_scene import Cell, Script  # noqa: E402
from told_chain import Chain  # noqa: E402

SEEDS, BLOCKS, TRANSACTIONS = (1, 2, 3), 36, 40
# above it a cellbase pays
HIGHEST = 11
# locks that anyone opens, by their args
LOCKS = [ANYONE] + [Script(ckbhash(PROGRAM), args=args) for args in (b'\1', b'\2', bytes(20))]
# of which nothing has the code
NOBODY = Script(ckbhash(b'nobody'))


def hexed(content):
    return '0x' + content.hex()


# ------------------------------------------------------------------ the model

def key_of(transaction, place):
    return transaction.hash, place


def live_cells(tip):
    """The live cells on a block's branch, by transaction and place. No cellbase of these chains pays."""
    cells = {}
    for block in ancestors(tip):
        for transaction in block.commits if block.number else (First,):
            for spent, place in getattr(transaction, 'spent', ()):
                del cells[key_of(spent, place)]
            for place, cell in enumerate(transaction.outputs):
                cells[key_of(transaction, place)] = cell
    return cells


def cells_of(tip, lock):
    return sorted((key, cell.capacity) for key, cell in live_cells(tip).items() if cell.lock.hash() == lock)


def total_of(tip, lock):
    cells = cells_of(tip, lock)
    return '%d %d' % (len(cells), sum(capacity for _, capacity in cells))


def listed(tip, lock):
    lines = ['cell %s %d %d' % (hexed(key[0]), key[1], capacity) for key, capacity in cells_of(tip, lock)]
    return ''.join(line + '\n' for line in lines + ['total ' + total_of(tip, lock)])


# ------------------------------------------------------------------ the rows

def starts(name, chain):
    emit('folder', name)
    emit(name, 'init', 0, chain.spec.item() + chain.genesis.item(), (genesis_line(chain.genesis) + '\n').encode())


def lists(name, tip, locks):
    for lock in locks:
        emit(name, 'list ' + hexed(lock), 0, b'', listed(tip, lock).encode())


def watches(name, lock, items, tips):
    """A run of `watch` over items, with the tip after each."""
    lines = ['%s balance %s\n' % (line, total_of(tip, lock)) for (_, line), tip in zip(items, tips)]
    refused = any(line.startswith('refused') for _, line in items)
    emit(name, 'watch ' + hexed(lock), int(refused), b''.join(item for item, _ in items), ''.join(lines).encode())


def generated_genesis():
    """The two cells of the genesis of docs/FORMATS.md, "The generated chain", and a lock that has none."""
    spec, genesis, _, kept, _ = chaingen.make(0, 0)
    name, lock = 'a generated genesis', ckbhash(chaingen.LOCK)
    made = chaingen.genesis_transaction()[1]
    emit('folder', name)
    emit(name, 'init', 0, spec + genesis, b'genesis %s\n' % hexed(kept[0][1]).encode())
    emit(name, 'list ' + hexed(lock), 0, b'', ('cell %s 0 17300000000\ncell %s 1 1000000000000000\ntotal 2 1000017300000000\n'
                                               % (hexed(made), hexed(made))).encode())
    emit(name, 'list ' + hexed(bytes(32)), 0, b'', b'total 0 0\n')


class Spending(Transaction):
    def __init__(self, spent, made):
        super().__init__(spent, made)
        self.spent = spent


def four_blocks():
    """B alone commits what makes a cell of the lock; C2, on its sibling, leaves B's branch."""
    chain, name = Chain(), 'four blocks'
    least = 41 * SHANNONS
    makes = Spending([(First, 1)], [Cell(NOBODY, capacity=least), Cell(ANYONE, capacity=COIN - least - 1000)])
    a = chain.joins(chain.genesis, proposes=[makes])
    chain.joins(a, commits=[makes])
    chain.joins(chain.joins(a))
    starts(name, chain)
    lock = NOBODY.hash()
    balances = ['0 0', '1 4100000000', '1 4100000000', '0 0']
    text = ''.join('%s balance %s\n' % (line, balance) for (_, line), balance in zip(chain.items, balances))
    emit(name, 'watch ' + hexed(lock), 0, b''.join(item for item, _ in chain.items), text.encode())
    lists(name, chain.best[-1], [lock, ANYONE.hash()])


def transactions_of(chance):
    """Transactions each of which spends outputs of earlier ones, with some outputs spent by several."""
    made = []
    open_outputs = [(First, 1)]
    for _ in range(TRANSACTIONS):
        spent = chance.sample(open_outputs, min(len(open_outputs), chance.choice((1, 1, 1, 2))))
        held = sum(transaction.outputs[place].capacity for transaction, place in spent) - 1000
        count = chance.randint(1, 3) if held > 1000 * SHANNONS else 1
        parts = [held // count] * (count - 1)
        cells = [Cell(chance.choice(LOCKS), type_script=chance.choice((None, None, *LOCKS)), capacity=part)
                 for part in parts + [held - sum(parts)]]
        made.append(Spending(spent, cells))
        if chance.random() < 0.7:
            open_outputs = [it for it in open_outputs if it not in spent]
        open_outputs += [(made[-1], place) for place in range(count)]
    return made


def commits_on(chance, block, transactions):
    """Of transactions some that the branch lets a block commit, in the order in which they were made."""
    live = set(live_cells(block))
    done = {it.hash for on in ancestors(block) if on.number for it in on.commits}
    chosen = []
    for it in transactions:
        spent = [key_of(*output) for output in it.spent]
        if it.hash not in done and all(key in live for key in spent) and chance.random() < 0.5:
            live -= set(spent)
            live |= {key_of(it, place) for place in range(len(it.outputs))}
            chosen.append(it)
        if len(chosen) == 4:
            break
    return chosen


def tree_of(seed):
    """A tree of blocks on one that proposes all transactions."""
    chance, chain = random.Random(seed), Chain()
    transactions = transactions_of(chance)
    chain.joins(chain.genesis, proposes=transactions)
    while len(chain.kept) < BLOCKS:
        parent = chance.choice(chain.kept[-6:] if chance.random() < 0.8 else chain.kept[1:])
        if not 1 <= parent.number < HIGHEST:
            continue
        commits = commits_on(chance, parent, transactions)
        turn = chance.random()
        if commits and turn < 0.15:
            # what it spends is spent already
            chain.refuses(20, chain.joins(parent, commits=commits, nonce=len(chain.items)), commits=commits[:1])
        elif turn < 0.25:
            chain.says(parent, known(parent))
        else:
            chain.joins(parent, commits=commits, nonce=len(chain.items))
    return chain


def trees():
    locks = [it.hash() for it in (*LOCKS, NOBODY)]
    for seed in SEEDS:
        chain, name = tree_of(seed), 'a tree of seed %d' % seed
        tips = chain.best[1:]
        starts(name + ', in one run', chain)
        watches(name, locks[seed % len(LOCKS)], chain.items, tips)
        lists(name, tips[-1], locks)
        starts(name + ', item by item', chain)
        for place, (item, tip) in enumerate(zip(chain.items, tips)):
            watches(name, locks[place % len(locks)], [item], [tip])
            lists(name, tip, locks[:3])


def words():
    good = hexed(ANYONE.hash())
    bad = ('', ' 5', ' ' + good[2:], ' ' + good[:-1], ' ' + good + '0', ' ' + good.upper().replace('X', 'x'), ' %s 0' % good)
    emit('folder', 'words of the index')
    for command in ('list', 'watch'):
        for it in bad:
            emit('words of the index', command + it, 2, b'', b'')


def main():
    generated_genesis()
    four_blocks()
    trees()
    words()


if __name__ == '__main__':
    main()
