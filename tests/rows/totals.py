#!/usr/bin/env python3
"""Rows of crates/rule_vectors/stdin on running totals.

    python3 tests/rows/totals.py

They are the last of that file. A row is a word and its columns, with a tab between two,
bytes in hex:

    spec     a specification
    genesis  a Block that begins a chain
    kept     a Block that joins it, on the block whose hash it names, and the
             ext that is kept beside it, which has the fees of its transactions
    totals   the place of a block, and of its branch: its height, what live
             cells hold, what they occupy, what is unpaid, what is burned; what
             is left of C and S after these, and what of U
    unfit    the place of a block whose step does not fit the totals of its
             parent's branch

The genesis has place 0, each other block the next. The chains are those of
reward_runs.py, whose blocks keep all rules; those of unfit rows do not. What is wanted
is summed up over the cells of the blocks' bytes, and over rewards as paying_chain.py has
them, by docs/RULES.md, "The reward": nothing is taken from the program.
"""

from common import emit

import encoding
import paying_chain
import reward_runs
from encoding import ckbhash, fields_of, fixvec, number_of, uint
from make_store import SHANNONS


def ext(fees):
    return fixvec([uint(fee, 8) for fee in fees]) + fixvec([])


def cells_made(transaction):
    """Of a transaction's bytes: its out-points, and what each of its outputs holds and occupies."""
    raw = fields_of(transaction)[0]
    _, _, _, _, outputs, contents = fields_of(raw)
    made = {}
    for index, (output, content) in enumerate(zip(fields_of(outputs), fields_of(contents))):
        capacity, lock, type_script = fields_of(output)
        scripts = [it for it in (lock, type_script) if it]
        size = 8 + sum(33 + len(fields_of(it)[2]) - 4 for it in scripts) + len(content) - 4
        made[ckbhash(raw), index] = number_of(capacity), size * SHANNONS
    return made


def cells_spent(transaction):
    raw = fields_of(transaction)[0]
    inputs = encoding.items_of(fields_of(raw)[3], 44)
    return [(it[8:40], number_of(it[40:44])) for it in inputs]


def live_cells(branch):
    live = {}
    for block in branch:
        for place, transaction in enumerate(transactions_of(block)):
            if block.number and place:
                for spent in cells_spent(transaction):
                    del live[spent]
            live.update(cells_made(transaction))
    return live.values()


def transactions_of(block):
    return fields_of(fields_of(block.item())[2])


def part(spec, branch, target):
    """What these blocks give to the one at a height."""
    c, _, _, u = branch[target - 1].dao
    given = spec.primary(target) + spec.secondary(target) * u // c
    given += sum(fee - 4 * fee // 10 for fee in map(paying_chain.fee_of, branch[target].commits))
    last = min(target + spec.w_far, len(branch) - 1)
    for height in range(target + spec.w_close, last + 1):
        given += sum(4 * paying_chain.fee_of(it) // 10 for it in branch[height].commits
                     if paying_chain.earliest(spec, branch, it, height) == target)
    return given


def totals(spec, branch):
    height, delay = len(branch) - 1, spec.w_far + 1
    live = live_cells(branch)
    holds, occupies = sum(it[0] for it in live), sum(it[1] for it in live)
    unpaid = sum(part(spec, branch, it) for it in range(max(1, height - spec.w_far), height + 1))
    burned = sum(part(spec, branch, it - delay) for it in range(delay + 1, height + 1) if not branch[it].pays)
    c, _, s, u = branch[-1].dao
    return height, holds, occupies, unpaid, burned, c - s - holds - unpaid - burned, u - occupies


class Rows:
    """The rows of a chain: its blocks, each at the next place."""

    def __init__(self, chain):
        self.spec, self.places = chain.spec, {}
        emit('spec', chain.spec.item())
        emit('genesis', chain.genesis.item())
        self.places[chain.genesis.hash()] = 0

    def keep(self, block):
        emit('kept', block.item(), ext([paying_chain.fee_of(it) for it in block.commits]))
        self.places[block.hash()] = len(self.places)
        return self.places[block.hash()]

    def ask(self, block):
        emit('totals', self.places[block.hash()], *totals(self.spec, paying_chain.ancestors(block)))


def of_chains():
    """Along each branch both balances are the genesis's."""
    for make in reward_runs.CHAINS:
        made = make()
        for chain in [made] if isinstance(made, paying_chain.Chain) else made:
            rows, blocks = Rows(chain), [chain.genesis] + chain.kept
            for block in chain.kept:
                rows.keep(block)
            left = {totals(chain.spec, paying_chain.ancestors(it))[-2:] for it in blocks}
            assert len(left) == 1, left
            for block in blocks:
                rows.ask(block)


def that_do_not_fit():
    """A step that takes more than there is, and one to more than a total may be."""
    chain = paying_chain.Chain(w_close=1, w_far=1, primary_reward=0, secondary_reward=0)
    rows = Rows(chain)
    c, ar, s, u = chain.genesis.dao
    holds, occupies = totals(chain.spec, [chain.genesis])[1:3]
    # S grows by what live cells hold, and by a shannon more
    for more, word in ((0, 'totals'), (1, 'unfit')):
        block = chain.block(dao=(c, ar, s + holds + more, u))
        place = rows.keep(block)
        emit(word, place, *((1, 0, occupies, 0, 0, c - s - holds, u - occupies) if word == 'totals' else ()))
    # the genesis says more of U than its cells occupy: a block may lower it by all that they do, and by no shannon more
    chain = paying_chain.Chain(dao=(c, ar, s, occupies + 1), w_close=1, w_far=1, primary_reward=0, secondary_reward=0)
    rows = Rows(chain)
    for used, word in ((1, 'totals'), (0, 'unfit')):
        place = rows.keep(chain.block(dao=(c, ar, s, used)))
        emit(word, place, *((1, holds, 0, 0, 0, c - s - holds, 1) if word == 'totals' else ()))


if __name__ == '__main__':
    of_chains()
    that_do_not_fit()
