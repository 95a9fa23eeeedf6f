#!/usr/bin/env python3
"""Rows of tests/rows/runs.txt on a chain where what cells of the Nervos DAO count
reaches the greatest u64 and leaves it.

    python3 tests/rows/dao_amounts.py

They are the last of that file. The genesis has little issued beside the reward of a
block, so that the accumulated rate rises by about a hundredth with the first block, and
a deposit of 2^64 - 1 shannons. A transfer at height 3 makes a withdrawing cell of as
many, which names height 1. What they count is computed here by docs/RULES.md, "Capacity
and the DAO field".
"""

from common import emit

import encoding
import make_contract_chain as chain
import make_store as store
from encoding import NULL_OUT_POINT, cell_input, ckbhash, raw_transaction, transactions_root, uint
from make_first_blocks import joined
from make_store import PROGRAM, Spec
from script_scene import BY_TYPE, Cell, Script

GREATEST = 2 ** 64 - 1
ANYONE = Script(ckbhash(PROGRAM))
# the code of the DAO's script is named by the type script of its cell; it is the same program, which exits with 0
CODE = Script(ckbhash(PROGRAM), args=b'dao')
DAO = Script(CODE.hash(), BY_TYPE)
SPEC = Spec(w_close=2, w_far=11, dao_code_hash=CODE.hash())
ISSUED, RATE = 10 ** 12, 10 ** 16


class First:
    """The transaction of the genesis: the program, a coin, a deposit, and the code of the DAO."""

    outputs = [Cell(ANYONE, content=PROGRAM, capacity=store.occupied(PROGRAM)), Cell(ANYONE, capacity=GREATEST),
               Cell(ANYONE, DAO, content=bytes(8), capacity=GREATEST), Cell(ANYONE, CODE, content=PROGRAM)]
    raw = raw_transaction([cell_input(NULL_OUT_POINT)], [it.item() for it in outputs], [it.content for it in outputs])
    item = encoding.transaction(raw)
    hash = ckbhash(raw)


class Genesis:
    number, timestamp = 0, 1000
    dao = (ISSUED, RATE, 0, sum(it.occupied() for it in First.outputs))

    def header(self):
        return encoding.header(compact_target=SPEC.compact_target, timestamp=self.timestamp,
                               transactions_root=transactions_root([First.item]), dao=self.dao)

    def item(self):
        return encoding.block(self.header(), [First.item])

    def hash(self):
        return ckbhash(self.header())


def counts(cell, deposit, withdrawing):
    """What a cell counts from the field of one block to that of another."""
    used = cell.occupied()
    return (cell.capacity - used) * withdrawing.dao[1] // deposit.dao[1] + used


def amount_line(line, amount):
    return 'overflow' if amount > GREATEST else '%s %d' % (line, amount)


def rows():
    chain.SPEC = SPEC
    withdrawing = Cell(ANYONE, DAO, content=uint(1, 8), capacity=GREATEST)
    transfer = chain.Transaction([(First, 1)], [withdrawing], deps=[(First, 0), (First, 3)])
    first = Genesis()
    one = chain.Block(first, proposes=[transfer])
    two = chain.Block(one)
    three = chain.Block(two, commits=[transfer])
    deposit = First.outputs[2]

    def imported(block):
        return 'import', block.item(), joined(block)

    def of_deposit(tip):
        return 'dao 0x%s 2' % First.hash.hex(), b'', amount_line('deposit 0', counts(deposit, first, tip))

    yield 'init', SPEC.item() + first.item(), 'genesis 0x' + first.hash().hex()
    yield of_deposit(first)
    yield imported(one)
    yield of_deposit(one)
    yield imported(two)
    yield imported(three)
    yield of_deposit(three)
    yield ('dao 0x%s 0' % transfer.hash.hex(), b'',
           amount_line('withdrawing 1 3', counts(withdrawing, one, three)))


def main():
    emit('folder')
    for words, given, line in rows():
        emit('greatest amounts of the DAO', words, 0, given, (line + '\n').encode())


if __name__ == '__main__':
    main()
