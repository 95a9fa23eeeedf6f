#!/usr/bin/env python3
"""Makes a chain of twelve blocks with a contract, and two transactions after it, beside this file.

    python3 examples/make_contract_chain.py
        contract-chain.bin  an input of `import`: fifteen items on the genesis below
        contract-chain.txt  the lines that they must be answered with
        transfer.bin        an input of `check` after them: a transaction that runs the contract
        transfer.txt        its line
        refused.bin         another: one that breaks a rule
        refused.txt         its line
        witness.bin         the first item of `assemble`: a `CellbaseWitness`
        timed.bin           a transaction after that of transfer.bin, with a time lock

The contract is scripts/exit.elf, which exits with the first byte of its args, or with 0
where they are empty. So it is a lock that opens without args, and one that never does
with the byte 7. It lies in a cell of the genesis, which make_store.py makes:

    python3 examples/make_store.py --window 2 11 --cell examples/scripts/exit.elf > store.bin

The lines are written down here, item by item, and owe nothing to the program: only
the hashes are computed, by Python's own Blake2b, and the cycles, by script_machine.py.
"""

import os

import encoding
import make_store as store
from encoding import as_bytes, cell_input, ckbhash, hash_of_all, out_point, raw_transaction, table, transactions_root
from make_first_blocks import input_and_text, joined
from make_store import COIN, PROGRAM, SHANNONS, Spec
from script_scene import Cell, Scene, Script

HERE = os.path.dirname(os.path.abspath(__file__))

# w_far + 1 is 12: no cellbase of this chain pays a reward (docs/RULES.md, "The reward")
SPEC = Spec(w_close=2, w_far=11)

with open(os.path.join(HERE, 'scripts', 'exit.elf'), 'rb') as file:
    CONTRACT = file.read()

# whose cells anyone may spend, by the program that exits with 0
ANYONE = Script(ckbhash(PROGRAM))
OPEN = Script(ckbhash(CONTRACT))
SHUT = Script(ckbhash(CONTRACT), args=b'\7')

GENESIS = store.genesis(SPEC, outputs=((store.occupied(CONTRACT), CONTRACT),))

# whom a block's reward is for: the lock of all, and no message
WITNESS = table([store.LOCK, as_bytes(b'')])


# ------------------------------------------------------------ transactions

class First:
    """The transaction of the genesis: the program, the coin and the contract."""

    hash = ckbhash(GENESIS.transactions[0].raw())
    outputs = [Cell(ANYONE, content=content, capacity=capacity)
               for capacity, content in GENESIS.transactions[0].outputs]


# of each transaction: the code of both locks
DEPS = (First, 0), (First, 2)


def point_of(output):
    transaction, place = output
    return out_point(transaction.hash, place)


def cell_of(output):
    transaction, place = output
    return transaction.outputs[place]


class Transaction(Scene):
    """Spends outputs, each an earlier transaction and a place among its outputs, and makes cells.

    As a scene it says what its scripts are shown, and which cycles they take.
    """

    def __init__(self, spent, made, deps=DEPS, since=0, version=0, witnesses=()):
        super().__init__(None, map(cell_of, spent), made, map(cell_of, deps), witnesses=witnesses)
        self.cell_inputs = [cell_input(point_of(it), since) for it in spent]
        self.raw = raw_transaction(
            self.cell_inputs, [it.item() for it in self.outputs], [it.content for it in self.outputs],
            [point_of(it) + b'\0' for it in deps], version=version)
        self.item = encoding.transaction(self.raw, self.witnesses)
        self.hash = ckbhash(self.raw)
        self.proposal_id = self.hash[:10]


def ckb(count):
    return count * SHANNONS


# pays 1,000 CKB to each of the two locks of the contract, with a fee of 1,000 shannons
FUNDS = Transaction([(First, 1)], [Cell(OPEN, capacity=ckb(1000)), Cell(SHUT, capacity=ckb(1000)),
                                   Cell(ANYONE, capacity=COIN - ckb(2000) - 1000)])
# spends what is open: the contract runs, and exits with 0
SPENDS = Transaction([(FUNDS, 0)], [Cell(OPEN, capacity=ckb(400)), Cell(ANYONE, capacity=ckb(600) - 2000)])
# the same cell once more
SPENDS_TWICE = Transaction([(FUNDS, 0)], [Cell(ANYONE, capacity=ckb(1000) - 4000)])
# spends what is shut: the contract runs, and exits with 7
FORCES = Transaction([(FUNDS, 1)], [Cell(ANYONE, capacity=ckb(1000) - 5000)])
# goes on from SPENDS
SPENDS_ON = Transaction([(SPENDS, 0)], [Cell(OPEN, capacity=ckb(400) - 3000)])
# after the last block: an open cell and anyone's, so that both programs run
TRANSFER = Transaction([(SPENDS_ON, 0), (SPENDS, 1)], [Cell(ANYONE, capacity=ckb(1000) - 15000)])
# what TRANSFER made, from the start of 2026 on: its since is absolute, and in seconds
NEW_YEAR = 1767225600
TIMED = Transaction([(TRANSFER, 0)], [Cell(ANYONE, capacity=ckb(1000) - 25000)], since=1 << 62 | NEW_YEAR)


# ------------------------------------------------------------------ blocks

class Block:
    """The next block on a parent: a cellbase and these transactions, the ids of those proposed, and uncles."""

    def __init__(self, parent, commits=(), proposes=(), uncles=(), nonce=0):
        self.number, self.timestamp, self.nonce = parent.number + 1, parent.timestamp + 1000, nonce
        self.parent, self.commits, self.uncles = parent.hash(), commits, uncles
        self.proposals = [it.proposal_id for it in proposes]
        self.cellbase = store.cellbase(self.number)
        made = sum(cell.occupied() for it in commits for cell in it.outputs)
        freed = sum(cell.occupied() for it in commits for cell in it.inputs)
        c, ar, s, u = parent.dao
        second = SPEC.secondary(self.number)
        self.dao = (c + SPEC.primary(self.number) + second, ar + ar * second // c,
                    s + second - second * u // c, u + made - freed)

    def transactions(self):
        return [self.cellbase.item()] + [it.item for it in self.commits]

    def header(self):
        return encoding.header(
            self.number, self.parent, compact_target=SPEC.compact_target, timestamp=self.timestamp,
            epoch=SPEC.epoch_field(self.number), transactions_root=transactions_root(self.transactions()),
            proposals_hash=hash_of_all(self.proposals), uncles_hash=hash_of_all([it.hash() for it in self.uncles]), dao=self.dao,
            nonce=self.nonce)

    def as_uncle(self):
        return encoding.uncle(self.header(), self.proposals)

    def item(self):
        return encoding.block(self.header(), self.transactions(), self.proposals, [it.as_uncle() for it in self.uncles])

    def hash(self):
        return ckbhash(self.header())


# ------------------------------------------------------------------ inputs

def contract_chain():
    """The items with their lines, and the block that is the tip after them."""
    a1 = Block(GENESIS, proposes=[FUNDS])
    # FUNDS was proposed one block before, and w_close is 2
    too_early = Block(a1, commits=[FUNDS])
    a2 = Block(a1)
    # what is proposed may spend what is not there yet
    a3 = Block(a2, commits=[FUNDS], proposes=[SPENDS, SPENDS_TWICE, FORCES])
    a4 = Block(a3)
    forces = Block(a4, commits=[FORCES])
    a5 = Block(a4, commits=[SPENDS])
    spends_twice = Block(a5, commits=[SPENDS_TWICE])
    a6 = Block(a5)
    # beside block 6, and never imported: what it proposes counts from the block on that has it as an uncle
    uncle = Block(a5, proposes=[SPENDS_ON], nonce=1)
    a7 = Block(a6, uncles=[uncle])
    a8 = Block(a7)
    a9 = Block(a8, commits=[SPENDS_ON])
    a10 = Block(a9)
    a11 = Block(a10)
    a12 = Block(a11)
    return [
        (a1.item(), joined(a1)),
        (too_early.item(), 'refused J19'),
        (a2.item(), joined(a2)),
        (a3.item(), joined(a3)),
        (a4.item(), joined(a4)),
        (forces.item(), 'refused J29'),
        (a5.item(), joined(a5)),
        (spends_twice.item(), 'refused J20'),
        (a6.item(), joined(a6)),
        (a7.item(), joined(a7)),
        (a8.item(), joined(a8)),
        (a9.item(), joined(a9)),
        (a10.item(), joined(a10)),
        (a11.item(), joined(a11)),
        (a12.item(), joined(a12)),
    ], a12


def passes(transaction, fee):
    """The line of `check` where the transaction breaks no rule: the cycles are those of its scripts."""
    said, cycles = transaction.outcome(SPEC.max_cycles).split()
    assert said == 'ok'
    return 'ok %d %s' % (fee, cycles)


def transfer():
    """A transaction after the tip, with its line. It was never proposed: `check` does not ask for that."""
    return TRANSFER.item, passes(TRANSFER, 10000)


def refused():
    """The one that no block may commit."""
    return FORCES.item, 'refused J29'


def main():
    for name, items in (('contract-chain', contract_chain()[0]), ('transfer', [transfer()]), ('refused', [refused()])):
        given, text = input_and_text(items)
        store.write(os.path.join(HERE, name + '.bin'), given)
        store.write(os.path.join(HERE, name + '.txt'), text)
    store.write(os.path.join(HERE, 'witness.bin'), WITNESS)
    store.write(os.path.join(HERE, 'timed.bin'), TIMED.item)


if __name__ == '__main__':
    main()
