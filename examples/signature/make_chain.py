#!/usr/bin/env python3
"""Makes a chain on which cells are spent by signatures, with the lock that build.sh built.

    python3 examples/signature/make_chain.py FOLDER
        lock.elf        is read
        store.bin       an input of `init`
        funds.bin       an input of `import`: four blocks, of which the third makes two cells with the lock
        spends.bin      after them: a block that spends these with a bit of the signature flipped, and one that does
                        without
        signed.bin      an input of `check` after funds.bin: the transaction of that block
        NAME.bin        others: it with something changed after it was signed
        *.txt           the lines that each is answered with

The lines are written down here. The cycles are those of script_machine.py, and nothing is taken from the program.
"""

import os
import sys

HERE = os.path.dirname(os.path.abspath(__file__))
sys.path[:0] = [HERE, os.path.dirname(HERE)]
import secp256k1  # noqa: E402
import make_store as store  # noqa: E402
from encoding import as_bytes, ckbhash, table, uint  # noqa: E402
from make_contract_chain import ANYONE, SPEC, Block, Transaction, ckb  # noqa: E402
from make_first_blocks import genesis_line, input_and_text, joined  # noqa: E402
from make_store import COIN  # noqa: E402
from script_scene import Cell, Script  # noqa: E402

KEY, OTHER_KEY = (int.from_bytes(ckbhash(it), 'big') % secp256k1.ORDER
                  for it in (b'a key that everyone knows', b'another one'))
FEE = 10000


class First:
    """The transaction of the genesis: the program that exits with 0, the coin and the lock."""

    def __init__(self, genesis):
        only, = genesis.transactions
        self.hash = ckbhash(only.raw())
        self.outputs = [Cell(ANYONE, content=content, capacity=capacity) for capacity, content in only.outputs]


def witness(signature, input_type=b''):
    """A `WitnessArgs`."""
    return table([as_bytes(signature), input_type and as_bytes(input_type), b''])


def message_of(transaction, group):
    """What is signed for the inputs at the places of the group, whose first witness has zeros for a signature."""
    past = range(len(transaction.inputs), len(transaction.witnesses))
    signed = [transaction.witnesses[place] for place in [*group, *past]]
    return ckbhash(transaction.hash + b''.join(uint(len(it), 8) + it for it in signed))


def flipped(content, place):
    """With the lowest bit of a byte flipped."""
    return content[:place] + bytes([content[place] ^ 1]) + content[place + 1:]


class Scenery:
    """The transactions, and the blocks that commit them."""

    def __init__(self, code):
        self.genesis = store.genesis(SPEC, outputs=((store.occupied(code), code),))
        first = First(self.genesis)
        self.deps = [(first, 0), (first, 2)]
        lock = Script(ckbhash(code), args=ckbhash(secp256k1.public_key(KEY))[:20])
        # two cells that the key opens, and between them one that anyone may spend
        self.funds = Transaction([(first, 1)], deps=self.deps, made=[
            Cell(lock, capacity=ckb(1000)), Cell(ANYONE, capacity=COIN - ckb(2000) - FEE),
            Cell(lock, capacity=ckb(1000))])
        self.signed = self.signed_by(KEY)

    def signed_by(self, key):
        """The witnesses. The group has the inputs 0 and 2: that at 1 is not signed, 3 and 4 are past the last input."""
        others = [b'not signed', b'of the group', b'', bytes(range(256)) * 20]
        unsigned = self.spends([witness(bytes(65), b'input type'), *others])
        signature = secp256k1.sign(key, message_of(unsigned, [0, 2]))
        return [witness(signature, b'input type'), *others]

    def spends(self, witnesses, fee=FEE):
        made = [Cell(ANYONE, capacity=COIN - FEE - fee)]
        return Transaction([(self.funds, place) for place in range(3)], made, deps=self.deps, witnesses=witnesses)

    def changed(self, at, place):
        """The signed transaction with a bit of a witness flipped."""
        return self.spends([flipped(it, place) if i == at else it for i, it in enumerate(self.signed)])

    def transactions(self):
        """(name, transaction, whether it was changed where it is signed)"""
        yield 'signed', self.spends(self.signed), False
        yield 'flipped-r', self.changed(0, 20), True
        yield 'flipped-s', self.changed(0, 52), True
        yield 'flipped-id', self.changed(0, 84), True
        yield 'flipped-first', self.changed(0, len(self.signed[0]) - 1), True
        yield 'flipped-of-group', self.changed(2, 0), True
        yield 'flipped-past', self.changed(4, 5000), True
        yield 'flipped-unsigned', self.changed(1, 0), False
        yield 'another-key', self.spends(self.signed_by(OTHER_KEY)), True
        yield 'another-fee', self.spends(self.signed, FEE + 1), True
        yield 'a-witness-more', self.spends(self.signed + [b'']), True
        yield 'a-witness-less', self.spends(self.signed[:-1]), True
        yield 'no-witness', self.spends([]), True

    def blocks(self):
        """The items of funds.bin and of spends.bin, each with its line."""
        spends = self.spends(self.signed)
        a1 = Block(self.genesis, proposes=[self.funds])
        a2 = Block(a1)
        a3 = Block(a2, commits=[self.funds], proposes=[spends])
        a4 = Block(a3)
        forged = Block(a4, commits=[self.changed(0, 20)])
        a5 = Block(a4, commits=[spends])
        return ([(it.item(), joined(it)) for it in (a1, a2, a3, a4)],
                [(forged.item(), 'refused J29'), (a5.item(), joined(a5))])


def line_of(transaction, changed):
    """The line of `check`. A script that is shown something else than was signed exits with a code that is not 0."""
    word, *numbers = transaction.outcome(SPEC.max_cycles).split()
    assert word == ('exit' if changed else 'ok'), (word, numbers)
    return 'refused J29' if changed else 'ok %d %s' % (FEE, numbers[0])


def main():
    folder, = sys.argv[1:]
    with open(os.path.join(folder, 'lock.elf'), 'rb') as file:
        scenery = Scenery(file.read())

    def write(name, given, text):
        store.write(os.path.join(folder, name + '.bin'), given)
        store.write(os.path.join(folder, name + '.txt'), text)

    write('store', SPEC.item() + scenery.genesis.item(), (genesis_line(scenery.genesis) + '\n').encode())
    for name, items in zip(('funds', 'spends'), scenery.blocks()):
        write(name, *input_and_text(items))
    for name, transaction, changed in scenery.transactions():
        write(name, *input_and_text([(transaction.item, line_of(transaction, changed))]))


if __name__ == '__main__':
    main()
