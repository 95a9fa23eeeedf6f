#!/usr/bin/env python3
"""Makes a store with a cell that the lock of lock.rs keeps, and transactions that spend it.

    python3 examples/scripts/rust/spend_by_word.py FOLDER
        lock.elf        is read
        store.bin       an input of `init`
        opens.bin       an input of `check`: the witness has the word
        NAME.bin        others, by each of which the cell stays shut
        *.txt           the lines that each is answered with

The lines are written down here. The cycles are those of script_machine.py, and nothing is taken from the program.
"""

import os
import sys

HERE = os.path.dirname(os.path.abspath(__file__))
sys.path.insert(0, os.path.dirname(os.path.dirname(HERE)))
import make_store as store  # noqa: E402
from encoding import as_bytes, ckbhash, table  # noqa: E402
from make_contract_chain import ANYONE, SPEC, Transaction, ckb  # noqa: E402
from make_first_blocks import genesis_line  # noqa: E402
from script_scene import Cell, Script  # noqa: E402

WORD = b'open sesame'
FEE = 1000


def witness(word, input_type=b''):
    """A `WitnessArgs` with this lock, or with none."""
    return table([word and as_bytes(word), input_type and as_bytes(input_type), b''])


# (name, the witnesses, the code that the lock exits with)
SPENDS = [
    ('opens', [witness(WORD)], 0),
    ('opens-beside-another-field', [witness(WORD, b'input type')], 0),
    ('another-word', [witness(WORD[:-1])], -31),
    ('a-word-of-a-block', [witness(b'w' * 128)], -31),
    ('a-word-too-long', [witness(b'w' * 129)], -2),
    ('no-word', [witness(b'')], -2),
    ('a-bare-word', [WORD * 2], -2),
    ('no-witness', [], 1),
]


class First:
    """The transaction of the genesis: the program that exits with 0, the coin, the lock, and the cell that it keeps."""

    def __init__(self, code):
        cells = [Cell(ANYONE, content=code), Cell(Script(ckbhash(code), args=ckbhash(WORD)), capacity=ckb(1000))]
        cells[0].capacity = cells[0].occupied()
        self.genesis = store.genesis(SPEC, outputs=[(it.capacity, it.content, it.lock.item()) for it in cells])
        only, = self.genesis.transactions
        self.hash = ckbhash(only.raw())
        self.outputs = [Cell(ANYONE, content=it[1], capacity=it[0]) for it in only.outputs[:2]] + cells


def spends(first, witnesses):
    return Transaction([(first, 3)], [Cell(ANYONE, capacity=ckb(1000) - FEE)], deps=[(first, 2)], witnesses=witnesses)


def line_of(transaction, code):
    """The line of `check`, where the lock is to exit with this code."""
    word, *numbers = transaction.outcome(SPEC.max_cycles).split()
    if code:
        assert (word, numbers) == ('exit', ['0', str(code)]), (word, numbers)
        return 'refused J29'
    assert word == 'ok', (word, numbers)
    return 'ok %d %s' % (FEE, numbers[0])


def main():
    folder, = sys.argv[1:]
    with open(os.path.join(folder, 'lock.elf'), 'rb') as file:
        first = First(file.read())

    def write(name, given, line):
        store.write(os.path.join(folder, name + '.bin'), given)
        store.write(os.path.join(folder, name + '.txt'), line.encode() + b'\n')

    write('store', SPEC.item() + first.genesis.item(), genesis_line(first.genesis))
    for name, witnesses, code in SPENDS:
        transaction = spends(first, witnesses)
        write(name, transaction.item, line_of(transaction, code))


if __name__ == '__main__':
    main()
