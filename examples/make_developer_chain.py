#!/usr/bin/env python3
"""Makes a chain of 300 blocks by developer-chain.txt: transfers, a deposit, uncles, locks named through a dep group,
and a cell of 1 MiB in the genesis.

    python3 examples/make_developer_chain.py FOLDER
        store.bin     an input of `init`
        blocks.bin    an input of `import`: 300 items
        blocks.txt    the lines that they must be answered with
        transfer.bin  an input of `check` after them: it spends the coin
        words.txt     lines of words and the text that they must be answered with, with a tab between

The lines are written down here and owe nothing to the program: what blocks pay, their
fields and what the deposit counts are worked out by paying_chain.py.
"""

import dataclasses
import os
import sys

import encoding
import make_store as store
from encoding import NULL_OUT_POINT, cell_input, ckbhash, fixvec, out_point, raw_transaction
from make_contract_chain import ANYONE, ckb
from make_first_blocks import input_and_text
from make_store import COIN, PROGRAM
from paying_chain import CODE_NAME, Chain, dao_cell
from script_scene import Cell, Scene

HERE = os.path.dirname(os.path.abspath(__file__))
LAST = 300
LARGE = bytes(i * 7 & 255 for i in range(1 << 20))
FEE = 1000
CYCLES = 505        # of PROGRAM: 3 for its 12 bytes, 1 and 1 for two ADDI, 500 for ECALL


def plan():
    """What is done at each height, by the first words of the lines of developer-chain.txt."""
    done = {height: set() for height in range(1, LAST + 1)}
    with open(os.path.join(HERE, 'developer-chain.txt')) as lines:
        for line in lines:
            words = line.split('#')[0].split()
            for at, word in enumerate(words):
                if not word[0].isdigit():
                    for heights in words[:at]:
                        for height in heights_of(heights):
                            done[height].add(word)
                    break
    return done


def heights_of(word):
    if '..' not in word:
        return [int(word)]
    first, rest = word.split('..')
    last, step = rest.split('/')
    return range(int(first), int(last) + 1, int(step))


class Made:
    """A transaction of the genesis, which spends nothing: its place among them, and what it makes."""

    def __init__(self, place, outputs):
        self.outputs = outputs
        self.raw_bytes = raw_transaction([cell_input(NULL_OUT_POINT, place)], [it.item() for it in outputs],
                                         [it.content for it in outputs])
        self.hash = ckbhash(self.raw_bytes)

    def raw(self):
        return self.raw_bytes

    def item(self):
        return encoding.transaction(self.raw_bytes)


def holding(content, **parts):
    """A cell that holds just what it occupies."""
    cell = Cell(ANYONE, content=content, **parts)
    return dataclasses.replace(cell, capacity=cell.occupied())


PROGRAMS = Made(0, [holding(PROGRAM), Cell(ANYONE, capacity=COIN), holding(LARGE), holding(PROGRAM, type_script=CODE_NAME)])


# the codes of all locks and of the DAO
GROUP = Made(1, [holding(fixvec([out_point(PROGRAMS.hash, 0), out_point(PROGRAMS.hash, 3)]))])


class Transfer(Scene):
    """Spends an output of an earlier transaction, with the dep group as its one dep, and makes cells."""

    def __init__(self, source, place, made):
        super().__init__(None, [source.outputs[place]], made, [PROGRAMS.outputs[0], PROGRAMS.outputs[3]])
        raw = raw_transaction([cell_input(out_point(source.hash, place))], [it.item() for it in made],
                              [it.content for it in made], [out_point(GROUP.hash, 0) + b'\1'])
        self.item = encoding.transaction(raw)
        self.hash = ckbhash(raw)
        self.proposal_id = self.hash[:10]


def transfers(done):
    """The transfer of each height that has one. Each spends what the one before it left of the coin."""
    found, source, place, left = {}, PROGRAMS, 1, COIN
    for height, what in done.items():
        if 'transfers' in what:
            left -= FEE
            made = []
            if 'deposits' in what:
                left -= ckb(1000)
                made = [dao_cell(ckb(1000), bytes(8))]
            found[height] = Transfer(source, place, made + [Cell(ANYONE, capacity=left)])
            source, place = found[height], len(made)
    return found


def developer_chain():
    done = plan()
    moved = transfers(done)
    chain = Chain(dao_code_hash=CODE_NAME.hash())
    cells = PROGRAMS.outputs + GROUP.outputs
    chain.genesis = chain.tip = dataclasses.replace(
        chain.genesis, transactions=(PROGRAMS, GROUP),
        dao=(sum(it.capacity for it in cells), 10 ** 16, 0, sum(it.occupied() for it in cells)))
    for height, what in done.items():
        ahead = moved.get(height + chain.spec.w_close)
        uncles = [chain.block(parent=chain.tip.parent, nonce=1)] if 'embeds' in what else []
        chain.joins(commits=[moved[height]] if height in moved else [], proposes=[ahead] if ahead else [], uncles=uncles)
    return chain, moved


def branch_of(block):
    found = [block]
    while found[-1].number:
        found.append(found[-1].parent)
    return found[::-1]


def answers(chain, moved):
    """Words after the folder, and their answers over the whole chain."""
    branch = branch_of(chain.tip)
    height = next(height for height, it in moved.items() if len(it.outputs) == 2)
    cell = moved[height].outputs[0]
    used = cell.occupied()
    amount = (cell.capacity - used) * branch[-1].dao[1] // branch[height].dao[1] + used
    yield 'tip', 'tip %d 0x%s' % (chain.tip.number, chain.tip.hash().hex())
    yield 'dao 0x%s 0' % moved[height].hash.hex(), 'deposit %d %d' % (height, amount)
    yield 'cell 0x%s 1' % PROGRAMS.hash.hex(), 'none'


def last_transfer(moved):
    """It spends what the last one made, whose lock is the program that exits with 0, and its answer by `check`."""
    last = moved[max(moved)]
    return (Transfer(last, 0, [Cell(ANYONE, capacity=last.outputs[0].capacity - FEE)]).item,
            'ok %d %d' % (FEE, CYCLES))


def main():
    if len(sys.argv) != 2:
        sys.exit(__doc__)
    chain, moved = developer_chain()
    given, text = input_and_text(chain.items)
    transfer, line = last_transfer(moved)
    answered = list(answers(chain, moved)) + [('check < transfer.bin', line)]
    for name, content in (('store.bin', chain.spec.item() + chain.genesis.item()), ('blocks.bin', given),
                          ('blocks.txt', text), ('transfer.bin', transfer),
                          ('words.txt', ''.join('%s\t%s\n' % it for it in answered).encode())):
        store.write(os.path.join(sys.argv[1], name), content)


if __name__ == '__main__':
    main()
