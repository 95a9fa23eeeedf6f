"""Checks of what makes a chain without a compiler: make_store.py makes the input of `init`, and mine.py mines on a store."""

import dataclasses
import json
import os
import sys

from harness import (CONTRACT_INIT, FIRST_INIT, TOP, Ran, contract, contract_store, first, must, must_answer, must_be,
                     new_folder, new_store, write)
import assemble_model as model
import encoding
from assembling import contract_chain, runs, store_of
from encoding import NULL_OUT_POINT, cell_input, ckbhash, data_hash, raw_transaction, transactions_root
from make_contract_chain import ANYONE, NEW_YEAR, TIMED, Transaction
from paying_chain import LONG_LOCK
from script_scene import BY_TYPE, TYPE_ID, Cell, Script

MAKES = [sys.executable, os.path.join(TOP, 'examples', 'make_store.py')]
MINES = [sys.executable, os.path.join(TOP, 'examples', 'mine.py')]
SAMPLE = os.path.join(TOP, 'examples', 'store.toml')
EXIT = os.path.join(TOP, 'examples', 'scripts', 'exit.elf')
# those of every genesis: the program that exits with 0, and the coin
GIVEN = contract.First.outputs[:2]
HAS_TOML = sys.version_info >= (3, 11)


# ------------------------------------------------------------- make_store.py

@dataclasses.dataclass
class Genesis:
    """What make_store.py has to write of these cells after the two that are always there."""

    cells: list
    timestamp: int = 1000
    spec: bytes = first.SPEC.item()

    def __post_init__(self):
        cells = GIVEN + self.cells
        raw = raw_transaction([cell_input(NULL_OUT_POINT)], [it.item() for it in cells], [it.content for it in cells])
        item = encoding.transaction(raw)
        dao = sum(it.capacity for it in cells), 10 ** 16, 0, sum(it.occupied() for it in cells)
        header = encoding.header(compact_target=encoding.number_of(self.spec[4:8]), timestamp=self.timestamp,
                                 transactions_root=transactions_root([item]), dao=dao)
        self.tx_hash, self.hash = ckbhash(raw), ckbhash(header)
        self.init, self.line = self.spec + encoding.block(header, [item]), b'genesis 0x%s\n' % self.hash.hex().encode()

    def told(self, *names):
        """The lines on standard error of the cells with a name."""
        lines = []
        for index, (name, cell) in enumerate(zip(names, self.cells), 2):
            code, of_type = cell.content, cell.type_script
            lines += ['cell 0x%s %d: %s: capacity %d%s%s\n' % (
                self.tx_hash.hex(), index, name, cell.capacity, ', code hash 0x' + ckbhash(code).hex() if code else '',
                ', type hash 0x' + of_type.hash().hex() if of_type else '')] * bool(name)
        return ''.join(lines).encode()

    def must_be_a_store(self, program):
        """`init` takes it, and `cell` prints each of its cells."""
        with new_store(program, self.init, self.line) as folder:
            for index, cell in enumerate(self.cells, 2):
                must_answer(Ran([program, folder, 'cell', '0x' + self.tx_hash.hex(), str(index)]), 0, live_line(cell, 0),
                            'cell %d' % index)


def live_line(cell, height):
    """What `cell` prints of a live cell that was made at this height."""
    type_hash = '0x' + cell.type_script.hash().hex() if cell.type_script else '-'
    return ('live %d %d %d 0x%s %s 0x%s %d\n' % (
        cell.capacity, cell.occupied(), height, cell.lock.hash().hex(), type_hash, data_hash(cell.content).hex(),
        len(cell.content))).encode()


def holding(lock, content=b'', type_script=None):
    """A cell with the capacity that it occupies."""
    cell = Cell(lock, type_script, content)
    return dataclasses.replace(cell, capacity=cell.occupied())


def must_make(words, genesis, names, what, **how):
    ran = Ran(MAKES + words, **how)
    must_be(ran.err, genesis.told(*names), what + ': standard error')
    must_be((ran.status, ran.out), (0, genesis.init), what)


def check_make_store(program):
    """make_store.py makes what its words ask for."""
    must_answer(Ran(MAKES), 0, FIRST_INIT, 'make_store.py without options')
    words = ['--window', '2', '11', '--output', '23100000000', contract.CONTRACT.hex()]
    must_answer(Ran(MAKES + words), 0, CONTRACT_INIT, 'make_store.py with a contract')
    words = ['--epoch-length', '4', '--window', '1', '3', '--timestamp', '5', '--maturity', '0x40000000001',
             '--output', '4300000000', '0a0b']
    spec = first.changed(first.SPEC, epoch_length=4, w_close=1, w_far=3, maturity=1 | 4 << 40)
    wanted = Genesis([holding(ANYONE, b'\x0a\x0b')], 5, spec.item())
    must_answer(Ran(MAKES + words), 0, wanted.init, repr(words))
    wanted.must_be_a_store(program)


def check_make_store_cells(program):
    """A cell is a file of any length, and has the scripts and the capacity that the words after it say."""
    with new_folder() as away:
        # longer in hex digits than a word of a command may be
        large = contract.CONTRACT + bytes(range(256)) * 1200
        write(os.path.join(away, 'large.elf'), large)
        shut, upgradable = contract.SHUT, Script(TYPE_ID, BY_TYPE, bytes(31) + b'\1')
        code_hash = Script(ckbhash(large), 2)
        cells = [holding(ANYONE, contract.CONTRACT), dataclasses.replace(holding(shut, large, upgradable), capacity=10 ** 15),
                 holding(code_hash, b'\x0a\x0b'), holding(shut, contract.CONTRACT, upgradable)]
        words = ['--cell', EXIT, '--cell', 'large.elf', '--lock', EXIT, 'data', '07', '--capacity', str(10 ** 15),
                 '--type', '0x' + TYPE_ID.hex(), 'type', '0x' + upgradable.args.hex(),
                 '--output', str(cells[2].capacity), '0a0b', '--lock', '0x' + ckbhash(large).hex(), '0x02', '0x',
                 '--cell', EXIT, '--type', '0x' + TYPE_ID.hex(), 'type', upgradable.args.hex(), '--lock', EXIT, 'data', '0x07']
        wanted = Genesis(cells)
        must_make(words, wanted, (EXIT, 'large.elf', None, EXIT), 'cells of words', cwd=away)
        wanted.must_be_a_store(program)
    must_be(Ran(MAKES + ['--window', '2', '11', '--cell', EXIT]).out, CONTRACT_INIT, 'the contract as a cell')


def of_sample():
    """The cells of examples/store.toml, and what they are called."""
    upgradable = Script(TYPE_ID, BY_TYPE, bytes(31) + b'\1')
    cells = [holding(ANYONE, contract.CONTRACT), Cell(contract.OPEN), holding(ANYONE, b'\x0a\x0b', upgradable)]
    return cells, ('scripts/exit.elf', 'cells[1]', 'cells[2]')


def check_make_store_descriptions(program):
    """The sample in TOML and the same in JSON; fields that are left out have the values of the sample, and words go before."""
    cells, names = of_sample()
    words = ['--epoch-length', '7', '--window', '1', '3', '--cell', EXIT]
    tree = {'cells': [
        {'file': 'scripts/exit.elf'}, {'capacity': '0x174876e800', 'lock': {'code': 'scripts/exit.elf'}, 'type': None},
        {'data': '0a0b', 'type': {'code_hash': TYPE_ID.hex(), 'hash_type': 'type', 'args': '00' * 31 + '01'}}]}
    changes = {'maturity': '1 1/3', 'dao_code_hash': '0x' + 'ab' * 32, 'max_cycles': 5, 'timestamp': 2 ** 64 - 1}
    spec = first.changed(first.SPEC, maturity=1 | 1 << 24 | 3 << 40, dao_code_hash=b'\xab' * 32, max_cycles=5)
    with new_folder() as away:
        os.symlink(os.path.join(TOP, 'examples', 'scripts'), os.path.join(away, 'scripts'))
        path = os.path.join(away, 'own.json')
        write(path, json.dumps(tree).encode())
        for file in [path] + [SAMPLE] * HAS_TOML:
            must_make(['--spec', file], Genesis(cells), names, file)
            changed = Genesis(cells + cells[:1], 1000, first.changed(first.SPEC, epoch_length=7, w_close=1, w_far=3).item())
            must_make(['--spec', file, *words], changed, names + (EXIT,), file + ' and words')
        write(path, json.dumps({**changes, **tree}).encode())
        must_make(['--spec', 'own.json'], Genesis(cells, 2 ** 64 - 1, spec.item()), names, 'other fields', cwd=away)
    Genesis(cells).must_be_a_store(program)


# (words, or the tree of a description; a part of the line)
WRONG = [
    (['--window', '3', '2'], 'S3'), (['--output', '4200000000', '0a0b'], 'G7'), (['--maturity', '0x3000000'], 'S6'),
    (['--output', '4300000000', '0a0'], '--output.data: '), (['--output', 'x', ''], '--output.capacity: '),
    (['--output', '0x10000000000000000', ''], '--output.capacity: '), (['--output', str(2 ** 64 - 1), ''], '2^64'),
    (['--epoch-length', '4294967296'], '--epoch-length: '), (['--timestamp', '-1'], '--timestamp: '),
    (['--dao-code-hash', 'abcd'], '--dao-code-hash: it has 2 bytes'), (['--maturity', '1 3/3'], '--maturity: '),
    (['--cell', 'gone.elf'], 'gone.elf: No such file'), (['--lock', EXIT, 'data', ''], '--lock: it comes after'),
    (['--cell', EXIT, '--lock', EXIT, 'data9', ''], 'hash_type: '),
    (['--cell', EXIT, '--type', 'gone.elf', 'data', ''], 'gone.elf: No such file'),
    (['--window', '2'], '--window'), (['--spec', 'gone.json'], 'gone.json: No such file'), (['--cells'], '--cells'),
    ({'epoch_lenght': 5}, 'own.json.epoch_lenght: there is no such key; did you mean epoch_length?'),
    ({'epoch_length': True}, 'own.json: epoch_length: '), ({'epoch_length': [1]}, 'own.json: epoch_length: '),
    ({'timestamp': 1.5}, 'own.json: timestamp: '), ({'dao_code_hash': 5}, 'own.json: dao_code_hash: '),
    ({'cells': {}}, 'own.json: cells: a list'), ({'cells': [5]}, 'own.json: cells[0]: a table'),
    ({'w_close': 3, 'w_far': 2}, 'S3'),
    ({'cells': [{}, {'file': 'gone'}]}, 'own.json: cells[1]: gone: No such file'), ({'cells': [{'capacity': 5}]}, 'G7'),
    ({'cells': [{'file': 'own.json', 'data': ''}]}, 'own.json: cells[0]: it takes either'),
    ({'cells': [{'lock': {'args': ''}}]}, 'own.json: cells[0].lock: it takes either'),
    ({'cells': [{'lock': {'code_hash': '0x00'}}]}, 'own.json: cells[0].lock.code_hash: it has 1 bytes, and not 32'),
    ({'cells': [{'lock': {'code': 'own.json', 'hash_type': ['data']}}]}, 'own.json: cells[0].lock.hash_type: '),
    (b'{"cells": ', 'own.json: Expecting value: line 1 column 11'), (b'\xff', 'own.json: it is no text'),
] + [(b'epoch_length = \n', 'own.json: Invalid value (at line 1, column 16)'), (b'a = [[', 'own.json: ')] * HAS_TOML


def check_make_store_on_what_is_wrong(_):
    """It writes nothing, and one line, which says where and what."""
    with new_folder() as away:
        for words, why in WRONG:
            if not isinstance(words, list):
                write(os.path.join(away, 'own.json'), words if isinstance(words, bytes) else json.dumps(words).encode())
            ran = Ran(MAKES + (words if isinstance(words, list) else ['--spec', 'own.json']), cwd=away)
            must_be((ran.status, ran.out), (2, b''), repr(words))
            must(ran.err.startswith(b'make_store.py: ') and ran.err.count(b'\n') == 1 and why.encode() in ran.err,
                 '%r: it does not say %r, but %r' % (words, why, ran.err))


# ------------------------------------------------------------------- mine.py

def mines(chain, timestamp=0, proposes=(), commits=(), witness=runs.WITNESS):
    """The next block of mine.py, which becomes the tip."""
    assembly = model.Assembly(chain, witness)
    assembly.proposes, assembly.commits = list(proposes), list(commits)
    block, broken = assembly.sealed()
    must_be(broken, None, 'the rule that block %d breaks' % block.number)
    chain.tip = dataclasses.replace(block, time=max(block.time, timestamp))


def grows_with(chain, transaction, until, proposed, committed, timestamp=0):
    """Mines up to a height, with a transaction that is proposed and committed at these."""
    while chain.tip.number < until:
        number = chain.tip.number + 1
        mines(chain, timestamp, [transaction] * (number in proposed), [transaction] * (number == committed))


def committed(chain, height):
    block, = (it for it in model.ancestors(chain.tip) if it.number == height)
    return 'committed %d 0x%s' % (height, block.hash().hex())


def must_mine(program, folder, words, lines, chain, what, **how):
    """The lines of the transactions, and the tip, which is that of the chain."""
    status = int(not all(it.startswith('committed ') for it in lines))
    text = ''.join(it + '\n' for it in (*lines, first.tip(chain.tip))).encode()
    must_answer(Ran([*MINES, folder, *words, '--program', program], **how), status, text, what)
    must_answer(Ran([program, folder, 'tip']), 0, (first.tip(chain.tip) + '\n').encode(), what + ': tip')


def must_have_cell(program, folder, transaction, height):
    """Its first output is live."""
    words = [program, folder, 'cell', '0x' + transaction.hash.hex(), '0']
    must_answer(Ran(words), 0, live_line(transaction.outputs[0], height), 'the cell of a transaction that is mined')


def files_of(folder, *transactions):
    paths = [os.path.join(folder, 'transaction%d' % place) for place in range(len(transactions))]
    for path, it in zip(paths, transactions):
        write(path, it.item)
    return paths


def check_mined_blocks(program):
    """So many blocks, up to a height, with a timestamp, and for a lock; rewards are paid from block 12 on."""
    chain = runs.Chain()
    with store_of(program, chain) as folder:
        for words, until, timestamp, lock in (
                (['3'], 3, 0, model.LOCK), (['0'], 3, 0, model.LOCK),
                (['1', '--until', '13', '--timestamp', '50000'], 13, 50000, model.LOCK),
                (['0x2', '--until', '14'], 15, 0, model.LOCK),
                (['--until', '9', '--timestamp', '5', '0'], 15, 0, model.LOCK),
                (['1', '--lock', '0x' + ANYONE.code_hash.hex(), 'data', '0x' + '00' * 20], 16, 0, LONG_LOCK)):
            while chain.tip.number < until:
                mines(chain, timestamp, witness=model.witness_with(lock))
            must_mine(program, folder, words, [], chain, 'mine.py %s' % ' '.join(words))


def check_mined_transactions(program):
    """One that is proposed and committed, one that breaks a rule, and one that spends what another makes, in both orders."""
    chain = contract_chain()
    with contract_store(program) as folder, new_folder() as away:
        for proposes, commits in (([contract.TRANSFER], []), ([], []), ([], [contract.TRANSFER])):
            mines(chain, 0, proposes, commits)
        paths = files_of(away, contract.TRANSFER, contract.FORCES)
        must_mine(program, folder, ['0', *paths], [committed(chain, 15), 'refused J29'], chain, 'TRANSFER and FORCES')
        must_have_cell(program, folder, contract.TRANSFER, 15)
    one = runs.pays(1000, runs.THE_COIN)
    other, again = runs.pays(2000, (one, 0)), runs.pays(3000, runs.THE_COIN)
    for given, blocks, answers in (
            ([one, other, again], [[one, other]], (3, 3, 20)), ([other, again, one], [[again]], (20, 3, 20)),
            ([other, one], [[one], [other]], (4, 3))):
        chain = runs.Chain()
        for proposes, commits in [(given, []), ([], [])] + [([], it) for it in blocks]:
            mines(chain, 0, proposes, commits)
        with store_of(program, chain) as folder, new_folder() as away:
            lines = [committed(chain, it) if it < 20 else 'refused J%d' % it for it in answers]
            must_mine(program, folder, ['--until', '0', '0', *files_of(away, *given)], lines, chain, 'several transactions')


ABSOLUTE, RELATIVE = 0, 1 << 63
EPOCHS, SECONDS = 1 << 61, 1 << 62
# the since of an input that spends the coin; where from, with the words, it is committed, and the heights of its proposals
TIME_LOCKS = [
    (ABSOLUTE | 20, ['30'], 20, (1, 12)), (RELATIVE | 8, ['30'], 8, (1,)),
    (RELATIVE | EPOCHS | 1 | 1 << 24 | 2 << 40, ['--until', '16', '0'], 15, (1, 12)),
    # the median is of the blocks so far: three from the genesis on, and as many with the timestamp
    (ABSOLUTE | SECONDS | 5000, ['19', '--timestamp', '5000000'], 6, (1,)),
    (RELATIVE | SECONDS | 4999, ['19', '--timestamp', '5000000'], 6, (1,)),
]


def check_mined_time_locks(program):
    """Refused where no more blocks are asked for, and else committed at the first height at which the since is met."""
    for since, words, height, proposed in TIME_LOCKS:
        what = 'since 0x%x' % since
        coin = contract.First.outputs[1].capacity
        transaction, chain = Transaction([runs.THE_COIN], [Cell(ANYONE, capacity=coin - 5)], since=since), runs.Chain()
        with store_of(program, chain) as folder, new_folder() as away:
            path, = files_of(away, transaction)
            grows_with(chain, transaction, 2, proposed, height)
            must_mine(program, folder, ['0', path], ['refused J24'], chain, what + ' without blocks')
            until = 16 if '--until' in words else 2 + int(words[0])
            grows_with(chain, transaction, until, proposed, height, int(words[2]) if '--timestamp' in words else 0)
            must_mine(program, folder, [*words, path], [committed(chain, height)], chain, what)
            must_have_cell(program, folder, transaction, height)


class Cellbase:
    """That of a block, as what another transaction spends."""

    def __init__(self, block):
        (self.hash, self.outputs), *_ = model.cells_of(block)


def check_mined_maturity(program):
    """With a maturity of one epoch, of 10 blocks, the cellbase output of block 12 is spent in block 22."""
    chain = runs.Chain(maturity=1)
    with store_of(program, chain) as folder, new_folder() as away:
        while chain.tip.number < 12:
            mines(chain)
        must_mine(program, folder, ['0', '--until', '12'], [], chain, 'before the maturity')
        source = Cellbase(chain.tip)
        transaction = Transaction([(source, 0)], [Cell(ANYONE, capacity=source.outputs[0].capacity - 7)])
        path, = files_of(away, transaction)
        grows_with(chain, transaction, 14, (13,), 22)
        must_mine(program, folder, ['0', path], ['refused J23'], chain, 'the maturity without blocks')
        grows_with(chain, transaction, 23, (13,), 22)
        must_mine(program, folder, ['9', path], [committed(chain, 22)], chain, 'the maturity')


def check_mined_at_the_limits(program):
    """A transaction that never fits is told from one that waits; ids are proposed as many as a block may have."""
    chain = runs.Chain(max_block_bytes=3000, max_proposals=1)
    one = runs.pays(1000, runs.THE_COIN)
    long = runs.pays(1000, (contract.First, 2), deps=contract.DEPS[:1], witnesses=[bytes(3000)])
    with store_of(program, chain) as folder, new_folder() as away:
        for proposes, commits in (([long], []), ([one], []), ([], []), ([], [one])):
            mines(chain, 0, proposes, commits)
        words = ['0', *files_of(away, long, one)]
        must_mine(program, folder, words, ['later', committed(chain, 4)], chain, 'one that is too long')
    chain = runs.Chain(max_proposals=0)
    with store_of(program, chain) as folder, new_folder() as away:
        must_mine(program, folder, ['0', *files_of(away, one)], ['later'], chain, 'no proposals')


def check_mine_on_what_is_wrong(program):
    """One line says what, and the status is 2, the program's, or 1."""
    path = os.path.join(TOP, 'examples', 'primes.elf')
    by = ['--program', program]
    with new_store(program) as folder, new_folder() as empty:
        for words, status, why in (
                ([folder, '0', path, *by], 2, path), ([folder, '0', 'gone', *by], 2, 'gone: No such file'),
                ([folder], 2, 'COUNT'), ([folder, 'x'], 2, 'COUNT'), ([folder, '0', '--until', '-1'], 2, '--until'),
                ([folder, '1', '--timestamp', '1s'], 2, '--timestamp'),
                ([folder, '1', '--lock', 'gone', 'data', '', *by], 2, 'gone: No such file'),
                ([empty, '1', *by], 7, '`tip` ended with status 7'), ([empty, '1'], 7, 'ckbdev: status 7: '),
                ([folder, '1', '--program', 'gone'], 1, 'gone'),
                ([folder, '2', '--timestamp', str(2 ** 64 - 1), *by], 1, 'no block J8 at height 2')):
            ran = Ran(MINES + words)
            must_be((ran.status, ran.out), (status, b''), repr(words))
            must(ran.err.count(b'\n') == 1 and why.encode() in ran.err, '%r: it does not say %r, but %r' % (words, why, ran.err))


# ------------------------------------------------------------------ the pages

def contract_cell_line():
    """What make_store.py says of the contract of the pages."""
    return Genesis([holding(ANYONE, contract.CONTRACT)]).told('examples/scripts/exit.elf')


def mined_on_page(chain):
    """What examples/README.md mines after the blocks that are assembled: commands, statuses and texts."""
    # eighteen blocks have the timestamp then, as many as have an earlier one
    height = 36
    grows_with(chain, TIMED, 17, (16,), height)
    yield 'python3 examples/mine.py contract 0 examples/timed.bin', 1, ('refused J24\n%s\n' % first.tip(chain.tip)).encode()
    grows_with(chain, TIMED, height, (28,), height, NEW_YEAR * 1000)
    text = '%s\n%s\n' % (committed(chain, height), first.tip(chain.tip))
    yield 'python3 examples/mine.py contract 19 --timestamp %d000 examples/timed.bin' % NEW_YEAR, 0, text.encode()
