"""Reads the best branch of a store by the program: its blocks, what they propose and commit, fees, cycles and live cells.

The values are those of docs/FORMATS.md, "Blocks as JSON"; which cells are live, and which block is paid where, is worked
out by docs/RULES.md. What a block's transactions pay and take comes of a second store, which is filled block by block:
there `assemble` answers the transactions of a block before `import` takes that.
"""

import collections
import json
import os
import subprocess
import tempfile

import encoding
from encoding import as_bytes, cell_input, cell_output, ckbhash, fields_of, number_of, out_point, script, table, uint

# where the specification of a store stands in its log (docs/STORE.md)
SPECIFICATION = slice(8 + 6, 8 + 6 + 100)
# the kind of the record of an edition
EDITION = 4
HASH_TYPES = {'data': 0, 'type': 1}
DEP_TYPES = {'code': 0, 'dep_group': 1}


class Failed(Exception):
    """Why the chain cannot be read, and the status to end with."""

    def __init__(self, why, status=1):
        super().__init__(why)
        self.status = status


class Store:
    """Runs the program on a folder."""

    def __init__(self, program, folder):
        self.program, self.folder = program, folder

    def run(self, *words, given=b'', good=(0, 1)):
        """What a command prints. Any status but these is the end."""
        ran = subprocess.run([self.program, self.folder, *words], input=given, stdout=subprocess.PIPE)
        if ran.returncode not in good:
            raise Failed('`%s` ended with status %d, which docs/COMMANDS.md explains; is %s the folder of a store?'
                         % (' '.join(words), ran.returncode, self.folder), ran.returncode)
        return ran.stdout

    def line(self, *words):
        return self.run(*words).decode().rstrip('\n')

    def has(self, *words):
        """Whether the program has the command: 2 is the status of one that it has not."""
        ran = subprocess.run([self.program, self.folder, *words], stdin=subprocess.DEVNULL, stdout=subprocess.DEVNULL,
                             stderr=subprocess.DEVNULL)
        return ran.returncode == 0

    def specification(self):
        with open(os.path.join(self.folder, 'log.bin'), 'rb') as f:
            return Specification(f.read(SPECIFICATION.stop)[SPECIFICATION])

    def edition(self):
        """The epoch that the store has an edition from, or None."""
        with open(os.path.join(self.folder, 'log.bin'), 'rb') as f:
            log = f.read()
        at = 8
        while log[at:at + 1] == b'\1':
            kind, length = log[at + 1], int.from_bytes(log[at + 2:at + 6], 'little')
            if at + 6 + length >= len(log):
                break
            if kind == EDITION:
                return int.from_bytes(log[at + 6:at + 6 + length], 'little')
            at += 6 + length
        return None


class Specification:
    def __init__(self, item):
        self.item = item
        self.epoch_length, self.w_close, self.w_far = (number_of(item[at:at + 4]) for at in (8, 12, 16))
        self.dao_code_hash = '0x' + item[68:].hex()


# ------------------------------------------------------------------- parts

def number(text):
    return int(text, 16)


def bytes_of(text):
    return bytes.fromhex(text[2:])


def all_bytes(texts):
    return [bytes_of(it) for it in texts]


def byte_of(names, text):
    return names[text] if text in names else bytes_of(text)[0]


def script_of(value):
    return script(bytes_of(value['code_hash']), byte_of(HASH_TYPES, value['hash_type']), bytes_of(value['args']))


def point_of(value):
    return out_point(bytes_of(value['tx_hash']), number(value['index']))


def output_of(value):
    return cell_output(number(value['capacity']), script_of(value['lock']), script_of(value['type']) if value['type'] else b'')


def raw_of(value):
    """A transaction without its witnesses, as bytes."""
    return encoding.raw_transaction(
        [cell_input(point_of(it['previous_output']), number(it['since'])) for it in value['inputs']],
        [output_of(it) for it in value['outputs']], all_bytes(value['outputs_data']),
        [point_of(it['out_point']) + uint(byte_of(DEP_TYPES, it['dep_type']), 1) for it in value['cell_deps']],
        all_bytes(value['header_deps']), number(value['version']))


def dao_of(value):
    dao = bytes_of(value['dao'])
    return [number_of(dao[at:at + 8]) for at in range(0, 32, 8)]


def header_of(value):
    numbers = {it: number(value[it]) for it in ('number', 'version', 'compact_target', 'timestamp', 'epoch', 'nonce')}
    hashes = {it: bytes_of(value[it]) for it in ('parent_hash', 'transactions_root', 'proposals_hash', 'uncles_hash')}
    return encoding.header(**numbers, **hashes, dao=dao_of(value))


Point = collections.namedtuple('Point', 'hash index')


class Cell:
    """An output with its data, the block and the transaction that made it, and the transaction that spends it, or None."""

    def __init__(self, point, output, data, height):
        self.point, self.height, self.spent_by = point, height, None
        self.capacity, self.lock, self.type = number(output['capacity']), output['lock'], output['type']
        self.data, self.lock_hash = data, '0x' + ckbhash(script_of(output['lock'])).hex()


class Transaction:
    """One of a block. What it pays and takes is None where that is not known."""

    def __init__(self, value, height, place):
        self.value, self.height, self.place = value, height, place
        raw = raw_of(value)
        self.item = encoding.transaction(raw, all_bytes(value['witnesses']))
        self.hash = '0x' + ckbhash(raw).hex()
        self.fee = self.cycles = self.proposer = None
        self.cells = [Cell(Point(self.hash, index), output, data, height)
                      for index, (output, data) in enumerate(zip(value['outputs'], value['outputs_data']))]
        self.inputs = [] if self.spends_nothing() else [
            Point(it['previous_output']['tx_hash'], number(it['previous_output']['index'])) for it in value['inputs']]

    def spends_nothing(self):
        """Those of the genesis and cellbases."""
        return self.height == 0 or self.place == 0

    def proposal_id(self):
        return self.hash[:22]


class Proposer:
    """A block that proposes, by itself or by an uncle."""

    def __init__(self, height, by_uncle):
        self.height, self.by_uncle = height, by_uncle


class Uncle:
    def __init__(self, value):
        header = header_of(value['header'])
        self.proposals, self.number = value['proposals'], number(value['header']['number'])
        self.hash, self.item = '0x' + ckbhash(header).hex(), encoding.uncle(header, all_bytes(self.proposals))


class Block:
    def __init__(self, value):
        self.header, self.proposals = value['header'], value['proposals']
        self.number, self.dao = number(self.header['number']), dao_of(self.header)
        self.transactions = [Transaction(it, self.number, place) for place, it in enumerate(value['transactions'])]
        self.uncles = list(map(Uncle, value['uncles']))
        header = header_of(self.header)
        self.hash = '0x' + ckbhash(header).hex()
        self.item = encoding.block(header, [it.item for it in self.transactions], all_bytes(self.proposals),
                                   [it.item for it in self.uncles])

    def proposes(self):
        """Each id, and whether an uncle proposes it."""
        for it in self.proposals:
            yield it, False
        for uncle in self.uncles:
            for it in uncle.proposals:
                yield it, True

    def total(self, of):
        """That of all transactions after the first, or None where one is not known."""
        counts = [of(it) for it in self.transactions[1:]]
        return None if None in counts else sum(counts)


# ------------------------------------------------------------------- chain

class Chain:
    """The best branch of a store."""

    def __init__(self, store):
        _, height, top = store.line('tip').split()
        self.store, self.spec = store, store.specification()
        self.blocks = [Block(json.loads(store.run('json', str(it)))) for it in range(int(height) + 1)]
        hashes = [it.header['parent_hash'] for it in self.blocks[1:]] + [top]
        if [it.hash for it in self.blocks] != hashes:
            raise Failed('the blocks do not follow one another: were some imported just now?')
        self.cells = {it.point: it for block in self.blocks for transaction in block.transactions for it in transaction.cells}
        for block in self.blocks:
            for transaction in block.transactions:
                for point in transaction.inputs:
                    self.cells[point].spent_by = transaction
        self.find_proposers()

    # a commitment pays the earliest of the blocks in its window that propose it (docs/RULES.md, "The reward")
    def find_proposers(self):
        proposers = collections.defaultdict(list)
        for block in self.blocks:
            for it, by_uncle in block.proposes():
                proposers[it].append(Proposer(block.number, by_uncle))
        for block in self.blocks:
            for it in block.transactions[1:]:
                it.proposer = next((p for p in proposers[it.proposal_id()]
                                    if self.spec.w_close <= block.number - p.height <= self.spec.w_far), None)

    def find_fees(self):
        """What each transaction after a cellbase pays and takes, as far as a second store takes the blocks."""
        with tempfile.TemporaryDirectory() as folder:
            second = Store(self.store.program, folder)
            second.run('init', given=self.spec.item + self.blocks[0].item)
            edition = self.store.edition()
            if edition is not None:
                second.run('migrate', str(edition))
            waiting = []
            for block in self.blocks[1:]:
                if len(block.transactions) > 1:
                    if not all_joined(second.run('import', given=b''.join(waiting))):
                        return
                    waiting = []
                    learn(second, block)
                waiting.append(block.item)

    def live(self):
        return [it for it in self.cells.values() if not it.spent_by]

    def cell(self, point):
        return self.cells[point]

    def live_by_lock(self):
        """Of each lock hash, in the order of first cells: the live cells by their out-points, how many, and their capacity.

        They are those of `list`, where the program has that command.
        """
        found = collections.defaultdict(list)
        for it in self.live():
            found[it.lock_hash].append(it)
        lists = bool(found) and self.store.has('list', next(iter(found)))
        for lock_hash, cells in found.items():
            if lists:
                yield (lock_hash, *self.listed(lock_hash))
            else:
                yield lock_hash, sorted(cells, key=lambda it: it.point), len(cells), sum(it.capacity for it in cells)

    def listed(self, lock_hash):
        *lines, total = self.store.line('list', lock_hash).splitlines()
        cells = [self.cells[Point(top, int(index))] for _, top, index, _ in map(str.split, lines)]
        return (cells, *map(int, total.split()[1:]))

    def paid_in(self, height):
        """The number of the block whose cellbase pays this one."""
        return height + self.spec.w_far + 1

    def deposits(self):
        """The live cells whose type script is the DAO's, each with the line of `dao`."""
        for it in self.live():
            if it.type and (it.type['code_hash'], it.type['hash_type']) == (self.spec.dao_code_hash, 'type'):
                yield it, self.store.line('dao', it.point.hash, str(it.point.index))


def all_joined(text):
    return all(it.startswith(b'joined ') for it in text.splitlines())


def learn(store, block):
    """What `assemble` says of the transactions of the next block, each after those before it."""
    witness = table([script(bytes(32)), as_bytes(b'')])
    items = [it.item for it in block.transactions[1:]]
    for it, line in zip(block.transactions[1:], store.run('assemble', given=witness + b''.join(items)).decode().splitlines()):
        if line.startswith('commit '):
            it.fee, it.cycles = map(int, line.split()[1:])
