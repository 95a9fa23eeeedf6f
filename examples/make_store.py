#!/usr/bin/env python3
"""Makes what `init` reads: a specification of a chain, and its genesis.

    python3 examples/make_store.py > store.bin
    ./ckbdev FOLDER init < store.bin

Each option sets a field of the specification or of the genesis; without one the
chain is that of spec.bin and genesis.bin beside this file. The genesis has one
transaction. Its first output keeps a program that exits with 0, whose hash is
the lock of all outputs: anyone may spend them. Its second output has 10,000,000
CKB. Each --output adds another, and so does each --cell, of which a line on
standard error says how it is named. A further option of theirs gives the cell
another lock, a type script or more capacity than it occupies:

    python3 examples/make_store.py --cell examples/scripts/exit.elf \\
        --cell data.bin --capacity 100000000000 --lock examples/scripts/exit.elf data 0x07

store.toml beside this file has all of it as a description, which --spec reads.

What is written keeps S1 to S7 and G1 to G7 (docs/RULES.md), or this script
says which of them does not allow it. It owes nothing to the program: the
hashes are computed by Python's own Blake2b.
"""

import argparse
import dataclasses
import os
import sys

import description
import encoding
from encoding import NULL_OUT_POINT, ZERO_HASH, as_bytes, cell_input, cell_output, ckbhash, raw_transaction, script, table, \
    transactions_root, uint

HERE = os.path.dirname(os.path.abspath(__file__))
SHANNONS = 10 ** 8
COIN = 10_000_000 * SHANNONS
GENESIS_LIMIT = 4 << 20


# --------------------------------------------------------- the specification

@dataclasses.dataclass(frozen=True)
class Spec:
    """The fields of a specification after its size, in order."""

    compact_target: int = 0x20000000
    epoch_length: int = 10
    w_close: int = 2
    w_far: int = 10
    max_block_bytes: int = 597000
    max_proposals: int = 1500
    max_cycles: int = 10 ** 9
    maturity: int = 0
    primary_reward: int = 10 ** 12
    secondary_reward: int = 10 ** 11
    halving_interval: int = 1000
    dao_code_hash: bytes = b'\xda' * 32

    SIZES = (4, 4, 4, 4, 4, 4, 8, 8, 8, 8, 8)

    def item(self):
        numbers = dataclasses.astuple(self)[:-1]
        return uint(100, 4) + b''.join(map(uint, numbers, self.SIZES)) + self.dao_code_hash

    def broken(self):
        """The first of S2 to S7 that is broken; S1 never is."""
        index, length = self.maturity >> 24 & 0xffff, self.maturity >> 40 & 0xffff
        rules = {
            'S2': 1 <= self.epoch_length <= 65535,
            'S3': 1 <= self.w_close <= self.w_far <= 100,
            'S4': 1 <= self.max_block_bytes <= 1 << 20,
            'S5': 1 <= self.max_cycles <= 1 << 40,
            'S6': self.maturity < 1 << 56 and (index < length or index == length == 0),
            'S7': self.halving_interval >= 1,
        }
        return next((name for name, holds in rules.items() if not holds), None)

    def share(self, number, reward):
        """What a block gets of the reward of an epoch."""
        length = self.epoch_length
        return reward // length + (number % length < reward % length)

    def primary(self, number):
        return self.share(number, self.primary_reward >> number // self.epoch_length // self.halving_interval)

    def secondary(self, number):
        return self.share(number, self.secondary_reward)

    def epoch_field(self, number):
        length = self.epoch_length
        return number // length | number % length << 24 | length << 40


# ------------------------------------------------------------ transactions

# an ELF file whose one segment is: a7 = 93, a0 = 0, ECALL
PROGRAM = bytes.fromhex(
    '7f454c460201010000000000000000000200f300010000007800010000000000'
    '4000000000000000000000000000000000000000400038000100000000000000'
    '0100000005000000780000000000000078000100000000007800010000000000'
    '0c000000000000000c0000000000000000100000000000009308d00513050000'
    '73000000')
LOCK = script(ckbhash(PROGRAM))


def occupied(data, lock=LOCK, type_script=b''):
    """The capacity that an output with this data and these scripts occupies."""
    return (8 + sum(33 + len(args_of(it)) for it in (lock, type_script) if it) + len(data)) * SHANNONS


def args_of(of_script):
    return encoding.fields_of(of_script)[2][4:]


@dataclasses.dataclass(frozen=True)
class Transaction:
    """Version 0, one null input, outputs, witnesses, and no deps.

    An output is a capacity and data, and then a lock and a type script where they are others.
    """

    since: int
    outputs: tuple = ()
    witnesses: tuple = ()

    def raw(self):
        def encoded(capacity, _, lock=LOCK, type_script=b''):
            return cell_output(capacity, lock, type_script)

        return raw_transaction([cell_input(NULL_OUT_POINT, self.since)], [encoded(*it) for it in self.outputs],
                               [data for _, data, *_ in self.outputs])

    def item(self):
        return encoding.transaction(self.raw(), self.witnesses)


def cellbase(number):
    """It pays nobody, as up to the height w_far + 1, and says whom its own block's reward is for."""
    return Transaction(number, (), (table([LOCK, as_bytes(b'')]),))


# ------------------------------------------------------------------ blocks

@dataclasses.dataclass(frozen=True)
class Block:
    """A block with the right roots and hashes, without uncles and proposals. The dao field is (C, AR, S, U)."""

    number: int
    parent: bytes
    timestamp: int
    compact_target: int
    epoch: int
    dao: tuple
    transactions: tuple
    nonce: int = 0

    def header(self):
        return encoding.header(
            self.number, self.parent, compact_target=self.compact_target, timestamp=self.timestamp, epoch=self.epoch,
            transactions_root=transactions_root([it.item() for it in self.transactions]), dao=self.dao, nonce=self.nonce)

    def item(self):
        return encoding.block(self.header(), [it.item() for it in self.transactions])

    def hash(self):
        return ckbhash(self.header())


def genesis(spec, timestamp=1000, outputs=()):
    """It has the program, the coin, and these outputs."""
    outputs = ((occupied(PROGRAM), PROGRAM), (COIN, b'')) + tuple(outputs)
    used = sum(occupied(*it[1:]) for it in outputs)
    total = sum(it[0] for it in outputs)
    return Block(0, ZERO_HASH, timestamp, spec.compact_target, 0, (total, 10 ** 16, 0, used),
                 (Transaction(0, outputs),))


def child(spec, parent, nonce=0):
    """The next block, with a cellbase alone: it keeps every rule up to the height w_far + 1."""
    number = parent.number + 1
    if number > spec.w_far + 1:
        raise ValueError('the cellbase of block %d pays a reward' % number)
    c, ar, s, u = parent.dao
    second = spec.secondary(number)
    dao = (c + spec.primary(number) + second, ar + ar * second // c, s + second - second * u // c, u)
    return Block(number, parent.hash(), parent.timestamp + 1000, spec.compact_target,
                 spec.epoch_field(number), dao, (cellbase(number),), nonce)


# --------------------------------------------------------------- the cells

@dataclasses.dataclass(frozen=True)
class Cell:
    """An output of the genesis that is asked for, and what it is called on standard error, or nothing."""

    name: str
    output: tuple

    def line(self, tx_hash, index):
        capacity, data, _, type_script = self.output
        hashes = ''.join(', %s hash 0x%s' % (of, ckbhash(it).hex()) for of, it in (('code', data), ('type', type_script)) if it)
        return 'cell 0x%s %d: %s: capacity %d%s' % (tx_hash.hex(), index, self.name, capacity, hashes)


def output_of(table, where, folder=''):
    """An output of a table: its data as hex digits or as a `file`; the capacity is what it occupies where none is given."""
    description.must_be_keys(table, where, ('file', 'data', 'capacity', 'lock', 'type'))
    if 'file' in table and 'data' in table:
        raise ValueError('%s: it takes either file or data' % where)
    if 'file' in table:
        data = description.content_of(table['file'], where, folder)
    else:
        data = description.hex_bytes(table.get('data', ''), where + '.data')
    lock, type_script = (other if table.get(it) is None else description.script_of(table[it], '%s.%s' % (where, it), folder)
                         for it, other in (('lock', LOCK), ('type', b'')))
    least = occupied(data, lock, type_script)
    capacity = description.number(table.get('capacity', least), where + '.capacity')
    if capacity < least:
        raise ValueError('%s: %d shannons do not hold the %d that it occupies, 10^8 for each byte: G7' % (where, capacity, least))
    return capacity, data, lock, type_script


def cells_of_words(options):
    """--output and --cell begin a cell, and the other options are of the cell before them."""
    tables = []
    for option, words in options:
        if option == '--output':
            tables.append({'capacity': words[0], 'data': words[1]})
        elif option == '--cell':
            tables.append({'file': words})
        elif not tables:
            raise ValueError('%s: it comes after the --cell or the --output that it is of' % option)
        else:
            tables[-1][option[2:]] = words if option == '--capacity' else description.script_of_words(words)
    return tuple(Cell(it.get('file'), output_of(it, '--cell' if 'file' in it else '--output')) for it in tables)


def cells_of_file(tables, path):
    if not isinstance(tables, list):
        raise ValueError('%s: cells: a list is wanted: in TOML, [[cells]] before each' % path)
    names = ['cells[%d]' % place for place in range(len(tables))]
    outputs = [output_of(it, '%s: %s' % (path, name), os.path.dirname(path)) for it, name in zip(tables, names)]
    return tuple(Cell(it.get('file', name), output) for it, name, output in zip(tables, names, outputs))


# --------------------------------------------------------- the description

FIELDS = tuple(it.name for it in dataclasses.fields(Spec))


@dataclasses.dataclass(frozen=True)
class Description:
    """What a specification and a genesis are made of; fields that are not there are those of `Spec`."""

    fields: dict
    timestamp: int = 1000
    cells: tuple = ()

    def spec(self):
        spec = Spec(**self.fields)
        if spec.broken():
            raise ValueError('the specification breaks %s: docs/RULES.md has what to look at' % spec.broken())
        return spec

    def genesis(self):
        outputs = [it.output for it in self.cells]
        if COIN + occupied(PROGRAM) + sum(it[0] for it in outputs) >= 1 << 64:
            raise ValueError('the cells hold 2^64 shannons or more together: give them less capacity')
        first = genesis(self.spec(), self.timestamp, outputs)
        if len(first.item()) > GENESIS_LIMIT:
            raise ValueError('the genesis is longer than %d bytes, all that `init` takes: leave something out' % GENESIS_LIMIT)
        return first

    def lines(self):
        """Of each cell that has a name."""
        tx_hash = ckbhash(self.genesis().transactions[0].raw())
        return [it.line(tx_hash, place) for place, it in enumerate(self.cells, 2) if it.name]


def value_of(name, value, where):
    """That of a field of the specification."""
    if name == 'dao_code_hash':
        return description.hex_bytes(value, where, 32)
    if name == 'maturity':
        return description.epochs(value, where)
    return description.number(value, where, Spec.SIZES[FIELDS.index(name)])


def description_of_file(path):
    """It has the fields of the specification, `timestamp` and `cells`, and paths from its folder on."""
    table = description.table_of(path, '--spec')
    description.must_be_keys(table, path, FIELDS + ('timestamp', 'cells'))
    return Description({it: value_of(it, table[it], '%s: %s' % (path, it)) for it in FIELDS if it in table},
                       description.number(table.get('timestamp', 1000), path + ': timestamp'),
                       cells_of_file(table.get('cells', []), path))


def description_of_words(a):
    """That of --spec, with what the other words say in its place and their cells after its own."""
    told = description_of_file(a.spec) if a.spec else Description({})
    words = {it: value for it, value in vars(a).items() if it in FIELDS}
    if a.window:
        words['w_close'], words['w_far'] = a.window
    fields = {it: value_of(it, value, '--' + it.replace('_', '-')) for it, value in words.items()}
    timestamp = told.timestamp if a.timestamp is None else description.number(a.timestamp, '--timestamp')
    return Description({**told.fields, **fields}, timestamp, told.cells + cells_of_words(a.cells))


# ---------------------------------------------------------------- the words

class Words(argparse.ArgumentParser):
    """Says in one line what is wrong with its words."""

    def error(self, message):
        self.fails(message + ' (--help has the words)')

    def fails(self, message):
        self.exit(2, '%s: %s\n' % (self.prog, message))


class InOrder(argparse.Action):
    """Keeps the options on cells in their order, each with its words."""

    def __call__(self, parser, namespace, words, option=None):
        namespace.cells = namespace.cells + [(self.option_strings[0], words)]


SCRIPT_WORDS = {'nargs': 3, 'metavar': ('CODE', 'HASH_TYPE', 'ARGS')}
CELL_OPTIONS = {
    '--output': ({'nargs': 2, 'metavar': ('CAPACITY', 'HEX')},
                 'adds a cell of so many shannons with this data, as --output 4300000000 0a0b'),
    '--cell': ({'metavar': 'FILE'}, 'adds a cell whose data is the file, and says how it is named'),
    '--capacity': ({'metavar': 'SHANNONS'}, 'of the cell before it, in place of what it occupies'),
    '--lock': (SCRIPT_WORDS, 'of the cell before it: a code hash or the file of the code, `data` or `type`, and args in hex'),
    '--type': (SCRIPT_WORDS, 'likewise its type script'),
}


def arguments():
    p = Words(description='Makes a specification and a genesis.')
    p.add_argument('--spec', metavar='FILE', help='a description in TOML or JSON, as examples/store.toml')
    for name in FIELDS:
        if name not in ('w_close', 'w_far', 'dao_code_hash'):
            p.add_argument('--' + name.replace('_', '-'), default=argparse.SUPPRESS)
    p.add_argument('--window', nargs=2, metavar=('CLOSE', 'FAR'))
    p.add_argument('--dao-code-hash', default=argparse.SUPPRESS, metavar='HEX')
    p.add_argument('--timestamp', help='of the genesis, in milliseconds')
    for option, (words, text) in CELL_OPTIONS.items():
        p.add_argument(option, dest='cells', action=InOrder, default=[], help=text, **words)
    return p, p.parse_args()


def write(path, content):
    with open(path, 'wb') as f:
        f.write(content)


def main():
    p, a = arguments()
    try:
        told = description_of_words(a)
        content, lines = told.spec().item() + told.genesis().item(), told.lines()
    except ValueError as error:
        p.fails(error)
    if sys.stdout.isatty():
        p.fails('the bytes go to a file or a pipe')
    for it in lines:
        print(it, file=sys.stderr)
    try:
        sys.stdout.buffer.write(content)
        sys.stdout.flush()
    except BrokenPipeError:
        # nothing is left to be written at the end
        os.dup2(os.open(os.devnull, os.O_WRONLY), sys.stdout.fileno())
        p.fails('what reads the bytes has ended')


if __name__ == '__main__':
    main()
