#!/usr/bin/env python3
"""Rows of crates/tx_vectors/stdin: transactions on small chains, each with its answer.

    python3 tests/rows/transactions.py

They stand after those of live_cells.py there.

For each way to break one of J18 and J20 to J27 there is a transaction that breaks
it, and one that just keeps it. The answers are written down here, case by case,
and owe nothing to the program: only hashes and encodings are computed.

A row is a word and its columns, with a tab between two, bytes in hex:

    spec         the specification of a new chain
    edition      the epoch from which on the second edition of the rules holds there
    genesis      its genesis
    block        the next block, and its ext
    shadow       an out-point that gets the row of another
    transaction  the answer, and a transaction alone after the last block
    within       the answer, the first transactions of the next block, and the whole
                 block: the one after them is tried

The answer is `ok FEE INTEREST DEPS HEADERS`, or `broken N`. DEPS has for each
resolved dep its index and the length of its data, HEADERS the places of the header
deps; each is - where there is none.
"""

from common import row_of

import encoding
from encoding import NULL_OUT_POINT, ZERO_HASH, as_bytes, cell_input, ckbhash, fixvec, header, out_point, raw_transaction, \
    table, transactions_root, uint
from make_store import SHANNONS, Spec

DAO_CODE = Spec.dao_code_hash
GREATEST = (1 << 64) - 1


# ---------------------------------------------------------------- encoding

def script(args=b'', code=b'\x11' * 32, hash_type=0):
    return encoding.script(code, hash_type, args)


DAO = script(code=DAO_CODE, hash_type=1)


def output(capacity, lock=None, type_script=b''):
    return encoding.cell_output(capacity, lock or script(), type_script)


def since_of(relative, metric, value):
    return relative << 63 | metric << 61 | value


def epochs(number, index=0, length=0):
    return number | index << 24 | length << 40


class Tx:
    """A transaction: by default version 0 with one output of 61 CKB and no data."""

    def __init__(self, inputs, outputs=None, data=None, deps=(), headers=(), witnesses=(), version=0):
        self.outputs = [output(61 * SHANNONS)] if outputs is None else outputs
        data = [b''] * len(self.outputs) if data is None else data
        self.raw = raw_transaction(
            [cell_input(point, since) for since, point in inputs], self.outputs, data,
            [point + bytes([kind]) for point, kind in deps], headers, version)
        self.item = encoding.transaction(self.raw, witnesses)
        self.hash = ckbhash(self.raw)

    def point(self, index):
        return out_point(self.hash, index)


def cellbase(number, outputs=()):
    return Tx([(number, NULL_OUT_POINT)], list(outputs))


def witness_args(input_type):
    return table([b'', as_bytes(input_type) if input_type is not None else b'', b''])


# ------------------------------------------------------------------- chains

class Chain:
    """A chain whose blocks keep what is needed to resolve transactions on them. Its rows are the cases."""

    def __init__(self, rows, genesis_outputs, genesis_data, timestamp=1000, edition=None, **fields):
        self.rows = rows
        self.spec = Spec(**fields)
        self.blocks = []
        self.heads = []
        self.row('spec', self.spec.item())
        if edition is not None:
            self.row('edition', edition)
        self.first = Tx([(0, NULL_OUT_POINT)], genesis_outputs, genesis_data)
        self.put('genesis', [self.first], timestamp, 10 ** 16)

    def row(self, *columns):
        self.rows.append(row_of(*columns))

    def block(self, txs, timestamp, rate=10 ** 16):
        number = len(self.blocks)
        parent = ckbhash(self.heads[-1]) if self.heads else ZERO_HASH
        items = [it.item for it in txs]
        head = header(number, parent, compact_target=self.spec.compact_target, timestamp=timestamp,
                      epoch=self.spec.epoch_field(number), transactions_root=transactions_root(items),
                      dao=(10 ** 15, rate, 0, 0), nonce=number)
        return head, encoding.block(head, items)

    def put(self, word, txs, timestamp, rate):
        head, item = self.block(txs, timestamp, rate)
        self.heads.append(head)
        self.blocks.append(item)
        # fees of 0, and no row: nothing that is tried here asks for them
        ext = uint(len(txs) - 1, 4) + bytes(8 * (len(txs) - 1)) + uint(0, 4)
        self.row(word, *([item] if word == 'genesis' else [item, ext]))

    def next(self, txs=(), outputs=(), timestamp=None, rate=10 ** 16):
        number = len(self.blocks)
        base = cellbase(number, outputs)
        self.put('block', [base, *txs], 1000 + 1000 * number if timestamp is None else timestamp, rate)
        return base

    def hash_at(self, height):
        return ckbhash(self.heads[height])

    def ok(self, tx, fee, interest=0, deps='-', headers='-'):
        self.row('transaction', 'ok %d %d %s %s' % (fee, interest, deps, headers), tx.item)

    def broken(self, rule, tx):
        self.row('transaction', 'broken %d' % rule, tx.item)

    def within(self, answer, txs, place, timestamp=None):
        """The transaction at a place of the next block."""
        timestamp = 1000 + 1000 * len(self.blocks) if timestamp is None else timestamp
        before = self.block(txs[:place], timestamp)[1]
        whole = self.block(txs, timestamp)[1]
        self.row('within', answer, before, whole)


# -------------------------------------------------------------------- cases

def form(rows):
    """J18."""
    chain = Chain(rows, [output(100 * SHANNONS) for _ in range(4)], [b''] * 4)
    chain.next()
    chain.next()
    at = chain.first.point
    a, b = [(0, at(0))], [(0, at(0)), (0, at(1))]
    fee = 39 * SHANNONS
    chain.ok(Tx(a), fee)
    chain.broken(18, Tx(a, version=1))
    chain.broken(18, Tx(a, version=1 << 31))
    chain.broken(18, Tx([]))
    chain.broken(18, Tx(a, outputs=[]))
    chain.broken(18, Tx(a, data=[]))
    chain.broken(18, Tx(a, data=[b'', b'']))
    two = [(at(1), 0), (at(2), 0)]
    chain.ok(Tx(a, deps=two), fee, deps='1/0,2/0')
    chain.broken(18, Tx(a, deps=two + [(at(1), 0)]))
    # another dep type is another dep; it is not resolved
    chain.broken(21, Tx(a, deps=[(at(1), 0), (at(1), 1)]))
    chain.ok(Tx(a, headers=[chain.hash_at(0), chain.hash_at(2)]), fee, headers='0,2')
    chain.broken(18, Tx(a, headers=[chain.hash_at(0), chain.hash_at(2), chain.hash_at(0)]))
    # J18 comes before J20
    chain.broken(18, Tx([(0, at(9))], version=1))
    # J20
    chain.ok(Tx(b), 139 * SHANNONS)
    chain.broken(20, Tx([(0, at(4))]))
    chain.broken(20, Tx([(0, out_point(b'\x22' * 32, 0))]))
    chain.broken(20, Tx(a + a))
    chain.broken(20, Tx(b + [(5, at(1))]))
    # before J21 and J24
    chain.broken(20, Tx([(since_of(0, 3, 0), at(4))], deps=[(at(9), 0)]))
    # a cell that a block spent
    spends = Tx([(0, at(3))], outputs=[output(61 * SHANNONS), output(39 * SHANNONS + 20 * SHANNONS)])
    chain.next([spends])
    chain.broken(20, Tx([(0, at(3))]))
    chain.ok(Tx([(0, spends.point(1))], outputs=[output(41 * SHANNONS)]), 18 * SHANNONS)


def deps(rows):
    """J21: dep types and groups."""
    cells = [output(10 ** 12) for _ in range(9)]
    first = Tx([(0, NULL_OUT_POINT)], cells[:3], [b'', b'code', b'\x01'])
    chain = Chain(rows, cells[:3], [b'', b'code', b'\x01'])
    assert chain.first.hash == first.hash
    at = chain.first.point
    group = fixvec([at(2), at(1)])
    makes = Tx([(0, at(0))], cells, [
        group,                                  # 0: a group of two
        fixvec([]),                             # 1: an empty one
        b'',                                    # 2: no data
        group + b'\0',                          # 3: a byte too many
        group[:-1],                             # 4: a byte too few
        fixvec([at(2), out_point(first.hash, 7)]),  # 5: a member that was never made
        fixvec([at(2), at(0)]),                 # 6: a member that is spent
        b'',                                    # 7
        b''])                                   # 8
    chain.next([makes])
    of = makes.point
    holds = Tx([(0, of(7))], cells[:2], [fixvec([of(0), at(1), of(0)]), fixvec([of(8)])])
    chain.next([holds])
    spend = [(0, of(8))]
    fee = 10 ** 12 - 61 * SHANNONS
    chain.ok(Tx(spend, deps=[(at(1), 0)]), fee, deps='1/4')
    chain.broken(21, Tx(spend, deps=[(at(0), 0)]))
    chain.broken(21, Tx(spend, deps=[(at(3), 0)]))
    chain.broken(21, Tx(spend, deps=[(at(1), 2)]))
    chain.broken(21, Tx(spend, deps=[(at(1), 255)]))
    # members stand in the group's place, and the group's own cell is none
    chain.ok(Tx(spend, deps=[(at(1), 0), (of(0), 1), (at(2), 0)]), fee, deps='1/4,2/1,1/4,2/1')
    chain.ok(Tx(spend, deps=[(of(0), 0)]), fee, deps='0/%d' % len(group))
    for place in (1, 2, 3, 4, 5, 6):
        chain.broken(21, Tx(spend, deps=[(of(place), 1)]))
    # a plain dep may be any of these cells
    chain.ok(Tx(spend, deps=[(of(1), 0), (of(6), 0)]), fee, deps='1/4,6/76')
    # a group as a member is a plain cell, and the same member twice is two deps
    chain.ok(Tx(spend, deps=[(holds.point(0), 1)]), fee, deps='0/%d,1/4,0/%d' % (len(group), len(group)))
    # a dep may be a cell that the transaction spends, also in a group
    chain.ok(Tx(spend, deps=[(of(8), 0), (holds.point(1), 1)]), fee, deps='8/0,8/0')
    # before J22
    chain.broken(21, Tx(spend, deps=[(of(1), 1)], headers=[b'\x33' * 32]))


def headers_and_maturity(rows):
    """J22 and J23, with a maturity of three blocks."""
    chain = Chain(rows, [output(100 * SHANNONS)] * 3, [b''] * 3, maturity=epochs(0, 3, 10))
    at = chain.first.point
    paid = [chain.next(outputs=[output(200 * SHANNONS)]) for _ in range(5)]
    # the transaction stands at height 6
    spend = [(0, at(0))]
    fee = 39 * SHANNONS
    chain.ok(Tx(spend, headers=[chain.hash_at(3)]), fee, headers='3')
    chain.broken(22, Tx(spend, headers=[chain.hash_at(4)]))
    chain.broken(22, Tx(spend, headers=[chain.hash_at(5)]))
    chain.ok(Tx(spend, headers=[chain.hash_at(0), chain.hash_at(2)]), fee, headers='0,2')
    chain.broken(22, Tx(spend, headers=[chain.hash_at(3), b'\x44' * 32]))
    # the cellbase of block 3 and of block 4
    chain.ok(Tx([(0, paid[2].point(0))]), 139 * SHANNONS)
    chain.broken(23, Tx([(0, paid[3].point(0))]))
    chain.ok(Tx(spend, deps=[(paid[2].point(0), 0)]), fee, deps='0/0')
    chain.broken(23, Tx(spend, deps=[(paid[4].point(0), 0)]))
    # outputs of genesis, and of other transactions, never wait
    chain.ok(Tx([(0, at(1))]), fee)
    groups = Tx([(0, at(2))], [output(100 * SHANNONS + 99 * 10 ** 12), output(10 ** 12)],
                [fixvec([paid[4].point(0)]), fixvec([paid[2].point(0)])])
    # before J24
    chain.broken(23, Tx([(since_of(0, 3, 0), paid[4].point(0))]))
    chain.next([groups])
    # at height 7: block 5's cellbase waits, in a group too, and block 4's does not
    chain.broken(23, Tx(spend, deps=[(groups.point(0), 1)]))
    chain.ok(Tx(spend, deps=[(groups.point(1), 1), (paid[3].point(0), 0), (groups.point(1), 0)]), fee,
             deps='0/0,0/0,1/40')
    early = Chain(rows, [output(100 * SHANNONS)], [b''], maturity=epochs(0, 3, 10))
    early.next()
    # genesis as a header dep waits too: at height 2, and at height 3
    early.broken(22, Tx([(0, early.first.point(0))], headers=[early.hash_at(0)]))
    early.next()
    early.ok(Tx([(0, early.first.point(0))], headers=[early.hash_at(0)]), fee, headers='0')


def sinces(rows):
    """J24. A cell of genesis and one of height 2, spent at height 12."""
    chain = Chain(rows, [output(100 * SHANNONS)] * 2, [b''] * 2, timestamp=5000)
    made = Tx([(0, chain.first.point(0))], [output(100 * SHANNONS)])
    # timestamps 5000 7000 6000 9000 8000 11000 10000 13000 12000 15000 14000 20500
    times = [7000, 6000, 9000, 8000, 11000, 10000, 13000, 12000, 15000, 14000, 20500]
    for number, time in enumerate(times, 1):
        chain.next([made] if number == 2 else [], timestamp=time)
    # medians: at block 11 of all twelve the seventh, 11000; at block 1 of 5000 and 7000 the second, 7000
    cell, old = made.point(0), chain.first.point(1)
    fee = 39 * SHANNONS

    def tries(met, point, relative, metric, value, reserved=0):
        since = since_of(relative, metric, value) | reserved << 56
        tx = Tx([(since, point)])
        chain.ok(tx, fee) if met else chain.broken(24, tx)

    number, epoch, seconds = 0, 1, 2
    tries(True, cell, 0, number, 0)
    tries(True, cell, 0, number, 12)
    tries(False, cell, 0, number, 13)
    tries(False, cell, 0, number, (1 << 56) - 1)
    tries(True, cell, 1, number, 0)
    tries(True, cell, 1, number, 10)
    tries(False, cell, 1, number, 11)
    tries(True, old, 1, number, 12)
    tries(False, old, 1, number, 13)
    tries(True, cell, 0, epoch, epochs(1, 2, 10))
    tries(False, cell, 0, epoch, epochs(1, 3, 10))
    tries(True, cell, 0, epoch, epochs(1, 1, 5))
    tries(False, cell, 0, epoch, epochs(1, 1, 4))
    tries(True, cell, 0, epoch, epochs(1))
    tries(False, cell, 0, epoch, epochs(2))
    tries(True, cell, 1, epoch, epochs(1))
    tries(True, cell, 1, epoch, epochs(0, 9, 10))
    tries(False, cell, 1, epoch, epochs(1, 1, 100))
    tries(True, old, 1, epoch, epochs(1, 2, 10))
    tries(False, old, 1, epoch, epochs(1, 3, 10))
    # an epoch value that is not well formed
    tries(False, cell, 0, epoch, epochs(0, 10, 10))
    tries(False, cell, 0, epoch, epochs(0, 1, 0))
    tries(False, cell, 1, epoch, epochs(0, 5, 5))
    tries(True, cell, 0, seconds, 11)
    tries(False, cell, 0, seconds, 12)
    tries(False, cell, 0, seconds, (1 << 56) - 1)
    tries(True, cell, 1, seconds, 4)
    tries(False, cell, 1, seconds, 5)
    # from the genesis' own timestamp, 5000
    tries(True, old, 1, seconds, 6)
    tries(False, old, 1, seconds, 7)
    # no metric, and reserved bits
    tries(False, cell, 0, 3, 0)
    tries(False, cell, 1, 3, 0)
    for bit in range(5):
        tries(False, cell, 0, number, 0, reserved=1 << bit)
    # each input by itself, and before J25
    chain.broken(24, Tx([(0, old), (since_of(1, 0, 11), cell)]))
    chain.broken(24, Tx([(since_of(0, 3, 0), cell)], [output(SHANNONS)]))
    # a cell made at height 20 with a since of 100 blocks, at heights 119 and 120
    long = Chain(rows, [output(100 * SHANNONS)], [b''])
    late = Tx([(0, long.first.point(0))], [output(100 * SHANNONS)])
    for number in range(1, 119):
        long.next([late] if number == 20 else [])
    waits = Tx([(0x8000000000000064, late.point(0))])
    long.broken(24, waits)
    long.next()
    long.ok(waits, fee)
    long.broken(24, Tx([(0x6000000000000000, late.point(0))]))


def outputs(rows):
    """J25, and the sums of J27."""
    chain = Chain(rows, [output(41 * SHANNONS), output(10 ** 12), output(GREATEST), output(GREATEST - 5 * 10 ** 9),
                         output(5 * 10 ** 9), output(5 * 10 ** 9 + 1)], [b''] * 6)
    chain.next()
    at = chain.first.point

    def of(point, *cells, **more):
        return Tx([(0, it) for it in (point if isinstance(point, list) else [point])], [it[0] for it in cells],
                  [it[1] for it in cells], **more)

    # the output of 41 CKB with empty args and no data is full
    chain.ok(of(at(0), (output(41 * SHANNONS), b'')), 0)
    chain.broken(25, of(at(0), (output(41 * SHANNONS - 1), b'')))
    chain.broken(25, of(at(1), (output(41 * SHANNONS), b'\0')))
    chain.ok(of(at(1), (output(42 * SHANNONS), b'\0')), 10 ** 12 - 42 * SHANNONS)
    chain.ok(of(at(1), (output(44 * SHANNONS, script(b'abc')), b'')), 10 ** 12 - 44 * SHANNONS)
    chain.broken(25, of(at(1), (output(44 * SHANNONS - 1, script(b'abc')), b'')))
    typed = output(41 * SHANNONS + 36 * SHANNONS, None, script(b'abc'))
    chain.ok(of(at(1), (typed, b'')), 10 ** 12 - 77 * SHANNONS)
    chain.broken(25, of(at(1), (output(77 * SHANNONS - 1, None, script(b'abc')), b'')))
    # the last output too, and its own data
    chain.broken(25, of(at(1), (output(42 * SHANNONS), b''), (output(41 * SHANNONS), b'\0')))
    chain.broken(25, of(at(1), (output(41 * SHANNONS), b'\0'), (output(42 * SHANNONS), b'')))
    # J27: the outputs hold no more than the inputs count
    chain.broken(27, of(at(0), (output(41 * SHANNONS + 1), b'')))
    chain.broken(27, of(at(1), (output(10 ** 12 - 41 * SHANNONS), b''), (output(41 * SHANNONS + 1), b'')))
    chain.ok(of(at(1), (output(10 ** 12 - 41 * SHANNONS), b''), (output(41 * SHANNONS), b'')), 0)
    # the greatest sum of the inputs, and one above it
    chain.ok(of(at(2), (output(GREATEST), b'')), 0)
    chain.ok(of([at(3), at(4)], (output(GREATEST), b'')), 0)
    chain.broken(27, of([at(3), at(5)], (output(GREATEST), b'')))
    chain.broken(27, of([at(3), at(5)], (output(41 * SHANNONS), b'')))
    # a sum of the outputs that would wrap to little
    chain.broken(27, of(at(2), (output(GREATEST), b''), (output(41 * SHANNONS), b'')))
    # before J27
    chain.broken(25, of(at(0), (output(41 * SHANNONS + 1), b''), (output(0), b'')))
    # an output whose out-point is live; only by a row that was put there
    shadows = of(at(1), (output(10 ** 11), b''), (output(10 ** 11), b''))
    chain.ok(shadows, 8 * 10 ** 11)
    chain.row('shadow', shadows.point(2), at(1))
    chain.ok(shadows, 8 * 10 ** 11)
    chain.row('shadow', shadows.point(1), at(1))
    chain.broken(25, shadows)


def withdrawals(rows):
    """J26, and what a withdrawal counts."""
    c = 182 * SHANNONS
    chain = Chain(rows, [output(c, None, DAO)] * 6 + [output(10 ** 12)], [bytes(8)] * 6 + [b''])
    at = chain.first.point
    data = uint(7, 8)
    one = Tx([(0, at(0)), (0, at(1))], [output(c, None, DAO)] * 2, [data, uint(1, 8)])
    # cells that are none to withdraw: a deposit, other data, another code, another hash type
    other = Tx([(0, at(2)), (0, at(6))],
               [output(c, None, DAO), output(c, None, DAO), output(c, None, script(code=DAO_CODE, hash_type=0)),
                output(c, None, script(code=b'\xdb' * 32, hash_type=1))], [bytes(8), uint(7, 9), data, data])
    chain.next(rate=10_000_000_000_000_000)
    chain.next([one, other], rate=10_001_000_000_000_000)
    chain.next(rate=10_002_000_000_000_000)
    deposit, made, later = (chain.hash_at(it) for it in (0, 2, 3))
    gone = 18_201_000_000
    spend = [(0, one.point(0))]
    out = [output(61 * SHANNONS)]

    def by(headers, witness, inputs=spend, cells=out):
        return Tx(inputs, cells, headers=headers, witnesses=[] if witness is None else witness)

    def index(n):
        return [witness_args(uint(n, 8))]

    fee = gone - 61 * SHANNONS
    chain.ok(by([deposit, made], index(0)), fee, gone - c, headers='0,2')
    chain.ok(by([made, deposit], index(1)), fee, gone - c, headers='2,0')
    # the header of the block that made the cell is not named
    chain.broken(26, by([deposit], index(0)))
    chain.broken(26, by([deposit, later], index(0)))
    # no witness, one that is no `WitnessArgs`, without the field, with another length
    chain.broken(26, by([deposit, made], None))
    chain.broken(26, by([deposit, made], [b'']))
    chain.broken(26, by([deposit, made], [index(0)[0] + b'\0']))
    chain.broken(26, by([deposit, made], [witness_args(None)]))
    chain.broken(26, by([deposit, made], [witness_args(uint(0, 7))]))
    chain.broken(26, by([deposit, made], [witness_args(uint(0, 9))]))
    # an index past the header deps, and one that is a multiple of 2^32 above it
    chain.broken(26, by([deposit, made], index(2)))
    chain.broken(26, by([deposit, made], index(1 << 32)))
    # the header at the index is not below that of the block that made the cell
    chain.broken(26, by([deposit, made], index(1)))
    chain.broken(26, by([deposit, made, later], index(2)))
    # a deposit of block 1, whose rate is the same
    chain.ok(by([chain.hash_at(1), made], index(0)), fee, gone - c, headers='1,2')
    # the witness at the input's own place
    two = [(0, other.point(0)), (0, one.point(0))]
    chain.ok(by([deposit, made], [b'', *index(0)], two), fee + c, gone - c, headers='0,2')
    chain.broken(26, by([deposit, made], [*index(0), b''], two))
    both = [(0, one.point(0)), (0, one.point(1))]
    chain.ok(by([deposit, made], index(0) * 2, both), fee + gone, 2 * (gone - c), headers='0,2')
    chain.broken(26, by([deposit, made], index(0), both))
    # J27: a withdrawal counts its interest, and no more
    chain.ok(by([deposit, made], index(0), cells=[output(gone)]), 0, gone - c, headers='0,2')
    chain.broken(27, by([deposit, made], index(0), cells=[output(gone + 1)]))
    # a deposit and cells that look like it count their capacity
    for place in range(4):
        chain.ok(Tx([(0, other.point(place))], out), c - 61 * SHANNONS)
        chain.broken(27, Tx([(0, other.point(place))], [output(c + 1)]))
    # a rate that fell: from 10^16 to half of it
    low = Chain(rows, [output(c, None, DAO)] * 1, [bytes(8)])
    made_low = Tx([(0, low.first.point(0))], [output(c, None, DAO)], [data])
    low.next([made_low], rate=5 * 10 ** 15)
    halved = 82 * SHANNONS + 50 * SHANNONS
    low.ok(Tx([(0, made_low.point(0))], out, headers=[low.hash_at(0), low.hash_at(1)], witnesses=index(0)),
           halved - 61 * SHANNONS, halved - c, headers='0,1')
    # a rate that takes what is counted past the greatest u64
    high = Chain(rows, [output(GREATEST, None, DAO)], [bytes(8)])
    made_high = Tx([(0, high.first.point(0))], [output(GREATEST, None, DAO)], [data])
    high.next([made_high], rate=10 ** 16 + 1)
    high.broken(27, Tx([(0, made_high.point(0))], out, headers=[high.hash_at(0), high.hash_at(1)], witnesses=index(0)))


def in_a_block(rows):
    """What the transactions before it in its block left."""
    c = 182 * SHANNONS
    chain = Chain(rows, [output(100 * SHANNONS), output(200 * SHANNONS), output(c, None, DAO)], [b'', b'', bytes(8)])
    chain.next()
    at = chain.first.point
    base = cellbase(2, [output(300 * SHANNONS)])
    one = Tx([(0, at(0))], [output(100 * SHANNONS)])
    two = Tx([(0, one.point(0))])
    fee = 39 * SHANNONS
    chain.within('ok 0 0 - -', [base, one, two], 1)
    chain.within('ok %d 0 - -' % fee, [base, one, two], 2)
    # one that comes later is not seen, and one that is spent is gone
    chain.within('broken 20', [base, two, one], 1)
    again = Tx([(0, at(0))])
    chain.within('broken 20', [base, one, again], 2)
    # a dep of the block's own, and one that is gone
    chain.within('ok %d 0 0/0 -' % (139 * SHANNONS), [base, one, Tx([(0, at(1))], deps=[(one.point(0), 0)])], 2)
    chain.within('broken 21', [base, one, Tx([(0, at(1))], deps=[(at(0), 0)])], 2)
    # the cellbase's own output, which waits where there is a maturity
    chain.within('ok %d 0 - -' % (239 * SHANNONS), [base, Tx([(0, base.point(0))])], 1)
    # made at this height: no block has passed since
    chain.within('ok %d 0 - -' % fee, [base, one, Tx([(since_of(1, 0, 0), one.point(0))])], 2)
    chain.within('broken 24', [base, one, Tx([(since_of(1, 0, 1), one.point(0))])], 2)
    chain.within('broken 24', [base, one, Tx([(since_of(1, 1, epochs(0, 1, 10)), one.point(0))])], 2)
    chain.within('ok %d 0 - -' % fee, [base, one, Tx([(since_of(1, 2, 0), one.point(0))])], 2)
    chain.within('broken 24', [base, one, Tx([(since_of(1, 2, 1), one.point(0))])], 2)
    # a withdrawal of a cell of this block names no header of it
    makes = Tx([(0, at(2))], [output(c, None, DAO)], [uint(1, 8)])
    takes = Tx([(0, makes.point(0))], headers=[chain.hash_at(0), chain.hash_at(1)], witnesses=[witness_args(uint(0, 8))])
    chain.within('ok 0 0 - -', [base, makes, takes], 1)
    chain.within('broken 26', [base, makes, takes], 2)
    waits = Chain(rows, [output(100 * SHANNONS)], [b''], maturity=epochs(0, 1, 10))
    waits.next()
    paid = cellbase(2, [output(300 * SHANNONS)])
    waits.within('broken 23', [paid, Tx([(0, paid.point(0))])], 1)


def young(rows):
    """A chain of one block, with a maturity of three: what does not wait, and what comes before J23."""
    chain = Chain(rows, [output(100 * SHANNONS)] * 2, [b''] * 2, maturity=epochs(0, 3, 10))
    at = chain.first.point
    paid = chain.next(outputs=[output(200 * SHANNONS)])
    fee = 39 * SHANNONS
    chain.ok(Tx([(0, at(0))]), fee)
    chain.ok(Tx([(0, at(0))], deps=[(at(1), 0)]), fee, deps='1/0')
    waits = (0, paid.point(0))
    chain.broken(23, Tx([waits]))
    chain.broken(18, Tx([waits], version=1))
    chain.broken(20, Tx([waits, (0, at(9))]))
    chain.broken(20, Tx([waits, waits]))
    chain.broken(21, Tx([waits], deps=[(at(9), 0)]))
    chain.broken(22, Tx([waits], headers=[chain.hash_at(1)]))


def starts(rows):
    """The median at the parent of the block that made the cell, which is not the parent's own timestamp."""
    chain = Chain(rows, [output(100 * SHANNONS)] * 3, [b''] * 3, timestamp=5000)
    made = Tx([(0, chain.first.point(0))], [output(100 * SHANNONS)])
    for number, time in enumerate([7000, 6000, 9000, 8000, 11000, 10000, 13000, 12000, 15000, 14000, 20500], 1):
        chain.next([made] if number == 4 else [], timestamp=time)
    # at block 3 the median of 5000, 7000, 6000 and 9000 is 7000; at block 11 it is 11000
    fee = 39 * SHANNONS
    chain.ok(Tx([(since_of(1, 2, 4), made.point(0))]), fee)
    chain.broken(24, Tx([(since_of(1, 2, 5), made.point(0))]))
    # bit 55 is one of the value
    chain.broken(24, Tx([(since_of(0, 0, 1 << 55), made.point(0))]))
    # equal inputs with another between them
    at = chain.first.point
    chain.broken(20, Tx([(0, at(1)), (0, at(2)), (0, at(1))]))
    # of 41 blocks the last 37 count: the 19th of them is block 22
    long = Chain(rows, [output(100 * SHANNONS)], [b''])
    for _ in range(40):
        long.next()
    long.ok(Tx([(since_of(0, 2, 23), long.first.point(0))]), fee)
    long.broken(24, Tx([(since_of(0, 2, 24), long.first.point(0))]))


def rounding(rows):
    """A withdrawal rounds down; and what comes before J26 and J27."""
    c = 182 * SHANNONS
    chain = Chain(rows, [output(c, None, DAO)] * 2, [bytes(8)] * 2)
    # its data begins with a zero byte
    one = Tx([(0, chain.first.point(0))], [output(c, None, DAO)], [uint(256, 8)])
    chain.next()
    chain.next([one], rate=10_001_000_000_000_001)
    chain.next(rate=10_002_000_000_000_000)
    gone = 18_201_000_000
    named = {'headers': [chain.hash_at(0), chain.hash_at(2)], 'witnesses': [witness_args(uint(0, 8))]}
    spend = [(0, one.point(0))]
    chain.ok(Tx(spend, [output(gone)], **named), 0, gone - c, headers='0,2')
    chain.broken(27, Tx(spend, [output(gone + 1)], **named))
    chain.broken(26, Tx(spend, [output(61 * SHANNONS)]))
    chain.broken(24, Tx([(since_of(0, 3, 0), one.point(0))], [output(61 * SHANNONS)]))
    chain.broken(25, Tx(spend, [output(SHANNONS)]))
    chain.broken(26, Tx(spend, [output(c + 1)]))


SECOND, RELATIVE = 2, 1
THREE_SECONDS = 0xc000000000000003


def slow_times(time):
    """Block 5 has a timestamp of 10,000, and its parent a median time of 5,000. The median time at block 11 is this one."""
    times = [4998, 4999, 5000, 5001, 5002, 10_000, *[time] * 4, time + 1, time + 2]
    medians = [sorted(times[:count])[count // 2] for count in range(1, len(times) + 1)]
    # J8 is kept
    assert all(median < later for median, later in zip(medians, times[1:]))
    assert medians[4] == 5000 and medians[11] == time
    return times


def editions_of_sinces(rows):
    """J24 by the edition: a cell counts from the median time at the parent of its block, or from the timestamp of its block."""
    fee = 39 * SHANNONS

    def tries(met, time, edition):
        times = slow_times(time)
        chain = Chain(rows, [output(100 * SHANNONS)] * 2, [b''] * 2, timestamp=times[0], edition=edition, epoch_length=4)
        made = Tx([(0, chain.first.point(0))], [output(100 * SHANNONS)])
        for number, its_time in enumerate(times[1:], 1):
            chain.next([made] if number == 5 else [], timestamp=its_time)
        spends = Tx([(THREE_SECONDS, made.point(0))])
        chain.ok(spends, fee) if met else chain.broken(24, spends)
        return chain

    # spent at height 12, in epoch 3
    for edition in (None, 4, GREATEST):
        tries(True, 8_000, edition)
        tries(False, 7_999, edition)
    for edition in (0, 1, 3):
        tries(True, 13_000, edition)
        tries(False, 12_999, edition)
        tries(False, 8_000, edition)
    # the genesis' own timestamp is that of its block
    chain = tries(True, 13_000, 3)
    old = chain.first.point(1)
    chain.ok(Tx([(since_of(RELATIVE, SECOND, 8), old)]), fee)
    chain.broken(24, Tx([(since_of(RELATIVE, SECOND, 9), old)]))
    # the other sinces count as before
    chain.ok(Tx([(since_of(0, SECOND, 13), old)]), fee)
    chain.broken(24, Tx([(since_of(0, SECOND, 14), old)]))
    chain.ok(Tx([(since_of(RELATIVE, 0, 12), old)]), fee)
    chain.broken(24, Tx([(since_of(RELATIVE, 0, 13), old)]))
    # A cell of the same block counts from the block's own timestamp, which is above the median time where J8 is kept.
    for edition in (None, 3):
        chain = tries(True, 13_000, edition)
        one = Tx([(0, chain.first.point(1))], [output(100 * SHANNONS)])
        txs = [cellbase(12), one, Tx([(since_of(RELATIVE, SECOND, 0), one.point(0))])]
        met, late = ('ok %d 0 - -' % fee, 'broken 24') if edition else ('ok %d 0 - -' % fee,) * 2
        chain.within(met, txs, 2, timestamp=13_000)
        chain.within(late, txs, 2, timestamp=13_001)
        chain.within(late, txs, 2, timestamp=GREATEST)


def editions_of_headers(rows):
    """J22 by the edition, with a maturity of four epochs."""
    fee = 39 * SHANNONS
    chain = Chain(rows, [output(100 * SHANNONS)] * 2, [b''] * 2, edition=2, epoch_length=3, maturity=epochs(4))
    spend = [(0, chain.first.point(0))]
    for _ in range(3):
        chain.next()
    paid = chain.next(outputs=[output(200 * SHANNONS)])
    # at height 5, in epoch 1
    chain.broken(22, Tx(spend, headers=[chain.hash_at(4)]))
    chain.broken(22, Tx(spend, headers=[chain.hash_at(0)]))
    chain.next()
    # at height 6, in epoch 2
    chain.ok(Tx(spend, headers=[chain.hash_at(5)]), fee, headers='5')
    chain.ok(Tx(spend, headers=[chain.hash_at(0), chain.hash_at(4)]), fee, headers='0,4')
    chain.broken(22, Tx(spend, headers=[chain.hash_at(5), b'\x44' * 32]))
    # a cellbase output waits as before
    chain.broken(23, Tx([(0, paid.point(0))], headers=[chain.hash_at(5)]))
    chain.broken(23, Tx(spend, deps=[(paid.point(0), 0)]))
    chain.within('ok %d 0 - 5' % fee, [cellbase(6), Tx(spend, headers=[chain.hash_at(5)])], 1)
    # from the first epoch on, and never
    for edition, wanted in ((0, 'ok %d 0 - 1' % fee), (None, 'broken 22'), (GREATEST, 'broken 22')):
        chain = Chain(rows, [output(100 * SHANNONS)], [b''], edition=edition, epoch_length=3, maturity=epochs(4))
        chain.next()
        chain.row('transaction', wanted, Tx([(0, chain.first.point(0))], headers=[chain.hash_at(1)]).item)


def main():
    rows = []
    for cases in (form, deps, headers_and_maturity, young, sinces, starts, outputs, withdrawals, rounding, in_a_block,
                  editions_of_sinces, editions_of_headers):
        cases(rows)
    print('\n'.join(rows))


if __name__ == '__main__':
    main()
