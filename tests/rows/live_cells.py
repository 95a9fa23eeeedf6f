#!/usr/bin/env python3
"""Rows of crates/tx_vectors/stdin on live cells: blocks that fit them or do not, each
with the line that it must be answered with, and the rows that are then live.

    python3 tests/rows/live_cells.py

They are the first of that file. A row is `state`, what is wanted, and bytes in
hex, with a tab between two:

    genesis             a Block: live cells begin with its cells
    ok PLACE, not_live PLACE OUTPOINT, live PLACE OUTPOINT
                        a Block: what it is answered at that place
    load COUNT          so many made-up rows are added
    rows COUNT HASH     how many rows there are, and the hash of all in order
    row HASH, none      an out-point: the hash of its row
    undone PLACE, live PLACE OUTPOINT
                        a Block and an ext: what taking it back is answered

A row is hashed as docs/STORE.md has its bytes. The cells are kept in a dict, as
docs/RULES.md ("Cells") and docs/STORE.md say; nothing is taken from the program.
"""

import common  # noqa: F401 (finds encoding)

import encoding
from encoding import NULL_OUT_POINT as NULL
from encoding import ZERO_HASH, cell_input, cell_output, ckbhash, data_hash, fixvec, header, number_of, raw_transaction, uint

BYTE = 10 ** 8


# ------------------------------------------------------------------- values

def script(args, code=b'\x11' * 32, hash_type=0):
    return encoding.script(code, hash_type, args)


class Output:
    def __init__(self, capacity, lock_args=b'', type_args=None, content=b''):
        self.capacity = capacity
        self.lock = script(lock_args)
        self.type = None if type_args is None else script(type_args, b'\x22' * 32, 1)
        self.content = content
        self.occupied = (8 + 33 + len(lock_args) + (0 if type_args is None else 33 + len(type_args)) + len(content)) * BYTE

    def bytes(self):
        return cell_output(self.capacity, self.lock, self.type or b'')


def transaction(spends, outputs, datas=None, version=0, witness=b''):
    """The bytes of a transaction, and what it does."""
    datas = [o.content for o in outputs] if datas is None else datas
    raw = raw_transaction(list(map(cell_input, spends)), [o.bytes() for o in outputs], datas, version=version)
    return encoding.transaction(raw, [witness] if witness else []), (ckbhash(raw), spends, outputs, datas)


def block(transactions, number=7):
    return encoding.block(header(number, compact_target=7, timestamp=9), [t[0] for t in transactions])


def cellbase(n, outputs=(), spends=(NULL,)):
    return transaction(list(spends), list(outputs), version=n)


def out_point(t, index):
    return encoding.out_point(t[1][0], index)


# -------------------------------------------------------------------- state

def row(o, place, tx, output, content):
    type_bytes = b'\0' + ZERO_HASH if output.type is None else b'\1' + ckbhash(output.type)
    occupied = output.occupied + (len(content) - len(output.content)) * BYTE
    return (o + uint(place, 4) + uint(tx, 4) + uint(output.capacity, 8) + uint(occupied, 8) + ckbhash(output.lock)
            + type_bytes + data_hash(content) + uint(len(content), 4))


def order(o):
    return o[:32], number_of(o[32:])


def named(o):
    return '%s:%d' % (o[:32].hex(), number_of(o[32:]))


class Cells:
    def __init__(self):
        self.rows = {}

    def genesis(self, transactions):
        self.rows = {}
        for tx, (_, (tx_hash, _, outputs, datas)) in enumerate(transactions):
            self.make(0, tx, tx_hash, outputs, datas, False)
        print('state\tgenesis\t' + block(transactions, 0).hex())

    def make(self, place, tx, tx_hash, outputs, datas, tried):
        for i, output in enumerate(outputs):
            o = tx_hash + uint(i, 4)
            if tried and o in self.rows:
                return 'live %d %s' % (place, named(o))
            self.rows[o] = row(o, place, tx, output, datas[i] if i < len(datas) else b'')
        return None

    def tried(self, place, transactions):
        for tx, (_, (tx_hash, spends, outputs, datas)) in enumerate(transactions):
            for o in (spends if tx > 0 else []):
                if o not in self.rows:
                    return 'not_live %d %s' % (place, named(o))
                del self.rows[o]
            odd = self.make(place, tx, tx_hash, outputs, datas, True)
            if odd:
                return odd
        return None

    def apply(self, place, transactions, number=7):
        before = dict(self.rows)
        odd = self.tried(place, transactions)
        if odd:
            self.rows = before
        print('state\t%s\t%s' % (odd or 'ok %d' % place, block(transactions, number).hex()))
        self.all()

    def spent(self, transactions):
        """The rows of the live cells that transactions spend, in the order of spending."""
        left, spent = dict(self.rows), []
        for tx, (_, (tx_hash, spends, outputs, _)) in enumerate(transactions):
            for o in (spends if tx > 0 else []):
                if o in left:
                    spent.append(left.pop(o))
            for i in range(len(outputs)):
                left.pop(tx_hash + uint(i, 4), None)
        return spent

    def undo(self, place, transactions, spent):
        rows, odd = dict(self.rows), None
        for _, (tx_hash, _, outputs, _) in transactions:
            for i in range(len(outputs)):
                rows.pop(tx_hash + uint(i, 4), None)
        for row in spent:
            if row[:36] in rows:
                odd = 'live %d %s' % (place, named(row[:36]))
                break
            rows[row[:36]] = row
        if not odd:
            self.rows = rows
        fees = fixvec([uint(0, 8) for _ in transactions[1:]])
        print('state\t%s\t%s\t%s' % (odd or 'undone %d' % place, block(transactions).hex(), (fees + fixvec(spent)).hex()))
        self.all()

    def all(self):
        rows = [self.rows[o] for o in sorted(self.rows, key=order)]
        print('state\trows %d %s\t' % (len(rows), ckbhash(b''.join(rows)).hex()))

    def row(self, o):
        print('state\t%s\t%s' % ('row ' + ckbhash(self.rows[o]).hex() if o in self.rows else 'none', o.hex()))

    def load(self, count):
        for i in range(count):
            tx_hash = ckbhash(uint(i // 4, 4))
            o = tx_hash + uint((3, 70000, 256, 1)[i % 4], 4)
            type_bytes = b'\1' + tx_hash if i % 2 == 0 else b'\0' + ZERO_HASH
            self.rows.setdefault(o, o + uint(i % 1000, 4) + uint(i % 7, 4) + uint(i * 1000000007, 8) + uint(i * 1009, 8)
                                 + ckbhash(uint(i, 4)) + type_bytes + ZERO_HASH + uint(i, 4))
        print('state\tload %d\t' % count)


# --------------------------------------------------------------------- rows

def taken_back(first, second):
    cells = Cells()
    cells.genesis([first, second])
    base = cellbase(30, [Output(70 * BYTE, b'base')])
    made = transaction([out_point(first, 0)], [Output(10 ** 10, b'x'), Output(2 * 10 ** 10, b'y')])
    free = transaction([], [Output(6 * BYTE, b'f'), Output(7 * BYTE, b'g')])
    blocks = [
        [base],
        [],
        # made and spent in the block
        [cellbase(31), made, transaction([out_point(made, 1), out_point(first, 1)], [Output(BYTE, b'z')])],
        [cellbase(32), free],
        # spent and made again
        [cellbase(33), transaction([out_point(free, 0), out_point(base, 0)], [Output(BYTE, b'1')]),
         transaction([out_point(free, 1)], []), free],
        # spent, made again and spent again
        [cellbase(34), transaction([out_point(free, 1), out_point(free, 0)], [Output(BYTE, b'2')]), free,
         transaction([out_point(free, 0)], [Output(BYTE, b'3')])],
        # made again over two blocks
        [cellbase(35), transaction([out_point(free, 1)], [Output(BYTE, b'4')])],
        [base, free],
    ]
    exts = []
    for place, transactions in enumerate(blocks, 1):
        exts.append(cells.spent(transactions))
        cells.apply(place, transactions)
    for place in range(len(blocks), 0, -1):
        cells.undo(place, blocks[place - 1], exts[place - 1])
        for o in (out_point(first, 0), out_point(free, 0), out_point(free, 1)):
            cells.row(o)

    # rows that find their out-point live: the first of two, one that stands twice, one after a row that fits
    rows = [cells.rows[o] for o in sorted(cells.rows, key=order)]
    gone = cells.rows[out_point(first, 0)]
    cells.apply(1, [cellbase(36), transaction([out_point(first, 0)], [Output(BYTE, b'5')])])
    there = [row for row in rows if row != gone]
    for spent in ([there[1], there[0]], [there[0], there[1]], [gone, gone], [gone, there[0], gone]):
        cells.undo(1, [cellbase(36), transaction([out_point(first, 0)], [Output(BYTE, b'5')])], spent)
    cells.row(out_point(first, 0))
    # a row of what the block makes is put back: that is dropped before
    again = cellbase(37, [Output(BYTE, b'6')])
    cells.apply(2, [again])
    own = cells.rows[out_point(again, 0)]
    cells.undo(2, [again], [own, own])
    cells.undo(2, [again], [own[:36] + uint(9, 4) + own[40:]])
    cells.row(out_point(again, 0))
    # no rows for what it spends
    cells.undo(1, [cellbase(36), transaction([out_point(first, 0)], [Output(BYTE, b'5')])], [])


def main():
    cells = Cells()

    # a genesis of no transactions
    cells.genesis([])
    cells.all()
    cells.row(NULL)

    # a genesis: its inputs count for nothing, and of two equal transactions the later writes the rows
    first = transaction([NULL], [Output(500 * BYTE, b'a', None, b'12345'), Output(1000 * BYTE, b'', b'type', b'')])
    second = transaction([out_point(first, 0)], [Output(61 * BYTE)])
    cells.genesis([first, second, second])
    cells.all()
    for o in (out_point(first, 0), out_point(first, 1), out_point(second, 0), out_point(first, 2)):
        cells.row(o)

    # a cellbase's inputs are no spends, also where they name a live cell; a block of no transactions
    base = cellbase(1, [Output(70 * BYTE, b'base')], [out_point(first, 0)])
    cells.apply(1, [base])
    cells.apply(2, [])
    cells.row(out_point(first, 0))

    # a transaction spends the output of an earlier one of its block, and of the block before
    spend = transaction([out_point(first, 0), out_point(base, 0)], [Output(10 ** 10, b'x'), Output(2 * 10 ** 10, b'y', b'')])
    again = transaction([out_point(spend, 1)], [Output(10 ** 10, b'z', None, b'data')])
    cells.apply(3, [cellbase(2), spend, again])
    for o in (out_point(first, 0), out_point(spend, 0), out_point(spend, 1), out_point(again, 0)):
        cells.row(o)

    # the same the other way round: it spends what is made after it
    late = transaction([out_point(spend, 0)], [Output(10 ** 10, b'late')])
    early = transaction([out_point(late, 0)], [Output(10 ** 10, b'early')])
    cells.apply(4, [cellbase(3), early, late])
    cells.row(out_point(spend, 0))

    # what is spent already, by an earlier block, and twice in one
    cells.apply(4, [cellbase(3), transaction([out_point(first, 0)], [Output(BYTE)])])
    cells.apply(4, [cellbase(3), transaction([out_point(again, 0), out_point(again, 0)], [Output(BYTE)])])
    cells.apply(4, [cellbase(3), transaction([out_point(first, 1)], [Output(BYTE)]), late,
                    transaction([out_point(spend, 0)], [Output(BYTE)])])
    # an output that there is not, and an index past 2^16
    cells.apply(4, [cellbase(3), transaction([again[1][0] + uint(1, 4)], [])])
    cells.apply(4, [cellbase(3), transaction([again[1][0] + uint(65536, 4)], [])])

    # a transaction again whose cell was spent, and one whose cell is live: at once, and after events that fit
    cells.apply(4, [base])
    cells.apply(5, [base])
    cells.apply(5, [cellbase(4), late, transaction([out_point(late, 0)], []), base])
    # the null input is a spend after the first transaction
    cells.apply(5, [cellbase(4), late, transaction([NULL], [Output(1)])])
    cells.row(out_point(base, 0))

    # over two blocks: spent, and made again with a row of the later block
    taker = transaction([out_point(base, 0)], [Output(5 * BYTE, b't')])
    cells.apply(6, [cellbase(5), taker])
    cells.row(out_point(base, 0))
    cells.apply(7, [base])
    cells.row(out_point(base, 0))

    # in one block: two cells are spent, and a transaction without inputs makes them again
    free = transaction([], [Output(6 * BYTE, b'f'), Output(7 * BYTE, b'g')])
    cells.apply(9, [cellbase(11), free])
    cells.row(out_point(free, 1))
    cells.apply(10, [cellbase(12), transaction([out_point(free, 0), out_point(free, 1)], [Output(BYTE, b'1')]), free])
    cells.row(out_point(free, 0))
    cells.row(out_point(free, 1))
    # spent, made again and spent again; and made, spent and made
    cells.apply(11, [cellbase(13), transaction([out_point(free, 0), out_point(free, 1)], [Output(BYTE, b'2')]), free,
                     transaction([out_point(free, 1)], [Output(BYTE, b'3')])])
    cells.row(out_point(free, 0))
    cells.row(out_point(free, 1))
    other = transaction([], [Output(8 * BYTE, b'o')])
    cells.apply(12, [cellbase(14), other, transaction([out_point(other, 0)], [Output(BYTE, b'4')]), other])
    cells.row(out_point(other, 0))
    # the same, with an odd event at the end: all is as before
    cells.apply(13, [cellbase(15), transaction([out_point(other, 0), out_point(free, 0)], [Output(BYTE, b'5')]), other, free,
                     transaction([out_point(other, 0)], [Output(BYTE, b'6')]), transaction([out_point(other, 0)], [])])
    cells.row(out_point(other, 0))
    cells.row(out_point(free, 0))
    # made twice with nothing between, in one block
    cells.apply(13, [cellbase(16), transaction([], [Output(9)], version=5), transaction([], [Output(9)], version=5)])
    # fewer data than outputs, and more
    cells.apply(13, [cellbase(17), transaction([], [Output(BYTE), Output(BYTE, b'1')], [b'abc'])])
    cells.apply(14, [cellbase(18), transaction([], [Output(BYTE)], [b'', b'abc', b'd'])])
    # a block of number 0 that is no genesis spends all the same
    cells.apply(15, [cellbase(19), transaction([out_point(other, 0)], [])], 0)
    cells.row(out_point(other, 0))

    taken_back(first, second)

    # many rows
    cells.genesis([])
    cells.load(100000)
    cells.all()
    cells.row(ckbhash(uint(12, 4)) + uint(256, 4))
    cells.row(ckbhash(uint(12, 4)) + uint(257, 4))
    many = [ckbhash(uint(i, 4)) + uint(70000, 4) for i in range(20)]
    cells.apply(1000, [cellbase(20), transaction(many, [Output(BYTE, bytes([i])) for i in range(30)])])


if __name__ == '__main__':
    main()
