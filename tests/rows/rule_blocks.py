#!/usr/bin/env python3
"""Rows of crates/rule_vectors/stdin on blocks that keep or break the rules J4 to J14,
each with the line that it must be answered with.

    python3 tests/rows/rule_blocks.py

They stand after those of that file that no script here makes. A row is a word or words,
a tab, and bytes in hex. `spec` and `genesis` begin a chain. Each other row is an item,
tried in its order on the blocks that joined before it: `joined` or `refused J` and a
number. Only J1, J3 and J4 to J14 are looked at, so that a block with uncles or with no
transaction may join. Where nothing else is asked for, a block has a cellbase and a DAO
field that keep the later rules too.

The lines are written down here, item by item. Hashes are Python's own Blake2b,
roots and medians are computed as docs/RULES.md says, and nothing is taken from
the program.
"""

import common  # noqa: F401 (finds encoding)

import encoding
from encoding import NULL_OUT_POINT, ZERO_HASH, as_bytes, cell_input, ckbhash, fields_of, fixvec, hash_of_all, number_of, \
    raw_transaction, root, script, table, transactions_root
from make_store import Spec

GREATEST = 2 ** 64 - 1

# C, AR, S and U: the specification gives no rewards, so they are those of each block
DAO = (10 ** 15, 10 ** 16, 0, 0)


# ------------------------------------------------------------------- values

def raw(since, version=0):
    return raw_transaction([cell_input(NULL_OUT_POINT, since)], version=version)


def transaction(raw_bytes, witness=b''):
    return encoding.transaction(raw_bytes, [witness] if witness else [])


def cellbase(number, message=b''):
    """A cellbase without an output; its witness names a lock, and has a message."""
    return transaction(raw(number), table([script(ZERO_HASH), as_bytes(message)]))


def raw_of(transaction_bytes):
    return fields_of(transaction_bytes)[0]


def flipped(hash_bytes):
    return bytes([hash_bytes[0] ^ 1]) + hash_bytes[1:]


def ids(count, first=0):
    return [bytes([first + i]) * 10 for i in range(count)]


def uncle(nonce, proposals=()):
    return encoding.uncle(encoding.header(1, compact_target=7, timestamp=9, nonce=nonce), proposals)


# -------------------------------------------------------------------- chains

class Chain:
    """A specification, a genesis and what joined after it."""

    def __init__(self, epoch_length=10, max_block_bytes=4000, max_proposals=3, timestamp=1000):
        self.target = 0x20010000
        self.epoch_length = epoch_length
        self.max_block_bytes = max_block_bytes
        self.max_proposals = max_proposals
        self.rows = []
        self.blocks = []
        self.row('spec', Spec(
            self.target, epoch_length, max_block_bytes=max_block_bytes, max_proposals=max_proposals, primary_reward=0,
            secondary_reward=0, halving_interval=4, dao_code_hash=bytes(range(32))).item())
        genesis = self.block(number=0, parent_hash=ZERO_HASH, timestamp=timestamp)
        self.row('genesis', genesis)
        self.keep(genesis)

    def row(self, line, item):
        self.rows.append('%s\t%s' % (line, item.hex()))

    def keep(self, item):
        self.blocks.append(item)

    def head(self, at):
        """The header of the block at a height."""
        return self.blocks[at][20:228]

    def timestamps(self):
        return [number_of(self.head(at)[8:16]) for at in range(len(self.blocks))]

    def median(self):
        last = sorted(self.timestamps()[-37:])
        return last[len(last) // 2]

    def block(self, transactions=None, proposals=(), uncles=(), pad=b'', **changes):
        """The block on the last one that keeps J4 to J14, but for what changes in its header."""
        number = changes.get('number', len(self.blocks))
        if transactions is None:
            transactions = [cellbase(number, pad)]
        length = self.epoch_length
        fields = {
            'version': 0,
            'compact_target': self.target,
            'timestamp': self.median() + 1 if self.blocks else 1000,
            'number': number,
            'epoch': number // length + (number % length << 24) + (length << 40),
            'parent_hash': ckbhash(self.head(-1)) if self.blocks else ZERO_HASH,
            'transactions_root': transactions_root(transactions),
            'proposals_hash': hash_of_all(proposals),
            'uncles_hash': hash_of_all([ckbhash(u[12:220]) for u in uncles]),
            'dao': DAO,
            'nonce': 0,
        }
        assert set(changes) <= set(fields)
        fields.update(changes)
        return encoding.block(encoding.header(**fields), transactions, proposals, uncles)

    def joins(self, **parts):
        item = self.block(**parts)
        self.row('joined', item)
        self.keep(item)

    def breaks(self, rule, **parts):
        self.row('refused J%d' % rule, self.block(**parts))

    def padded_to(self, length, **parts):
        """The same block with a message in its cellbase, so that it has this length."""
        bare = len(self.block(**parts))
        assert bare <= length
        item = {'pad': bytes(length - bare), **parts}
        assert len(self.block(**item)) == length
        return item


def alone_and_before_a_later_one():
    """Each rule broken alone, and with one that comes later."""
    chain = Chain()
    chain.joins()
    number = len(chain.blocks)
    epoch = number // 10 + (number % 10 << 24) + (10 << 40)
    root_now = transactions_root([cellbase(number)])
    too_long = chain.padded_to(4001)
    three = [uncle(1), uncle(2), uncle(3)]
    chain.breaks(4, version=1)
    chain.breaks(4, version=1, number=number + 1)
    chain.breaks(5, number=number + 1)
    chain.breaks(5, number=number + 1, epoch=epoch)
    chain.breaks(6, epoch=epoch + 1)
    chain.breaks(6, epoch=epoch + 1, compact_target=chain.target - 1)
    chain.breaks(7, compact_target=chain.target + 1)
    chain.breaks(7, compact_target=chain.target + 1, timestamp=chain.median())
    chain.breaks(8, timestamp=chain.median())
    chain.breaks(8, timestamp=chain.median(), **too_long)
    chain.breaks(9, **too_long)
    chain.breaks(9, **chain.padded_to(4001, proposals=ids(4)))
    chain.breaks(10, proposals=ids(4))
    chain.breaks(10, proposals=ids(4), proposals_hash=ZERO_HASH)
    chain.breaks(11, proposals=ids(2), proposals_hash=flipped(hash_of_all(ids(2))))
    chain.breaks(11, proposals_hash=flipped(ZERO_HASH), transactions_root=flipped(root_now))
    chain.breaks(12, transactions_root=flipped(root_now))
    chain.breaks(12, transactions_root=flipped(root_now), uncles=three)
    chain.breaks(13, uncles=three)
    chain.breaks(13, uncles=three, uncles_hash=ZERO_HASH)
    chain.breaks(14, uncles_hash=flipped(ZERO_HASH))
    # J17: the since of the cellbase's input is not the block's number
    chain.breaks(14, uncles_hash=flipped(ZERO_HASH), transactions=[cellbase(number + 1)])
    chain.joins()
    return chain


def numbers():
    """J5: the parent's own number, one that is two too high, 0 and the greatest."""
    chain = Chain()
    chain.joins()
    for number in (0, 1, 3, GREATEST):
        chain.breaks(5, number=number)
    chain.breaks(4, version=0x80000000)
    chain.breaks(4, version=1 << 16)
    return chain


def medians():
    """J8 at every count of blocks up to 40: a timestamp equal to the median, and one above it."""
    chain = Chain(timestamp=50_000)
    step = 1
    for _ in range(40):
        median = chain.median()
        chain.breaks(8, timestamp=median)
        chain.breaks(8, timestamp=median - 1)
        step = step * 7919 % 10007
        chain.joins(timestamp=median + 1 + step % 900)
    assert len(set(chain.timestamps())) > 30 and chain.timestamps() != sorted(chain.timestamps())
    return chain


def greatest_timestamp():
    """None is above it once it is the median."""
    chain = Chain()
    chain.joins(timestamp=GREATEST)
    assert chain.median() == GREATEST
    chain.breaks(8, timestamp=GREATEST)
    chain.breaks(8, timestamp=0)
    low = Chain(timestamp=0)
    low.breaks(8, timestamp=0)
    low.joins(timestamp=1)
    # of 0 and 1 the median is 1
    low.breaks(8, timestamp=1)
    low.joins(timestamp=2)
    chain.rows += low.rows
    return chain


def epochs():
    """J6 at the ends of an epoch, and at the least and the greatest length."""
    rows = []
    for length, count in ((1, 3), (2, 5), (10, 12), (65_535, 2)):
        chain = Chain(epoch_length=length)
        for _ in range(count):
            number = len(chain.blocks)
            field = number // length + (number % length << 24) + (length << 40)
            for wrong in (field ^ 1, field ^ 1 << 24, field ^ 1 << 40, field ^ 1 << 56, field ^ 1 << 63, 0):
                chain.breaks(6, epoch=wrong)
            chain.joins()
        rows += chain.rows
    chain.rows = rows
    return chain


def lengths():
    """J9: exactly the limit, and a byte more. The ids of uncles do not count, the block's own and the uncles' rest do."""
    chain = Chain(max_block_bytes=1500, max_proposals=20)
    chain.breaks(9, **chain.padded_to(1501))
    chain.joins(**chain.padded_to(1500))
    chain.breaks(9, **chain.padded_to(1501, proposals=ids(2)))
    chain.joins(**chain.padded_to(1500, proposals=ids(2)))
    uncles = [uncle(1, ids(2)), uncle(2, ids(5, 10))]
    chain.breaks(9, **chain.padded_to(1571, uncles=uncles))
    chain.joins(**chain.padded_to(1570, uncles=uncles))
    chain.breaks(9, **chain.padded_to(1501, uncles=[uncle(1)]))
    chain.joins(**chain.padded_to(1500, uncles=[uncle(1)]))
    # the block's own ids are not taken off beside those of its uncles
    chain.breaks(9, **chain.padded_to(1571, uncles=uncles, proposals=ids(3, 30)))
    # three uncles break J13 alone, and their ids do not count either
    three = [uncle(i, ids(20, i)) for i in range(3)]
    chain.breaks(9, **chain.padded_to(2101, uncles=three))
    chain.breaks(13, **chain.padded_to(2100, uncles=three))
    # the least limit: every block is longer
    least = Chain(max_block_bytes=1)
    least.breaks(9)
    chain.rows += least.rows
    return chain


def proposals():
    """J10: at most so many ids, all distinct. J11: their hash."""
    chain = Chain(max_proposals=4)
    a, b, d, e = ids(4)
    near = a[:9] + b'\x01'
    chain.joins(proposals=[a, b, d, e])
    chain.joins(proposals=[e, near, a])
    chain.breaks(10, proposals=ids(5))
    for twice in ([a, a], [a, b, a], [b, a, d, a], [a, b, d, a], [d, b, b, a]):
        chain.breaks(10, proposals=twice)
    # more than the limit, and one twice
    chain.breaks(10, proposals=[a, a, b, d, e])
    chain.breaks(11, proposals_hash=ckbhash(b''))
    chain.breaks(11, proposals=[a, b], proposals_hash=ckbhash(fixvec([a, b])))
    chain.breaks(11, proposals=[a, b], proposals_hash=hash_of_all([b, a]))
    chain.breaks(11, proposals=[a, b], proposals_hash=hash_of_all([a]))
    chain.breaks(11, proposals=[a, b], proposals_hash=ZERO_HASH)
    chain.breaks(11, proposals=[a], proposals_hash=hash_of_all([a])[:31] + b'\0')
    none = Chain(max_proposals=0)
    none.breaks(10, proposals=[a])
    none.joins()
    chain.rows += none.rows
    return chain


def roots():
    """J12: the root of the hashes and of the hashes with witnesses."""
    chain = Chain()
    for count in (0, 1, 2, 3, 4, 5, 6):
        some = [transaction(raw(i), bytes([i + 1])) for i in range(count)]
        plain, whole = root([ckbhash(raw_of(t)) for t in some]), root([ckbhash(t) for t in some])
        wrong = [ZERO_HASH, plain, whole, root([whole, plain]), root([whole, whole]), root([plain, plain])]
        if count > 1:
            wrong.append(transactions_root(some[::-1]))
            wrong.append(root([ckbhash(raw_of(t)) for t in some] + [ckbhash(t) for t in some]))
        right = transactions_root(some)
        for other in wrong:
            if other != right:
                chain.breaks(12, transactions=some, transactions_root=other)
        chain.joins(transactions=some)
    return chain


def uncles():
    """J13: at most two. J14: the hash of their hashes."""
    chain = Chain()
    one, two = uncle(1, ids(2)), uncle(2)
    chain.joins(uncles=[one])
    chain.joins(uncles=[one, two])
    chain.joins(uncles=[two, two])
    chain.breaks(13, uncles=[one, two, one])
    chain.breaks(13, uncles=[two] * 4)
    heads = [ckbhash(u[12:220]) for u in (one, two)]
    chain.breaks(14, uncles=[one, two], uncles_hash=hash_of_all(heads[::-1]))
    chain.breaks(14, uncles=[one, two], uncles_hash=hash_of_all(heads[:1]))
    chain.breaks(14, uncles=[one, two], uncles_hash=root(heads[::-1]))
    chain.breaks(14, uncles=[one], uncles_hash=heads[0])
    chain.breaks(14, uncles=[one], uncles_hash=hash_of_all([ckbhash(one)]))
    chain.breaks(14, uncles=[one], uncles_hash=ZERO_HASH)
    chain.breaks(14, uncles_hash=ckbhash(b''))
    # J12 beside J13, and J13 beside J14
    number = len(chain.blocks)
    wrong_root = flipped(transactions_root([cellbase(number)]))
    chain.breaks(12, uncles=[one, two, one], transactions_root=wrong_root)
    chain.breaks(12, uncles=[one, two], transactions_root=wrong_root, uncles_hash=ZERO_HASH)
    chain.breaks(13, uncles=[one, two, one], uncles_hash=ZERO_HASH)
    return chain


def main():
    chains = (alone_and_before_a_later_one, numbers, medians, greatest_timestamp, epochs, lengths, proposals, roots, uncles)
    for chain in chains:
        for row in chain().rows:
            print(row)


if __name__ == '__main__':
    main()
