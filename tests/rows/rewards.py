#!/usr/bin/env python3
"""Rows of crates/rule_vectors/stdin on rewards.

    python3 tests/rows/rewards.py

They stand before those on totals. A row is a word and its columns, with a tab between two,
bytes in hex:

    spec     a specification
    genesis  a Block that begins a chain
    kept     a Block that joins it, on the block whose hash it names, and the
             ext that is kept beside it, which has the fees of its transactions
    reward   the place of a parent, a height: what the parent's branch gives to
             the block at that height, in shannons, or `overflow` where that is
             above the greatest u64

The genesis has place 0, each other block the next. A block joins whatever rules
it breaks: it may commit what was not proposed, and what another block commits
too, so that one chain shows an id at each height of its windows. What is wanted
is summed up over the lists of ids and fees that the blocks were made with, by
docs/RULES.md alone: nothing is taken from the program. Some rows state their
answer by hand besides.
"""

import dataclasses

from common import emit

import encoding
from encoding import ZERO_HASH, ckbhash, fixvec, raw_transaction, uint
from make_store import Spec

LAST = 2 ** 64 - 1


# ------------------------------------------------------------------ encoding

def raw(version):
    """The raw transaction of no cells; those of two versions differ in their hashes."""
    return raw_transaction([], version=version)


def transaction(version):
    return encoding.transaction(raw(version))


def id_of(version):
    return ckbhash(raw(version))[:10]


def ext(fees):
    return fixvec([uint(fee, 8) for fee in fees]) + fixvec([])


# -------------------------------------------------------------------- chains

@dataclasses.dataclass
class Made:
    hash: bytes
    parent: int
    number: int
    issued: int
    occupied: int
    ids: list   # those that it and its uncles propose
    paid: list  # the id and the fee of each transaction after the first


class Chain:
    """The blocks of a chain as they were made, and the rows on it."""

    def __init__(self, issued=1, occupied=0, proposed=(), **fields):
        self.spec = dataclasses.replace(Spec(), **fields)
        self.made = []
        emit('spec', self.spec.item())
        self.join(-1, 0, issued, occupied, proposed, [], {})

    def join(self, parent, number, issued, occupied, own, uncles, fees):
        parent_hash = self.made[parent].hash if parent >= 0 else ZERO_HASH
        head = encoding.header(number, parent_hash, dao=(issued, 1, 0, occupied), nonce=len(self.made))
        own, uncles = [id_of(i) for i in own], [[id_of(i) for i in u] for u in uncles]
        embedded = [encoding.uncle(encoding.header(nonce=i), ids) for i, ids in enumerate(uncles)]
        committed = [transaction(0)] + [transaction(i) for i in fees]
        block = encoding.block(head, committed, own, embedded)
        emit(*(['genesis', block] if parent < 0 else ['kept', block, ext(list(fees.values()))]))
        ids = own + [i for u in uncles for i in u]
        self.made.append(Made(ckbhash(head), parent, number, issued, occupied, ids, [(id_of(i), fee) for i, fee in fees.items()]))
        return len(self.made) - 1

    def block(self, parent, own=(), uncles=(), fees=None, issued=1, occupied=0):
        """A block that proposes transactions, itself and by its uncles, and commits some, each with a fee."""
        return self.join(parent, self.made[parent].number + 1, issued, occupied, own, uncles, fees or {})

    def plain(self, parent, count):
        for _ in range(count):
            parent = self.block(parent)
        return parent

    def branch(self, place):
        places = []
        while place >= 0:
            places.insert(0, place)
            place = self.made[place].parent
        return [self.made[p] for p in places]

    def reward(self, parent, target):
        branch, spec = self.branch(parent), self.spec
        given = spec.primary(target)
        given += spec.secondary(target) * branch[target - 1].occupied // branch[target - 1].issued
        given += sum(fee - 4 * fee // 10 for _, fee in branch[target].paid)
        for committed in range(len(branch)):
            for wanted, fee in branch[committed].paid:
                window = [p for p in range(committed) if spec.w_close <= committed - p <= spec.w_far]
                proposers = [p for p in window if wanted in branch[p].ids]
                if proposers and proposers[0] == target:
                    given += 4 * fee // 10
        return given

    def ask(self, parent, target, by_hand=None):
        given = self.reward(parent, target)
        answer = given if given <= LAST else 'overflow'
        assert by_hand in (None, answer), (by_hand, answer)
        emit('reward', parent, target, answer)

    def ask_all(self, parent):
        for target in range(1, self.made[parent].number - self.spec.w_far + 1):
            self.ask(parent, target)


def shares():
    """What blocks are issued: the first three of each epoch one more, half of it where the reward is halved."""
    chain = Chain(epoch_length=10, w_close=2, w_far=10, primary_reward=1003, secondary_reward=0, halving_interval=2)
    tip = chain.plain(0, 31)
    for target in range(1, 22):
        whole = target < 20
        first = target % 10 < (3 if whole else 1)
        chain.ask(tip, target, (100 if whole else 50) + first)
    # the miner's part, by the field of the parent
    chain = Chain(issued=1000, occupied=300, epoch_length=10, w_close=1, w_far=1, primary_reward=0, secondary_reward=75)
    one = chain.block(0, issued=1000, occupied=1000)
    two = chain.block(one, issued=7, occupied=6)
    tip = chain.plain(chain.block(two, issued=LAST, occupied=LAST), 2)
    chain.ask(tip, 1, 2)    # 8 * 300 / 1000
    chain.ask(tip, 2, 8)
    chain.ask(tip, 3, 6)    # 8 * 6 / 7
    chain.ask(tip, 4, 8)


def shared_fees():
    """A fee of 99, committed at 8 and proposed at 3 and 5; one that is proposed before the window too."""
    chain = Chain(w_close=2, w_far=10, primary_reward=0, secondary_reward=0)
    three = chain.block(chain.plain(0, 2), [1])
    five = chain.block(chain.plain(three, 1), [1, 2])
    eight = chain.block(chain.plain(five, 2), fees={1: 99})
    tip = chain.plain(eight, 11)
    chain.ask(tip, 3, 39)
    chain.ask(tip, 5, 0)
    chain.ask(tip, 8, 60)
    chain.ask_all(tip)
    chain = Chain(w_close=2, w_far=10, primary_reward=0, secondary_reward=0)
    one = chain.block(0, [1])
    eight = chain.block(chain.plain(one, 6), [1])
    tip = chain.plain(chain.block(chain.plain(eight, 4), fees={1: 99}), 11)
    chain.ask(tip, 1, 0)
    chain.ask(tip, 8, 39)
    chain.ask(tip, 13, 60)
    # where nobody proposed a transaction, nobody has the proposer's share of its fee
    chain = Chain(w_close=1, w_far=1, primary_reward=0, secondary_reward=0)
    tip = chain.plain(chain.block(0, fees={1: 0, 2: 9, 3: 10, 4: 99}), 2)
    chain.ask(tip, 1, 0 + 6 + 6 + 60)
    chain = Chain(w_close=1, w_far=1, primary_reward=0, secondary_reward=0)
    tip = chain.plain(chain.block(chain.block(0, [1, 2, 3, 4]), fees={1: 0, 2: 9, 3: 10, 4: 99}), 2)
    chain.ask(tip, 1, 0 + 3 + 4 + 39)
    chain.ask(tip, 2, 0 + 6 + 6 + 60)


def on_a_window(w_close, w_far):
    """Some ids that are proposed again and again, by blocks and by uncles, and are committed at each height."""
    chain = Chain(proposed=[1, 7], w_close=w_close, w_far=w_far, epoch_length=7, primary_reward=1000, secondary_reward=50,
                  issued=1000, occupied=10)
    ids = [1, 2, 3, 4, 5, 7]
    proposals = {
        1: ([1, 2], [[3]]),
        # the block and an uncle, an id twice, and one that is not committed
        2: ([2, 2, 6], [[4], [4, 2]]),
        4: ([], [[1], [5, 1]]),
        5: ([3, 4, 5], []),
    }
    heights = 2 * w_far + 8
    edges = {p + d + n for p in proposals for d in (w_close, w_far) for n in (-1, 0, 1)}
    tip = 0
    for height in range(1, heights):
        own, uncles = proposals.get(height, ([], []))
        fees = {i: 100 * height + 10 * k + i for k, i in enumerate(ids)} if w_far < 20 or height in edges else {}
        tip = chain.block(tip, own, uncles, fees, issued=1000 + height, occupied=100 * height % 999)
    chain.ask_all(tip)
    # as soon as all that may commit stands, and not otherwise than later
    for target in [1, 2, 4]:
        chain.ask(target + w_far, target, chain.reward(tip, target))


def on_branches():
    """Two branches from block 1: what one of them proposes or commits is not the other's."""
    chain = Chain(w_close=1, w_far=3, primary_reward=0, secondary_reward=0)
    one = chain.block(0, [1, 2], [[3]])
    left = chain.block(one, [4], fees={1: 1000})
    right = chain.block(one, [1, 3], [[4]], fees={2: 500})
    left = chain.plain(chain.block(left, [], fees={2: 70, 4: 90}), 4)
    right = chain.plain(chain.block(right, [], fees={1: 50, 3: 40, 4: 30}), 4)
    chain.ask(left, 1, 400 + 28)
    chain.ask(right, 1, 200 + 20 + 16)
    for tip in [left, right]:
        chain.ask_all(tip)


def the_greatest():
    """Rewards about the greatest u64."""
    for fee, by_hand in [(0, LAST), (1, 'overflow')]:
        chain = Chain(epoch_length=1, w_close=1, w_far=1, primary_reward=LAST, secondary_reward=0)
        chain.ask(chain.plain(chain.block(0, fees={1: fee}), 1), 1, by_hand)
    for fee, by_hand in [(2, LAST), (3, 'overflow')]:
        chain = Chain(epoch_length=1, w_close=1, w_far=1, primary_reward=LAST, secondary_reward=0)
        chain.ask(chain.block(chain.block(0, [1]), fees={1: fee}), 1, by_hand)
    # the miner's part alone may pass it
    for issued, by_hand in [(2, LAST), (1, 'overflow')]:
        chain = Chain(issued=issued, occupied=2, epoch_length=1, w_close=1, w_far=1, primary_reward=0, secondary_reward=LAST)
        chain.ask(chain.plain(0, 2), 1, by_hand)
    # and so may fees: what is left of one is 11,068,046,444,225,730,969
    share = LAST - 4 * LAST // 10
    for other, by_hand in [(LAST - share, LAST), (LAST - share + 1, 'overflow')]:
        chain = Chain(epoch_length=1, w_close=1, w_far=1, primary_reward=other, secondary_reward=0)
        chain.ask(chain.plain(chain.block(0, fees={1: LAST}), 1), 1, by_hand)


if __name__ == '__main__':
    shares()
    shared_fees()
    for window in [(1, 1), (2, 10), (3, 3), (2, 3), (1, 100)]:
        on_a_window(*window)
    on_branches()
    the_greatest()
