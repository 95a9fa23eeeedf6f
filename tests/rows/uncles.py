#!/usr/bin/env python3
"""Rows of crates/rule_vectors/stdin on the rule on uncles.

    python3 tests/rows/uncles.py

They stand after those of windows.py there. A row is a word and its columns, with a tab
between two, bytes in hex:

    spec      a specification
    genesis   a Block that begins a chain
    block     a Block that joins it, on the block whose hash it names
    uncles    the place of a parent, a Block: whether the rule on uncles holds
              of it on the parent's branch, `yes` or `no`

The genesis has place 0, each other block the next. A block joins whatever
uncles it embeds. What is wanted is worked out from the fields that the headers
were made with, by docs/RULES.md alone: nothing is taken from the program. Each
row states its answer by hand besides.
"""

import dataclasses

from common import emit

import encoding
from encoding import ZERO_HASH as ZERO
from encoding import ckbhash, hash_of_all, header, number_of
from make_store import Spec

MAX_PROPOSALS = 3
LAST = 2 ** 64 - 1


@dataclasses.dataclass
class Head:
    """A header, with the ids that an uncle of it has."""
    parent: bytes
    number: int
    nonce: int = 0
    target: int = 7
    epoch: int = 5
    ids: tuple = ()
    commitment: bytes = None
    version: int = 0
    # what stands for the root, the hash of uncles and the DAO field
    rest: bytes = ZERO

    def proposals_hash(self):
        return hash_of_all(self.ids)

    def bytes(self):
        commitment = self.proposals_hash() if self.commitment is None else self.commitment
        return header(self.number, self.parent, version=self.version, compact_target=self.target, epoch=self.epoch,
                      transactions_root=self.rest, proposals_hash=commitment, uncles_hash=self.rest,
                      dao=4 * [number_of(self.rest[:8])], nonce=self.nonce)

    def hash(self):
        return ckbhash(self.bytes())

    def uncle(self):
        return encoding.uncle(self.bytes(), self.ids)

    def on(self, **fields):
        """A header on this one."""
        fields.setdefault('number', (self.number + 1) % 2 ** 64)
        return Head(parent=self.hash(), **fields)


def block_of(head, uncles):
    return encoding.block(head.bytes(), uncles=[it.uncle() for it in uncles])


class Chain:
    """The blocks of a chain as they were made, and the rows on it."""

    def __init__(self):
        self.heads, self.parents, self.uncles = [], [], []
        emit('spec', dataclasses.replace(Spec(), max_proposals=MAX_PROPOSALS).item())
        self.join('genesis', -1, Head(ZERO, 0), [])

    def join(self, word, parent, head, uncles):
        emit(word, block_of(head, uncles))
        self.heads.append(head)
        self.parents.append(parent)
        self.uncles.append(uncles)
        return len(self.heads) - 1

    def block(self, parent, uncles=()):
        return self.join('block', parent, self.heads[parent].on(nonce=1000 + len(self.heads)), list(uncles))

    def known(self, parent):
        """The headers of the ancestors and of the uncles that they embed."""
        found = []
        while parent >= 0:
            found += [self.heads[parent]] + self.uncles[parent]
            parent = self.parents[parent]
        return found

    def holds(self, parent, block, uncles):
        known = self.known(parent)
        for u in uncles:
            beside = u.target == block.target and u.epoch % 2 ** 24 == block.epoch % 2 ** 24 and u.number < block.number
            stands = any(k.hash() == u.parent and k.number + 1 == u.number for k in known)
            new = all(k.hash() != u.hash() for k in known)
            proposes = len(u.ids) <= MAX_PROPOSALS and len(set(u.ids)) == len(u.ids) and u.commitment in (None, u.proposals_hash())
            if not (beside and stands and new and proposes):
                return False
            known = known + [u]
        return True

    def ask(self, wanted, parent, uncles, **fields):
        block = self.heads[parent].on(nonce=999, **fields)
        answer = 'yes' if self.holds(parent, block, uncles) else 'no'
        assert answer == wanted, (answer, wanted)
        emit('uncles', parent, block_of(block, uncles), answer)


def on_places():
    """Ancestors, other branches, and uncles of uncles."""
    chain = Chain()
    genesis = chain.heads[0]
    one = chain.block(0)
    two = chain.block(one)
    three = chain.block(two)
    other_two = chain.block(one)
    other_three = chain.block(other_two)
    fresh = chain.heads[one].on(nonce=1)
    chain.ask('yes', three, [])
    chain.ask('yes', three, [fresh])
    # A kept block of another branch, on an ancestor; not on a block of the other branch.
    chain.ask('yes', three, [chain.heads[other_two]])
    chain.ask('no', three, [chain.heads[other_three]])
    # With its parent before it in the list, not after it.
    chain.ask('yes', three, [chain.heads[other_two], chain.heads[other_three]])
    chain.ask('no', three, [chain.heads[other_three], chain.heads[other_two]])
    # An ancestor, the parent and the genesis are none.
    for place in [0, one, two, three]:
        chain.ask('no', three, [chain.heads[place]])
    # A number below the block's own.
    chain.ask('yes', three, [chain.heads[two].on(nonce=1)])
    chain.ask('no', three, [chain.heads[three].on(nonce=1)])
    chain.ask('no', three, [chain.heads[two].on(nonce=1)], number=3)
    chain.ask('yes', three, [chain.heads[three].on(nonce=1)], number=5)
    # Its number is its parent's plus 1.
    for number, wanted in [(0, 'no'), (1, 'no'), (2, 'yes'), (3, 'no')]:
        chain.ask(wanted, three, [chain.heads[one].on(nonce=1, number=number)])
    # Its parent is known.
    chain.ask('no', three, [Head(ZERO, 2)])
    chain.ask('no', three, [fresh.on()])
    chain.ask('yes', three, [fresh, fresh.on()])
    chain.ask('yes', one, [genesis.on(nonce=1)])
    # Twice is once too often, and an uncle that is none counts wherever it stands.
    chain.ask('no', three, [fresh, fresh])
    chain.ask('yes', three, [fresh, chain.heads[one].on(nonce=2)])
    chain.ask('no', three, [fresh, Head(ZERO, 2)])
    chain.ask('no', three, [Head(ZERO, 2), fresh])


def on_embedded():
    """Uncles that were embedded, on one branch and on several."""
    chain = Chain()
    one = chain.block(0)
    two = chain.block(one)
    uncle, second = chain.heads[one].on(nonce=1), chain.heads[one].on(nonce=2)
    left = chain.block(two, [uncle, second])
    right = chain.block(two, [uncle])
    far_right = chain.block(right, [second.on(nonce=3), uncle])
    bare = chain.block(two)
    left_tip, right_tip, bare_tip = (chain.block(p) for p in [left, far_right, bare])
    # Embedded on the branch, at whatever of its blocks, by itself or beside others.
    for tip, first_wanted, second_wanted in [(left_tip, 'no', 'no'), (right_tip, 'no', 'yes'), (bare_tip, 'yes', 'yes')]:
        chain.ask(first_wanted, tip, [uncle])
        chain.ask(second_wanted, tip, [second])
    chain.ask('no', left, [uncle])
    chain.ask('no', right, [uncle])
    chain.ask('yes', right, [second])
    # An uncle on one that the branch embeds.
    chain.ask('yes', left_tip, [uncle.on(nonce=4)])
    chain.ask('yes', left_tip, [second.on(nonce=4)])
    chain.ask('yes', right_tip, [uncle.on(nonce=4)])
    chain.ask('no', right_tip, [second.on(nonce=4)])
    chain.ask('no', bare_tip, [uncle.on(nonce=4)])
    chain.ask('yes', bare_tip, [uncle, uncle.on(nonce=4)])
    chain.ask('no', left_tip, [uncle.on(nonce=4, number=4)])
    # No number follows the greatest.
    last = Head(ZERO, LAST)
    edge = chain.block(left_tip, [last])
    chain.ask('no', edge, [last.on()])
    chain.ask('no', edge, [last.on(number=LAST)], number=LAST)
    before = Head(ZERO, LAST - 2)
    edge = chain.block(edge, [before])
    chain.ask('yes', edge, [before.on()], number=LAST)
    chain.ask('no', edge, [before.on()], number=LAST - 1)


def on_fields():
    """The fields that are looked at, and those that are not."""
    chain = Chain()
    tip = chain.block(chain.block(chain.block(0)))
    on = chain.heads[1]
    a, b, d, e = (bytes([letter]) * 10 for letter in b'abde')
    chain.ask('no', tip, [on.on(target=8)])
    chain.ask('yes', tip, [on.on(target=8)], target=8)
    # The epoch's number alone counts.
    chain.ask('yes', tip, [on.on(epoch=5 + (3 << 24) + (9 << 40) + (1 << 63))])
    chain.ask('no', tip, [on.on(epoch=4)])
    chain.ask('no', tip, [on.on(epoch=5 + (1 << 23))])
    chain.ask('yes', tip, [on.on(epoch=4)], epoch=4 + (7 << 24))
    # So many ids at most, all distinct, and the hash of them.
    chain.ask('yes', tip, [on.on(ids=(a,))])
    chain.ask('yes', tip, [on.on(ids=(a, b, d))])
    chain.ask('no', tip, [on.on(ids=(a, b, d, e))])
    chain.ask('no', tip, [on.on(ids=(a, a))])
    chain.ask('no', tip, [on.on(ids=(a, b, a))])
    chain.ask('yes', tip, [on.on(ids=(a, a[:9] + b'b'))])
    chain.ask('no', tip, [on.on(ids=(a, b), commitment=ZERO)])
    chain.ask('no', tip, [on.on(ids=(a, b), commitment=ckbhash(b + a))])
    chain.ask('no', tip, [on.on(commitment=ckbhash(b''))])
    chain.ask('yes', tip, [on.on(commitment=ZERO)])
    chain.ask('yes', tip, [on.on(ids=(a,)), on.on(ids=(b,))])
    # The version and what else it commits to are not looked at.
    chain.ask('yes', tip, [on.on(version=1, rest=bytes([7]) * 32)])


if __name__ == '__main__':
    on_places()
    on_embedded()
    on_fields()
