#!/usr/bin/env python3
"""Rows of crates/rule_vectors/stdin on the proposal window.

    python3 tests/rows/windows.py

They stand after those of rule_blocks.py there. A row is a word and its columns, with a
tab between two, bytes in hex:

    spec      a specification
    genesis   a Block that begins a chain
    block     a Block that joins it, on the block whose hash it names
    earliest  the place of a parent, an id, a height: the earliest proposer of
              the id for that height on the parent's branch, or `none`

The genesis has place 0, each other block the next. What is wanted is looked up
in the lists of ids that the blocks were made with, by docs/RULES.md alone:
nothing is taken from the program. Some rows state their answer by hand besides.
"""

import dataclasses

from common import emit

import encoding
from encoding import ZERO_HASH, block, ckbhash, uncle
from make_store import Spec

A, B, C, D, E, F = (bytes([letter]) * 10 for letter in b'abcdef')
# an id that differs from A in its last byte alone
NEAR_A = A[:9] + b'b'


def header(parent_hash, number, nonce):
    return encoding.header(number, parent_hash, nonce=nonce)


@dataclasses.dataclass
class Made:
    hash: bytes
    parent: int
    number: int
    ids: list  # its own and those of its uncles


class Chain:
    """The blocks of a chain as they were made, and the rows on it."""

    def __init__(self, w_close, w_far):
        self.w_close, self.w_far = w_close, w_far
        self.made = []
        emit('spec', dataclasses.replace(Spec(), w_close=w_close, w_far=w_far).item())
        self.join('genesis', -1, 0, [], [])

    def join(self, word, parent, number, own, uncles):
        parent_hash = self.made[parent].hash if parent >= 0 else ZERO_HASH
        head = header(parent_hash, number, len(self.made))
        embedded = [uncle(header(ZERO_HASH, 0, i), ids) for i, ids in enumerate(uncles)]
        emit(word, block(head, (), own, embedded))
        self.made.append(Made(ckbhash(head), parent, number, own + [i for ids in uncles for i in ids]))
        return len(self.made) - 1

    def block(self, parent, own=(), uncles=()):
        return self.join('block', parent, self.made[parent].number + 1, list(own), [list(u) for u in uncles])

    def plain(self, parent, count):
        for _ in range(count):
            parent = self.block(parent)
        return parent

    def proposers(self, parent, wanted):
        found = set()
        while parent >= 0:
            if wanted in self.made[parent].ids:
                found.add(self.made[parent].number)
            parent = self.made[parent].parent
        return found

    def ask(self, parent, wanted, height, by_hand=None):
        inside = [p for p in self.proposers(parent, wanted) if self.w_close <= height - p <= self.w_far]
        answer = min(inside, default='none')
        assert by_hand in (None, answer), (by_hand, answer)
        emit('earliest', parent, wanted, height, answer)

    def ask_all(self, parent, ids):
        for wanted in ids:
            for height in range(self.made[parent].number + 2):
                self.ask(parent, wanted, height)


def on_a_window(w_close, w_far):
    """Block 1 proposes A, its second uncle B, block 3 proposes A and C, its uncle D; C again by the one after it."""
    chain = Chain(w_close, w_far)
    chain.ask(0, A, 0, 'none')
    chain.ask(0, A, 1, 'none')
    one = chain.block(0, [E, A], [[F], [E, B]])
    # A block's own ids do not count for itself, where the window begins after it.
    chain.ask(one, A, 1, 'none')
    three = chain.block(chain.block(one), [A, C], [[D]])
    four = chain.block(three, [], [[C]])
    tip = chain.plain(four, w_far + 2)
    chain.ask(tip, A, 1 + w_close - 1, 'none')
    chain.ask(tip, A, 1 + w_close, 1)
    chain.ask(tip, A, 1 + w_far, 1)
    # One height more, and the later proposer counts, up to its own last one.
    chain.ask(tip, A, 1 + w_far + 1, 3 if w_close < w_far else 'none')
    chain.ask(tip, A, 3 + w_far, 3)
    chain.ask(tip, A, 3 + w_far + 1, 'none')
    # An id that only an uncle proposes counts as its block's.
    chain.ask(tip, B, 1 + w_close - 1, 'none')
    chain.ask(tip, B, 1 + w_close, 1)
    chain.ask(tip, B, 1 + w_far, 1)
    chain.ask(tip, B, 1 + w_far + 1, 'none')
    chain.ask_all(tip, [A, B, C, D, E, F, NEAR_A, b'zero bytes', bytes(10)])
    return chain


def on_branches():
    """Two branches from block 1: what one proposes is not proposed on the other."""
    chain = Chain(2, 4)
    one = chain.block(0, [A])
    left = chain.plain(chain.block(one, [B]), 6)
    right = chain.plain(chain.block(one, [], [[C]]), 6)
    chain.ask(left, B, 4, 2)
    chain.ask(right, B, 4, 'none')
    chain.ask(right, C, 4, 2)
    chain.ask(left, C, 4, 'none')
    for tip in [left, right]:
        chain.ask_all(tip, [A, B, C])


if __name__ == '__main__':
    for window in [(2, 10), (1, 10), (1, 1), (3, 3), (2, 3), (1, 100)]:
        on_a_window(*window)
    on_branches()
