#!/usr/bin/env python3
"""Rows of crates/store_vectors/stdin: kept blocks that are read from LOG by their places.

    python3 tests/rows/kept_bodies.py

They are the last of that file. A log of a genesis and three blocks is put together here,
by docs/STORE.md. `brings` has the most bodies of a cache and places of blocks, and then
what each reading finds: the height, the length of the block, that of its ext and the count
of its proposal ids; or `fault`; or `damaged` and the offset of the body. The tree is that
of the whole log, and the disk that which the rows before have made: `prefix` puts the
first bytes of the log, and `write` others at an offset. Each of these and each reading is
a call of the disk, and a body that the cache holds is not read.
"""

import dataclasses

from common import emit

import make_store as store
from encoding import as_bytes, fixvec, uint

SPEC = store.Spec()


def record(kind, body):
    return bytes([1, kind]) + as_bytes(body)


def ext(fees, spent=()):
    return fixvec([uint(it, 8) for it in fees]) + fixvec(spent)


def chain():
    """A genesis and three blocks: of a cellbase alone, of two transactions more, and of one more."""
    blocks = [store.genesis(SPEC)]
    for more in (0, 2, 1):
        block = store.child(SPEC, blocks[-1])
        others = tuple(store.Transaction(100 * block.number + i) for i in range(more))
        blocks.append(dataclasses.replace(block, transactions=block.transactions + others))
    return blocks


BLOCKS = chain()
# a row whose cell has no type script
ROW = bytes(161)
EXTS = [b'', ext([]), ext([5, 7]), ext([9], [ROW])]
BODIES = [BLOCKS[0].item()] + [as_bytes(b.item()) + e for b, e in zip(BLOCKS[1:], EXTS[1:])]
LOG = b'CKBDEV01' + record(1, SPEC.item())
# where each body begins in LOG, after the gate, the kind and the length of its record
PLACES = []
for _kind, _body in zip((2, 3, 3, 3), BODIES):
    PLACES.append(len(LOG) + 6)
    LOG += record(_kind, _body)
LOG += b'\0'


def found(place):
    return '%d,%d,%d,%d' % (place, len(BLOCKS[place].item()), len(EXTS[place]), len(BLOCKS[place].transactions) - 1)


def brings(size, places, faults=(), damaged=()):
    """The readings of these places: with faults at some of them, by their order, and damage at others, by their place."""
    answers = []
    for i, place in enumerate(places):
        if i in faults:
            answers.append('fault')
        elif place in damaged:
            answers += ['damaged', PLACES[place]]
        else:
            answers.append(found(place))
    emit('brings', size, ','.join(map(str, places)), *answers)


def put(*fails):
    emit('disk', ','.join(map(str, fails)) or '-')
    emit('put')


def caches_answer_alike():
    print('# kept blocks, read by their places: a cache of 1 and one of 64 answer the same')
    emit('bytes', LOG)
    for size in (1, 2, 64):
        put()
        brings(size, (0, 1, 2, 3, 3, 2, 1, 0, 2, 0, 3, 1))


def held_bodies_are_not_read():
    print('# a body that is held is not read again: the call that fails is the one of the first body that is not')
    for size, places, read in (
        (64, (0, 0, 1, 1, 0, 1, 2, 2, 0, 1, 2, 3, 3), (0, 2, 6, 11)),
        (2, (0, 0, 1, 1, 0, 2, 0, 2, 1, 2), (0, 2, 5, 8)),
        (1, (0, 0, 1, 1, 0, 0, 1), (0, 2, 4, 6)),
    ):
        # the log is put by call 0, and the body of the i-th reading by call i + 1
        for call, at in enumerate(read):
            put(call + 1)
            # a reading that failed is made once more
            brings(size, places[:at] + (places[at],) * 2 + places[at + 1:], faults=(at,))


def damaged_bodies():
    print('# a log that is cut: within the last body, before its last byte, before it, and within the genesis')
    for size, damaged in (
        (PLACES[3] + 40, (3,)),
        (PLACES[3] + len(BODIES[3]) - 1, (3,)),
        (PLACES[3], (3,)),
        (PLACES[0] + 1, (0, 1, 2, 3)),
        (0, (0, 1, 2, 3)),
    ):
        emit('disk', '-')
        emit('prefix', size)
        brings(64, (0, 1, 2, 3, 0, 3), damaged=damaged)
    print('# with all of the last body and no byte after it')
    emit('disk', '-')
    emit('prefix', PLACES[3] + len(BODIES[3]))
    brings(64, (0, 1, 2, 3))
    print('# bytes that are no body: the length of a block is one less, is one more, is above all; a block that is none; an ext of another count')
    at, size = PLACES[2], len(BLOCKS[2].item())
    for place, content in (
        (at, uint(size - 1, 4)),
        (at, uint(size + 1, 4)),
        (at, b'\xff' * 4),
        (at + 4, uint(size + 1, 4)),
        (at + 4 + size, uint(1, 4)),
        (at + 4 + size + 4 + 16, uint(1, 4)),
    ):
        put()
        emit('write', place, content)
        brings(64, (0, 1, 2, 3, 2, 1), damaged=(2,))
    print('# the genesis is none')
    put()
    emit('write', PLACES[0], uint(len(BODIES[0]) - 1, 4))
    brings(1, (1, 0, 1, 0), damaged=(0,))
    print('# a row in an ext says that its cell has a type script and none')
    put()
    emit('write', PLACES[3] + len(BODIES[3]) - 161 + 92, b'\2')
    brings(1, (3, 2, 3), damaged=(3,))


if __name__ == '__main__':
    caches_answer_alike()
    held_bodies_are_not_read()
    damaged_bodies()
