#!/usr/bin/env python3
"""Rows of crates/run_vectors/stdin over disks of which one call fails while a snapshot is taken.

    python3 tests/rows/snapshot_stops.py

999 blocks are imported, and then two more, with
the first of which a snapshot is taken; from the last calls before that import to the last cell that
is asked for each call fails in its turn, and of a write its first half is done. The run in which it
fails has the status of that, and once more it answers as it must: the block that was under way joins
or is known, and tip and cells are those of a replay. Nothing is taken from the program.
"""

import os
import sys

from common import emit, emit_listed

TESTS = os.path.dirname(os.path.dirname(os.path.abspath(__file__)))
sys.path[1:1] = [TESTS, os.path.join(os.path.dirname(TESTS), 'bench')]
import chaingen  # noqa: E402 (beside the line above)
from store_model import Chain  # noqa: E402

NAME = 'stops of a snapshot'
EVERY = 1000
# a number of a call before those of the import that takes the snapshot, and how many calls there are from it on
FIRST_CALL, CALLS = 4868, 60
DISK_FAULT = 5


def main():
    spec, genesis, blocks, _, _ = chaingen.make(5, EVERY + 1)
    chain = Chain(spec, genesis, blocks)
    emit_listed(NAME, 'init', 0, chain.init, b'genesis 0x%s\n' % chain.hashes[0].hex().encode())
    for first, last in ((1, EVERY - 1), (EVERY, EVERY + 1)):
        emit_listed(NAME, 'import', 0, b''.join(chain.blocks[first:last + 1]),
                    b''.join(chain.line(b'joined', it) for it in range(first, last + 1)))
    tip = chain.tip(EVERY + 1)
    emit_listed(NAME, 'tip', 0, b'', chain.line(b'tip', tip))
    for point, line in chain.answers(EVERY + 1):
        emit_listed(NAME, 'cell 0x%s %d' % (point[:32].hex(), int.from_bytes(point[32:], 'little')), 0, b'', line)
    emit('faults', DISK_FAULT, FIRST_CALL, CALLS)


if __name__ == '__main__':
    main()
