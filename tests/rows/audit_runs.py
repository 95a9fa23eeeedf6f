#!/usr/bin/env python3
"""Rows of tests/rows/runs.txt and of crates/run_vectors/stdin on the query `audit`.

    python3 tests/rows/audit_runs.py

The first chain is the generated one of docs/FORMATS.md, whose genesis has nothing amiss; the
second has a genesis that says 5 shannons more are saved and 7 more are occupied than are, and is
asked after each block. Both fees and rewards come to be paid on it. What is wanted is worked out
by docs/COMMANDS.md, "audit": what the genesis alone has amiss. The rows of the list are a chain
longer than a node holds blocks in memory, of which each has to be read again from the disk.
Nothing is taken from the program.
"""

import os
import sys

from common import emit, emit_listed

TESTS = os.path.dirname(os.path.dirname(os.path.abspath(__file__)))
sys.path[1:1] = [TESTS, os.path.join(os.path.dirname(TESTS), 'bench')]
import chaingen  # noqa: E402 (beside the line above)
from store_model import Chain  # noqa: E402

BLOCKS = 20
# more blocks than a node holds in memory
LONGER = 80
# what the fields of a genesis are off by: the savings and what is occupied
SAVED, OCCUPIED = 5, 7


def chain_of(count, saved=0, occupied=0, **how):
    """The chain of so many blocks over a genesis whose DAO field says that so much more is saved and occupied."""
    honest = chaingen.DAO
    c, ar, s, u = honest
    chaingen.DAO = (c, ar, s + saved, u + occupied)
    try:
        spec, genesis, blocks, _, _ = chaingen.make(0, count, **how)
    finally:
        chaingen.DAO = honest
    return Chain(spec, genesis, blocks)


def lines(chain, first, last):
    return b''.join(chain.line(b'joined', it) for it in range(first, last + 1))


def genesis_line(chain):
    return b'genesis 0x%s\n' % chain.hashes[0].hex().encode()


def runs(name, chain, text, turns):
    """The store is made, and blocks are imported in these turns; before them and after each `audit` has the same line."""
    print('folder\t%s' % name)
    emit(name, 'init', 0, chain.init, genesis_line(chain))
    emit(name, 'audit', 0, b'', text)
    for first, last in turns:
        emit(name, 'import', 0, b''.join(chain.blocks[first:last + 1]), lines(chain, first, last))
        emit(name, 'audit', 0, b'', text)


def listed(name, chain, text):
    """The runs of a list, in the last of which `audit` makes as many calls of the disk more than `tip` as there are blocks."""
    emit_listed(name, 'init', 0, chain.init, genesis_line(chain))
    emit_listed(name, 'import', 0, b''.join(chain.blocks[1:]), lines(chain, 1, LONGER))
    emit_listed(name, 'audit', 0, b'', text)
    emit('more', len(chain.blocks))


def main():
    runs('nothing amiss', chain_of(BLOCKS), b'audit 0 0\n', [(1, BLOCKS)])
    runs('5 saved and 7 occupied', chain_of(BLOCKS, SAVED, OCCUPIED), b'audit -%d %d\n' % (SAVED, OCCUPIED),
         [(it, it) for it in range(1, BLOCKS + 1)])
    listed('each block is read', chain_of(LONGER, row=True, plain=True), b'audit 0 0\n')


if __name__ == '__main__':
    main()
