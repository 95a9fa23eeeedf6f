#!/usr/bin/env python3
"""Makes the blocks of the first chain, beside this file, on the genesis of make_store.py.

    python3 examples/make_first_blocks.py
        spec.bin            the specification
        first-blocks.bin    an input of `import`: six items on that genesis
        first-blocks.txt    the lines that they must be answered with

The lines are written down here, item by item, and owe nothing to the program:
only the hashes are computed, by Python's own Blake2b.
"""

import dataclasses
import os

import make_store as store
from encoding import fields_of, fixvec, table
from make_store import Spec, child

HERE = os.path.dirname(os.path.abspath(__file__))
UNKNOWN_HASH = b'\x11' * 32
SPEC = Spec()
GENESIS = store.genesis(SPEC)


def text_of(digest):
    return '0x' + digest.hex()


def genesis_line(block):
    return 'genesis %s' % text_of(block.hash())


def joined(block):
    return 'joined %d %s' % (block.number, text_of(block.hash()))


def known(block):
    return 'known %s' % text_of(block.hash())


def tip(block):
    return 'tip %d %s' % (block.number, text_of(block.hash()))


def changed(block, **fields):
    return dataclasses.replace(block, **fields)


def numbered(block, number):
    """The block with another number, and all that follows from it alone."""
    return changed(block, number=number, epoch=SPEC.epoch_field(number) % (1 << 64),
                   transactions=(store.cellbase(number),))


# ------------------------------------------------------------------ input

def first_blocks():
    """The items with their lines, and the block that is the tip after them."""
    a = child(SPEC, GENESIS)
    b = child(SPEC, a)
    fifth_field = table(fields_of(a.item()) + [fixvec([])])
    return [
        (a.item(), joined(a)),
        (a.item(), known(a)),
        (numbered(a, 3).item(), 'refused J5'),
        (changed(a, parent=UNKNOWN_HASH).item(), 'refused J3'),
        (fifth_field, 'refused J1'),
        (b.item(), joined(b)),
    ], b


def input_and_text(items):
    given = b''.join(item for item, _ in items)
    return given, ''.join(line + '\n' for _, line in items).encode()


def main():
    given, text = input_and_text(first_blocks()[0])
    for name, content in (('spec.bin', SPEC.item()), ('first-blocks.bin', given), ('first-blocks.txt', text)):
        store.write(os.path.join(HERE, name), content)


if __name__ == '__main__':
    main()
