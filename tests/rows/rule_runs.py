#!/usr/bin/env python3
"""Rows of tests/rows/runs.txt over blocks that break J4 to J14, J16, J17 or J32,
and over two that break G4.

    python3 tests/rows/rule_runs.py

They stand after those of stopped_logs.py there. The blocks are those of rule_blocks.py
and of the chain below, where each chain is a store of its own and its items are one
input of `import`. The lines are the ones that stand beside the blocks, for chains whose
blocks keep the other rules up to J32 too. They owe nothing to the program.
"""

from common import emit

import encoding
import rule_blocks as rules
from encoding import NULL_OUT_POINT, ZERO_HASH, as_bytes, cell_input, cell_output, ckbhash, number_of, out_point, \
    raw_transaction, script, table

LOCK = script(ZERO_HASH)
# a `CellbaseWitness`: a lock and a message
WITNESS = table([LOCK, as_bytes(b'')])


def output(type_script=b''):
    return cell_output(100 * 10 ** 8, LOCK, type_script)


def transaction(since, version=0, cell_deps=(), header_deps=(), inputs=1, outputs=(), data=(), witnesses=(WITNESS,)):
    raw = raw_transaction([cell_input(NULL_OUT_POINT, since)] * inputs, outputs, data, cell_deps, header_deps, version)
    return encoding.transaction(raw, witnesses)


def cellbases():
    """J16 and J17: each part of a cellbase's form broken alone. J32: C or AR is 0."""
    chain = rules.Chain()
    chain.joins()
    number = len(chain.blocks)

    def breaks(rule, *transactions, **changes):
        chain.breaks(rule, transactions=list(transactions), **changes)

    good = transaction(number)
    spends = encoding.transaction(raw_transaction([cell_input(out_point(ZERO_HASH, 0))], [output()], [b'']))
    breaks(16)
    breaks(16, transaction(number, inputs=0))
    breaks(16, transaction(number, inputs=2))
    breaks(16, spends, good)
    breaks(16, good, transaction(number + 1))
    # the same one twice
    breaks(16, good, spends, spends)
    for since in (number - 1, number + 1, 0, number << 8, 1 << 63 | number):
        breaks(17, transaction(since))
    breaks(17, transaction(number, version=1))
    breaks(17, transaction(number, version=1 << 31))
    breaks(17, transaction(number, cell_deps=[out_point(ckbhash(b''), 0) + b'\0']))
    breaks(17, transaction(number, header_deps=[ckbhash(chain.head(0))]))
    breaks(17, transaction(number, outputs=[output(), output()], data=[b'', b'']))
    breaks(17, transaction(number, outputs=[output(LOCK)], data=[b'']))
    breaks(17, transaction(number, outputs=[output()]))
    breaks(17, transaction(number, data=[b'']))
    breaks(17, transaction(number, outputs=[output()], data=[b'', b'']))
    breaks(17, transaction(number, outputs=[output()], data=[b'\0']))
    breaks(17, transaction(number, witnesses=[]))
    breaks(17, transaction(number, witnesses=[b'']))
    breaks(17, transaction(number, witnesses=[LOCK]))
    breaks(17, transaction(number, witnesses=[WITNESS + b'\0']))
    breaks(17, transaction(number, witnesses=[table([LOCK, as_bytes(b''), b''])]))
    breaks(17, transaction(number, witnesses=[b'', WITNESS]))
    # the form of the cellbase comes before the rules on a transaction after it, and on the DAO field
    breaks(17, transaction(number, version=1), spends)
    breaks(17, transaction(number, version=1), dao=(0, 0, 0, 0))
    breaks(32, good, dao=(0, 1, 1, 1))
    breaks(32, good, dao=(1, 0, 1, 1))
    breaks(32, good, dao=(0, 0, 0, 0))
    chain.joins(transactions=[transaction(number, witnesses=[WITNESS, b'', WITNESS + b'\0'])])
    return chain


def genesis_without(parts):
    """A specification, and a genesis with 0 for these parts of its DAO field: C is part 0, AR part 1."""
    spec, genesis = (bytes.fromhex(row.split('\t')[1]) for row in rules.Chain().rows)
    for part in parts:
        at = 20 + 160 + 8 * part
        genesis = genesis[:at] + bytes(8) + genesis[at + 8:]
    return spec + genesis


# chains of which no block joins that breaks a later rule
CHAINS = tuple(getattr(rules, it) for it in ('alone_and_before_a_later_one', 'numbers', 'medians', 'greatest_timestamp',
                                             'epochs', 'proposals')) + (cellbases,)


def line_of(said, item):
    if said != 'joined':
        return said + '\n'
    return 'joined %d 0x%s\n' % (number_of(item[36:44]), ckbhash(item[20:228]).hex())


def stores(rows):
    """Each specification with its genesis, and the items after them."""
    for row in rows:
        said, digits = row.split('\t')
        item = bytes.fromhex(digits)
        if said == 'spec':
            store = [item, b'', []]
            yield store
        elif said == 'genesis':
            store[1] = item
        else:
            store[2].append((said, item))


def main():
    for chain in CHAINS:
        name = chain.__name__
        for n, (spec, genesis, items) in enumerate(list(stores(chain().rows))):
            lines = [line_of(said, item) for said, item in items]
            refused = any(not it.startswith('joined') for it in lines)
            emit('folder', '%s %d' % (name, n))
            digest = ckbhash(genesis[20:228]).hex()
            emit(name, 'init', 0, spec + genesis, ('genesis 0x%s\n' % digest).encode())
            emit(name, 'import', int(refused), b''.join(item for _, item in items), ''.join(lines).encode())
    for parts in ((0,), (1,)):
        emit('folder', 'genesis without part %d' % parts)
        emit('genesis', 'init', 11, genesis_without(parts), b'bad genesis G4\n')


if __name__ == '__main__':
    main()
