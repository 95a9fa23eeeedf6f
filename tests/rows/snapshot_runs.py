#!/usr/bin/env python3
"""Rows of tests/rows/runs.txt over stores that have snapshots: what `tip`, `cell` and
`import` answer with bytes put into SNAP_A and SNAP_B.

    python3 tests/rows/snapshot_runs.py

They stand there after those of branch_runs.py, over its branches. A snapshot is put together
here, by docs/STORE.md ("A snapshot"): the live cells of a kept block's branch. Where each open
one is that of a kept block, a run answers as a replay of the tip's branch from the genesis. Of
two the one with the greater number is loaded, which a snapshot that lacks a cell shows. One that
is none, after an open gate, is damage. Nothing is taken from the program.
"""

from common import emit

from branch_runs import ASKED, branches, line_of, live_cells
from encoding import ZERO_HASH, uint
from make_contract_chain import First
from make_first_blocks import genesis_line, joined
from paying_chain import ancestors
from script_scene import data_hash

NAME = 'snapshots'


def kept_in(chain, items):
    """The blocks that these items keep, genesis first."""
    by_item = {it.item(): it for best in chain.best for it in ancestors(best)}
    return [chain.genesis] + [by_item[item] for item, line in items if line == joined(by_item.get(item, chain.genesis))]


def rows_of(kept, tip):
    """The rows of the live cells of a kept block's branch, by their out-points in rising order."""
    rows = {}
    places = {block.hash(): place for place, block in enumerate(kept)}
    for block in ancestors(tip):
        first = 1 if block.number else 0
        for at, transaction in enumerate(block.commits if block.number else (First,)):
            for spent in getattr(transaction, 'cell_inputs', ()):
                del rows[spent[8:40], int.from_bytes(spent[40:], 'little')]
            for index, cell in enumerate(transaction.outputs):
                rows[transaction.hash, index] = (
                    transaction.hash + uint(index, 4) + uint(places[block.hash()], 4) + uint(first + at, 4)
                    + uint(cell.capacity, 8) + uint(cell.occupied(), 8) + cell.lock.hash() + b'\0' + ZERO_HASH
                    + (data_hash(cell.content) if cell.content else ZERO_HASH) + uint(len(cell.content), 4))
    return [rows[key] for key in sorted(rows)]


def snapshot(kept, number, tip, rows=None, place=None, tip_hash=None, count=None, gate=1):
    rows = rows_of(kept, tip) if rows is None else rows
    place = next(it for it, block in enumerate(kept) if block is tip) if place is None else place
    return (uint(gate, 1) + uint(number, 4) + uint(place, 4) + (tip_hash or tip.hash())
            + uint(len(rows) if count is None else count, 8) + b''.join(rows))


def main():
    chain = branches()
    given = chain.spec.item() + chain.genesis.item()
    # the first branch is the tip's, and the second one is, and the third
    cuts = 7, 12, len(chain.items)

    def begins(items, a=b'', b=b''):
        emit('folder', NAME)
        emit(NAME, 'init', 0, given, (genesis_line(chain.genesis) + '\n').encode())
        if items:
            imports(items)
        for area, content in (('snap_a', a), ('snap_b', b)):
            if content:
                emit('put', area, content)

    def imports(items):
        refused = any(line.startswith('refused') for _, line in items)
        emit(NAME, 'import', int(refused), b''.join(item for item, _ in items), ''.join(line + '\n' for _, line in items).encode())

    def asks(tip, missing=None):
        emit(NAME, 'tip', 0, b'', ('tip %d 0x%s\n' % (tip.number, tip.hash().hex())).encode())
        cells = live_cells(tip)
        for output in ASKED:
            line = 'none' if output == missing else line_of(cells, output)
            emit(NAME, 'cell 0x%s %d' % (output[0].hash.hex(), output[1]), 0, b'', (line + '\n').encode())

    for cut in cuts:
        items, tip = chain.items[:cut], chain.best[cut]
        kept = kept_in(chain, items)
        # of each kept block, on the tip's branch or not, beside one of the genesis
        for block in kept:
            begins(items, snapshot(kept, 3, block), snapshot(kept, 2, chain.genesis))
            asks(tip)
    items, tip = chain.items[:cuts[1]], chain.best[cuts[1]]
    kept = kept_in(chain, items)
    right = snapshot(kept, 7, tip)
    # an area without an open gate says nothing, whatever stands there
    for content in (b'\1', b'\0' + right[1:], b'\7' * 60, b'\2' + right[1:]):
        begins(items, content, content)
        asks(tip)
    # old bytes may stand after it
    begins(items, right + b'\1' * 100)
    asks(tip)
    # of two, the one with the greater number
    gone = next(it for it in ASKED if line_of(live_cells(tip), it) != 'none')
    rows = [it for it in rows_of(kept, tip) if it[:36] != gone[0].hash + uint(gone[1], 4)]
    lacking = lambda number: snapshot(kept, number, tip, rows)
    begins(items, snapshot(kept, 7, tip), lacking(6))
    asks(tip)
    begins(items, lacking(7), snapshot(kept, 8, tip))
    asks(tip)
    begins(items, lacking(7), snapshot(kept, 6, tip))
    asks(tip, gone)
    begins(items, snapshot(kept, 7, tip), lacking(8))
    asks(tip, gone)
    # what follows is judged over the cells of a snapshot
    begins(items, snapshot(kept, 5, kept[3]), snapshot(kept, 4, kept[1]))
    imports(chain.items[cuts[1]:])
    asks(chain.best[-1])
    # after an open gate something else, in the area that is loaded
    rows = rows_of(kept, tip)
    other = rows[0][:36] + uint(len(kept), 4) + rows[0][40:]
    for content in (right[:2], right[:4], right[:5], right[:48], right[:-1],
                    snapshot(kept, 7, tip, count=len(rows) + 1), snapshot(kept, 7, tip, [other] + rows[1:]),
                    snapshot(kept, 7, tip, rows[1:] + rows[:1]), snapshot(kept, 7, tip, rows[:1] + rows),
                    snapshot(kept, 7, tip, place=len(kept)), snapshot(kept, 7, tip, place=0),
                    snapshot(kept, 7, tip, tip_hash=kept[1].hash())):
        begins(items, content)
        emit(NAME, 'tip', 7, b'', b'')
        imports_nothing = chain.items[cuts[1]:]
        emit(NAME, 'import', 7, b''.join(item for item, _ in imports_nothing), b'')
    # in the other area a gate over fewer than 5 bytes is damage too, and what stands after the number is not looked at
    for content in (b'\1' * 2, b'\1\6\0\0'):
        begins(items, right, content)
        emit(NAME, 'tip', 7, b'', b'')
    for content in (b'\1\6\0\0\0', snapshot(kept, 6, tip, count=len(rows) + 1)):
        begins(items, right, content)
        asks(tip)


if __name__ == '__main__':
    main()
