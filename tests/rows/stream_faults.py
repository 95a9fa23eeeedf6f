#!/usr/bin/env python3
"""Rows of tests/rows/runs.txt over inputs that are cut, and of crates/run_vectors/stdin over calls that fail.

    python3 tests/rows/stream_faults.py

Each shorter piece of a block whose size word says its own length is no block. And four blocks, of which the last becomes the
tip on another branch, are imported and asked for, where one read, one write or one call
of the disk fails, each in its turn: the run ends with the status of that and a
beginning of its lines, and the same run afterwards knows or takes each block. Nothing is
taken from the program.
"""

from common import emit, emit_listed

from branch_runs import Chain, INIT_CALLS, LEFT
from make_first_blocks import GENESIS, SPEC, genesis_line, tip
from make_store import child

NAME = 'cut and failing'
# the statuses of a read, a write and a call of the disk that failed
READ_FAULT, WRITE_FAULT, DISK_FAULT = 3, 4, 5
# An import reads an item's size before its other bytes, and at last the end. It writes each line by itself, and puts
# each block that joins on the disk by four calls.
LEAST_READS, LEAST_WRITES, LEAST_CALLS = 2 * 4 + 1, 4, 4 * 4


def cut_blocks():
    whole = child(SPEC, GENESIS).item()
    return [size.to_bytes(4, 'little') + whole[4:size] for size in range(4, len(whole))]


def four_blocks():
    chain = Chain()
    a = chain.joins(chain.genesis, proposes=[LEFT])
    chain.joins(a, commits=[LEFT])
    beside = chain.joins(a)
    chain.joins(beside)
    return chain


def main():
    emit('folder', NAME)
    emit(NAME, 'init', 0, SPEC.item() + GENESIS.item(), (genesis_line(GENESIS) + '\n').encode())
    cut = cut_blocks()
    emit(NAME, 'import', 1, b''.join(cut), b'refused J1\n' * len(cut))
    chain = four_blocks()
    given = b''.join(item for item, _ in chain.items)
    text = ''.join(line + '\n' for _, line in chain.items).encode()
    for status, first, least in ((READ_FAULT, 0, LEAST_READS), (WRITE_FAULT, 0, LEAST_WRITES), (DISK_FAULT, INIT_CALLS, LEAST_CALLS)):
        emit_listed(NAME, 'init', 0, chain.spec.item() + chain.genesis.item(), (genesis_line(chain.genesis) + '\n').encode())
        emit_listed(NAME, 'import', 0, given, text)
        emit_listed(NAME, 'tip', 0, b'', (tip(chain.best[-1]) + '\n').encode())
        emit('faults', status, first, least)


if __name__ == '__main__':
    main()
