#!/usr/bin/env python3
"""Rows of crates/store_vectors/stdin on snapshots: what is read of an area, and what is
written to one, at the corners of the format and at each call of the disk that fails.

    python3 tests/rows/snapshots.py

They stand at the end there. A row is `snapshot`, what is done, the area (`a` or `b`), and

    put     bytes: they are written at the start of the area
    bytes   all bytes of the area
    of      a number: its snapshot goes to this area
    number  the number of the snapshot, `none`, `damaged` or `disk_fault`
    read    the bytes of all rows in order, the number and the place of the tip; or `none`,
            `damaged`, `disk_fault`
    close   `ok` or `disk_fault`
    write   a number of the area, the place and the hash of the tip, and rows in some order:
            their snapshot is written, `ok` or `disk_fault`

The bytes are put together here, by docs/STORE.md. A disk has the numbers of the calls that
fail; of a write that fails the first half is done.
"""

from common import emit

from encoding import ZERO_HASH, ckbhash, uint

KEPT = 6


def tip_hash(number, branch=1):
    """That of the block with a number on a branch, as the program of the rows makes it."""
    return bytes([7]) + bytes([branch]) * 23 + uint(number, 8)


def row(tx_hash, index, block=0, tx=0, capacity=10 ** 10, occupied=61 * 10 ** 8, type_hash=None, content=b''):
    flag = b'\0' + ZERO_HASH if type_hash is None else b'\1' + type_hash
    return (tx_hash + uint(index, 4) + uint(block, 4) + uint(tx, 4) + uint(capacity, 8) + uint(occupied, 8)
            + ckbhash(b'lock') + flag + (ckbhash(content) if content else ZERO_HASH) + uint(len(content), 4))


def snapshot(number, tip, rows, tip_hash_=None, count=None, gate=1):
    return (uint(gate, 1) + uint(number, 4) + uint(tip, 4) + (tip_hash(tip) if tip_hash_ is None else tip_hash_)
            + uint(len(rows) if count is None else count, 8) + b''.join(rows))


LOW, MID, HIGH = (bytes([n]) + b'\x55' * 31 for n in (1, 2, 200))
# in rising order: by the bytes of the hash, and then by the index as a number
ROWS = [
    row(LOW, 0, block=KEPT - 1),
    row(LOW, 1, tx=3, type_hash=ckbhash(b'type'), content=b'abc'),
    row(LOW, 256, block=2, capacity=2 ** 64 - 1, occupied=2 ** 64 - 1),
    row(LOW, 2 ** 32 - 1),
    row(MID, 0, block=4, capacity=0, occupied=0),
    row(HIGH, 7, block=1, tx=2 ** 32 - 1, content=b'x' * 300),
]


def area(content):
    emit('disk', '-')
    emit('snapshot', 'put', 'a', content)


def read_as(content, *wanted):
    area(content)
    emit('snapshot', 'read', 'a', *wanted)


def good(content, number, tip, rows):
    read_as(content, b''.join(rows), number, tip)
    emit('snapshot', 'number', 'a', number)
    emit('snapshot', 'number', 'b', 'none')


def damaged(content):
    read_as(content, 'damaged')


def gates():
    print('# an area with a gate that is not open, and one that is too short')
    for content in (b'', b'\1', b'\0', b'\7', b'\0' + b'\1' * 60, b'\2' + snapshot(3, 2, ROWS)[1:]):
        area(content)
        emit('snapshot', 'number', 'a', 'none')
        emit('snapshot', 'read', 'a', 'none')
    whole = snapshot(0x04030201, 2, ROWS[:1])
    for end in (2, 4):
        area(whole[:end])
        emit('snapshot', 'number', 'a', 'damaged')
        emit('snapshot', 'read', 'a', 'damaged')
    for end in (5, 9, 40, 41, 48, 49, 49 + 160):
        area(whole[:end])
        emit('snapshot', 'number', 'a', 0x04030201)
        emit('snapshot', 'read', 'a', 'damaged')


def forms():
    print('# a snapshot, whatever follows it')
    for count in range(len(ROWS) + 1):
        good(snapshot(count, 2, ROWS[:count]), count, 2, ROWS[:count])
    good(snapshot(2 ** 32 - 1, KEPT - 1, ROWS) + b'\1' * 200, 2 ** 32 - 1, KEPT - 1, ROWS)
    good(snapshot(3, 0, ROWS) + ROWS[0], 3, 0, ROWS)
    good(snapshot(3, 0, ROWS, count=2), 3, 0, ROWS[:2])
    print('# a count above the rows that are there')
    damaged(snapshot(3, 2, ROWS, count=len(ROWS) + 1))
    damaged(snapshot(3, 2, ROWS, count=len(ROWS) + 1) + b'\0' * 160)
    for count in (1, 2 ** 32, 2 ** 56, 2 ** 64 - 1):
        damaged(snapshot(3, 2, [], count=count))
    print('# another tip or hash')
    damaged(snapshot(3, KEPT, ROWS))
    damaged(snapshot(3, 2 ** 32 - 1, ROWS))
    damaged(snapshot(3, 2, ROWS, tip_hash(3)))
    damaged(snapshot(3, 2, ROWS, tip_hash(2, 2)))
    damaged(snapshot(3, 2, ROWS, tip_hash(2)[:31] + b'\1'))
    print('# a row of a block that is not kept, and one that occupies more than its capacity')
    for place in range(len(ROWS)):
        bad = row(ROWS[place][:32], int.from_bytes(ROWS[place][32:36], 'little'), block=KEPT)
        damaged(snapshot(3, 2, ROWS[:place] + [bad] + ROWS[place + 1:]))
        bad = row(ROWS[place][:32], int.from_bytes(ROWS[place][32:36], 'little'), capacity=5, occupied=6)
        damaged(snapshot(3, 2, ROWS[:place] + [bad] + ROWS[place + 1:]))
    good(snapshot(3, 2, [row(LOW, 0, capacity=6, occupied=6)]), 3, 2, [row(LOW, 0, capacity=6, occupied=6)])
    print('# rows out of order, and two of one out-point')
    for place in range(len(ROWS) - 1):
        swapped = list(ROWS)
        swapped[place], swapped[place + 1] = swapped[place + 1], swapped[place]
        damaged(snapshot(3, 2, swapped))
        damaged(snapshot(3, 2, ROWS[:place + 1] + ROWS[place:]))
        damaged(snapshot(3, 2, ROWS[:place + 1] + [row(ROWS[place][:32], int.from_bytes(ROWS[place][32:36], 'little'), block=3)] + ROWS[place + 1:]))
    damaged(snapshot(3, 2, [ROWS[5], ROWS[0]]))
    print('# a row that is none')
    for flag in (b'\2' + ZERO_HASH, b'\0' + b'\0' * 31 + b'\1'):
        damaged(snapshot(3, 2, [ROWS[0][:92] + flag + ROWS[0][125:]]))


OLD = snapshot(1, 1, ROWS[:3])
NEW = snapshot(3, 2, ROWS[1:])
# what the area holds before, and what it holds once it is closed
AREAS = [
    (b'', b'\0'),
    (b'\0', b'\0'),
    (b'\7' * 30, b'\7' * 30),
    (b'\1', b'\0'),
    (OLD, b'\0' + OLD[1:]),
    (OLD + b'\1' * 700, b'\0' + OLD[1:] + b'\1' * 700),
]


def over(new, old):
    """Bytes written at the start of others."""
    return new + old[len(new):]


def written(before, fails, answer, after):
    emit('disk', fails)
    emit('snapshot', 'put', 'a', before)
    emit('snapshot', 'write', 'a', 3, 2, tip_hash(2), b''.join(reversed(ROWS[1:])), answer)
    emit('snapshot', 'bytes', 'a', after)
    emit('snapshot', 'bytes', 'b', b'')


def writing():
    print('# a gate is closed; `put` is the call 0 of the disk')
    for before, closed in AREAS:
        area(before)
        emit('snapshot', 'close', 'a', 'ok')
        emit('snapshot', 'bytes', 'a', closed)
        emit('snapshot', 'number', 'a', 'none')
        emit('snapshot', 'close', 'a', 'ok')
        emit('snapshot', 'bytes', 'a', closed)
    print('# a snapshot is written, whatever bytes are left after it')
    for before, closed in AREAS:
        after = over(NEW, closed)
        written(before, '-', 'ok', after)
        emit('snapshot', 'read', 'a', b''.join(ROWS[1:]), 3, 2)
        emit('snapshot', 'number', 'a', 3)
    emit('disk', '-')
    emit('snapshot', 'write', 'b', 2 ** 32 - 2, 0, tip_hash(0), b'', 'ok')
    emit('snapshot', 'read', 'b', b'', 2 ** 32 - 2, 0)
    emit('snapshot', 'number', 'a', 'none')
    emit('snapshot', 'bytes', 'a', b'')
    print('# each call of the disk fails')
    for before, closed in AREAS:
        body = NEW[1:]
        half = over(closed[:1] + body[:len(body) // 2], closed)
        whole = over(closed[:1] + body, closed)
        # the calls that close the gate: it is read, written where that is needed, and synced
        steps = [before] + ([before, closed] if before != closed else [closed])
        # those that write: the body, a sync, the gate, a sync
        for fails, after in enumerate(steps + [half, whole, whole, over(NEW, closed)], 1):
            written(before, fails, 'disk_fault', after)
            if len(steps) < fails < len(steps) + 4:
                emit('snapshot', 'number', 'a', 'none')
    print('# and each of a reading')
    for fails in (1, 2, 3):
        emit('disk', fails)
        emit('snapshot', 'put', 'a', NEW)
        emit('snapshot', 'read', 'a', 'disk_fault')
        emit('snapshot', 'read', 'a', b''.join(ROWS[1:]), 3, 2)
    emit('disk', 1)
    emit('snapshot', 'put', 'a', NEW)
    emit('snapshot', 'number', 'a', 'disk_fault')
    emit('snapshot', 'number', 'a', 3)
    for number in (0, 1, 2, 2 ** 32 - 1):
        emit('snapshot', 'of', 'a' if number % 2 == 1 else 'b', number)


def main():
    print('# the tree of six blocks')
    emit('tree')
    emit('branch', 1, 0, KEPT - 1, KEPT - 1, KEPT - 1)
    gates()
    forms()
    writing()


if __name__ == '__main__':
    main()
