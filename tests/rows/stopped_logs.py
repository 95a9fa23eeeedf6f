#!/usr/bin/env python3
"""Rows of tests/rows/runs.txt over logs that a stop may leave.

    python3 tests/rows/stopped_logs.py

They stand there after rows that no script here makes. A log of a genesis and three
blocks is stopped at each record: before its first write, in it, between the two, and in
the second, with what a crash may have left of what was not synced. Each is opened, asked
for its tip, and given all three blocks again. The rows say by docs/STORE.md which blocks
each log has. So do logs with the record of an edition in every place, and with one that
may not stand where it does. They owe nothing to the program: the bytes of a log are put together here.
"""

import hashlib

from common import emit

import make_store as store
from encoding import as_bytes

SPEC = store.Spec()
EXT = bytes(8)
DONE, NOT_A_STORE, STORE_THERE = 0, 7, 10


def record(kind, body):
    return bytes([1, kind]) + as_bytes(body)


def block_record(block):
    return record(3, as_bytes(block.item()) + EXT)


def chain():
    blocks = [store.genesis(SPEC)]
    for _ in range(3):
        blocks.append(store.child(SPEC, blocks[-1]))
    return blocks


BLOCKS = chain()
HEAD = b'CKBDEV01' + record(1, SPEC.item()) + record(2, BLOCKS[0].item())
LOG = [HEAD + b''.join(map(block_record, BLOCKS[1:n + 1])) for n in range(4)]
ITEMS = b''.join(it.item() for it in BLOCKS[1:])


def tip_line(n):
    return b'tip %d 0x%s\n' % (n, BLOCKS[n].hash().hex().encode())


def item_line(n, kept):
    digest = BLOCKS[n].hash().hex().encode()
    return b'known 0x%s\n' % digest if n <= kept else b'joined %d 0x%s\n' % (n, digest)


def call(name, words, status, given, text, log=None):
    emit(name, words, status, given, text, *([] if log is None else ['%d:%s' % (len(log), hashlib.sha256(log).hexdigest())]))


def tails(n):
    """What may stand after the n-th block's record, and whether the next one is whole there."""
    whole = block_record(BLOCKS[n + 1])[1:]
    half = whole[:len(whole) // 2]
    yield 'at rest', b'\0', False
    yield 'a part of the record', b'\0' + half, False
    yield 'other bytes in its place', b'\0' + b'\xff' * len(whole), False
    yield 'open gates in its place', b'\0' + b'\1' * len(whole), False
    yield 'the record after a closed gate', b'\0' + whole + b'\0', False
    yield 'after a torn gate', b'\7' + whole + b'\0', False
    yield 'the record after an open gate', b'\1' + whole + b'\0', True
    yield 'and other bytes after it', b'\1' + whole + b'\0' + b'\1' * 40, True
    yield 'an open gate and nothing', b'\1', False
    yield 'an open gate before a part', b'\1' + half, False
    yield 'an open gate before a whole record and no byte', b'\1' + whole, False
    yield 'an open gate before other bytes', b'\1' + b'\xff' * 40, False


def edition_record(epoch):
    return record(4, epoch.to_bytes(8, 'little'))


def is_kept(what, tail, n, kept):
    """A log with this after the n-th block is a store of so many blocks, and stays one when all are imported again."""
    name = '%s, %d' % (what, n)
    emit('folder', name)
    emit('put', 'log', LOG[n] + tail + b'\0')
    lines = b''.join(item_line(i, kept) for i in (1, 2, 3))
    rest = tail + b''.join(map(block_record, BLOCKS[kept + 1:4]))
    call(name, 'tip', DONE, b'', tip_line(kept), LOG[n] + tail)
    call(name, 'import', DONE, ITEMS, lines, LOG[n] + rest)
    call(name, 'tip', DONE, b'', tip_line(3), LOG[n] + rest)


def editions():
    """A record of an edition stands among those of blocks, once and with eight bytes; where it does not, the log is no store."""
    for n in range(4):
        for epoch in (0, 1, 2 ** 64 - 1):
            is_kept('an edition from %d' % epoch, edition_record(epoch), n, n)
    for n in range(3):
        after = b''.join(map(block_record, BLOCKS[n + 1:]))
        is_kept('an edition before the others', edition_record(1) + after, n, 3)
        wrong = (
            ('a second edition', edition_record(1) + edition_record(1)),
            ('a second edition after the others', edition_record(1) + after + edition_record(2)),
            ('an edition of seven bytes', record(4, bytes(7))),
            ('an edition of nine bytes', record(4, bytes(9))),
            ('an edition of no byte', record(4, b'')),
            ('an edition of another kind', record(5, bytes(8))),
        )
        for what, tail in wrong:
            name = '%s, %d' % (what, n)
            emit('folder', name)
            emit('put', 'log', LOG[n] + tail + b'\0')
            call(name, 'tip', NOT_A_STORE, b'', b'', LOG[n] + tail + b'\0')
            call(name, 'import', NOT_A_STORE, ITEMS, b'', LOG[n] + tail + b'\0')
    fronts = (
        ('an edition before the specification', edition_record(1) + record(1, SPEC.item()) + record(2, BLOCKS[0].item())),
        ('an edition before the genesis', record(1, SPEC.item()) + edition_record(1) + record(2, BLOCKS[0].item())),
    )
    for what, records in fronts:
        log = b'CKBDEV01' + records + b'\0'
        emit('folder', what)
        emit('put', 'log', log)
        call(what, 'tip', NOT_A_STORE, b'', b'', log)


def stopped_editions():
    """An edition is written in two steps: before the gate is open it is none, and a part of it never is."""
    whole = edition_record(1)
    for cut in range(len(whole)):
        name = 'an edition up to %d' % cut
        emit('folder', name)
        emit('put', 'log', LOG[1] + b'\0' + whole[1:cut] + b'\xff' * 8)
        call(name, 'tip', DONE, b'', tip_line(1), LOG[1])
        call(name, 'import', DONE, ITEMS, item_line(1, 1) + item_line(2, 1) + item_line(3, 1), LOG[3])


def stopped_imports():
    for n in range(3):
        for what, tail, whole in tails(n):
            kept = n + 1 if whole else n
            name = '%s, %d' % (what, n)
            emit('folder', name)
            emit('put', 'log', LOG[n] + tail)
            call(name, 'tip', DONE, b'', tip_line(kept), LOG[kept])
            call(name, 'tip', DONE, b'', tip_line(kept), LOG[kept])
            lines = b''.join(item_line(i, kept) for i in (1, 2, 3))
            call(name, 'import', DONE, ITEMS, lines, LOG[3])
            call(name, 'tip', DONE, b'', tip_line(3), LOG[3])


def stopped_inits():
    """Of an `init` that was stopped nothing is promised but what stands in docs/STORE.md: a log that is not whole is no store."""
    given = SPEC.item() + BLOCKS[0].item()
    for end in (1, 8, 9, 60, len(HEAD) - 1, len(HEAD)):
        name = 'a new log up to %d' % end
        emit('folder', name)
        emit('put', 'log', HEAD[:end])
        call(name, 'tip', NOT_A_STORE, b'', b'', HEAD[:end])
        call(name, 'import', NOT_A_STORE, ITEMS, b'', HEAD[:end])
        call(name, 'init', STORE_THERE, given, b'', HEAD[:end])
    name = 'snapshots left by another'
    emit('folder', name)
    for area in ('snap_a', 'snap_b'):
        emit('put', area, b'\1' * 50)
    call(name, 'init', DONE, given, b'genesis 0x%s\n' % BLOCKS[0].hash().hex().encode(), LOG[0])
    call(name, 'tip', DONE, b'', tip_line(0), LOG[0])


if __name__ == '__main__':
    stopped_imports()
    stopped_inits()
    editions()
    stopped_editions()
