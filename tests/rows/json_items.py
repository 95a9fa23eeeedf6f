#!/usr/bin/env python3
"""Rows of crates/rule_vectors/stdin: transactions, scripts and what the first witnesses
of cellbases hold, as JSON and back.

    python3 tests/rows/json_items.py

Transactions and scripts are those of the blocks in the rows of `json`, which come from
outside, each with the part of the block's text that is its own. A row is `format`, then
`transaction`, `script` or `witness`, the bytes in hex, and the text. A witness's text is put together of
the lock's and of the message, by docs/FORMATS.md. The rows of `untransaction`, `unscript`
and `unwitness` have a text in hex, and what it is read as: the bytes, or `bad`; or `uncut`.
Their texts are texts of such rows, changed in one place.
"""

import json
import os

from common import emit

from encoding import fields_of

HERE = os.path.dirname(os.path.abspath(__file__))
ROWS = os.path.join(HERE, '..', '..', 'crates', 'rule_vectors', 'stdin')


def compact(tree):
    return json.dumps(tree, separators=(',', ':'))


def blocks():
    with open(ROWS, encoding='ascii') as f:
        for line in f:
            columns = line.rstrip('\n').split('\t')
            if columns[:2] == ['format', 'json']:
                yield bytes.fromhex(columns[2]), json.loads(columns[3])


def items():
    """(the kind, the bytes, the tree) of each part of the blocks, each once."""
    for block, tree in blocks():
        transactions = fields_of(fields_of(block)[2])
        for transaction, part in zip(transactions, tree['transactions']):
            yield 'transaction', transaction, part
            for output, its in zip(fields_of(fields_of(fields_of(transaction)[0])[4]), part['outputs']):
                _, lock, type_script = fields_of(output)
                yield 'script', lock, its['lock']
                if type_script:
                    yield 'script', type_script, its['type']
        for witness in [bytes.fromhex(it[2:]) for part in tree['transactions'][:1] for it in part['witnesses'][:1]]:
            held = witness_of(witness)
            if held:
                yield 'witness', witness, held


def witness_of(witness):
    """What the first witness of a cellbase holds, where it has the form of one."""
    if len(witness) < 12 or int.from_bytes(witness[:4], 'little') != len(witness) or witness[4:8] != b'\x0c\0\0\0':
        return None
    lock, message = fields_of(witness)
    code_hash, hash_type, args = fields_of(lock)
    name = {0: 'data', 1: 'type'}.get(hash_type[0]) or '0x' + hash_type.hex()
    script = {'args': '0x' + args[4:].hex(), 'code_hash': '0x' + code_hash.hex(), 'hash_type': name}
    return {'lock': script, 'message': '0x' + message[4:].hex()}


def at(tree, path):
    """The object or list that has the last step of a path, and that step."""
    for step in path[:-1]:
        tree = tree[step]
    return tree, path[-1]


def changed(tree, path, value):
    """The tree with another value at a path, or without one where the value is None."""
    tree = json.loads(compact(tree))
    place, step = at(tree, path)
    if value is LEFT_OUT:
        del place[step]
    else:
        place[step] = value
    return tree


LEFT_OUT = object()
ZERO = '0x' + '00' * 32


def spoiled(kind, tree):
    """Texts that are read as nothing, each with one change that docs/FORMATS.md does not allow."""
    if kind == 'transaction':
        for key in ('cell_deps', 'header_deps', 'inputs', 'outputs', 'outputs_data', 'version', 'witnesses'):
            yield changed(tree, [key], LEFT_OUT)
            yield changed(tree, [key], None)
        for number in ('0', '0x', '0x00', '0x01', '0X0', '0xg', '0x100000000', '-0x1', 0, ''):
            yield changed(tree, ['version'], number)
        for since in ('0x10000000000000000', '0x00', '1', 1):
            yield changed(tree, ['inputs', 0, 'since'], since)
        yield changed(tree, ['inputs', 0, 'hash'], ZERO)
        yield changed(tree, ['inputs', 0, 'previous_output', 'index'], '0x100000000')
        yield changed(tree, ['inputs', 0, 'previous_output', 'tx_hash'], ZERO[:-2])
        yield changed(tree, ['inputs', 0, 'previous_output', 'tx_hash'], ZERO + '00')
        yield changed(tree, ['inputs', 0, 'previous_output'], None)
        yield changed(tree, ['outputs_data'], ['0x0'])
        yield changed(tree, ['witnesses'], ['00'])
        yield changed(tree, ['header_deps'], [ZERO[:-2]])
        yield changed(tree, ['cell_deps'], {})
        yield changed(tree, ['cell_deps'], [{'dep_type': 'data', 'out_point': {'index': '0x0', 'tx_hash': ZERO}}])
        yield changed(tree, ['cell_deps'], [{'dep_type': '0x00', 'out_point': {'index': '0x0', 'tx_hash': ZERO}}])
        yield changed(tree, ['cell_deps'], [{'dep_type': 'code'}])
        yield changed(tree, ['extension'], '0x')
        yield changed(tree, ['Hash'], ZERO)
    script = ['lock'] if kind == 'witness' else [] if kind == 'script' else None
    if script is not None:
        for key in ('args', 'code_hash', 'hash_type'):
            yield changed(tree, [*script, key], LEFT_OUT)
            yield changed(tree, [*script, key], None)
        for args in ('', '0x0', '0x0g', '00', 0, '0X00'):
            yield changed(tree, [*script, 'args'], args)
        for code_hash in (ZERO[:-2], ZERO + '00', ZERO[:-1], ZERO[2:]):
            yield changed(tree, [*script, 'code_hash'], code_hash)
        for hash_type in ('0x00', '0x01', 'Data', 'data1', '0x', '0x0202', 0, '2'):
            yield changed(tree, [*script, 'hash_type'], hash_type)
        yield changed(tree, [*script, 'hash'], ZERO)
    if kind == 'witness':
        yield changed(tree, ['message'], LEFT_OUT)
        yield changed(tree, ['message'], None)
        yield changed(tree, ['message'], '0x0')
        yield changed(tree, ['lock'], None)
        yield changed(tree, ['hash'], ZERO)
    yield [tree]
    yield None


def texts(kind, item, tree):
    """(a text, what it is read as) of what docs/FORMATS.md allows beside the compact text."""
    text = compact(tree)
    yield json.dumps(tree, indent=2), item
    yield compact(dict(reversed(tree.items()))), item
    yield text.replace('"0x', '"\\u0030x'), item
    if kind == 'transaction':
        yield compact({**tree, 'hash': ZERO}), item
        yield compact({**tree, 'hash': [{}]}), item
        # of equal keys the last one stands
        yield text[:-1] + ',"version":"0x7"}', None
        yield '{"version":[],' + text[1:], item
    else:
        key = next(iter(tree))
        yield '{"%s":[],' % key + text[1:], item
    yield text + ' \n', item
    for bad in (text + ',', text + text, '\ufeff' + text, text.replace(':', ';', 1), text.replace('"', "'"), '', '{}'):
        yield bad, 'bad'


def upper(text):
    """The hex digits in capitals, but not the x."""
    parts = text.split('"')
    return '"'.join('0x' + it[2:].upper() if it.startswith('0x') else it for it in parts)


def main():
    seen, of_kind = set(), {}
    for kind, item, tree in items():
        if (kind, item) not in seen and len(item) < 2000:
            seen.add((kind, item))
            emit('format', kind, item, compact(tree))
            of_kind.setdefault(kind, []).append((item, tree))
    for kind, some in of_kind.items():
        if kind == 'transaction':
            some = [it for it in some if it[1]['outputs']]
        for item, tree in some[-2:]:
            emit('format', 'un' + kind, upper(compact(tree)).encode(), item)
            for text, wanted in texts(kind, item, tree):
                if wanted is None:
                    wanted = bytearray(item)
                    # the version is the first field of the raw transaction
                    start = 12 + 28
                    wanted[start:start + 4] = b'\7\0\0\0'
                    wanted = bytes(wanted)
                emit('format', 'un' + kind, text.encode(), wanted)
        item, tree = some[-1]
        for spoilt in spoiled(kind, tree):
            emit('format', 'un' + kind, compact(spoilt).encode(), 'bad')
        emit('format', 'un' + kind, compact(tree).encode(), 'uncut')


if __name__ == '__main__':
    main()
