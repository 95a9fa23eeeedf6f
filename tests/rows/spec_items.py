#!/usr/bin/env python3
"""Rows of specifications as JSON and back, which json_program.py asks of `ckbjson`. Nothing of them is stored.

    python3 tests/rows/spec_items.py

A row is `spec`, 100 bytes in hex, and the text that is written for them; or `unspec`, a text in hex, and the bytes that
it is read as. The bytes are those of the rows of crates/rule_vectors/stdin, of which many come from outside, and of the
samples; and those of the least and the greatest numbers, which no store takes. Their texts are put together by
docs/RULES.md and docs/FORMATS.md. Texts that are read as nothing are in wrong_texts.py.
"""

import json
import os

from common import emit

import make_contract_chain as contract
import make_first_blocks as first
from encoding import uint
from make_store import Spec

HERE = os.path.dirname(os.path.abspath(__file__))
ROWS = os.path.join(HERE, '..', '..', 'crates', 'rule_vectors', 'stdin')
# the fields behind the size, in the order of their bytes, with what each has
PLACES = {'compact_target': 4, 'epoch_length': 4, 'w_close': 4, 'w_far': 4, 'max_block_bytes': 4, 'max_proposals': 4, 'max_cycles': 8,
          'maturity': 8, 'primary_reward': 8, 'secondary_reward': 8, 'halving_interval': 8, 'dao_code_hash': 32}
# epochs by hand, and their value: the number, the index and the length, each in its bits
EPOCHS = {'0': 0, '4': 4, '16777215': 0xffffff, '1 1/3': 1 | 1 << 24 | 3 << 40, '0 0/1': 1 << 40, '4 0/1': 4 | 1 << 40, '1 2/6': 1 | 2 << 24 | 6 << 40,
          '16777215 65534/65535': 0xffffff | 65534 << 24 | 65535 << 40, '0x4': 4, '0x30001000001': 1 | 1 << 24 | 3 << 40,
          '0xFFFFFFFFFFFFFFFF': (1 << 64) - 1}


def compact(tree):
    return json.dumps(tree, separators=(',', ':'))


def tree_of(item):
    """The fields by name, in byte order."""
    at, tree = 4, {}
    for name, size in PLACES.items():
        field, at = item[at:at + size], at + size
        tree[name] = '0x' + field.hex() if size == 32 else hex(int.from_bytes(field, 'little'))
    return dict(sorted(tree.items()))


def items():
    """100 bytes each, each once."""
    with open(ROWS, encoding='ascii') as f:
        rows = [line.rstrip('\n').split('\t') for line in f]
    found = [bytes.fromhex(row[1]) for row in rows if row[0] == 'spec']
    found += [it.item() for it in (first.SPEC, contract.SPEC)]
    for fill in (b'\0', b'\1', b'\x80', b'\xff'):
        found.append(uint(100, 4) + fill * 96)
    # one field each that is another
    for place, (name, size) in enumerate(PLACES.items()):
        found.append(first.changed(first.SPEC, **{name: bytes(range(32)) if size == 32 else (1 << 8 * size) - 1 - place}).item())
    return list(dict.fromkeys(found))


def upper(text):
    """The hex digits in capitals, but not the x."""
    return '"'.join('0x' + it[2:].upper() if it.startswith('0x') else it for it in text.split('"'))


def texts(item):
    """Texts beside the compact one that are read as the bytes, by docs/FORMATS.md."""
    tree = tree_of(item)
    text = compact(tree)
    yield json.dumps(tree, indent=2)
    yield '\t' + text + ' \n'
    yield compact(dict(reversed(tree.items())))
    yield upper(text)
    yield text.replace('"0x', '"\\u0030x').replace('"w_far"', '"\\u0077_far"')
    # of equal keys the last one stands
    yield '{"w_far":[],' + text[1:]


def rows():
    """(`spec`, the bytes, the text) and (`unspec`, the text, the bytes)."""
    for item in items():
        yield 'spec', item, compact(tree_of(item)).encode()
        for text in texts(item):
            yield 'unspec', text.encode(), item
    tree = tree_of(first.SPEC.item())
    for text, value in EPOCHS.items():
        yield 'unspec', compact({**tree, 'maturity': text}).encode(), first.changed(first.SPEC, maturity=value).item()


def main():
    for word, given, wanted in rows():
        emit(word, given, wanted.decode() if word == 'spec' else wanted)


if __name__ == '__main__':
    main()
