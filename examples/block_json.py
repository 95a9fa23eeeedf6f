#!/usr/bin/env python3
"""A block as JSON, from its bytes, in plain Python (docs/FORMATS.md, "Blocks as JSON").

    python3 examples/block_json.py < BLOCK > TEXT

writes the text with a line for each key, as genesis.json beside this file; as a
module it gives the compact text, which the program is compared with. It owes
nothing to the program.
"""

import json
import sys

from encoding import fields_of, items_of, number_of


def text(b):
    return '0x' + b.hex()


def of_number(b):
    return hex(number_of(b))


def script(b):
    code_hash, hash_type, args = fields_of(b)
    return {'args': text(args[4:]), 'code_hash': text(code_hash), 'hash_type': {0: 'data', 1: 'type'}.get(hash_type[0]) or text(hash_type)}


def out_point(b):
    return {'index': of_number(b[32:36]), 'tx_hash': text(b[:32])}


def output(b):
    capacity, lock, type_script = fields_of(b)
    return {'capacity': of_number(capacity), 'lock': script(lock), 'type': script(type_script) if type_script else None}


def of_transaction(b):
    raw, witnesses = fields_of(b)
    version, deps, header_deps, inputs, outputs, data = fields_of(raw)
    return {
        'cell_deps': [{'dep_type': {0: 'code', 1: 'dep_group'}.get(d[36]) or text(d[36:]), 'out_point': out_point(d[:36])} for d in items_of(deps, 37)],
        'header_deps': [text(h) for h in items_of(header_deps, 32)],
        'inputs': [{'previous_output': out_point(i[8:]), 'since': of_number(i[:8])} for i in items_of(inputs, 44)],
        'outputs': [output(o) for o in fields_of(outputs)],
        'outputs_data': [text(d[4:]) for d in fields_of(data)],
        'version': of_number(version),
        'witnesses': [text(w[4:]) for w in fields_of(witnesses)],
    }


def header(b):
    return {
        'compact_target': of_number(b[4:8]), 'dao': text(b[160:192]), 'epoch': of_number(b[24:32]), 'nonce': of_number(b[192:208]),
        'number': of_number(b[16:24]), 'parent_hash': text(b[32:64]), 'proposals_hash': text(b[96:128]), 'timestamp': of_number(b[8:16]),
        'transactions_root': text(b[64:96]), 'uncles_hash': text(b[128:160]), 'version': of_number(b[:4]),
    }


def tree_of(b):
    head, uncles, transactions, proposals = fields_of(b)
    return {
        'header': header(head),
        'proposals': [text(p) for p in items_of(proposals, 10)],
        'transactions': [of_transaction(t) for t in fields_of(transactions)],
        'uncles': [{'header': header(fields_of(u)[0]), 'proposals': [text(p) for p in items_of(fields_of(u)[1], 10)]} for u in fields_of(uncles)],
    }


def of_block(b):
    """The compact text."""
    return json.dumps(tree_of(b), separators=(',', ':'))


if __name__ == '__main__':
    print(json.dumps(tree_of(sys.stdin.buffer.read()), indent=2))
