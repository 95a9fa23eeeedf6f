#!/usr/bin/env python3
"""Rows of crates/rule_vectors/stdin: the blocks of examples/ that go out as JSON and
come back.

    python3 tests/rows/sample_blocks.py

They stand there between rows that no script here makes. A row is `format`, `back`
and a Block in hex, with a tab between two. An item of the samples that is no Block is left out.
"""

from common import emit

import make_contract_chain
import make_first_blocks


def main():
    items = make_first_blocks.first_blocks()[0] + make_contract_chain.contract_chain()[0]
    for block in [make_first_blocks.GENESIS.item()] + [item for item, line in items if line != 'refused J1']:
        emit('format', 'back', block)


if __name__ == '__main__':
    main()
