"""Blocks that go out as JSON and come back: `json` and `unjson` beside a writer in plain Python."""

import json
import os

import block_json
from harness import (CONTRACT_INIT, CONTRACT_LINE, FIRST_INIT, FIRST_LINE, TOP, Ran, chaingen, contract, first, must_answer,
                     must_be, new_store)
from encoding import block as block_of
from encoding import ckbhash, fields_of

MAX_NUMBER = 2 ** 64 - 1
TEXT_LIMIT = 1 << 24


def parent_of(block):
    """The hash of a block's parent, in its header."""
    return fields_of(block)[0][32:64]


def hash_of(block):
    return ckbhash(fields_of(block)[0])


def branch_of(blocks, tip):
    """The blocks from the genesis to the one with this hash."""
    by_hash = {hash_of(it): it for it in blocks}
    branch = []
    while tip in by_hash:
        branch.append(by_hash[tip])
        tip = parent_of(by_hash[tip])
    return branch[::-1]


def line_of(block):
    return block_json.of_block(block).encode() + b'\n'


def must_come_back(program, block, what):
    """`unjson` of a block's text is the block: of the line of `json`, and of a text with spaces and line feeds."""
    must_answer(Ran([program, '/no/such/folder', 'unjson'], line_of(block)), 0, block, 'unjson of ' + what)
    spread = json.dumps(block_json.tree_of(block), indent=1).encode()
    must_answer(Ran([program, '/no/such/folder', 'unjson'], spread), 0, block, 'unjson of %s, spread' % what)


def must_print_branch(program, folder, branch, what):
    """`json` prints each block of the best branch, and none above it."""
    for height, block in enumerate(branch):
        ran = Ran([program, folder, 'json', str(height)])
        must_answer(ran, 0, line_of(block), '%s: json %d' % (what, height))
    for height in (len(branch), len(branch) + 1, MAX_NUMBER):
        must_answer(Ran([program, folder, 'json', str(height)]), 0, b'none\n', '%s: json %d' % (what, height))


# ---------------------------------------------------------------------- checks

def check_json_of_the_samples(program):
    """Every block of examples/: the branches as `json` prints them, and those that do not join as texts alone."""
    chains = (
        ('the first chain', FIRST_INIT, FIRST_LINE, first.GENESIS.item(), first.first_blocks()),
        ('the chain with a contract', CONTRACT_INIT, CONTRACT_LINE, contract.GENESIS.item(), contract.contract_chain()),
    )
    for what, init, line, genesis, (items, tip) in chains:
        given, text = first.input_and_text(items)
        with new_store(program, init, line) as folder:
            must_print_branch(program, folder, [genesis], what + ' at its beginning')
            must_answer(Ran([program, folder, 'import'], given), 1, text, what)
            kept = [item for item, line in items if line.startswith('joined')]
            must_print_branch(program, folder, branch_of([genesis, *kept], hash_of(tip.item())), what)
        must_come_back(program, genesis, what + ', its genesis')
        for item, line in items:
            if not line.endswith(' J1'):
                must_come_back(program, item, '%s, an item that is answered %s' % (what, line))


def check_json_of_generated_chains(program):
    """The blocks of the benchmarks: chains with forks and transactions, with pairs of cells, and with long blocks."""
    for seed, count, sizes in ((1, 40, {}), (2, 30, {'plain': True}), (0, 6, {'pairs': 20}),
                               (0, 1, {'plain': True, 'block_bytes': 597000})):
        spec, genesis, blocks, kept, tip = chaingen.make(seed, count, **sizes)
        what = 'a chain of %d blocks with %r' % (count, sizes)
        with new_store(program, spec + genesis, b'genesis 0x%s\n' % kept[0][1].hex().encode()) as folder:
            before, after = blocks[:count // 2], blocks[count // 2:]
            for part in (before, after):
                must_be(Ran([program, folder, 'import'], b''.join(part)).status, 0, what)
            must_print_branch(program, folder, branch_of([genesis, *blocks], kept[tip][1]), what)
        for block in (genesis, *blocks):
            must_come_back(program, block, what)


def check_json_on_both_sides_of_a_reorganisation(program):
    """Two branches: the block at a height is that of the branch whose tip is the best."""
    a1, b1 = (first.child(first.SPEC, first.GENESIS, nonce=nonce) for nonce in (1, 2))
    b2 = first.child(first.SPEC, b1)
    with new_store(program) as folder:
        for block, branch in ((a1, (a1,)), (b1, (a1,)), (b2, (b1, b2))):
            must_answer(Ran([program, folder, 'import'], block.item()), 0, (first.joined(block) + '\n').encode(), 'import')
            must_print_branch(program, folder, [first.GENESIS.item(), *(it.item() for it in branch)], 'after a block')


def changed_texts():
    """(what, text of the genesis with a change, whether it is still read)"""
    def changed(change):
        tree = block_json.tree_of(first.GENESIS.item())
        change(tree['header'], tree['transactions'][0], tree)
        return json.dumps(tree).encode()

    yield 'a number with a leading zero', changed(lambda h, t, b: h.update(number='0x00')), False
    yield 'no witnesses', changed(lambda h, t, b: t.pop('witnesses')), False
    yield 'an extension', changed(lambda h, t, b: b.update(extension='0x')), False
    yield 'a hash in the header', changed(lambda h, t, b: h.update(hash='0x00')), True
    yield 'a hash in the transaction', changed(lambda h, t, b: t.update(hash=[None])), True
    yield 'a hash in the block', changed(lambda h, t, b: b.update(hash='0x')), False
    yield 'extra_hash', changed(lambda h, t, b: h.update(extra_hash=h.pop('uncles_hash'))), True
    yield 'both hashes', changed(lambda h, t, b: h.update(extra_hash=h['uncles_hash'])), False


def check_changed_texts(program):
    for what, text, is_read in changed_texts():
        status, wanted = (0, first.GENESIS.item()) if is_read else (1, b'bad json\n')
        for piped in (False, True):
            must_answer(Ran([program, 'any', 'unjson'], text, piped), status, wanted, what)


def check_longest_texts(program):
    """Texts of 16,777,216 bytes: one string, one witness, a block before spaces, and a byte more of each."""
    genesis = first.GENESIS.item()
    line = line_of(genesis)
    head, rest = line.split(b'"witnesses":[]')
    digits = TEXT_LIMIT - len(line) - len(b'"0x"')
    witnessed = head + b'"witnesses":["0x' + b'5a' * (digits // 2) + b'"]' + rest + b' ' * (digits % 2)
    only, = first.GENESIS.transactions
    # the roots are the first ones still: only the witness is another
    whole = block_of(first.GENESIS.header(), [first.changed(only, witnesses=(b'\x5a' * (digits // 2),)).item()])
    for what, text, status, wanted in (
            ('one string', b'"' + b'a' * (TEXT_LIMIT - 2) + b'"', 1, b'bad json\n'),
            ('one witness', witnessed, 0, whole),
            ('spaces after a block', line + b' ' * (TEXT_LIMIT - len(line)), 0, genesis)):
        must_be(len(text), TEXT_LIMIT, 'the length of a text')
        for piped in (False, True):
            must_answer(Ran([program, 'any', 'unjson'], text, piped), status, wanted, what)
        must_answer(Ran([program, 'any', 'unjson'], text + b' '), 12, b'extra %d\n' % TEXT_LIMIT, what + ', and a byte')


def check_sample_genesis_is_made_from_json(program):
    with open(os.path.join(TOP, 'examples', 'genesis.json'), 'rb') as f:
        text = f.read()
    must_answer(Ran([program, 'any', 'unjson'], text), 0, first.GENESIS.item(), 'unjson of examples/genesis.json')
