"""Checks of `assemble` on real folders, files and pipes: the blocks that it makes are imported."""

import os
import sys

from harness import TOP, Ran, contract, first, line_of, log_of, must_answer, must_be, new_folder, new_store, started, status_of

sys.path.append(os.path.join(TOP, 'tests', 'rows'))
import assemble as bench  # noqa: E402 (bench/assemble.py, beside the path above)
import assemble_model as model  # noqa: E402
import assembled_runs as runs  # noqa: E402
from encoding import uint  # noqa: E402

# those of the rows that are tried on files and on pipes: each way in which a run may end is among them
CHAINS = (runs.one_cell_spent_twice, runs.over_three_blocks, runs.a_block_that_is_too_long, runs.few_proposals,
          runs.many_proposals, runs.rewards_with_fees, runs.what_is_read)
SHORT = uint(4, 4)


def store_of(program, chain):
    return new_store(program, chain.spec.item() + chain.genesis.item(), (first.genesis_line(chain.genesis) + '\n').encode())


def check_assembled_blocks(program):
    for make in CHAINS:
        made = make()
        for chain in [made] if isinstance(made, runs.Chain) else made:
            with store_of(program, chain) as folder:
                for place, (words, status, given, text) in enumerate(chain.rows):
                    what = '%s: %s %d' % (make.__name__, words, place)
                    if words == 'import':
                        must_answer(Ran([program, folder, words], given), status, text, what)
                        continue
                    before = log_of(folder)
                    for piped in (False, True):
                        must_answer(Ran([program, folder, words], given, piped), status, text, what)
                    must_be(log_of(folder), before, what + ': the log')


def check_assembled_transfers(program):
    """A thousand, in one block, which joins."""
    chain = bench.Chain(model.MOST_ITEMS)
    with new_store(program, chain.first, chain.first_text.encode()) as folder:
        must_answer(Ran([program, folder, 'import'], chain.blocks), 0, chain.blocks_text.encode(), 'the blocks before')
        for piped in (False, True):
            must_answer(Ran([program, folder, 'assemble'], chain.items, piped), 0, chain.lines.encode(), 'a thousand transfers')
        must_answer(Ran([program, folder, 'import'], chain.item), 0, chain.joined.encode(), 'the block of them')


def check_extra_item_before_the_end(program):
    """Who sends a byte after the thousandth item need not end the input to be answered."""
    most = runs.WITNESS + SHORT * model.MOST_ITEMS
    chain = runs.Chain()
    with store_of(program, chain) as folder, started([program, folder, 'assemble']) as process:
        process.stdin.write(most + b'\0')
        must_be(line_of(process), b'extra %d\n' % len(most), 'the line, before the input ends')
        must_be(status_of(process), 12, 'status')


def check_assemble_without_a_store(program):
    with new_folder() as folder:
        ran = Ran([program, folder, 'assemble'], runs.WITNESS)
        must_answer(ran, 7, b'', 'assemble, where no store is')
        must_be(ran.read, 0, 'bytes read where no store is')


# ------------------------------------------------------- the chain with a contract

def contract_chain():
    """The chain of examples/contract-chain.bin, on which more can be assembled."""
    chain = runs.Chain(w_close=2, w_far=11)
    chain.grows(proposes=[contract.FUNDS])
    chain.grows()
    chain.grows(commits=[contract.FUNDS], proposes=[contract.SPENDS, contract.SPENDS_TWICE, contract.FORCES])
    chain.grows()
    chain.grows(commits=[contract.SPENDS])
    uncle = chain.block(proposes=[contract.SPENDS_ON], nonce=1)
    chain.grows()
    chain.grows(uncles=[uncle])
    chain.grows()
    chain.grows(commits=[contract.SPENDS_ON])
    for _ in range(3):
        chain.grows()
    must_be(chain.tip.hash(), contract.contract_chain()[1].hash(), 'the tip of the chain with a contract')
    return chain


def assembled_on(chain, *inputs):
    """For each input, a list of items, the lines of `assemble` but the last, and that of the import of its block."""
    found = []
    for items in inputs:
        _, _, text, block = model.answer(chain, contract.WITNESS, items)
        chain.imports(block)
        found.append((b''.join(text.splitlines(keepends=True)[:-1]), (first.joined(block) + '\n').encode()))
    return found
