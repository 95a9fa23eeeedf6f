#!/usr/bin/env python3
"""Rows of tests/rows/runs.txt over blocks that are assembled: `assemble`, and the
`import` of each block that was.

    python3 tests/rows/assembled_runs.py

They stand at its end. Each chain is a store of its own. The texts are those of
../assemble_model.py, and a block that is assembled joins. Nothing is taken from the
program.
"""

import os
import sys

from common import emit

sys.path.append(os.path.join(os.path.dirname(os.path.abspath(__file__)), '..'))
import assemble_model as model  # noqa: E402 (beside the path above)
import encoding  # noqa: E402
import make_store as store  # noqa: E402
import paying_chain  # noqa: E402
from assemble_model import GREATEST, MOST_BYTES, MOST_ITEMS, witness_with  # noqa: E402
from encoding import NULL_OUT_POINT, ZERO_HASH, as_bytes, cell_input, ckbhash, out_point, raw_transaction, table, uint  # noqa: E402
from make_contract_chain import ANYONE, DEPS, SHUT, First, Transaction  # noqa: E402
from make_first_blocks import genesis_line, joined  # noqa: E402
from make_store import COIN, LOCK, SHANNONS, Spec  # noqa: E402
from paying_chain import CODE_NAME, LEAST, LONG_LOCK, dao_cell  # noqa: E402
from script_scene import Cell, Scene, Script  # noqa: E402

WITNESS = witness_with()


class Chain(paying_chain.Chain):
    """A chain, and the rows of its runs."""

    def __init__(self, dao=None, first=First, timestamp=None, **fields):
        super().__init__(dao, None if first is First else first, **fields)
        self.first, self.rows = first, []
        if timestamp is not None:
            self.genesis = self.tip = paying_chain.dataclasses.replace(self.genesis, timestamp=timestamp)

    def imports(self, *blocks):
        """Each joins, and the last is the tip."""
        text = ''.join(joined(it) + '\n' for it in blocks)
        self.rows.append(('import', 0, b''.join(it.item() for it in blocks), text.encode()))
        self.tip = blocks[-1]

    def grows(self, **parts):
        self.imports(self.block(**parts))

    def assembles(self, *items, witness=WITNESS, wanted=None, imports=True):
        """The text of the model, which has these lines in short, and the import of the block, where there is one."""
        status, given, text, block = model.answer(self, witness, items)
        if wanted is not None:
            said = [it if it.startswith('no block') else it.split(' 0x')[0] for it in text.decode().splitlines()]
            assert said == wanted.split(', '), said
        self.rows.append(('assemble', status, given, text))
        if block and imports:
            self.imports(block)

    def closes(self, given, status, line):
        """The reading of this input ends badly."""
        self.rows.append(('assemble', status, given, line.encode() + b'\n'))


def pays(fee, *spent, outputs=1, deps=DEPS, lock=ANYONE, witnesses=(), version=0):
    """A transaction that spends outputs and leaves so many shannons to the fee."""
    left = sum(source.outputs[place].capacity for source, place in spent) - fee
    share = left // outputs
    made = [Cell(lock, capacity=share) for _ in range(outputs - 1)] + [Cell(lock, capacity=left - share * (outputs - 1))]
    return Transaction(list(spent), made, deps=deps, witnesses=witnesses, version=version)


THE_COIN = (First, 1)


# --------------------------------------------------------- what becomes of items

def one_cell_spent_twice():
    """Both were proposed two blocks before."""
    chain = Chain()
    one, other = pays(1000, THE_COIN), pays(1000, THE_COIN, outputs=2)
    chain.grows(proposes=[one, other])
    chain.grows()
    chain.assembles(one, other, wanted='commit 1000 505, refused J20, block')
    yield chain
    # the first of them was never proposed: it is, and after one block more it is committed
    chain = Chain()
    chain.assembles(one, wanted='propose, block')
    chain.grows()
    chain.assembles(one, wanted='commit 1000 505, block')
    yield chain


def each_on_the_other():
    """The second spends what the first makes, in both orders."""
    one = pays(1000, THE_COIN)
    other = pays(2000, (one, 0))
    for items, wanted, then in (
            ((one, other), 'commit 1000 505, commit 2000 505, block', 'refused J20, refused J20, block'),
            ((other, one), 'refused J20, commit 1000 505, block', 'commit 2000 505, refused J20, block')):
        chain = Chain()
        chain.grows(proposes=[one, other])
        chain.grows()
        chain.assembles(*items, wanted=wanted)
        chain.assembles(*items, wanted=then)
        yield chain


def over_three_blocks():
    """Proposed in the first, again in the second, where it is too early to be committed, and committed in the third."""
    chain = Chain()
    one = pays(1000, THE_COIN)
    chain.assembles(one, wanted='propose, block')
    chain.assembles(one, wanted='propose, block')
    chain.assembles(one, wanted='commit 1000 505, block')
    chain.assembles(one, wanted='refused J20, block')
    # a block that nothing is put into
    chain.assembles(wanted='block')
    return chain


def the_shortest_window():
    """1 to 1: what the parent proposes is committed, and what its parent proposed is proposed anew."""
    chain = Chain(w_close=1, w_far=1)
    one = pays(1000, THE_COIN)
    other = pays(7, (one, 0))
    chain.assembles(one, other, wanted='propose, propose, block')
    chain.assembles(one, wanted='commit 1000 505, block')
    chain.assembles(other, wanted='propose, block')
    chain.assembles(other, wanted='commit 7 505, block')
    return chain


def proposed_by_an_uncle():
    """The uncle stands in a block of the window."""
    chain = Chain(w_close=1, w_far=2)
    one = pays(1000, THE_COIN)
    chain.grows()
    uncle = chain.block(proposes=[one], nonce=1)
    chain.grows()
    chain.grows(uncles=[uncle])
    chain.assembles(one, wanted='commit 1000 505, block')
    return chain


def what_is_no_transaction_of_a_block():
    chain = Chain()
    one = pays(1000, THE_COIN)
    # the same hash with another witness
    again = pays(1000, THE_COIN, witnesses=[b'again'])
    assert one.hash == again.hash
    cellbase = store.cellbase(3).item()
    chain.grows(proposes=[one])
    chain.grows()
    other = pays(1, (one, 0))
    chain.assembles(b'\4\0\0\0', cellbase, one, again, one, other, other, WITNESS, table([b'']),
                    wanted='refused J1, refused J16, commit 1000 505, refused J16, refused J16, propose, later, '
                           'refused J1, refused J1, block')
    # where its cells are spent, its hash is in no block
    chain.assembles(again, wanted='refused J20, block')
    return chain


def broken_rules():
    """Each breaks one of J18, J20 to J22, J25 and J27 to J29, and is not put in: the last spends the same cell."""
    chain = Chain()
    coin = [THE_COIN]
    no_code = pays(1000, THE_COIN, deps=DEPS[1:])
    moved = pays(1000, THE_COIN)
    # its output opens for nobody, and is spent in the same block
    shut = pays(1, (moved, 0), lock=SHUT)
    items = [
        Transaction(coin, []),
        Transaction(coin, [Cell(ANYONE, capacity=LEAST)], version=1),
        Transaction(coin, [Cell(ANYONE, capacity=LEAST)], deps=DEPS + DEPS[:1]),
        Transaction([(pays(5, THE_COIN), 0)], [Cell(ANYONE, capacity=LEAST)]),
        Transaction(coin * 2, [Cell(ANYONE, capacity=LEAST)]),
        Transaction(coin, [Cell(ANYONE, capacity=LEAST)], deps=DEPS + ((First, 1),) + ((pays(6, THE_COIN), 0),)),
        Transaction(coin, [Cell(ANYONE, capacity=LEAST - 1)]),
        Transaction(coin, [Cell(ANYONE, capacity=COIN + 1)]),
        no_code,
        moved,
        shut,
        pays(2, (shut, 0)),
    ]
    for some in range(0, len(items), 6):
        chain.grows(proposes=items[some:some + 6])
    chain.grows()
    chain.assembles(*items, wanted='refused J18, refused J18, refused J18, refused J20, refused J20, refused J21, refused J25, '
                                   'refused J27, refused J28, commit 1000 505, commit 1 505, refused J29, block')
    return chain


# ------------------------------------------------------------------- what is left

def what_the_length_leaves():
    """A long item and a short one after it, where the block has room for the short one alone, for both, and for neither."""
    one = pays(1000, THE_COIN, witnesses=[bytes(900)])
    short = pays(1000, THE_COIN)
    empty = 240 + 4 + len(witness_size_cellbase())
    for room, wanted in ((len(one.item) + 4, 'commit 1000 505, refused J16, block'), (len(one.item) + 3, 'later, commit 1000 505, block'),
                         (len(short.item) + 4, 'later, commit 1000 505, block'), (len(short.item) + 3, 'later, later, block')):
        chain = Chain(max_block_bytes=empty + max(room, 10), w_close=1)
        chain.grows(proposes=[one])
        chain.assembles(one, short, wanted=wanted)
        yield chain


def witness_size_cellbase():
    """The cellbase that pays nobody."""
    return store.cellbase(1).item()


def what_the_length_leaves_for_ids():
    """Ids of 10 bytes: two fit, and with one byte less just one; a transaction that is put in first takes their room."""
    empty = 240 + 4 + len(witness_size_cellbase())
    one, other, third = pays(1, THE_COIN), pays(2, THE_COIN), pays(3, THE_COIN)
    for room, wanted in ((20, 'propose, propose, later, block'), (19, 'propose, later, later, block'), (9, 'later, later, later, block')):
        chain = Chain(max_block_bytes=empty + room)
        chain.assembles(one, other, third, wanted=wanted)
        yield chain
    for room, order, wanted in ((4 + len(one.item) + 9, (one, other), 'commit 1 505, later, block'),
                                (4 + len(one.item) + 10, (one, other), 'commit 1 505, propose, block'),
                                (4 + len(one.item) + 9, (other, one), 'propose, later, block'),
                                (4 + len(one.item) + 10, (other, one), 'propose, commit 1 505, block')):
        chain = Chain(max_block_bytes=empty + room, w_close=1)
        chain.grows(proposes=[one])
        chain.assembles(*order, wanted=wanted)
        yield chain


def a_block_that_is_too_long():
    """It is so with its cellbase alone, by a long message or by a limit below it."""
    chain = Chain(max_block_bytes=1000)
    one = pays(1000, THE_COIN)
    chain.assembles(one, b'\4\0\0\0', witness=witness_with(message=bytes(1000)), wanted='later, refused J1, no block J9')
    chain.assembles(one, wanted='propose, block')
    yield chain
    chain = Chain(max_block_bytes=400)
    chain.assembles(wanted='no block J9')
    yield chain


def what_the_cycles_leave():
    """505 cycles each: a second that is a cycle short, and one that is not."""
    one = pays(1000, THE_COIN)
    other = pays(2000, (one, 0))
    for cycles, wanted in ((1009, 'commit 1000 505, refused J30, block'), (1010, 'commit 1000 505, commit 2000 505, block'),
                           (504, 'refused J30, refused J20, block')):
        chain = Chain(max_cycles=cycles)
        chain.grows(proposes=[one, other])
        chain.grows()
        chain.assembles(one, other, wanted=wanted)
        yield chain


def few_proposals():
    """Two ids, of a thousand items; and none."""
    items = [small(it) for it in range(MOST_ITEMS)]
    for most in (2, 0):
        chain = Chain(max_proposals=most)
        chain.assembles(*items, wanted=', '.join(['propose'] * most + ['later'] * (MOST_ITEMS - most) + ['block']))
        yield chain


class small(Scene):
    """A short transaction of a number of its own, which breaks J18: that is not asked before it was proposed."""

    def __init__(self, number):
        super().__init__(None, [])
        self.raw = raw_transaction([], version=number)
        self.item = encoding.transaction(self.raw)
        self.hash = ckbhash(self.raw)
        self.proposal_id = self.hash[:10]


def many_proposals():
    """A thousand ids, and the same input after two blocks: each is refused then."""
    items = [small(it) for it in range(MOST_ITEMS)]
    chain = Chain()
    chain.assembles(*items, wanted=', '.join(['propose'] * MOST_ITEMS + ['block']))
    chain.grows()
    chain.assembles(*items, wanted=', '.join(['refused J18'] * MOST_ITEMS + ['block']))
    return chain


# ---------------------------------------------------------------------- the block

def a_reward_that_no_output_holds():
    """41 CKB less a shannon are owed, and 41: the output comes where the reward holds it."""
    for less, lock in ((1, LOCK), (0, LOCK), (1, LONG_LOCK), (0, LONG_LOCK)):
        least = paying_chain.occupied_with(lock) - less
        chain = Chain(w_close=1, w_far=1, epoch_length=1, primary_reward=least, secondary_reward=0)
        for _ in range(4):
            chain.assembles(witness=witness_with(lock, b'mine'), wanted='block')
        yield chain


def rewards_with_fees():
    """Each block pays one before it, with its fees and those of what it proposed."""
    chain = Chain(w_close=1, w_far=2, epoch_length=4, primary_reward=10 ** 12 + 3, secondary_reward=10 ** 11 + 1)
    items, spent = [], THE_COIN
    for fee in (99, 0, 9, 10):
        items.append(pays(fee, spent))
        spent = (items[-1], 0)
    chain.assembles(*items[:2], wanted='propose, propose, block')
    chain.assembles(*items, wanted='commit 99 505, commit 0 505, propose, propose, block')
    chain.assembles(*items, witness=witness_with(LONG_LOCK), wanted='refused J20, refused J20, commit 9 505, commit 10 505, block')
    for _ in range(4):
        chain.assembles(wanted='block')
    return chain


def the_greatest_reward():
    """One of 2^64 - 1 is paid. One shannon above it can't be: no block is assembled at that height."""
    given = Spec(epoch_length=1, halving_interval=1, primary_reward=2 ** 64 - 2 ** 10).primary(1)
    for above in (0, 1):
        used = GREATEST - given + above
        chain = Chain(dao=(1, 10 ** 16, used + 10, used), w_close=1, w_far=1, epoch_length=1, halving_interval=1,
                      primary_reward=2 ** 64 - 2 ** 10, secondary_reward=1)
        chain.assembles(wanted='block')
        chain.assembles(wanted='block')
        chain.assembles(small(0), b'\4\0\0\0', wanted='propose, refused J1, ' + ('no block J31' if above else 'block'))
        yield chain


def no_next_field():
    """C, AR or S would leave u64."""
    for dao, primary, secondary in (((GREATEST, 10 ** 16, 0, 0), 1, 0), ((1, 2 ** 63, 10, 0), 0, 1), ((1, 1, 10, 12), 0, 1)):
        chain = Chain(dao=dao, epoch_length=1, primary_reward=primary, secondary_reward=secondary)
        chain.assembles(small(1), wanted='propose, no block J32')
        yield chain


def the_greatest_timestamp():
    """The median time is the greatest u64 less one, and then the greatest, above which there is no time."""
    chain = Chain(timestamp=GREATEST - 1)
    chain.assembles(wanted='block')
    chain.assembles(small(1), wanted='propose, no block J8')
    yield chain
    # J9 is broken too, and J31 or J32 would be: the first is named
    chain = Chain(timestamp=GREATEST, max_block_bytes=300, dao=(GREATEST, 10 ** 16, 0, 0), epoch_length=1, primary_reward=1)
    chain.assembles(wanted='no block J8')
    yield chain


def times_that_differ():
    """The timestamp goes by the median, and not by the tip's own."""
    chain = Chain(timestamp=50)
    for time in (90, 300, 91, 200, 95):
        chain.imports(timed(chain, time))
    chain.assembles(wanted='block')
    return chain


def timed(chain, time):
    block = chain.block()
    return model.Block(block.spec, block.parent, (), (), (), LOCK, block.pays, block.dao, 0, WITNESS, time)


def after_the_best_branch():
    """Two branches, of which the second becomes the best: what counts is what it proposed and spent."""
    chain = Chain(w_close=1, w_far=4)
    one = pays(1000, THE_COIN)
    chain.grows(proposes=[one])
    fork = chain.tip
    chain.grows(commits=[one])
    chain.assembles(one, imports=False, wanted='refused J20, block')
    side = chain.block(parent=fork, nonce=1)
    chain.imports(side)
    chain.tip = chain.block(parent=fork, commits=[one])
    chain.assembles(one, imports=False, wanted='refused J20, block')
    chain.imports(chain.block(parent=side))
    chain.assembles(one, wanted='commit 1000 505, block')
    return chain


# ------------------------------------------------------------------- withdrawals

class Deposits:
    """The transaction of a genesis: a program, the same as the DAO's code, and a deposit."""

    outputs = [Cell(ANYONE, content=store.PROGRAM, capacity=store.occupied(store.PROGRAM)),
               Cell(ANYONE, type_script=CODE_NAME, content=store.PROGRAM, capacity=400 * SHANNONS),
               dao_cell(18_200_000_000, bytes(8))]

    def raw(self):
        return raw_transaction([cell_input(NULL_OUT_POINT)], [it.item() for it in self.outputs],
                               [it.content for it in self.outputs])

    def item(self):
        return encoding.transaction(self.raw())

    @property
    def hash(self):
        return ckbhash(self.raw())


class Spending(Transaction):
    """Spends an output under the DAO's code, names these headers, and counts so much more than its input has."""

    def __init__(self, spent, made, headers=(), witnesses=(), interest=0):
        deps = (Deposits(), 0), (Deposits(), 1)
        super().__init__([spent], [made], deps=deps, witnesses=witnesses)
        self.raw = raw_transaction(self.cell_inputs, [made.item()], [made.content],
                                   [out_point(source.hash, place) + b'\0' for source, place in deps], headers)
        self.item, self.hash = encoding.transaction(self.raw, self.witnesses), ckbhash(self.raw)
        self.proposal_id, self.interest = self.hash[:10], interest


def a_withdrawal():
    """The rate grows in block 1 alone, by a ten-thousandth; the interest is in the fee, and in the block's DAO field."""
    first = Deposits()
    used = sum(it.occupied() for it in first.outputs)
    chain = Chain(dao=(10_000, 10 ** 16, 10 ** 12, used), first=first, primary_reward=0, secondary_reward=2,
                  dao_code_hash=CODE_NAME.hash())
    deposit = first.outputs[2]
    start = Spending((first, 2), dao_cell(deposit.capacity, uint(1, 8)))
    chain.grows(proposes=[start])
    chain.grows()
    chain.assembles(start, wanted='commit 0 1010, block')
    withdrawing = chain.tip
    counted = (deposit.capacity - deposit.occupied()) * withdrawing.dao[1] // chain.genesis.dao[1] + deposit.occupied()
    named = table([b'', as_bytes(uint(0, 8)), b''])
    end = Spending((start, 0), Cell(ANYONE, capacity=counted - 100), headers=[chain.genesis.hash(), withdrawing.hash()],
                   witnesses=[named], interest=counted - deposit.capacity)
    unknown = Spending((start, 0), Cell(ANYONE, capacity=counted - 100), headers=[ZERO_HASH])
    chain.grows(proposes=[end, unknown])
    chain.grows()
    chain.assembles(unknown, end, wanted='refused J22, commit 100 1010, block')
    chain.assembles(wanted='block')
    return chain


# ------------------------------------------------------------------------ reading

def what_is_read():
    """How the reading may end."""
    chain = Chain()
    one = small(1).item
    size = len(WITNESS)
    chain.closes(b'', 8, 'cut 0')
    chain.closes(WITNESS[:3], 8, 'cut 0')
    chain.closes(WITNESS[:-1], 8, 'cut 0')
    chain.closes(uint(3, 4), 9, 'bad size 0')
    chain.closes(uint(MOST_BYTES + 1, 4) + WITNESS, 9, 'bad size 0')
    chain.closes(WITNESS + one[:-1], 8, 'cut %d' % size)
    chain.closes(WITNESS + b'\0', 8, 'cut %d' % size)
    chain.closes(WITNESS + one + uint(2, 4) + one, 9, 'bad size %d' % (size + len(one)))
    # a first item that is no witness, whatever follows it, and however the reading ends
    for first in (b'\4\0\0\0', one, LOCK, table([LOCK, b'']), table([LOCK, as_bytes(b''), b'']),
                  WITNESS[:4] + WITNESS[8:] + bytes(4)):
        chain.assembles(one, witness=first, wanted='no block J17')
    chain.closes(one + one[:5], 8, 'cut %d' % len(one))
    short = uint(4, 4)
    chain.assembles(*[short] * MOST_ITEMS, imports=False, wanted=', '.join(['refused J1'] * MOST_ITEMS + ['block']))
    most = WITNESS + short * MOST_ITEMS
    for more in (short, b'\0', uint(3, 4)):
        chain.closes(most + more, 12, 'extra %d' % len(most))
    chain.closes(most[:-1], 8, 'cut %d' % (len(most) - 4))
    return chain


CHAINS = (one_cell_spent_twice, each_on_the_other, over_three_blocks, the_shortest_window, proposed_by_an_uncle,
          what_is_no_transaction_of_a_block, broken_rules, what_the_length_leaves, what_the_length_leaves_for_ids,
          a_block_that_is_too_long, what_the_cycles_leave, few_proposals, many_proposals, a_reward_that_no_output_holds,
          rewards_with_fees, the_greatest_reward, no_next_field, the_greatest_timestamp, times_that_differ,
          after_the_best_branch, a_withdrawal, what_is_read)


def main():
    for make in CHAINS:
        made = make()
        for n, chain in enumerate([made] if isinstance(made, Chain) else made):
            name = make.__name__.replace('_', ' ')
            emit('folder', '%s %d' % (name, n))
            given = chain.spec.item() + chain.genesis.item()
            emit(name, 'init', 0, given, (genesis_line(chain.genesis) + '\n').encode())
            for words, status, items, text in chain.rows:
                emit(name, words, status, items, text)


if __name__ == '__main__':
    main()
