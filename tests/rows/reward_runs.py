#!/usr/bin/env python3
"""Rows of tests/rows/runs.txt over chains whose cellbases pay rewards: J31 and J32
as imports.

    python3 tests/rows/reward_runs.py

They stand there after rows that no script here makes. Each chain is a store of its own,
and its items are one input of `import`. A block that joins pays what is worked out
here, in plain Python, by docs/RULES.md, "The reward" and "Capacity and the DAO field";
one that is refused differs from it in what its line says. Nothing is taken from the
program.
"""

from common import emit

import encoding
import make_store as store
import paying_chain
from encoding import NULL_OUT_POINT, as_bytes, cell_input, ckbhash, out_point, raw_transaction, table, uint
from make_contract_chain import ANYONE, First, Transaction
from make_first_blocks import genesis_line
from make_store import COIN, LOCK, SHANNONS, Spec
from paying_chain import CODE_NAME, LEAST, LONG_LOCK, dao_cell, interest_of, next_dao
from script_scene import Cell


class Chain(paying_chain.Chain):
    """A chain with blocks that differ in what they pay."""

    def tries_payments(self):
        """Where one output is owed: one shannon more and less, another lock, no output; then each number of the field one off."""
        ((capacity, lock),) = self.block().pays
        self.refuses(31, pays=[(capacity + 1, lock)])
        self.refuses(31, pays=[(capacity - 1, lock)])
        self.refuses(31, pays=[(capacity, LONG_LOCK if lock == LOCK else LOCK)])
        self.refuses(31, pays=[])
        self.tries_fields()
        # both are broken: J31 comes first
        self.refuses(31, pays=[], dao=(1, 1, 1, 1))

    def tries_fields(self, **parts):
        for part in range(4):
            for off in (1, -1):
                dao = list(self.block(**parts).dao)
                if dao[part] + off >= 0:
                    dao[part] += off
                    self.refuses(32, dao=dao, **parts)
        if self.block(**parts).dao != self.tip.dao:
            self.refuses(32, dao=self.tip.dao, **parts)


def spends_of(fees):
    """Transactions that pay these fees, each of which spends what the one before it made."""
    found, spent, left = [], (First, 1), COIN
    for fee in fees:
        left -= fee
        found.append(Transaction([spent], [Cell(ANYONE, capacity=left)]))
        spent = (found[-1], 0)
    return found


# ------------------------------------------------------------- withdrawals

class Deposits:
    """The transaction of a genesis: a program, the same as the DAO's code, and two deposits."""

    outputs = [Cell(ANYONE, content=store.PROGRAM, capacity=store.occupied(store.PROGRAM)),
               Cell(ANYONE, type_script=CODE_NAME, content=store.PROGRAM, capacity=400 * SHANNONS),
               dao_cell(18_200_000_000, bytes(8)), dao_cell(31_000_000_007, bytes(8))]

    def raw(self):
        return raw_transaction([cell_input(NULL_OUT_POINT)], [it.item() for it in self.outputs],
                               [it.content for it in self.outputs])

    def item(self):
        return encoding.transaction(self.raw())

    @property
    def hash(self):
        return ckbhash(self.raw())


class Spending:
    """Spends an output of an earlier transaction under the DAO's code, and makes a cell."""

    def __init__(self, spent, made, headers=(), witnesses=(), interest=0):
        source, place = spent
        deps = [out_point(Deposits().hash, it) + b'\0' for it in (0, 1)]
        self.inputs, self.outputs, self.interest = [source.outputs[place]], [made], interest
        raw = raw_transaction([cell_input(out_point(source.hash, place))], [made.item()], [made.content], deps, headers)
        self.item = encoding.transaction(raw, witnesses)
        self.hash = ckbhash(raw)
        self.proposal_id = self.hash[:10]


def two_withdrawals():
    """Two deposits of the genesis are withdrawn in one block: the rate grows in block 1 alone, by a ten-thousandth."""
    first = Deposits()
    used = sum(it.occupied() for it in first.outputs)
    chain = Chain(dao=(10_000, 10 ** 16, 10 ** 12, used), first=first, primary_reward=0, secondary_reward=2,
                  dao_code_hash=CODE_NAME.hash())
    starts = [Spending((first, place), dao_cell(first.outputs[place].capacity, uint(1, 8))) for place in (2, 3)]
    chain.joins(proposes=starts)
    chain.joins()
    chain.joins(commits=starts)
    # the index of the deposit's block among the header deps
    named = table([b'', as_bytes(uint(0, 8)), b''])
    ends = []
    for start in starts:
        cell = start.outputs[0]
        counted = (cell.capacity - cell.occupied()) * chain.tip.dao[1] // chain.genesis.dao[1] + cell.occupied()
        made = Cell(ANYONE, capacity=counted - 100)
        ends.append(Spending((start, 0), made, headers=[chain.genesis.hash(), chain.tip.hash()], witnesses=[named],
                             interest=counted - cell.capacity))
    assert ends[0].outputs[0].capacity == 18_201_000_000 - 100
    chain.joins(proposes=ends)
    chain.joins()
    chain.tries_fields(commits=ends)
    # the interest is not taken from S, and added to it
    c, ar, s, u = chain.block(commits=ends).dao
    total = sum(map(interest_of, ends))
    chain.refuses(32, commits=ends, dao=(c, ar, s + total, u))
    chain.refuses(32, commits=ends, dao=(c, ar, s + 2 * total, u))
    chain.joins(commits=ends)
    chain.joins()
    return chain


# ------------------------------------------------------------------ chains

def the_shortest_window():
    """The window is 1 to 1, so that block 3 pays block 1, to the lock that each block names."""
    chain = Chain(w_close=1, w_far=1)
    chain.tries_fields()
    chain.refuses(31, pays=[(LEAST, LOCK)])
    chain.joins(lock=LONG_LOCK)
    chain.refuses(31, pays=[(LEAST, LOCK)])
    chain.joins()
    chain.tries_payments()
    chain.joins()
    chain.tries_payments()
    chain.joins()
    return chain


def the_longest_window():
    """The window is 1 to 100: block 102 is the first that pays. Block 1 proposes what block 101 commits."""
    chain = Chain(w_close=1, w_far=100)
    one, = spends_of([99])
    chain.joins(proposes=[one])
    chain.grows_to(100)
    chain.joins(commits=[one])
    chain.tries_payments()
    chain.joins()
    chain.joins()
    return chain


def small_rewards():
    """1,003 shannons an epoch of ten blocks: no output is owed, whatever else is paid."""
    chain = Chain(primary_reward=1003, secondary_reward=0)
    chain.grows_to(11)
    for capacity in (101, 102, LEAST, LEAST + 101):
        chain.refuses(31, pays=[(capacity, LOCK)])
    chain.joins()
    chain.refuses(31, pays=[(LEAST, LOCK)])
    chain.joins()
    return chain


def the_least_that_is_paid():
    """A reward that an output just holds, and one of a shannon less, to a lock without args; the same to one of 20 bytes."""
    for least, lock in ((LEAST, LOCK), (LEAST + 20 * SHANNONS, LONG_LOCK)):
        for less in (0, 1):
            chain = Chain(w_close=1, w_far=1, epoch_length=1, primary_reward=least - less, secondary_reward=0)
            chain.joins(lock=lock)
            chain.joins()
            if less:
                chain.refuses(31, pays=[(least - 1, lock)])
                chain.refuses(31, pays=[(least, lock)])
            else:
                chain.tries_payments()
            chain.joins()
            yield chain


def the_greatest_reward():
    """One of 2^64 - 1 is paid; none that is greater: the miner's part of block 1 is U' shannons, as C' and s are 1."""
    given = Spec(epoch_length=1, halving_interval=1, primary_reward=2 ** 64 - 2 ** 10).primary(1)
    for above in (0, 1):
        used = 2 ** 64 - 1 - given + above
        chain = Chain(dao=(1, 10 ** 16, used + 10, used), w_close=1, w_far=1, epoch_length=1, halving_interval=1,
                      primary_reward=2 ** 64 - 2 ** 10, secondary_reward=1)
        chain.joins()
        chain.joins()
        if above:
            for pays in ((), ((2 ** 64 - 1, LOCK),), ((LEAST, LOCK),)):
                chain.refuses(31, pays=pays, dao=next_dao(chain.spec, chain.tip, (), pays))
        else:
            chain.refuses(31, pays=[])
            chain.joins()
        yield chain


def no_next_field():
    """C, AR, S or U would leave u64: no block can follow. Where one is at its edge it joins, and the next does not."""
    greatest = 2 ** 64 - 1
    zero = dict(epoch_length=1, primary_reward=0, secondary_reward=0)
    # C + g passes the greatest u64
    yield refused_by_field((greatest, 10 ** 16, 0, 0), epoch_length=1, primary_reward=1, secondary_reward=0)
    # AR doubles
    yield refused_by_field((1, 2 ** 63, 10, 0), epoch_length=1, primary_reward=0, secondary_reward=1)
    # S grows by s, of which no miner takes a part
    yield refused_by_field((10 ** 16, 1, greatest, 0), epoch_length=1, primary_reward=0, secondary_reward=1)
    # the miner's part is more than S
    yield refused_by_field((1, 1, 10, 12), epoch_length=1, primary_reward=0, secondary_reward=1)
    # all four at the greatest, and nothing moves
    chain = Chain(dao=(greatest,) * 4, **zero)
    chain.joins()
    chain.refuses(32, dao=(greatest - 1,) + (greatest,) * 3)
    chain.joins()
    yield chain


def refused_by_field(dao, **fields):
    chain = Chain(dao=dao, **fields)
    wanted = [it % 2 ** 64 for it in next_dao(chain.spec, chain.tip, (), ())]
    for field in (wanted, dao, [max(0, min(2 ** 64 - 1, it)) for it in next_dao(chain.spec, chain.tip, (), ())]):
        chain.refuses(32, dao=field)
    return chain


def shared_fees():
    """Fees of 99, 0, 9 and 10, each proposed more than once in the window."""
    chain = Chain(w_close=2, w_far=5, epoch_length=4, primary_reward=10 ** 12 + 3, secondary_reward=10 ** 11 + 1)
    a, b, c, d = spends_of([99, 0, 9, 10])
    # genesis's child is the earliest proposer of a, block 3 proposes it again
    chain.joins(proposes=[a])
    chain.joins()
    chain.joins(proposes=[a, b])
    # beside blocks 4 and never imported: two uncles propose b, which block 3 proposed before
    uncles = [chain.block(proposes=[b], nonce=it) for it in (1, 2)]
    chain.joins(lock=LONG_LOCK)
    chain.joins(commits=[a], uncles=uncles, proposes=[c])
    # block 6 and an uncle of it propose d; its other uncle alone proposes c, after block 5 did
    uncles = [chain.block(proposes=[d], nonce=1), chain.block(proposes=[c], nonce=2)]
    chain.joins(commits=[b])
    chain.joins(proposes=[d], uncles=uncles)
    chain.tries_payments()
    chain.joins()
    chain.joins(commits=[c, d])
    for _ in range(8):
        chain.tries_payments()
        chain.joins()
    return chain


def proposed_before_its_window():
    """An id that was proposed w_far + 1 blocks before it is committed, and once more within the window."""
    chain = Chain(w_close=2, w_far=4)
    one, two = spends_of([1000, 2003])
    chain.joins(proposes=[one])
    chain.joins(proposes=[two])
    chain.joins()
    # the one at w_far is the earliest still
    chain.joins(proposes=[one, two])
    chain.joins()
    chain.joins(commits=[one, two])
    for _ in range(7):
        chain.tries_payments()
        chain.joins()
    return chain


def another_branch():
    """What blocks on another branch commit is not paid on this one."""
    chain = Chain(w_close=1, w_far=2)
    one, two = spends_of([777, 8_888])
    chain.joins(proposes=[one, two])
    fork = chain.tip
    chain.joins(commits=[one])
    chain.joins()
    chain.joins()
    first = chain.tip
    chain.tip = fork
    chain.joins(nonce=1)
    chain.joins(commits=[one, two], nonce=1)
    chain.tries_payments()
    chain.joins(nonce=1)
    chain.tries_payments()
    chain.joins()
    chain.tip = first
    chain.tries_payments()
    chain.joins()
    return chain


CHAINS = (the_shortest_window, the_longest_window, small_rewards, the_least_that_is_paid, the_greatest_reward,
          no_next_field, shared_fees, proposed_before_its_window, another_branch, two_withdrawals)


def main():
    for make in CHAINS:
        made = make()
        for n, chain in enumerate([made] if isinstance(made, Chain) else made):
            name = make.__name__.replace('_', ' ')
            lines = [line for _, line in chain.items]
            emit('folder', '%s %d' % (name, n))
            given = chain.spec.item() + chain.genesis.item()
            emit(name, 'init', 0, given, (genesis_line(chain.genesis) + '\n').encode())
            refused = any(it.startswith('refused') for it in lines)
            emit(name, 'import', int(refused), b''.join(item for item, _ in chain.items),
                 ''.join(it + '\n' for it in lines).encode())


if __name__ == '__main__':
    main()
