"""Chains whose cellbases pay rewards, block by block.

What a block pays and its DAO field are worked out here, in plain Python, by docs/RULES.md,
"The reward" and "Capacity and the DAO field". Nothing is taken from the program.
"""

import dataclasses
import functools

import encoding
import make_contract_chain as contract
import make_store as store
from encoding import NULL_OUT_POINT, ZERO_HASH, as_bytes, cell_input, cell_output, ckbhash, fields_of, hash_of_all, \
    raw_transaction, script, table, transactions_root
from make_contract_chain import ANYONE
from make_first_blocks import joined
from make_store import LOCK, SHANNONS, Spec
from script_scene import Cell, Script

# what a cellbase's output with the lock of all occupies
LEAST = 41 * SHANNONS
# 20 bytes of args: its outputs occupy 61 CKB
LONG_LOCK = script(ckbhash(store.PROGRAM), args=bytes(20))


def occupied_with(lock):
    """What a cellbase's output with this lock occupies."""
    args = fields_of(lock)[2][4:]
    return LEAST + len(args) * SHANNONS


@dataclasses.dataclass(frozen=True)
class Block:
    """A block with its parent, what it commits and proposes, its uncles, the lock that it names and what its cellbase pays."""

    spec: Spec
    parent: object
    commits: tuple
    proposes: tuple
    uncles: tuple
    lock: bytes
    # pairs of a capacity and a lock
    pays: tuple
    dao: tuple
    nonce: int

    @property
    def number(self):
        return self.parent.number + 1

    @property
    def timestamp(self):
        return self.parent.timestamp + 1000

    def cellbase(self):
        outputs = [cell_output(capacity, lock) for capacity, lock in self.pays]
        raw = raw_transaction([cell_input(NULL_OUT_POINT, self.number)], outputs, [b''] * len(outputs))
        return encoding.transaction(raw, [table([self.lock, as_bytes(b'')])])

    def transactions(self):
        return [self.cellbase()] + [it.item for it in self.commits]

    def ids(self):
        return [it.proposal_id for it in self.proposes]

    def header(self):
        return encoding.header(
            self.number, self.parent.hash(), compact_target=self.spec.compact_target, timestamp=self.timestamp,
            epoch=self.spec.epoch_field(self.number), transactions_root=transactions_root(self.transactions()),
            proposals_hash=hash_of_all(self.ids()), uncles_hash=hash_of_all([it.hash() for it in self.uncles]), dao=self.dao,
            nonce=self.nonce)

    def item(self):
        uncles = [encoding.uncle(it.header(), it.ids()) for it in self.uncles]
        return encoding.block(self.header(), self.transactions(), self.ids(), uncles)

    @functools.cached_property
    def header_hash(self):
        return ckbhash(self.header())

    def hash(self):
        return self.header_hash


def ancestors(block):
    """The blocks from the genesis to this one."""
    found = []
    while block:
        found.append(block)
        block = getattr(block, 'parent', None) if block.number else None
    return found[::-1]


def interest_of(transaction):
    """What its withdrawing inputs count beyond their capacities."""
    return getattr(transaction, 'interest', 0)


def fee_of(transaction):
    counted = sum(it.capacity for it in transaction.inputs) + interest_of(transaction)
    return counted - sum(it.capacity for it in transaction.outputs)


def earliest(spec, branch, transaction, committed):
    """The lowest height of the window at which a block or one of its uncles proposes it."""
    for height in range(max(1, committed - spec.w_far), committed - spec.w_close + 1):
        block = branch[height]
        if any(transaction in it.proposes for it in (block,) + block.uncles):
            return height
    return None


def reward(spec, branch, target):
    """The four parts of docs/RULES.md, "The reward"."""
    c, _, _, u = branch[target - 1].dao
    given = spec.primary(target) + spec.secondary(target) * u // c
    given += sum(fee - 4 * fee // 10 for fee in map(fee_of, branch[target].commits))
    for height in range(target + spec.w_close, target + spec.w_far + 1):
        given += sum(4 * fee_of(it) // 10 for it in branch[height].commits
                     if earliest(spec, branch, it, height) == target)
    return given


def owed(spec, branch):
    """What the cellbase on this branch pays: pairs of a capacity and a lock, at most one."""
    target = len(branch) - (spec.w_far + 1)
    if target <= 0:
        return ()
    lock, given = branch[target].lock, reward(spec, branch, target)
    return ((given, lock),) if given >= occupied_with(lock) else ()


def next_dao(spec, parent, commits, pays):
    number = parent.number + 1
    c, ar, s, u = parent.dao
    second = spec.secondary(number)
    made = sum(occupied_with(lock) for _, lock in pays)
    made += sum(cell.occupied() for it in commits for cell in it.outputs)
    freed = sum(cell.occupied() for it in commits for cell in it.inputs)
    interest = sum(map(interest_of, commits))
    return (c + spec.primary(number) + second, ar + ar * second // c, s - interest + second - second * u // c, u + made - freed)


class Chain:
    """A store and the items that are imported, each with its line."""

    def __init__(self, dao=None, first=None, **fields):
        self.spec = Spec(**fields)
        genesis = store.genesis(self.spec, outputs=((store.occupied(contract.CONTRACT), contract.CONTRACT),))
        if first:
            genesis = dataclasses.replace(genesis, transactions=(first,))
        self.genesis = dataclasses.replace(genesis, dao=dao) if dao else genesis
        self.tip, self.kept, self.items = self.genesis, [], []

    def block(self, parent=None, commits=(), proposes=(), uncles=(), lock=LOCK, nonce=0, **changes):
        """The next block on the tip, or on another, that keeps all rules but for what changes."""
        parent = parent or self.tip
        pays = changes.get('pays', owed(self.spec, ancestors(parent)))
        dao = changes.get('dao', next_dao(self.spec, parent, commits, pays))
        return Block(self.spec, parent, tuple(commits), tuple(proposes), tuple(uncles), lock, tuple(pays), tuple(dao), nonce)

    def joins(self, **parts):
        self.tip = self.block(**parts)
        self.kept.append(self.tip)
        self.items.append((self.tip.item(), joined(self.tip)))

    def refuses(self, rule, **parts):
        self.items.append((self.block(**parts).item(), 'refused J%d' % rule))

    def grows_to(self, number):
        while self.tip.number < number:
            self.joins()


# the type script of the cell that has the DAO's code, and the one that names that code
CODE_NAME = Script(ZERO_HASH, args=b'code')
DAO = Script(CODE_NAME.hash(), hash_type=1)


def dao_cell(capacity, content):
    return Cell(ANYONE, type_script=DAO, content=content, capacity=capacity)
