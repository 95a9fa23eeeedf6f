"""A block that is assembled of items, and the text of `assemble`, in plain Python.

It is a second reading of docs/RULES.md, "A block that is assembled", and of docs/COMMANDS.md,
"assemble", over chains of examples/paying_chain.py. It takes nothing from the program.

An item is bytes or a `Scene` of examples/script_scene.py with a hash and a proposal id, as
those of examples/make_contract_chain.py. Of the rules on a scene J18, J20 to J22, J25 and J27 to
J30 are judged, where they can be broken without a since, a dep group or a withdrawal that names
other headers than its own, and with a maturity of 0; no scene may break another.
"""

import dataclasses

import encoding
import import_lines
import paying_chain
from encoding import NULL_OUT_POINT, as_bytes, cell_input, cell_output, fields_of, items_of, out_point, raw_transaction, table
from make_store import LOCK
from paying_chain import ancestors, fee_of, next_dao, occupied_with, reward
from script_scene import Cell, Script

GREATEST = 2 ** 64 - 1
MOST_ITEMS, MOST_BYTES = 1000, 1 << 20


def witness_with(lock=LOCK, message=b''):
    """A `CellbaseWitness`."""
    return table([lock, as_bytes(message)])


# ------------------------------------------------------------------- the block

@dataclasses.dataclass(frozen=True)
class Block(paying_chain.Block):
    """One that may stand on a chain: its cellbase has this witness, and its header this timestamp."""

    witness: bytes
    time: int

    @property
    def timestamp(self):
        return self.time

    def cellbase(self):
        outputs = [cell_output(capacity, lock) for capacity, lock in self.pays]
        raw = raw_transaction([cell_input(NULL_OUT_POINT, self.number)], outputs, [b''] * len(outputs))
        return encoding.transaction(raw, [self.witness])


def median_time(branch):
    times = sorted(it.timestamp for it in branch[-37:])
    return times[len(times) // 2]


def payments(spec, branch):
    """What the cellbase after a branch pays, as pairs of a capacity and a lock, and whether it can be paid at all."""
    target = len(branch) - (spec.w_far + 1)
    if target <= 0:
        return (), True
    lock, given = branch[target].lock, reward(spec, branch, target)
    if given > GREATEST:
        return (), False
    return (((given, lock),) if given >= occupied_with(lock) else ()), True


# ------------------------------------------------------------------ the cells

def cells_of(block):
    """The outputs of each of a block's transactions, with its hash; those of a genesis are the chain's to say."""
    head = fields_of(block.cellbase())[0]
    paid = [Cell(script_of(lock), capacity=capacity) for capacity, lock in block.pays]
    return [(encoding.ckbhash(head), paid)] + [(it.hash, it.outputs) for it in block.commits]


def script_of(lock):
    code_hash, hash_type, args = fields_of(lock)
    return Script(code_hash, hash_type[0], args[4:])


def spent_by(transaction):
    return [it[8:] for it in items_of(fields_of(transaction.raw)[3], 44)]


def put(live, tx_hash, outputs):
    live.update({out_point(tx_hash, place): cell for place, cell in enumerate(outputs)})


def live_cells(first, branch):
    """The cells by their out-points after a branch. `first` is the transaction of the genesis."""
    live = {}
    put(live, first.hash, first.outputs)
    for block in branch[1:]:
        (cellbase, paid), *_ = cells_of(block)
        put(live, cellbase, paid)
        for it in block.commits:
            spend(live, it)
    return live


def spend(live, transaction):
    for point in spent_by(transaction):
        del live[point]
    put(live, transaction.hash, transaction.outputs)


# ---------------------------------------------------------------- the rules

def broken_of(transaction, live, branch, left):
    """The first of J18 and J20 to J30 that it breaks over these cells, and the cycles that it takes where it breaks none."""
    version, deps, headers, inputs, outputs, data = fields_of(transaction.raw)
    deps, headers = items_of(deps, 37), items_of(headers, 32)
    points, made = spent_by(transaction), fields_of(outputs)
    assert all(it[:8] == bytes(8) for it in items_of(inputs, 44)) and all(it[36] == 0 for it in deps)
    rules = {
        18: lambda: (version == bytes(4) and points and made and len(fields_of(data)) == len(made)
                     and len(set(deps)) == len(deps) and len(set(headers)) == len(headers)),
        20: lambda: len(set(points)) == len(points) and all(it in live for it in points),
        21: lambda: all(it[:36] in live for it in deps),
        22: lambda: all(it in [block.hash() for block in branch] for it in headers),
        25: lambda: all(it.capacity >= it.occupied() for it in transaction.outputs),
        27: lambda: fee_of(transaction) >= 0,
    }
    for rule, holds in rules.items():
        if not holds():
            return rule, None
    end, *rest = transaction.outcome(left).split()
    broken = {'ok': None, 'no_code': 28, 'many_codes': 28, 'spent': 30}.get(end, 29)
    return broken, None if broken else int(rest[-1])


def is_proposed(spec, branch, transaction):
    """J19, at the height after the branch."""
    window = range(max(1, len(branch) - spec.w_far), len(branch) - spec.w_close + 1)
    proposers = [it for height in window for it in (branch[height],) + branch[height].uncles]
    return any(transaction.proposal_id in it.ids() for it in proposers)


class Assembly:
    """A block on a chain so far, and the line of each item so far."""

    def __init__(self, chain, witness):
        self.spec, self.branch = chain.spec, ancestors(chain.tip)
        self.witness, self.lines = witness, []
        self.live, self.left = live_cells(chain.first, self.branch), self.spec.max_cycles
        self.commits, self.proposes = [], []
        self.pays, self.payable = payments(self.spec, self.branch)
        put(self.live, *cells_of(self.block())[0])

    # ------------------------------------------------------------ an item

    def take(self, item):
        self.lines.append(self.line_of(item))

    def line_of(self, item):
        if isinstance(item, bytes):
            return self.line_of_bytes(item)
        if any(it.hash == item.hash for it in self.commits):
            return 'refused J16'
        if not is_proposed(self.spec, self.branch, item):
            return self.proposed(item)
        broken, cycles = self.broken(item)
        if broken:
            return 'refused J%d' % broken
        if not self.fits(self.commits + [item], self.proposes):
            return 'later'
        self.commits.append(item)
        self.left -= cycles
        spend(self.live, item)
        return 'commit %d %d' % (fee_of(item), cycles)

    def broken(self, item):
        return broken_of(item, self.live, self.branch, self.left)

    def line_of_bytes(self, item):
        """Of bytes nothing is known but whether they are a transaction; one must be a cellbase."""
        try:
            read = import_lines.Transaction(item)
        except import_lines.NoEncoding:
            return 'refused J1'
        assert read.is_cellbase()
        return 'refused J16'

    def proposed(self, item):
        ids = [it.proposal_id for it in self.proposes]
        few = len(ids) < self.spec.max_proposals
        if item.proposal_id in ids or not few or not self.fits(self.commits, self.proposes + [item]):
            return 'later'
        self.proposes.append(item)
        return 'propose'

    def fits(self, commits, proposes):
        """J9: it has no uncles."""
        transactions = [self.block().cellbase()] + [it.item for it in commits]
        whole = encoding.block(bytes(208), transactions, [it.proposal_id for it in proposes])
        return len(whole) <= self.spec.max_block_bytes

    # ---------------------------------------------------------- the block

    def block(self, dao=(0, 0, 0, 0)):
        median = median_time(self.branch)
        return Block(self.spec, self.branch[-1], tuple(self.commits), tuple(self.proposes), (),
                     fields_of(self.witness)[0], self.pays, dao, 0, self.witness, min(median + 1, GREATEST))

    def sealed(self):
        """The block, and the first rule that it breaks."""
        field = next_dao(self.spec, self.branch[-1], self.commits, self.pays)
        there = all(0 <= it <= GREATEST for it in field)
        block = self.block(tuple(field) if there else (0, 0, 0, 0))
        rules = {
            8: median_time(self.branch) < GREATEST,
            9: self.fits(self.commits, self.proposes),
            31: self.payable,
            32: there,
        }
        return block, next((rule for rule, holds in rules.items() if not holds), None)


def assembled(chain, witness, items, kind):
    """The lines of the items, and the block, of which there is none where it breaks a rule: that is the second line then."""
    assembly = kind(chain, witness)
    for item in items:
        assembly.take(item)
    block, broken = assembly.sealed()
    if broken:
        return assembly.lines + ['no block J%d' % broken], None
    return assembly.lines + ['block 0x%s' % block.item().hex()], block


# ------------------------------------------------------------------- the text

def bytes_of(item):
    return item if isinstance(item, bytes) else item.item


def answer(chain, witness, items, kind=Assembly):
    """The status, the input and the text of `assemble`, and the block, where there is one. `kind` judges the items."""
    given = witness + b''.join(map(bytes_of, items))
    if not import_lines.lock_named(witness):
        lines, block = ['no block J17'], None
    else:
        lines, block = assembled(chain, witness, items, kind)
    refused = any(it.startswith(('refused', 'no block')) for it in lines)
    return int(refused), given, ''.join(it + '\n' for it in lines).encode(), block
