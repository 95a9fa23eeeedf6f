#!/usr/bin/env python3
"""Rows of tests/rows/runs.txt over blocks of both editions of the rules: `migrate`, and
`import`, `check`, `assemble` and `cell` on both sides of it; and of
crates/run_vectors/stdin where a call of the disk, a read or a write fails.

    python3 tests/rows/edition_runs.py

They stand at its end. On a chain beside each other stand
blocks that the three changed rules tell apart, each with one transaction or two: one
names the header of an ancestor (J22), one spends a cell by the age that a time gives it
(J24), one has its code by a type script in several deps (J28). What they are answered
with is worked out here, by docs/RULES.md: an edition is an epoch or none, and a height
stands under the second from that epoch on. `SAID` has some of it in plain words. At last
an edition is set over disks and streams of which one call fails, each in its turn.
Nothing is taken from the program.
"""

import dataclasses
import hashlib
import os
import sys

from common import emit, emit_listed

sys.path.append(os.path.join(os.path.dirname(os.path.abspath(__file__)), '..'))
import assemble_model as model  # noqa: E402 (beside the path above)
import encoding  # noqa: E402
import import_lines  # noqa: E402
import make_contract_chain as contract  # noqa: E402
import make_store as store  # noqa: E402
import paying_chain  # noqa: E402
from assemble_model import median_time  # noqa: E402
from encoding import NULL_OUT_POINT, cell_input, ckbhash, fixvec, raw_transaction, uint  # noqa: E402
from make_contract_chain import ANYONE, cell_of, point_of  # noqa: E402
from make_first_blocks import genesis_line, joined, tip  # noqa: E402
from make_store import COIN, PROGRAM  # noqa: E402
from paying_chain import CODE_NAME, ancestors, fee_of  # noqa: E402
from script_scene import Cell, Scene, Script  # noqa: E402

WITNESS = model.witness_with()
LENGTH, SPAN, FIRST_OF = 4, 4, 3
# the last height before the edition of most rows, and the first in it
LAST, START = FIRST_OF * LENGTH - 1, FIRST_OF * LENGTH
RELATIVE, TIME = 1 << 63, 2 << 61
# the block whose cell is spent by its age: its own time is far from the median at its parent
MADE_AT, MADE_TIME = 3, 6000

# the calls of the disk that `init` makes, and fewer than the runs after it make
INIT_CALLS, LEAST_CALLS = 8, 60
# the statuses of a read, a write and a call of the disk that failed
SOURCE_FAULT, SINK_FAULT, DISK_FAULT = 3, 4, 5

# the code that several cells have, and the same with a byte behind it, which runs alike
OTHER_PROGRAM = PROGRAM + b'\0'
BY_NAME = Script(CODE_NAME.hash(), hash_type=1)


class First:
    """The transaction of a genesis: the program, coins, and cells whose type script names them as code."""

    outputs = ([Cell(ANYONE, content=PROGRAM, capacity=store.occupied(PROGRAM))]
               + [Cell(ANYONE, capacity=COIN) for _ in range(3)]
               + [Cell(ANYONE, type_script=CODE_NAME, content=it, capacity=COIN) for it in (PROGRAM, PROGRAM, OTHER_PROGRAM)]
               + [Cell(BY_NAME, capacity=COIN)])

    def raw(self):
        return raw_transaction([cell_input(NULL_OUT_POINT)], [it.item() for it in self.outputs], [it.content for it in self.outputs])

    def item(self):
        return encoding.transaction(self.raw())

    @property
    def hash(self):
        return ckbhash(self.raw())


FIRST = First()
CODE = (FIRST, 0)
AGED_COIN, GROUP_COIN, COIN_OUTPUT, NAMED = ((FIRST, it) for it in (1, 2, 3, 7))
CODES = (FIRST, 4), (FIRST, 5), (FIRST, 6)


class Transaction(Scene):
    """Spends outputs, each with its since, and leaves a fee; `groups` are deps of cells that name others."""

    def __init__(self, spent, fee=1000, sinces=(), deps=(CODE,), groups=(), headers=(), content=b''):
        members = [it for group in groups for it in group[0].named]
        self.spent, self.sinces, self.names = list(spent), list(sinces) or [0] * len(spent), list(headers)
        made = [Cell(ANYONE, capacity=sum(cell_of(it).capacity for it in spent) - fee, content=content)]
        super().__init__(None, map(cell_of, spent), made, map(cell_of, [*deps, *members]))
        points = [point_of(it) + b'\0' for it in deps] + [point_of(it) + b'\1' for it in groups]
        self.raw = raw_transaction([cell_input(point_of(it), since) for it, since in zip(self.spent, self.sinces)],
                                   [it.item() for it in self.outputs], [it.content for it in self.outputs], points, headers)
        self.item = encoding.transaction(self.raw, ())
        self.hash, self.second = ckbhash(self.raw), False
        self.proposal_id = self.hash[:10]

    def code_of(self, script):
        """Under the second edition several are one where they are equal."""
        codes = super().code_of(script)
        return codes[:1] if self.second and len(set(codes)) == 1 else codes

    def comes_to(self, second, left):
        """The rule of J28 to J30 that it breaks, and its cycles."""
        self.second = second
        end, *rest = self.outcome(left).split()
        broken = {'ok': None, 'no_code': 28, 'many_codes': 28, 'spent': 30}.get(end, 29)
        return broken, None if broken else int(rest[-1])


# ------------------------------------------------------ transactions of the chain

AGED = Transaction([AGED_COIN])
GROUP = Transaction([GROUP_COIN], content=fixvec([point_of(CODES[0]), point_of(CODES[1])]))
GROUP.named = CODES[:2]
# spent in the block that makes it
FRESH = Transaction([COIN_OUTPUT], 2000)


def aged(seconds):
    return Transaction([(AGED, 0)], sinces=[RELATIVE | TIME | seconds])


def fresh(metric):
    return Transaction([(FRESH, 0)], sinces=[RELATIVE | metric])


def named(*places, groups=()):
    return Transaction([NAMED], deps=[CODE, *(CODES[it] for it in places)], groups=groups)


AGES = [aged(it) for it in range(12)]
FRESH_BY_TIME, FRESH_BY_NUMBER, FRESH_LATER = fresh(TIME), fresh(0), fresh(TIME | 1)
ALONE, EQUAL, DIFFERENT, ALL_THREE = named(0), named(0, 1), named(0, 2), named(0, 1, 2)
EQUAL_IN_GROUP, ONE_TWICE = named(groups=[(GROUP, 0)]), named(0, groups=[(GROUP, 0)])
NO_CODE = named()
BY_CODE = [ALONE, EQUAL, DIFFERENT, ALL_THREE, EQUAL_IN_GROUP, ONE_TWICE, NO_CODE]
STATIC = [AGED, GROUP, FRESH, FRESH_BY_TIME, FRESH_BY_NUMBER, FRESH_LATER, *AGES, *BY_CODE]

# the rule that a block breaks by the first edition, and by the second
SAID = {FRESH_BY_TIME.hash: (None, 24), FRESH_BY_NUMBER.hash: (None, None), FRESH_LATER.hash: (24, 24), ALONE.hash: (None, None),
        EQUAL.hash: (28, None), DIFFERENT.hash: (28, 28), ALL_THREE.hash: (28, 28), EQUAL_IN_GROUP.hash: (28, None),
        ONE_TWICE.hash: (28, None), NO_CODE.hash: (28, 28)}


# ------------------------------------------------------------------ the rules

def is_second(edition, height):
    return edition is not None and height // LENGTH >= edition


def made_at(branch, block, output):
    """The height of the block that made an output, or None."""
    if output[0] is FIRST:
        return 0
    return next((it.number for it in [*branch[1:], *([block] if block else [])] if output[0] in it.commits), None)


def start_of(branch, second, time, height):
    if second:
        return time if height == len(branch) else branch[height].timestamp
    return median_time(branch[:height]) if height else branch[0].timestamp


def broken_of(branch, edition, transaction, time, heights, left):
    """The first of J22, J24 and J28 to J30 that it breaks in the next block, which has this time, and its cycles.

    Its cells are live."""
    second, height = is_second(edition, len(branch)), len(branch)
    hashes = [it.hash() for it in branch]
    if not all(it in hashes and (second or height - hashes.index(it) >= SPAN) for it in transaction.names):
        return 22, None
    for since, made in zip(transaction.sinces, heights):
        value = since & (1 << 56) - 1
        if since & TIME and not median_time(branch) >= start_of(branch, second, time, made) + 1000 * value:
            return 24, None
        assert since & TIME or not value
    return transaction.comes_to(second, left)


def broken_by(edition, block):
    """The first rule that a block breaks; it keeps all others."""
    branch, left = ancestors(block.parent), 10 ** 9
    for it in block.commits:
        heights = [made_at(branch, block, output) for output in it.spent]
        broken, cycles = broken_of(branch, edition, it, block.timestamp, heights, left)
        if broken:
            return broken
        left -= cycles
    return None


class Assembly(model.Assembly):
    """A block that is assembled under an edition."""

    edition = None

    def broken(self, item):
        if not all(point in self.live for point in model.spent_by(item)):
            return 20, None
        block = self.block()
        heights = [made_at(self.branch, block, output) for output in item.spent]
        return broken_of(self.branch, self.edition, item, block.timestamp, heights, self.left)


# ------------------------------------------------------------------ the chain

class Chain(paying_chain.Chain):
    """A chain of which each block proposes all transactions, and those that name an ancestor of its own."""

    def __init__(self):
        super().__init__(None, FIRST, w_close=1, epoch_length=LENGTH, maturity=SPAN // LENGTH)
        self.first, self.naming = FIRST, {}

    def names(self, ancestor):
        """One that names the header of a block."""
        return self.naming.setdefault(ancestor.hash(), Transaction([COIN_OUTPUT], headers=[ancestor.hash()]))

    def proposed_on(self, parent):
        """What a block on this one proposes."""
        return STATIC + [self.names(it) for it in ancestors(parent)]

    def block(self, parent=None, **parts):
        parent = parent or self.tip
        made = super().block(parent=parent, proposes=self.proposed_on(parent), **parts)
        fields = [getattr(made, it.name) for it in dataclasses.fields(paying_chain.Block)]
        time = MADE_TIME if made.number == MADE_AT else 1000 + 1000 * made.number
        return model.Block(*fields, WITNESS, time)

    def plain(self, parent, height, nonce=0):
        """The blocks after a parent up to a height: one commits what makes the cells of the others."""
        found = []
        while parent.number < height:
            commits = [AGED, GROUP] if parent.number + 1 == MADE_AT else []
            parent = self.block(parent=parent, commits=commits, nonce=nonce)
            found.append(parent)
        return found

    def by_age(self, branch):
        """Those whose age is just reached after a branch, or just not, by one start of it or the other."""
        starts = median_time(branch[:MADE_AT]), MADE_TIME
        ages = sorted({(median_time(branch) - it) // 1000 + more for it in starts for more in (0, 1)})
        return [AGES[it] for it in ages if it >= 0]

    def beside(self, parent, nonce):
        """Blocks on a parent, none of which another stands on."""
        branch = ancestors(parent)
        commits = [[it] for it in self.by_age(branch)]
        commits += [[self.names(branch[len(branch) - back])] for back in (2, SPAN - 1, SPAN, SPAN + 1)]
        commits += [[FRESH, it] for it in (FRESH_BY_TIME, FRESH_BY_NUMBER, FRESH_LATER)] + [[it] for it in BY_CODE]
        return [self.block(parent=parent, commits=it, nonce=nonce) for it in commits]


def line_of(edition, block):
    broken = broken_by(edition, block)
    if block.commits and block.commits[-1].hash in SAID:
        assert broken == SAID[block.commits[-1].hash][is_second(edition, block.number)], block.commits
    return 'refused J%d' % broken if broken else joined(block)


# ------------------------------------------------------------------- the rows

class Rows:
    """The runs over one folder."""

    def __init__(self, chain, name, put=emit):
        self.chain, self.name, self.edition, self.best, self.put = chain, name, None, chain.genesis, put
        if put is emit:
            emit('folder', name)
        self.run('init', 0, chain.spec.item() + chain.genesis.item(), genesis_line(chain.genesis))

    def run(self, words, status, given, *lines, log=()):
        self.put(self.name, words, status, given, ''.join(it + '\n' for it in lines).encode(), *log)

    def imports(self, *blocks):
        lines = [line_of(self.edition, it) for it in blocks]
        for block, line in zip(blocks, lines):
            if line == joined(block) and block.number > self.best.number:
                self.best = block
        self.run('import', int(any(it.startswith('refused') for it in lines)), b''.join(it.item() for it in blocks), *lines)
        self.run('tip', 0, b'', tip(self.best))

    def migrates(self, epoch, log=()):
        reached = self.best.number // LENGTH
        if self.edition is not None:
            self.run('migrate %d' % epoch, 14, b'', 'edition %d' % self.edition)
        elif self.best.number and reached >= epoch:
            self.run('migrate %d' % epoch, 13, b'', 'too early %d' % reached)
        else:
            self.edition = epoch
            self.run('migrate %d' % epoch, 0, b'', 'edition %d' % epoch, log=log)

    def checks(self, *transactions):
        """Each after the tip, where no cell is made that another one spends."""
        branch = ancestors(self.best)
        live = model.live_cells(FIRST, branch)
        for it in transactions:
            broken, cycles = 20, None
            if all(point in live for point in model.spent_by(it)):
                heights = [made_at(branch, None, output) for output in it.spent]
                broken, cycles = broken_of(branch, self.edition, it, None, heights, 10 ** 9)
            self.run('check', int(bool(broken)), it.item, 'refused J%d' % broken if broken else 'ok %d %d' % (fee_of(it), cycles))

    def assembles(self, *items, wanted):
        """The block that is assembled joins, beside what stands on the tip later."""
        self.chain.tip = self.best
        kind = type('Assembly', (Assembly,), {'edition': self.edition})
        status, given, text, block = model.answer(self.chain, WITNESS, items, kind)
        said = [it.split(' 0x')[0] for it in text.decode().splitlines()]
        assert said == wanted.split(', '), said
        emit(self.name, 'assemble', status, given, text)
        self.imports(block)

    def cells(self):
        """Those that the chain's own transactions make."""
        live = model.live_cells(FIRST, ancestors(self.best))
        for it in (AGED, GROUP):
            cell, content = it.outputs[0], it.outputs[0].content
            there = point_of((it, 0)) in live
            line = 'live %d %d %d 0x%s - 0x%s %d' % (cell.capacity, cell.occupied(), MADE_AT, cell.lock.hash().hex(),
                                                      encoding.data_hash(content).hex(), len(content))
            self.run('cell 0x%s 0' % it.hash.hex(), 0, b'', line if there else 'none')


def across_the_edition(chain):
    """The edition is set in the last epoch before it; blocks of both sides come before it and after it, on two branches."""
    rows = Rows(chain, 'blocks on both sides of an edition')
    trunk = chain.plain(chain.genesis, LAST)
    fork, before = trunk[LAST - 4], trunk[LAST - 2]
    rows.imports(*trunk[:-1])
    rows.imports(trunk[-1], *chain.beside(before, 1))
    rows.migrates(LAST // LENGTH)
    rows.checks(*BY_CODE, *AGES, chain.names(trunk[-1]))
    rows.migrates(FIRST_OF)
    rows.migrates(FIRST_OF + 2)
    rows.cells()
    # the block after the tip stands in the edition's first epoch; the tip's own siblings stand before it
    rows.checks(*BY_CODE, *AGES, chain.names(trunk[-1]), chain.names(trunk[-2]))
    rows.imports(*chain.beside(before, 2))
    rows.imports(*chain.beside(trunk[-1], 3))
    # the tip is one that spends the cell of an age
    rows.checks(EQUAL, DIFFERENT, AGES[0])
    rows.cells()
    trunk += chain.plain(trunk[-1], START + 1)
    rows.imports(*trunk[START - 1:])
    rows.imports(*chain.beside(trunk[-1], 4))
    # a branch from below the edition passes the tip, and the first one passes it again
    other = chain.plain(fork, START + 3, nonce=5)
    rows.imports(*other[:LAST - fork.number])
    rows.imports(*chain.beside(other[LAST - fork.number - 1], 6))
    rows.imports(*chain.beside(other[LAST - fork.number - 2], 7))
    rows.imports(*other[LAST - fork.number:])
    rows.cells()
    rows.checks(EQUAL, DIFFERENT, chain.names(other[-1]), chain.names(trunk[-1]))
    rows.imports(*chain.plain(trunk[-1], START + 5))
    rows.checks(EQUAL, chain.names(other[-1]), chain.names(trunk[-1]))
    rows.cells()


def under_each_edition(chain):
    """The same items in one run: without an edition, and with one that is set on the genesis alone."""
    trunk = chain.plain(chain.genesis, START)
    items = trunk[:LAST] + chain.beside(trunk[LAST - 2], 1) + chain.beside(trunk[LAST - 1], 2)
    for edition in (None, 0, FIRST_OF - 1, FIRST_OF, FIRST_OF + 1):
        rows = Rows(chain, 'blocks under edition %s' % edition)
        if edition is not None:
            rows.migrates(edition, log_with(chain, edition))
        rows.imports(*items)
        rows.migrates(0)


def log_with(chain, edition):
    """LOG of a store with the genesis alone, with its edition: its length, and its hash."""
    record = import_lines.record
    log = b'CKBDEV01' + record(1, chain.spec.item()) + record(2, chain.genesis.item()) + record(4, uint(edition, 8))
    return ['%d:%s' % (len(log), hashlib.sha256(log).hexdigest())]


def assembled_under_each(chain):
    """Blocks that are assembled on both sides: the age of a cell that the same block makes goes by the block's own time."""
    trunk = chain.plain(chain.genesis, LAST - 1)
    items = FRESH, FRESH_BY_TIME, EQUAL, DIFFERENT, chain.names(trunk[-2])
    rows = Rows(chain, 'assembled on both sides of an edition')
    rows.imports(*trunk)
    rows.migrates(FIRST_OF)
    rows.assembles(*items, wanted='commit 2000 505, commit 1000 505, refused J28, refused J28, refused J20, block')
    rows = Rows(chain, 'assembled in an edition')
    rows.imports(*trunk)
    rows.imports(*chain.plain(trunk[-1], LAST))
    rows.migrates(FIRST_OF)
    rows.assembles(FRESH, FRESH_LATER, FRESH_BY_TIME, FRESH_BY_NUMBER, DIFFERENT, EQUAL,
                   wanted='commit 2000 505, refused J24, refused J24, commit 1000 505, refused J28, commit 1000 505, block')
    rows = Rows(chain, 'an ancestor named in a block that is assembled')
    rows.imports(*trunk)
    rows.assembles(chain.names(trunk[-2]), chain.names(trunk[-4]), wanted='refused J22, commit 1000 505, block')
    rows.migrates(FIRST_OF)
    rows.assembles(chain.names(trunk[-2]), FRESH, wanted='refused J20, refused J20, block')


def stopped(chain):
    """An edition is set, and blocks of both sides are imported, where each call in turn fails; the run is made once more then."""
    trunk = chain.plain(chain.genesis, LAST)
    for status, first, least in ((DISK_FAULT, INIT_CALLS, LEAST_CALLS), (SOURCE_FAULT, 1, 1), (SINK_FAULT, 1, 1)):
        rows = Rows(chain, 'an edition that is set where a call fails', emit_listed)
        rows.imports(*trunk)
        rows.migrates(FIRST_OF)
        rows.imports(*(it for at in (-2, -1) for it in chain.beside(trunk[at], 1) if it.commits[-1] in (EQUAL, DIFFERENT)))
        emit('faults', status, first, least)


def main():
    for make in (across_the_edition, under_each_edition, assembled_under_each, stopped):
        make(Chain())


if __name__ == '__main__':
    main()
