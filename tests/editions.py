"""Stores that get an edition: what `migrate` prints and leaves, snapshots on both sides of it, and runs that are cut off."""

import dataclasses
import functools
import os
import random
import subprocess
import sys
import time

from chain_snapshots import areas, put
from folders import Killed, log_with
from harness import (Ran, chain_of, chaingen, first, log_of, must, must_answer, must_be, must_have_tip, new_folder, new_store)
sys.path.insert(0, os.path.join(os.path.dirname(os.path.abspath(__file__)), 'rows'))
import assemble_model  # noqa: E402 (beside the path above)
import edition_runs  # noqa: E402
import paying_chain  # noqa: E402
from edition_runs import AGED, DIFFERENT, EQUAL, FIRST, GROUP, LENGTH, SPAN, STATIC, point_of  # noqa: E402
from encoding import data_hash, uint  # noqa: E402
from paying_chain import ancestors  # noqa: E402
from store_model import Chain, Stops, over, record  # noqa: E402

GREATEST = 2 ** 64 - 1
EPOCH = 10
# the record of an edition: the gate, the kind, a length of four bytes and the epoch
RECORD = 14


def record_of(epoch):
    return record(4, uint(epoch, 8))


def must_say(program, folder, words, status, line, what):
    must_answer(Ran([program, folder, *words.split()]), status, (line + '\n').encode(), '%s: %s' % (what, words))


# -------------------------------------------------------- what comes of it

class Forked:
    """Thirty blocks in a row, and a branch that leaves them at height 28 and is higher: at 29 each spends another coin."""

    def __init__(self):
        chain = paying_chain.Chain(None, FIRST, w_close=1, epoch_length=EPOCH)
        self.init, self.genesis = chain.spec.item() + chain.genesis.item(), chain.genesis
        self.row, self.other = [chain.genesis], []
        while len(self.row) <= 30:
            height = len(self.row)
            self.row.append(chain.block(self.row[-1], proposes=[AGED, GROUP] if height < 29 else [], commits=[AGED] if height == 29 else []))
        tip = self.row[28]
        while tip.number < 31:
            tip = chain.block(tip, commits=[GROUP] if tip.number == 28 else [], nonce=1)
            self.other.append(tip)

    def store(self, program):
        return new_store(program, self.init, (first.genesis_line(self.genesis) + '\n').encode())

    def must_import(self, program, folder, blocks, what):
        ran = Ran([program, folder, 'import'], b''.join(it.item() for it in blocks))
        must_answer(ran, 0, ''.join(first.joined(it) + '\n' for it in blocks).encode(), what)

    def must_have_cells(self, program, folder, tip, what):
        """Those that the two transactions make, as a replay of the tip's branch has them."""
        branch = ancestors(tip)
        live = assemble_model.live_cells(FIRST, branch)
        must_have_tip(program, folder, (first.tip(tip) + '\n').encode(), what)
        for it in (AGED, GROUP):
            cell = it.outputs[0]
            height = next((block.number for block in branch[1:] if it in block.commits), None)
            must_be(point_of((it, 0)) in live, height is not None, 'a cell of the model')
            line = 'none' if height is None else 'live %d %d %d 0x%s - 0x%s %d' % (
                cell.capacity, cell.occupied(), height, cell.lock.hash().hex(), data_hash(cell.content).hex(), len(cell.content))
            must_say(program, folder, 'cell 0x%s 0' % it.hash.hex(), 0, line, what)


def check_migrate_at_the_last_height_before_it(program):
    """The tip stands at height 29 of epochs of ten blocks, so epoch 3 has not begun: it may have an edition. Blocks of both sides
    come then, on two branches."""
    chain = Forked()
    with chain.store(program) as folder:
        chain.must_import(program, folder, chain.row[1:30], 'blocks up to height 29')
        before = log_of(folder)
        must_say(program, folder, 'migrate 3', 0, 'edition 3', 'at height 29')
        after = log_of(folder)
        must_be(len(after), len(before) + RECORD, 'bytes of the log')
        must_be(after, before[:-1] + record_of(3) + b'\0', 'the log with an edition')
        for words in ('migrate 5', 'migrate 3', 'migrate 0'):
            must_say(program, folder, words, 14, 'edition 3', 'once more')
            must_be(log_of(folder), after, 'the log after ' + words)
        chain.must_import(program, folder, chain.row[30:], 'the first block in the edition')
        chain.must_have_cells(program, folder, chain.row[30], 'in the edition')
        chain.must_import(program, folder, chain.other, 'a branch from below it')
        chain.must_have_cells(program, folder, chain.other[-1], 'after a reorganisation across it')
        must_say(program, folder, 'migrate 9', 14, 'edition 3', 'after a reorganisation across it')


def check_migrate_when_the_epoch_has_begun(program):
    chain = Forked()
    with chain.store(program) as folder:
        chain.must_import(program, folder, chain.row[1:], 'blocks up to height 30')
        before = areas(folder)
        for epoch in (3, 2, 0):
            must_say(program, folder, 'migrate %d' % epoch, 13, 'too early 3', 'at height 30')
            must_be(areas(folder), before, 'what it leaves')
        must_say(program, folder, 'migrate %d' % GREATEST, 0, 'edition %d' % GREATEST, 'from the last epoch on')
        must_be(log_of(folder), before['log'][:-1] + record_of(GREATEST) + b'\0', 'the log')
        must_say(program, folder, 'migrate 4', 14, 'edition %d' % GREATEST, 'once more')
        must_answer(Ran([program, folder, 'migrate', str(GREATEST + 1)]), 2, b'', 'an epoch above the greatest u64')
        chain.must_import(program, folder, chain.other, 'blocks that stand below it')
        chain.must_have_cells(program, folder, chain.other[-1], 'below it')
    for epoch in (0, 1, GREATEST):
        with chain.store(program) as folder:
            must_say(program, folder, 'migrate %d' % epoch, 0, 'edition %d' % epoch, 'on a genesis alone')
            must_say(program, folder, 'migrate 7', 14, 'edition %d' % epoch, 'once more')
            chain.must_import(program, folder, chain.row[1:], 'blocks on a genesis with an edition')
            must_have_tip(program, folder, (first.tip(chain.row[30]) + '\n').encode(), 'after them')


# --------------------------------------------------- snapshots on both sides

# a snapshot is taken of so many blocks. An edition is set before the first, between the two, and after the second
EVERY = 1000
SET_AT = 990, 1050, 2010
LAST = 2012
# heights at which blocks propose: those below a place at which others are tried
TRIED = 1001, 1055, 1998, LAST
NEAR = 9


@dataclasses.dataclass(frozen=True)
class Placed(assemble_model.Block):
    """A block that does not ask all its ancestors for its height."""

    height: int

    @property
    def number(self):
        return self.height


class LongChain(edition_runs.Chain):
    """Of its blocks those near the heights that are tried propose."""

    def block(self, parent=None, **parts):
        made = super().block(parent, **parts)
        placed = Placed(*(getattr(made, it.name) for it in dataclasses.fields(made)), made.number)
        # now, where its parent has been hashed: a hash of the last one goes down all the chain
        placed.hash()
        return placed

    def proposed_on(self, parent):
        if not any(it - NEAR <= parent.number + 1 <= it + NEAR for it in (NEAR, *TRIED)):
            return []
        near = [parent]
        while near[-1].number and len(near) < 2 * SPAN:
            near.append(near[-1].parent)
        return STATIC + [self.names(it) for it in near]

    def by_age(self, branch):
        return []


class Tried(edition_runs.Rows):
    """Rows that are run at once over a folder."""

    def __init__(self, program, folder, chain, name):
        def run(name, words, status, given, text):
            must_answer(Ran([program, folder, *words.split(' ')], given), status, text, '%s, %s' % (name, words))

        self.folder = folder
        super().__init__(chain, name, run)

    def image(self):
        return areas(self.folder), self.best

    def restore(self, image):
        """What the folder had before, with one of the two snapshots, or none."""
        found, self.best = image
        put(self.folder, found)

    def must_answer_with_each(self, blocks):
        """The same answers over both snapshots, either of them, and none, before and after blocks are imported."""
        image, tried = self.image(), []
        for kept in (('snap_a', 'snap_b'), ('snap_a',), ('snap_b',), ()):
            found = {area: content if area in (*kept, 'log') else b'' for area, content in image[0].items()}
            if found in tried:
                continue
            tried.append(found)
            self.restore((found, image[1]))
            self.cells()
            self.checks(EQUAL, DIFFERENT, self.chain.names(self.best), self.chain.names(ancestors(self.best)[-SPAN]))
            if self.edition is not None:
                self.run('migrate 0', 14, b'', 'edition %d' % self.edition)
            else:
                self.run('migrate 0', 13, b'', 'too early %d' % (self.best.number // LENGTH))
            self.imports(*blocks)
            self.cells()
        self.restore(image)


@functools.lru_cache(maxsize=None)
def long_chain():
    """It, its blocks in a row, and a branch that leaves them at a height and passes them."""
    chain = LongChain()
    row = [chain.genesis] + chain.plain(chain.genesis, LAST)
    return chain, row, chain.plain(row[1994], LAST + 2, nonce=1)


def check_snapshots_on_both_sides_of_an_edition(program):
    """Before the edition, after it, and after a reorganisation across it, over snapshots that were taken before it and after it."""
    chain, row, other = long_chain()
    for set_at, epoch in zip(SET_AT, (SET_AT[0] // LENGTH + 1, 499, SET_AT[2] // LENGTH + 1)):
        with new_folder() as folder:
            rows = Tried(program, folder, chain, 'an edition set at height %d' % set_at)
            for end in sorted({set_at, *TRIED}):
                rows.imports(*row[rows.best.number + 1:end + 1])
                if end in TRIED:
                    rows.must_answer_with_each(chain.beside(row[end - 1], 2) + chain.beside(row[end], 3))
                if end == set_at:
                    rows.migrates(end // LENGTH)
                    rows.migrates(epoch)
                    rows.must_answer_with_each(row[end + 1:end + 2])
            found = areas(folder)
            for area, number in (('snap_a', 1), ('snap_b', 2)):
                must_be(found[area][:5], b'\1' + uint(number, 4), 'the gate and the number of ' + area)
            rows.must_answer_with_each(other)
            # of the branch at first just so many blocks that it is one below the tip
            rows.imports(*other[:-3])
            rows.must_answer_with_each(other[-3:] + chain.beside(other[-1], 4))


# --------------------------------------------------------- runs that are cut off

def check_stops_of_an_edition(program):
    """At each call of the disk in `migrate`, and in the import of the next block: the store has its edition or none, and the same
    blocks; the same command then sets it or finds it."""
    spec, genesis, blocks, _, _ = chaingen.make(0, 29)
    chain, epoch, count = Chain(spec, genesis, blocks), 5, 27
    reached = chain.numbers[chain.tip(count)] // EPOCH
    must(reached < epoch and reached > 0, 'the epoch of the tip is %d' % reached)
    before, edition = chain.log(count), record_of(epoch)
    rest = [record(3, chain.body(at)) for at in (count + 1, count + 2)]
    stops = Stops({'log': before + b'\0', 'snap_a': b'', 'snap_b': b''})
    stops.append(len(before), uint(epoch, 8), kind=4)
    stops.append(len(before + edition), chain.body(count + 1))
    kept_without, kept_with = 0, 0
    with new_folder() as folder:
        for what, image in stops.images + [('no stop', stops.areas)]:
            put(folder, image)
            log = image['log']
            has_edition = log[len(before):len(before) + 1] == b'\1'
            at = len(before + edition)
            has_block = has_edition and log[at:at + 1] == b'\1'
            kept_without, kept_with = kept_without + (not has_edition), kept_with + has_edition
            tip = chain.line(b'tip', chain.tip(count + has_block))
            must_have_tip(program, folder, tip, what)
            if has_edition:
                must_say(program, folder, 'migrate 0', 14, 'edition %d' % epoch, what)
            else:
                must_say(program, folder, 'migrate 0', 13, 'too early %d' % reached, what)
            must_be(areas(folder), image, what + ': what it leaves')
            must_say(program, folder, 'migrate %d' % epoch, 14 if has_edition else 0, 'edition %d' % epoch, what)
            must_have_tip(program, folder, tip, what + ', with its edition')
            lines = [chain.known(count + 1) if has_block else chain.line(b'joined', count + 1), chain.line(b'joined', count + 2)]
            must_answer(Ran([program, folder, 'import'], b''.join(blocks[count:])), 0, b''.join(lines), what + ': import')
            must_be(areas(folder), {**image, 'log': over(0, before + edition + b''.join(rest) + b'\0', log)}, what + ': the store in the end')
    must(kept_without > 5 and kept_with > 5, 'images without the edition: %d, with it: %d' % (kept_without, kept_with))


class Sessions(Killed):
    """A store that grows by imports which are killed, and gets an edition on the way by commands that are."""

    def __init__(self, program, folder, chain):
        super().__init__(program, folder, chain)
        self.edition, self.tried, self.began = None, [], 0

    def epochs(self):
        """Those in which the tip may stand: the block that was under way may be kept."""
        most = min(self.count + 1, len(self.chain.blocks))
        return sorted({int(self.chain.tip(it).split()[1]) // EPOCH for it in (self.count, most)})

    def migrate_and_kill(self):
        epoch = self.epochs()[-1] + 1 + self.dice.randrange(3)
        self.tried.append(epoch)
        process = subprocess.Popen([self.program, self.folder, 'migrate', str(epoch)], stdin=subprocess.DEVNULL, stdout=subprocess.PIPE)
        try:
            time.sleep(self.dice.uniform(0, 0.004))
        finally:
            process.kill()
            out, _ = process.communicate()
        if self.edition is not None:
            must(out in (b'', b'edition %d\n' % self.edition), 'an edition that is set once more: %r' % out)
        elif out:
            must_be(out, b'edition %d\n' % epoch, 'an edition')
            self.edition = epoch

    def must_have_edition(self):
        """The one that was answered; or, where none was, none or one of those that were asked for. Over a genesis alone the command
        that asks would set one."""
        if not self.count:
            return
        ran = Ran([self.program, self.folder, 'migrate', '0'])
        if ran.status == 14 and self.edition is None:
            self.edition = int(ran.out.split()[1])
            must(self.edition in self.tried, 'an edition that nothing asked for: %d' % self.edition)
        if self.edition is not None:
            must_answer(ran, 14, b'edition %d\n' % self.edition, 'the edition')
        else:
            must_be(ran.status, 13, 'status of what is too early')
            must(ran.out in [b'too early %d\n' % it for it in self.epochs()], 'what is too early: %r' % ran.out)

    def must_be_left(self):
        """All blocks in a row, and between two of them the edition."""
        log, edition = log_of(self.folder), record_of(self.edition)
        at = log.find(edition)
        must(at > 0, 'the log has no edition')
        must((log[:at] + log[at + RECORD:]).startswith(log_with(self.chain.init, self.chain.blocks)), 'the log is another')
        ends = [len(log_with(self.chain.init, self.chain.blocks[:it])) for it in range(len(self.chain.blocks) + 1)]
        must(at in ends, 'the edition stands inside a record')


def check_sessions_over_a_store_with_an_edition(program):
    """Imports and the command are killed at any moment: no block that was answered is lost, and an edition that is set stays."""
    chain = chain_of(1200)
    dice = random.Random()
    with chain.store(program) as folder:
        store = Sessions(program, folder, chain)
        for number in range(120):
            store.import_and_kill()
            if store.count > 100 and (store.edition is None or dice.random() < 0.2):
                store.migrate_and_kill()
                store.must_have_edition()
            if number % 4 == 0:
                store.must_have_tip()
                store.must_have_edition()
        while store.edition is None:
            epoch = store.epochs()[-1] + 1
            store.tried.append(epoch)
            must_say(program, folder, 'migrate %d' % epoch, 0, 'edition %d' % epoch, 'after sessions')
            store.must_have_edition()
        store.must_go_on()
        store.must_have_edition()
