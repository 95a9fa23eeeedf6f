#!/usr/bin/env python3
"""The stored runs of `import` and `tip`, worked out again: those of tests/rows/runs.txt and of crates/run_vectors/stdin.

    python3 tests/import_lines.py

This is a second reading of docs/RULES.md, docs/FORMATS.md and docs/STORE.md, and of
the texts and statuses in docs/COMMANDS.md. It uses nothing of the other scripts. It
prints each row whose text, status or LOG differs, and how many agree; its status is 1
where one differs.

It judges a block by J1 to J14, J16, J17, J31 and J32. That is all there is to ask of
a block of a cellbase alone, where no fee is committed that its cellbase may pay. Two
kinds of runs it cannot judge, and counts.

Left out is a run whose disk or streams fail, and after one of `init` or `import`
each later run over the same folder, until a LOG is put there: what is kept is not
known.

Judged in part is a run that reads a block of another form: one that keeps J1 to J14 and
has an uncle, one that keeps J1 to J17 and has more transactions than its cellbase, or
one that keeps J1 to J17 after such a block on its branch. The line of such a block is
taken at its word, where it is `joined` with the block's number and hash, or names a
rule that was not looked at. All other lines must agree. What joins so is kept; but LOG
is not compared from there on, since its ext is not worked out.
"""

import collections
import hashlib
import itertools
import os
import sys

HERE = os.path.dirname(os.path.abspath(__file__))
ROWS = os.path.join(HERE, 'rows', 'runs.txt')
LISTS = os.path.join(os.path.dirname(HERE), 'crates', 'run_vectors', 'stdin')
ZERO_HASH = bytes(32)
NULL_OUT_POINT = ZERO_HASH + b'\xff' * 4
SHANNONS = 10 ** 8
ITEM_LIMIT, BLOCK_LIMIT = 1 << 20, 10 ** 6


class Unjudged(Exception):
    """A block of a form that is not judged here, with the rules that it may break."""

    def rule_in(self, line):
        """The one of them that a line names, if it does."""
        return next((rule for rule in self.args[0] if line == 'refused J%d' % rule), None)


# ------------------------------------------------- Molecule (docs/FORMATS.md)

class NoEncoding(Exception):
    pass


def must(holds):
    if not holds:
        raise NoEncoding


def number(content):
    return int.from_bytes(content, 'little')


def of_size(content, size):
    must(len(content) == size)
    return content


def fixvec(content, size):
    must(len(content) >= 4 and len(content) == 4 + number(content[:4]) * size)
    return [content[at:at + size] for at in range(4, len(content), size)]


def as_bytes(content):
    must(len(content) >= 4 and len(content) == 4 + number(content[:4]))
    return content[4:]


def dynvec(content):
    must(len(content) >= 4 and number(content[:4]) == len(content))
    if len(content) == 4:
        return []
    must(len(content) >= 8)
    start = number(content[4:8])
    must(start % 4 == 0 and 8 <= start <= len(content))
    offsets = [number(content[at:at + 4]) for at in range(4, start, 4)] + [len(content)]
    must(all(one <= other for one, other in zip(offsets, offsets[1:])))
    return [content[one:other] for one, other in zip(offsets, offsets[1:])]


def table(content, count):
    fields = dynvec(content)
    must(len(fields) == count)
    return fields


class Script:
    def __init__(self, content):
        code_hash, hash_type, args = table(content, 3)
        of_size(code_hash, 32)
        of_size(hash_type, 1)
        self.args, self.content = as_bytes(args), content


class Output:
    def __init__(self, content):
        capacity, lock, type_script = table(content, 3)
        self.capacity = number(of_size(capacity, 8))
        self.lock = Script(lock)
        self.type_script = Script(type_script) if type_script else None

    def occupied(self, data):
        size = 8 + 33 + len(self.lock.args) + len(data)
        if self.type_script:
            size += 33 + len(self.type_script.args)
        return size * SHANNONS


class Transaction:
    def __init__(self, content):
        raw, witnesses = table(content, 2)
        version, cell_deps, header_deps, inputs, outputs, data = table(raw, 6)
        self.version = number(of_size(version, 4))
        self.cell_deps, self.header_deps = fixvec(cell_deps, 37), fixvec(header_deps, 32)
        self.inputs = [(number(it[:8]), it[8:]) for it in fixvec(inputs, 44)]
        self.outputs = [Output(it) for it in dynvec(outputs)]
        self.data = [as_bytes(it) for it in dynvec(data)]
        self.witnesses = [as_bytes(it) for it in dynvec(witnesses)]
        self.hash, self.witness_hash = ckbhash(raw), ckbhash(content)

    def out_points(self):
        return [self.hash + place.to_bytes(4, 'little') for place in range(len(self.outputs))]

    def is_cellbase(self):
        return [point for _, point in self.inputs] == [NULL_OUT_POINT]


class Header:
    def __init__(self, content):
        of_size(content, 208)
        self.version, self.compact_target = number(content[:4]), number(content[4:8])
        self.timestamp, self.number, self.epoch = (number(content[at:at + 8]) for at in (8, 16, 24))
        (self.parent_hash, self.transactions_root, self.proposals_hash,
         self.uncles_hash) = (content[at:at + 32] for at in (32, 64, 96, 128))
        self.issued, self.rate, self.savings, self.occupied = self.dao = [
            number(content[at:at + 8]) for at in range(160, 192, 8)]
        self.hash = ckbhash(content)


class Uncle:
    def __init__(self, content):
        header, proposals = table(content, 2)
        self.header, self.proposals = Header(header), fixvec(proposals, 10)


class Block:
    def __init__(self, content):
        header, uncles, transactions, proposals = table(content, 4)
        self.header, self.uncles = Header(header), [Uncle(it) for it in dynvec(uncles)]
        self.transactions = [Transaction(it) for it in dynvec(transactions)]
        self.proposals, self.size = fixvec(proposals, 10), len(content)


def block_of(content):
    """The block that these bytes are, or None."""
    try:
        return Block(content)
    except NoEncoding:
        return None


def lock_named(witness):
    """The lock of a `CellbaseWitness`, or None."""
    try:
        lock, message = table(witness, 2)
        as_bytes(message)
        return Script(lock)
    except NoEncoding:
        return None


# --------------------------------------------------- hashes (docs/RULES.md)

def ckbhash(message):
    return hashlib.blake2b(message, digest_size=32, person=b'ckb-default-hash').digest()


def hash_of_all(parts):
    return ckbhash(b''.join(parts)) if parts else ZERO_HASH


def root(items):
    if not items:
        return ZERO_HASH
    nodes = [b''] * (len(items) - 1) + list(items)
    for place in range(len(items) - 2, -1, -1):
        nodes[place] = ckbhash(nodes[2 * place + 1] + nodes[2 * place + 2])
    return nodes[0]


def transactions_root(transactions):
    return root([root([it.hash for it in transactions]), root([it.witness_hash for it in transactions])])


# ---------------------------------------------------------- what is kept

class Spec:
    def __init__(self, content):
        self.content = content
        (self.compact_target, self.epoch_length, self.w_close, self.w_far, self.max_block_bytes,
         self.max_proposals) = (number(content[at:at + 4]) for at in range(4, 28, 4))
        self.max_cycles, self.maturity = number(content[28:36]), number(content[36:44])
        self.primary_reward, self.secondary_reward, self.halving_interval = (
            number(content[at:at + 8]) for at in (44, 52, 60))

    def is_good(self):
        """S1 to S7."""
        index, length = self.maturity >> 24 & 0xffff, self.maturity >> 40 & 0xffff
        return (len(self.content) == number(self.content[:4]) == 100
                and 1 <= self.epoch_length <= 65535
                and 1 <= self.w_close <= self.w_far <= 100
                and 1 <= self.max_block_bytes <= 1 << 20
                and 1 <= self.max_cycles <= 1 << 40
                and self.maturity < 1 << 56 and (index < length or index == length == 0)
                and self.halving_interval >= 1)

    def epoch_field(self, height):
        length = self.epoch_length
        return height // length + (height % length << 24) + (length << 40)

    def shares(self, height):
        """Those of a block in the primary and in the secondary reward of its epoch."""
        epoch, index = divmod(height, self.epoch_length)
        for reward in (self.primary_reward >> epoch // self.halving_interval, self.secondary_reward):
            yield reward // self.epoch_length + (index < reward % self.epoch_length)


def is_good_genesis(block):
    """G1 to G7."""
    hashes = [it.hash for it in block.transactions] if block else []
    return (hashes and block.header.number == 0 and not block.uncles and not block.proposals
            and block.header.issued > 0 and block.header.rate > 0 and len(set(hashes)) == len(hashes)
            and all(len(it.data) == len(it.outputs) for it in block.transactions)
            and all(output.capacity >= output.occupied(data)
                    for it in block.transactions for output, data in zip(it.outputs, it.data)))


class Store:
    """A specification and the kept blocks, with the place of the parent of each."""

    def __init__(self, spec, genesis):
        self.spec = Spec(spec)
        self.blocks, self.parents, self.places = [], [], {}
        # None where it is not known
        self.log = b'CKBDEV01' + record(1, spec) + record(2, genesis)
        # how many lines were taken at their word
        self.trusted = 0
        self.keep(Block(genesis), None)

    def keep(self, block, parent):
        self.places[block.header.hash] = len(self.blocks)
        self.blocks.append(block)
        self.parents.append(parent)

    def branch(self, place):
        """The blocks from the genesis to the one at this place."""
        found = []
        while place is not None:
            found.append(self.blocks[place])
            place = self.parents[place]
        return found[::-1]

    def tip(self):
        return max(self.blocks, key=lambda it: it.header.number)

    def judge(self, item, said):
        """The line of an item, which is kept where it joins. `said` is the row's line."""
        block = block_of(item)
        if not block:
            return 'refused J1'
        header = block.header
        if header.hash in self.places:
            return 'known 0x%s' % header.hash.hex()
        if header.parent_hash not in self.places:
            return 'refused J3'
        parent = self.places[header.parent_hash]
        # that of a block that pays no fee and spends no cell
        ext = bytes(8)
        try:
            rule = first_broken(self.spec, self.branch(parent), block)
        except Unjudged as unjudged:
            rule, ext = unjudged.rule_in(said), None
            self.trusted += 1
        if rule:
            return 'refused J%d' % rule
        if len(self.blocks) >= BLOCK_LIMIT:
            return 'full'
        self.keep(block, parent)
        known = ext is not None and self.log is not None
        self.log = self.log + record(3, len(item).to_bytes(4, 'little') + item + ext) if known else None
        return 'joined %d 0x%s' % (header.number, header.hash.hex())


# -------------------------------------------- J4 to J14, J16, J17, J31, J32

def first_of(rules):
    return next((rule for rule, holds in rules.items() if not holds), None)


def median_time(branch):
    times = sorted(it.header.timestamp for it in branch[-37:])
    return times[len(times) // 2]


def broken_of_header(spec, branch, header):
    return first_of({
        4: header.version == 0,
        5: header.number == branch[-1].header.number + 1,
        6: header.epoch == spec.epoch_field(header.number),
        7: header.compact_target == spec.compact_target,
        8: header.timestamp > median_time(branch),
    })


def broken_of_content(spec, block):
    header, ids = block.header, block.proposals
    return first_of({
        9: block.size - 10 * sum(len(it.proposals) for it in block.uncles) <= spec.max_block_bytes,
        10: len(ids) <= spec.max_proposals and len(set(ids)) == len(ids),
        11: header.proposals_hash == hash_of_all(ids),
        12: header.transactions_root == transactions_root(block.transactions),
        13: len(block.uncles) <= 2,
        14: header.uncles_hash == hash_of_all([it.header.hash for it in block.uncles]),
    })


def live_cells(branch):
    """The out-points of the cells that are live after the events of a branch."""
    live = set()
    for height, block in enumerate(branch):
        for place, transaction in enumerate(block.transactions):
            if height and place:
                live -= {point for _, point in transaction.inputs}
            live |= set(transaction.out_points())
    return live


def has_cellbase(transactions):
    hashes = [it.hash for it in transactions]
    others = [True] + [False] * (len(transactions) - 1)
    return (bool(transactions) and [it.is_cellbase() for it in transactions] == others
            and len(set(hashes)) == len(hashes))


def has_form_of_cellbase(cellbase, height, branch):
    return (cellbase.version == 0 and not cellbase.cell_deps and not cellbase.header_deps
            and cellbase.inputs[0][0] == height
            and len(cellbase.outputs) <= 1 and len(cellbase.data) == len(cellbase.outputs)
            and not any(it.type_script for it in cellbase.outputs) and not any(cellbase.data)
            and not live_cells(branch) & set(cellbase.out_points())
            and bool(cellbase.witnesses) and bool(lock_named(cellbase.witnesses[0])))


def first_broken(spec, branch, block):
    """The first rule after J3 that a block breaks on a branch, if one."""
    header, transactions = block.header, block.transactions
    rule = broken_of_header(spec, branch, header) or broken_of_content(spec, block)
    if rule:
        return rule
    if block.uncles:
        raise Unjudged(range(15, 33))
    if not has_cellbase(transactions):
        return 16
    if not has_form_of_cellbase(transactions[0], header.number, branch):
        return 17
    if len(transactions) > 1:
        raise Unjudged(range(18, 33))
    if any(len(it.transactions) > 1 for it in branch[1:]):
        raise Unjudged((31, 32))
    if not pays_reward(spec, branch, transactions[0]):
        return 31
    return None if header.dao == next_dao(spec, branch, transactions[0]) else 32


def pays_reward(spec, branch, cellbase):
    """J31, where no block of the branch has committed a fee."""
    paid, reward, lock = len(branch) - (spec.w_far + 1), 0, None
    if paid > 0:
        primary, secondary = spec.shares(paid)
        before = branch[paid - 1].header
        reward = primary + secondary * before.occupied // before.issued
        lock = lock_named(branch[paid].transactions[0].witnesses[0])
    if reward >= 1 << 64:
        return False
    if lock is None or reward < (8 + 33 + len(lock.args)) * SHANNONS:
        return not cellbase.outputs
    return [(it.capacity, it.lock.content, it.type_script) for it in cellbase.outputs] == [(reward, lock.content, None)]


def next_dao(spec, branch, cellbase):
    """The field after a block that spends nothing, or None."""
    primary, secondary = spec.shares(len(branch))
    c, ar, s, u = branch[-1].header.dao
    made = sum(output.occupied(data) for output, data in zip(cellbase.outputs, cellbase.data))
    field = [c + primary + secondary, ar + ar * secondary // c, s + secondary - secondary * u // c, u + made]
    return field if all(0 <= it < 1 << 64 for it in field) else None


# ------------------------------------------------------- LOG (docs/STORE.md)

def record(kind, body):
    """A record from its open gate on."""
    return b'\1' + bytes([kind]) + len(body).to_bytes(4, 'little') + body


def records_of(log):
    """The kind and the body of each whole record."""
    at = 8
    while log[at:at + 1] == b'\1' and len(log) >= at + 6:
        after = at + 6 + number(log[at + 2:at + 6])
        if after >= len(log):
            break
        yield log[at + 1], log[at + 6:after]
        at = after


def is_ext(content):
    rows_at = 4 + 8 * number(content[:4])
    rows = content[rows_at + 4:]
    count = number(content[rows_at:rows_at + 4])
    return (len(content) >= rows_at + 4 and len(rows) == 161 * count
            and all(rows[at + 92] == 1 or rows[at + 92:at + 125] == bytes(33) for at in range(0, len(rows), 161)))


def kept_in(log):
    """The store that LOG holds, or None."""
    records = list(records_of(log))
    if log[:8] != b'CKBDEV01' or [kind for kind, _ in records[:2]] != [1, 2]:
        return None
    (_, spec), (_, genesis) = records[:2]
    if not Spec(spec).is_good() or not is_good_genesis(block_of(genesis)):
        return None
    store = Store(spec, genesis)
    edition = None
    for kind, body in records[2:]:
        if kind == 4:
            if edition is not None or len(body) != 8:
                return None
            edition = number(body)
            store.log += record(kind, body)
            continue
        end = 4 + number(body[:4])
        block = block_of(body[4:end])
        if kind != 3 or not block or not is_ext(body[end:]) or len(store.blocks) >= BLOCK_LIMIT:
            return None
        parent = store.places.get(block.header.parent_hash)
        if parent is None or block.header.hash in store.places:
            return None
        if block.header.number != store.blocks[parent].header.number + 1:
            return None
        store.keep(block, parent)
        store.log += record(kind, body)
    return store


# --------------------------------------------------- runs (docs/COMMANDS.md)

def items_of(given):
    """The items of an input, and the closing line with its status, if there is one."""
    items, at = [], 0
    while at < len(given):
        size = number(given[at:at + 4])
        if len(given) < at + 4:
            return items, ('cut %d\n' % at, 8)
        if not 4 <= size <= ITEM_LIMIT:
            return items, ('bad size %d\n' % at, 9)
        if len(given) < at + size:
            return items, ('cut %d\n' % at, 8)
        items.append(given[at:at + size])
        at += size
    return items, None


def run_import(store, given, wanted):
    """The text and the status. `wanted` is the row's text."""
    if not store:
        return '', 7
    items, closing = items_of(given)
    said = wanted.split('\n')[:len(items)]
    lines = [store.judge(*it) for it in itertools.zip_longest(items, said)]
    text = ''.join(it + '\n' for it in lines)
    if closing:
        return text + closing[0], closing[1]
    return text, int(any(it == 'full' or it.startswith('refused') for it in lines))


def run_tip(store, *_):
    if not store:
        return '', 7
    header = store.tip().header
    return 'tip %d 0x%s\n' % (header.number, header.hash.hex()), 0


RUNS = {'import': run_import, 'tip': run_tip}
# what stands in place of a store where that is not known
UNKNOWN = 'unknown'


def bytes_of(column):
    """Bytes in hex, and after a `+` how many zero bytes follow."""
    digits, _, zeros = column.partition('+')
    return bytes.fromhex(digits.strip('-')) + bytes(int(zeros or 0))


def is_open(area):
    """Whether the gate of a snapshot's area is open."""
    return len(area) > 1 and area[0] == 1


class Trial:
    """The folder that the rows act on, and how many runs of each command agree, differ and so on."""

    def __init__(self):
        self.store, self.put, self.given = None, b'', b''
        self.disk_fails = self.streams_fail = False
        self.counts = {name: collections.Counter() for name in RUNS}

    def row(self, name, columns):
        if name in ('folder', 'list', 'faults', 'more'):
            # (a run of `faults` has the row's text where its disk does not fail)
            self.store, self.put, self.disk_fails = None, b'', name == 'list' and columns != ['-']
        elif name == 'put':
            if columns[0] == 'log':
                self.put = bytes_of(columns[1])
                self.store = kept_in(self.put)
            elif is_open(bytes_of(columns[1])):
                # what a snapshot is, is not read here
                self.store = UNKNOWN
        elif name not in ('left', 'byte', 'fronts'):
            self.call(name, *columns)

    def list(self, rows):
        """The rows of a list of runs: the last says of which calls of the disk fail."""
        self.row(*rows[-1])
        for name, (*columns, reads, writes) in rows[:-1]:
            self.streams_fail = (reads, writes) != ('-', '-')
            self.call(name, *columns)

    def call(self, name, words, status, given, text, log=None):
        self.given = self.given if given == '=' else bytes_of(given)
        folder, *command = words.split(',')[1:] or [''] if words.startswith(':') else ['any', *words.split(' ')]
        fails, self.streams_fail = self.disk_fails or self.streams_fail, False
        if not folder:
            # such words are not in the grammar
            return
        if command == ['init']:
            self.after_init(fails, status)
        elif len(command) == 1 and command[0] in RUNS:
            said = self.answer(command[0], fails, (bytes_of(text).decode(), int(status)), log)
            self.counts[command[0]][said] += 1
            if said == 'differ':
                print('differs: %s' % name)

    def after_init(self, fails, status):
        """Whether a run of `init` made a store is for its own row to say."""
        if fails:
            self.store = UNKNOWN
        elif status == '0':
            size = number(self.given[:4])
            self.store = Store(self.given[:size], self.given[size:])

    def answer(self, command, fails, wanted, log):
        if fails or self.store == UNKNOWN:
            if command == 'import':
                self.store = UNKNOWN
            return 'left out'
        trusted = self.store.trusted if self.store else 0
        answered = RUNS[command](self.store, self.given, wanted[0])
        in_part = bool(self.store) and self.store.trusted > trusted
        if in_part:
            self.counts[command]['taken at their word'] += self.store.trusted - trusted
        if log and not (self.store and self.store.log is None):
            # up to an offset: the records of a store, or what was put where there is none
            kept = self.store.log if self.store else self.put[:int(log.split(':')[0])]
            answered += ('%d:%s' % (len(kept), hashlib.sha256(kept).hexdigest()),)
            wanted += (log,)
        if answered != wanted:
            return 'differ'
        return 'agree in part' if in_part else 'agree'


def rows_of(file):
    with open(file, encoding='ascii') as rows:
        for row in rows:
            name, *columns = row.rstrip('\n').split('\t')
            yield name, columns


def main():
    trial = Trial()
    for name, columns in rows_of(ROWS):
        trial.row(name, columns)
    rows = []
    for name, columns in rows_of(LISTS):
        if name == 'chain':
            # a piece of a generated chain, and no run
            continue
        rows.append((name, columns))
        if name in ('list', 'faults', 'more'):
            trial.list(rows)
            rows = []
    for command, counts in trial.counts.items():
        print('%s: %d runs agree, %d differ, %d are left out' % (
            command, counts['agree'], counts['differ'], counts['left out']))
        if counts['agree in part']:
            print('%s: %d more agree but for %d lines, which are taken at their word' % (
                command, counts['agree in part'], counts['taken at their word']))
    return int(any(counts['differ'] for counts in trial.counts.values()))


if __name__ == '__main__':
    sys.exit(main())
