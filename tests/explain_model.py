"""What a page of `ckbtrace` says of a transaction or a block that is refused: the place, what is found and what is
wanted, by docs/RULES.md alone."""

import os
import sys

TOP = os.path.dirname(os.path.dirname(os.path.abspath(__file__)))
sys.path.insert(0, os.path.join(TOP, 'examples'))

from encoding import NULL_OUT_POINT, ckbhash, data_hash, fields_of, hash_of_all, items_of, number_of, transactions_root  # noqa: E402

MOST = 2 ** 64 - 1


class Spec:
    def __init__(self, content):
        def at(place, size):
            return number_of(content[place:place + size])
        self.compact_target, self.length, self.w_close, self.w_far = at(4, 4), at(8, 4), at(12, 4), at(16, 4)
        self.max_bytes, self.max_proposals, self.max_cycles, self.maturity = at(20, 4), at(24, 4), at(28, 8), at(36, 8)
        self.primary_reward, self.secondary_reward, self.halving = at(44, 8), at(52, 8), at(60, 8)
        self.dao_code = content[68:100]


class Cell:
    """An output with its data, the height of its block, the place there of its transaction, and the block."""

    def __init__(self, output, content, height, place, block):
        self.capacity, self.lock, self.type = number_of(fields_of(output)[0]), fields_of(output)[1], fields_of(output)[2]
        self.content, self.height, self.place, self.block = content, height, place, block


class Tx:
    def __init__(self, content):
        self.bytes = content
        self.raw, witnesses = fields_of(content)
        self.hash = ckbhash(self.raw)
        self.witnesses = [it[4:] for it in fields_of(witnesses)]
        version, deps, headers, inputs, outputs, data = fields_of(self.raw)
        self.version = number_of(version)
        self.deps = [(it[:36], it[36]) for it in items_of(deps, 37)]
        self.headers = items_of(headers, 32)
        self.inputs = [(number_of(it[:8]), it[8:]) for it in items_of(inputs, 44)]
        self.outputs = fields_of(outputs)
        self.data = [it[4:] for it in fields_of(data)]

    def data_of(self, i):
        return self.data[i] if i < len(self.data) else b''


class Uncle:
    def __init__(self, content):
        self.header, ids = fields_of(content)
        self.hash, self.ids = ckbhash(self.header), items_of(ids, 10)
        self.target, self.number = number_of(self.header[4:8]), number_of(self.header[16:24])
        self.epoch, self.parent = number_of(self.header[24:32]), self.header[32:64]
        self.proposals_hash = self.header[96:128]


class Block:
    def __init__(self, content):
        self.bytes = content
        self.header, uncles, transactions, ids = fields_of(content)
        self.hash = ckbhash(self.header)
        def at(place, size):
            return number_of(self.header[place:place + size])
        self.version, self.target, self.timestamp, self.number, self.epoch = at(0, 4), at(4, 4), at(8, 8), at(16, 8), at(24, 8)
        self.parent = self.header[32:64]
        self.uncles = [Uncle(it) for it in fields_of(uncles)]
        self.transactions = [Tx(it) for it in fields_of(transactions)]
        self.ids = items_of(ids, 10)
        self.dao = [number_of(self.header[at:at + 8]) for at in range(160, 192, 8)]


class Store:
    """What is kept, from a specification and a genesis on."""

    def __init__(self, specification, genesis):
        self.spec, self.second_from = Spec(specification), None
        self.blocks = {}
        self.tip = None
        self.keep(genesis)

    def keep(self, content):
        block = Block(content)
        self.blocks[block.hash] = block
        if self.tip is None or block.number > self.tip.number:
            self.tip = block

    def branch(self, block):
        found = [block]
        while found[-1].number:
            found.append(self.blocks[found[-1].parent])
        return found[::-1]


class Branch:
    """What a branch made and spent."""

    def __init__(self, store, tip):
        self.store, self.spec = store, store.spec
        self.blocks = store.branch(tip)
        self.height = tip.number + 1
        self.live, self.spent, self.made = {}, {}, {}
        # the block that is judged, the place in it of the transaction that is looked at, and which of its transactions spent what
        self.own, self.place, self.spent_here = None, 0, {}
        for block in self.blocks:
            for place, tx in enumerate(block.transactions):
                if block.number and place:
                    for _, point in tx.inputs:
                        self.spent[point] = (block.number, tx.hash)
                        del self.live[point]
                self.made[tx.hash] = (block.number, len(tx.outputs))
                for i, output in enumerate(tx.outputs):
                    self.live[tx.hash + i.to_bytes(4, 'little')] = Cell(output, tx.data_of(i), block.number, place, block)

    def stand_in(self, block):
        """As the block's first transaction sees it."""
        self.own = block
        self.take()

    def take(self):
        """Takes what the transaction does that is looked at, and goes to the next."""
        tx = self.own.transactions[self.place]
        for _, point in tx.inputs if self.place else ():
            self.spent_here[point] = self.place
            del self.live[point]
        for i, output in enumerate(tx.outputs):
            self.live[tx.hash + i.to_bytes(4, 'little')] = Cell(output, tx.data_of(i), self.height, self.place, self.own)
        self.place += 1

    def median(self, height):
        times = sorted(it.timestamp for it in self.blocks[max(0, height - 36):height + 1])
        return times[len(times) // 2]

    def is_second(self):
        return self.store.second_from is not None and self.height // self.spec.length >= self.store.second_from

    def start(self, cell):
        if self.is_second() or not cell.height:
            return cell.block.timestamp
        return self.median(cell.height - 1)


def point_text(point):
    return '0x%s %d' % (point[:32].hex(), number_of(point[32:]))


def parts(value):
    return value % 2 ** 24, value >> 24 & 0xffff, value >> 40 & 0xffff


def blocks_in(value, length):
    """How many blocks the span of an epoch value takes, rounded up."""
    number, index, of = parts(value)
    return number * length if not of else -(-(number * of + index) * length // of)


def first_mature(branch, height):
    return height + blocks_in(branch.spec.maturity, branch.spec.length)


def lost_here(branch, point):
    """The same of a cell that the block itself spent, or whose transaction it has."""
    if point in branch.spent_here:
        return 'found spent by transaction %d of this block' % branch.spent_here[point]
    for i, tx in enumerate(branch.own.transactions if branch.own else ()):
        if tx.hash == point[:32]:
            return ('found made by transaction %d of this block, which does not come before it' % i if i >= branch.place else
                    'found never made: transaction %d of this block has so many outputs: %d' % (i, len(tx.outputs)))
    return None


def lost(branch, point):
    here = lost_here(branch, point)
    if here:
        return here
    if point in branch.spent:
        return 'found spent in block %d by transaction 0x%s' % (branch.spent[point][0], branch.spent[point][1].hex())
    if point[:32] in branch.made:
        return 'found never made: the transaction, in block %d, has so many outputs: %d' % branch.made[point[:32]]
    return 'found never made: no block of the branch has the transaction'


def first_twice(items):
    for i, it in enumerate(items):
        if it in items[:i]:
            return i, items.index(it)
    return None


def form(tx):
    for name, found, wrong, wanted in (('version', tx.version, tx.version != 0, '0'), ('inputs', 0, not tx.inputs, '1 or more'),
                                       ('outputs', 0, not tx.outputs, '1 or more'),
                                       ('outputs_data', len(tx.data), len(tx.data) != len(tx.outputs), 'one for each output')):
        if wrong:
            return ['place ' + name, 'found %d' % found, 'wanted ' + wanted]
    for name, items in (('cell dep', tx.deps), ('header dep', tx.headers)):
        if first_twice(items):
            return ['place %s %d' % (name, first_twice(items)[0]), 'found the same as %s %d' % (name, first_twice(items)[1]),
                    'wanted each %s once' % name]
    return None


def place_of_input(tx, i):
    return 'place input %d, cell %s' % (i, point_text(tx.inputs[i][1]))


def inputs(branch, tx):
    points = [point for _, point in tx.inputs]
    twice = first_twice(points)
    if twice:
        return [place_of_input(tx, twice[0]), 'found spent by input %d too' % twice[1], 'wanted each cell once']
    i = next((i for i, point in enumerate(points) if point not in branch.live), None)
    return i is not None and [place_of_input(tx, i), lost(branch, points[i]), 'wanted a live cell']


def members(content):
    """The out-points of a dep group, where its data is a list of them."""
    count = number_of(content[:4])
    return items_of(content, 36) if len(content) >= 4 and len(content) == 4 + 36 * count else None


def resolved(branch, tx):
    """The resolved deps, each with its place; up to the first that is wrong, and what is wrong with it."""
    found = []
    for i, (point, kind) in enumerate(tx.deps):
        at = 'place cell dep %d, cell %s' % (i, point_text(point))
        if point not in branch.live:
            return found, [at, lost(branch, point), 'wanted a live cell']
        if kind > 1:
            return found, ['place cell dep %d' % i, 'found dep type %d' % kind, 'wanted 0, a cell, or 1, a group']
        if kind == 0:
            found.append((at, point))
            continue
        listed = members(branch.live[point].content)
        if not listed:
            return found, [at, 'found an empty list' if listed == [] else 'found data that is no list of out-points', 'wanted a list of live cells']
        for j, member in enumerate(listed):
            at = 'place cell dep %d, member %d, cell %s' % (i, j, point_text(member))
            if member not in branch.live:
                return found, [at, lost(branch, member), 'wanted a live cell']
            found.append((at, member))
    return found, None


def headers(branch, tx):
    for i, it in enumerate(tx.headers):
        at = 'place header dep %d, 0x%s' % (i, it.hex())
        block = branch.store.blocks.get(it)
        if block is None:
            return [at, 'found no kept block with this hash', 'wanted the hash of an ancestor']
        if block not in branch.blocks:
            return [at, 'found block %d of another branch' % block.number, 'wanted the hash of an ancestor']
        first = first_mature(branch, block.number)
        if not branch.is_second() and branch.height < first:
            return [at, 'found block %d, named in block %d' % (block.number, branch.height),
                    'wanted block %d or later, when the span maturity is over' % first]
    return None


def maturity(branch, tx):
    cells = [(place_of_input(tx, i), point) for i, (_, point) in enumerate(tx.inputs)] + resolved(branch, tx)[0]
    for at, point in cells:
        cell = branch.live[point]
        first = first_mature(branch, cell.height)
        if cell.place == 0 and cell.height and branch.height < first:
            return [at, 'found an output of the cellbase of block %d, used in block %d' % (cell.height, branch.height),
                    'wanted block %d or later, when the span maturity is over' % first]
    return None


def since(branch, tx):
    for i, (value, point) in enumerate(tx.inputs):
        found = wrong_since(branch, value, branch.live[point])
        if found:
            return [place_of_input(tx, i), 'found since 0x%x: %s' % (value, found[0]), 'wanted ' + found[1]]
    return None


def wrong_since(branch, value, cell):
    relative, metric, reserved, v = value >> 63, value >> 61 & 3, value >> 56 & 31, value % 2 ** 56
    number, index, of = parts(v)
    if reserved:
        return 'bits 56 to 60 that are not zero', 'zero'
    if metric == 3:
        return 'metric 3', '0, blocks, 1, epochs, or 2, seconds'
    if metric == 1 and not (index < of or index == of == 0):
        return 'an epoch value whose index is not below its length', 'an index below the length, or both 0'
    words = ['%d blocks' % v, '%d%s epochs' % (number, ' %d/%d' % (index, of) if of else ''), '%d seconds' % v][metric]
    words += ' after block %d, which made the cell' % cell.height if relative else ' from the start'
    if metric == 2:
        time, median = 1000 * v + (branch.start(cell) if relative else 0), branch.median(branch.height - 1)
        return None if median >= time else (words, 'a median time at the parent of %d or later; it is %d' % (time, median))
    first = (v if metric == 0 else blocks_in(v, branch.spec.length)) + (cell.height if relative else 0)
    return None if branch.height >= first else (words, 'block %d or later; this is block %d' % (first, branch.height))


def args_of(script):
    return len(fields_of(script)[2]) - 4


def occupied(output, content):
    _, lock, kind = fields_of(output)
    count = 8 + 33 + args_of(lock) + (33 + args_of(kind) if kind else 0) + len(content)
    return 10 ** 8 * count


def outputs(branch, tx):
    for i, output in enumerate(tx.outputs):
        capacity, needs = number_of(fields_of(output)[0]), occupied(output, tx.data_of(i))
        if capacity < needs:
            return ['place output %d' % i, 'found a capacity of %d' % capacity, 'wanted at least the %d that it occupies' % needs]
    for i in range(len(tx.outputs)):
        point = tx.hash + i.to_bytes(4, 'little')
        if point in branch.live:
            return ['place output %d' % i, 'found a live cell with its out-point, ' + point_text(point), 'wanted no live cell with it']
    return None


def withdraws(branch, cell):
    if not cell.type or len(cell.content) != 8 or not any(cell.content):
        return False
    code, kind, _ = fields_of(cell.type)
    return code == branch.spec.dao_code and kind == b'\1'


def option(content):
    return content[4:] if content else None


def input_type(witness):
    """The `input_type` of a `WitnessArgs`: nothing where there is none; an error where the bytes are no `WitnessArgs`."""
    fields = fields_of(witness)
    if len(witness) < 16 or number_of(witness[:4]) != len(witness) or number_of(witness[4:8]) != 16 or len(fields) != 3:
        raise ValueError
    if any(it and (len(it) < 4 or number_of(it[:4]) != len(it) - 4) for it in fields):
        raise ValueError
    return option(fields[1])


def deposit(branch, tx, i, cell):
    """What the witness of an input says, and the deposit's block where it names one well."""
    if i >= len(tx.witnesses):
        return 'found no witness at this place', None
    try:
        named = input_type(tx.witnesses[i])
    except (ValueError, IndexError):
        return 'found a witness that is no WitnessArgs', None
    if named is None:
        return 'found a witness without an input_type', None
    if len(named) != 8:
        return 'found an input_type of so many bytes: %d' % len(named), None
    index = number_of(named)
    if index >= len(tx.headers):
        return 'found an input_type that names header dep %d, which is not there' % index, None
    block = branch.store.blocks[tx.headers[index]]
    return 'found an input_type that names header dep %d, block %d' % (index, block.number), block if block.number < cell.height else None


def withdrawals(branch, tx):
    for i, (_, point) in enumerate(tx.inputs):
        cell = branch.live[point]
        if not withdraws(branch, cell):
            continue
        if cell.block.hash not in tx.headers:
            name = '' if cell.block is branch.own else ', 0x' + cell.block.hash.hex()
            return [place_of_input(tx, i), 'found no header dep that is the block of the withdrawing cell',
                    'wanted block %d%s, among the header deps' % (cell.height, name)]
        found, block = deposit(branch, tx, i, cell)
        if block is None:
            return [place_of_input(tx, i), found, 'wanted an input_type of 8 bytes, the index of the header dep of the '
                    "deposit's block, below %d" % cell.height]
    return None


def counted(branch, tx, i, cell):
    if not withdraws(branch, cell):
        return cell.capacity
    first = deposit(branch, tx, i, cell)[1]
    needs = occupied_by(cell)
    return needs + (cell.capacity - needs) * cell.block.dao[1] // first.dao[1]


def occupied_by(cell):
    count = 8 + 33 + args_of(cell.lock) + (33 + args_of(cell.type) if cell.type else 0) + len(cell.content)
    return 10 ** 8 * count


def sums(branch, tx):
    counts = [counted(branch, tx, i, branch.live[point]) for i, (_, point) in enumerate(tx.inputs)]
    for i, count in enumerate(counts):
        if count > MOST:
            return ['place input %d' % i, 'found more than 2^64 - 1 shannons that it counts', 'wanted at most 2^64 - 1']
    holds = sum(number_of(fields_of(it)[0]) for it in tx.outputs)
    if holds <= sum(counts) <= MOST:
        return None
    return ['place the sums', 'found outputs that hold %d, and inputs that count %d' % (holds, sum(counts)),
            'wanted outputs that hold at most what the inputs count, and both at most 2^64 - 1']


def wrong_with(branch, tx, rule):
    """The place, what was found and what is wanted, where a transaction breaks a rule on such a branch."""
    if rule == 18:
        return form(tx)
    if rule == 21:
        return resolved(branch, tx)[1]
    return {19: proposal, 20: inputs, 22: headers, 23: maturity, 24: since, 25: outputs, 26: withdrawals, 27: sums}[rule](branch, tx)


def of_transaction(store, content, rule):
    """The same of a transaction after the tip that breaks a rule."""
    if rule == 1:
        return of_bytes(content, False)
    return wrong_with(Branch(store, store.tip), Tx(content), rule)


# -------------------------------------------------------------- script groups

def groups_of(branch, tx):
    """The groups, each with its kind, its script, and the places of its inputs and of its outputs."""
    found = {}
    spent = [branch.live[point] for _, point in tx.inputs]
    for kind, script, side, place in ([('lock', it.lock, 0, i) for i, it in enumerate(spent)]
                                      + [('type', it.type, 0, i) for i, it in enumerate(spent)]
                                      + [('type', fields_of(it)[2], 1, i) for i, it in enumerate(tx.outputs)]):
        if script:
            found.setdefault((kind, script), ([], []))[side].append(place)
    return [(kind, script, *places) for (kind, script), places in found.items()]


def is_code(script, cell):
    code_hash, kind, _ = fields_of(script)
    return kind == b'\0' and code_hash == data_hash(cell.content) or kind == b'\1' and bool(cell.type) and code_hash == ckbhash(cell.type)


def groups(branch, tx):
    """Of each group the line that names it, and that of the cell in which its code lies."""
    deps, lines = resolved(branch, tx)[0], []
    for i, (kind, script, *places) in enumerate(groups_of(branch, tx)):
        named = [', %s %s' % (name, ' '.join(map(str, it))) for name, it in zip(('inputs', 'outputs'), places) if it]
        lines.append('group %d %s 0x%s%s' % (i, kind, ckbhash(script).hex(), ''.join(named)))
        codes = [j for j, (_, point) in enumerate(deps) if is_code(script, branch.live[point])]
        if codes:
            lines.append('  code resolved dep %d, cell %s' % (codes[0], point_text(deps[codes[0]][1])))
    return lines


# ------------------------------------------------------------------ in a block

def proposes(block, name):
    return name in block.ids or any(name in it.ids for it in block.uncles)


def proposal(branch, tx):
    name, spec = tx.hash[:10], branch.spec
    low, high = branch.height - spec.w_far, branch.height - spec.w_close
    heights = [it.number for it in branch.blocks if proposes(it, name)]
    if any(max(1, low) <= it <= high for it in heights):
        return None
    found = 'first proposed in block %d' % heights[0] if heights else 'proposed by no block of the branch'
    wanted = 'in blocks %d to %d' % (max(low, 0), high) if high >= 0 else 'so many blocks before: %d' % spec.w_close
    return ['place proposal id 0x' + name.hex(), 'found ' + found, 'wanted a proposal ' + wanted]


def in_block(store, block, rule):
    """The same of a block: the first transaction that breaks the rule, and what is wrong with it."""
    branch = Branch(store, store.blocks[block.parent])
    branch.stand_in(block)
    for tx in block.transactions[1:]:
        wrong = wrong_with(branch, tx, rule)
        if wrong:
            return ['place transaction %d, 0x%s' % (branch.place, tx.hash.hex())] + wrong
        branch.take()
    raise AssertionError('its transactions are good')


def groups_in(store, content, place):
    """The lines of the groups of the transaction at a place of a block; None where it is one after the tip."""
    if place is None:
        return groups(Branch(store, store.tip), Tx(content))
    block = Block(content)
    branch = Branch(store, store.blocks[block.parent])
    branch.stand_in(block)
    for _ in range(1, place):
        branch.take()
    return groups(branch, block.transactions[place])


def wrong_uncle(branch, block, i):
    uncle, spec = block.uncles[i], branch.spec
    if uncle.target != block.target:
        return 'compact target 0x%x' % uncle.target, "0x%x, the block's" % block.target
    if uncle.epoch % 2 ** 24 != block.epoch % 2 ** 24:
        return 'epoch number %d' % (uncle.epoch % 2 ** 24), "%d, the block's" % (block.epoch % 2 ** 24)
    if uncle.number >= block.number:
        return 'number %d' % uncle.number, "a number below the block's, %d" % block.number
    before = [it for ancestor in branch.blocks for it in ancestor.uncles] + block.uncles[:i]
    if (uncle.parent, uncle.number - 1) not in [(it.hash, it.number) for it in branch.blocks + before]:
        return ('number %d and parent hash 0x%s' % (uncle.number, uncle.parent.hex()),
                'the hash of an ancestor, or of an uncle before it, with the number before its own')
    if uncle.hash in [it.hash for it in branch.blocks]:
        return 'a block of the branch', 'none of these'
    if uncle.hash in [it.hash for it in before]:
        return 'an uncle that the branch or this block has before', 'each uncle once'
    if len(uncle.ids) > spec.max_proposals:
        return 'so many proposal ids: %d' % len(uncle.ids), 'at most %d' % spec.max_proposals
    twice = first_twice(uncle.ids)
    if twice:
        return 'proposal %d the same as proposal %d' % twice, 'each id once'
    if uncle.proposals_hash != hash_of_all(uncle.ids):
        return 'proposals_hash 0x' + uncle.proposals_hash.hex(), '0x' + hash_of_all(uncle.ids).hex()
    return None


def uncles(branch, block):
    for i in range(len(block.uncles)):
        wrong = wrong_uncle(branch, block, i)
        if wrong:
            return ['place uncle %d' % i, 'found ' + wrong[0], 'wanted ' + wrong[1]]
    raise AssertionError('its uncles are good')


def share(spec, height, total):
    return total // spec.length + (height % spec.length < total % spec.length)


def primary(spec, height):
    return share(spec, height, spec.primary_reward >> height // spec.length // spec.halving)


def lock_of(block):
    return fields_of(block.transactions[0].witnesses[0])[0]


class Replay:
    """What the transactions of each block of a branch, and of one after it, come to: fees, interest, and what their cells occupy."""

    def __init__(self, store, block):
        self.spec, self.branch = store.spec, store.branch(store.blocks[block.parent])
        self.fees, cells = {}, {}
        self.branch_of = Branch.__new__(Branch)
        self.branch_of.store, self.branch_of.spec = store, store.spec
        for it in self.branch + [block]:
            self.interest = self.freed = self.made = 0
            self.fees[it.number] = []
            for place, tx in enumerate(it.transactions):
                if place and it.number:
                    self.take(it, tx, cells)
                for i, output in enumerate(tx.outputs):
                    cells[tx.hash + i.to_bytes(4, 'little')] = cell = Cell(output, tx.data_of(i), it.number, place, it)
                    self.made += occupied_by(cell)

    def take(self, block, tx, cells):
        spent = [cells[point] for _, point in tx.inputs]
        gained = sum(counted(self.branch_of, tx, i, cell) - cell.capacity for i, cell in enumerate(spent))
        self.interest += gained
        self.freed += sum(map(occupied_by, spent))
        holds = sum(number_of(fields_of(it)[0]) for it in tx.outputs)
        self.fees[block.number].append((tx.hash[:10], sum(it.capacity for it in spent) + gained - holds))

    def earliest(self, name, committed):
        low = max(1, committed - self.spec.w_far)
        return next((it.number for it in self.branch[low:committed - self.spec.w_close + 1] if proposes(it, name)), None)

    def reward(self, target):
        c, _, _, u = self.branch[target - 1].dao
        spec = self.spec
        given = primary(spec, target) + share(spec, target, spec.secondary_reward) * u // c
        given += sum(fee - 4 * fee // 10 for _, fee in self.fees[target])
        for height in range(target + spec.w_close, target + spec.w_far + 1):
            given += sum(4 * fee // 10 for name, fee in self.fees[height] if self.earliest(name, height) == target)
        return given

    def next_dao(self):
        height = len(self.branch)
        c, rate, savings, used = self.branch[-1].dao
        second = share(self.spec, height, self.spec.secondary_reward)
        after = (c + primary(self.spec, height) + second, rate + rate * second // c,
                 savings - self.interest + second - second * used // c, used + self.made - self.freed)
        return after if all(0 <= it <= MOST for it in after) else None


def is_cellbase(tx):
    return [point for _, point in tx.inputs] == [NULL_OUT_POINT]


def cellbases(block):
    """J16: the transaction that is a cellbase and should be none, the first that is none, or one that stands there twice."""
    txs = block.transactions
    if not txs:
        return ['place transactions', 'found none', 'wanted a cellbase']
    if not is_cellbase(txs[0]):
        return ['place transaction 0', 'found no cellbase', 'wanted one input, whose out-point is the null one']
    later = [i for i, tx in enumerate(txs) if i and is_cellbase(tx)]
    if later:
        return ['place transaction %d' % later[0], 'found a cellbase', 'wanted a transaction that spends cells']
    later, earlier = first_twice([it.hash for it in txs])
    return ['place transaction %d' % later, 'found the hash of transaction %d' % earlier, 'wanted another']


def cellbase_form(block):
    """J17: the first of what "The cellbase" asks that is not so."""
    tx = block.transactions[0]
    types = [bool(fields_of(it)[2]) for it in tx.outputs]
    good_witness = tx.witnesses and wrong_bytes('CellbaseWitness', tx.witnesses[0]) is None
    found = 'bytes that are none' if tx.witnesses else 'none'
    for part, found, wrong, wanted in (
            ('version', tx.version, tx.version != 0, '0'), ('cell deps', len(tx.deps), tx.deps, '0'),
            ('header deps', len(tx.headers), tx.headers, '0'),
            ('since', tx.inputs[0][0], tx.inputs[0][0] != block.number, '%d, the number of the block' % block.number),
            ('outputs', len(types), len(types) > 1, 'at most 1'),
            ('outputs_data', len(tx.data), len(tx.data) != len(types), 'one for each output'),
            ('output', 'a type script', any(types), 'none'), ('outputs_data', 'data', any(tx.data), 'none'),
            ('witness', found, not good_witness, 'a CellbaseWitness'), ('output', 'a live cell with its out-point', True, 'none')):
        if wrong:
            return ['place cellbase, ' + part, 'found %s' % found, 'wanted ' + wanted]
    return None


def output_text(output):
    capacity, lock, kind = fields_of(output)
    return '%d shannons to lock 0x%s%s' % (number_of(capacity), ckbhash(lock).hex(), ', with a type script' if kind else '')


def payment(store, block):
    found = '; '.join(map(output_text, block.transactions[0].outputs)) or 'none'
    delay = store.spec.w_far + 1
    if block.number <= delay:
        wanted = 'none: the cellbase of a block up to %d pays nothing' % delay
    else:
        paid = block.number - delay
        replay = Replay(store, block)
        given, lock = replay.reward(paid), lock_of(replay.branch[paid])
        least = 10 ** 8 * (41 + args_of(lock))
        if given > MOST:
            wanted = 'what no output can hold: the reward of block %d is above 2^64 - 1 shannons' % paid
        elif given < least:
            wanted = 'none: the reward of block %d is %d shannons, and an output with its lock occupies %d' % (paid, given, least)
        else:
            wanted = '%d shannons, the reward of block %d, to its lock 0x%s' % (given, paid, ckbhash(lock).hex())
    return ['place the outputs of the cellbase', 'found ' + found, 'wanted ' + wanted]


def dao(store, block):
    after = Replay(store, block).next_dao()
    wanted = 'C %d, AR %d, S %d, U %d' % after if after else 'what there is not: one of the four is below 0 or above 2^64 - 1'
    return ['place dao', 'found C %d, AR %d, S %d, U %d' % tuple(block.dao), 'wanted ' + wanted]


# --------------------------------------------------------- bytes that are none

# of a kind its form: so many bytes, a vector of items of so many bytes, of items of a kind, or a table of fields
FORMS = {
    'Block': [('header', 208), ('uncles', ['Uncle']), ('transactions', ['Transaction']), ('proposals', (10,))],
    'Uncle': [('header', 208), ('proposals', (10,))],
    'Transaction': [('raw', 'Raw'), ('witnesses', [(1,)])],
    'Raw': [('version', 4), ('cell_deps', (37,)), ('header_deps', (32,)), ('inputs', (44,)), ('outputs', ['Output']), ('outputs_data', [(1,)])],
    'Output': [('capacity', 8), ('lock', 'Script'), ('type_', 'Option')],
    'Script': [('code_hash', 32), ('hash_type', 1), ('args', (1,))],
    'CellbaseWitness': [('lock', 'Script'), ('message', (1,))],
}


def wrong_bytes(form, content):
    """The names down to the part that is wrong, the byte in the content, what was found and what is wanted; or nothing."""
    if form == 'Option':
        return wrong_bytes('Script', content) if content else None
    fields = FORMS[form] if isinstance(form, str) else None
    if isinstance(form, int):
        return None if len(content) == form else ([], 0, '%d bytes' % len(content), '%d' % form)
    if isinstance(form, tuple):
        count = number_of(content[:4]) if len(content) >= 4 else 0
        good = len(content) >= 4 and len(content) == 4 + form[0] * count
        return None if good else ([], 0, 'so many items: %d' % count, 'as many as there are bytes for, of %d' % form[0])
    if len(content) < 4 or number_of(content[:4]) != len(content):
        return [], 0, 'size %d' % (number_of(content[:4]) if len(content) >= 4 else 0), '%d' % len(content)
    if not fields and len(content) == 4:
        return None
    first = number_of(content[4:8]) if len(content) >= 8 else 0
    if fields and first != 4 + 4 * len(fields):
        return [], 4, 'first offset %d' % first, '%d' % (4 + 4 * len(fields))
    if first % 4 or not 8 <= first <= len(content):
        return [], 4, 'offset %d' % first, 'offsets in order, within the bytes'
    starts = [number_of(content[at:at + 4]) for at in range(4, first, 4)] + [len(content)]
    for i, (start, end) in enumerate(zip(starts, starts[1:])):
        if start > end:
            at = min(8 + 4 * i, first - 4)
            return [], at, 'offset %d' % number_of(content[at:at + 4]), 'offsets in order, within the bytes'
    for i, (start, end) in enumerate(zip(starts, starts[1:])):
        name, inner = fields[i] if fields else ('item %d' % i, form[0])
        wrong = wrong_bytes(inner, content[start:end])
        if wrong:
            return [name] + wrong[0], start + wrong[1], wrong[2], wrong[3]
    return None


def of_bytes(content, is_block):
    kinds = ('Block', 'Transaction') if is_block else ('Transaction', 'Block')
    if wrong_bytes(kinds[1], content) is None:
        return ['found a canonical ' + kinds[1], 'wanted a canonical ' + kinds[0]]
    names, at, found, wanted = wrong_bytes(kinds[0], content)
    return ['place ' + ', '.join(names + ['byte %d' % at]), 'found ' + found, 'wanted ' + wanted]


def epoch_text(value):
    return 'epoch %d, index %d, length %d' % parts(value)


def of_block(store, content, rule):
    """The same of a block. Of rules that are looked at elsewhere, nothing."""
    if rule == 1:
        return of_bytes(content, True)
    block, spec = Block(content), store.spec
    if rule == 3:
        return ['place parent_hash', 'found 0x' + block.parent.hex(), 'wanted the hash of a kept block']
    parent = store.blocks[block.parent]
    beside = sum(len(it.ids) for it in block.uncles)
    if 18 <= rule <= 27:
        return in_block(store, block, rule)
    if rule == 15:
        return uncles(Branch(store, parent), block)
    if rule in (16, 17):
        return (cellbases if rule == 16 else cellbase_form)(block)
    if rule in (31, 32):
        return (payment if rule == 31 else dao)(store, block)
    if rule == 6:
        height = block.number
        return ['place epoch', 'found 0x%x: %s' % (block.epoch, epoch_text(block.epoch)),
                'wanted epoch %d, index %d, length %d' % (height // spec.length, height % spec.length, spec.length)]
    if rule == 8:
        median = Branch(store, parent).median(parent.number)
        return ['place timestamp', 'found %d' % block.timestamp, 'wanted more than the median, %d' % median]
    if rule == 10:
        if len(block.ids) > spec.max_proposals:
            return ['place proposals', 'found %d' % len(block.ids), 'wanted at most %d' % spec.max_proposals]
        twice = first_twice(block.ids)
        return ['place proposal %d' % twice[0], 'found the same as proposal %d' % twice[1], 'wanted each id once']
    hashes = {11: ('proposals_hash', 96, hash_of_all(block.ids)),
              12: ('transactions_root', 64, transactions_root([it.bytes for it in block.transactions])),
              14: ('uncles_hash', 128, hash_of_all([it.hash for it in block.uncles]))}
    if rule in hashes:
        name, at, wanted = hashes[rule]
        return ['place ' + name, 'found 0x' + block.header[at:at + 32].hex(), 'wanted 0x' + wanted.hex()]
    return {4: ['place version', 'found %d' % block.version, 'wanted 0'],
            5: ['place number', 'found %d' % block.number, 'wanted %d' % (parent.number + 1)],
            7: ['place compact_target', 'found 0x%x' % block.target, 'wanted 0x%x' % spec.compact_target],
            9: ['place length', 'found %d bytes, with so many proposal ids of uncles: %d' % (len(content), beside),
                'wanted at most %d' % (spec.max_bytes + 10 * beside)],
            13: ['place uncles', 'found %d' % len(block.uncles), 'wanted at most 2']}.get(rule, [])
