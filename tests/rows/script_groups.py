#!/usr/bin/env python3
"""Rows of crates/tx_vectors/stdin on the script groups of transactions.

    python3 tests/rows/script_groups.py

They are the last of that file. A row is a word and its columns, with a tab between two,
bytes in hex:

    blob    a name, and bytes, which later rows call by that name
    spec    a specification: a new chain begins
    edition the epoch from which on the second edition of the rules holds there
    genesis its first block
    block   a block on one before it, with its ext
    groups  what comes of a transaction, a budget, the transaction, the cells of
            its inputs, its resolved deps, and the places of its header deps
    rounds  how many times, and the same: each time that comes of it

What comes of it is `ok CYCLES`, `no_code G`, `many_codes G`, `bad_elf G E`,
`fault G K`, `exit G CODE` or `spent`, with the place G of a group. A cell is the
place of the block that made it, that of its transaction there, and its
CellOutput and its data as blobs, with commas between; cells and places have a
blank between two, and where there is none stands `-`.

All rows were worked out here: transactions by docs/FORMATS.md, groups and items by
docs/RULES.md and docs/MACHINE.md (examples/script_scene.py), cycles by a plain machine
(examples/script_machine.py). Where a row's answer is plain it is written down, and the
machine must agree. Nothing is taken from the program.
"""

import os

from common import EXAMPLES, row_of

import encoding
from encoding import ZERO_HASH, ckbhash, data_hash, uint
from make_store import PROGRAM, Spec
from script_machine import MISSING, NO_INDEX
from script_scene import BY_TYPE, CELL_DEPS, FIELDS, GROUP, HEADER_DEPS, INPUTS, OUTPUTS, TYPE_ID, Cell, Scene, Script

AMPLE = 10 ** 8
BLOBS, LINES = {}, []


def program(name):
    with open(os.path.join(EXAMPLES, 'scripts', name + '.elf'), 'rb') as f:
        return f.read()


CHECKS, CODE, EXIT, COUNT = map(program, ('checks', 'code', 'exit', 'count'))


def by_data(content, args=b''):
    return Script(data_hash(content), args=args)


OK = by_data(PROGRAM)       # exits with 0 after 505 cycles
ANYONE = Script(b'\x33' * 32, 1, b'anyone')     # a lock that is never run


def exits(code):
    return by_data(EXIT, uint(code % 256, 1))


def counts(rounds):
    return by_data(COUNT, uint(rounds, 8))


def codes(*words):
    return by_data(CODE, bytes(words))


# --------------------------------------------------------------------- rows

def blob(content):
    """The name of bytes: how many they are, and the first four bytes of their hash."""
    if content not in BLOBS:
        name = '%d_%s' % (len(content), ckbhash(content)[:4].hex())
        assert name not in BLOBS.values()
        BLOBS[content] = name
        LINES.append('blob\t%s\t%s' % (name, content.hex()))
    return BLOBS[content]


def joined(words):
    return ' '.join(map(str, words)) or '-'


def cell_text(cell):
    return '%d,%d,%s,%s' % (cell.block, cell.tx, blob(cell.item()), blob(cell.content))


def row(scene, wanted=None, budget=AMPLE, rounds=None):
    """The answer, which is the one that is wanted, where one is. It comes so many times, where that is given."""
    answer = scene.outcome(budget)
    if wanted and answer.split()[:len(wanted.split())] != wanted.split():
        raise AssertionError('%s, not %s' % (answer, wanted))
    cells = [joined(map(cell_text, it)) for it in (scene.inputs, scene.deps)]
    word = ['groups'] if rounds is None else ['rounds', str(rounds)]
    LINES.append(row_of(*word, answer, budget, scene.item, *cells, joined(scene.headers)))
    return int(answer[3:]) if answer.startswith('ok') else None


def exact(scene):
    """Rows with just enough cycles, and with one less."""
    cycles = row(scene, 'ok')
    row(scene, 'ok %d' % cycles, cycles)
    row(scene, 'spent', cycles - 1)
    return cycles


class Chain:
    """A genesis and blocks on it, each with its parent's place. A block holds no more than its header."""

    def __init__(self, length, parents, edition=None):
        self.length, self.headers, heights = length, [], []
        LINES.append(row_of('spec', Spec(epoch_length=length).item()))
        if edition is not None:
            LINES.append(row_of('edition', edition))
        for place, parent in enumerate([None, *parents]):
            height = 0 if parent is None else heights[parent] + 1
            # an epoch field that is not the one of the height: it is not looked at
            header = encoding.header(
                height, ZERO_HASH if parent is None else ckbhash(self.headers[parent]), compact_target=1,
                timestamp=1000 + place, epoch=0x0102030405060708, dao=4 * (10 ** 16,), nonce=place)
            heights.append(height)
            self.headers.append(header)
            item = encoding.block(header)
            LINES.append(row_of('genesis', item) if parent is None else row_of('block', item, bytes(8)))


# ------------------------------------------------------- the table of checks
#
# As examples/scripts/checks.c says.

LENGTH, BUFFER, PAGES = 0x2000, 0x3000, 0x100000
LARGE = [GROUP | 1, GROUP | 2, GROUP | 3, GROUP | 4, 2 ** 64 - 1, 2 ** 32, 2 ** 32 + 1, 2 ** 32 + 2052, 0x3ffff8, 0x3ffff9,
         0x3fffff, 0x400000, 2 ** 63, GROUP, 0x0200000000000001, 0x10000]
SIZE_LIMIT = 0xbfff


def number(value):
    if value in LARGE:
        return 0xff00 + LARGE.index(value)
    if value >= 0xc000:
        assert value % 256 == 0 and value < 0x3f0000
        return 0xc000 + value // 256
    return value


def fnv(content):
    found = 2166136261
    for byte in content:
        found = (found ^ byte) * 16777619 & 0xffffffff
    return found


def entry(call, registers, length, start, count, a0, length_after, content):
    checksum = fnv(uint(a0, 8) + uint((sum(registers[1:]) + call) % 2 ** 64, 8) + uint(length_after, 8) + content)
    assert len(content) == count
    numbers = [call, *registers, length, start, count]
    return b''.join(uint(number(it), 2) for it in numbers) + uint(checksum, 4)


def untouched(call, registers, length=7):
    """A call that is never answered, for a fault."""
    return entry(call, registers, length, BUFFER, 0, 0, 0, b'')


def loads(items, call, index, source, field=0, offset=0, most=SIZE_LIMIT):
    """A load in part, and what must come of it."""
    item = items(call, index, source, field)
    registers = [BUFFER, LENGTH, offset, index, source, field]
    if item in (NO_INDEX, MISSING):
        return entry(call, registers, most, BUFFER, 4, 1 if item == NO_INDEX else 2, most, b'\xa5' * 4)
    left = item[offset:] if offset < len(item) else b''
    stored = left[:most]
    return entry(call, registers, most, BUFFER, len(stored) + 3, 0, len(left), stored + b'\xa5' * 3)


def loads_whole(items, call, index, source, field=0):
    """A load in all its lengths and from all its offsets."""
    item = items(call, index, source, field)
    if item in (NO_INDEX, MISSING):
        return [loads(items, call, index, source, field)]
    size, part = len(item), len(item) // 2
    return [loads(items, call, index, source, field, *how) for how in (
        (0,), (part,), (size,), (size + 1,), (2 ** 64 - 1,), (0, 0), (part, 0), (0, max(size - 1, 0)), (part, 1),
        (0, 2 ** 64 - 1))]


def loads_code(items, page, index, source, offset, count, pages=1):
    """A load as code into a page that is not code yet, and what must come of it."""
    item = items(2091, index, source, 0)
    at = PAGES + 4096 * page
    registers = [at, 4096 * pages, offset, count, index, source]
    if item == NO_INDEX:
        return entry(2091, registers, 9, at, 0, 1, 9, b'')
    if offset + count > len(item) or count > 4096 * pages:
        return entry(2091, registers, 9, at, 0, 3, 9, b'')
    content = item[offset:offset + count] + bytes(4096 * pages - count)
    looked = min(count + 8, 4096 * pages)
    return entry(2091, registers, 9, at, looked, 0, 9, content[:looked])


# ------------------------------------------------------- what a script sees

T, U = exits(0), by_data(EXIT)      # type scripts of cells


class Shown:
    """A transaction of two lock groups and two type groups, in which tables are tried: one a group, of one after another."""

    HEADERS = (4, 1)

    def __init__(self, chain, witnesses=(b'', b'\x07' * 5, bytes(range(100)))):
        self.locks = [by_data(CHECKS, uint(place, 1)) for place in (2, 3)]
        self.types = [by_data(CHECKS, uint(place, 1) + bytes(30)) for place in (4, 5)]
        (a, b), (t, u) = self.locks, self.types
        self.chain, self.witnesses = chain, list(witnesses)
        self.inputs = [Cell(a, t, b'', 1, block=4), Cell(b, None, b'content', 2 ** 64 - 1, block=2, tx=7),
                       Cell(a, None, bytes(range(200)), block=1), Cell(b, u, b'\0', block=0)]
        self.outputs = [Cell(a, u, b'\x01\x02\x03'), Cell(b), Cell(ANYONE, t, b'\xff' * 40, 0), Cell(a, t, b'')]
        holds = Cell(ANYONE, None, CHECKS, block=4)
        self.deps = [holds, Cell(ANYONE, Script(bytes(32)), b'data of a dep', block=1)]
        self.deps += [Cell(ANYONE, block=place) for place in (0, 2, 3, 4)] + [Cell(OK, T, b'\x01' * 9, 5, block=1)]

    def scene(self, tables=()):
        for place, one in enumerate(tables):
            self.deps[2 + place].content = b''.join(one)
        return Scene(self.chain, self.inputs, self.outputs, self.deps, self.HEADERS, self.witnesses, [3, 2 ** 63 + 5])

    def rows(self, lists, wanted='ok'):
        """As many rows as the longest list of checks needs; a group whose list is done is asked one thing."""
        most = 120
        for start in range(0, max(map(len, lists)), most):
            scene = self.scene([it[start:start + most] or it[:1] for it in lists])
            row(scene, wanted)


def indices(end):
    return [*range(end + 2), 2 ** 32, 2 ** 32 + 1, 2 ** 64 - 1]


def asks():
    """Each call with its field that takes an item of a source, but for the data of a table."""
    for call in (2071, 2072, 2073, 2074, 2092, *sorted(FIELDS)):
        for field in range(FIELDS.get(call, 1)):
            yield call, field


def is_of_table(call, field, source, index):
    return source == CELL_DEPS and 2 <= index <= 5 and (call == 2092 or call == 2081 and field in (1, 6))


def on_shown(chain):
    """All fields of all sources, from all offsets."""
    shown = Shown(chain)
    scene = shown.scene()
    lists = []
    for place, group in enumerate(scene.groups()):
        items = scene.items(group)
        checks = []
        for call in (2051, 2052, 2061, 2062):
            checks += loads_whole(items, call, 0, 0)
            checks += [loads(items, call, 2 ** 64 - 1, 99, 2 ** 32), loads(items, call, 1, GROUP, 7)]
        ends = {GROUP | INPUTS: len(group.inputs), GROUP | OUTPUTS: len(group.outputs), GROUP | CELL_DEPS: 0,
                GROUP | HEADER_DEPS: 0}
        if place == 0:
            ends.update({INPUTS: 4, OUTPUTS: 4, CELL_DEPS: 7, HEADER_DEPS: 2})
        for source, end in ends.items():
            for call, field in asks():
                if call not in FIELDS:
                    field = 9       # not looked at
                for index in indices(end):
                    if is_of_table(call, field, source, index):
                        continue
                    if source < GROUP or index == 0:
                        checks += loads_whole(items, call, index, source, field)
                    else:
                        checks.append(loads(items, call, index, source, field))
        lists.append(checks)
    # The first group asks most: as many rows as its list would take go to one group after another.
    lists[0], more = lists[0][:len(lists[1])], lists[0][len(lists[1]):]
    shown.rows(lists)
    shown.rows([more, *([it[0]] for it in lists[1:])])


def on_epochs(chain):
    """The fields of headers in other epochs, and of cells whose block no header dep names."""
    for headers in ((), (0,), (3, 5), (5, 4, 3, 2, 1, 0)):
        shown = Shown(chain)
        shown.HEADERS = headers
        scene = shown.scene()
        lists = []
        for group in scene.groups():
            items = scene.items(group)
            checks = [loads(items, 2061, 0, 0)]
            for source, end in ((INPUTS, 4), (CELL_DEPS, 7), (HEADER_DEPS, len(headers)), (GROUP | INPUTS, len(group.inputs))):
                for index in range(end + 1):
                    checks += [loads(items, 2072, index, source)] + [loads(items, 2082, index, source, it) for it in range(3)]
            lists.append(checks)
        shown.rows(lists)


def on_witnesses(chain):
    for witnesses in ((), (b'',), (b'only',), (b'', b'', b'', b'4', b'more')):
        shown = Shown(chain, witnesses)
        scene = shown.scene()
        shown.rows([[check for source, end in ((INPUTS, 5), (OUTPUTS, 5), (CELL_DEPS, 1), (HEADER_DEPS, 1), (GROUP | INPUTS, 3),
                                              (GROUP | OUTPUTS, 3), (GROUP | CELL_DEPS, 1))
                     for index in range(end) for check in (loads(scene.items(group), 2074, index, source),
                                                           loads(scene.items(group), 2051, index, source))]
                    for group in scene.groups()])


def on_witness_places(chain):
    """A witness of the inputs or of the outputs stands at its index, whatever the count of these; one of a group at its
    member's place. What must come of each call is written down."""
    lock, kind = by_data(CHECKS, b'\1'), by_data(CHECKS, b'\2' + bytes(30))
    three = [b'first', b'', b'the third, which is longer']
    some = [b'witness %d' % place for place in range(6)]

    def tries(inputs, outputs, witnesses, of_lock, of_kind=()):
        tables = [b''.join(loads(lambda *_: wanted, 2074, index, source) for source, index, wanted in it)
                  for it in (of_lock, of_kind)]
        deps = [Cell(ANYONE, None, it, block=1) for it in (CHECKS, *tables, PROGRAM)]
        row(Scene(chain, [Cell(*it) for it in inputs], [Cell(*it) for it in outputs], deps, [1], witnesses), 'ok')

    def past(source, end):
        return [(source, index, NO_INDEX) for index in (end, end + 1, 2 ** 32, 2 ** 32 + 1, 2 ** 64 - 1)]

    # one input and one output, three witnesses
    for source in (INPUTS, OUTPUTS):
        tries([(lock,)], [(ANYONE,)], three, [(source, 0, b'first'), (source, 1, b''),
                                             (source, 2, b'the third, which is longer'), *past(source, 3)])
    # no output, and no input
    tries([(lock,)], [], three[:2], [(OUTPUTS, 0, b'first'), (OUTPUTS, 1, b''), *past(OUTPUTS, 2)])
    tries([], [(ANYONE,), (ANYONE, kind)], three, (), [
        (INPUTS, 0, b'first'), (INPUTS, 1, b''), (INPUTS, 2, b'the third, which is longer'), *past(INPUTS, 3),
        (OUTPUTS, 2, b'the third, which is longer'), (GROUP | OUTPUTS, 0, b''), *past(GROUP | OUTPUTS, 1)])
    # fewer witnesses than inputs and outputs: of a group's members the second has none
    tries([(lock,), (OK,), (lock,)], [(ANYONE,), (ANYONE, kind), (ANYONE, kind)], some[:2], [
        (INPUTS, 0, b'witness 0'), (INPUTS, 1, b'witness 1'), *past(INPUTS, 2), (OUTPUTS, 1, b'witness 1'),
        *past(OUTPUTS, 2), (GROUP | INPUTS, 0, b'witness 0'), *past(GROUP | INPUTS, 1)], [
        (GROUP | OUTPUTS, 0, b'witness 1'), *past(GROUP | OUTPUTS, 1)])
    # more witnesses: a group ends with its members, and a lock group has no outputs
    tries([(OK,), (lock,), (OK, kind), (lock,)], [(ANYONE,), (ANYONE, kind), (ANYONE, kind)], some, [
        (GROUP | INPUTS, 0, b'witness 1'), (GROUP | INPUTS, 1, b'witness 3'), *past(GROUP | INPUTS, 2),
        *past(GROUP | OUTPUTS, 0), (INPUTS, 4, b'witness 4'), (INPUTS, 5, b'witness 5'), *past(INPUTS, 6)], [
        (GROUP | INPUTS, 0, b'witness 2'), *past(GROUP | INPUTS, 1), (GROUP | OUTPUTS, 0, b'witness 1'),
        (GROUP | OUTPUTS, 1, b'witness 2'), *past(GROUP | OUTPUTS, 2), (OUTPUTS, 3, b'witness 3'),
        (OUTPUTS, 5, b'witness 5'), *past(OUTPUTS, 6)])
    # no witness at all
    tries([(lock,)], [(ANYONE,)], [], [*past(INPUTS, 0), *past(OUTPUTS, 0), *past(GROUP | INPUTS, 0)])
    # a dep has no witness, also where there is one at its index
    tries([(lock,)], [(ANYONE,)], some, [it for source in (CELL_DEPS, HEADER_DEPS, GROUP | CELL_DEPS, GROUP | HEADER_DEPS)
                                         for it in past(source, 0)])


def on_code_loads(chain):
    """Data that is loaded as code: its bytes, and where it is not there."""
    shown = Shown(chain)
    scene = shown.scene()
    lists = []
    for group in scene.groups():
        items = scene.items(group)
        checks = []
        for source, end in ((INPUTS, 4), (OUTPUTS, 4), (CELL_DEPS, 7), (HEADER_DEPS, 2), (GROUP | INPUTS, 2), (GROUP | OUTPUTS, 2),
                            (GROUP | CELL_DEPS, 1), (GROUP | HEADER_DEPS, 1)):
            for index in (*range(end + 1), 2 ** 32):
                if is_of_table(2092, 0, source, index):
                    continue
                item = items(2091, index, source, 0)
                size = 0 if item == NO_INDEX else len(item)
                checks.append(loads_code(items, len(checks), index, source, 0, size))
                if size:
                    checks.append(loads_code(items, len(checks), index, source, size // 2, size - size // 2))
                    checks.append(loads_code(items, len(checks), index, source, size // 2, size - size // 2 + 1))
        checks.append(loads_code(items, len(checks), 0, CELL_DEPS, 0, 0, 0))
        checks.append(loads_code(items, len(checks), 0, CELL_DEPS, 0, 1, 0))
        checks.append(loads_code(items, len(checks), 0, CELL_DEPS, 10, 700, 2))
        lists.append(checks)
    shown.rows(lists)


def one_check(chain, call, budget=AMPLE, wanted='ok', more=()):
    """One lock group that makes one call."""
    lock = by_data(CHECKS, b'\1')
    deps = [Cell(ANYONE, None, CHECKS), Cell(ANYONE, None, b''), Cell(ANYONE, T, b'12345', block=1)]
    scene = Scene(chain, [Cell(lock, None, b'abc')], [Cell(lock)], deps, [1], [b'w'])
    deps[1].content = b''.join([call(scene.items(scene.groups()[0])) if callable(call) else call, *more])
    row(scene, wanted, budget)
    return scene


def on_large(chain):
    """Items of several pages, whole and in parts."""
    lock = by_data(CHECKS, b'\1')
    content = b''.join(uint(it * it % 65521, 2) for it in range(4500))
    scene = Scene(chain, [Cell(lock, None, content)], [Cell(lock, None, content[:5000])], [Cell(ANYONE, None, CHECKS), Cell(ANYONE)], [0])
    items = scene.items(scene.groups()[0])
    checks = [loads(items, 2092, 0, 1), loads(items, 2092, 0, 1, 0, 4095, 4097), loads(items, 2092, 0, 2), loads(items, 2051, 0, 0),
              loads(items, 2092, 0, 1, 0, 8999), loads(items, 2081, 0, 1, 6), loads(items, 2081, 0, 2, 1)]
    scene.deps[1].content = b''.join(checks)
    exact(scene)


def on_contents(chain):
    """Fewer data than outputs, or more: an output without data has no bytes."""
    lock = by_data(CHECKS, b'\1')
    for count in range(4):
        cells = [Cell(lock), Cell(ANYONE)]
        deps = [Cell(ANYONE, None, CHECKS), Cell(ANYONE)]
        scene = Scene(chain, [Cell(lock)], cells, deps, contents=[b'one', b'two', b'three'][:count])
        items = scene.items(scene.groups()[0])
        deps[1].content = b''.join(loads(items, call, index, OUTPUTS, field) for call, field in
                                   ((2071, 0), (2092, 0), (2081, 1), (2081, 6)) for index in range(4))
        row(scene, 'ok')


def on_unknown(chain):
    """Fault 5: a number, a source or a field that there is not; it comes before an index and before memory."""
    def call(number, index=0, source=1, field=0, to=BUFFER, length_at=LENGTH):
        return untouched(number, [to, length_at, 0, index, source, field])

    for it in (0, 1, 92, 94, 2050, 2053, 2060, 2063, 2070, 2075, 2080, 2084, 2090, 2093, 2176, 2178, 2 ** 64 - 1, 2 ** 32 + 2052):
        one_check(chain, call(it), wanted='fault 0 5')
    for it in (0, 5, GROUP, 0x0200000000000001, 2 ** 32 + 1, 2 ** 64 - 1, 2 ** 63):
        for number in (2071, 2072, 2073, 2074, 2081, 2082, 2083, 2092):
            if it in (0, 5, GROUP) or number == 2071:
                one_check(chain, call(number, source=it), wanted='fault 0 5')
    for it in (0, 5, 2 ** 64 - 1):
        one_check(chain, untouched(2091, [PAGES, 4096, 0, 0, 0, it]), wanted='fault 0 5')
    for number, fields in FIELDS.items():
        for it in (fields, 255, 2 ** 32, 2 ** 64 - 1):
            one_check(chain, call(number, field=it), wanted='fault 0 5')
        for source, index in ((1, 9), (4, 0), (2, 0), (GROUP | 3, 0), (GROUP | 2, 5)):
            one_check(chain, call(number, index, source, fields), wanted='fault 0 5')
    # before the length word and the buffer
    one_check(chain, call(2071, source=0, to=0x400000, length_at=0x400000), wanted='fault 0 5')
    # an index that there is not comes before them too, and a field of another number is not looked at
    for at in (0x400000, 0x1000):
        one_check(chain, entry(2071, [at, at, 0, 9, 1, 0], 3, BUFFER, 2, 1, 3, b'\xa5' * 2))
        one_check(chain, entry(2081, [at, at, 0, 0, 1, 4], 3, BUFFER, 2, 2, 3, b'\xa5' * 2))
    # debug output: a0 stays
    one_check(chain, entry(2177, [0x400000, 1, 2, 3, 4, 5], 3, BUFFER, 1, 0x400000, 3, b'\xa5'))
    # the first call that differs is named
    for place in range(3):
        good, bad = (lambda items: loads(items, 2071, 0, 1)), untouched(2061, [BUFFER, LENGTH, 0, 0, 0, 0])
        scene = one_check(chain, good)
        first = scene.deps[1].content
        scene.deps[1].content = first * place + bad + first
        row(scene, 'exit 0 %d' % (place + 1))
    scene.deps[1].content = b''
    row(scene, 'exit 0 -1')


def on_memory(chain):
    """The faults of a load, and what it is charged."""
    def part(to=BUFFER, length_at=LENGTH, offset=0, length=SIZE_LIMIT, call=2061):
        return untouched(call, [to, length_at, offset, 0, 1, 0], length)

    for call, fault in (
            (part(length_at=0x3ffff9), 1), (part(length_at=0x400000), 1), (part(length_at=2 ** 64 - 1), 1),
            (part(length_at=0x1000), 2), (part(length_at=0xff9), 2), (part(length_at=0x1000, offset=SIZE_LIMIT), 2),
            (part(to=0x400000), 1), (part(to=0x3fffff), 1), (part(to=2 ** 64 - 1), 1), (part(to=0x1000), 2), (part(to=0xfe1), 2),
            (untouched(2091, [PAGES + 256, 4096, 0, 1, 0, 1]), 6), (untouched(2091, [PAGES, 4095, 0, 1, 0, 1]), 6),
            (untouched(2091, [0x400000, 4096, 0, 1, 0, 1]), 1), (untouched(2091, [0x1000, 4096, 0, 1, 0, 1]), 2),
            (untouched(2091, [0, 8192, 0, 1, 0, 1]), 2), (untouched(2091, [2 ** 63, 4096, 0, 1, 0, 1]), 1)):
        one_check(chain, call, wanted='fault 0 %d' % fault)
    # where nothing is stored the buffer may be anywhere
    for offset, length in ((0, 0), (32, 9), (33, 9)):
        at = 0x400000
        one_check(chain, entry(2061, [at, LENGTH, offset, 0, 0, 0], length, BUFFER, 0, 0, max(32 - offset, 0), b''))
    # just before the code, and at the end of memory
    for to, length_at in ((0xfe0, LENGTH), (BUFFER, 0x3ffff8)):
        if length_at == LENGTH:
            one_check(chain, lambda items: entry(2061, [to, LENGTH, 0, 0, 0, 0], 32, to, 32, 0, 32, items(2061, 0, 0, 0)))
    # bytes are charged by four, rounded up for each call
    for length in (0, 1, 4, 5, 31, 32, 33):
        exact(one_check(chain, lambda items: loads(items, 2061, 0, 0, most=length)))
    for pages in (0, 1, 3):
        exact(one_check(chain, lambda items: loads_code(items, 0, 2, CELL_DEPS, 0, 0 if pages == 0 else 5, pages)))


# ---------------------------------------------------------- code of a script

RETURNS = bytes.fromhex('0505' '8280')      # addi a0, a0, 1; ret


def on_code(chain):
    """Code that is loaded and run."""
    def tries(wanted, leaf, *words, budget=AMPLE):
        deps = [Cell(ANYONE, None, CODE), Cell(ANYONE, None, leaf)]
        scene = Scene(chain, [Cell(codes(*words))], [Cell(ANYONE)], deps)
        row(scene, wanted, budget)
        return scene

    for byte in (0, 4, 127, 128, 255):
        code = (byte + 1 + 128) % 256 - 128
        tries('exit 0 %d' % code if code else 'ok', RETURNS, 0, 1, byte)
    exact(tries('ok', RETURNS, 0, 1, 255))
    # a page that is not code, a store into one that is, a load from it
    tries('fault 0 3', RETURNS, 1, 1, 255)
    tries('fault 0 2', RETURNS, 2, 1, 0)
    tries('exit 0 5', RETURNS, 3, 1, 0)
    tries('exit 0 -128', RETURNS, 3, 1, 3)
    tries('ok', RETURNS, 3, 1, 4)
    tries('fault 0 3', RETURNS, 4, 1, 0)
    # one page twice; a load in part into it, which changes nothing
    tries('fault 0 2', RETURNS, 5, 1, 0)
    for count, wanted in ((0, 'exit 0 1'), (1, 'exit 0 2'), (2, 'exit 0 3'), (3, 'fault 0 2'), (4, 'fault 0 2'), (5, 'fault 0 2')):
        tries(wanted, RETURNS, 6, 1, count)
    # a dep that there is not, one without data, more bytes than the page
    tries('exit 0 101', RETURNS, 0, 2, 0)
    tries('fault 0 4', b'', 0, 1, 0)
    tries('exit 0 103', RETURNS + bytes(4093), 0, 1, 0)
    tries('ok', RETURNS + bytes(4092), 0, 1, 255)
    # no instruction; a jump past memory, into data, and off the end of the page, also by half an instruction; loads and
    # stores past memory, and into the page
    for leaf, fault in (('0000', 4), ('ffffffff', 4), ('37054000' '0285', 1), ('37353000' '0285', 3), ('6f100000', 3),
                        ('0100' * 2048, 3), ('0100' * 2047 + '1300', 3), ('37054000' '03350500', 1),
                        ('37054000' '2330a500', 1), ('37051000' '2330a500', 2)):
        tries('fault 0 %d' % fault, bytes.fromhex(leaf), 0, 1, 0)
    tries('spent', bytes.fromhex('37051000' '0285'), 0, 1, 0, budget=5000)
    # ends by itself
    ends = bytes.fromhex('9308d005' '7d55' '73000000')      # a7 = 93, a0 = -1, ECALL
    tries('exit 0 -1', ends, 0, 1, 9)


def elf_with(*changes):
    """The file of one segment, with numbers put in: (place, number, size)."""
    found = PROGRAM
    for at, value, size in changes:
        found = found[:at] + uint(value, size) + found[at + size:]
    return found


# by the number of the condition; the last has its program header twice
BAD_ELF = {1: PROGRAM[:63], 2: elf_with((0, 0, 1)), 3: elf_with((18, 62, 2)), 4: elf_with((54, 55, 2)), 5: elf_with((68, 7, 4)),
           6: elf_with((96, 13, 8), (104, 13, 8)), 7: elf_with((104, 1 << 22, 8)),
           8: elf_with((56, 2, 2))[:120] + PROGRAM[64:]}


def on_codes(chain):
    """Which dep is the code of a script."""
    holds = Cell(ANYONE, T, PROGRAM, block=1)
    other = Cell(ANYONE, U, EXIT)
    by_type = Script(T.hash(), BY_TYPE)

    def tries(wanted, script, deps, budget=AMPLE, grouped=0, inputs=()):
        row(Scene(chain, [Cell(script), *inputs], [Cell(ANYONE)], deps, grouped=grouped), wanted, budget)

    tries('ok 505', OK, [holds])
    tries('ok 505', OK, [other, holds])
    tries('ok 505', OK, [other, holds, holds])
    tries('ok 505', OK, [other, holds, holds], grouped=2)
    tries('no_code 0', OK, [])
    tries('no_code 0', OK, [other])
    tries('no_code 0', OK, [other], inputs=[Cell(OK, None, PROGRAM)])
    tries('no_code 0', Script(OK.code_hash[::-1]), [holds])
    tries('ok 505', by_type, [holds, other])
    tries('ok 505', by_type, [other, holds], grouped=1)
    tries('no_code 0', by_type, [])
    tries('no_code 0', by_type, [other])
    # two cells with one type script, also where their data is the same, or one cell by two deps
    tries('many_codes 0', by_type, [holds, other, Cell(ANYONE, T, EXIT)])
    tries('many_codes 0', by_type, [holds, Cell(OK, T, PROGRAM, block=2)])
    tries('many_codes 0', by_type, [holds, holds])
    tries('many_codes 0', by_type, [holds, other, holds], grouped=1)
    tries('many_codes 0', by_type, [holds, other, holds], grouped=2)
    tries('many_codes 0', by_type, [holds, holds, holds], grouped=3)
    # a lock is no type script, a data hash no type hash, and no other hash type finds code
    tries('no_code 0', Script(T.hash(), BY_TYPE), [Cell(T, None, PROGRAM)])
    tries('no_code 0', Script(data_hash(PROGRAM), BY_TYPE), [holds])
    tries('no_code 0', Script(T.hash()), [holds])
    for hash_type in (2, 3, 4, 128, 255):
        tries('no_code 0', Script(data_hash(PROGRAM), hash_type), [holds])
        tries('no_code 0', Script(T.hash(), hash_type), [holds])


def on_editions(chain):
    """Several deps with one type script, where the second edition holds: they are one code where their data is equal."""
    holds = Cell(ANYONE, T, PROGRAM, block=1)
    same = Cell(OK, T, PROGRAM, 5, block=2, tx=3)
    other = Cell(ANYONE, U, EXIT)
    by_type = Script(T.hash(), BY_TYPE)

    def tries(wanted, script, deps, grouped=0):
        row(Scene(chain, [Cell(script)], [Cell(ANYONE)], deps, grouped=grouped, second=True), wanted)

    tries('ok 505', by_type, [holds])
    tries('ok 505', by_type, [holds, same])
    tries('ok 505', by_type, [holds, holds])
    tries('ok 505', by_type, [other, same, other, holds, same])
    tries('ok 505', by_type, [holds, other, holds], grouped=2)
    for differs in (EXIT, b'', PROGRAM[:-1], PROGRAM + b'\0', PROGRAM[:-1] + b'\x01'):
        assert differs != PROGRAM
        tries('many_codes 0', by_type, [holds, Cell(ANYONE, T, differs)])
        tries('many_codes 0', by_type, [Cell(ANYONE, T, differs), holds])
        tries('many_codes 0', by_type, [holds, same, Cell(ANYONE, T, differs), same])
    # one that is no program is refused as such
    tries('bad_elf 0 1', by_type, [Cell(ANYONE, T, b''), Cell(ANYONE, T, b'', block=1)])
    # other scripts find their code as before
    tries('no_code 0', by_type, [])
    tries('no_code 0', by_type, [other, other])
    tries('ok 505', OK, [other, holds, holds])
    tries('no_code 0', Script(T.hash()), [holds, same])
    tries('no_code 0', Script(T.hash(), 2), [holds, same])
    # J28 looks at all groups before one runs
    two = [holds, same, Cell(ANYONE, None, EXIT), Cell(ANYONE, U, EXIT), Cell(ANYONE, U, CODE)]
    many = Script(U.hash(), BY_TYPE)
    row(Scene(chain, [Cell(exits(3))], [Cell(ANYONE, by_type)], two, second=True), 'exit 0 3')
    row(Scene(chain, [Cell(by_type)], [Cell(ANYONE, many)], two, second=True), 'many_codes 1')


def on_files(chain):
    """Data that is no program, and the cycles of loading and of each step."""
    holds = Cell(ANYONE, T, PROGRAM, block=1)

    def tries(wanted, script, deps, budget=AMPLE):
        row(Scene(chain, [Cell(script)], [Cell(ANYONE)], deps), wanted, budget)

    tries('bad_elf 0 1', Script(bytes(32)), [holds, Cell(ANYONE)])
    tries('bad_elf 0 1', Script(bytes(32)), [holds, Cell(ANYONE)], 0)
    tries('no_code 0', Script(bytes(32)), [holds])
    tries('no_code 0', Script(ckbhash(b'')), [holds, Cell(ANYONE)])
    tries('bad_elf 0 1', Script(T.hash(), BY_TYPE), [Cell(ANYONE, T)])
    tries('no_code 0', Script(data_hash(b'x')), [Cell(ANYONE)])
    for condition, code in BAD_ELF.items():
        for budget in (AMPLE, 0):
            tries('bad_elf 0 %d' % condition, by_data(code), [holds, Cell(ANYONE, None, code)], budget)
    for budget, wanted in ((0, 'spent'), (2, 'spent'), (3, 'spent'), (4, 'spent'), (5, 'spent'), (504, 'spent'), (505, 'ok 505'),
                           (506, 'ok 505'), (2 ** 40, 'ok 505')):
        tries(wanted, OK, [holds], budget)


# ------------------------------------------------------------------- groups

PROGRAMS = [Cell(ANYONE, None, it) for it in (EXIT, COUNT, PROGRAM, CODE, CHECKS)]


def of_cells(chain, inputs, outputs=((ANYONE,),), deps=PROGRAMS, **others):
    """A transaction of cells, each with its lock and its type script."""
    return Scene(chain, [Cell(*it) for it in inputs], [Cell(*it) for it in outputs], deps, **others)


def on_groups(chain):
    """The order of groups, and their members."""
    def of(inputs, outputs=((ANYONE,),), deps=PROGRAMS):
        return of_cells(chain, inputs, outputs, deps)

    # locks by their first inputs, then types by their first inputs and outputs: the group that fails is named
    a, b, c = (by_data(EXIT, bytes([0, it])) for it in range(3))
    for place, fails in enumerate((a, b, c)):
        bad = by_data(EXIT, bytes([7 + place, place]))
        all_of = [bad if it is fails else it for it in (a, b, c)]
        x, y, z = all_of
        row(of([(x,), (y,), (x,), (z,), (y,)]), 'exit %d %d' % (place, 7 + place))
        row(of([(OK, x), (OK, y), (OK,)], [(ANYONE, z), (ANYONE, x)]), 'exit %d %d' % (1 + place, 7 + place))
        row(of([(OK,), (OK, x)], [(ANYONE, y), (ANYONE,), (ANYONE, z), (ANYONE, y)]), 'exit %d %d' % (1 + place, 7 + place))
        row(of([(x, y)], [(ANYONE, z), (ANYONE, z)]), 'exit %d %d' % (place, 7 + place))
    # one script as a lock and as a type script is two groups; a lock of an output is none
    exact(of([(OK, OK)], [(OK, OK)]))
    row(of([(OK, OK)], [(OK, OK)]), 'ok 1010')
    row(of([(OK,), (OK,), (OK,)], [(exits(3),)]), 'ok 505')
    row(of([(OK, OK), (OK, OK)], [(exits(3), OK)]), 'ok 1010')
    row(of([(exits(4), exits(4))]), 'exit 0 4')
    row(of([(OK,)], [(ANYONE, exits(4))]), 'exit 1 4')
    row(of([(OK,)], []), 'ok 505')
    # scripts that differ in their args, their hash type or their code hash alone
    by_type = Script(T.hash(), BY_TYPE, b'\0')
    deps = [*PROGRAMS, Cell(ANYONE, T, EXIT)]
    row(of([(exits(0),), (exits(1),)]), 'exit 1 1')
    row(of([(exits(0),), (by_type,), (Script(T.hash(), BY_TYPE, b'\5'),)], deps=deps), 'exit 2 5')
    row(of([(by_data(EXIT, b''),), (by_data(PROGRAM, b''),), (exits(-1),)]), 'exit 2 -1')
    # ten locks on twenty inputs
    locks = [by_data(EXIT, bytes([0, it])) for it in range(10)]
    row(of([(locks[it % 10],) for it in range(20)]), 'ok')
    for fails in (0, 5, 9):
        mixed = [by_data(EXIT, bytes([9, it])) if it == fails else one for it, one in enumerate(locks)]
        row(of([(mixed[it * 7 % 10],) for it in range(20)]), 'exit %d 9' % [it * 7 % 10 for it in range(10)].index(fails))
    for code in (1, -1, 127, -128):
        row(of([(exits(code),)]), 'exit 0 %d' % code)
    row(of([(exits(256),)]), 'ok')
    # of two that share a cell of code each has its own args
    row(of([(exits(0),), (exits(2),)], [(ANYONE, exits(3))]), 'exit 1 2')
    # no input, and no group at all
    row(of([], [(ANYONE, OK)]), 'ok 505')
    row(of([], [(ANYONE, OK), (ANYONE, exits(2))]), 'exit 1 2')
    for budget in (0, AMPLE):
        row(of([]), 'ok 0', budget)


def on_first_failure(chain):
    """Which group is named."""
    def of(inputs, outputs=((ANYONE,),), deps=PROGRAMS):
        return of_cells(chain, inputs, outputs, deps)

    # J28 looks at all groups before one runs
    lacking = Script(b'\x01' * 32)
    many = Script(T.hash(), BY_TYPE)
    two = [*PROGRAMS, Cell(ANYONE, T, EXIT), Cell(ANYONE, T, EXIT)]
    faulty = codes(2, 1, 0)
    for first in (exits(3), faulty, counts(0), OK):
        row(of([(first,), (OK,), (lacking,)]), 'no_code %d' % (1 if first is OK else 2))
        row(of([(first,)], [(ANYONE, many)], two), 'many_codes 1')
    row(of([(lacking,), (exits(3),)]), 'no_code 0')
    row(of([(many,), (lacking,)], deps=two), 'many_codes 0')
    row(of([(lacking,), (many,)], deps=two), 'no_code 0')
    row(of([(OK, lacking)]), 'no_code 1', 0)
    row(of([(OK,)], [(ANYONE, lacking)]), 'no_code 1')
    # the first that does not exit with 0 decides
    bad = by_data(BAD_ELF[5])
    deps = [Cell(ANYONE, None, CODE), Cell(ANYONE, None, RETURNS), *PROGRAMS[:3], Cell(ANYONE, None, BAD_ELF[5])]
    ends = {'exit %d 3': exits(3), 'fault %d 2': faulty, 'bad_elf %d 5': bad, 'spent': counts(0)}
    for word, one in ends.items():
        for _, other in ends.items():
            if other is not one:
                row(of([(one,), (other,)], deps=deps), word.replace('%d', '0'), 20000)
        row(of([(OK,), (one,), (OK,)], deps=deps), word.replace('%d', '1'), 20000)
        row(of([(OK, one)], [(ANYONE, OK)], deps=deps), word.replace('%d', '1'), 20000)


def on_cycles(chain):
    def of(*locks, types=()):
        return Scene(chain, [Cell(it) for it in locks], [Cell(ANYONE, it) for it in types] or [Cell(ANYONE)],
                     [*PROGRAMS, Cell(ANYONE, None, BAD_ELF[5])])

    first, second = counts(1000), counts(10)
    one, two = exact(of(first)), exact(of(second))
    both = exact(of(first, second))
    assert both == one + two == exact(of(second, first)) == exact(of(first, types=[second]))
    for budget in (0, 1, one - 1, one, one + 1, both - two - 1):
        row(of(first, second), 'spent', budget)
    assert exact(of(OK, first, second, types=[OK, first])) == 505 * 2 + 2 * one + two
    # a file that is none needs no cycles; a first step does
    bad = by_data(BAD_ELF[5])
    row(of(first, bad), 'bad_elf 1 5', one)
    row(of(first, bad), 'spent', one - 1)
    row(of(bad, first), 'bad_elf 0 5', 0)
    row(of(first, OK), 'spent', one)
    row(of(first, OK), 'spent', one + 504)
    row(of(first, OK), 'ok', one + 505)
    # within the budget at the exit itself
    exiting = exits(6)
    used = row(of(exits(0)), 'ok')
    row(of(exiting), 'exit 0 6', used)
    row(of(exiting), 'spent', used - 1)
    row(of(counts(0)), 'spent', 100000)
    row(of(OK, counts(0), exits(6)), 'spent', 30000)
    row(of(counts(20000)), 'ok')


# ------------------------------------------------------------------ TYPE_ID

WHOLE = 10 ** 6             # the cycles of TYPE_ID
ANY_ARGS = bytes(range(32))


def type_id(args):
    return Script(TYPE_ID, BY_TYPE, args)


def on_type_id_locks(chain):
    def of(inputs, outputs=((ANYONE,),), deps=PROGRAMS):
        return of_cells(chain, inputs, outputs, deps)

    one = of([(type_id(ANY_ARGS),)], deps=())
    assert exact(one) == WHOLE
    row(of([(type_id(ANY_ARGS),), (type_id(ANY_ARGS),)]), 'exit 0 -2')
    row(of([(type_id(ANY_ARGS),), (type_id(ANY_ARGS),)]), 'exit 0 -2', WHOLE)
    row(of([(type_id(ANY_ARGS),), (type_id(ANY_ARGS),)]), 'spent', WHOLE - 1)
    for size in (0, 1, 31, 33, 64):
        row(of([(type_id(bytes(size)),)]), 'exit 0 -1')
        row(of([(type_id(bytes(size)),)]), 'exit 0 -1', WHOLE)
        row(of([(type_id(bytes(size)),)]), 'spent', WHOLE - 1)
    row(of([(type_id(bytes(31)),)] * 2), 'exit 0 -1')
    two = of([(type_id(ANY_ARGS),), (type_id(bytes(32)),)])
    assert exact(two) == 2 * WHOLE
    row(two, 'spent', WHOLE)
    # J28 before it, and cycles that it leaves
    row(of([(type_id(b''),), (Script(bytes(32)),)]), 'no_code 1')
    row(of([(type_id(ANY_ARGS),), (OK,)]), 'spent', WHOLE + 504)
    row(of([(type_id(ANY_ARGS),), (OK,)]), 'ok', WHOLE + 505)
    row(of([(type_id(ANY_ARGS),), (exits(2),)]), 'exit 1 2')
    row(of([(exits(2),), (type_id(b''),)]), 'exit 0 2')
    row(of([(OK,), (type_id(ANY_ARGS),)]), 'spent', WHOLE + 504)
    # by another hash type or another name there is no code
    for hash_type in (0, 2, 255):
        row(of([(Script(TYPE_ID, hash_type, ANY_ARGS),)]), 'no_code 0')
    for name in (bytes(25) + b'TYPE_IE', b'\1' + bytes(24) + b'TYPE_ID', b'TYPE_ID' + bytes(25)):
        row(of([(Script(name, BY_TYPE, ANY_ARGS),)]), 'no_code 0')


def on_type_id_types(chain):
    def of(inputs, outputs=((ANYONE,),), sinces=(), deps=PROGRAMS):
        return of_cells(chain, inputs, outputs, deps, sinces=sinces)

    def new(place, sinces=()):
        """The args of an output of the transaction with these sinces."""
        return ckbhash(of([(OK,)], sinces=sinces).cell_inputs[0] + uint(place, 8))

    # a new one, at its place among all outputs
    for place in range(3):
        outputs = [(ANYONE,)] * 3
        outputs[place] = (ANYONE, type_id(new(place)))
        assert exact(of([(OK,)], outputs)) == WHOLE + 505
        outputs[place] = (ANYONE, type_id(new(place + 1)))
        row(of([(OK,)], outputs), 'exit 1 -3')
        row(of([(OK,)], outputs), 'exit 1 -3', WHOLE + 505)
        row(of([(OK,)], outputs), 'spent', WHOLE + 504)
    row(of([(OK,)], [(ANYONE, type_id(ANY_ARGS))]), 'exit 1 -3')
    row(of([(OK,)], [(ANYONE, type_id(new(0)[:31] + b'\0'))]), 'exit 1 -3')
    row(of([(OK,)], [(ANYONE, type_id(new(0) + b'\0'))]), 'exit 1 -1')
    row(of([(OK,)], [(ANYONE, type_id(new(0)[:31]))] * 2), 'exit 1 -1')
    row(of([(OK,)], [(ANYONE, type_id(new(0)))] * 2), 'exit 1 -2')
    row(of([(OK,)], [(ANYONE, type_id(ANY_ARGS))] * 2), 'exit 1 -2')
    # by all 44 bytes of the transaction's first input
    row(of([(OK,)], [(ANYONE, type_id(new(0, [77])))], [77]), 'ok')
    row(of([(OK,)], [(ANYONE, type_id(new(0)))], [77]), 'exit 1 -3')
    row(of([(OK,), (OK,)], [(ANYONE, type_id(ckbhash(of([(OK,)] * 2).cell_inputs[1] + uint(0, 8))))]), 'exit 1 -3')
    # one that is kept, one that is given up; its args are then any
    row(of([(OK, type_id(ANY_ARGS))], [(ANYONE, type_id(ANY_ARGS))]), 'ok %d' % (WHOLE + 505))
    row(of([(OK,), (OK, type_id(ANY_ARGS))], [(ANYONE,), (ANYONE, type_id(ANY_ARGS))]), 'ok')
    row(of([(OK, type_id(ANY_ARGS))]), 'ok')
    row(of([(OK, type_id(ANY_ARGS))] * 2), 'exit 1 -2')
    row(of([(OK, type_id(ANY_ARGS))] * 2, [(ANYONE, type_id(ANY_ARGS))]), 'exit 1 -2')
    row(of([(OK, type_id(ANY_ARGS))], [(ANYONE, type_id(ANY_ARGS))] * 2), 'exit 1 -2')
    row(of([(OK, type_id(ANY_ARGS[:31]))], [(ANYONE, type_id(ANY_ARGS[:31]))]), 'exit 1 -1')
    # no code is looked for
    deps = [Cell(ANYONE, None, PROGRAM), Cell(ANYONE, type_id(new(0)), EXIT)]
    row(of([(OK,)], [(ANYONE, type_id(new(0)))], deps=deps), 'ok')
    # without an input there is nothing that the args could be made of
    row(of([], [(ANYONE, type_id(ANY_ARGS))]), 'exit 0 -3')


def main():
    # Blocks 2 and 3 both stand on block 1, and blocks 4 and 5 after 3: places are not heights.
    parents = [0, 1, 1, 3, 4]
    chain = Chain(10, parents)
    for cases in (on_shown, on_witnesses, on_witness_places, on_code_loads, on_large, on_contents, on_unknown, on_memory, on_code,
                  on_codes, on_files, on_groups, on_first_failure, on_cycles, on_type_id_locks, on_type_id_types):
        cases(chain)
    for length in (1, 2, 3, 4, 65535):
        on_epochs(Chain(length, parents))
    on_editions(Chain(10, parents, edition=0))
    alone = Scene(Chain(10, []), [Cell(OK, capacity=10 ** 12)], [Cell(OK)], [Cell(OK, content=PROGRAM)])
    row(alone, 'ok 505', 1 << 40, rounds=3)
    print('\n'.join(LINES))


if __name__ == '__main__':
    main()
