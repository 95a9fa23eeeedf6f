"""The pages of `ckbtrace`, line by line: how a program ended, and the script groups of a transaction, by docs/COMMANDS.md,
docs/MACHINE.md and docs/RULES.md alone.

The machine is that of examples/script_machine.py, and what scripts are shown is of examples/script_scene.py: both were
written from these pages, and owe nothing to the program.
"""

import explain_model
import script_machine
from encoding import fields_of, items_of, number_of
from script_machine import Exit, Fault, Spent
from script_scene import BY_TYPE, TYPE_ID, TYPE_ID_CYCLES, Cell, Scene, Script

NAMES = ('zero ra sp gp tp t0 t1 t2 s0 s1 a0 a1 a2 a3 a4 a5 a6 a7 s2 s3 s4 s5 s6 s7 s8 s9 s10 s11 t3 t4 t5 t6').split()
# how many jumps, syscalls and bytes of a text a page shows, and how many bytes of texts that of all groups
JUMPS, CALLS, SHOWN, ALL_TEXTS = 16, 32, 1024, 65536
ESCAPES = {10: '\\n', 9: '\\t', 34: '\\"', 92: '\\\\'}
# of syscalls their names in RFC 0009
SYSCALLS = {
    93: 'exit', 2051: 'load_transaction', 2052: 'load_script', 2061: 'load_tx_hash', 2062: 'load_script_hash', 2071: 'load_cell',
    2072: 'load_header', 2073: 'load_input', 2074: 'load_witness', 2081: 'load_cell_by_field', 2082: 'load_header_by_field',
    2083: 'load_input_by_field', 2091: 'load_cell_data_as_code', 2092: 'load_cell_data', 2177: 'debug'}
SOURCES = {1: 'input', 2: 'output', 3: 'cell dep', 4: 'header dep', 1 << 56 | 1: 'group input', 1 << 56 | 2: 'group output'}
RESULTS = {1: ', the source has no such index', 2: ', no such item', 3: ', past the end'}


# ------------------------------------------------------- the text of code

IMMEDIATES = {'addw': 'addiw', 'sllw': 'slliw', 'srlw': 'srliw', 'sraw': 'sraiw', 'sltu': 'sltiu'}
WIDTHS = {1: 'b', 2: 'h', 4: 'w', 8: 'd'}


def decoded(word, size):
    return script_machine.decode_full(word) if size == 4 else script_machine.decode_compressed(word)


def text_of(word, size):
    """The text of the instruction that so many bytes are; nothing where they are none."""
    it = decoded(word, size)
    if it is None:
        return None
    kind, *rest = it
    if kind == 'immediate':
        return '%s x%d,x%d,%d' % (IMMEDIATES.get(rest[0], rest[0] + 'i'), *rest[1:])
    if kind == 'op':
        return '%s x%d,x%d,x%d' % tuple(rest)
    if kind == 'load':
        width, is_signed, rd, rs1, offset = rest
        return 'l%s%s x%d,%d(x%d)' % (WIDTHS[width], '' if is_signed else 'u', rd, offset, rs1)
    if kind == 'store':
        width, rs1, rs2, offset = rest
        return 's%s x%d,%d(x%d)' % (WIDTHS[width], rs2, offset, rs1)
    if kind == 'branch':
        return '%s x%d,x%d,%d' % tuple(rest)
    if kind == 'jal':
        return 'jal x%d,%d' % tuple(rest)
    if kind == 'jalr':
        return 'jalr x%d,%d(x%d)' % (rest[0], rest[2], rest[1])
    if kind in ('upper', 'upper from pc'):
        return '%s x%d,%d' % ('lui' if kind == 'upper' else 'auipc', rest[0], rest[1] >> 12 & 0xfffff)
    if kind == 'nothing':
        return 'fence.i' if word >> 12 & 7 else 'fence'
    return kind


def listing(code):
    """The lines of `dis`."""
    lines, at = [], 0
    while at < len(code):
        size = 4 if code[at] & 3 == 3 else 2
        part = code[at:at + size]
        text = text_of(number_of(part), size) if len(part) == size else None
        if text is None and len(code) - at == 1:
            text, size = '.byte 0x%02x' % code[at], 1
        elif text is None:
            text, size = '.half 0x%04x' % number_of(code[at:at + 2]), 2
        lines.append('%d %s' % (at, text))
        at += size
    return lines


# -------------------------------------------------------------- symbols

def symbols_of(file):
    """The symbols of the file's first symbol table that have no type, or are data or functions, up to 65,536 of all: the name, the
    address and the size of each."""
    def at(place, size):
        return number_of(file[place:place + size])
    headers = [at(40, 8) + 64 * i for i in range(at(60, 2))]
    table = next((it for it in headers if at(it + 4, 4) == 2), None)
    if table is None:
        return []
    start, count = at(table + 24, 8), min(at(table + 32, 8) // 24, 65536)
    names = at(at(40, 8) + 64 * at(table + 40, 4) + 24, 8)
    found = []
    for it in range(start, start + 24 * count, 24):
        if it >= len(file):
            break
        name = file[names + at(it, 4):].split(b'\0')[0]
        if at(it + 4, 1) % 16 < 3 and name and name[:1] != b'$':
            shown = ''.join(chr(byte) if 32 < byte < 127 else '?' for byte in name[:80])
            found.append((shown, at(it + 8, 8), at(it + 16, 8)))
    return found


def named(symbols, address):
    """The name of an address, behind a space, where it has one."""
    for name, value, size in symbols:
        if value <= address < value + max(size, 1):
            return ' (%s%s)' % (name, '+0x%x' % (address - value) if address > value else '')
    return ''


# -------------------------------------------------------------- a machine

def shown(memory, at):
    """The line of a text in memory."""
    text = bytes(memory[at:at + SHOWN])
    is_whole = b'\0' in text
    parts = (ESCAPES.get(byte) or (chr(byte) if 32 <= byte < 127 else '\\x%02x' % byte) for byte in text.split(b'\0')[0])
    return 'text "%s"%s' % (''.join(parts), '' if is_whole else ' cut')


class Traced(script_machine.Machine):
    """The machine, which notes its jumps, what it prints, and its syscalls."""

    def __init__(self, budget, items):
        super().__init__(budget, items)
        self.texts, self.jumps, self.calls = [], [], []

    def go(self):
        while True:
            cycles, effect = self.decoded.get(self.pc) or self.decode()
            self.charge(cycles)
            at, self.pc = self.pc, effect()
            if self.pc - at & script_machine.MASK not in (2, 4):
                if self.jumps and self.jumps[-1][:2] == [at, self.pc]:
                    self.jumps[-1][2] += 1
                else:
                    self.jumps.append([at, self.pc, 1])

    def syscall(self):
        number, asked = self.x[17], self.x[10:16]
        if number == 2177:
            self.texts.append(shown(self.memory, asked[0]))
        line = '  0x%x %d %s' % (self.pc, number, SYSCALLS.get(number, 'no syscall')) + asks(number, asked)
        try:
            super().syscall()
        except (Exit, Fault, Spent):
            self.calls.append(line + ': it ended here')
            raise
        self.calls.append(line + self.answer(number, asked[1]))

    def answer(self, number, length_at):
        """What a call was answered after which the program goes on; of a load in part the count that the length word has."""
        if number == 2177:
            return ''
        result = self.x[10]
        if result == 0 and number != 2091:
            return ': 0, %d bytes' % number_of(self.memory[length_at:length_at + 8])
        return ': %d%s' % (result, RESULTS.get(result, ''))

    def text_at(self, at):
        """The instruction at an address, or why there is none."""
        if at % 2:
            return 'odd address'
        try:
            word = self.fetch_pair(at)
            size = 4 if word & 3 == 3 else 2
            if size == 4:
                word |= self.fetch_pair(at + 2) << 16
        except Fault:
            return 'no code'
        return text_of(word, size) or 'no instruction'


def asks(number, asked):
    """What a call asks for: the item and its field, and the byte from which on it is to come."""
    text = ''
    if number in (2071, 2072, 2073, 2074, 2081, 2082, 2083, 2091, 2092):
        index, source = asked[4:6] if number == 2091 else asked[3:5]
        text = ' %s %d' % (SOURCES.get(source, 'no source'), index) + ('' if source in SOURCES else ' (0x%x)' % source)
    if number in (2081, 2082, 2083):
        text += ', field %d' % asked[5]
    if 2051 <= number <= 2092 and asked[2]:
        text += ', from byte %d' % asked[2]
    return text


# ---------------------------------------------------------------- the page

class Ended:
    """How a file ended over what surrounds it: `end` as run() of script_machine has it, and the machine, where it came to one."""

    def __init__(self, code, budget, items=lambda *_: script_machine.UNKNOWN):
        self.code, self.budget, self.machine = code, budget, None

        def make(*words):
            self.machine = Traced(*words)
            return self.machine

        # a file that is no program comes to no machine, and one that loading alone spends to none that has code
        self.end = script_machine.run(code, budget, items, make)
        self.has_begun = self.machine is not None and (self.end != ('spent',) or self.machine.code.count(1) > 0)

    def page(self):
        """The lines of the page, without the texts that were printed."""
        if self.end[0] == 'bad elf':
            return ['bad elf %d' % self.end[1]]
        it = self.machine
        if not self.has_begun:
            return ['spent', 'cycles %d of %d, for loading alone' % (it.cycles, self.budget)]
        end = self.end + (it.cycles,) if self.end[0] == 'fault' else self.end
        symbols = symbols_of(self.code)
        lines = [' '.join(map(str, end)), 'cycles %d of %d' % (it.cycles, self.budget),
                 'pc 0x%x%s %s' % (it.pc, named(symbols, it.pc), it.text_at(it.pc)), 'last jumps']
        for at, to, times in it.jumps[-JUMPS:]:
            lines.append('  0x%x%s %s to 0x%x%s%s' % (at, named(symbols, at), it.text_at(at), to, named(symbols, to),
                                                    ', %d times' % times if times > 1 else ''))
        cells = ['  x%-2d %-4s 0x%016x' % (i, NAMES[i], it.x[i]) for i in range(32)]
        return lines + ['registers', *(cells[i] + cells[i + 1] for i in range(0, 32, 2))]

    def calls(self):
        """The lines of the last syscalls, which stand on the page of a group."""
        if self.end[0] == 'bad elf' or not self.has_begun:
            return []
        made = self.machine.calls
        title = 'last %d of %d syscalls' % (CALLS, len(made)) if len(made) > CALLS else 'syscalls'
        return [title, *made[-CALLS:]]

    def texts(self):
        return self.machine.texts if self.machine else []

    def cycles(self):
        return self.machine.cycles if self.machine else 0

    def text(self):
        """What `ckbtrace N` prints of the file."""
        return ''.join(line + '\n' for line in self.texts() + self.page()).encode()


# ------------------------------------------------------------ script groups

def script_of(content):
    code_hash, kind, args = fields_of(content)
    return Script(code_hash, kind[0], args[4:])


def cell_of(it):
    """A cell of explain_model. What the judged block made has a height of its own, past all of the branch."""
    return Cell(script_of(it.lock), script_of(it.type) if it.type else None, it.content, it.capacity, it.height, it.place)


class Chain:
    """What scripts are shown of a branch."""

    def __init__(self, branch):
        self.length, self.headers = branch.spec.length, [it.header for it in branch.blocks]


class Seen(Scene):
    """A transaction that keeps J18 to J27, with what it resolves to on a branch."""

    def __init__(self, branch, tx):
        self.chain, self.second = Chain(branch), branch.is_second()
        self.item, self.raw, self.witnesses = tx.bytes, tx.raw, tx.witnesses
        self.cell_inputs = items_of(fields_of(tx.raw)[3], 44)
        self.inputs = [cell_of(branch.live[point]) for _, point in tx.inputs]
        self.outputs = [cell_of(explain_model.Cell(it, tx.data_of(i), None, None, None)) for i, it in enumerate(tx.outputs)]
        self.points = [point for _, point in explain_model.resolved(branch, tx)[0]]
        self.deps = [cell_of(branch.live[it]) for it in self.points]
        self.headers = [branch.store.blocks[it].number for it in tx.headers]


def places(name, it):
    return ', %s %s' % (name, ' '.join(map(str, it))) if it else ''


def is_type_id(script):
    return (script.code_hash, script.hash_type) == (TYPE_ID, BY_TYPE)


def candidates(seen, script):
    """Where no code is found: what the script asks for, and the hashes of all that it could mean."""
    lines = ['  code hash 0x%s, hash type %d' % (script.code_hash.hex(), script.hash_type)]
    for i, (point, dep) in enumerate(zip(seen.points, seen.deps)):
        kind = ', type hash 0x%s' % dep.type_script.hash().hex() if dep.type_script else ''
        lines.append('  resolved dep %d, cell %s, data hash 0x%s%s' % (i, explain_model.point_text(point), dep.field(1).hex(), kind))
    return lines


class Groups:
    """The groups of a transaction, run within a budget: `lines` of each, and below them `details`, the pages of the one that
    failed and of the one that is asked for; `rule` is the one of J28 to J30 that they break, and `left` what they leave of the
    budget, or nothing."""

    def __init__(self, branch, tx, budget, asked=None):
        self.seen, self.asked, self.lines, self.details = Seen(branch, tx), asked, [], []
        self.left, self.rule = budget, None
        self.room, self.is_cut = ALL_TEXTS, False
        groups = self.seen.groups()
        if any(self.lacks_code(it.script) for it in groups):
            self.fail(28)
        locks = len({it.lock.hash() for it in self.seen.inputs})
        for i, it in enumerate(groups):
            self.lines.append('group %d %s 0x%s' % (i, 'lock' if i < locks else 'type', it.script.hash().hex())
                              + places('inputs', it.inputs) + places('outputs', it.outputs))
            self.lines += self.code(it.script)
            self.run(i, it)

    def fail(self, rule):
        self.left, self.rule = None, rule

    def lacks_code(self, script):
        return not is_type_id(script) and len(self.seen.code_of(script)) != 1

    def code(self, script):
        """The line of the first dep in which the code of a script may lie."""
        for i, (point, dep) in enumerate(zip(self.seen.points, self.seen.deps)):
            found = {0: dep.field(1), 1: dep.type_script and dep.type_script.hash()}.get(script.hash_type)
            if found == script.code_hash:
                return ['  code resolved dep %d, cell %s' % (i, explain_model.point_text(point))]
        return []

    def run(self, i, group):
        script = group.script
        if self.lacks_code(script):
            self.lines += ['  no code: ' + self.why_without(script)] + candidates(self.seen, script)
        elif self.left is None:
            self.lines.append('  not run')
        elif is_type_id(script):
            self.run_type_id(group)
        else:
            self.run_code(i, group)

    def why_without(self, script):
        if self.seen.code_of(script):
            return 'several deps have this type hash, and they are not one code'
        by = {0: 'no dep has this data hash', 1: 'no dep has this type hash'}
        return by.get(script.hash_type, 'this hash type finds none; 0 goes by the data hash, and 1 by the type hash')

    def run_type_id(self, group):
        if self.left < TYPE_ID_CYCLES:
            self.lines.append('  TYPE_ID spent: fewer than 1000000 cycles are left')
            self.fail(30)
            return
        code = self.seen.type_id_exit(group)
        self.lines.append('  TYPE_ID exit %d' % code)
        self.left -= TYPE_ID_CYCLES
        if code:
            self.fail(29)

    def run_code(self, i, group):
        ended = Ended(self.seen.code_of(group.script)[0], self.left, self.seen.items(group))
        for text in ended.texts():
            self.print(text)
        if ended.end[0] == 'bad elf':
            self.lines.append('  bad elf %d' % ended.end[1])
        else:
            self.lines.append('  %s after %d cycles' % (' '.join(map(str, ended.end[:2])), ended.cycles()))
        is_good = ended.end[:2] == ('exit', 0)
        if not is_good or self.asked == i:
            self.details += ['page of group %d' % i] + ended.page() + ended.calls()
        self.left -= ended.cycles()
        if not is_good:
            self.fail(30 if ended.end == ('spent',) else 29)

    def page(self):
        return self.lines + self.details

    def print(self, text):
        """A text, with its line feed, as far as there is room for those of all groups."""
        if len(text) + 1 <= self.room:
            self.room -= len(text) + 1
            self.lines.append('  ' + text)
        elif not self.is_cut:
            self.is_cut = True
            self.lines.append('  further texts are left out')


def groups_after_tip(store, content, asked=None):
    """Those of a transaction after the tip."""
    branch = explain_model.Branch(store, store.tip)
    return Groups(branch, explain_model.Tx(content), store.spec.max_cycles, asked)


def groups_in_block(store, content, asked=None):
    """Those of the first transaction of a block that break a rule, within what the transactions before it left, below its place."""
    block = explain_model.Block(content)
    branch = explain_model.Branch(store, store.blocks[block.parent])
    branch.stand_in(block)
    left = store.spec.max_cycles
    for tx in block.transactions[1:]:
        it = Groups(branch, tx, left, asked)
        if it.rule:
            it.lines.insert(0, 'place transaction %d, 0x%s' % (branch.place, tx.hash.hex()))
            return it
        left = it.left
        branch.take()
    raise AssertionError('all its groups are good')
