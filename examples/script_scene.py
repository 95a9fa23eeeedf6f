"""Transactions with what they resolve to, the script groups of each, and what comes of them.

It is written from docs/RULES.md ("Script groups") and docs/MACHINE.md ("What a
script is shown") alone, and shares nothing with the program.
"""

from dataclasses import dataclass

import encoding
from encoding import cell_input, cell_output, ckbhash, data_hash, number_of, out_point, raw_transaction, uint
from make_store import SHANNONS
from script_machine import LOADS_FIELD, MISSING, NO_INDEX, UNKNOWN, run

INPUTS, OUTPUTS, CELL_DEPS, HEADER_DEPS = 1, 2, 3, 4
GROUP = 0x0100000000000000
SOURCES = [it | group for group in (0, GROUP) for it in (INPUTS, OUTPUTS, CELL_DEPS, HEADER_DEPS)]
KINDS = {2071: 'cell', 2081: 'cell', 2091: 'data', 2092: 'data', 2072: 'header', 2082: 'header',
         2073: 'input', 2083: 'input', 2074: 'witness'}
FIELDS = {2081: 7, 2082: 3, 2083: 2}

BY_DATA, BY_TYPE = 0, 1
TYPE_ID = bytes(25) + b'TYPE_ID'
TYPE_ID_CYCLES = 10 ** 6


@dataclass(frozen=True)
class Script:
    code_hash: bytes
    hash_type: int = BY_DATA
    args: bytes = b''

    def item(self):
        return encoding.script(self.code_hash, self.hash_type, self.args)

    def hash(self):
        return ckbhash(self.item())


@dataclass
class Cell:
    """An output with its data; where it is an input's or a dep, the places of the block and the transaction that made it."""

    lock: Script
    type_script: Script = None
    content: bytes = b''
    capacity: int = 1000 * SHANNONS
    block: int = 0
    tx: int = 0

    def item(self):
        return cell_output(self.capacity, self.lock.item(), self.type_script.item() if self.type_script else b'')

    def occupied(self):
        size = 8 + 33 + len(self.lock.args) + len(self.content)
        if self.type_script:
            size += 33 + len(self.type_script.args)
        return size * SHANNONS

    def field(self, number):
        of_type = self.type_script
        return [uint(self.capacity, 8), data_hash(self.content), self.lock.item(), self.lock.hash(),
                of_type.item() if of_type else MISSING, of_type.hash() if of_type else MISSING,
                uint(self.occupied(), 8)][number]


@dataclass
class Group:
    script: Script
    inputs: list
    outputs: list


class Scene:
    """A transaction over kept blocks. `chain` has `length`, that of an epoch, and `headers`, one a block.

    `contents` are the `outputs_data`, where they are not the data of each output. `second` says that code is found by the
    second edition of the rules.
    """

    def __init__(self, chain, inputs, outputs=(), deps=(), headers=(), witnesses=(), sinces=(), grouped=0, contents=None,
                 second=False):
        self.second, self.chain, self.inputs, self.outputs, self.deps = second, chain, list(inputs), list(outputs), list(deps)
        if contents is None:
            contents = [it.content for it in self.outputs]
        for place, cell in enumerate(self.outputs):
            cell.content = contents[place] if place < len(contents) else b''
        self.headers, self.witnesses = list(headers), list(witnesses)
        sinces = list(sinces) + [0] * (len(self.inputs) - len(sinces))
        self.cell_inputs = [cell_input(out_point(ckbhash(b'input %d' % place), place), since)
                            for place, since in enumerate(sinces)]
        # the last `grouped` of the resolved deps are the members of one dep group
        direct = len(self.deps) - grouped
        points = [(place, 0) for place in range(direct)] + [(direct, 1)] * bool(grouped)
        self.raw = raw_transaction(
            self.cell_inputs, [it.item() for it in self.outputs], contents,
            [out_point(ckbhash(b'dep %d' % place), place) + uint(kind, 1) for place, kind in points],
            [ckbhash(chain.headers[place]) for place in self.headers])
        self.item = encoding.transaction(self.raw, self.witnesses)

    # ------------------------------------------------------------- groups

    def groups(self):
        def places(cells, script, of):
            return [place for place, cell in enumerate(cells) if of(cell) == script]

        def distinct(scripts):
            found = []
            for it in scripts:
                if it and it not in found:
                    found.append(it)
            return found

        def lock(cell):
            return cell.lock

        def type_script(cell):
            return cell.type_script

        locks = distinct(map(lock, self.inputs))
        types = distinct(map(type_script, self.inputs + self.outputs))
        return ([Group(it, places(self.inputs, it, lock), []) for it in locks]
                + [Group(it, places(self.inputs, it, type_script), places(self.outputs, it, type_script)) for it in types])

    def code_of(self, script):
        """The codes that a script may have: it has code where there is one."""
        if script.hash_type == BY_DATA:
            return [it.content for it in self.deps if data_hash(it.content) == script.code_hash][:1]
        if script.hash_type == BY_TYPE:
            codes = [it.content for it in self.deps if it.type_script and it.type_script.hash() == script.code_hash]
            return list(dict.fromkeys(codes)) if self.second else codes
        return []

    # ----------------------------------------------------- what is shown

    def place(self, group, source, index):
        """The list in which an item of a source stands, and its place there, which for a group is that of its member."""
        of_group = {GROUP | INPUTS: (INPUTS, group.inputs), GROUP | OUTPUTS: (OUTPUTS, group.outputs)}
        if source in of_group:
            kind, members = of_group[source]
            return (kind, members[index]) if index < len(members) else None
        return None if source in (GROUP | CELL_DEPS, GROUP | HEADER_DEPS) else (source, index)

    def header_of(self, cell):
        return self.chain.headers[cell.block] if cell.block in self.headers else MISSING

    def listed(self, kind, source):
        """The items of a kind that a source has. All witnesses are those of the inputs, and of the outputs too."""
        cells = {INPUTS: self.inputs, OUTPUTS: self.outputs, CELL_DEPS: self.deps}.get(source, [])
        if kind in ('cell', 'data'):
            return cells
        if kind == 'header':
            if source == HEADER_DEPS:
                return [self.chain.headers[it] for it in self.headers]
            return [] if source == OUTPUTS else [self.header_of(it) for it in cells]
        if kind == 'input':
            return self.cell_inputs if source == INPUTS else []
        return self.witnesses if source in (INPUTS, OUTPUTS) else []

    def stands_at(self, kind, source, place):
        """What of a kind stands at a place, or None where the source has no such thing."""
        items = self.listed(kind, source)
        return items[place] if place < len(items) else None

    def header_field(self, header, number):
        length, height = self.chain.length, number_of(header[16:24])
        return uint([height // length, height // length * length, length][number], 8)

    def items(self, group):
        alone = {2051: self.item, 2061: ckbhash(self.raw), 2052: group.script.item(), 2062: group.script.hash()}

        def of(number, index, source, field):
            if number in alone:
                return alone[number]
            if source not in SOURCES or number in LOADS_FIELD and field >= FIELDS[number]:
                return UNKNOWN
            place = self.place(group, source, index)
            found = None if place is None else self.stands_at(KINDS[number], *place)
            if found is None:
                return NO_INDEX
            if found is MISSING:
                return MISSING
            if number == 2071:
                return found.item()
            if number == 2081:
                return found.field(field)
            if KINDS[number] == 'data':
                return found.content
            if number == 2082:
                return self.header_field(found, field)
            if number == 2083:
                return found[8:] if field == 0 else found[:8]
            return found
        return of

    # ---------------------------------------------------- what comes of it

    def type_id_exit(self, group):
        if len(group.script.args) != 32:
            return -1
        if len(group.inputs) > 1 or len(group.outputs) > 1:
            return -2
        first = b''.join(self.cell_inputs[:1])
        if not group.inputs and group.script.args != ckbhash(first + uint(group.outputs[0], 8)):
            return -3
        return 0

    def run_group(self, group, left):
        if (group.script.code_hash, group.script.hash_type) == (TYPE_ID, BY_TYPE):
            return ('spent',) if left < TYPE_ID_CYCLES else ('exit', self.type_id_exit(group), TYPE_ID_CYCLES)
        return run(self.code_of(group.script)[0], left, self.items(group))

    def outcome(self, budget):
        """`ok CYCLES`, or why a group fails it."""
        groups = self.groups()
        for place, group in enumerate(groups):
            codes = self.code_of(group.script)
            if len(codes) != 1 and (group.script.code_hash, group.script.hash_type) != (TYPE_ID, BY_TYPE):
                return '%s %d' % ('many_codes' if codes else 'no_code', place)
        left = budget
        for place, group in enumerate(groups):
            end = self.run_group(group, left)
            if end[0] == 'bad elf':
                return 'bad_elf %d %d' % (place, end[1])
            if end[0] == 'fault':
                return 'fault %d %d' % (place, end[1])
            if end[0] == 'spent':
                return 'spent'
            if end[1]:
                return 'exit %d %d' % (place, end[1])
            left -= end[2]
        return 'ok %d' % (budget - left)
