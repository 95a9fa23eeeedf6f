"""The machine of docs/MACHINE.md in plain Python, with the syscalls of a script.

It is written from that page and the manual alone, and shares nothing with the
program. `run(code, budget, items)` answers one of

    ('bad elf', E)   ('exit', CODE, CYCLES)   ('fault', K)   ('spent',)

`items(number, index, source, field)` shows what surrounds a script: bytes, or
one of UNKNOWN, NO_INDEX and MISSING.
"""

MEMORY, PAGE, STACK = 1 << 22, 4096, 0x3ffff0
MASK = (1 << 64) - 1
UNKNOWN, NO_INDEX, MISSING = 'unknown', 'no index', 'missing'
LOADS = (2051, 2052, 2061, 2062, 2071, 2072, 2073, 2074, 2092)
LOADS_FIELD = (2081, 2082, 2083)
LOADS_CODE = 2091


class Fault(Exception):
    pass


class Spent(Exception):
    pass


class Exit(Exception):
    pass


def signed(value, bits=64):
    value &= (1 << bits) - 1
    return value - (1 << bits) if value >> (bits - 1) else value


def word(value):
    """The low 32 bits, sign-extended."""
    return signed(value, 32) & MASK


# --------------------------------------------------------------- arithmetic

def quotient(a, b):
    """Rounded toward zero; -1 by zero."""
    if b == 0:
        return -1
    q = abs(a) // abs(b)
    return q if (a < 0) == (b < 0) else -q


def rest(a, b):
    return a if b == 0 else a - b * quotient(a, b)


def by_words(f, is_signed):
    def of(a, b):
        if is_signed:
            return word(f(signed(a, 32), signed(b, 32)))
        return word(f(a & 0xffffffff, b & 0xffffffff))
    return of


def divide(a, b, ones):
    return a // b if b else ones


ALU = {
    'add': lambda a, b: a + b & MASK,
    'sub': lambda a, b: a - b & MASK,
    'sll': lambda a, b: a << (b & 63) & MASK,
    'slt': lambda a, b: int(signed(a) < signed(b)),
    'sltu': lambda a, b: int(a < b),
    'xor': lambda a, b: a ^ b,
    'srl': lambda a, b: a >> (b & 63),
    'sra': lambda a, b: signed(a) >> (b & 63) & MASK,
    'or': lambda a, b: a | b,
    'and': lambda a, b: a & b,
    'mul': lambda a, b: a * b & MASK,
    'mulh': lambda a, b: signed(a) * signed(b) >> 64 & MASK,
    'mulhsu': lambda a, b: signed(a) * b >> 64 & MASK,
    'mulhu': lambda a, b: a * b >> 64,
    'div': lambda a, b: quotient(signed(a), signed(b)) & MASK,
    'divu': lambda a, b: divide(a, b, MASK),
    'rem': lambda a, b: rest(signed(a), signed(b)) & MASK,
    'remu': lambda a, b: a % b if b else a,
    'addw': lambda a, b: word(a + b),
    'subw': lambda a, b: word(a - b),
    'sllw': lambda a, b: word(a << (b & 31)),
    'srlw': lambda a, b: word((a & 0xffffffff) >> (b & 31)),
    'sraw': lambda a, b: word(signed(a, 32) >> (b & 31)),
    'mulw': lambda a, b: word(a * b),
    'divw': by_words(quotient, True),
    'remw': by_words(rest, True),
    'divuw': by_words(lambda a, b: divide(a, b, 0xffffffff), False),
    'remuw': by_words(lambda a, b: a % b if b else a, False),
}
COST = {name: 5 if name.startswith('mul') else 32 if name.startswith(('div', 'rem')) else 1 for name in ALU}
BRANCH = {
    'beq': lambda a, b: a == b, 'bne': lambda a, b: a != b,
    'blt': lambda a, b: signed(a) < signed(b), 'bge': lambda a, b: signed(a) >= signed(b),
    'bltu': lambda a, b: a < b, 'bgeu': lambda a, b: a >= b,
}


# ----------------------------------------------------------------- decoding
#
# An instruction is a name with its operands:
#   op NAME rd rs1 rs2, immediate NAME rd rs1 value, load WIDTH SIGNED rd rs1 offset, store WIDTH rs1 rs2 offset,
#   branch NAME rs1 rs2 offset, jal rd offset, jalr rd rs1 offset, upper rd value, upper from pc rd value,
#   nothing, ebreak, ecall

NAMES = ('add', 'sll', 'slt', 'sltu', 'xor', 'srl', 'or', 'and')
MULTIPLY = ('mul', 'mulh', 'mulhsu', 'mulhu', 'div', 'divu', 'rem', 'remu')
MULTIPLY_WORDS = {0: 'mulw', 4: 'divw', 5: 'divuw', 6: 'remw', 7: 'remuw'}
BRANCHES = {0: 'beq', 1: 'bne', 4: 'blt', 5: 'bge', 6: 'bltu', 7: 'bgeu'}


def picked(w, *parts):
    """The bits of a word, put to their places: (from bit, to bit, count)."""
    value = 0
    for source, target, count in parts:
        value |= (w >> source & (1 << count) - 1) << target
    return value


def decode_full(w):
    """The instruction of a word of four bytes; None where there is none."""
    opcode, rd, f3, rs1, rs2, f7 = w & 127, w >> 7 & 31, w >> 12 & 7, w >> 15 & 31, w >> 20 & 31, w >> 25
    value = signed(w >> 20, 12)
    if opcode == 0x37:
        return 'upper', rd, signed(w & 0xfffff000, 32)
    if opcode == 0x17:
        return 'upper from pc', rd, signed(w & 0xfffff000, 32)
    if opcode == 0x6f:
        return 'jal', rd, signed(picked(w, (31, 20, 1), (12, 12, 8), (20, 11, 1), (21, 1, 10)), 21)
    if opcode == 0x67 and f3 == 0:
        return 'jalr', rd, rs1, value
    if opcode == 0x63 and f3 in BRANCHES:
        return 'branch', BRANCHES[f3], rs1, rs2, signed(picked(w, (31, 12, 1), (7, 11, 1), (25, 5, 6), (8, 1, 4)), 13)
    if opcode == 0x03 and f3 != 7:
        return 'load', 1 << (f3 & 3), f3 < 4, rd, rs1, value
    if opcode == 0x23 and f3 < 4:
        return 'store', 1 << f3, rs1, rs2, signed(f7 << 5 | rd, 12)
    if opcode == 0x13:
        if f3 == 1:
            return ('immediate', 'sll', rd, rs1, w >> 20 & 63) if w >> 26 == 0 else None
        if f3 == 5:
            name = {0: 'srl', 16: 'sra'}.get(w >> 26)
            return name and ('immediate', name, rd, rs1, w >> 20 & 63)
        return 'immediate', NAMES[f3], rd, rs1, value
    if opcode == 0x1b:
        if f3 == 0:
            return 'immediate', 'addw', rd, rs1, value
        name = {(1, 0): 'sllw', (5, 0): 'srlw', (5, 32): 'sraw'}.get((f3, f7))
        return name and ('immediate', name, rd, rs1, rs2)
    if opcode == 0x33:
        name = {0: NAMES, 1: MULTIPLY, 32: ('sub', None, None, None, None, 'sra', None, None)}.get(f7, [None] * 8)[f3]
        return name and ('op', name, rd, rs1, rs2)
    if opcode == 0x3b:
        name = {(0, 0): 'addw', (1, 0): 'sllw', (5, 0): 'srlw', (0, 32): 'subw', (5, 32): 'sraw'}.get((f3, f7))
        if f7 == 1:
            name = MULTIPLY_WORDS.get(f3)
        return name and ('op', name, rd, rs1, rs2)
    if opcode == 0x0f and f3 < 2:
        return ('nothing',)
    return {0x00000073: ('ecall',), 0x00100073: ('ebreak',)}.get(w)


def decode_quadrant_0(w, f3):
    rd, rs1 = 8 + (w >> 2 & 7), 8 + (w >> 7 & 7)
    by_4, by_8 = picked(w, (10, 3, 3), (6, 2, 1), (5, 6, 1)), picked(w, (10, 3, 3), (5, 6, 2))
    if f3 == 0:
        value = picked(w, (11, 4, 2), (7, 6, 4), (6, 2, 1), (5, 3, 1))
        return ('immediate', 'add', rd, 2, value) if value else None
    return {2: ('load', 4, True, rd, rs1, by_4), 3: ('load', 8, True, rd, rs1, by_8),
            6: ('store', 4, rs1, rd, by_4), 7: ('store', 8, rs1, rd, by_8)}.get(f3)


def decode_quadrant_1(w, f3):
    rd, low, other = w >> 7 & 31, 8 + (w >> 7 & 7), 8 + (w >> 2 & 7)
    amount = picked(w, (12, 5, 1), (2, 0, 5))
    value = signed(amount, 6)
    if f3 == 0:
        return 'immediate', 'add', rd, rd, value
    if f3 == 1:
        return ('immediate', 'addw', rd, rd, value) if rd else None
    if f3 == 2:
        return 'immediate', 'add', rd, 0, value
    if f3 == 3 and rd == 2:
        value = signed(picked(w, (12, 9, 1), (6, 4, 1), (5, 6, 1), (3, 7, 2), (2, 5, 1)), 10)
        return ('immediate', 'add', 2, 2, value) if value else None
    if f3 == 3:
        return ('upper', rd, value << 12) if value else None
    if f3 == 4:
        kind = w >> 10 & 3
        if kind < 2:
            return 'immediate', ('srl', 'sra')[kind], low, low, amount
        if kind == 2:
            return 'immediate', 'and', low, low, value
        names = ('subw', 'addw', None, None) if w >> 12 & 1 else ('sub', 'xor', 'or', 'and')
        name = names[w >> 5 & 3]
        return name and ('op', name, low, low, other)
    if f3 == 5:
        parts = ((12, 11, 1), (11, 4, 1), (9, 8, 2), (8, 10, 1), (7, 6, 1), (6, 7, 1), (3, 1, 3), (2, 5, 1))
        return 'jal', 0, signed(picked(w, *parts), 12)
    offset = signed(picked(w, (12, 8, 1), (10, 3, 2), (5, 6, 2), (3, 1, 2), (2, 5, 1)), 9)
    return 'branch', ('beq', 'bne')[f3 - 6], low, 0, offset


def decode_quadrant_2(w, f3):
    rd, rs2 = w >> 7 & 31, w >> 2 & 31
    if f3 == 0:
        return 'immediate', 'sll', rd, rd, picked(w, (12, 5, 1), (2, 0, 5))
    if f3 == 2:
        return ('load', 4, True, rd, 2, picked(w, (12, 5, 1), (4, 2, 3), (2, 6, 2))) if rd else None
    if f3 == 3:
        return ('load', 8, True, rd, 2, picked(w, (12, 5, 1), (5, 3, 2), (2, 6, 3))) if rd else None
    if f3 == 4:
        if not w >> 12 & 1:
            if rs2:
                return 'op', 'add', rd, 0, rs2
            return ('jalr', 0, rd, 0) if rd else None
        if rs2:
            return 'op', 'add', rd, rd, rs2
        return ('jalr', 1, rd, 0) if rd else ('ebreak',)
    if f3 == 6:
        return 'store', 4, 2, rs2, picked(w, (9, 2, 4), (7, 6, 2))
    if f3 == 7:
        return 'store', 8, 2, rs2, picked(w, (10, 3, 3), (7, 6, 3))
    return None


def decode_compressed(w):
    return (decode_quadrant_0, decode_quadrant_1, decode_quadrant_2)[w & 3](w, w >> 13)


def cost(instruction):
    kind = instruction[0]
    if kind in ('load', 'store'):
        return 2 if instruction[1] == 8 else 3
    if kind in ('op', 'immediate'):
        return COST[instruction[1]]
    return {'branch': 3, 'jal': 3, 'jalr': 3, 'ecall': 500, 'ebreak': 500}.get(kind, 1)


# ------------------------------------------------------------------ machine

def kept(rd):
    """Where a result goes: what goes to x0, which stays 0, is put where no instruction reads it."""
    return rd or 32


class Machine:
    def __init__(self, budget, items):
        self.memory = bytearray(MEMORY)
        self.code = bytearray(MEMORY // PAGE)
        self.x = [0] * 33
        self.x[2] = STACK
        self.pc = self.cycles = 0
        self.budget, self.items = budget, items
        self.decoded = {}

    def charge(self, cycles):
        self.cycles += cycles
        if self.cycles > self.budget:
            raise Spent

    def load(self, at, count):
        if at + count > MEMORY:
            raise Fault(1)
        return bytes(self.memory[at:at + count])

    def may_store(self, at, count):
        if at + count > MEMORY:
            raise Fault(1)
        if count and any(self.code[at // PAGE:(at + count - 1) // PAGE + 1]):
            raise Fault(2)

    def store(self, at, content):
        self.may_store(at, len(content))
        self.memory[at:at + len(content)] = content

    def fetch_pair(self, at):
        if at + 2 > MEMORY:
            raise Fault(1)
        if not self.code[at // PAGE]:
            raise Fault(3)
        return int.from_bytes(self.memory[at:at + 2], 'little')

    def instruction(self):
        """The instruction at the program counter, its cost, and the address after it."""
        if self.pc % 2:
            raise Fault(4)
        w = self.fetch_pair(self.pc)
        size = 2
        if w & 3 == 3:
            w |= self.fetch_pair(self.pc + 2) << 16
            size = 4
        found = decode_full(w) if size == 4 else decode_compressed(w)
        if found is None:
            raise Fault(4)
        return found, cost(found), self.pc + size & MASK

    def effect(self, it, after):
        """What an instruction at the program counter does, as a function that answers the next program counter."""
        pc, x, memory, kind = self.pc, self.x, self.memory, it[0]

        def alu(of, rd, rs1, rs2):
            def do():
                x[rd] = of(x[rs1], x[rs2])
                return after
            return do

        def alu_immediate(of, rd, rs1, value):
            def do():
                x[rd] = of(x[rs1], value)
                return after
            return do

        def load(width, is_signed, rd, rs1, offset):
            def do():
                at = x[rs1] + offset & MASK
                if at + width > MEMORY:
                    raise Fault(1)
                x[rd] = int.from_bytes(memory[at:at + width], 'little', signed=is_signed) & MASK
                return after
            return do

        def store(width, rs1, rs2, offset):
            part = (1 << 8 * width) - 1

            def do():
                self.store(x[rs1] + offset & MASK, (x[rs2] & part).to_bytes(width, 'little'))
                return after
            return do

        def put(rd, value, target=after):
            x[rd] = value
            return target

        if kind == 'immediate':
            return alu_immediate(ALU[it[1]], kept(it[2]), it[3], it[4] & MASK)
        if kind == 'op':
            return alu(ALU[it[1]], kept(it[2]), *it[3:])
        if kind == 'load':
            return load(it[1], it[2], kept(it[3]), *it[4:])
        if kind == 'store':
            return store(*it[1:])
        if kind == 'branch':
            of, rs1, rs2, target = BRANCH[it[1]], it[2], it[3], pc + it[4] & MASK
            return lambda: target if of(x[rs1], x[rs2]) else after
        if kind == 'jal':
            return lambda: put(kept(it[1]), after, pc + it[2] & MASK)
        if kind == 'jalr':
            return lambda: put(kept(it[1]), after, x[it[2]] + it[3] & MASK & ~1)
        if kind == 'upper':
            return lambda: put(kept(it[1]), it[2] & MASK)
        if kind == 'upper from pc':
            return lambda: put(kept(it[1]), pc + it[2] & MASK)
        if kind == 'ecall':
            return lambda: self.syscall() or after
        return lambda: after

    def decode(self):
        it, cycles, after = self.instruction()
        found = self.decoded[self.pc] = cycles, self.effect(it, after)
        return found

    def go(self):
        """Steps until one of them ends the run."""
        decoded = self.decoded
        while True:
            cycles, effect = decoded.get(self.pc) or self.decode()
            self.cycles += cycles
            if self.cycles > self.budget:
                raise Spent
            self.pc = effect()

    # ------------------------------------------------------------- syscalls

    def syscall(self):
        x = self.x
        number = x[17]
        a = x[10:16]
        if number == 93:
            raise Exit(signed(a[0], 8))
        if number == 2177:
            return
        if number == LOADS_CODE:
            item = self.items(number, a[4], a[5], 0)
        elif number in LOADS or number in LOADS_FIELD:
            item = self.items(number, a[3], a[4], a[5] if number in LOADS_FIELD else 0)
        else:
            raise Fault(5)
        if item == UNKNOWN:
            raise Fault(5)
        if item == NO_INDEX:
            x[10] = 1
        elif item == MISSING:
            x[10] = 2
        elif number == LOADS_CODE:
            x[10] = self.load_code(item, *a[:4])
        else:
            x[10] = self.load_part(item, *a[:3])

    def load_part(self, item, to, length_at, offset):
        most = int.from_bytes(self.load(length_at, 8), 'little')
        left = item[min(offset, len(item)):]
        self.store(length_at, len(left).to_bytes(8, 'little'))
        part = left[:most]
        if part:
            self.store(to, part)
        self.charge((len(part) + 3) // 4)
        return 0

    def load_code(self, item, to, size, offset, count):
        if offset + count > len(item) or count > size:
            return 3
        if to % PAGE or size % PAGE:
            raise Fault(6)
        if to + size > MEMORY:
            raise Fault(1)
        pages = range(to // PAGE, (to + size) // PAGE)
        if any(self.code[page] for page in pages):
            raise Fault(2)
        self.memory[to:to + size] = item[offset:offset + count] + bytes(size - count)
        for page in pages:
            self.code[page] = 1
        self.charge(size // 4)
        return 0


# ---------------------------------------------------------------------- ELF

def segments(f):
    """(entry, [(address, content, size in memory, runs)]), or the number of the condition."""
    def number(at, size):
        return int.from_bytes(f[at:at + size], 'little')

    if len(f) < 64:
        return 1
    if f[:4] != b'\x7fELF':
        return 2
    if f[4] != 2 or f[5] != 1 or number(18, 2) != 243:
        return 3
    count, table = number(56, 2), number(32, 8)
    if count and number(54, 2) != 56 or table + 56 * count > len(f):
        return 4
    found, touched = [], {}
    for head in range(table, table + 56 * count, 56):
        if number(head, 4) != 1:
            continue
        flags, offset, at = number(head + 4, 4), number(head + 8, 8), number(head + 16, 8)
        in_file, in_memory = number(head + 32, 8), number(head + 40, 8)
        if not flags & 4 or flags & 3 == 3:
            return 5
        if in_file > in_memory or offset + in_file > len(f):
            return 6
        if at + in_memory > MEMORY:
            return 7
        runs = bool(flags & 1)
        pages = range(at // PAGE, (at + in_memory - 1) // PAGE + 1) if in_memory else ()
        if any(page in touched and (runs or touched[page]) for page in pages):
            return 8
        touched.update((page, runs) for page in pages)
        found.append((at, f[offset:offset + in_file], in_memory, runs))
    return number(24, 8), found


def run(code, budget, items, make=None):
    """`make` makes the machine, where it is one that notes more than this."""
    program = segments(code)
    if isinstance(program, int):
        return 'bad elf', program
    machine = (make or Machine)(budget, items)
    machine.pc = program[0]
    try:
        machine.charge((sum(len(content) for _, content, _, _ in program[1]) + 3) // 4)
        for at, content, size, runs in program[1]:
            machine.memory[at:at + size] = content + bytes(size - len(content))
            if runs and size:
                for page in range(at // PAGE, (at + size - 1) // PAGE + 1):
                    machine.code[page] = 1
        machine.go()
    except Exit as end:
        return 'exit', end.args[0], machine.cycles
    except Fault as end:
        return 'fault', end.args[0]
    except Spent:
        return ('spent',)
