"""The pages of script groups, beside those of trace_model.py: locks that make each syscall, that print, that end in each way, that
have symbols, and of which several stand in one transaction."""

from random import Random

import encoding
import explain_model
import make_contract_chain as contract
import trace_model
import tracing
from encoding import cell_input, ckbhash, fields_of, number_of, out_point, raw_transaction, uint
from harness import Ran, chaingen, must_be, must_be_lines, new_folder
from make_store import COIN, Spec
from script_scene import BY_TYPE, TYPE_ID, Cell, Script
from tracing import FUNCTION, NO_TYPE, with_symbols

GROUP = 1 << 56
# where a program's code begins, its length words and buffers lie, and the pages that it loads as code
CODE, LENGTH, BUFFER, PAGES = 0x10078, 0x200000, 0x210000, 0x300000
BY_ITEM = {2051: (0,), 2052: (0,), 2061: (0,), 2062: (0,), 2071: (0,), 2072: (0,), 2073: (0,), 2074: (0,), 2092: (0,),
           2081: range(7), 2082: range(3), 2083: range(2)}
SOURCES = (1, 2, 3, 4, GROUP | 1, GROUP | 2, GROUP | 3, GROUP | 4)


# ------------------------------------------------------------- programs

def immediate(opcode, function, rd, rs1, value):
    return (value & 0xfff) << 20 | rs1 << 15 | function << 12 | rd << 7 | opcode


def addi(rd, rs1, value):
    return immediate(0x13, 0, rd, rs1, value)


def ld(rd, at, rs1):
    return immediate(0x03, 3, rd, rs1, at)


ECALL, S0, S1, T0, T1 = 0x73, 8, 9, 5, 6


def program(calls, code=0):
    """A file that makes syscalls of a table behind its code, and exits with a code. A syscall is an address, a number that is stored
    there first, the syscall's number, and six arguments."""
    loop = [ld(T0, 0, S0), ld(T1, 8, S0), T1 << 20 | T0 << 15 | 3 << 12 | 0x23, ld(17, 16, S0), *(ld(10 + i, 24 + 8 * i, S0) for i in range(6)),
            ECALL, addi(S0, S0, 72), addi(S1, S1, -1)]
    back = -4 * len(loop)
    loop.append((back >> 12 & 1) << 31 | (back >> 5 & 63) << 25 | S1 << 15 | 1 << 12 | (back >> 1 & 15) << 8 | (back >> 11 & 1) << 7 | 0x63)
    ends = [addi(10, 0, code), addi(17, 0, 93), ECALL]
    size = 4 * (3 + len(loop) + len(ends))
    words = [S0 << 7 | 0x17, addi(S0, S0, size), addi(S1, 0, len(calls)), *loop, *ends]
    data = b''.join(uint(it, 8) for call in calls for it in call)
    made, length = chaingen.program(words), uint(size + len(data), 8)
    return made[:96] + length + length + made[112:] + data


def load(number, index=0, source=1, field=0, to=BUFFER, most=64, offset=0, length_at=LENGTH):
    return LENGTH, most, number, to, length_at, offset, index, source, field


def load_code(index, source, to, size, offset=0, count=0):
    return LENGTH, 0, 2091, to, size, offset, count, index, source


def prints(address):
    return LENGTH, 0, 2177, address, 0, 0, 0, 0, 0


def with_texts(calls, texts, code=0):
    """A program with texts behind its table, of which each is printed where its place stands for a syscall."""
    start, places = CODE - 120 + len(program([prints(0)] * len(calls))), []
    for text in texts:
        places.append(start)
        start += len(text) + 1
    made = program([prints(places[it]) if isinstance(it, int) else it for it in calls], code)
    whole = made + b''.join(it + b'\0' for it in texts)
    length = uint(len(whole) - 120, 8)
    return whole[:96] + length + length + whole[112:]


def some_loads(seed):
    """30 syscalls that go on: each item and field of each source, whole, in part, past the end, and as code."""
    random, calls = Random(seed), []
    for page in range(30):
        number = random.choice([*BY_ITEM, 2091])
        index, source = random.choice((0, 0, 0, 1, 2, 99, 2 ** 64 - 1)), random.choice(SOURCES)
        if number == 2091:
            calls.append(load_code(index, source, PAGES + 4096 * page, 4096, random.choice((0, 9)), random.choice((0, 30, 5000))))
        else:
            calls.append(load(number, index, source, random.choice(BY_ITEM[number]), most=random.choice((0, 7, 64, 9999)),
                              offset=random.choice((0, 0, 5, 10 ** 6))))
    return calls


# the syscalls that end a program, each with what it is
LAST_CALLS = {
    'no such syscall': (LENGTH, 0, 2043, 0, 0, 0, 0, 0, 0),
    'no such source': load(2071, source=5),
    'a source of more bits': load(2074, source=1 << 32 | 1),
    'no such field': load(2081, field=7),
    'a field of an input that there is not': load(2083, field=2),
    'a length word past memory': load(2061, length_at=2 ** 22 - 7),
    'a length word in code': load(2061, length_at=CODE),
    'a buffer in code': load(2061, to=CODE),
    'a buffer past memory': load(2061, to=2 ** 64 - 1),
    'pages that are no pages': load_code(0, 3, PAGES + 4, 4096),
    'pages past memory': load_code(0, 3, 2 ** 22, 4096),
    'pages of code': load_code(0, 3, CODE - 0x78, 4096),
    'exit': (LENGTH, 0, 93, 2 ** 64 - 3, 0, 0, 0, 0, 0),
}


# ------------------------------------------------------------- a store

class Made:
    """A store whose genesis has the codes of these programs and, for each, a cell that it locks; and a spec with so many cycles."""

    def __init__(self, codes, cycles=10 ** 8):
        self.codes, self.spec = codes, Spec(max_cycles=cycles)
        locks = [Script(ckbhash(it)) for it in codes]
        cells = [Cell(contract.ANYONE, content=it) for it in codes] + [Cell(it) for it in locks]
        for it in cells:
            it.capacity = max(it.occupied(), 200 * 10 ** 8)
        self.genesis = contract.store.genesis(self.spec, outputs=[(it.capacity, it.content, it.lock.item()) for it in cells])
        self.init, self.hash = self.spec.item() + self.genesis.item(), ckbhash(self.genesis.transactions[0].raw())
        self.model = explain_model.Store(self.spec.item(), self.genesis.item())

    def spends(self, places, outputs=(), deps=None, without=(), witnesses=(b'first', b'second', b'third')):
        """Spends the cells that the programs at these places lock, and the coin; the program that exits with 0 locks what it makes."""
        points = [out_point(self.hash, it) for it in (*(2 + len(self.codes) + it for it in places), 1)]
        deps = [0, *(2 + it for it in range(len(self.codes)) if it not in without)] if deps is None else deps
        outputs = [Cell(contract.ANYONE, capacity=COIN // 2, content=b'some data'), *outputs]
        raw = raw_transaction([cell_input(it) for it in points], [it.item() for it in outputs], [it.content for it in outputs],
                              [out_point(self.hash, it) + b'\0' for it in deps], [ckbhash(self.genesis.header())])
        return encoding.transaction(raw, witnesses)

    def fee(self, item):
        """The fee of a transaction, whose inputs are cells of the genesis."""
        tx, outputs = explain_model.Tx(item), self.genesis.transactions[0].outputs
        return sum(outputs[number_of(point[32:])][0] for _, point in tx.inputs) - sum(number_of(fields_of(it)[0]) for it in tx.outputs)


def must_show(program_of_node, made, *asked):
    """The page of each transaction with its words is that of the model."""
    with new_folder() as folder:
        must_be(Ran([program_of_node, folder, 'init'], made.init).status, 0, 'init')
        for what, item, group in asked:
            words = [] if group is None else ['--group', str(group)]
            ran = Ran([tracing.tracer(), folder, 'check', *words], item)
            line, *lines = ran.out.decode('latin1').splitlines()
            groups = trace_model.groups_after_tip(made.model, item, group)
            if groups.rule:
                must_be((line, lines.pop(0)[:5]), ('refused J%d' % groups.rule, 'J%d: ' % groups.rule), 'the line of ' + what)
            else:
                must_be(line, 'ok %d %d' % (made.fee(item), made.spec.max_cycles - groups.left), 'the line of ' + what)
            must_be_lines(lines, groups.page(), what)


# --------------------------------------------------------------- checks

def check_group_pages_of_loads(program_of_node):
    """Syscalls that go on, of several groups in one transaction, with the page of each."""
    made = Made([program(some_loads(seed)) for seed in range(10)])
    item = made.spends(range(10))
    must_show(program_of_node, made, *(('loads of group %d' % i, item, i) for i in (*range(11), 2 ** 32 - 1)), ('loads', item, None))


def check_group_pages_of_ends(program_of_node):
    """Each syscall that ends a program, after three that do not and a group that passes; --group with the one that fails, and others."""
    calls = some_loads(99)[:3]
    ends = [program([*calls, it]) for it in LAST_CALLS.values()]
    made = Made([program(calls), *ends, program(calls, 7), program(calls, -1), b'no program'])
    names = [*LAST_CALLS, 'exit with 7', 'exit with -1', 'no file']
    for i, name in enumerate(names):
        item = made.spends([0, 1 + i])
        must_show(program_of_node, made, *((name, item, group) for group in (None, 0, 1)))
    must_show(program_of_node, made, ('a code that is in no dep', made.spends([0, 1], without=[1]), 0),
              ('a file that is none, and another that is no dep', made.spends([0, len(names)], without=[1]), 1))


def check_group_pages_of_counts(program_of_node):
    """None, some, and just more syscalls than are shown."""
    made = Made([program([load(2061)] * count, 5) for count in (1, 30, 31, 32, 100)])
    must_show(program_of_node, made, *(('so many syscalls', made.spends([i]), None) for i in range(5)))


def check_group_pages_of_budgets(program_of_node):
    """With too few cycles for a transaction: at each of its last steps, before a syscall, in one, and where not all is loaded."""
    codes = [program([load(2092, 0, 3, most=9999), load(2061)] * 3)]
    ample = Made(codes)
    taken = ample.spec.max_cycles - trace_model.groups_after_tip(ample.model, ample.spends([0])).left
    # 512 bytes are loaded, 13 instructions come before the first ECALL, and that is answered by 132 bytes
    called = 128 + 23 + 500
    random, in_call = Random(5), []
    for cycles in (taken, taken - 1, taken - 505, called - 1, called, called + 32, called + 33, 5, *(random.randrange(1, taken) for _ in range(8))):
        made = Made(codes, cycles)
        item = made.spends([0])
        if trace_model.groups_after_tip(made.model, item).page()[-1].endswith(': it ended here'):
            in_call.append(cycles)
        must_show(program_of_node, made, ('%d cycles' % cycles, item, None))
    must_be([it for it in in_call if it < called + 500], [called, called + 32], 'the budgets that a syscall spends')


def check_group_pages_of_texts(program_of_node):
    """Texts of several groups, and more of them than are shown."""
    texts = [b'plain', b'"\\\n\t', bytes(range(1, 256)), b'', b'a' * 1000, b'b' * 1023, b'c' * 1024]
    made = Made([with_texts([*range(len(texts)), load(2061), 0], texts), with_texts([4] * 60, texts),
                 with_texts([4] * 10 + [0, 4], texts, 3)])
    must_show(program_of_node, made, ('some texts', made.spends([0]), 0), ('many texts', made.spends([0, 1, 2]), None),
              ('many texts, in another order', made.spends([2, 1, 0]), None), ('texts that just fit', made.spends([1, 0]), 1))


def check_group_pages_of_symbols(program_of_node):
    """A lock with a symbol table, one that is stripped, and one with a table of what it does not run."""
    plain = program([load(2061)] * 2, 4)
    symbols = [(b'_start', CODE, 12, FUNCTION), (b'loop', CODE + 12, 56, FUNCTION), (b'ends', CODE + 68, 0, NO_TYPE)]
    made = Made([with_symbols(plain, symbols), plain, with_symbols(plain, [(b'else', 0, 8, FUNCTION)])])
    must_show(program_of_node, made, *(('symbols of group %d' % i, made.spends([i]), None) for i in range(3)))


def check_group_pages_of_types(program_of_node):
    """Type scripts of inputs and outputs, TYPE_ID, and codes that are found by type."""
    code = program(some_loads(7))
    made = Made([code, program([], 1)])
    def typed(*types):
        return [Cell(contract.ANYONE, it, capacity=COIN // 8) for it in types]

    by_data, type_id = Script(ckbhash(code)), Script(TYPE_ID, BY_TYPE, bytes(32))
    for what, outputs in (('a type of two outputs', typed(by_data, by_data)), ('a wrong TYPE_ID', typed(type_id)),
                          ('a TYPE_ID before a type', typed(type_id, by_data)), ('a type that no dep has', typed(by_data, Script(bytes(32), BY_TYPE))),
                          ('data that no dep has', typed(Script(bytes(32)))), ('a hash type that finds none', typed(Script(ckbhash(code), 2)))):
        item = made.spends([0], outputs)
        must_show(program_of_node, made, *((what, item, group) for group in (None, 0, 1, 2)))
