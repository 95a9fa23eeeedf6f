"""The pages of ckbtrace: its lines beside those of `exec` on every stored program, and whole pages beside the plain machine of
trace_model.py; and the listing of code beside that of the model."""

import functools
import os
import subprocess
import sys
from random import Random

from harness import PRIMES, SCRIPTS, TOP, Ran, must, must_answer, must_be, new_folder
import runs
import trace_model
from encoding import uint
from trace_model import SHOWN


@functools.lru_cache(None)
def tracer():
    """The program, which is built where there is none."""
    subprocess.run([sys.executable, os.path.join(TOP, 'tools', 'build.py'), 'ckbtrace'], stdin=subprocess.DEVNULL)
    program = os.path.join(TOP, 'build', 'ckbtrace')
    must(os.access(program, os.X_OK), 'there is no program %s' % program)
    return program


# ------------------------------------------------------------------- programs

def elf_of(program, text, data=b''):
    """A file of one segment of code, with data after the instructions."""
    made = Ran([program, 'any', 'asm'], text.encode())
    must_be(made.status, 0, 'asm of %r' % text)
    size = (len(made.out) - 120 + len(data)).to_bytes(8, 'little')
    return made.out[:96] + size + size + made.out[112:] + data


# the address of what lies N bytes after the first of two instructions, into a0
HERE = 'auipc x10,0\naddi x10,x10,%d\n'
PRINTS = 'lui x17,1\naddi x17,x17,-1919\necall\n'
EXITS = 'addi x17,x0,93\necall\n'


def programs(program):
    """Files that end in each way, with their names."""
    for name in ('../primes.elf', *sorted(it for it in os.listdir(SCRIPTS) if it.endswith('.elf'))):
        with open(os.path.join(SCRIPTS, name), 'rb') as f:
            yield name, f.read()
    texts = bytes(range(1, 256)) + b'\0'
    yield 'every byte', elf_of(program, HERE % 28 + PRINTS + EXITS, texts)
    for count in (SHOWN - 1, SHOWN):
        yield 'a text of %d bytes' % count, elf_of(program, HERE % 28 + PRINTS + EXITS, b'a' * count + b'\0')
    yield "a text at memory's end", elf_of(program, 'lui x10,1024\naddi x10,x10,-3\naddi x5,x0,65\nsb x5,0(x10)\n'
                                           'sb x5,1(x10)\nsb x5,2(x10)\n' + PRINTS + EXITS)
    yield 'a text past memory', elf_of(program, 'addi x10,x0,-1\n' + PRINTS + EXITS)
    yield 'two texts', elf_of(program, HERE % 28 + PRINTS + 'addi x10,x10,1\n' + PRINTS + EXITS, b'"\\\0')
    yield 'a load past memory', elf_of(program, 'addi x5,x0,-1\nlw x6,-4(x5)\n')
    yield 'a store to code', elf_of(program, 'auipc x5,0\nsd x5,0(x5)\n')
    yield 'a jump to data', elf_of(program, 'jalr x1,0(x0)\n')
    yield 'a jump past memory', elf_of(program, 'addi x5,x0,-2\njalr x1,0(x5)\n')
    yield 'no instruction', elf_of(program, 'addi x5,x0,1\n', bytes(4))
    yield 'half an instruction', elf_of(program, 'addi x5,x0,1\n', b'\xff')
    yield 'no such syscall', elf_of(program, 'addi x17,x0,2000\necall\n')
    yield 'an odd entry', odd_entry(elf_of(program, EXITS))
    yield 'a loop', elf_of(program, 'addi x5,x0,100\naddi x5,x5,-1\nbne x5,x0,-4\njal x0,-12\n')
    yield '17 jumps', elf_of(program, 'jal x0,8\naddi x0,x0,0\n' * 17 + EXITS)
    yield from with_each_symbol(program)


# the types of symbols, and of sections
NO_TYPE, OBJECT, FUNCTION, SECTION, FILE_NAME = range(5)
SYMBOL_TABLE, STRINGS, DYNAMIC_SYMBOLS = 2, 3, 11


def with_symbols(file, symbols, kind=SYMBOL_TABLE, **changed):
    """The file with a section of symbols behind it, each a name, an address, a size and a type, and one of their names. Of the
    header of the first `changed` changes fields: where it lies, how long it is, and which section has the names."""
    names, table = b'\0', bytes(24)
    for name, address, size, its_type in symbols:
        table += uint(len(names), 4) + bytes([its_type, 0]) + uint(1, 2) + uint(address, 8) + uint(size, 8)
        names += name + b'\0'
    start = len(file)
    heads = b''.join(
        uint(0, 4) + uint(it['kind'], 4) + bytes(16) + uint(it['at'], 8) + uint(it['size'], 8) + uint(it['names'], 4) + bytes(20)
        for it in (dict(kind=0, at=0, size=0, names=0), dict(dict(kind=kind, at=start, size=len(table), names=2), **changed),
                   dict(kind=STRINGS, at=start + len(table), size=len(names), names=0)))
    made = file + table + names + heads
    return made[:40] + uint(start + len(table) + len(names), 8) + made[48:58] + uint(64, 2) + uint(3, 2) + made[62:]


def with_each_symbol(program):
    """A file whose jumps and end have names of each kind, and files whose tables are not as they should be."""
    plain = elf_of(program, 'addi x5,x0,3\naddi x5,x5,-1\nbne x5,x0,-4\njal x0,8\necall\njal x0,8\necall\nlw x10,-4(x0)\n')
    start = 0x10078
    # the branch at 8, the jumps at 12 and 20, and the load at 28 past the start
    symbols = [
        (b'section', start, 64, SECTION), (b'file.c', start, 64, FILE_NAME), (b'', start, 64, FUNCTION), (b'$x', start, 64, NO_TYPE),
        (b'loop', start + 4, 8, FUNCTION), (b'behind the first', start + 4, 8, FUNCTION), (b'one address', start + 12, 0, NO_TYPE),
        (b'data', start + 20, 4, OBJECT), (b'\x01\xff ' + b'n' * 90, start + 28, 4, FUNCTION), (b'global', start, 64, FUNCTION | 1 << 4)]
    yield 'a name of each kind', with_symbols(plain, symbols)
    yield 'no name that covers an address', with_symbols(plain, symbols[:4])
    yield 'an empty table', with_symbols(plain, [])
    yield 'names at the end of addresses', with_symbols(plain, [(b'last', 2 ** 64 - 1, 2, FUNCTION), (b'first', 0, 2 ** 64 - 1, FUNCTION)])
    yield 'symbols of what is linked at the start', with_symbols(plain, symbols, DYNAMIC_SYMBOLS)
    yield 'a table past the file', with_symbols(plain, symbols, at=2 ** 63)
    yield 'a table that ends past the file', with_symbols(plain, symbols, size=10 ** 6)
    yield 'a table that is cut inside a symbol', with_symbols(plain, symbols, size=24 * 6 + 23)
    named = with_symbols(plain, symbols)
    yield 'sections past the file', named[:40] + uint(2 ** 64 - 64, 8) + named[48:]
    yield 'more sections than there are', named[:60] + uint(0xffff, 2) + named[62:]
    yield 'stripped', plain


def odd_entry(file):
    return file[:24] + (int.from_bytes(file[24:32], 'little') + 1).to_bytes(8, 'little') + file[32:]


# --------------------------------------------------------------------- checks

def check_listings_beside_a_second_decoder(program):
    """`dis` of random bytes, of random full forms and of each pattern of two bytes lists what the model does."""
    random = Random(2)
    codes = [random.randbytes(200000), b''.join(uint(random.getrandbits(30) << 2 | 3, 4) for _ in range(50000)),
             b''.join(uint(it, 2) for it in range(1 << 16) if it & 3 != 3), b'\x13', b'\x13\0\0', b'\x01']
    # each opcode of the table with each function, over all else at random
    codes.append(b''.join(uint(random.getrandbits(32) & 0xffff8f80 | opcode | it << 12, 4) for _ in range(64) for it in range(8)
                          for opcode in (0x03, 0x0f, 0x13, 0x17, 0x1b, 0x23, 0x33, 0x37, 0x3b, 0x63, 0x67, 0x6f, 0x73)))
    # and with each of the high bits that choose an operation
    codes.append(b''.join(uint(random.getrandbits(25) & 0x1ff8f80 | opcode | it << 12 | high << 25, 4) for high in range(128)
                          for it in range(8) for opcode in (0x13, 0x1b, 0x33, 0x3b)) + uint(0x73, 4) + uint(0x100073, 4))
    for code in codes:
        must_be(Ran([program, 'any', 'dis'], code).out.decode().splitlines(), trace_model.listing(code), 'the listing of %d bytes' % len(code))


def check_trace_pages(program):
    """Whole pages are those of the plain machine, with an ample budget, with just enough, and with a cycle less."""
    for name, file in programs(program):
        ended = trace_model.Ended(file, 100000)
        must_answer(Ran([tracer(), '100000'], file), 0, ended.text(), name)
        cycles = ended.cycles()
        for budget in (cycles, cycles - 1) if 0 < cycles <= 100000 else ():
            must_answer(Ran([tracer(), str(budget)], file), 0, trace_model.Ended(file, budget).text(), '%s with %d cycles' % (name, budget))


def check_trace_stored(_):
    """The stored run of the crate has the page of the plain machine."""
    crate = os.path.join(TOP, 'crates', 'ckbtrace')
    with open(os.path.join(crate, 'stdin'), 'rb') as given, open(os.path.join(crate, 'stdout'), encoding='ascii') as text:
        must_be(text.read(), trace_model.Ended(given.read(), 1000).text().decode(), 'crates/ckbtrace/stdout')


def check_trace_lines(_):
    """The first line after the texts is that of `exec` on each stored row of a file that is judged."""
    count = 0
    for name, words, status, file, text, *_ in filter(runs.is_run, runs.rows()):
        if words.startswith('exec ') and status == '0':
            ran = Ran([tracer(), words.split(' ')[1]], runs.bytes_of(file))
            lines = [line for line in ran.out.splitlines(True) if not line.startswith(b'text ')]
            must_be((ran.status, lines[0]), (0, bytes.fromhex(text)), name)
            count += 1
    must(count > 900, 'only %d rows of exec' % count)


def check_trace_words_and_streams(_):
    """Words outside the grammar read and write nothing; a stream that fails has its status."""
    with open(PRIMES, 'rb') as f:
        given = f.read()
    for words in ([], [''], ['01'], ['+1'], ['-1'], ['0x1'], ['1 '], ['1099511627777'], ['5', '6'], ['exec', '5']):
        ran = Ran([tracer(), *words], given)
        must_be((ran.status, ran.out, ran.read), (2, b'', 0), repr(words))
    must_answer(Ran([tracer(), '5'], bytes((1 << 20) + 1)), 12, b'extra 1048576\n', 'a file that is too long')
    must_answer(Ran([tracer(), '5'], bytes(1 << 20)), 0, b'bad elf 2\n', 'a file of 1 MiB')
    must_answer(Ran([tracer(), '100000'], given, piped=True), 0, Ran([tracer(), '100000'], given).out, 'by pipes')
    with open('/dev/full', 'wb') as full:
        ran = subprocess.run([tracer(), '100000'], input=given, stdout=full, stderr=subprocess.DEVNULL, check=False)
    must_be(ran.returncode, 4, 'a full standard output')
    must_be(Ran(['sh', '-c', 'exec "$@" <&-', '', tracer(), '5']).status, 3, 'a closed standard input')


def check_trace_document(_):
    """What docs/COMMANDS.md shows of a page is what comes, and is the plain machine's."""
    with open(os.path.join(TOP, 'docs', 'COMMANDS.md'), encoding='utf-8') as f:
        lines = f.read().split('\n## How a program ended, on a page\n')[1].splitlines()
    shown_lines = [line[4:] for line in lines if line.startswith('    ')][1:]
    must_be([line.split(' ')[0] for line in shown_lines[:2]], ['printf', 'ckbtrace'], 'what is shown')
    made, traced, *page = shown_lines
    # the script has a build to run
    tracer()
    with new_folder() as away:
        for name in ('ckbdev', 'ckbtrace'):
            os.symlink(os.path.join(TOP, name), os.path.join(away, name))
        must_answer(Ran(['sh', '-c', made.replace('| ckbdev', '| ./ckbdev')], cwd=away), 0, b'', made)
        must_answer(Ran(['sh', '-c', './' + traced], cwd=away), 0, ''.join(line + '\n' for line in page).encode(), traced)
        with open(os.path.join(away, 'fault.elf'), 'rb') as f:
            must_be(trace_model.Ended(f.read(), 1000).text().decode().splitlines()[:5], page, 'the page of a plain machine')
