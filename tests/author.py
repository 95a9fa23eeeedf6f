#!/usr/bin/env python3
"""What the documents say to an author: how a program is built, what it prints, and what usually goes wrong; a chain with
accounts, chains and transactions as JSON, and a page.

    sh tests/author.sh [WORD ..]

runs each check, or those whose names have one of the words. The commands of the pages are run as they stand there, and
what comes is compared with what the pages show. Then it builds
what docs/MACHINE.md, "Building a program", says of programs that go wrong, and the stored samples. How each ends is
written down here, and the cycles are those of bench/rvref.c. author_rust.py has programs in Rust, and author_chain.py
chains, locks that are wrong, and pages in a browser. What needs a package of Debian that is not there is not tried, and a
line says so: gcc-riscv64-unknown-elf and picolibc-riscv64-unknown-elf; rustc, rust-src and lld; chromium.
"""

import os
import re
import shutil
import subprocess
import sys

sys.dont_write_bytecode = True
from harness import SCRIPT, SCRIPTS, TOP, Wrong, must, must_be, new_folder  # noqa: E402
import author_chain  # noqa: E402
import author_rust  # noqa: E402
import script_machine  # noqa: E402

COMPILER = 'riscv64-unknown-elf-gcc'
TRACER = os.path.join(TOP, 'ckbtrace')
# what stands in docs/MACHINE.md of this version of the compiler; another makes other cycles
VERSION = '12.2.0'
BUDGET = '10000000'
# the pages with commands
PAGES = 'docs/MACHINE.md', 'examples/scripts/README.md', 'examples/signature/README.md'


def say(text):
    print('author: ' + text, flush=True)


def printed(words, folder, status=0):
    """What comes on standard output and on standard error. The status is to be this one, or any where it is None."""
    ran = subprocess.run(words, cwd=folder, stdin=subprocess.DEVNULL, stdout=subprocess.PIPE, stderr=subprocess.STDOUT,
                         text=True, errors='replace')
    must(status in (None, ran.returncode), '%s ended with status %d:\n%s' % (words, ran.returncode, ran.stdout))
    return ran.stdout


def is_there():
    if not shutil.which(COMPILER):
        return False
    tried = subprocess.run([COMPILER, '--specs=picolibc.specs', '-E', '-x', 'c', '-'], input=b'#include <stdio.h>',
                           stdout=subprocess.DEVNULL, stderr=subprocess.DEVNULL)
    return tried.returncode == 0


# ------------------------------------------------------------------- machines

def interpreter(folder):
    made = os.path.join(folder, 'rvref')
    subprocess.run(['cc', '-O2', os.path.join(TOP, 'bench', 'rvref.c'), '-o', made], check=True)
    return made


class Machine:
    """Runs a file by `exec`, by `ckbtrace` and by the interpreter, whose lines must be one."""

    def __init__(self, folder):
        self.rvref = interpreter(folder)

    def line(self, path, budget=BUDGET):
        with open(path, 'rb') as f:
            ran = subprocess.run([SCRIPT, 'any', 'exec', budget], stdin=f, stdout=subprocess.PIPE, stderr=subprocess.DEVNULL)
        line = ran.stdout.decode().rstrip('\n')
        with open(path, 'rb') as f:
            ran = subprocess.run([TRACER, budget], stdin=f, stdout=subprocess.PIPE, stderr=subprocess.DEVNULL)
        traced = [it for it in ran.stdout.decode().splitlines() if not it.startswith('text ')]
        must_be(traced[0], line, 'the page of %s' % path)
        # the interpreter reads no file above 1 MiB
        if os.path.getsize(path) <= 1 << 20:
            must_be(line, printed([self.rvref, path, budget], None).rstrip('\n'), 'the line of %s' % path)
        return line


def texts_of(path):
    """What a program prints by syscall 2177, on the plain machine of examples/."""
    texts = []

    class Listening(script_machine.Machine):
        def syscall(self):
            if self.x[17] == 2177:
                texts.append(bytes(self.memory[self.x[10]:]).split(b'\0')[0].decode())
            super().syscall()

    with open(path, 'rb') as f:
        script_machine.run(f.read(), int(BUDGET), lambda *_: script_machine.UNKNOWN, Listening)
    return texts


# ---------------------------------------------------------------------- pages

def commands_of(page):
    """The commands of a page that build or run something here, each with the text that it shows."""
    with open(os.path.join(TOP, page), encoding='utf-8') as f:
        text = f.read()
    if page == 'docs/MACHINE.md':
        text = text[text.index('\n## Building a program\n'):]
    for block in re.findall(r'(?m)(?:^    \S.*\n)+', text):
        lines = [line[4:] for line in block.splitlines()]
        if not lines[0].startswith(('sh examples/', './ckbdev ', './ckbtrace ')):
            continue
        at = [i for i, line in enumerate(lines) if line.startswith(('sh ', './ckbdev ', './ckbtrace '))] + [len(lines)]
        for start, end in zip(at, at[1:]):
            yield lines[start], ''.join(line + '\n' for line in lines[start + 1:end])


def without_cycles(text):
    return re.sub(r'(?m)^(exit -?\d+|fault \d) \d+$', r'\1', text)


def check_pages(machine, folder):
    version = printed([COMPILER, '-dumpversion'], None).strip()
    kept = (lambda text: text) if version == VERSION else without_cycles
    count = 0
    for page in PAGES:
        for command, wanted in commands_of(page):
            if 'signature' in command or '/rust/' in command:
                continue
            got = printed(['sh', '-c', command], folder)
            must_be(kept(got), kept(wanted), '%s: %s' % (page, command))
            made = re.search(r'(?<=-o )\S+', command)
            if made:
                machine.line(os.path.join(folder, made[0]))
            count += 1
    must(count >= 8, 'the pages have only %d commands' % count)
    for name, text in (('hello', '25 primes below 100'), ('table', '6 7 * 3 - 2 /')):
        must_be(texts_of(os.path.join(folder, name + '.elf')), [text], 'what %s prints' % name)
    say('the %d commands of the pages print what the pages show' % count)


def check_signature(machine, folder):
    """The lines of the page are the last ones, but for the hash of a block and the cycles, which try.sh compares."""
    (command, _), = commands_of(PAGES[2])
    ran = subprocess.run(['sh', '-c', command], cwd=folder, stdin=subprocess.DEVNULL, stdout=subprocess.PIPE, text=True)
    if ran.returncode == 3:
        say('the lock that opens by a signature was not tried')
        return
    must_be(ran.returncode, 0, 'the status of %s' % command)
    names = [line.split(':')[0] for line in ran.stdout.splitlines()]
    shown = dict(line.split(': ') for line in re.findall(r'(?m)^    ((?:check|import) .*)', page_of(PAGES[2])))
    must(shown and names[-len(shown):] == list(shown), 'the lines of the signature are others: %r' % names)
    for line in ran.stdout.splitlines():
        name, got = line.split(': ')
        if name in shown:
            must_be(got.split()[:2], shown[name].split()[:2], name)
    made = os.path.join(folder, 'signed', 'lock.elf')
    must(machine.line(made).startswith('fault 5 '), 'the lock alone')
    printed(['env', 'WINDOW=15', 'sh', 'examples/signature/build.sh', 'signed'], folder)
    must_be(machine.line(made), 'extra 1048576', 'the lock with the tables of the library')
    say('the lock opens by a signature, and by none that is not of the transaction')


def page_of(path):
    with open(os.path.join(TOP, path), encoding='utf-8') as f:
        return f.read()


# --------------------------------------------------------------------- claims

# what the documents say to leave out: flags without those of gcc.sh
BARE = [COMPILER, '-O2', '-nostdlib', '-static']
FOR_MACHINE = ['-march=rv64imc', '-mabi=lp64']
OURS = ['sh', os.path.join(SCRIPTS, 'gcc.sh')]
WITH_LIBRARY = [*OURS, '--picolibc']
PICOLIBC = [COMPILER, '-O2', *FOR_MACHINE, '--specs=picolibc.specs', '-I', SCRIPTS]

# exits with 42, from a start of its own that does not set gp
GLOBALS = '''
int added = 2, sums[21];
__attribute__((noinline)) int work(void)
{
    for (int i = 1; i <= 20; i++)
        sums[i] = sums[i - 1] + added;
    return added + sums[20];
}
'''
START = '''
_Noreturn void _start(void)
{
    register long a0 __asm__("a0") = work();
    register long a7 __asm__("a7") = 93;
    __asm__ volatile("ecall" : : "r"(a0), "r"(a7));
    __builtin_unreachable();
}
'''
ALONE = GLOBALS + START
# from one that sets it; `%s` stands before that
SETS_GP = GLOBALS + '''
__asm__(".globl _start\\n_start:\\n%sla gp, __global_pointer$\\n call work\\n li a7, 93\\n ecall");
'''
IN_MAIN = '#include "ckb.h"\n' + GLOBALS + 'int main(void) { ckb_exit(work()); }\n'
DOUBLES = 'volatile double v = 3;\nint work(void) { v = v / 2 + v; return (int)v; }\n'
CONSTANT = '''
static const int table[2] = { 1, 2 };
int main(void)
{
    volatile int *second = (volatile int *)&table[1];
    *second = 5;
    return *second;
}
'''
# picolibc's own linker script with addresses below 4 MiB
BELOW = ['-Wl,--defsym=__flash=0x10000,--defsym=__flash_size=0x10000',
         '-Wl,--defsym=__ram=0x100000,--defsym=__ram_size=0x100000']
# a linker script whose code and data make one segment
ONE_SEGMENT = '''
ENTRY(_start)
SECTIONS { . = 0x10000; .text : { *(.text*) } .data : { *(.data* .sdata*) } .bss : { *(.bss* .sbss*) } }
'''
ATOMIC = 'int n;\nint main(void) { return __atomic_add_fetch(&n, 1, __ATOMIC_SEQ_CST); }\n'
ROOM = '''
int main(void)
{
    char room[3000] = { 0 };
    __asm__ volatile("" : : "r"(room) : "memory");
    return room[5];
}
'''
# 8 MB of stack
DEEP = '''
volatile int no;
int deep(int n)
{
    volatile char room[4000];
    room[no] = 0;
    return n ? deep(n - 1) + room[no] : 0;
}
int main(void) { return deep(2000); }
'''
TRAP = '''
volatile int no;
static __attribute__((noinline)) int check(void)
{
    if (!no)
        __builtin_trap();
    return 5;
}
int main(void) { return check(); }
'''
ASSERT = '#include <assert.h>\nvolatile int no;\nint main(void) { assert(no); return 0; }\n'
ABORT = '#include <stdlib.h>\nint main(void) { abort(); }\n'
# 1,000,000 bytes, which are zeros first
FILLS = '''
#include <string.h>
static char room[1000000];
int main(void) { return memset(room, 7, sizeof room) == room ? room[9] : 0; }
'''
HEAP = '''
#include <stdlib.h>
int main(void) { return !!malloc(4000000) + 2 * !!malloc(1000000); }
'''
NULL = 'void (*volatile f)(void);\nint main(void) { f(); return 0; }\n'
LOADS_NULL = 'int *volatile p;\nint main(void) { return *p; }\n'
LARGE = 'char large[5000000];\nint main(void) { return large[0]; }\n'
LOADS_SCRIPT = '''
#include "ckb.h"
int main(void) { uint64_t length = 0; return (int)ckb_load_script(0, &length, 0); }
'''
RETURNS = 'int work(void) { return 3; }\nvoid _start(void) { work(); }\n'
# a file above 1 MiB, by a section that is not loaded
SYMBOLS = 'int main(void) { return 7; }\n__asm__(".section .debug_x\\n.zero 1100000\\n.text");\n'

# (what, its source, how it is built, how its line begins; or a part of what the compiler says)
CLAIMS = [
    ('a program that does not set gp', ALONE, [*BARE, *FOR_MACHINE], 'fault 1'),
    ('one that sets it', SETS_GP % '.option norelax\\n', [*BARE, *FOR_MACHINE], 'exit 42'),
    ('one that sets gp by gp', SETS_GP % '', [*BARE, *FOR_MACHINE], 'fault 1'),
    ('without relaxing', ALONE, [*BARE, *FOR_MACHINE, '-mno-relax'], 'exit 42'),
    ('all in one segment, by -N', ALONE, [*BARE, *FOR_MACHINE, '-mno-relax', '-Wl,-N'], 'bad elf 5'),
    ('all in one segment, by -n', ALONE, [*BARE, *FOR_MACHINE, '-mno-relax', '-Wl,-n'], 'bad elf 5'),
    ('a linker script that tells code from no data', ALONE, [*BARE, *FOR_MACHINE, '-mno-relax', '-T', 'one.ld'], 'bad elf 5'),
    ('code and data in one page', ALONE, [*BARE, *FOR_MACHINE, '-mno-relax', '-Wl,-z,max-page-size=4'], 'bad elf 8'),
    ('addresses past 4 MiB', ALONE,
     [*BARE, *FOR_MACHINE, '-mno-relax', '-mcmodel=medany', '-Wl,-Ttext=0x80000000'], 'bad elf 7'),
    ('bss past 4 MiB', LARGE, [*BARE, *FOR_MACHINE, '-mno-relax', '-e', 'main'], 'bad elf 7'),
    ('bss past 4 MiB by script.ld', LARGE, OURS, 'no room is left for a stack'),
    ('the linker script of picolibc', IN_MAIN, PICOLIBC, 'bad elf 7'),
    ('it with addresses of the machine, whose data are copied from nowhere', IN_MAIN, [*PICOLIBC, *BELOW], 'exit 0'),
    ('picolibc by script.ld', IN_MAIN, WITH_LIBRARY, 'exit 42'),
    ('crt0 of picolibc, where main returns', 'int main(void) { return 3; }\n',
     [*PICOLIBC, '-T', os.path.join(SCRIPTS, 'script.ld')], 'spent'),
    ('doubles without -march', DOUBLES + START, [*BARE, '-mno-relax'], 'fault 4'),
    ('doubles', DOUBLES + 'int main(void) { return work(); }\n', OURS, 'exit 4'),
    ('an atomic operation without -march', ATOMIC, [*BARE, '-mno-relax', '-e', 'main'], 'fault 4'),
    ('an atomic operation', ATOMIC, OURS, 'undefined reference to `__atomic_fetch_add_4'),
    ('an array of zeros', ROOM, OURS, 'undefined reference to `memset'),
    ('an array of zeros by picolibc', ROOM, WITH_LIBRARY, 'exit 0'),
    ('a start that returns', RETURNS, [*BARE, *FOR_MACHINE], 'fault 3'),
    ('no start', 'int main(void) { return 3; }\n', [*BARE, *FOR_MACHINE], 'fault 3'),
    ('a call of a null pointer', NULL, OURS, 'fault 3'),
    ('a load by a null pointer', LOADS_NULL, OURS, 'exit 0'),
    ('too deep a recursion', DEEP, OURS, 'fault 2'),
    ('a constant in the code that is stored to', CONSTANT, [*BARE, *FOR_MACHINE, '-e', 'main'], 'fault 2'),
    ('the same by script.ld', CONSTANT, OURS, 'exit 5'),
    ('a trap in a function that others follow', TRAP, OURS, 'spent'),
    ('a trap at the end of the code', 'int main(void) { __builtin_trap(); }\n', OURS, 'fault 4'),
    ('a failed assert', ASSERT, WITH_LIBRARY, 'exit -6'),
    ('malloc', HEAP, WITH_LIBRARY, 'exit 2'),
    ('abort', ABORT, WITH_LIBRARY, 'exit -6'),
    ('a syscall that needs a transaction', LOADS_SCRIPT, OURS, 'fault 5'),
]


def built(source, words, folder):
    """The file, and what the compiler says where there is none."""
    made = os.path.join(folder, 'claim.elf')
    for name, content in (('claim.c', source), ('one.ld', ONE_SEGMENT)):
        with open(os.path.join(folder, name), 'w', encoding='utf-8') as f:
            f.write(content)
    if os.path.exists(made):
        os.remove(made)
    return made, printed([*words, 'claim.c', '-o', made], folder, None)


def check_claims(machine, folder):
    for what, source, words, wanted in CLAIMS:
        made, said = built(source, words, folder)
        got = machine.line(made) if os.path.exists(made) else said
        must(got == wanted or got.startswith(wanted + ' ') or not os.path.exists(made) and wanted in got,
             '%s: %r, and not %r' % (what, got, wanted))
    made, _ = built(FILLS, WITH_LIBRARY, folder)
    code, cycles = machine.line(made, '100000000').split()[1:]
    must_be((code, int(cycles) // 10 ** 6), ('7', 16), 'zeros and then sevens: 8 cycles a byte, twice')
    made, _ = built(HEAP, WITH_LIBRARY, folder)
    must_be(int(machine.line(made).split()[-1]) // 10 ** 6, 8, 'malloc of 1,000,000 bytes')
    words = [*BARE, *FOR_MACHINE, '-T', os.path.join(SCRIPTS, 'script.ld'), os.path.join(SCRIPTS, 'start.S')]
    made, _ = built(SYMBOLS, words, folder)
    must_be(machine.line(made), 'extra 1048576', 'a file above 1 MiB')
    made, _ = built(SYMBOLS, [*words, '-s'], folder)
    must(machine.line(made).startswith('exit 7 '), 'the same with -s')
    made, _ = built(ASSERT, WITH_LIBRARY, folder)
    said, = texts_of(made)
    must(said.startswith('assertion "no" failed'), 'the text of a failed assert: %r' % said)
    say('%d programs that go wrong, or do not, do as docs/MACHINE.md says' % (len(CLAIMS) + 3))


# -------------------------------------------------------------------- samples

def check_samples(machine, folder):
    """Those that are stored, as the compiler makes them; one that loads its script goes so far as `exec` goes."""
    for name, wanted in (('global', 'exit 42'), ('table', 'exit 19'), ('calls', 'fault 5')):
        made = os.path.join(folder, name + '.elf')
        printed([*OURS, os.path.join(SCRIPTS, name + '.c'), '-o', made], folder)
        must(machine.line(made).startswith(wanted + ' '), name)
    for name in ('checks', 'code', 'count', 'exit'):
        made = os.path.join(folder, name + '.elf')
        printed([COMPILER, '-Os', *FOR_MACHINE, '-ffreestanding', '-nostdlib', '-static', '-s', '-T',
                 os.path.join(SCRIPTS, 'bare.ld'), '-Wl,-z,max-page-size=4', os.path.join(SCRIPTS, name + '.c'),
                 '-o', made], folder)
        must(machine.line(made).startswith('fault 5 '), name)
    say('the samples are built and run')


# ---------------------------------------------------------------------- more

def check_rust(machine, folder):
    say(author_rust.check_rust(machine, folder, texts_of))


def check_accounts(_, folder):
    say(author_chain.check_accounts(folder))


def check_wrong_locks(_, folder):
    say(author_chain.check_wrong_locks(folder))


def check_texts(_, folder):
    say(author_chain.check_texts(folder))


def check_pages_in_a_browser(_, folder):
    say(author_chain.check_pages_in_a_browser(folder))


OF_C = check_pages, check_claims, check_samples, check_signature, check_accounts, check_wrong_locks
OTHERS = check_rust, check_texts, check_pages_in_a_browser


def main():
    checks = OTHERS
    if is_there():
        checks = OF_C + OTHERS
    else:
        say('no program in C was tried: gcc-riscv64-unknown-elf and picolibc-riscv64-unknown-elf are not there')
    # said aloud, since it may take a while
    for name in ('ckbdev', 'ckbtrace', 'ckbjson'):
        subprocess.run([sys.executable, os.path.join(TOP, 'tools', 'build.py'), name], stdin=subprocess.DEVNULL, check=True)
    failed = 0
    with new_folder() as folder:
        machine = Machine(folder)
        for name in ('ckbdev', 'ckbtrace', 'ckbjson', 'examples', 'bench'):
            os.symlink(os.path.join(TOP, name), os.path.join(folder, name))
        for check in (it for it in checks if not sys.argv[1:] or any(word in it.__name__ for word in sys.argv[1:])):
            try:
                check(machine, folder)
            except (Wrong, OSError, subprocess.CalledProcessError) as error:
                say('FAILED: %s: %s' % (check.__name__[len('check_'):], error))
                failed = 1
    return failed


if __name__ == '__main__':
    sys.exit(main())
