"""What the documents say to an author who writes Rust, with the compiler of Debian's packages rustc, rust-src and lld."""

import os
import re
import shutil
import subprocess

from harness import SCRIPTS, TOP, must, must_be, new_folder
import make_contract_chain as contract
from encoding import ckbhash
from make_contract_chain import ANYONE, SPEC, First, Transaction
from make_first_blocks import genesis_line
from script_scene import Cell, Script

RUST = os.path.join(SCRIPTS, 'rust')
RUSTC, SOURCES = '/usr/bin/rustc', '/usr/lib/rustlib/src/rust/library'
# of this version are the cycles of the page
VERSION = '1.63.0'
PAGE = os.path.join(SCRIPTS, 'README.md')

START = '#![no_std]\n#![no_main]\n'
MAIN = START + '''extern crate ckb;
// a value that the compiler does not know
fn seen<T: Copy>(value: T) -> T {
    unsafe { core::ptr::read_volatile(&value) }
}
#[no_mangle]
pub extern "C" fn main() -> i8 {
    %s
}
'''
# 40 + 2, by a compare and swap and by an addition
ATOMIC = START + '''extern crate ckb;
use core::sync::atomic::{AtomicU32, Ordering};
static COUNT: AtomicU32 = AtomicU32::new(7);
#[no_mangle]
pub extern "C" fn main() -> i8 {
    let _ = COUNT.compare_exchange(7, 40, Ordering::SeqCst, Ordering::SeqCst);
    COUNT.fetch_add(2, Ordering::SeqCst);
    COUNT.load(Ordering::SeqCst) as i8
}
'''
# a word of an array that is found by its place
WORDS = MAIN % 'seen([9u64, 8, 7, 6, 5, 4, 3, 2])[seen(3usize) % 8] as i8'
PAST = MAIN % '[1i8, 2, 3][seen(9usize)]'
OVERFLOW = MAIN % 'seen(100i8) + seen(44i8)'
DOUBLES = MAIN % '(seen(1.5f64) + seen(2.5)) as i8'
WIDE = MAIN % '(seen(1u128 << 70) / seen(1u128 << 68)) as i8'
LARGE = START + '''extern crate ckb;
static mut HEAP: [u8; 4 << 20] = [0; 4 << 20];
#[no_mangle]
pub extern "C" fn main() -> i8 {
    unsafe { core::ptr::read_volatile(&HEAP[5]) as i8 }
}
'''
SYSCALL = START + '''extern crate ckb;
#[no_mangle]
pub extern "C" fn main() -> i8 {
    let a0: u64;
    unsafe { core::arch::asm!("ecall", lateout("a0") a0, in("a7") %d) };
    a0 as i8
}
'''
# calls of later editions
LATER = (2601, 2602, 2603, 2604, 2605, 2606, 2607, 2608, 2041, 2042, 2043)
# rustc.sh without the pass
BARE = [RUSTC, *'--target riscv64imac-unknown-none-elf --edition 2021 -C opt-level=2 -C panic=abort --extern ckb'.split(),
        *'-C linker-flavor=ld.lld -C linker=ld.lld -C relocation-model=static -C link-arg=-zmax-page-size=4'.split(),
        '-C', 'link-arg=-T' + os.path.join(SCRIPTS, 'script.ld')]
LIBGCC = 'riscv64-unknown-elf-gcc', '-march=rv64imc', '-mabi=lp64', '-print-libgcc-file-name'


def is_there():
    return os.path.exists(RUSTC) and os.path.isdir(SOURCES) and bool(shutil.which('ld.lld'))


def without_cycles(text):
    return re.sub(r'(?m)^(check [\w-]+: ok \d+) \d+$', r'\1', text)


def page_lines():
    with open(PAGE, encoding='utf-8') as f:
        found = re.search(r'(?m)^    sh examples/scripts/rust/try.sh opened\n((?:    check .*\n)+)', f.read())
    return found[1].replace('    ', '')


class Builder:
    """Builds programs in a folder, in which core is compiled once."""

    def __init__(self, folder):
        self.folder = folder

    def built(self, source, *words, bare=False):
        """The file, and what the compiler says. A `bare` one is compiled without the pass that lowers atomic operations."""
        path, made = os.path.join(self.folder, 'claim.rs'), os.path.join(self.folder, 'claim.elf')
        with open(path, 'w', encoding='utf-8') as f:
            f.write(source)
        if os.path.exists(made):
            os.remove(made)
        command = ['sh', os.path.join(RUST, 'rustc.sh'), self.folder, path, *words]
        if bare:
            command = [*BARE, '-L', self.folder, path, '-o', made]
        ran = subprocess.run(command, env={**os.environ, 'RUSTC_BOOTSTRAP': '1'}, stdin=subprocess.DEVNULL,
                             stdout=subprocess.PIPE, stderr=subprocess.STDOUT, text=True)
        return made if os.path.exists(made) else None, ran.stdout


def claims():
    """(what, its source, further words, how its line begins, or a part of what the compiler says)"""
    yield 'an array', WORDS, (), 'exit 6'
    yield 'zba', WORDS, ('-C', 'target-feature=+zba'), 'fault 4'
    yield 'atomic operations', ATOMIC, (), 'exit 42'
    yield 'an index past the end', PAST, (), 'exit -101'
    yield 'an overflow', OVERFLOW, (), 'exit -101'
    yield 'an overflow that is not looked for', OVERFLOW, ('-C', 'overflow-checks=no'), 'exit -112'
    yield 'doubles', DOUBLES, (), 'undefined symbol: __adddf3'
    yield 'a division of 128 bits', WIDE, (), 'undefined symbol: __udivti3'
    yield 'memory that is more than there is', LARGE, (), 'no room is left for a stack'
    for number in LATER:
        yield 'syscall %d' % number, SYSCALL % number, (), 'fault 5'
    if shutil.which(LIBGCC[0]):
        library = subprocess.run(LIBGCC, stdout=subprocess.PIPE, text=True, check=True).stdout.strip()
        yield 'doubles with libgcc', DOUBLES, ('-C', 'link-arg=' + library), 'exit 4'
        yield 'a division of 128 bits with libgcc', WIDE, ('-C', 'link-arg=' + library), 'exit 4'


def check_rust_claims(machine, folder, texts_of):
    builder, count = Builder(folder), 0
    for what, source, words, wanted in claims():
        made, said = builder.built(source, *words)
        got = machine.line(made) if made else said
        must(got == wanted or got.startswith(wanted + ' ') or not made and wanted in got,
             '%s: %r, and not %r' % (what, got, wanted))
        count += 1
        if wanted == 'exit -101':
            must_be(texts_of(made), ['claim.rs:%d' % (MAIN[:MAIN.index('%s')].count('\n') + 1)], 'the place of a panic')
    made, said = builder.built(ATOMIC, bare=True)
    must(made and machine.line(made).startswith('fault 4 '), 'atomic operations without the pass: %s' % said)
    return count + 1


def check_rust_lock(machine, folder):
    """The lines of the page, with the cycles of its version."""
    version = subprocess.run([RUSTC, '--version'], stdout=subprocess.PIPE, text=True, check=True).stdout.split()[1]
    kept = (lambda text: text) if version == VERSION else without_cycles
    # what the script of the node says on standard error is script.py's
    ran = subprocess.run(['sh', 'examples/scripts/rust/try.sh', 'opened'], cwd=folder, stdin=subprocess.DEVNULL,
                         stdout=subprocess.PIPE, stderr=subprocess.DEVNULL, text=True)
    must_be((ran.returncode, kept(ran.stdout)), (0, kept(page_lines())), 'try.sh')
    must(machine.line(os.path.join(folder, 'opened', 'lock.elf')).startswith('fault 5 '), 'the lock alone')


def check_data1(program):
    """The hash types of later editions find no code."""
    for hash_type, wanted in ((0, 'ok 1000 505\n'), (2, 'refused J28\n'), (4, 'refused J28\n')):
        lock = Script(ANYONE.code_hash, hash_type)
        genesis = contract.store.genesis(SPEC, outputs=[(contract.ckb(100), b'', lock.item())])

        class Made:
            hash = ckbhash(genesis.transactions[0].raw())
            outputs = First.outputs[:2] + [Cell(lock, capacity=contract.ckb(100))]

        spends = Transaction([(Made, 2)], [Cell(ANYONE, capacity=contract.ckb(100) - 1000)], deps=[(Made, 0)])
        with new_folder() as folder:
            made = SPEC.item() + genesis.item()
            for word, given, text in (('init', made, genesis_line(genesis) + '\n'), ('check', spends.item, wanted)):
                ran = subprocess.run([program, folder, word], input=given, stdout=subprocess.PIPE)
                must_be(ran.stdout.decode(), text, 'hash type %d: %s' % (hash_type, word))


def check_rust(machine, folder, texts_of):
    """All of it; what was done as text, or why nothing was."""
    if not is_there():
        return 'no program in Rust was tried: rustc, rust-src and lld are not there'
    check_data1(os.path.join(TOP, 'ckbdev'))
    check_rust_lock(machine, folder)
    count = check_rust_claims(machine, os.path.join(folder, 'opened'), texts_of)
    return 'a lock in Rust opens by a word, and %d programs in Rust do as docs/MACHINE.md says' % count
