"""Runs of a program on files and pipes, and what must come of them."""

import contextlib
import functools
import os
import select
import shutil
import subprocess
import sys
import tempfile
import threading
import time

sys.dont_write_bytecode = True
os.environ['PYTHONDONTWRITEBYTECODE'] = '1'
TOP = os.path.dirname(os.path.dirname(os.path.abspath(__file__)))
sys.path[:0] = [os.path.join(TOP, it) for it in ('bench', 'examples', 'examples/signature')]
import chaingen  # noqa: E402 (beside the path above)
import make_chain as signature  # noqa: E402
import make_contract_chain as contract  # noqa: E402
import make_developer_chain as developer  # noqa: E402
import make_first_blocks as first  # noqa: E402
from encoding import uint  # noqa: E402

SCRIPT = os.path.join(TOP, 'ckbdev')
PRIMES = os.path.join(TOP, 'examples', 'primes.elf')
# the folder of the sample scripts
SCRIPTS = os.path.join(TOP, 'examples', 'scripts')
ITEM_LIMIT, GENESIS_LIMIT = 1 << 20, 4 << 20
SECONDS = 120
# the sizes in which a pipe is fed, in turn
PIECES = (1, 3, 4095, 65537, 1000003)
# the input of `init` for the chain of the examples, and its line
FIRST_INIT = first.SPEC.item() + first.GENESIS.item()
FIRST_LINE = (first.genesis_line(first.GENESIS) + '\n').encode()
# the same for the chain with a contract
CONTRACT_INIT = contract.SPEC.item() + contract.GENESIS.item()
CONTRACT_LINE = (first.genesis_line(contract.GENESIS) + '\n').encode()


class Wrong(Exception):
    pass


def must(holds, what):
    if not holds:
        raise Wrong(what)


def clipped(text):
    return repr(text if len(text) < 120 else text[:100] + b'..') + ' (%d bytes)' % len(text)


def must_be(got, wanted, what):
    if got != wanted:
        if isinstance(wanted, bytes):
            at = next((i for i, (a, b) in enumerate(zip(got, wanted)) if a != b),
                      min(len(got), len(wanted)))
            raise Wrong('%s: %s, and not %s; they differ at byte %d'
                        % (what, clipped(got), clipped(wanted), at))
        raise Wrong('%s: %r, and not %r' % (what, got, wanted))


def must_be_lines(got, wanted, what):
    """Each line is the one that is wanted; the first that is not is named."""
    for i, (line, other) in enumerate(zip([*got, None], [*wanted, None])):
        must_be(line, other, '%s: line %d' % (what, i + 1))


# ------------------------------------------------------------------ running

def status_of(process):
    try:
        return process.wait(SECONDS)
    except subprocess.TimeoutExpired:
        process.kill()
        process.wait()
        raise Wrong('it had not ended after %d seconds' % SECONDS)


@contextlib.contextmanager
def file_with(content):
    with tempfile.TemporaryFile() as f:
        f.write(content)
        f.flush()
        os.lseek(f.fileno(), 0, os.SEEK_SET)
        yield f


class Ran:
    """A run on files, or with `piped` on pipes that are fed and read in odd pieces."""

    def __init__(self, words, given=b'', piped=False, stdin=None, **how):
        self.read = None
        with tempfile.TemporaryFile() as err, file_with(given) as file:
            if piped:
                self.status, self.out = through_pipes(words, given, {'stderr': err, **how})
            else:
                with tempfile.TemporaryFile() as out:
                    how = {'stdin': file if stdin is None else stdin, 'stdout': out, 'stderr': err, **how}
                    self.status = status_of(subprocess.Popen(words, **how))
                    self.read = os.lseek(file.fileno(), 0, os.SEEK_CUR)
                    out.seek(0)
                    self.out = out.read()
            err.seek(0)
            self.err = err.read()


def through_pipes(words, given, how):
    process = subprocess.Popen(words, stdin=subprocess.PIPE, stdout=subprocess.PIPE, bufsize=0, **how)

    def feed():
        at, turn = 0, 0
        with contextlib.suppress(BrokenPipeError):
            while at < len(given):
                at += process.stdin.write(given[at:at + PIECES[turn % len(PIECES)]])
                turn += 1
        process.stdin.close()

    feeder = threading.Thread(target=feed, daemon=True)
    feeder.start()
    out, ends = bytearray(), time.monotonic() + SECONDS
    while True:
        if not select.select([process.stdout], [], [], max(0, ends - time.monotonic()))[0]:
            process.kill()
            raise Wrong('it wrote nothing more and had not ended after %d seconds' % SECONDS)
        more = os.read(process.stdout.fileno(), 61)
        if not more:
            break
        out += more
    process.stdout.close()
    status = status_of(process)
    feeder.join(SECONDS)
    return status, bytes(out)


def must_answer(ran, status, text, what):
    must_be(ran.out, text, what + ': standard output')
    must_be(ran.status, status, what + ': status')
    must_be(ran.err, b'', what + ': standard error')


def line_of(process):
    line, ends = b'', time.monotonic() + 20
    while not line.endswith(b'\n'):
        if not select.select([process.stdout], [], [], max(0, ends - time.monotonic()))[0]:
            raise Wrong('no line came within 20 seconds')
        more = os.read(process.stdout.fileno(), 1)
        if not more:
            break
        line += more
    return line


@contextlib.contextmanager
def started(words, **how):
    """The program on a pipe of its own at both ends. It does not outlive the block."""
    process = subprocess.Popen(words, stdin=subprocess.PIPE, stdout=subprocess.PIPE, bufsize=0, **how)
    try:
        yield process
    finally:
        process.kill()
        process.wait()
        process.stdout.close()
        with contextlib.suppress(BrokenPipeError):
            process.stdin.close()


# ------------------------------------------------------------------- folders

@contextlib.contextmanager
def new_folder():
    """A folder that goes, also where a program that was killed goes on for a moment."""
    top = tempfile.mkdtemp()
    try:
        yield top
    finally:
        shutil.rmtree(top, ignore_errors=True)


@contextlib.contextmanager
def new_store(program, given=FIRST_INIT, line=FIRST_LINE):
    """The folder of a store that `init` made of this input."""
    with new_folder() as folder:
        must_answer(Ran([program, folder, 'init'], given), 0, line, 'init')
        yield folder


@contextlib.contextmanager
def contract_store(program):
    """The folder of a store that keeps the chain with a contract."""
    given, text = first.input_and_text(contract.contract_chain()[0])
    with new_store(program, CONTRACT_INIT, CONTRACT_LINE) as folder:
        must_answer(Ran([program, folder, 'import'], given), 1, text, 'the chain with a contract')
        yield folder


def must_have_tip(program, folder, line, what):
    must_answer(Ran([program, folder, 'tip']), 0, line, what + ': tip')


def log_of(folder):
    with open(os.path.join(folder, 'log.bin'), 'rb') as f:
        return f.read()


def size_word(size):
    return uint(size, 4)


def write(path, content):
    with open(path, 'wb') as f:
        f.write(content)


# -------------------------------------------------------------------- chains

class Chain:
    """A generated chain, in which each block joins, with its lines."""

    def __init__(self, count, **sizes):
        spec, genesis, self.blocks, self.kept, _ = chaingen.make(1, count, plain=True, **sizes)
        self.init = spec + genesis
        self.first_line = b'genesis 0x%s\n' % self.kept[0][1].hex().encode()
        self.lines = [b'joined ' + self.named(at) for at in range(1, count + 1)]

    def named(self, at):
        """The number and the hash of the block at this place; the genesis has place 0."""
        number, top = self.kept[at]
        return b'%d 0x%s\n' % (number, top.hex().encode())

    def known(self, at):
        return b'known 0x%s\n' % self.kept[at][1].hex().encode()

    def tip(self, count):
        """The line of the tip after so many blocks."""
        return b'tip ' + self.named(max(range(count + 1), key=lambda at: (self.kept[at][0], -at)))

    def store(self, program):
        return new_store(program, self.init, self.first_line)


@functools.lru_cache(maxsize=None)
def chain_of(count, **sizes):
    return Chain(count, **sizes)
