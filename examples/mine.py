#!/usr/bin/env python3
"""Mines blocks on a store, by the program's `assemble` and `import`, and has transactions committed.

    python3 examples/mine.py FOLDER COUNT [--timestamp T] [--until HEIGHT] [TRANSACTION ..]

COUNT blocks are mined after the tip, then as many as it takes until the tip has the height HEIGHT, and until each
transaction is committed or refused. A TRANSACTION is a file with its bytes. It is proposed in the first block, and
committed in the first that may have it: where it comes too early, since a time lock or a maturity is not over, it is
tried again in each block that is mined anyway. So without COUNT blocks it is refused then, and with enough of them it is
committed at the height from which on it may be. One that spends what another makes comes after it, or a block later.

A line says of each, in their order, what came of it, and the last line is that of `tip`:

    committed HEIGHT HASH   in the block at this height, which has this hash
    refused Jn              by rule n of docs/RULES.md, in the next block
    later                   never: even alone it makes a block too long, or no block may propose it

The status is 0 where each is committed, 1 where one is not, 2 where the words are wrong or a file is no transaction, and
otherwise the program's.

A block has the timestamp T, in milliseconds, as long as the rules allow it, and else the least that they allow, which is
the median time at its parent plus 1. The median is of 37 blocks: 19 with the timestamp T move it to T. The rewards of
the blocks go to the lock of all (make_store.py), or to another by --lock.
"""

import os
import subprocess
import sys

import description
import make_store
from encoding import as_bytes, fields_of, number_of, table, uint

TOP = os.path.dirname(os.path.dirname(os.path.realpath(__file__)))
SCRIPT, BUILT = os.path.join(TOP, 'ckbdev'), os.path.join(TOP, 'build', 'ckbdev')
ITEM_LIMIT, MOST_ITEMS = 1 << 20, 1000
# where the specification of a store stands in its log, and w_close in that (docs/STORE.md, docs/RULES.md)
W_CLOSE = slice(8 + 6 + 12, 8 + 6 + 16)
# what more blocks or another transaction may mend: inputs, deps and headers that are not there yet, and spans of time
EARLY = {'refused J20', 'refused J21', 'refused J22', 'refused J23', 'refused J24'}
# what a block without the others may mend: the cycles that it has left
CROWDED = {'refused J30'}


class Failed(Exception):
    """Why nothing more is mined, or an empty text where the script said it; and the status to end with."""

    def __init__(self, why, status=1):
        super().__init__(why)
        self.status = status


# ----------------------------------------------------------------- the store

class Store:
    """A store that the program mines on."""

    def __init__(self, folder, lock, program=None):
        self.folder, self.program = folder, os.path.abspath(program or SCRIPT)
        self.witness = table([lock, as_bytes(b'')])
        self.height = int(self.tip().split()[1])
        if not program and is_built():
            # the same without the script, which looks at all sources before each run
            self.program = BUILT
        with open(os.path.join(folder, 'log.bin'), 'rb') as f:
            self.w_close = number_of(f.read(W_CLOSE.stop)[W_CLOSE])

    def run(self, command, given=b''):
        """The lines of a command."""
        ran = subprocess.run([self.program, self.folder, command], input=given, stdout=subprocess.PIPE)
        if ran.returncode not in (0, 1):
            # the script has said what the status means
            why = '' if self.program == SCRIPT else '`%s` ended with status %d: docs/COMMANDS.md says what to look at' % (
                command, ran.returncode)
            raise Failed(why, ran.returncode)
        return ran.stdout.decode().splitlines()

    def tip(self):
        line, = self.run('tip')
        return line

    def assembled(self, items, timestamp):
        """The line of each item in the next block, and that block with this timestamp, or with a later one."""
        *lines, last = self.run('assemble', self.witness + b''.join(items))
        if not last.startswith('block 0x'):
            raise Failed('%s at height %d: docs/RULES.md says what to look at' % (last, self.height + 1))
        return lines, dated(bytes.fromhex(last[len('block 0x'):]), timestamp)

    def take(self, block):
        """Imports a block, which becomes the tip, and gives its number and its hash as text."""
        line, = self.run('import', block)
        if not line.startswith('joined '):
            raise Failed('the block at height %d is answered with `%s`: docs/COMMANDS.md, "import"' % (self.height + 1, line))
        joined = line[len('joined '):]
        self.height = int(joined.split()[0])
        return joined


def is_built():
    ran = subprocess.run([SCRIPT, '--version'], stdin=subprocess.DEVNULL, stdout=subprocess.PIPE)
    return b'\nproved with ' in ran.stdout and os.access(BUILT, os.X_OK)


def dated(block, timestamp):
    """The block with this timestamp, or with its own where that is later."""
    header, *rest = fields_of(block)
    later = max(number_of(header[8:16]), timestamp)
    return table([header[:8] + uint(later, 8) + header[16:], *rest])


# ------------------------------------------------------------ transactions

class Waiting:
    """A transaction, the height at which it was proposed last, and what came of it."""

    def __init__(self, item):
        self.item, self.proposed, self.answer = item, None, None

    def is_due(self, height, w_close):
        """Whether it may be proposed or committed at this height. It is not proposed again where it is too early for both."""
        return self.proposed is None or height >= self.proposed + w_close

    def hears(self, line, block, may_pass):
        """Its line of `assemble`, the number and the hash of the block, and the refusals that need not be the last ones."""
        if line.startswith('commit '):
            self.answer = 'committed ' + block
        elif line == 'propose':
            self.proposed = int(block.split()[0])
        elif line.startswith('refused ') and line not in may_pass:
            self.answer = line


def mine(store, until, timestamp, transactions):
    """Mines up to this height, and on until each transaction has its answer."""
    while store.height < until or any(it.answer is None for it in transactions):
        waiting = [it for it in transactions if it.answer is None]
        due = [it for it in waiting if it.is_due(store.height + 1, store.w_close)]
        given = due[:MOST_ITEMS]
        lines, block = store.assembled([it.item for it in given], timestamp)
        is_wanted, commits = store.height < until, any(it.startswith('commit ') for it in lines)
        if is_wanted or commits or 'propose' in lines or len(due) < len(waiting):
            may_pass = (EARLY if is_wanted or commits else set()) | (CROWDED if commits else set())
            joined = store.take(block)
            for it, line in zip(given, lines):
                it.hears(line, joined, may_pass)
        else:
            # another block would change nothing
            for it, line in zip(given, lines):
                it.answer = line


# ---------------------------------------------------------------- the words

def transaction_of(path):
    content = description.content_of(path, 'TRANSACTION')
    if not 4 <= len(content) <= ITEM_LIMIT or number_of(content[:4]) != len(content):
        raise ValueError('%s: it does not begin with its length, so it holds no transaction as bytes (docs/FORMATS.md)' % path)
    return content


def arguments():
    p = make_store.Words(description='Mines blocks on a store, and has transactions committed.')
    p.add_argument('folder', metavar='FOLDER')
    p.add_argument('count', metavar='COUNT', help='how many blocks are mined at least')
    p.add_argument('transactions', metavar='TRANSACTION', nargs='*', default=[], help='a file with the bytes of one')
    p.add_argument('--timestamp', metavar='T', default='0', help='of the blocks, in milliseconds')
    p.add_argument('--until', metavar='HEIGHT', default='0', help='the height of the tip at the least')
    p.add_argument('--lock', nargs=3, metavar=('CODE', 'HASH_TYPE', 'ARGS'),
                   help='whom the blocks pay: a code hash or the file of the code, `data` or `type`, and args in hex')
    p.add_argument('--program', help='the program to be run, in place of that of the checkout')
    return p, p.parse_intermixed_args()


def main():
    p, a = arguments()
    try:
        count, until, timestamp = (description.number(value, name) for value, name in (
            (a.count, 'COUNT'), (a.until, '--until'), (a.timestamp, '--timestamp')))
        lock = description.script_of(description.script_of_words(a.lock), '--lock') if a.lock else make_store.LOCK
        transactions = [Waiting(transaction_of(it)) for it in a.transactions]
    except ValueError as error:
        p.fails(error)
    try:
        store = Store(a.folder, lock, a.program)
        mine(store, max(store.height + count, until), timestamp, transactions)
        lines = [it.answer for it in transactions]
        print(*lines, store.tip(), sep='\n')
    except (Failed, OSError) as error:
        p.exit(getattr(error, 'status', 1), 'mine.py: %s\n' % error if str(error) else '')
    return int(not all(it.startswith('committed ') for it in lines))


if __name__ == '__main__':
    sys.exit(main())
