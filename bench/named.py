#!/usr/bin/env python3
"""The time of a block whose transactions name cells of many long blocks, and of
a script that asks for the headers of long blocks.

    python3 bench/named.py CKBDEV [--before CKBDEV] [--blocks 80]
        [--transactions 170] [--headers 100] [--calls 30000] [--rounds 3]
        [--limit SECONDS]

`deps`: so many blocks of about 590,000 bytes each, in each of which one
transaction makes a cell with all of these bytes as data; then a block of so
many transactions, each of which names all of these cells as deps, and runs a
script that reads none of them.  The blocks go through one `import`, the last
one through another.

`headers`: blocks of about 1,040,000 bytes each, and a transaction that names
them all as header deps.  Its script asks so often for the number of a header's
epoch, of one block after the other (syscall 2082).  It goes through `check`.  A
second transaction asks as often for what takes no header (the since of its
input, syscall 2083): what the first takes beyond it is the time of the headers.

Every line is checked.  Times are of the processor, without the opening of the
store, which `tip` shows; of several rounds the least counts.  The stores lie in
/dev/shm.  With --before an earlier program does the same in turns, and the
ratio of the times is printed.  Above 2 microseconds for a header the status
is 1; the block has no limit.
"""

import argparse
import os
import shutil
import sys
import tempfile

sys.dont_write_bytecode = True
import chaingen  # noqa: E402
import importing  # noqa: E402
from chaingen import CODE, COIN, DAO, FILE, L, LOCK, OCCUPIED, PRIMARY, SECONDARY, W_FAR, ZERO_HASH  # noqa: E402
from chaingen import block, output, primary, program, share, transaction, witness  # noqa: E402
from encoding import (NULL_OUT_POINT, as_bytes, cell_input, cell_output, ckbhash, out_point,  # noqa: E402
                      raw_transaction, script)
from encoding import transaction as with_witnesses  # noqa: E402
from make_store import Spec  # noqa: E402

SHANNONS = 10 ** 8
# all but the data of a block that makes one long cell
ROOM = 597_000 - 2_000
SMALL = 1000 * SHANNONS
MOST_MICROSECONDS = 2.0


def paid(fields, h):
    """The outputs of the cellbase of height h, where no block before it has fees, and what they occupy."""
    if h <= W_FAR + 1:
        return [], 0
    t = h - W_FAR - 1
    c, _, _, u = fields[t - 1]
    reward = primary(t) + share(t, SECONDARY) * u // c
    return ([output(reward)], OCCUPIED) if reward >= OCCUPIED else ([], 0)


def field_after(field, h, made):
    """The DAO field of height h after its parent's, where the block occupies so much more."""
    c, ar, s, u = field
    second = share(h, SECONDARY)
    return c + primary(h) + second, ar + ar * second // c, s + second - second * u // c, u + made


class Deps:
    """A chain whose transactions pay no fee: each moves a cell of the genesis."""

    def __init__(self, work, blocks, transactions):
        data = bytes(ROOM - 5_000)
        self.long = (41 + len(data)) * SHANNONS
        first = transaction([], [cell_input(NULL_OUT_POINT)],
                            [output(17_300_000_000)] + [output(self.long)] * blocks + [output(SMALL)] * transactions,
                            [FILE] + [b''] * (blocks + transactions), [])
        dep = out_point(first[1], 0) + b'\0'
        makers = [transaction([dep], [cell_input(out_point(first[1], 1 + i))], [output(self.long)], [data], []) for i in range(blocks)]
        named = [dep] + [out_point(tx[1], 0) + b'\0' for tx in makers]
        movers = [transaction(named, [cell_input(out_point(first[1], 1 + blocks + i))], [output(SMALL)], [b''], [])
                  for i in range(transactions)]
        commits = {3 + i: [tx] for i, tx in enumerate(makers)}
        last = 3 + blocks
        commits[last] = movers
        capacity = 17_300_000_000 + blocks * self.long + transactions * SMALL
        occupied = (41 + len(FILE)) * SHANNONS + (blocks + transactions) * OCCUPIED
        fields = [(capacity, 10 ** 16, 0, occupied)]
        genesis, top = block(0, 0, 1000, ZERO_HASH, fields[0], 0, [first], [])
        items, lines = [], []
        for h in range(1, last + 1):
            outputs, made = paid(fields, h)
            if 3 <= h < last:
                made += self.long - OCCUPIED
            cellbase = transaction([], [cell_input(NULL_OUT_POINT, h)], outputs, [b''] * len(outputs), [witness()])
            fields.append(field_after(fields[h - 1], h, made))
            item, top = block(h, h // L + (h % L << 24) + (L << 40), 1000 + 1000 * h, top, fields[h], 0,
                              [cellbase] + commits.get(h, []), [tx[1][:10] for tx in commits.get(h + 2, [])])
            items.append(item)
            lines.append('joined %d 0x%s\n' % (h, top.hex()))
        self.size = len(items[-1])
        self.init = write(work, 'deps.init', chaingen.specification(W_FAR) + genesis)
        self.parts = [write(work, 'deps.first', b''.join(items[:-1])), write(work, 'deps.last', items[-1])]
        self.texts = [''.join(lines[:-1]), lines[-1]]
        self.genesis = genesis

    def stored(self, own, work, a):
        folder = tempfile.mkdtemp(prefix='store-', dir='/dev/shm')
        for words, given, text in (('init', self.init, None), ('import', self.parts[0], self.texts[0])):
            run = importing.Run([own, folder, words], given, work, a.limit)
            importing.want(run, text or run.out, words)
        return folder

    def seconds(self, own, work, a):
        """(of the last block, the peak of its import in MiB)"""
        folder = self.stored(own, work, a)
        try:
            opening = min(importing.Run([own, folder, 'tip'], os.devnull, work, a.limit).cpu for _ in range(3))
            run = importing.Run([own, folder, 'import'], self.parts[1], work, a.limit)
            importing.want(run, self.texts[1], 'the last block')
            return run.cpu - opening, run.peak / 1024
        finally:
            shutil.rmtree(folder)


# ---- A script that asks

A0, A1, A2, A3, A4, A5, A7, S0, S1, S2, SP = 10, 11, 12, 13, 14, 15, 17, 8, 9, 18, 2
ECALL = 0x73


def addi(to, of, number):
    return (number & 0xfff) << 20 | of << 15 | to << 7 | 0x13


def lui(to, number):
    return (number & 0xfffff) << 12 | to << 7 | 0x37


def bne(one, other, offset):
    bits = offset & 0x1fff
    return (bits >> 12) << 31 | (bits >> 5 & 0x3f) << 25 | other << 20 | one << 15 | 1 << 12 | (bits >> 1 & 0xf) << 8 | (bits >> 11 & 1) << 7 | 0x63


def sd(value, base, offset):
    return (offset >> 5 & 0x7f) << 25 | value << 20 | base << 15 | 3 << 12 | (offset & 0x1f) << 7 | 0x23


def load(to, number):
    high = (number + 0x800) >> 12
    return [lui(to, high), addi(to, to, number - (high << 12))] if high else [addi(to, 0, number)]


def asking(call, source, headers, calls):
    """Rounds over the indices 0 to `headers` - 1 of a source: eight bytes of a call's field 0 or 1 into memory."""
    field = 0 if call == 2082 else 1
    inner = load(S2, 0x200000) + load(S1, calls // headers) + [addi(S0, 0, 0)]
    start = len(inner)
    inner += [addi(A0, 0, 8), sd(A0, S2, 8), addi(A0, S2, 0), addi(A1, S2, 8), addi(A2, 0, 0)]
    inner += [addi(A3, S0, 0) if call == 2082 else addi(A3, 0, 0)] + load(A4, source) + [addi(A5, 0, field)] + load(A7, call) + [ECALL]
    inner += [addi(S0, S0, 1)] + load(A0, headers)
    inner += [bne(S0, A0, 4 * (start - len(inner)))]
    inner += [addi(S0, 0, 0), addi(S1, S1, -1)]
    inner += [bne(S1, 0, 4 * (start - len(inner)))]
    return program(inner + [addi(A0, 0, 0), *load(A7, 93), ECALL])


class Headers:
    def __init__(self, work, headers, calls):
        files = [asking(2082, 4, headers, calls), asking(2083, 1, headers, calls)]
        locks = [script(ckbhash(it)) for it in files]
        outputs = [output(17_300_000_000)] + [cell_output((41 + len(it)) * SHANNONS, LOCK) for it in files] + [cell_output(SMALL, it) for it in locks]
        first = transaction([], [cell_input(NULL_OUT_POINT)], outputs, [FILE] + files + [b'', b''], [])
        capacity = 17_300_000_000 + sum((41 + len(it)) * SHANNONS for it in files) + 2 * SMALL
        occupied = (41 + len(FILE)) * SHANNONS + sum((41 + len(it)) * SHANNONS for it in files) + 2 * OCCUPIED
        fields = [(capacity, 10 ** 16, 0, occupied)]
        genesis, top = block(0, 0, 1000, ZERO_HASH, fields[0], 0, [first], [])
        items, lines, tops = [], [], []
        for h in range(1, headers + 1):
            outputs, made = paid(fields, h)
            cellbase = transaction([], [cell_input(NULL_OUT_POINT, h)], outputs, [b''] * len(outputs), [witness(bytes(1_040_000))])
            fields.append(field_after(fields[h - 1], h, made))
            item, top = block(h, h // L + (h % L << 24) + (L << 40), 1000 + 1000 * h, top, fields[h], 0, [cellbase], [])
            items.append(item)
            tops.append(top)
            lines.append('joined %d 0x%s\n' % (h, top.hex()))
        spec = Spec(epoch_length=L, w_far=W_FAR, primary_reward=PRIMARY, secondary_reward=SECONDARY, max_block_bytes=1 << 20)
        self.calls = calls // headers * headers
        self.init = write(work, 'headers.init', spec.item() + genesis)
        self.blocks = write(work, 'headers.blocks', b''.join(items))
        self.text = ''.join(lines)
        self.asked = []
        for i, file in enumerate(files):
            raw = raw_transaction([cell_input(out_point(first[1], 3 + i))], [output(SMALL)], [b''],
                                  [out_point(first[1], 1 + i) + b'\0'], tops)
            self.asked.append(write(work, 'headers.%d' % i, with_witnesses(raw, [])))

    def microseconds(self, own, work, a):
        """What a header takes beyond a call that asks for none."""
        folder = tempfile.mkdtemp(prefix='store-', dir='/dev/shm')
        try:
            for words, given, text in (('init', self.init, None), ('import', self.blocks, self.text)):
                run = importing.Run([own, folder, words], given, work, a.limit)
                importing.want(run, text or run.out, words)
            took = []
            for file in self.asked:
                runs = [importing.Run([own, folder, 'check'], file, work, a.limit) for _ in range(2)]
                for run in runs:
                    if run.status or not run.out.startswith('ok '):
                        raise importing.Wrong('check: status %d, %r' % (run.status, run.out[:90]))
                took.append(min(run.cpu for run in runs))
            return 1e6 * (took[0] - took[1]) / self.calls
        finally:
            shutil.rmtree(folder)


def write(work, name, content):
    path = os.path.join(work, name)
    with open(path, 'wb') as f:
        f.write(content)
    return path


def main():
    a = argparse.ArgumentParser(description=__doc__.split('\n')[0])
    a.add_argument('ckbdev')
    a.add_argument('--before')
    a.add_argument('--blocks', type=int, default=80)
    a.add_argument('--transactions', type=int, default=170)
    a.add_argument('--headers', type=int, default=100)
    a.add_argument('--calls', type=int, default=30000)
    a.add_argument('--rounds', type=int, default=3)
    a.add_argument('--limit', type=float, default=600)
    a.add_argument('--only', choices=('deps', 'headers'))
    a = a.parse_args()
    programs = [os.path.abspath(it) for it in (a.ckbdev, a.before) if it]
    status = 0
    with tempfile.TemporaryDirectory(dir='/dev/shm') as work:
        if a.only != 'headers':
            deps = Deps(work, a.blocks, a.transactions)
            rounds = [[deps.seconds(own, work, a) for own in programs] for _ in range(a.rounds)]
            least = [min(it[k][0] for it in rounds) for k in range(len(programs))]
            peaks = [min(it[k][1] for it in rounds) for k in range(len(programs))]
            print('deps: a block of %d bytes, %d transactions that name %d cells each: %.3f s, peak %.0f MiB'
                  % (deps.size, a.transactions, a.blocks, least[0], peaks[0]))
            if a.before:
                print('deps: before %.3f s, peak %.0f MiB; ratio %.3f' % (least[1], peaks[1], least[0] / least[1]))
        if a.only != 'deps':
            headers = Headers(work, a.headers, a.calls)
            rounds = [[headers.microseconds(own, work, a) for own in programs] for _ in range(a.rounds)]
            least = [min(it[k] for it in rounds) for k in range(len(programs))]
            print('headers: %d calls over %d blocks: %.2f us a header beyond the call' % (headers.calls, a.headers, least[0]))
            if a.before:
                print('headers: before %.2f us; ratio %.4f' % (least[1], least[0] / least[1]))
            status |= least[0] > MOST_MICROSECONDS
    return int(status)


if __name__ == '__main__':
    try:
        sys.exit(main())
    except importing.Wrong as wrong:
        sys.exit('named.py: %s' % wrong)
