#!/usr/bin/env python3
"""The time of `list` beside `tip`, of `watch` beside `import`, and what following costs.

    python3 bench/index.py CKBDEV [--cells 100000] [--blocks 2000] [--rounds 5]

`list` of the one lock of a genesis with so many live cells, and of a lock that none has, takes turns
with `tip` on the same store, which has a snapshot: of its tip, and of a block some blocks below it.
`watch` of that lock takes turns with `import` over so many blocks on a small genesis, with a
reorganisation now and then. Then 1,000 empty blocks go through both over the many cells and over
1,000 of them. They come by a pipe, and the processor time is taken between the lines: so neither the
opening, nor the making of the index, nor the snapshot that the 1,000th block takes is in it. Every
line is checked (chaingen.py). The stores are in memory, so no disk is waited for, and the least
processor times count. The status is 1 where `list` takes more than 1.3 times what `tip` does on the
first store, `watch` more than 1.15 times what `import` does over the blocks on the small genesis,
or what `watch` takes more than `import` for an empty block is above 1.5 times as much over the many
cells, and above a microsecond.
"""

import argparse
import functools
import os
import shutil
import subprocess
import sys
import tempfile
import threading
import time

sys.dont_write_bytecode = True
import chaingen  # noqa: E402
from importing import HERE, Run, want  # noqa: E402

sys.path.insert(0, os.path.join(HERE, '..', 'tests'))
import store_model  # noqa: E402

# a snapshot is taken of so many blocks; how many blocks come after it
EVERY, LATER = 1000, 500
FEW = 1000
# of empty blocks in a row so many at a time, and whether they count: the index is made before the first, and the last of a
# thousand takes a snapshot
SPANS = (1, False), (EVERY - 2, True), (1, False), (2, True)
EMPTY, COUNTED = sum(count for count, _ in SPANS), sum(count for count, counts in SPANS if counts)
MOST_OF_LIST, MOST_OF_WATCH, MOST_MORE, LEAST_MORE = 1.3, 1.15, 1.5, 1e-6
LOCK = chaingen.ckbhash(chaingen.LOCK).hex()
NO_LOCK = bytes(32).hex()


class Made:
    """A chain over a genesis with so many cells more, as inputs in files, and what its lock has after each block."""

    def __init__(self, work, count, **how):
        spec, genesis, self.blocks, _, _ = chaingen.make(0, count, **how)
        self.model = store_model.Chain(spec, genesis, self.blocks)
        self.work = tempfile.mkdtemp(dir=work)
        self.init = self.file('init', spec + genesis)
        self.input = self.file('blocks', b''.join(self.blocks))
        self.none = self.file('none', b'')

    def file(self, name, content):
        path = os.path.join(self.work, name)
        with open(path, 'wb') as f:
            f.write(content)
        return path

    def lines(self, words):
        """That of each block."""
        lines = [self.model.line(b'joined', at).decode() for at in range(1, len(self.blocks) + 1)]
        if words[0] == 'watch':
            lines = ['%s balance %d %d\n' % (line[:-1], *balance) for line, balance in zip(lines, self.balances[1:])]
        return lines

    @functools.cached_property
    def balances(self):
        return self.model.balances(bytes.fromhex(LOCK))

    def store(self, count=0, snapshot=None):
        """The folder of a store with so many blocks, and a snapshot of a block."""
        folder = tempfile.mkdtemp(dir=self.work)
        # the log is written here: a genesis with so many cells is longer than `init` takes
        with open(os.path.join(folder, 'log.bin'), 'wb') as f:
            f.write(self.model.log(count) + b'\0')
        if snapshot:
            with open(os.path.join(folder, 'snap_a.bin'), 'wb') as f:
                f.write(self.model.snapshot(1, snapshot))
        return folder

    def took(self, program, words):
        """The processor time of a run of all blocks over a new store."""
        folder = self.store()
        try:
            run = Run([program, folder, *words], self.input, self.work, 600)
            want(run, ''.join(self.lines(words)), words[0])
            return run.cpu
        finally:
            shutil.rmtree(folder)

    def took_between(self, program, words):
        """The processor time of a run over a new store at the blocks that count."""
        folder, lines, took, at = self.store(), self.lines(words), 0, 0
        process = subprocess.Popen([program, folder, *words], stdin=subprocess.PIPE, stdout=subprocess.PIPE)
        try:
            for count, counts in SPANS:
                before = time_of(process)
                feeder = threading.Thread(target=feed, args=(process, b''.join(self.blocks[at:at + count])))
                feeder.start()
                found = [process.stdout.readline().decode() for _ in range(count)]
                feeder.join()
                took += (time_of(process) - before) * counts
                if found != lines[at:at + count]:
                    sys.exit('WRONG: %s printed %r' % (words[0], found[:3]))
                at += count
            return took
        finally:
            process.kill()
            process.communicate()
            shutil.rmtree(folder)


def time_of(process):
    """The processor time that a process took so far: its clock has a number in Linux."""
    return time.clock_gettime((~process.pid << 3) | 2)


def feed(process, given):
    process.stdin.write(given)
    process.stdin.flush()


def listing(program, cells, rounds, work, later):
    """`list` beside `tip`, on a store with a snapshot, whose cells all have the lock, and so many blocks after that."""
    made = Made(work, EVERY + later, plain=not later, row=True, far=100, cells=cells)
    rows = made.model.live_cells(EVERY + later)
    lines = ['cell 0x%s %d %d\n' % (point[:32].hex(), chaingen.encoding.number_of(point[32:]), store_model.amount_of(rows[point]))
             for point in sorted(rows, key=store_model.in_order)]
    runs = {('tip',): made.model.line(b'tip', EVERY + later).decode(),
            ('list', '0x' + LOCK): ''.join(lines) + 'total %d %d\n' % made.model.balances(bytes.fromhex(LOCK))[-1],
            ('list', '0x' + NO_LOCK): 'total 0 0\n'}
    folder, times = made.store(EVERY + later, EVERY), {words: [] for words in runs}
    for _ in range(rounds):
        for words, wanted in runs.items():
            run = Run([program, folder, *words], made.none, work, 600)
            want(run, wanted, words[0])
            times[words].append(run.cpu)
    tip, mine, other = (min(it) for it in times.values())
    print('%d live cells, %d blocks after the snapshot: tip %.1f ms, list %.1f ms of the processor: ratio %.2f, at most %.2f; of a lock without cells %.2f'
          % (len(rows), later, tip * 1e3, mine * 1e3, mine / tip, MOST_OF_LIST, other / tip))
    return later or mine <= MOST_OF_LIST * tip


def turns(rounds, took):
    """The least of what `import` and `watch` take, in turn."""
    found = [[took(words) for words in (['import'], ['watch', '0x' + LOCK])] for _ in range(rounds)]
    return map(min, zip(*found))


def watching(program, blocks, rounds, work):
    """`watch` beside `import`, with transfers and reorganisations."""
    made = Made(work, blocks)
    imported, watched = turns(rounds, lambda words: made.took(program, words))
    print('%d blocks: import %.1f ms, watch %.1f ms of the processor: ratio %.2f, at most %.2f'
          % (blocks, imported * 1e3, watched * 1e3, watched / imported, MOST_OF_WATCH))
    return watched <= MOST_OF_WATCH * imported


def following(program, cells, rounds, work):
    """What empty blocks cost `watch` over many live cells and over few."""
    more = []
    for count in (FEW, cells):
        made = Made(work, EMPTY, plain=True, row=True, far=100, cells=count)
        imported, watched = (it / COUNTED for it in turns(rounds, lambda words: made.took_between(program, words)))
        print('%d empty blocks over %d live cells: import %.1f, watch %.1f microseconds a block: ratio %.2f'
              % (COUNTED, count + 2, imported * 1e6, watched * 1e6, watched / imported))
        more.append(watched - imported)
    few, many = more
    print('following takes %.2f microseconds a block over few cells and %.2f over many: at most %.1f times as much'
          % (few * 1e6, many * 1e6, MOST_MORE))
    return many <= max(MOST_MORE * few, LEAST_MORE)


def main():
    a = argparse.ArgumentParser(description=__doc__.split('\n')[0])
    a.add_argument('ckbdev')
    a.add_argument('--cells', type=int, default=100000)
    a.add_argument('--blocks', type=int, default=2000)
    a.add_argument('--rounds', type=int, default=5)
    a = a.parse_args()
    program = os.path.abspath(shutil.which(a.ckbdev) or a.ckbdev)
    # a script that builds the program at its first use does so here
    subprocess.run([program, '/dev/null/any', 'tip'], stdin=subprocess.DEVNULL, stdout=subprocess.DEVNULL)
    place = '/dev/shm' if os.path.isdir('/dev/shm') else None
    with tempfile.TemporaryDirectory(dir=place) as work:
        good = [listing(program, a.cells, a.rounds, work, 0), listing(program, a.cells, a.rounds, work, LATER),
                watching(program, a.blocks, a.rounds, work), following(program, a.cells, a.rounds, work)]
    return 0 if all(good) else 1


if __name__ == '__main__':
    sys.exit(main())
