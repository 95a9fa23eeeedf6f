#!/usr/bin/env python3
"""The speed of `init`, `import` and opening, against a floor.

    python3 bench/importing.py CKBDEV [--sizes 2000,6000,20000] [--rounds 1]
        [--disk FOLDER | --tmpfs] [--plain] [--row] [--busy 1000] [--far 10]
        [--before CKBDEV] [--sync fdatasync|fsync] [--seed 0] [--limit SECONDS] [--no-strace]

A generated chain (chaingen.py) of each size goes through `init`, `import` and
`tip` of a new store, and through diskfloor.c before and after, in turn.  Every
line is checked.  Of several elapsed times the mean counts on a disk, and the
least elsewhere.

--disk FOLDER  where the stores are made (default: the folder for temporary
               files); the kind of file system is printed
--tmpfs        the stores are made in /dev/shm: no disk is waited for
--row          each block stands on the one before it: two in seven of the others
               stand on another branch than the tip's, whose cells are made
               for them from the genesis on
--plain        no block of these chains proposes or commits: each has its
               cellbase alone
--busy         how many blocks one chain more has, in which each block from the
               third on commits 100 transactions: each spends two cells and makes
               two, with one lock, so that one script group runs; 0 leaves it out
--far          how far back the proposal window of that chain reaches
--before       another program, an earlier one: both import that chain in turn,
               so many rounds, and the ratio of the least processor times is printed
--sync         what the floor syncs with

Columns: seconds of the whole `import`; microseconds per block, elapsed and of
the processor; the same of the floor; the ratio of the elapsed times, and the
drift, which is the longest run of the floor over its shortest; the ratio of the
processor times; the peak of resident memory of `import`; the seconds of `tip`
on the store, which are those of opening it, and its peak; the log's size.  The
growth is the time per block of the longest chain over that of the shortest.
The last row is the chain of --busy: no growth and no ratio of the last lines
counts it. Its floor writes less, since the fees and spent cells that `import`
keeps beside a block are not in the input.
"""

import argparse
import os
import re
import shutil
import signal
import statistics
import subprocess
import sys
import tempfile
import time

sys.dont_write_bytecode = True
import chaingen  # noqa: E402

HERE = os.path.dirname(os.path.abspath(__file__))
# the transactions of a block of --busy
PAIRS = 100
TIME = '/usr/bin/time' if os.access('/usr/bin/time', os.X_OK) else None


class Run:
    """One run of a program: elapsed seconds, processor seconds, peak of
    resident memory in KiB, status and standard output."""

    def __init__(self, words, stdin, work, limit):
        out, note = os.path.join(work, 'stdout'), os.path.join(work, 'usage')
        if TIME:        # a small parent, so that the peak is the program's own
            words = [TIME, '-f', '%M', '-o', note] + words
        with open(stdin, 'rb') as i, open(out, 'wb') as o:
            start = time.perf_counter()
            p = subprocess.Popen(words, stdin=i, stdout=o, start_new_session=True)
            old = signal.signal(signal.SIGALRM, lambda *_: os.killpg(p.pid, signal.SIGKILL))
            signal.setitimer(signal.ITIMER_REAL, limit)
            try:
                _, status, usage = os.wait4(p.pid, 0)
            finally:
                signal.setitimer(signal.ITIMER_REAL, 0)
                signal.signal(signal.SIGALRM, old)
            self.wall = time.perf_counter() - start
        p.returncode = self.status = os.waitstatus_to_exitcode(status)
        self.cpu = usage.ru_utime + usage.ru_stime
        self.peak = usage.ru_maxrss
        if TIME:
            with open(note) as f:
                self.peak = int((f.read().split() or ['0'])[-1])
        with open(out, 'rb') as f:
            self.out = f.read().decode('latin-1')


class Wrong(Exception):
    pass


def want(run, text, what):
    if run.status == -signal.SIGKILL:
        raise Wrong('%s: stopped after %.0f seconds' % (what, run.wall))
    if run.status != 0 or run.out != text:
        got = run.out.split('\n')
        right = text.split('\n')
        at = next((i for i, (a, b) in enumerate(zip(got, right)) if a != b),
                  min(len(got), len(right)))
        raise Wrong('%s: status %d, line %d is %r and should be %r'
                    % (what, run.status, at + 1, (got + [''])[at][:90], (right + [''])[at][:90]))


class Chain:
    """The files of one chain, and the texts that it must give."""

    def __init__(self, seed, n, plain, work, pairs=0, row=False, far=chaingen.W_FAR):
        spec, genesis, blocks, kept, tip = chaingen.make(seed, n, plain, pairs=pairs, row=row, far=far)
        self.n = n
        # the first two blocks of a branch have their cellbases alone
        self.transactions = pairs * sum(h > 2 for h, _ in kept)
        self.first = os.path.join(work, 'init.%d.%d' % (n, pairs))
        self.blocks = os.path.join(work, 'blocks.%d.%d' % (n, pairs))
        for path, content in ((self.first, spec + genesis), (self.blocks, b''.join(blocks))):
            with open(path, 'wb') as f:
                f.write(content)
        self.genesis_text = 'genesis 0x%s\n' % kept[0][1].hex()
        self.tip_text = 'tip %d 0x%s\n' % (kept[tip][0], kept[tip][1].hex())
        self.text = ''.join('joined %d 0x%s\n' % (h, x.hex()) for h, x in kept[1:])


def store(program, chain, place, work, a, wrap=()):
    """(import, tip, size of the log); `wrap` goes before the words of import."""
    folder = tempfile.mkdtemp(prefix='store-', dir=place)
    try:
        want(Run([program, folder, 'init'], chain.first, work, a.limit),
             chain.genesis_text, 'init')
        run = Run(list(wrap) + [program, folder, 'import'], chain.blocks, work, a.limit)
        want(run, chain.text, 'import')
        tip = Run([program, folder, 'tip'], os.devnull, work, a.limit)
        want(tip, chain.tip_text, 'tip')
        return run, tip, os.path.getsize(os.path.join(folder, 'log.bin'))
    finally:
        shutil.rmtree(folder)


def floor(program, chain, place, work, a):
    file = os.path.join(place, 'floor.%d' % os.getpid())
    try:
        run = Run([program, file, a.sync], chain.blocks, work, a.limit)
    finally:
        if os.path.exists(file):
            os.remove(file)
    if run.status != 0 or run.out.count('\n') != chain.n:
        raise Wrong('the floor ends with status %d after %d lines'
                    % (run.status, run.out.count('\n')))
    return run


def calls(program, chain, place, work, a):
    """The counts of the calls of the disk in one `import`, by strace."""
    note = os.path.join(work, 'calls')
    store(program, chain, place, work, a,
          ['strace', '-f', '-c', '-o', note, '-e',
           'trace=fsync,fdatasync,sync,syncfs,sync_file_range,msync,write,pwrite64,'
           'writev,pwritev,read,pread64,ftruncate,lseek'])
    counts = {}
    with open(note) as f:
        for line in f:
            found = re.match(r'\s*[\d.]+\s+[\d.]+\s+\d+\s+(\d+)\s+(?:\d+\s+)?(\w+)$', line)
            if found and found.group(2) != 'total':
                counts[found.group(2)] = int(found.group(1))
    return counts


def in_turns(programs, chain, place, work, a):
    """The least processor time of each program's import, in seconds."""
    times = [[] for _ in programs]
    for _ in range(a.rounds):
        for program, of_it in zip(programs, times):
            of_it.append(store(program, chain, place, work, a)[0].cpu)
    return [min(it) for it in times]


def file_system(place):
    p = subprocess.run(['stat', '-f', '-c', '%T', place], capture_output=True, text=True)
    return p.stdout.strip() or 'unknown'


def show(rows):
    widths = [max(len(r[i]) for r in rows) for i in range(len(rows[0]))]
    for r in rows:
        print('  '.join(c.rjust(w) for c, w in zip(r, widths)))


def main():
    a = argparse.ArgumentParser(description=__doc__.split('\n')[0])
    a.add_argument('ckbdev')
    a.add_argument('--sizes', default='2000,6000,20000')
    a.add_argument('--rounds', type=int, default=1)
    a.add_argument('--disk')
    a.add_argument('--tmpfs', action='store_true')
    a.add_argument('--plain', action='store_true')
    a.add_argument('--row', action='store_true')
    a.add_argument('--busy', type=int, default=1000)
    a.add_argument('--far', type=int, default=chaingen.W_FAR)
    a.add_argument('--before')
    a.add_argument('--sync', choices=('fdatasync', 'fsync'), default='fdatasync')
    a.add_argument('--seed', type=int, default=0)
    a.add_argument('--limit', type=float, default=3600)
    a.add_argument('--no-strace', action='store_true')
    a = a.parse_args()
    program = os.path.abspath(shutil.which(a.ckbdev) or a.ckbdev)
    if not os.access(program, os.X_OK):
        sys.exit('there is no program %s' % a.ckbdev)
    # a script that builds the program at its first use does so here
    subprocess.run([program, '/dev/null/any', 'tip'], stdin=subprocess.DEVNULL, stdout=subprocess.DEVNULL)
    sizes = [int(s) for s in a.sizes.split(',')]
    under = a.disk or ('/dev/shm' if a.tmpfs else tempfile.gettempdir())
    # the input, the output and the notes lie in memory where that is there
    notes = '/dev/shm' if os.path.isdir('/dev/shm') else None
    with tempfile.TemporaryDirectory(dir=notes) as work, \
            tempfile.TemporaryDirectory(dir=under) as place:
        bottom = os.path.join(work, 'diskfloor')
        subprocess.run([os.environ.get('CC', 'cc'), '-std=c11', '-O2',
                        os.path.join(HERE, 'diskfloor.c'), '-o', bottom], check=True)
        print('stores on %s; the floor syncs by %s' % (file_system(place), a.sync))
        chains = [Chain(a.seed, n, a.plain, work, row=a.row) for n in sizes]
        if a.busy:
            chains.append(Chain(a.seed, a.busy, True, work, PAIRS, a.row, a.far))
        rows = [['blocks', 'import s', 'us/block', 'cpu us', 'floor us', 'floor cpu us',
                 'ratio', 'drift', 'cpu ratio', 'peak MiB', 'tip s', 'tip MiB', 'log MB']]
        wall, cpu, ratios, drifts = [], [], [], []
        # a disk's times drift both ways; the processor's are only ever too long
        settle = min if a.tmpfs else statistics.mean
        for chain in chains:
            under_it = [floor(bottom, chain, place, work, a)]
            mine = []
            for _ in range(a.rounds):
                mine.append(store(program, chain, place, work, a))
                under_it.append(floor(bottom, chain, place, work, a))
            n = chain.n
            run, base = settle(m[0].wall for m in mine), settle(b.wall for b in under_it)
            tip = min((m[1] for m in mine), key=lambda r: r.wall)
            wall.append(run / n)
            cpu.append(min(m[0].cpu for m in mine) / n)
            ratios.append(run / base)
            drifts.append(max(b.wall for b in under_it) / min(b.wall for b in under_it))
            low = min(b.cpu for b in under_it)
            rows.append([str(n) + ' busy' * bool(chain.transactions), '%.2f' % run, '%.1f' % (wall[-1] * 1e6),
                         '%.1f' % (cpu[-1] * 1e6), '%.1f' % (base / n * 1e6),
                         '%.1f' % (low / n * 1e6), '%.2f' % ratios[-1], '%.2f' % drifts[-1],
                         '%.2f' % (cpu[-1] * n / low),
                         '%.1f' % (max(m[0].peak for m in mine) / 1024),
                         '%.3f' % tip.wall, '%.1f' % (tip.peak / 1024),
                         '%.1f' % (mine[0][2] / 1e6)])
        show(rows)
        long, short = sizes.index(max(sizes)), sizes.index(min(sizes))
        print('ratio to the floor: %s' % ', '.join('%.2f' % r for r in ratios[:len(sizes)]))
        print('growth from %d to %d blocks: %.2f elapsed, %.2f of the processor'
              % (sizes[short], sizes[long], wall[long] / wall[short], cpu[long] / cpu[short]))
        if a.busy:
            busy, count = chains[-1], chains[-1].transactions
            print('%d blocks with %d transactions: %.0f us of the processor a block, %.1f us a transaction'
                  % (busy.n, count, cpu[-1] * 1e6, cpu[-1] * 1e6 * busy.n / max(1, count)))
            if a.before:
                before, now = in_turns([os.path.abspath(a.before), program], busy, place, work, a)
                print('in turns with the program before: %.1f and %.1f us a transaction, ratio %.2f'
                      % (before * 1e6 / count, now * 1e6 / count, now / before))
        if max(drifts) > 1.25:
            print('the floor itself drifted by more than a quarter: the elapsed ratios say little')
        if not TIME:
            print('the peaks are of no use: there is no /usr/bin/time')
        if not a.no_strace and shutil.which('strace'):
            chain = chains[short]
            try:
                counts = calls(program, chain, place, work, a)
            except Wrong as w:
                print('no count of calls: %s' % w)
            else:
                syncs = sum(v for k, v in counts.items() if 'sync' in k)
                print('import of %d blocks under strace: %d syncs, %.3f per block (%s)'
                      % (chain.n, syncs, syncs / chain.n,
                         ', '.join('%s %d' % c for c in sorted(counts.items()))))
    return 0


if __name__ == '__main__':
    try:
        sys.exit(main())
    except Wrong as w:
        print('WRONG: %s' % w)
        sys.exit(1)
