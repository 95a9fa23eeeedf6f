#!/usr/bin/env python3
"""Runs all scripts beside this one but ask.py, which wants two programs, and writes the table of the README.

    python3 bench/all.py [--only exec,opening] [--rounds 3] [--write]

They run one after the other. What those print that measure a figure of the README becomes
a row of its table; the others have a limit alone. The rows go to standard output. With
--write each takes the place of the README's row that begins alike, with the day; the
others stay.

The programs are those that the gate or `./ckbdev --build` and `rt run` built. A figure whose program is
not there, or whose script fails, has no row: that is said on standard error, and the
status is 1. It is 1 too where a script ends with another status than 0: a limit is passed.
"""

import argparse
import collections
import datetime
import os
import re
import subprocess
import sys

HERE = os.path.dirname(os.path.abspath(__file__))
TOP = os.path.dirname(HERE)
README = os.path.join(TOP, 'README.md')
BEGIN, END = '<!-- figures: made by bench/all.py -->\n', '<!-- end -->'
HEAD = '| what | figure | beside | measured |\n| --- | --- | --- | --- |\n'


class Failed(Exception):
    pass


def built(name):
    """The built program of a crate."""
    for place in (os.path.join('build', name), os.path.join('crates', name, 'out', name)):
        if os.access(os.path.join(TOP, place), os.X_OK):
            return os.path.join(TOP, place)
    raise Failed('there is no program %s: `rt run` in crates/%s builds it' % (name, name))


def find(pattern, text):
    """The groups of the one place where a pattern stands in what a script printed."""
    found = re.search(pattern, text, re.MULTILINE)
    if not found:
        raise Failed('what was printed has no %s' % pattern)
    return found.groups()


def share(ratio, of_what):
    return '%s %s the %s' % (ratio, 'of' if float(ratio) < 1 else 'times', of_what)


def workloads():
    """The workloads that are files: their mean leaves out `straight`, which exec.py makes."""
    with open(os.path.join(HERE, 'workloads', 'expected.tsv')) as f:
        return ','.join(line.split('\t')[0] for line in f.read().splitlines()[1:])


# ------------------------------------------------ the figure of what was printed, and what stands beside it

def of_hash(text):
    ratio, = find(r'^ratio +([\d.]+)$', text)
    rate, = find(r'^ckbhash .* (\d+) MB/s$', text)
    return '%s (%s MB/s)' % (share(ratio, 'time'), rate), 'the same hash in plain C, clang -O2'


def of_exec(text):
    # a head may have one space; the mean has no steps
    heads = re.split(' {2,}', find(r'^workload +steps +(.*)$', text)[0])
    mean = dict(zip(heads, find(r'^geometric mean +(.*)$', text)[0].split()))
    return ('%s (%.1f ns a step)' % (share(mean['/rvref'], 'processor time'), float(mean['ckbdev'])),
            'a plain interpreter in C, the faster of gcc -O2 and clang -O2')


def of_scripts(text):
    own, = find(r'^start +tx_vectors +([\d.]+) microseconds', text)
    others = re.findall(r'^start +rvref \w+ +([\d.]+) microseconds', text, re.MULTILINE)
    return ('%.1f µs for three instructions' % float(own),
            '%.1f µs of that interpreter, which resolves nothing' % min(map(float, others)))


def of_importing(text):
    rows = [line.split() for line in text.splitlines()]
    of_blocks = {row[0]: row for row in rows if len(row) == 13}
    parts = []
    for blocks in ('20000', '2000'):
        if blocks not in of_blocks:
            raise Failed('what was printed has no row of %s blocks' % blocks)
        # cpu us and cpu ratio are columns of its table
        parts.append((of_blocks[blocks][8], of_blocks[blocks][3]))
    (long, of_long), (short, of_short) = parts
    return ('%s (%s µs a block); %s times (%s µs)' % (share(long, 'processor time'), of_long, short, of_short),
            'a floor in plain C: one hash, the same writes and syncs, and the line')


def of_transactions(text):
    return '%.0f µs a transaction' % float(find(r'a block, ([\d.]+) us a transaction$', text)[0]), ''


def of_assemble(text):
    own, beside = find(r'of the processor, import [\d.]+ ms, ([\d.]+) us and ([\d.]+) us a transaction$', text)
    return '%s (%.0f µs a transaction)' % (share(find(r'^ratio ([\d.]+)$', text)[0], 'processor time'), float(own)), (
        'the `import` of the block that it makes (%.0f µs)' % float(beside))


def of_branches(text):
    steps = [float(row[5]) for row in map(str.split, text.splitlines()) if len(row) == 6 and row[0].isdigit()]
    if not steps:
        raise Failed('what was printed has no steps')
    return ('%.1f to %.1f µs for each block between the two, on chains of 2,000 and of 20,000 blocks'
            % (min(steps), max(steps)), '')


def of_opening(text):
    own, floor = find(r'^tip ([\d.]+) ms, the floor ([\d.]+) ms', text)
    peak, = find(r'^peak of tip ([\d.]+) MB', text)
    return ('%.0f ms, %.0f MB of memory' % (float(own), float(peak)),
            '%.0f ms of a floor in plain C that reads the log and hashes each header, and knows no cells' % float(floor))


def of_peak(text):
    peaks = find(r'^peak of import ([\d.]+) MB, of tip ([\d.]+) MB$', text)
    kept, = find(r'^kept ([\d.]+) MB', text)
    return '%.0f MB, %.0f MB' % tuple(map(float, peaks)), '%.0f MB kept' % float(kept)


# ------------------------------------------------------------------------------------------------ the rows

Figure = collections.namedtuple('Figure', 'what of')
# a script with its words but the program, the crate of the program, and the figures that it measures; some find the program themselves
Bench = collections.namedtuple('Bench', 'words program takes_rounds figures finds_program', defaults=[False])

BENCHES = {
    'hash': Bench(['hash.py'], 'ckbhash', True, [Figure('`ckbhash` of 500 MB', of_hash)]),
    'exec': Bench(['exec.py', '--only', workloads()], 'ckbdev', True,
                  [Figure('`exec`, geometric mean over seven workloads', of_exec)]),
    'scripts': Bench(['scripts.py'], 'tx_vectors', True,
                     [Figure('a script group of a transaction, from its code to its exit', of_scripts)]),
    'importing': Bench(['importing.py', '--plain', '--row', '--tmpfs'], 'ckbdev', True, [
        Figure('`import` of 20,000 small blocks in a row, the store in memory; of 2,000', of_importing),
        Figure('the same with 100 transactions a block, each with two inputs, two outputs and one script group', of_transactions)]),
    'assemble': Bench(['assemble.py'], 'ckbdev', True,
                      [Figure('`assemble` of 1,000 transfers, each with two inputs, two outputs and one script group', of_assemble)]),
    'branches': Bench(['branches.py'], 'ckbdev', True,
                      [Figure("`import` of a block on another branch than the tip's", of_branches)]),
    'opening': Bench(['opening.py'], 'ckbdev', True, [Figure('opening a store of 20,000 blocks', of_opening)]),
    'peak': Bench(['peak.py'], 'ckbdev', False,
                  [Figure('peak memory of `import` and of `tip`, 500 blocks of 597,000 bytes', of_peak)]),
    'cells': Bench(['cells.py'], 'tx_vectors', False, [], True),
    'queries': Bench(['queries.py'], 'ckbdev', True, []),
    'index': Bench(['index.py'], 'ckbdev', True, []),
    'snapshots': Bench(['snapshots.py'], 'ckbdev', True, []),
    'json_text': Bench(['json_text.py'], 'rule_vectors', False, [], True),
    'start': Bench(['start.py'], 'machine_vectors', True, []),
    'hostile': Bench(['hostile.py'], 'ckbdev', True, []),
    'ids': Bench(['ids.py'], 'ckbdev', True, []),
    'named': Bench(['named.py', '--only', 'headers'], 'ckbdev', True, []),
}


def measured(bench, rounds):
    """The rows of a script, by their first cells, and its status."""
    script, *words = bench.words
    program = built(bench.program)
    words = [sys.executable, os.path.join(HERE, script), *([] if bench.finds_program else [program]), *words]
    if rounds and bench.takes_rounds:
        words += ['--rounds', str(rounds)]
    ran = subprocess.run(words, cwd=TOP, stdin=subprocess.DEVNULL, stdout=subprocess.PIPE, text=True)
    sys.stderr.write(ran.stdout)
    if 'WRONG' in ran.stdout:
        raise Failed('a run printed something wrong')
    day = datetime.date.today().isoformat()
    rows = {it.what: '| %s | %s | %s | %s |\n' % (it.what, *it.of(ran.stdout), day) for it in bench.figures}
    return rows, ran.returncode


def rows_of(page):
    """The rows of the table in a page, by their first cells, and what stands around them."""
    before, rest = page.split(BEGIN + HEAD)
    table, after = rest.split(END, 1)
    return before, {line.split(' | ')[0][2:]: line for line in table.splitlines(keepends=True)}, after


def write(rows):
    with open(README, encoding='utf-8') as f:
        before, stand, after = rows_of(f.read())
    stand.update(rows)
    kept = [stand[it.what] for bench in BENCHES.values() for it in bench.figures if it.what in stand]
    with open(README, 'w', encoding='utf-8') as f:
        f.write(before + BEGIN + HEAD + ''.join(kept) + END + after)


def main():
    a = argparse.ArgumentParser(description=__doc__.split('\n')[0])
    a.add_argument('--only', help='some of %s, with commas between' % ', '.join(BENCHES))
    a.add_argument('--rounds', type=int, help='in place of the number of each script')
    a.add_argument('--write', action='store_true', help='into the README')
    a = a.parse_args()
    names = a.only.split(',') if a.only else list(BENCHES)
    for name in set(names) - set(BENCHES):
        sys.exit('all.py: there is no %s' % name)
    rows, status = {}, 0
    for name in names:
        try:
            made, ended = measured(BENCHES[name], a.rounds)
        except Failed as failed:
            print('all.py: %s: %s' % (name, failed), file=sys.stderr)
            status = 1
            continue
        rows.update(made)
        if ended:
            print('all.py: %s: ended with status %d: a limit is passed' % (name, ended), file=sys.stderr)
            status = 1
    print(HEAD + ''.join(rows.values()), end='')
    if a.write:
        write(rows)
    return status


if __name__ == '__main__':
    sys.exit(main())
