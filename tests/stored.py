#!/usr/bin/env python3
"""The stored files that scripts make are what those make, byte for byte.

    python3 tests/stored.py

says which are not, and where; tests/edge.sh has it among its checks. The scripts run
side by side. Of a file of which they make a part, that part is compared.
"""

import concurrent.futures
import json
import os
import subprocess
import sys

from harness import TOP, Wrong, contract, first, must, must_be
import block_json

ROWS = os.path.join(TOP, 'tests', 'rows')
# rows that no script makes: from outside, or by hand
OTHERS = None
# the parts of each file, in order: the scripts of rows/ that make them
PARTS = {
    'crates/tx_vectors/stdin': ('live_cells', 'moves', 'transactions', 'script_groups'),
    'crates/rule_vectors/stdin': (OTHERS, 'sample_blocks', OTHERS, 'rule_blocks', 'windows', 'uncles', 'rewards', 'totals', 'json_items'),
    'crates/store_vectors/stdin': (OTHERS, 'kept_bodies', 'snapshots'),
    'crates/run_vectors/stdin': (OTHERS, 'branch_runs', 'snapshot_stops', 'stream_faults', 'audit_runs', 'edition_runs'),
    'tests/rows/runs.txt': (OTHERS, 'stopped_logs', 'rule_runs', OTHERS, 'reward_runs', OTHERS, 'dao_amounts', 'branch_runs',
                            'snapshot_runs', 'stream_faults', 'assembled_runs', 'audit_runs', 'index_runs', 'edition_runs'),
}
# of a script that makes both: the rows of lists of runs, and those of runs by themselves
ROWS_OF = {'crates/run_vectors/stdin': lambda row: is_of_list(row), 'tests/rows/runs.txt': lambda row: not is_of_list(row)}
# scripts that make no rows by themselves, or rows of a folder that is not here, or rows that are not stored
NO_PARTS = {'common', 'judge_runs', 'spec_items', 'told_chain', 'wrong_texts'}
# those that take longest begin first
SLOWEST = ('script_groups', 'moves', 'live_cells')


def is_of_list(row):
    """Whether a row of a run, or one that makes runs, is of a list: it has the columns of its streams."""
    columns = row.split(b'\t')
    return columns[0] in (b'list', b'faults', b'more') or len(columns) == 7


def stored(*names):
    with open(os.path.join(TOP, *names), 'rb') as f:
        return f.read()


def made(name):
    """The rows that a script makes."""
    ran = subprocess.run([sys.executable, os.path.join(ROWS, name + '.py')], stdin=subprocess.DEVNULL, capture_output=True)
    must(ran.returncode == 0, 'tests/rows/%s.py: %s' % (name, ran.stderr.decode()))
    return ran.stdout.splitlines(keepends=True)


def agreeing(rows, at, part):
    """How many rows from a place on are those of a part."""
    pairs = zip(rows[at:at + len(part)], part)
    return next((place for place, (row, wanted) in enumerate(pairs) if row != wanted), min(len(part), len(rows) - at))


def called(row):
    """What a row is called in a message: its first two columns, cut short."""
    return "'%s'" % ' '.join(it.decode(errors='replace')[:40] for it in row.rstrip(b'\n').split(b'\t')[:2])


def must_have_part(file, rows, at, exact, name, part):
    """The place after the part, which stands at a place or, if that is not exact, somewhere after it."""
    places = [at] if exact else [it for it in range(at, len(rows)) if rows[it] == part[0]] or [at]
    best = max(places, key=lambda it: agreeing(rows, it, part))
    agree = agreeing(rows, best, part)
    must(agree or exact, '%s has not the first row of tests/rows/%s.py' % (file, name))
    must(agree == len(part), '%s: line %d is not the row %s of tests/rows/%s.py'
         % (file, best + agree + 1, called(part[min(agree, len(part) - 1)]), name))
    return best + len(part)


def must_have_parts(file, parts, rows_of):
    rows, at, exact = stored(file).splitlines(keepends=True), 0, True
    is_here = ROWS_OF.get(file, lambda row: True)
    for name in parts:
        if name is not OTHERS:
            at = must_have_part(file, rows, at, exact, name, [it for it in rows_of[name].result() if is_here(it)])
        exact = name is not OTHERS
    must(at == len(rows) or not exact, '%s: from line %d on there is more than scripts make' % (file, at + 1))


# ---------------------------------------------------------------------- checks

def check_stored_rows(_):
    """The rows of tests: those of each script of rows/ stand in the file that it is for."""
    names = {name for parts in PARTS.values() for name in parts if name is not OTHERS}
    scripts = {it[:-3] for it in os.listdir(ROWS) if it.endswith('.py')}
    must_be(sorted(names), sorted(scripts - NO_PARTS), 'the scripts of tests/rows that a file is made by')
    with concurrent.futures.ThreadPoolExecutor(os.cpu_count()) as pool:
        rows_of = {name: pool.submit(made, name) for name in sorted(names, key=lambda it: it not in SLOWEST)}
        for file, parts in PARTS.items():
            must_have_parts(file, parts, rows_of)


def check_import_lines(_):
    """A second reading of the rules has the lines of the stored runs of `import` and `tip`."""
    ran = subprocess.run([sys.executable, os.path.join(TOP, 'tests', 'import_lines.py')], stdin=subprocess.DEVNULL,
                         capture_output=True)
    must(ran.returncode == 0, 'tests/import_lines.py: %s' % (ran.stdout + ran.stderr).decode())


def check_stored_samples(_):
    """The files of examples/ that its scripts make."""
    files = {'spec.bin': first.SPEC.item(), 'genesis.bin': first.GENESIS.item(),
             'witness.bin': contract.WITNESS, 'timed.bin': contract.TIMED.item,
             'genesis.json': json.dumps(block_json.tree_of(first.GENESIS.item()), indent=2).encode() + b'\n'}
    for name, items in (('first-blocks', first.first_blocks()[0]), ('contract-chain', contract.contract_chain()[0]),
                        ('transfer', [contract.transfer()]), ('refused', [contract.refused()])):
        files[name + '.bin'], files[name + '.txt'] = first.input_and_text(items)
    for name, wanted in files.items():
        must_be(stored('examples', name), wanted, 'examples/' + name)


def main():
    failed = 0
    for check in (check_stored_rows, check_stored_samples, check_import_lines):
        try:
            check(None)
        except (Wrong, OSError) as error:
            failed += 1
            print('stored: FAILED: %s' % error)
    if not failed:
        print('stored: ok')
    return failed


if __name__ == '__main__':
    sys.exit(main())
