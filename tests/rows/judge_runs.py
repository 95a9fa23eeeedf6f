#!/usr/bin/env python3
"""Rows of tests/rows/runs.txt: whole runs over chains with blocks and transactions
of every form.

    python3 tests/rows/judge_runs.py FOLDER [CASE ..]

FOLDER has cases, a JSON file each: `ops` in order, each with the `words` of a
command (`init`, `import`, `check`, `tip` or `audit`), its input `in` in hex, its output
`out` and its `status`, and after it the SHA-256 of LOG up to where its records
end. Their answers were made from the rules, not by this program. The rows of each
CASE, a file's name without .json, go to standard output; where none is named, those
of all; the folder's own name stands before the case's. The stored rows are, of a
folder `judge` on all rules,

    chain_02 chain_03 chain_04 chain_05 chain_06 dao_03 headers_02 headers_03
    headers_04 special_00 special_03 special_04 special_12 special_17 syscalls_04
    tx_03 tx_05 tx_06 tx_07 tx_08 tx_10 tx_11 tx_17 tx_21 tx_22

and of a folder `field`, with rewards and DAO fields that break J31 and J32 or just
keep them,

    chain_10 chain_20 chain_38 dao_16 special_00 special_02 special_05 special_17
    special_26

and of a folder `supply`, in which `audit` is asked between imports of chains that burn,
deposit and withdraw,

    supply_00 supply_03 supply_12 supply_23 supply_29 supply_35
"""

import glob
import json
import os
import sys


def row_of(name, place, op):
    columns = ['%s %d' % (name, place), op['words'][1], str(op['status']), op['in'] or '-', op['out'].encode().hex() or '-']
    log = op.get('log')
    return columns + ['%d:%s' % (log['place'], log['sha256'])] if log else columns


def main():
    folder, names = sys.argv[1], sys.argv[2:]
    paths = [os.path.join(folder, it + '.json') for it in names] or sorted(glob.glob(os.path.join(folder, '*.json')))
    for path in paths:
        with open(path) as file:
            case = json.load(file)
        name = '%s %s' % (os.path.basename(os.path.normpath(folder)), os.path.splitext(os.path.basename(path))[0])
        print('folder\t%s' % name)
        for place, op in enumerate(case['ops']):
            print('\t'.join(row_of(name, place, op)))


if __name__ == '__main__':
    main()
