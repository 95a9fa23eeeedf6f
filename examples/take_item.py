#!/usr/bin/env python3
"""Takes one item out of an input of several, as of `import`.

    python3 examples/take_item.py N < BLOCKS | ./ckbtrace FOLDER import

N counts from 1, as the lines of `import` do. The status is 1 where there are fewer items,
or the input ends inside one.
"""

import argparse
import sys


def main():
    p = argparse.ArgumentParser(description='Takes one item out of an input of several.')
    p.add_argument('number', type=int)
    a = p.parse_args()
    for _ in range(a.number):
        # an item begins with its length, these four bytes included
        size = sys.stdin.buffer.read(4)
        rest = sys.stdin.buffer.read(max(int.from_bytes(size, 'little') - 4, 0))
        if len(size) < 4 or len(size) + len(rest) != int.from_bytes(size, 'little'):
            print('take_item: there is no whole item %d' % a.number, file=sys.stderr)
            return 1
    if a.number < 1:
        p.error('N is 1 or more')
    sys.stdout.buffer.write(size + rest)
    return 0


if __name__ == '__main__':
    sys.exit(main())
