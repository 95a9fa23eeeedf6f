#!/usr/bin/env python3
"""Takes the block out of what `assemble` printed, as an input of `import`.

    cat WITNESS TRANSACTION .. | ./ckbdev FOLDER assemble | python3 examples/take_block.py FILE

The text is read from standard input. The bytes of its block go to the file, and every
other line to standard output. The status is 1 where there is no block, and then the
file is not written.
"""

import argparse
import sys

BLOCK = 'block 0x'


def main():
    p = argparse.ArgumentParser(description='Takes the block out of what `assemble` printed.')
    p.add_argument('file')
    a = p.parse_args()
    lines = sys.stdin.read().splitlines()
    blocks = [it[len(BLOCK):] for it in lines if it.startswith(BLOCK)]
    for it in lines:
        if not it.startswith(BLOCK):
            print(it)
    if not blocks:
        return 1
    with open(a.file, 'wb') as f:
        f.write(bytes.fromhex(blocks[0]))
    return 0


if __name__ == '__main__':
    sys.exit(main())
