#!/usr/bin/env python3
"""The memory of `import` and of opening, beside the blocks that a node holds.

    python3 bench/peak.py CKBDEV [--blocks 500] [--bytes 597000] [--disk FOLDER]

A generated chain (chaingen.py) of blocks of the given size goes through `import`
into a new store, and `tip` opens it. Every line is checked. The last lines have
the peaks of resident memory and what they may be: 60 MB beside the 64 blocks
that a node holds. Above that the status is 1. A MB is 10^6 bytes.

--disk FOLDER  where the store is made (default: /dev/shm where that is there,
               so that no disk is waited for)
"""

import argparse
import os
import shutil
import subprocess
import sys
import tempfile

sys.dont_write_bytecode = True
import chaingen  # noqa: E402

# the blocks that a node holds in memory (docs/STORE.md, "Kept blocks read by their places")
HELD = 64


def write(path, content):
    with open(path, 'wb') as f:
        f.write(content)


def peak_of(words, given, text):
    """The peak in bytes. A small process runs the program, so that the peak is not
    that of this one, which a new process has until it starts a program."""
    runner = ('import os, resource, subprocess, sys\n'
              'p = subprocess.run(sys.argv[1:])\n'
              'print(resource.getrusage(resource.RUSAGE_CHILDREN).ru_maxrss, file=sys.stderr)\n'
              'sys.exit(p.returncode)\n')
    with open(given, 'rb') as f:
        p = subprocess.run([sys.executable, '-c', runner, *words], stdin=f, capture_output=True, text=True)
    if p.returncode != 0:
        sys.exit('%s ended with status %d' % (words[-1], p.returncode))
    if p.stdout != text:
        sys.exit('the lines of %s are not those that must come' % words[-1])
    return int(p.stderr.split()[-1]) * 1024


def main():
    a = argparse.ArgumentParser(description=__doc__.split('\n')[0])
    a.add_argument('ckbdev')
    a.add_argument('--blocks', type=int, default=500)
    a.add_argument('--bytes', type=int, default=597000)
    a.add_argument('--disk', default='/dev/shm' if os.path.isdir('/dev/shm') else None)
    a = a.parse_args()
    program = os.path.abspath(shutil.which(a.ckbdev) or a.ckbdev)
    # a script that builds the program at its first use does so here
    subprocess.run([program, '/dev/null/any', 'tip'], stdin=subprocess.DEVNULL, stdout=subprocess.DEVNULL)
    spec, genesis, blocks, kept, tip = chaingen.make(0, a.blocks, plain=True, block_bytes=a.bytes)
    named = ['%d 0x%s\n' % (number, top.hex()) for number, top in kept]
    size = len(genesis) + sum(map(len, blocks))
    most = HELD * max(map(len, blocks)) + 60e6
    with tempfile.TemporaryDirectory() as work, tempfile.TemporaryDirectory(dir=a.disk) as folder:
        given = os.path.join(work, 'given')
        write(given, spec + genesis)
        peak_of([program, folder, 'init'], given, 'genesis' + named[0][1:])
        write(given, b''.join(blocks))
        peaks = [peak_of([program, folder, 'import'], given, ''.join('joined ' + it for it in named[1:])),
                 peak_of([program, folder, 'tip'], os.devnull, 'tip ' + named[tip])]
    print('kept %.1f MB, at most %.1f MB' % (size / 1e6, most / 1e6))
    print('peak of import %.1f MB, of tip %.1f MB' % tuple(it / 1e6 for it in peaks))
    return 0 if max(peaks) <= most else 1


if __name__ == '__main__':
    sys.exit(main())
