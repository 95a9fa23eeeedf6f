"""The cost of `exec` on files that were made to be slow to load.

    python3 hostile.py CKBDEV [--rounds 3] [--write FOLDER]

CKBDEV is the program, run as `CKBDEV x exec BUDGET < FILE`; `-` prints the
wanted lines alone.  Each file has 18,723 program headers, the most that fit
into 1 MiB:

    copies  each of them copies the whole file, 19.6 GB in all
    zeros   the first 1,023 write a byte each, to a page each; the others have
            no bytes in the file and make all of memory zero

Loading costs a cycle for four bytes that are copied, so with these budgets
`copies` is spent without a copy, and `zeros` costs 256 cycles.  The wanted
line is worked out here from the rules of docs/MACHINE.md.  The time is the
elapsed one of a whole run, the least of the rounds; above 0.2 s the status is 1.
"""

import argparse
import os
import shutil
import struct
import subprocess
import sys
import time

MEMORY, PAGE, FILE_LIMIT = 4194304, 4096, 1048576
HEADER, PROGRAM_HEADER = 64, 56
HEADERS = (FILE_LIMIT - HEADER) // PROGRAM_HEADER
RUN, WRITE, READ = 1, 2, 4
MOST = 0.2


def segment(flags, offset, address, file_size, memory_size):
    return struct.pack('<IIQQQQQQ', 1, flags, offset, address, address, file_size, memory_size, PAGE)


def elf(headers, entry=0):
    """A file of FILE_LIMIT bytes with these program headers."""
    head = b'\x7fELF' + bytes([2, 1, 1]) + bytes(9)
    head += struct.pack('<HHIQQQIHHHHHH', 2, 243, 1, entry, HEADER, 0, 0,
                        HEADER, PROGRAM_HEADER, len(headers), 0, 0, 0)
    return (head + b''.join(headers)).ljust(FILE_LIMIT, b'\0')


def copies():
    return elf([segment(READ | WRITE, 0, 0, FILE_LIMIT, FILE_LIMIT)] * HEADERS)


def zeros():
    written = [segment(READ | WRITE, 0, page * PAGE, 1, 1) for page in range(1023)]
    cleared = segment(READ | WRITE, 0, 0, 0, MEMORY)
    return elf(written + [cleared] * (HEADERS - len(written)))


def line(file, budget):
    """The line of `exec`, as far as these files go: their first step is a fault."""
    number = lambda at, size: int.from_bytes(file[at:at + size], 'little')
    if len(file) < HEADER:
        return 'bad elf 1'
    if file[:4] != b'\x7fELF':
        return 'bad elf 2'
    if file[4] != 2 or file[5] != 1 or number(18, 2) != 243:
        return 'bad elf 3'
    start, count = number(32, 8), number(56, 2)
    if count and number(54, 2) != PROGRAM_HEADER or start + PROGRAM_HEADER * count > len(file):
        return 'bad elf 4'
    code, data, copied = set(), set(), 0
    for at in range(start, start + PROGRAM_HEADER * count, PROGRAM_HEADER):
        if number(at, 4) != 1:
            continue
        flags, offset, address = number(at + 4, 4), number(at + 8, 8), number(at + 16, 8)
        file_size, memory_size = number(at + 32, 8), number(at + 40, 8)
        if not flags & READ or flags & RUN and flags & WRITE:
            return 'bad elf 5'
        if file_size > memory_size or offset + file_size > len(file):
            return 'bad elf 6'
        if address + memory_size > MEMORY:
            return 'bad elf 7'
        last = (address + memory_size - 1) // PAGE
        pages = set(range(address // PAGE, last + 1)) if memory_size else set()
        if pages & code or flags & RUN and pages & data:
            return 'bad elf 8'
        if flags & RUN:
            code |= pages
        else:
            data |= pages
        copied += file_size
    cost = (copied + 3) // 4
    if cost > budget:
        return 'spent'
    entry = number(24, 8)
    if entry % 2:
        return 'fault 4 %d' % cost
    if entry + 2 > MEMORY:
        return 'fault 1 %d' % cost
    if entry // PAGE not in code:
        return 'fault 3 %d' % cost
    raise ValueError('the file has code to run')


FILES = [('copies', copies, 0), ('copies', copies, 4908122111), ('zeros', zeros, 256), ('zeros', zeros, 255)]


def main():
    a = argparse.ArgumentParser(description=__doc__.split('\n')[0])
    a.add_argument('ckbdev', help='the program, or - for the wanted lines alone')
    a.add_argument('--rounds', type=int, default=3)
    a.add_argument('--write', metavar='FOLDER', help='write the files there as well')
    a = a.parse_args()
    made = {name: make() for name, make, _ in FILES}
    if a.write:
        for name, file in made.items():
            with open(os.path.join(a.write, name + '.elf'), 'wb') as f:
                f.write(file)
    own = None
    if a.ckbdev != '-':
        own = os.path.abspath(shutil.which(a.ckbdev) or a.ckbdev)
        if not os.access(own, os.X_OK):
            sys.exit('there is no program %s' % a.ckbdev)
    status = 0
    for name, _, budget in FILES:
        wanted = line(made[name], budget)
        if not own:
            print('%-8s %12d  %s' % (name, budget, wanted))
            continue
        best = None
        for _ in range(a.rounds):
            begin = time.perf_counter()
            p = subprocess.run([own, 'x', 'exec', str(budget)], input=made[name], capture_output=True)
            used = time.perf_counter() - begin
            best = used if best is None else min(best, used)
            if p.returncode or p.stdout.decode() != wanted + '\n':
                print('WRONG: %s prints %r, status %d; wanted %r'
                      % (name, p.stdout[:100], p.returncode, wanted))
                status = 1
        print('%-8s %12d  %-12s %.3f s' % (name, budget, wanted, best))
        if best > MOST:
            status = 1
    return status


if __name__ == '__main__':
    sys.exit(main())
