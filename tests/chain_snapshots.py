"""Snapshots that imports take: their bytes, what is answered after them, and what a stop at each call of the disk leaves."""

import functools
import os

from harness import Ran, chaingen, line_of, must, must_answer, must_be, must_have_tip, new_folder, new_store, started, write
from store_model import Chain, Stops, over

FILES = {'log': 'log.bin', 'snap_a': 'snap_a.bin', 'snap_b': 'snap_b.bin'}
EVERY = 1000
# the last block before the other branch begins, how far below the tip then it parts, and where it is the tip's for good
PARTS, BELOW, OVER = 2950, 60, 3040
# the most bytes that an import of a block may read, and fewer than a replay of a thousand reads
MOST_READ, REPLAYED = 131072, 250000


def shape(count):
    """The places of the parents. Each 50th block is a sibling of the tip, and so the 1,000th; the 2,000th is none. From PARTS on
    blocks stand on each other, and the first of them BELOW blocks below the tip, which they pass after the 3,000th."""
    heights, parents, tip = [0], [0], 0
    for place in range(1, count + 1):
        if place > PARTS:
            parent = place - 1
            if place == PARTS + 1:
                parent = tip
                for _ in range(BELOW):
                    parent = parents[parent]
        else:
            parent = parents[tip] if place % 50 == 0 and place != 2 * EVERY else tip
        parents.append(parent)
        heights.append(heights[parent] + 1)
        if heights[place] > heights[tip]:
            tip = place
    return parents[1:]


@functools.lru_cache(maxsize=None)
def chain_of(count):
    spec, genesis, blocks, _, _ = chaingen.make(0, count, stands_on=shape(count))
    return Chain(spec, genesis, blocks)


def area_of(number):
    return 'snap_a' if number % 2 else 'snap_b'


def areas(folder):
    """The bytes of the three files."""
    found = {}
    for area, name in FILES.items():
        with open(os.path.join(folder, name), 'rb') as f:
            found[area] = f.read()
    return found


def put(folder, image):
    for area, content in image.items():
        write(os.path.join(folder, FILES[area]), content)


def must_import(program, folder, chain, first, last, what, known=()):
    """The blocks from a place to another join, but for those that are known."""
    ran = Ran([program, folder, 'import'], b''.join(chain.blocks[first:last + 1]))
    lines = [chain.known(it) if it in known else chain.line(b'joined', it) for it in range(first, last + 1)]
    must_answer(ran, 0, b''.join(lines), what)


def must_answer_as_replayed(program, folder, chain, count, what):
    must_have_tip(program, folder, chain.line(b'tip', chain.tip(count)), what)
    for point, line in chain.answers(count, min(count, PARTS)):
        ran = Ran([program, folder, 'cell', '0x' + point[:32].hex(), str(int.from_bytes(point[32:], 'little'))])
        must_answer(ran, 0, line, what + ': cell')


def check_snapshots_of_a_chain(program):
    """One at each 1,000 blocks, in turns. After the third an opening that goes from it to another branch answers as a replay, and what
    it has then is the next snapshot."""
    chain = chain_of(4 * EVERY)
    must(chain.tip(EVERY) != EVERY and chain.tip(2 * EVERY) == 2 * EVERY, 'the first is of another block, the second of its own')
    must(chain.tip(3 * EVERY) < PARTS < chain.tip(OVER), 'the branch of the third is left after it')
    with new_store(program, chain.init, b'genesis 0x%s\n' % chain.hashes[0].hex().encode()) as folder:
        wanted = {'snap_a': b'', 'snap_b': b''}
        for number in (1, 2, 3, 4):
            due = number * EVERY
            for first, last in (((due - EVERY + 1, due - 1), (due, due)) if number < 4
                                else ((due - EVERY + 1, OVER), (OVER + 1, due - 1), (due, due))):
                if last == due:
                    area = area_of(number)
                    wanted[area] = over(0, chain.snapshot(number, chain.tip(due)), wanted[area])
                must_import(program, folder, chain, first, last, 'import up to %d' % last)
                found = areas(folder)
                for area, content in wanted.items():
                    must_be(found[area], content, '%s after %d blocks' % (area, last))
                if last == OVER:
                    must_answer_as_replayed(program, folder, chain, OVER, 'after the snapshot, on another branch')
                    without = {**found, 'snap_a': b'', 'snap_b': b''}
                    put(folder, without)
                    must_answer_as_replayed(program, folder, chain, OVER, 'without a snapshot')
                    put(folder, found)
        must_be(areas(folder)['log'], chain.log(4 * EVERY) + b'\0', 'the log')


def bytes_read(process):
    """How many bytes the calls of a process have read so far, as the system counts them."""
    with open('/proc/%d/io' % process.pid, encoding='ascii') as f:
        return int(next(line for line in f if line.startswith('rchar:')).split()[1])


def check_bytes_that_imports_read(program):
    """A block far from a snapshot reads little more than itself: no replay is hidden in it. An opening, which reads the log, does."""
    chain, first, last = chain_of(2 * EVERY), 2 * EVERY - 100, 2 * EVERY - 1
    with new_store(program, chain.init, b'genesis 0x%s\n' % chain.hashes[0].hex().encode()) as folder:
        must_import(program, folder, chain, 1, first - 1, 'import up to %d' % (first - 1))
        with started([program, folder, 'import']) as process:
            before = 0
            for at in range(first, last + 1):
                process.stdin.write(chain.blocks[at])
                must_be(line_of(process), chain.line(b'joined', at), 'block %d' % at)
                now = bytes_read(process)
                must(now - before > REPLAYED if at == first else now - before <= MOST_READ,
                     'block %d and what was before it read %d bytes' % (at, now - before))
                before = now


def check_stops_of_a_snapshot(program):
    """At each call of the disk in the import of the 3,000th block, over what the areas may hold before it: the store that is opened
    then answers as a replay of what its log keeps, and the blocks that are given again join or are known."""
    chain, count = chain_of(3 * EVERY + 1), 3 * EVERY
    log, old, other = chain.log(count - 1), chain.snapshot(1, chain.tip(EVERY)), chain.snapshot(2, chain.tip(2 * EVERY))
    before = {
        'both open': (old, other),
        'the other one open': (b'\0' + old[1:], other),
        'the same one open': (old, b'\7' + other[1:]),
        'none open': (b'\7' * 60, b''),
        'none written': (b'', b''),
        'a gate alone': (b'\1', b'\0'),
    }
    with new_folder() as folder:
        for what, (snap_a, snap_b) in before.items():
            stops = Stops({'log': log + b'\0', 'snap_a': snap_a, 'snap_b': snap_b})
            stops.append(len(log), chain.body(count))
            # what the log may hold is a matter of one row of this table
            if what != 'both open':
                stops.images.clear()
            stops.take_snapshot('snap_a', chain.snapshot(3, chain.tip(count)))
            for stop, image in stops.images + [('no stop', stops.areas)]:
                must_go_on(program, folder, chain, count, image, '%s, %s' % (what, stop))


def must_go_on(program, folder, chain, count, image, what):
    """The image may hold the block at this place as its last. Where it does not, the snapshot is taken when it joins."""
    put(folder, image)
    end = len(chain.log(count - 1))
    kept = image['log'][end:end + 1] == b'\1'
    must_answer_as_replayed(program, folder, chain, count if kept else count - 1, what)
    must_be(areas(folder), image, what + ': what the openings leave')
    must_import(program, folder, chain, count, count + 1, what, known=[count] if kept else [])
    wanted = {**image, 'log': over(0, chain.log(count + 1) + b'\0', image['log'])}
    if not kept:
        wanted['snap_a'] = over(0, chain.snapshot(3, chain.tip(count)), image['snap_a'])
    must_be(areas(folder), wanted, what + ': what the import leaves')
    must_have_tip(program, folder, chain.line(b'tip', chain.tip(count + 1)), what + ', after the next blocks')
