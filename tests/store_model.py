"""The bytes of a store by docs/STORE.md: the log with its exts, rows, snapshots, and what a crash may leave of a write.

It reads blocks as bench/chaingen.py makes them, in which no cell has a type script and each transaction after the
cellbase spends one cell. It takes nothing from the program.
"""

import functools

from encoding import as_bytes, ckbhash, data_hash, fields_of, fixvec, items_of, number_of, uint

SHANNONS = 10 ** 8


def record(kind, body):
    """A record of a log, from its open gate on."""
    return b'\1' + bytes([kind]) + as_bytes(body)


def over(at, new, old):
    """Bytes written over others, and past their end."""
    return old[:at] + new + old[at + len(new):]


def row(point, block, transaction, output, data):
    """That of an output with its data, which the transaction at a place of a kept block made."""
    capacity, lock, type_script = fields_of(output)
    assert not type_script
    code_hash, hash_type, args = fields_of(lock)
    occupied = len(capacity) + len(code_hash) + len(hash_type) + len(args) - 4 + len(data)
    return (point + uint(block, 4) + uint(transaction, 4) + capacity + uint(occupied * SHANNONS, 8) + ckbhash(lock)
            + b'\0' + bytes(32) + data_hash(data) + uint(len(data), 4))


def amount_of(found):
    """What a row says that its cell holds."""
    return number_of(found[44:52])


def balance_of(rows, lock):
    """How many rows are of a lock, and what they hold together."""
    amounts = [amount_of(it) for it in rows if it[60:92] == lock]
    return len(amounts), sum(amounts)


def in_order(point):
    """The order of rows: by the bytes of the hash, then by the index as a number."""
    return point[:32], number_of(point[32:])


class Chain:
    """Kept blocks by their places, the genesis at 0."""

    def __init__(self, spec, genesis, blocks):
        self.init = spec + genesis
        self.spec = spec
        self.blocks = [genesis, *blocks]
        headers = [fields_of(it)[0] for it in self.blocks]
        self.hashes = [ckbhash(it) for it in headers]
        self.numbers = [number_of(it[16:24]) for it in headers]
        places = {it: place for place, it in enumerate(self.hashes)}
        self.parents = [0] + [places[it[32:64]] for it in headers[1:]]
        self.events = [self.events_of(place) for place in range(len(self.blocks))]

    def events_of(self, place):
        """Of each transaction of a block the out-points that it spends, and those that it makes with their rows."""
        found = []
        for at, item in enumerate(fields_of(fields_of(self.blocks[place])[2])):
            raw = fields_of(item)[0]
            _, _, _, inputs, outputs, data = fields_of(raw)
            # what a cellbase has in the place of an input is no cell
            spends = [it[8:] for it in items_of(inputs, 44)] if at else []
            name = ckbhash(raw)
            points = [name + uint(index, 4) for index in range(len(fields_of(outputs)))]
            found.append((spends, [(point, row(point, place, at, output, content[4:]))
                                   for point, output, content in zip(points, fields_of(outputs), fields_of(data))]))
        return found

    def tip(self, count):
        """The place of the tip after so many blocks: of the highest the first."""
        return max(range(count + 1), key=lambda at: (self.numbers[at], -at))

    def line(self, word, place):
        return b'%s %d 0x%s\n' % (word, self.numbers[place], self.hashes[place].hex().encode())

    def known(self, place):
        return b'known 0x%s\n' % self.hashes[place].hex().encode()

    def take(self, cells, place):
        """Takes the events of a block, and answers the rows that it spends."""
        spent = []
        for spends, makes in self.events[place]:
            spent += [cells.pop(it) for it in spends]
            cells.update(makes)
        return spent

    def live_cells(self, place):
        """The rows of the live cells on a block's branch by their out-points: a replay from the genesis."""
        branch = [place]
        while branch[-1]:
            branch.append(self.parents[branch[-1]])
        cells = {}
        for it in reversed(branch):
            self.take(cells, it)
        return cells

    def balances(self, lock):
        """At the tip after each block how many cells have a lock, by its hash, and the shannons that they hold: a replay, block by
        block along the tip's branch."""
        cells, at, found = self.live_cells(0), 0, []
        balance = balance_of(cells.values(), lock)
        for place in range(len(self.blocks)):
            if self.tip(place) == place and place:
                if self.parents[place] == at:
                    gone = self.take(cells, place)
                    come = [it for _, makes in self.events[place] for _, it in makes]
                    balance = tuple(was + more - less for was, more, less
                                    in zip(balance, balance_of(come, lock), balance_of(gone, lock)))
                else:
                    cells = self.live_cells(place)
                    balance = balance_of(cells.values(), lock)
                at = place
            found.append(balance)
        return found

    @functools.cached_property
    def exts(self):
        """Of each block what its transactions pay, and the rows of the cells that it spends."""
        found, cells, at = [b''], self.live_cells(0), 0
        for place in range(1, len(self.blocks)):
            if self.parents[place] != at:
                cells = self.live_cells(self.parents[place])
            spent, at = self.take(cells, place), place
            made = [sum(amount_of(it) for _, it in makes) for _, makes in self.events[place][1:]]
            assert len(spent) == len(made)
            fees = [uint(amount_of(it) - after, 8) for it, after in zip(spent, made)]
            found.append(fixvec(fees) + fixvec(spent))
        return found

    def body(self, place):
        """That of a block's record."""
        return as_bytes(self.blocks[place]) + self.exts[place]

    @functools.lru_cache(maxsize=None)
    def log(self, count):
        """The log with so many blocks, up to its end."""
        return (b'CKBDEV01' + record(1, self.spec) + record(2, self.blocks[0])
                + b''.join(record(3, self.body(at)) for at in range(1, count + 1)))

    @functools.lru_cache(maxsize=None)
    def snapshot(self, number, tip):
        """The snapshot with a number, of the block at a place, after its open gate."""
        cells = self.live_cells(tip)
        return (b'\1' + uint(number, 4) + uint(tip, 4) + self.hashes[tip] + uint(len(cells), 8)
                + b''.join(cells[it] for it in sorted(cells, key=in_order)))

    def cell_line(self, cells, point):
        """What `cell` prints of an out-point over these live cells."""
        it = cells.get(point)
        if it is None:
            return b'none\n'
        numbers = amount_of(it), number_of(it[52:60]), self.numbers[number_of(it[36:40])]
        return b'live %d %d %d 0x%s - 0x%s %d\n' % (*numbers, it[60:92].hex().encode(), it[125:157].hex().encode(),
                                                    number_of(it[157:]))

    @functools.lru_cache(maxsize=None)
    def answers(self, count, other=0):
        """Out-points that a wrong set of live cells would lack or have, with what `cell` prints of each after so many
        blocks: those that the newest blocks made, on the tip's branch and on that of the tip after fewer blocks."""
        points = [point for point, _ in self.events[self.tip(count)][0][1]]
        for place in dict.fromkeys((self.tip(count), count, self.tip(other or count))):
            coins = []
            while len(coins) < 2:
                coins += [point for spends, makes in self.events[place] if spends for point, _ in makes]
                place = self.parents[place]
            points += coins
        cells = self.live_cells(self.tip(count))
        return [(it, self.cell_line(cells, it)) for it in dict.fromkeys(points)]


# ------------------------------------------------------------------- a crash

def torn(at, new, old):
    """What a crash may leave of an area in which bytes were written at a place and not synced: no byte of the range need be
    what was there or what was written, and the area ends somewhere between its two ends."""
    whole, half = over(at, new, old), at + len(new) // 2
    yield old
    yield whole
    if len(new) > 1:
        # the first half, the second half, all but the middle
        yield over(at, new[:len(new) // 2], old)
        yield old[:at] + over(half - at, new[half - at:], old[at:half].ljust(half - at, b'\0')) + whole[at + len(new):]
        yield whole[:half - 1] + b'\xee\xee' + whole[half + 1:]
    for other in (b'\1', b'\xee'):
        yield over(at, other * len(new), old)
    # the area has grown, and nothing of what was written is there
    yield old + bytes(max(0, len(whole) - len(old)))
    if len(whole) > len(old) + 1:
        yield whole[:-1]


class Stops:
    """The calls of a disk one after the other, and the images that a crash at each may leave."""

    def __init__(self, areas):
        self.areas = dict(areas)
        self.images = []

    def durably(self, what, area, at, new):
        """A write and its sync: until that ends, what it leaves is torn."""
        for number, it in enumerate(dict.fromkeys(torn(at, new, self.areas[area]))):
            self.images.append(('%s, torn %d' % (what, number), {**self.areas, area: it}))
        self.areas[area] = over(at, new, self.areas[area])

    def append(self, end, body, kind=3):
        """A record more, where the log's records end."""
        whole = record(kind, body) + b'\0'
        self.durably('the record', 'log', end + 1, whole[1:])
        self.durably("the record's gate", 'log', end, whole[:1])

    def take_snapshot(self, area, snapshot):
        content = self.areas[area]
        if not content or content[:1] == b'\1':
            self.durably('the gate that is closed', area, 0, b'\0')
        self.durably('the snapshot', area, 1, snapshot[1:])
        self.durably("the snapshot's gate", area, 0, b'\1')
