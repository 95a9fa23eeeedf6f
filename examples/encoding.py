"""The encodings of docs/FORMATS.md, and the hashes and roots of docs/RULES.md, in plain Python.

The scripts here, in tests/ and in bench/ write and read with these alone. They owe
nothing to the program: the hash is Python's own Blake2b.
"""

import hashlib

ZERO_HASH = bytes(32)


# ---------------------------------------------------------------- Molecule

def uint(value, size):
    return value.to_bytes(size, 'little')


def number_of(content):
    return int.from_bytes(content, 'little')


def table(fields):
    """A table of these fields, or a dynvec of these items."""
    offset = 4 + 4 * len(fields)
    offsets = []
    for field in fields:
        offsets.append(uint(offset, 4))
        offset += len(field)
    return uint(offset, 4) + b''.join(offsets) + b''.join(fields)


def fields_of(content):
    """The fields of a table, or the items of a dynvec."""
    if len(content) == 4:
        return []
    first = number_of(content[4:8])
    offsets = [number_of(content[at:at + 4]) for at in range(4, first, 4)] + [len(content)]
    return [content[start:end] for start, end in zip(offsets, offsets[1:])]


def fixvec(items):
    return uint(len(items), 4) + b''.join(items)


def items_of(content, size):
    """The items of a fixvec, each of this size."""
    return [content[4 + at * size:4 + (at + 1) * size] for at in range(number_of(content[:4]))]


def as_bytes(content):
    return uint(len(content), 4) + content


# -------------------------------------------------------- hashes and roots

def ckbhash(message):
    return hashlib.blake2b(message, digest_size=32, person=b'ckb-default-hash').digest()


def data_hash(content):
    return ckbhash(content) if content else ZERO_HASH


def hash_of_all(parts):
    """That of proposal ids, or of the hashes of uncles."""
    return ckbhash(b''.join(parts)) if parts else ZERO_HASH


def root(items):
    """The Merkle root of RFC 0006."""
    if not items:
        return ZERO_HASH
    nodes = [b''] * (len(items) - 1) + list(items)
    for i in range(len(items) - 2, -1, -1):
        nodes[i] = ckbhash(nodes[2 * i + 1] + nodes[2 * i + 2])
    return nodes[0]


def transactions_root(transactions):
    """The root that a header commits to: of the hashes without and with witnesses."""
    return root([root([ckbhash(fields_of(it)[0]) for it in transactions]), root(list(map(ckbhash, transactions)))])


# ------------------------------------------------------------ transactions

def out_point(tx_hash, index):
    return tx_hash + uint(index, 4)


NULL_OUT_POINT = out_point(ZERO_HASH, 0xffffffff)


def cell_input(point, since=0):
    return uint(since, 8) + point


def script(code_hash, hash_type=0, args=b''):
    return table([code_hash, uint(hash_type, 1), as_bytes(args)])


def cell_output(capacity, lock, type_script=b''):
    return table([uint(capacity, 8), lock, type_script])


def raw_transaction(inputs, outputs=(), data=(), deps=(), headers=(), version=0):
    """A transaction without its witnesses, of encoded inputs, outputs and deps."""
    return table([uint(version, 4), fixvec(deps), fixvec(headers), fixvec(inputs), table(outputs),
                  table([as_bytes(it) for it in data])])


def transaction(raw, witnesses=()):
    return table([raw, table([as_bytes(it) for it in witnesses])])


# ------------------------------------------------------------------ blocks

def header(number=0, parent_hash=ZERO_HASH, *, version=0, compact_target=0, timestamp=0, epoch=0,
           transactions_root=ZERO_HASH, proposals_hash=ZERO_HASH, uncles_hash=ZERO_HASH, dao=(0, 0, 0, 0), nonce=0):
    """A header; `dao` is C, AR, S and U."""
    return (uint(version, 4) + uint(compact_target, 4) + uint(timestamp, 8) + uint(number, 8) + uint(epoch, 8)
            + parent_hash + transactions_root + proposals_hash + uncles_hash + b''.join(uint(it, 8) for it in dao)
            + uint(nonce, 16))


def uncle(head, ids=()):
    return table([head, fixvec(ids)])


def block(head, transactions=(), ids=(), uncles=()):
    """A block of encoded transactions and uncles, and the ids that it proposes."""
    return table([head, table(uncles), table(transactions), fixvec(ids)])
