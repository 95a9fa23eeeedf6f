#!/usr/bin/env python3
"""Makes what devnet.sh makes a chain of: a specification, a genesis with funded accounts, and the first blocks.

    python3 examples/make_devnet.py FOLDER [LOCK]
        store.bin       an input of `init`
        blocks.bin      an input of `import`: ten blocks, as mine.py mines them

LOCK is a lock that opens by a signature, as examples/signature builds one. Without it the accounts' cells have the lock
of all, with the same args, so that anyone may spend them. Anyone can work out the keys. What is printed names the
accounts and the outputs of the genesis: the hash of its transaction and the number of one are the words of `cell`.
"""

import dataclasses
import os
import sys

HERE = os.path.dirname(os.path.abspath(__file__))
sys.path.insert(0, os.path.join(HERE, 'signature'))
import make_store as store  # noqa: E402 (beside the path above)
import secp256k1  # noqa: E402
from encoding import ckbhash, script  # noqa: E402

ACCOUNTS, BLOCKS = 3, 10
FUNDS = 1_000_000 * store.SHANNONS
# the start of 2026
TIMESTAMP = 1767225600000
SPEC = store.Spec()


class Account:
    def __init__(self, number, code):
        self.number = number
        self.key = int.from_bytes(ckbhash(b'account %d of a development chain' % number), 'big') % secp256k1.ORDER
        self.args = ckbhash(secp256k1.public_key(self.key))[:20]
        self.lock = script(ckbhash(code or store.PROGRAM), args=self.args)

    def lines(self, index):
        yield 'account %d' % self.number
        yield '  key 0x%064x' % self.key
        yield '  args 0x%s' % self.args.hex()
        yield '  lock hash 0x%s' % ckbhash(self.lock).hex()
        yield '  output %d: %d shannons' % (index, FUNDS)


class Chain:
    """The genesis, with the code of the lock where there is one, and the cells of the accounts after it."""

    def __init__(self, code):
        self.code = code
        self.accounts = [Account(number, code) for number in range(ACCOUNTS)]
        outputs = [(store.occupied(code), code)] if code else []
        self.genesis = store.genesis(SPEC, TIMESTAMP, outputs + [(FUNDS, b'', it.lock) for it in self.accounts])

    def blocks(self):
        """Each with the least timestamp that the rules allow."""
        blocks = [self.genesis]
        while len(blocks) <= BLOCKS:
            times = sorted(it.timestamp for it in blocks)
            # of an even count the median is the later of the two in the middle: docs/RULES.md, "Since and time"
            blocks.append(dataclasses.replace(store.child(SPEC, blocks[-1]), timestamp=times[len(times) // 2] + 1))
        return blocks[1:]

    def lines(self):
        yield 'the transaction of the genesis 0x%s' % ckbhash(self.genesis.transactions[0].raw()).hex()
        yield 'the lock of all, by which anyone may spend'
        yield '  lock hash 0x%s' % ckbhash(store.LOCK).hex()
        yield '  code hash 0x%s' % ckbhash(store.PROGRAM).hex()
        yield '  output 0: its code'
        yield '  output 1: %d shannons' % store.COIN
        if self.code:
            yield 'the lock by a signature'
            yield '  code hash 0x%s' % ckbhash(self.code).hex()
            yield '  output 2: its code'
        for place, it in enumerate(self.accounts, 3 if self.code else 2):
            yield from it.lines(place)


def main():
    folder, *locks = sys.argv[1:]
    code = b''
    for it in locks:
        with open(it, 'rb') as file:
            code = file.read()
    chain = Chain(code)
    store.write(os.path.join(folder, 'store.bin'), SPEC.item() + chain.genesis.item())
    store.write(os.path.join(folder, 'blocks.bin'), b''.join(it.item() for it in chain.blocks()))
    print(*chain.lines(), sep='\n')


if __name__ == '__main__':
    main()
