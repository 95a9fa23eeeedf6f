#!/usr/bin/env python3
"""Writes a transaction by which an account of devnet.sh pays another.

    python3 examples/pay.py FOLDER FROM TO CKB > payment.bin
    ./ckbdev FOLDER/chain check < payment.bin
    python3 examples/mine.py FOLDER/chain 0 payment.bin

FOLDER is that of devnet.sh, FROM and TO are numbers of its accounts. It spends cells that the account has at the tip, as
many as it takes, and signs them where the lock asks for that; what is left, but for a fee of 10,000 shannons, goes back. A
cell of an account holds 61 CKB at the least. The program runs once for each block, so a build is wanted.
"""

import os
import sys

import description
import make_devnet as devnet
import make_store as store
from encoding import as_bytes, cell_input, cell_output, ckbhash, out_point, raw_transaction, table, transaction, uint
from mine import BUILT, SCRIPT, is_built
from read_chain import Chain, Failed, Store, bytes_of
from secp256k1 import sign

FEE = 10000
LEAST = 61 * store.SHANNONS


def code_of(folder):
    """The lock that devnet.sh built, or nothing where it built none."""
    path = os.path.join(folder, 'lock.elf')
    return description.content_of(path, 'lock.elf') if os.path.exists(path) else b''


def cells_for(chain, account, amount):
    """Cells of the account that hold an amount, and as much more as is left in a cell, or nothing; and their capacity."""
    lock_hash, chosen, total = '0x' + ckbhash(account.lock).hex(), [], 0
    cells = [it for it in chain.live() if it.lock_hash == lock_hash and not it.type and it.data == '0x']
    for it in sorted(cells, key=lambda it: -it.capacity):
        if total == amount or total >= amount + LEAST:
            break
        chosen.append(it)
        total += it.capacity
    if total < amount or amount < total < amount + LEAST:
        raise Failed('account %d has %d shannons: that does not hold %d, and what is left over in a cell' % (
            account.number, total, amount))
    return chosen, total


def payment(chain, code, sender, receiver, capacity):
    """The transaction, with a witness where the lock asks for a signature."""
    cells, total = cells_for(chain, sender, capacity + FEE)
    outputs = [cell_output(capacity, receiver.lock)]
    if total > capacity + FEE:
        outputs.append(cell_output(total - capacity - FEE, sender.lock))
    program = out_point(bytes_of(chain.blocks[0].transactions[0].hash), 2 if code else 0)
    raw = raw_transaction([cell_input(out_point(bytes_of(it.point.hash), it.point.index)) for it in cells], outputs,
                          [b''] * len(outputs), [program + b'\0'])
    return transaction(raw, [witness(sign(sender.key, message(raw)))] if code else [])


def witness(signature):
    """A `WitnessArgs`."""
    return table([as_bytes(signature), b'', b''])


def message(raw):
    """What is signed (examples/signature): the other inputs of the group have no witnesses."""
    empty = witness(bytes(65))
    return ckbhash(ckbhash(raw) + uint(len(empty), 8) + empty)


def arguments():
    p = store.Words(description='Writes a transaction by which an account of devnet.sh pays another.')
    p.add_argument('folder', metavar='FOLDER', help='that of devnet.sh')
    for name in ('FROM', 'TO'):
        p.add_argument(name.lower(), metavar=name, help='the number of an account')
    p.add_argument('ckb', metavar='CKB', help='how much, 61 or more')
    p.add_argument('--program', help='the program to be run, in place of that of the checkout')
    return p, p.parse_args()


def account_of(text, where, code):
    number = description.number(text, where)
    if number >= devnet.ACCOUNTS:
        raise ValueError('%s: the accounts are 0 to %d' % (where, devnet.ACCOUNTS - 1))
    return devnet.Account(number, code)


def main():
    p, a = arguments()
    try:
        code = code_of(a.folder)
        sender, receiver = account_of(getattr(a, 'from'), 'FROM', code), account_of(a.to, 'TO', code)
        capacity = description.number(a.ckb, 'CKB') * store.SHANNONS
        if capacity < LEAST:
            raise ValueError('CKB: a cell of an account holds 61 CKB at the least')
        program = a.program or (BUILT if is_built() else SCRIPT)
        chain = Chain(Store(os.path.abspath(program), os.path.join(a.folder, 'chain')))
        content = payment(chain, code, sender, receiver, capacity)
    except ValueError as error:
        p.fails(error)
    except (Failed, OSError) as error:
        p.exit(getattr(error, 'status', 1), 'pay.py: %s\n' % error)
    if sys.stdout.isatty():
        p.fails('the bytes go to a file or a pipe')
    sys.stdout.buffer.write(content)


if __name__ == '__main__':
    main()
