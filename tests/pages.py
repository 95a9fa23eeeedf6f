"""Checks of what shows or sets up a chain for its reader: page.py on chains that the models make, devnet.sh and pay.py."""

import os
import re
import sys
import xml.etree.ElementTree as ElementTree

from harness import TOP, Ran, contract, first, must, must_be, new_folder
import assemble_model as model
import make_devnet as devnet
import paying_chain
import secp256k1
from assembling import contract_chain, runs, store_of
from encoding import cell_input, cell_output, ckbhash, number_of, out_point, raw_transaction, transaction
from make_store import SHANNONS

PAGE = [sys.executable, os.path.join(TOP, 'examples', 'page.py')]
PAY = [sys.executable, os.path.join(TOP, 'examples', 'pay.py')]
DEVNET = os.path.join(TOP, 'examples', 'devnet.sh')
RUSTC = os.path.join(TOP, 'examples', 'scripts', 'rust', 'rustc.sh')


# ----------------------------------------------------------------- the page

def text_of(element):
    return ''.join(element.itertext())


def hex_of(content):
    return '0x' + content.hex()


def in_ckb(shannons):
    return '%s CKB' % re.sub(r'\.?0+$', '', '{:,}.{:08d}'.format(shannons // SHANNONS, shannons % SHANNONS))


class Page:
    """What page.py writes of a folder: it is well formed, names are there once, and each link leads to one."""

    def __init__(self, program, folder):
        ran = Ran([*PAGE, folder, '--program', program])
        must_be((ran.status, ran.err), (0, b''), 'page.py')
        try:
            self.tree = ElementTree.fromstring(ran.out.decode())
        except ElementTree.ParseError as error:
            must(False, 'the page is not well formed: %s' % error)
        self.elements = {}
        for it in self.tree.iter():
            name = it.get('id')
            must(name is None or name not in self.elements, 'the name %s is there twice' % name)
            self.elements[name] = it
        for it in self.tree.iter('a'):
            must(it.get('href')[0] == '#' and it.get('href')[1:] in self.elements, 'the link %s leads nowhere' % it.get('href'))
        must(not any(it.get('src') or it.tag == 'script' for it in self.tree.iter()), 'the page takes something from elsewhere')

    def at(self, name):
        must(name in self.elements, 'the page has no %s' % name)
        return self.elements[name]

    def fact(self, number, name):
        """What stands beside a name under the head of a block."""
        items = list(self.at('block-%d' % number).find('dl'))
        return next(text_of(value) for it, value in zip(items, items[1:]) if text_of(it) == name)

    def boxes(self):
        """Where each block of the row begins, in pixels."""
        return {it.get('href'): int(re.match(r'left:(\d+)px', it.get('style'))[1])
                for it in self.tree.iter('a') if (it.get('class') or '').startswith('box')}

    def arrows(self):
        """(transaction, whether by an uncle, where the arrow begins and where it ends)"""
        for it in self.tree.iter('a'):
            for way in it.findall('path'):
                numbers = [float(word) for word in way.get('d').split() if word not in 'MC']
                yield it.get('href'), 'uncle' in way.get('class'), numbers[0], numbers[-2]


def must_have_blocks(page, branch):
    """Each block with its hash, transactions and uncles, here and in the row."""
    must_be(len(page.boxes()), len(branch), 'the count of blocks in the row')
    for block in branch:
        section = page.at('block-%d' % block.number)
        must('#block-%d' % block.number in page.boxes(), 'block %d is not in the row' % block.number)
        must_be(page.fact(block.number, 'hash'), hex_of(block.hash()), 'the hash of block %d' % block.number)
        wanted = ['tx-' + hex_of(tx_hash) for tx_hash, _ in transactions_of(block)]
        must_be([it.get('id') for it in section.findall('article')], wanted, 'the transactions of block %d' % block.number)
        for it in getattr(block, 'uncles', ()):
            must(hex_of(it.hash()) in page.fact(block.number, 'uncles'), 'block %d has not its uncle' % block.number)


def transactions_of(block):
    """The hash of each, and its outputs where a block after the genesis makes them."""
    if block.number == 0:
        return [(ckbhash(it.raw()), ()) for it in block.transactions]
    return model.cells_of(block)


def must_have_arrows(page, wanted):
    """Of each transaction, from the block that proposes it to the one that commits it."""
    found, boxes = [], page.boxes()
    for href, by_uncle, start, end in page.arrows():
        at = [next((int(name[7:]) for name, left in boxes.items() if left <= it <= left + 132), None) for it in (start, end)]
        found.append((href, *at, by_uncle))
    must_be(found, [('#tx-' + hex_of(it.hash), *others) for it, *others in wanted], 'the arrows')


def must_have_live_cells(page, chain):
    """Those of each lock in the order of their out-points, their count and their capacity, and of no other lock any."""
    by_lock = {}
    for point, cell in sorted(model.live_cells(chain.first, model.ancestors(chain.tip)).items(),
                              key=lambda it: (it[0][:32], number_of(it[0][32:]))):
        by_lock.setdefault(hex_of(cell.lock.hash()), []).append((point, cell.capacity))
    for name, element in page.elements.items():
        lock = (name or '').startswith('lock-') and name[5:]
        if not lock:
            continue
        rows = [[text_of(column) for column in row] for row in element.iter('tr')][1:]
        cells = by_lock.pop(lock, [])
        names = [('#cell-%s-%d' % (hex_of(point[:32]), number_of(point[32:])), in_ckb(capacity)) for point, capacity in cells]
        links = [it.get('href') for it in element.iter('a') if it.get('href').startswith('#cell-')]
        must_be(list(zip(links, (row[2] for row in rows))), names, 'the live cells of the lock %s' % lock)
        if cells:
            total = in_ckb(sum(it for _, it in cells))
            must_be([rows[-1][0].split()[0], rows[-1][2]], [str(len(cells)), total], 'what the lock %s has' % lock)
    must_be(by_lock, {}, 'locks that the page has not')


def must_be_live(page, chain):
    """Of each output the page says whether it is live."""
    live = model.live_cells(chain.first, model.ancestors(chain.tip))
    for name, element in page.elements.items():
        found = re.match(r'cell-0x(\w{64})-(\d+)$', name or '')
        if found:
            point = bytes.fromhex(found[1]) + int(found[2]).to_bytes(4, 'little')
            must_be(text_of(element).endswith(', live'), point in live, name + ' is live')


def check_page_of_a_contract(program):
    """The chain with a contract: fees, cycles, an uncle that proposes, and links from inputs to outputs."""
    chain = contract_chain()
    branch = model.ancestors(chain.tip)
    with store_of(program, chain) as folder:
        Ran([program, folder, 'import'], b''.join(it.item() for it in branch[1:]))
        page = Page(program, folder)
    must_have_blocks(page, branch)
    must_have_arrows(page, [(contract.FUNDS, 1, 3, False), (contract.SPENDS, 3, 5, False), (contract.SPENDS_ON, 7, 9, True)])
    must_have_live_cells(page, chain)
    must_be_live(page, chain)
    for it, fee in ((contract.FUNDS, '0.00001'), (contract.SPENDS, '0.00002'), (contract.SPENDS_ON, '0.00003')):
        element = page.at('tx-' + hex_of(it.hash))
        _, cycles = it.outcome(chain.spec.max_cycles).split()
        wanted = 'fee %s CKB, %s cycles, %s bytes' % (fee, '{:,}'.format(int(cycles)), '{:,}'.format(len(it.item)))
        must(wanted in text_of(element), '%s: not %s' % (it.hash.hex(), wanted))
        inputs = [link.get('href') for link in element.find('.//ol').iter('a') if link.get('href').startswith('#cell-')]
        spent = ['#cell-%s-%d' % (hex_of(point[:32]), number_of(point[32:])) for point in model.spent_by(it)]
        must_be(inputs, spent, 'what %s spends' % it.hash.hex())


def check_page_of_rewards(program):
    """What each block is paid, and where."""
    chain = runs.rewards_with_fees()
    branch = model.ancestors(chain.tip)
    with store_of(program, chain) as folder:
        Ran([program, folder, 'import'], b''.join(it.item() for it in branch[1:]))
        page = Page(program, folder)
    must_have_blocks(page, branch)
    must_have_live_cells(page, chain)
    for block in branch[1:]:
        paid_in = block.number + chain.spec.w_far + 1
        wanted = 'is paid in block %d' % paid_in
        if paid_in < len(branch):
            wanted = '%s in block %d' % (in_ckb(paying_chain.reward(chain.spec, branch, block.number)), paid_in)
        must_be(page.fact(block.number, 'reward'), wanted, 'the reward of block %d' % block.number)


def check_page_of_deposits(program):
    """A deposit, the cell that withdraws it, and neither; the fee of the withdrawal has the interest."""
    chain = runs.a_withdrawal()
    branch, deposit = model.ancestors(chain.tip), chain.first.outputs[2]
    used = deposit.occupied()
    with store_of(program, chain) as folder:
        for block in branch[1:]:
            Ran([program, folder, 'import'], block.item())
            page = Page(program, folder)
            rows = [[text_of(it) for it in row] for row in page.at('deposits').iter('tr')][1:]
            # the withdrawing cell of block 3 names block 1
            begun, ended, shown = (0, block, '') if block.number < 3 else (1, branch[3], 'block 3')
            counted = (deposit.capacity - used) * ended.dao[1] // branch[begun].dao[1] + used
            wanted = [[in_ckb(deposit.capacity), 'block %d' % begun, shown, in_ckb(counted)]] if block.number < 6 else []
            must_be([it[1:] for it in rows], wanted, 'the deposit at block %d' % block.number)
        end, = branch[6].commits
        must('fee 0.000001 CKB, 1,010 cycles' in text_of(page.at('tx-' + hex_of(end.hash))), 'the fee of the withdrawal')


def check_page_on_what_is_wrong(program):
    with new_folder() as empty:
        for words, status, why in (([empty], 7, b'`tip` ended with status 7'), ([], 2, b'FOLDER'), ([empty, '1'], 2, b'1')):
            ran = Ran([*PAGE, *words, '--program', program])
            must_be((ran.status, ran.out), (status, b''), 'page.py %r' % words)
            must(ran.err.count(b'\n') == 1 and why in ran.err, 'page.py %r: it does not say %r, but %r' % (words, why, ran.err))


# ---------------------------------------------------------------- devnet.sh

def check_devnet(program):
    """A chain of ten blocks with funded accounts; the blocks that are mined are those that make_devnet.py has."""
    chain = devnet.Chain(b'')
    tip = chain.blocks()[-1]
    with new_folder() as away:
        ran = Ran(['sh', DEVNET, 'net', '--without-signatures'], cwd=away)
        must_be(ran.status, 0, 'the status of devnet.sh')
        must(b'anyone may spend' in ran.err and ran.err.count(b'\n') == 1, 'what devnet.sh says: %r' % ran.err)
        lines = ran.out.decode().splitlines()
        must_be(lines[-3:-1], [first.genesis_line(chain.genesis), first.tip(tip)], 'the last lines of devnet.sh')
        with open(os.path.join(away, 'net', 'accounts.txt'), encoding='utf-8') as f:
            must_be(f.read().splitlines(), lines[:-3], 'accounts.txt')
        folder = os.path.join(away, 'net', 'chain')
        tx_hash = hex_of(ckbhash(chain.genesis.transactions[0].raw()))
        must_be(lines[0].split()[-1], tx_hash, 'the transaction of the genesis')
        accounts = re.findall(r'account (\d)\n  key (\w+)\n  args (\w+)\n  lock hash (\w+)\n  output (\d+): (\d+) shannons',
                              ran.out.decode())
        must_be([it[0] for it in accounts], ['0', '1', '2'], 'the accounts')
        for _, key, args, lock_hash, index, capacity in accounts:
            must_be(args, hex_of(ckbhash(secp256k1.public_key(int(key, 16)))[:20]), 'the args of a key')
            live = Ran([program, folder, 'cell', tx_hash, index]).out.decode().split()
            must_be((live[:2], live[4]), (['live', capacity], lock_hash), 'the cell of an account')
        pays_in(program, away, chain, tx_hash)
        ran = Ran(['sh', DEVNET, 'net', '--without-signatures'], cwd=away)
        must(ran.status == 1 and ran.out == b'', 'devnet.sh takes a folder that is there')
    for words in ([], ['a', 'b'], ['a', '--without-signatures', 'c']):
        must_be(Ran(['sh', DEVNET, *words]).status, 2, 'the status of devnet.sh %r' % words)


def shown(line, folder):
    """What comes of a line of the page on examples."""
    with open(os.path.join(TOP, 'examples', 'README.md'), encoding='utf-8') as f:
        must('\n    %s\n' % line in f.read(), 'no page shows %s' % line)
    ran = Ran(['sh', '-c', line], cwd=folder)
    must_be((ran.status, ran.err), (0, b''), line)
    return ran.out.decode()


def pays_in(program, away, chain, tx_hash):
    """Account 0 pays 100 CKB to account 1, as the page shows it; what would leave too little for a cell is not paid."""
    for name in ('ckbdev', 'examples'):
        os.symlink(os.path.join(TOP, name), os.path.join(away, name))
    first_hash, locks = bytes.fromhex(tx_hash[2:]), [it.lock for it in chain.accounts]
    outputs = [cell_output(100 * SHANNONS, locks[1]), cell_output(devnet.FUNDS - 100 * SHANNONS - 10000, locks[0])]
    raw = raw_transaction([cell_input(out_point(first_hash, 2))], outputs, [b'', b''], [out_point(first_hash, 0) + b'\0'])
    shown('python3 examples/pay.py net 0 1 100 > payment.bin', away)
    with open(os.path.join(away, 'payment.bin'), 'rb') as f:
        must_be(f.read(), transaction(raw), 'the payment')
    must_be(shown('./ckbdev net/chain check < payment.bin', away), 'ok 10000 505\n', 'the line of the payment')
    said = shown('python3 examples/mine.py net/chain 0 payment.bin', away)
    must(re.fullmatch(r'committed 13 (0x\w{64})\ntip 13 \1\n', said), 'the payment is not mined: %r' % said)
    shown('python3 examples/page.py net/chain > chain.html', away)
    with open(os.path.join(away, 'chain.html'), encoding='utf-8') as f:
        must('<article id="tx-%s">' % hex_of(ckbhash(raw)) in f.read(), 'the page has not the payment')
    for words, status, why in ((['0', '3', '100'], 2, b'TO'), (['0', '1', '60'], 2, b'61'), (['x', '1', '99'], 2, b'FROM'),
                               (['2', '1', '1000000'], 1, b'account 2 has'), (['2', '1', '999999'], 1, b'account 2 has')):
        ran = Ran([*PAY, 'net', *words, '--program', program], cwd=away)
        must_be((ran.status, ran.out), (status, b''), 'pay.py %r' % words)
        must(ran.err.count(b'\n') == 1 and why in ran.err, 'pay.py %r: it does not say %r, but %r' % (words, why, ran.err))


# --------------------------------------------------------- a lock without a compiler

def check_rust_without_a_compiler(_):
    """Where there is none, a line says which packages have it."""
    lock = os.path.join(os.path.dirname(RUSTC), 'lock.rs')
    with new_folder() as away:
        ran = Ran(['sh', RUSTC, away, lock], env={**os.environ, 'RUSTC': os.path.join(away, 'gone')})
        must_be((ran.status, ran.out, os.listdir(away)), (3, b'', []), 'rustc.sh without a compiler')
        must(ran.err.count(b'\n') == 1 and b'rust-src' in ran.err, 'what rustc.sh says: %r' % ran.err)
