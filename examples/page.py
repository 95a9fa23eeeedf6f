#!/usr/bin/env python3
"""Writes one page of the best branch of a store: its blocks, transactions, live cells and deposits.

    python3 examples/page.py FOLDER [--program PROGRAM] > chain.html

The page is HTML without scripts, and takes nothing from elsewhere. It has the blocks in a row, with an arrow from each
proposal to its commitment, and below them each block with its transactions, whose inputs and outputs are links. Fees and
cycles are those that `assemble` gives; where it cannot be asked, as for the genesis, none are shown. The program runs
once for each block and twice more for one with transactions, so a build is wanted.
"""

import datetime
import os
import sys
from html import escape

import make_store
from mine import BUILT, SCRIPT, is_built
from read_chain import Chain, Failed, Store, bytes_of, number

# of the row of blocks, in pixels: a block, from one to the next, and the room for arrows above
WIDE, PITCH, HIGH = 132, 148, 120
ANYONE = '0x' + make_store.ckbhash(make_store.LOCK).hex()

STYLE = '''
:root { --line: #c8ccd4; --soft: #f4f5f8; --other: #e9eef8; --text: #1c2230; --dim: #667; --link: #1a56b0; --mark: #fff3c4 }
* { box-sizing: border-box }
body { margin: 0 auto; max-width: 76rem; padding: 0 1.2rem 4rem; color: var(--text); font: 15px/1.45 system-ui, sans-serif }
h1 { font-size: 1.5rem; margin: 1.2rem 0 .3rem } h2 { font-size: 1.15rem; margin: 0 } h3 { font-size: 1rem; margin: 0 }
a { color: var(--link); text-decoration: none } a:hover { text-decoration: underline }
code { font: 12.5px/1.5 ui-monospace, monospace; overflow-wrap: anywhere }
.dim { color: var(--dim) }
.row { overflow-x: auto; border: 1px solid var(--line); border-radius: 8px; margin: 1rem 0 }
.strip { position: relative }
.strip svg { display: block }
.box { position: absolute; width: 132px; height: 138px; padding: 6px 9px; border: 1px solid var(--line); border-radius: 6px;
  background: var(--soft); color: var(--text); font-size: 12.5px; line-height: 1.35; overflow: hidden }
.box.odd { background: var(--other) }
.box b { font-size: 15px }
.box span { display: block; white-space: nowrap }
path.way { fill: none; stroke: var(--link); stroke-width: 1.5 }
path.way.uncle { stroke-dasharray: 5 4 }
section { border: 1px solid var(--line); border-radius: 8px; padding: .8rem 1rem; margin: 1rem 0 }
article { border-top: 1px solid var(--line); margin-top: .8rem; padding-top: .7rem }
dl { display: grid; grid-template-columns: max-content 1fr; gap: .1rem 1rem; margin: .5rem 0 }
dt { color: var(--dim) } dd { margin: 0 }
.sides { display: grid; grid-template-columns: 1fr 1fr; gap: 1rem; margin-top: .4rem }
ol, ul { margin: .2rem 0; padding-left: 1.4rem }
li { margin: .2rem 0 } :target { background: var(--mark) }
table { border-collapse: collapse; width: 100% } td, th { text-align: left; padding: .2rem .6rem .2rem 0; vertical-align: top }
td.count, th.count { text-align: right; white-space: nowrap; font-variant-numeric: tabular-nums }
@media (max-width: 45rem) { .sides { grid-template-columns: 1fr } }
'''


# ------------------------------------------------------------------- texts

def ckb(shannons):
    """In CKB, with as many decimals as are needed."""
    whole, rest = divmod(shannons, 10 ** 8)
    return '{:,}'.format(whole) + ('.%08d' % rest).rstrip('0').rstrip('.') + ' CKB'


def counted(count, what):
    return '{:,} {}{}'.format(count, what, '' if count == 1 else 's')


def short(text):
    """The first digits of a hash."""
    return text[:10] + '…'


def link(name, text):
    return '<a href="#%s">%s</a>' % (name, text)


def block_link(height):
    return link('block-%d' % height, 'block %d' % height)


def transaction_link(transaction):
    return link('tx-' + transaction.hash, '<code>%s</code>' % short(transaction.hash))


def cell_name(point):
    return 'cell-%s-%d' % point


def cell_link(point):
    return link(cell_name(point), '<code>%s %d</code>' % (short(point.hash), point.index))


def lock_link(cell):
    return link('lock-' + cell.lock_hash, '<code>%s</code>' % short(cell.lock_hash))


def script_text(script):
    args = 'none' if script['args'] == '0x' else script['args']
    return '<code>%s</code> by %s, args <code>%s</code>' % (script['code_hash'], escape(script['hash_type']), args)


def time_of(milliseconds):
    try:
        moment = datetime.datetime.fromtimestamp(milliseconds / 1000, datetime.timezone.utc)
        return '%s (%s)' % ('{:,} ms'.format(milliseconds), moment.strftime('%Y-%m-%d %H:%M:%S UTC'))
    except (OverflowError, ValueError, OSError):
        return '{:,} ms'.format(milliseconds)


def pairs(items):
    return '<dl>%s</dl>' % ''.join('<dt>%s</dt><dd>%s</dd>' % it for it in items)


def listed(items):
    return '<ul>%s</ul>' % ''.join('<li>%s</li>' % it for it in items)


def numbered(items):
    """From 0 on, as inputs and outputs are."""
    return '<ol start="0">%s</ol>' % ''.join('<li>%s</li>' % it for it in items) if items else '<div class="dim">none</div>'


# ------------------------------------------------------------- the row of blocks

def epoch_of(chain, height):
    """The number of an epoch, and the index in it."""
    return divmod(height, chain.spec.epoch_length)


def box(chain, block):
    """What is seen of a block at once."""
    epoch, index = epoch_of(chain, block.number)
    commits = len(block.transactions) - 1
    lines = ['epoch %d, %d/%d' % (epoch, index, chain.spec.epoch_length), '<code>%s</code>' % short(block.hash),
             counted(commits, 'transaction') if commits else '']
    if block.uncles:
        lines.append(counted(len(block.uncles), 'uncle'))
    for of, text in ((lambda it: it.cycles, '{:,} cycles'.format), (lambda it: it.fee, lambda fee: 'fees ' + ckb(fee))):
        total = block.total(of)
        if commits and total is not None:
            lines.append(text(total))
    return '<a class="box%s" href="#block-%d" style="left:%dpx;top:%dpx"><b>%d</b>%s</a>' % (
        ' odd' if epoch % 2 else '', block.number, PITCH * block.number + 8, HIGH, block.number,
        ''.join('<span>%s</span>' % it for it in lines if it))


def arrow(transaction, place, count):
    """From the block that proposes a transaction to the one that commits it; `place` of so many that end there."""
    proposer = transaction.proposer
    start = PITCH * proposer.height + 8 + WIDE * 0.65
    end = PITCH * transaction.height + 8 + WIDE * (0.15 + 0.35 * (place + 1) / (count + 1))
    top = HIGH - min(100, 26 + 12 * (transaction.height - proposer.height))
    return ('<a href="#tx-%s"><path class="way%s" d="M %.1f %d C %.1f %d %.1f %d %.1f %d" marker-end="url(#head)">'
            '<title>%s: proposed in block %d%s, committed in block %d</title></path></a>' % (
                transaction.hash, ' uncle' if proposer.by_uncle else '', start, HIGH - 1, start, top, end, top, end, HIGH - 2,
                transaction.hash, proposer.height, ' by an uncle' if proposer.by_uncle else '', transaction.height))


def row(chain):
    wide = PITCH * len(chain.blocks)
    arrows = []
    for block in chain.blocks:
        proposed = [it for it in block.transactions if it.proposer]
        arrows += [arrow(it, place, len(proposed)) for place, it in enumerate(proposed)]
    return ('<div class="row"><div class="strip" style="width:%dpx;height:%dpx"><svg width="%d" height="%d">'
            '<defs><marker id="head" viewBox="0 0 8 8" refX="7" refY="4" markerWidth="7" markerHeight="7" orient="auto">'
            '<path d="M 0 0 L 8 4 L 0 8 Z" fill="#1a56b0"/></marker></defs>%s</svg>%s</div></div>' % (
                wide, HIGH + 150, wide, HIGH, ''.join(arrows), ''.join(box(chain, it) for it in chain.blocks)))


# ------------------------------------------------------------- a transaction

def input_text(chain, point, since):
    cell = chain.cell(point)
    return '%s: %s of %s, made in %s%s' % (cell_link(point), ckb(cell.capacity), lock_link(cell), block_link(cell.height),
                                           '' if since == '0x0' else ', since <code>%s</code>' % since)


def output_text(cell):
    parts = ['<b>%s</b> of %s' % (ckb(cell.capacity), lock_link(cell))]
    if cell.type:
        parts.append('type %s' % script_text(cell.type))
    size = len(bytes_of(cell.data))
    if size:
        parts.append('%s of data' % counted(size, 'byte'))
    parts.append('spent by ' + transaction_link(cell.spent_by) + ' in ' + block_link(cell.spent_by.height) if cell.spent_by
                 else 'live')
    return '<span id="%s">%s</span>' % (cell_name(cell.point), ', '.join(parts))


def deps_text(chain, value):
    deps = ['%s%s' % (point_text(chain, it['out_point']), '' if it['dep_type'] == 'code' else ', ' + escape(it['dep_type']))
            for it in value['cell_deps']]
    return ', '.join(deps + ['header <code>%s</code>' % short(it) for it in value['header_deps']])


def point_text(chain, value):
    """A link where the branch has made the cell."""
    name = value['tx_hash'], number(value['index'])
    return cell_link(chain.cells[name].point) if name in chain.cells else '<code>%s %d</code>' % (short(name[0]), name[1])


def facts(chain, transaction):
    """What stands under the head of a transaction."""
    found = ['{:,} bytes'.format(len(transaction.item))]
    if transaction.fee is not None:
        found = ['fee ' + ckb(transaction.fee), '{:,} cycles'.format(transaction.cycles)] + found
    if transaction.proposer:
        by = ' by an uncle' if transaction.proposer.by_uncle else ''
        found.append('proposed in %s%s' % (block_link(transaction.proposer.height), by))
    deps = deps_text(chain, transaction.value)
    if deps:
        found.append('deps ' + deps)
    if transaction.value['witnesses']:
        found.append(counted(len(transaction.value['witnesses']), 'witness').replace('witnesss', 'witnesses'))
    return ', '.join(found)


def what_it_is(chain, transaction):
    if transaction.height == 0:
        return 'Transaction of the genesis'
    if transaction.place:
        return 'Transaction'
    paid = transaction.height - chain.spec.w_far - 1
    return 'Cellbase' + (' that pays ' + block_link(paid) if paid > 0 else '')


def transaction_text(chain, transaction):
    sinces = [it['since'] for it in transaction.value['inputs']]
    inputs = [input_text(chain, *it) for it in zip(transaction.inputs, sinces)]
    outputs = [output_text(it) for it in transaction.cells]
    sides = '<div class="sides"><div>Inputs%s</div><div>Outputs%s</div></div>' % (numbered(inputs), numbered(outputs))
    return '<article id="tx-%s"><h3>%s <code>%s</code></h3><div class="dim">%s</div>%s</article>' % (
        transaction.hash, what_it_is(chain, transaction), transaction.hash, facts(chain, transaction),
        sides if inputs or outputs else '')


# ------------------------------------------------------------------ a block

def reward_text(chain, block):
    paid_in = chain.paid_in(block.number)
    if block.number == 0:
        return 'the genesis is paid nothing'
    if paid_in >= len(chain.blocks):
        return 'is paid in block %d' % paid_in
    outputs = chain.blocks[paid_in].transactions[0].cells
    return '%s in %s' % (' and '.join(ckb(it.capacity) for it in outputs) or 'too little for an output', block_link(paid_in))


def proposal_text(chain, block, proposal):
    """An id, with the transaction that it is of where a block commits that."""
    for later in chain.blocks[block.number:]:
        for it in later.transactions[1:]:
            if it.proposal_id() == proposal and it.proposer and it.proposer.height == block.number:
                return '<code>%s</code>, committed in %s as %s' % (proposal, block_link(later.number), transaction_link(it))
    return '<code>%s</code>' % proposal


def uncle_text(chain, block, uncle):
    ids = [proposal_text(chain, block, it) for it in uncle.proposals]
    return 'number %d, <code>%s</code>%s' % (uncle.number, uncle.hash, listed(ids) if ids else '')


def block_text(chain, block):
    header = block.header
    epoch, index = epoch_of(chain, block.number)
    rows = [('hash', '<code>%s</code>' % block.hash)]
    if block.number:
        rows.append(('parent', link('block-%d' % (block.number - 1), '<code>%s</code>' % header['parent_hash'])))
    rows += [('epoch', '%d, index %d of %d' % (epoch, index, chain.spec.epoch_length)),
             ('timestamp', time_of(number(header['timestamp']))), ('size', '{:,} bytes'.format(len(block.item))),
             ('DAO field', 'C %s, AR %d, S %s, U %s' % (ckb(block.dao[0]), block.dao[1], ckb(block.dao[2]), ckb(block.dao[3]))),
             ('reward', reward_text(chain, block))]
    proposals = [proposal_text(chain, block, it) for it in block.proposals]
    for name, items in (('proposals', proposals), ('uncles', [uncle_text(chain, block, it) for it in block.uncles])):
        if items:
            rows.append((name, listed(items)))
    return '<section id="block-%d"><h2>Block %d</h2>%s%s</section>' % (
        block.number, block.number, pairs(rows), ''.join(transaction_text(chain, it) for it in block.transactions))


# ------------------------------------------------------- live cells and deposits

def lock_rows(chain):
    """The live cells of each lock."""
    for lock_hash, cells, count, total in chain.live_by_lock():
        note = ', which anyone may spend' if lock_hash == ANYONE else ''
        yield ('<article id="lock-%s"><h3>Lock <code>%s</code></h3><div class="dim">%s%s</div>'
               '<table><tr><th>cell</th><th>made in</th><th class="count">capacity</th></tr>%s'
               '<tr><td>%s</td><td></td><td class="count">%s</td></tr></table></article>' % (
                   lock_hash, lock_hash, script_text(cells[0].lock), note, ''.join(map(cell_row, cells)),
                   counted(count, 'cell'), ckb(total)))


def cell_row(cell):
    return '<tr><td>%s</td><td>%s</td><td class="count">%s</td></tr>' % (
        cell_link(cell.point), block_link(cell.height), ckb(cell.capacity))


def spent_locks(chain):
    """What the links to locks lead to that have no live cell."""
    live = {it.lock_hash for it in chain.live()}
    spent = {it.lock_hash: it.lock for it in chain.cells.values() if it.lock_hash not in live}
    for lock_hash, lock in spent.items():
        yield '<article id="lock-%s"><h3>Lock <code>%s</code></h3><div class="dim">%s; no live cells</div></article>' % (
            lock_hash, lock_hash, script_text(lock))


def deposit_row(cell, line):
    """`deposit M AMOUNT` and `withdrawing M N AMOUNT` have columns of their own, and any other line one."""
    word, *rest = line.split()
    columns = '', '', escape(line)
    if word in ('deposit', 'withdrawing'):
        *heights, amount = map(int, rest)
        columns = *map(block_link, heights), *[''] * (2 - len(heights)), ckb(amount)
    return '<tr><td>%s</td><td class="count">%s</td><td>%s</td><td>%s</td><td class="count">%s</td></tr>' % (
        cell_link(cell.point), ckb(cell.capacity), *columns)


def deposits_text(chain):
    rows = [deposit_row(*it) for it in chain.deposits()]
    if not rows:
        return '<p class="dim">none</p>'
    return ('<table><tr><th>cell</th><th class="count">capacity</th><th>deposited in</th><th>withdrawn in</th>'
            '<th class="count">counts</th></tr>%s</table>' % ''.join(rows))


# ----------------------------------------------------------------- the page

def page(chain, name):
    tip = chain.blocks[-1]
    title = 'The chain in %s' % escape(name)
    parts = [
        '<h1>%s</h1>' % title,
        '<p>%s <code>%s</code>. Epochs of %s; committed %d to %d blocks after the proposal. <a href="#live">Live cells by '
        'lock</a>, <a href="#deposits">deposits of the DAO</a>.</p>' % (
            link('block-%d' % tip.number, 'Block %d' % tip.number), tip.hash, counted(chain.spec.epoch_length, 'block'),
            chain.spec.w_close, chain.spec.w_far),
        row(chain),
        *(block_text(chain, it) for it in chain.blocks),
        '<section id="live"><h2>Live cells by lock</h2>%s%s</section>' % (''.join(lock_rows(chain)), ''.join(spent_locks(chain))),
        '<section id="deposits"><h2>Deposits of the DAO</h2>%s</section>' % deposits_text(chain)]
    return ('<!DOCTYPE html>\n<html lang="en"><head><meta charset="utf-8"/>'
            '<meta name="viewport" content="width=device-width, initial-scale=1"/><title>%s</title><style>%s</style></head>\n'
            '<body>%s</body></html>\n' % (title, STYLE, '\n'.join(parts)))


def main():
    p = make_store.Words(description='Writes a page of the best branch of a store.')
    p.add_argument('folder', metavar='FOLDER')
    p.add_argument('--program', help='the program to be run, in place of that of the checkout')
    a = p.parse_args()
    program = a.program or (BUILT if is_built() else SCRIPT)
    try:
        chain = Chain(Store(os.path.abspath(program), a.folder))
        chain.find_fees()
    except (Failed, OSError) as error:
        p.exit(getattr(error, 'status', 1), 'page.py: %s\n' % error)
    sys.stdout.buffer.write(page(chain, a.folder).encode())


if __name__ == '__main__':
    main()
