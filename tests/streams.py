"""The program's words, streams and lines: each status that they can bring, with its text."""

import os
import resource
import subprocess
from random import Random

from harness import (CONTRACT_INIT, CONTRACT_LINE, FIRST_INIT, FIRST_LINE, GENESIS_LIMIT, ITEM_LIMIT, PRIMES, SCRIPTS,
                     Ran, chain_of, chaingen, contract, contract_store, file_with, first, line_of, log_of, must,
                     must_answer, must_be, must_have_tip, new_folder, new_store, signature, size_word, started, status_of, write)
import encoding
from encoding import fields_of, fixvec, number_of, table, uint
from make_first_blocks import UNKNOWN_HASH, changed, joined, known, numbered
from make_store import child

SPEC, GENESIS = first.SPEC.item(), first.GENESIS.item()


def elf(*words):
    return chaingen.program(words)


def addi(register, value):
    """register = value, from -2048 to 2047"""
    return (value & 0xfff) << 20 | register << 7 | 0x13


A0, A7, ECALL = 10, 17, 0x73
BAD_WORDS = [
    [], ['any'], ['import'], ['', 'import'], ['any', ''], ['any', 'Import'], ['any', 'import '],
    ['any', 'import', 'import'], ['any', 'import', ''], ['', 'init'], ['any', 'init', 'init'], ['any', 'INIT'],
    ['', 'tip'], ['any', 'tip', '0'], ['any', 'tips'], ['check'], ['', 'check'], ['any', 'Check'], ['any', 'checks'],
    ['any', 'check', ''], ['any', 'check', '0'], ['any', 'check', 'check'], ['any', 'exec'], ['any', 'exec', ''],
    ['assemble'], ['', 'assemble'], ['any', 'assemble', ''], ['any', 'assemble', '0'], ['any', 'Assemble'], ['any', 'assembles'],
    ['any', 'exec', '01'], ['any', 'exec', '-1'], ['any', 'exec', '+1'], ['any', 'exec', '0x1'],
    ['any', 'exec', '1 '], ['any', 'exec', '1099511627777'], ['any', 'exec', '5', '6'],
    ['asm'], ['', 'asm'], ['any', 'asm', ''], ['any', 'Asm'], ['any', 'dis', '0'], ['any', 'diss'],
    ['any', 'unjson', '0'], ['any', 'json'], ['any', 'json', '07'], ['any', 'json', '18446744073709551616'],
    ['any', 'json', '0', '0'], ['any', 'Json', '0'], ['json', '0'], ['', 'json', '0'],
    ['any', 'make'], ['any', 'make', '0'], ['any', 'make', '0', '20001'], ['any', 'make', '00', '1'],
    ['any', 'make', '18446744073709551616', '1'], ['any', 'make', '0', '1', '2'],
    ['any', 'migrate'], ['any', 'migrate', '01'], ['any', 'migrate', '-1'], ['any', 'migrate', '18446744073709551616'],
    ['any', 'migrate', '1', '2'], ['', 'migrate', '1'], ['any', 'Migrate', '1'],
    ['any', 'list'], ['any', 'list', '5'], ['any', 'list', '0x' + 'A' * 64], ['any', 'list', '0x' + '0' * 63],
    ['any', 'watch'], ['any', 'watch', '0x' + '0' * 65], ['any', 'watch', '0' * 64], ['', 'watch', '0x' + '0' * 64],
    [b'\xff', 'import'], ['any', b'\xff'],
]


def check_words(program):
    with new_folder() as folder:
        os.mkdir(os.path.join(folder, 'any'))
        for words in BAD_WORDS:
            ran = Ran([program, *words], FIRST_INIT, cwd=folder)
            must_answer(ran, 2, b'', repr(words))
            must_be(ran.read, 0, '%r: bytes read' % words)
        must_be(os.listdir(os.path.join(folder, 'any')), [], 'files that bad words made')
        for name in (' ', 'a b', '-', '*', "it's", '\n', 'é', os.path.join(folder, 'b')):
            os.mkdir(os.path.join(folder, name))
            must_answer(Ran([program, name, 'init'], FIRST_INIT, cwd=folder), 0, FIRST_LINE, 'init in %r' % name)
            must(log_of(os.path.join(folder, name)), 'init in %r made its log elsewhere' % name)


# ----------------------------------------------------------------------- init

def bad_specs():
    """A specification for each of S1 to S7, and in each the first rule that it breaks."""
    def spec(**fields):
        return first.changed(first.SPEC, **fields).item()

    yield 1, size_word(101) + SPEC[4:] + b'\0'
    yield 1, size_word(96) + SPEC[4:96]
    for length in (0, 65536):
        yield 2, spec(epoch_length=length, w_close=0)
    for close, far in ((0, 1), (3, 2), (1, 101)):
        yield 3, spec(w_close=close, w_far=far, max_block_bytes=0)
    for most in (0, (1 << 20) + 1):
        yield 4, spec(max_block_bytes=most, max_cycles=0)
    for most in (0, (1 << 40) + 1):
        yield 5, spec(max_cycles=most, maturity=1 << 56)
    # an index without a length, one that is not below it, and a bit too high
    for maturity in (1 << 24, 3 << 24 | 3 << 40, 1 << 56):
        yield 6, spec(maturity=maturity, halving_interval=0)
    yield 7, spec(halving_interval=0)


def bad_geneses():
    """A genesis for each of G1 to G7, and in each the first rule that it breaks."""
    good = first.GENESIS
    only, = good.transactions
    head, transactions = good.header(), [only.item()]
    yield 1, table(fields_of(good.item()) + [fixvec([])])
    yield 1, size_word(4)
    yield 2, first.changed(good, number=1, dao=(0, 1, 0, 0)).item()
    yield 3, encoding.block(head, transactions, uncles=[encoding.uncle(head)])
    yield 3, encoding.block(head, transactions, ids=[bytes(10)])
    for dao in ((0, 1, 0, 0), (1, 0, 0, 0)):
        yield 4, first.changed(good, dao=dao).item()
    yield 5, encoding.block(head)
    yield 5, first.changed(good, transactions=(only, only)).item()
    yield 6, data_left_out(good)
    program, (_, data) = only.outputs
    scant = first.changed(only, outputs=(program, (41 * 10 ** 8 - 1, data)))
    yield 7, first.changed(good, transactions=(scant,)).item()


def data_left_out(block):
    """The block with one `outputs_data` fewer than outputs."""
    only, = block.transactions
    parts = fields_of(only.raw())
    parts[5] = table([encoding.as_bytes(only.outputs[0][1])])
    return encoding.block(block.header(), [encoding.transaction(table(parts))])


def inputs_of_init():
    """(what, input, status, text)"""
    yield 'nothing', b'', 8, b'cut 0\n'
    yield 'a cut size word', SPEC[:3], 8, b'cut 0\n'
    yield 'a cut specification', SPEC[:-1], 8, b'cut 0\n'
    yield 'a specification alone', SPEC, 8, b'cut 100\n'
    yield 'a cut second size word', SPEC + GENESIS[:2], 8, b'cut 100\n'
    yield 'a cut genesis', FIRST_INIT[:-1], 8, b'cut 100\n'
    for size in (0, 3, ITEM_LIMIT + 1, (1 << 32) - 1):
        yield 'a first size of %d' % size, size_word(size) + FIRST_INIT, 9, b'bad size 0\n'
    for size in (3, GENESIS_LIMIT + 1):
        yield 'a second size of %d' % size, SPEC + size_word(size) + GENESIS, 9, b'bad size 100\n'
    yield 'a byte too many', FIRST_INIT + b'\0', 12, b'extra %d\n' % len(FIRST_INIT)
    yield 'another item', FIRST_INIT + GENESIS, 12, b'extra %d\n' % len(FIRST_INIT)
    for number, spec in bad_specs():
        yield 'S%d' % number, spec + GENESIS, 11, b'bad spec S%d\n' % number
    for number, genesis in bad_geneses():
        yield 'G%d' % number, SPEC + genesis, 11, b'bad genesis G%d\n' % number
    # the whole input is read before a rule is looked at, and the specification comes first
    bad_spec, bad_genesis = next(bad_specs())[1], size_word(4)
    yield 'S1 and G1', bad_spec + bad_genesis, 11, b'bad spec S1\n'
    yield 'S1 and a cut', bad_spec, 8, b'cut 101\n'
    yield 'S1 and a byte too many', bad_spec + GENESIS + b'\0', 12, b'extra %d\n' % len(bad_spec + GENESIS)


def check_statuses_of_init(program):
    with new_folder() as folder:
        for what, given, status, text in inputs_of_init():
            for piped in (False, True):
                must_answer(Ran([program, folder, 'init'], given, piped), status, text, what)
        must_answer(Ran([program, folder, 'tip']), 7, b'', 'the tip where `init` failed')
        # what such a run left is in nobody's way, nor are snapshots of another store
        write(os.path.join(folder, 'snap_a.bin'), b'\1old')
        write(os.path.join(folder, 'snap_b.bin'), b'\1older')
        must_answer(Ran([program, folder, 'init'], FIRST_INIT, True), 0, FIRST_LINE, 'init')
        for name in ('snap_a.bin', 'snap_b.bin'):
            must_be(os.path.getsize(os.path.join(folder, name)), 0, 'the length of %s' % name)
        ran = Ran([program, folder, 'init'], FIRST_INIT)
        must_answer(ran, 10, b'', 'init, where a store is')
        must_be(ran.read, 0, 'bytes read by init where a store is')
        must_have_tip(program, folder, ('%s\n' % first.tip(first.GENESIS)).encode(), 'after init')
    with new_folder() as folder:
        write(os.path.join(folder, 'log.bin'), b'\0')
        must_answer(Ran([program, folder, 'init'], FIRST_INIT), 10, b'', 'init, where a byte is')


def check_longest_genesis(program):
    chain = chain_of(1, genesis_bytes=GENESIS_LIMIT)
    must_be(len(chain.init), 100 + GENESIS_LIMIT, 'the input of init')
    with chain.store(program) as folder:
        must_answer(Ran([program, folder, 'import'], chain.blocks[0]), 0, chain.lines[0], 'on the longest genesis')
    with new_folder() as folder:
        longer = chain_of(1, genesis_bytes=GENESIS_LIMIT + 1).init
        must_answer(Ran([program, folder, 'init'], longer, True), 9, b'bad size 100\n', 'a byte more')


# ------------------------------------------------------------- import and tip

def no_blocks(a):
    """Items that are no canonical `Block`. They have the header of a block that is kept."""
    size = len(a)
    yield uint(4, 4)
    # a byte after the proposals
    yield uint(size + 1, 4) + a[4:] + b'\0'
    # a gap of four bytes between the offsets and the header
    yield uint(size + 4, 4) + b''.join(
        uint(number_of(a[i:i + 4]) + 4, 4) for i in range(4, 20, 4)
    ) + bytes(4) + a[20:]
    # the second offset is below the first
    yield a[:8] + uint(19, 4) + a[12:]
    # the full size of the transactions is one too low
    at = number_of(a[12:16])
    yield a[:at] + uint(number_of(a[at:at + 4]) - 1, 4) + a[at + 4:]
    # a proposal is announced and is not there
    yield a[:-4] + uint(1, 4)


def each_verdict():
    """Items that are answered in each way, with their lines, and the block that is the tip after them."""
    genesis = first.GENESIS
    a1, b1 = (child(first.SPEC, genesis, nonce) for nonce in (1, 2))
    a2, b2 = (child(first.SPEC, it) for it in (a1, b1))
    b3 = child(first.SPEC, b2)
    next_a, next_b = (child(first.SPEC, it, nonce=9) for it in (a1, b2))
    items = [
        (a1.item(), joined(a1)),
        (a1.item(), known(a1)),
        (genesis.item(), known(genesis)),
        # the number: two too high, the parent's own, and 0
        (numbered(a1, 3).item(), 'refused J5'),
        (numbered(next_a, 1).item(), 'refused J5'),
        (numbered(next_a, 0).item(), 'refused J5'),
        # the greatest number
        (numbered(next_a, 2 ** 64 - 1).item(), 'refused J5'),
        (changed(a1, parent=UNKNOWN_HASH).item(), 'refused J3'),
        # an unknown parent comes before a wrong number
        (changed(numbered(a1, 7), parent=UNKNOWN_HASH).item(), 'refused J3'),
        # the parent comes later
        (b2.item(), 'refused J3'),
        # a hash that is kept, and other transactions under it
        (encoding.block(a1.header()), known(a1)),
        # the tip stays at equal height, and moves to a greater one
        (b1.item(), joined(b1)),
        (b2.item(), joined(b2)),
        (a2.item(), joined(a2)),
    ]
    items += [(item, 'refused J1') for item in no_blocks(a1.item())]
    items += [
        (table(fields_of(next_b.item()) + [fixvec([])]), 'refused J1'),
        (table(fields_of(next_b.item())[:3]), 'refused J1'),
        (b3.item(), joined(b3)),
    ]
    return items, b3


def check_statuses_of_import(program):
    items, tip = each_verdict()
    given, text = first.input_and_text(items)
    (block, line), again = items[0], items[1][1]
    line, again = (line + '\n').encode(), (again + '\n').encode()
    end = len(block)
    cases = [
        ('nothing', b'', 0, b''),
        ('a block that joins', block, 0, line),
        ('the same again', block, 0, again),
        ('a cut size word', block + b'\4\0\0', 8, again + b'cut %d\n' % end),
        ('a cut item', block + block[:-1], 8, again + b'cut %d\n' % end),
        ('a cut first item', b'\4', 8, b'cut 0\n'),
    ] + [
        ('a size of %d' % size, block + size_word(size), 9, again + b'bad size %d\n' % end)
        for size in (0, 3, ITEM_LIMIT + 1)
    ] + [('a longest item that is no block', size_word(ITEM_LIMIT) + bytes(ITEM_LIMIT - 4), 1, b'refused J1\n')]
    with new_store(program) as folder:
        for what, stdin, status, wanted in cases:
            must_answer(Ran([program, folder, 'import'], stdin), status, wanted, what)
    for piped in (False, True):
        with new_store(program) as folder:
            must_answer(Ran([program, folder, 'import'], given, piped), 1, text, 'each verdict')
            ran = Ran([program, folder, 'tip'], given)
            must_answer(ran, 0, (first.tip(tip) + '\n').encode(), 'tip')
            must_be(ran.read, 0, 'bytes read by tip')


def check_large_blocks(program):
    """20 MB of blocks, each of the greatest size that this chain allows."""
    chain = chain_of(34, block_bytes=597000)
    must(all(len(it) == 597000 for it in chain.blocks), 'the blocks have not the size that they should have')
    for piped in (False, True):
        with chain.store(program) as folder:
            ran = Ran([program, folder, 'import'], b''.join(chain.blocks), piped)
            must_answer(ran, 0, b''.join(chain.lines), 'on pipes' if piped else 'on files')
            must_have_tip(program, folder, chain.tip(34), 'large blocks')


def check_many_blocks(program):
    chain = chain_of(3000)
    for piped in (False, True):
        with chain.store(program) as folder:
            ran = Ran([program, folder, 'import'], b''.join(chain.blocks), piped)
            must_answer(ran, 0, b''.join(chain.lines), 'on pipes' if piped else 'on files')
            must_have_tip(program, folder, chain.tip(3000), 'many blocks')


def check_line_before_the_next_item(program):
    """Who sends block after block is answered block after block."""
    chain = chain_of(20)
    with chain.store(program) as folder, started([program, folder, 'import']) as process:
        for block, line in zip(chain.blocks, chain.lines):
            process.stdin.write(block)
            must_be(line_of(process), line, 'the line of a block, before the next one is sent')
        process.stdin.close()
        must_be(line_of(process), b'', 'what follows the last line')
        must_be(status_of(process), 0, 'status')


def check_out_of_memory(program):
    """With too little memory for the blocks: whole lines of the text, and the status. What they name is kept."""
    chain = chain_of(34, block_bytes=597000)
    given, text = b''.join(chain.blocks), b''.join(chain.lines)

    def limit():
        resource.setrlimit(resource.RLIMIT_AS, (14 << 20, 14 << 20))

    with chain.store(program) as folder:
        ran = Ran([program, folder, 'import'], given, preexec_fn=limit)
        must_be(ran.status, 6, 'status')
        must(text.startswith(ran.out), 'what was written is not a prefix of the text')
        must(ran.out.endswith(b'\n'), 'what was written does not end with a whole line')
        count = ran.out.count(b'\n')
        after = Ran([program, folder, 'import'], given)
        must_be(after.status, 0, 'with more memory: status')
        must(after.out.startswith(b''.join(chain.known(at) for at in range(1, count + 1))),
             'a block that was answered is not kept')
        must_have_tip(program, folder, chain.tip(34), 'with more memory')
        ran = Ran([program, folder, 'check'], size_word(4), preexec_fn=limit)
        must_answer(ran, 6, b'', 'check, where memory does not hold the blocks')


def check_size_words(program):
    """What a size word alone asks for takes no more memory than an item may have, whatever it says."""
    def limit():
        resource.setrlimit(resource.RLIMIT_AS, (14 << 20, 14 << 20))

    chain = chain_of(1)
    with chain.store(program) as folder:
        for words in ('import', 'check', 'assemble'):
            for size in (2 ** 20 + 1, 2 ** 31, 2 ** 32 - 1):
                ran = Ran([program, folder, words], size_word(size), preexec_fn=limit)
                must_answer(ran, 9, b'bad size 0\n', '%s, a size of %d' % (words, size))
            ran = Ran([program, folder, words], size_word(2 ** 20), preexec_fn=limit)
            must_answer(ran, 8, b'cut 0\n', '%s, a size of the most, cut' % words)


# ---------------------------------------------------------------------- check

def tried_transactions():
    """Transactions after the chain with a contract, each with its status and its line."""
    fee_of_none = first.store.SHANNONS * 400 - 3000
    spends = [(contract.SPENDS_ON, 0)]

    def paying(capacity, **how):
        return contract.Transaction(spends, [contract.Cell(contract.ANYONE, capacity=capacity)], **how)

    def refused(rule, transaction):
        return 1, transaction.item, b'refused J%d\n' % rule

    yield 0, contract.transfer()[0], (contract.transfer()[1] + '\n').encode()
    yield refused(29, contract.FORCES)
    # to the shannon: all that the input has, one less, and one more
    yield 0, paying(fee_of_none).item, b'ok 0 1052\n'
    yield 0, paying(fee_of_none - 1).item, b'ok 1 1052\n'
    yield refused(27, paying(fee_of_none + 1))
    # what the output occupies, and a shannon less
    yield 0, paying(contract.ckb(41)).item, b'ok 35899997000 1052\n'
    yield refused(25, paying(contract.ckb(41) - 1))
    # the block after the tip has the number 13
    yield 0, paying(fee_of_none, since=13).item, b'ok 0 1052\n'
    yield refused(24, paying(fee_of_none, since=14))
    yield refused(18, paying(fee_of_none, version=1))
    yield refused(18, contract.Transaction(spends, []))
    yield refused(20, contract.SPENDS_TWICE)
    yield refused(20, contract.Transaction(spends * 2, [contract.Cell(contract.ANYONE, capacity=contract.ckb(41))]))
    # a dep that is spent, and no dep with the contract
    yield refused(21, paying(fee_of_none, deps=(*contract.DEPS, (contract.FUNDS, 0))))
    yield refused(28, paying(fee_of_none, deps=contract.DEPS[:1]))


def no_transactions(transaction):
    """Items that are no canonical `Transaction`."""
    size = len(transaction)
    yield size_word(4)
    yield size_word(8) + size_word(8)
    # a byte after the witnesses
    yield size_word(size + 1) + transaction[4:] + b'\0'
    # a third field
    raw, witnesses = fields_of(transaction)
    yield table([raw, witnesses, fixvec([])])
    yield table([raw])
    yield first.GENESIS.item()
    yield size_word(ITEM_LIMIT) + bytes(ITEM_LIMIT - 4)


def inputs_of_check():
    """(what, input, status, text)"""
    good, _ = contract.transfer()
    for status, item, text in tried_transactions():
        yield 'a transaction that is answered %r' % text, item, status, text
    for item in no_transactions(good):
        yield 'an item of %d bytes that is no transaction' % len(item), item, 1, b'refused J1\n'
    yield 'nothing', b'', 8, b'cut 0\n'
    yield 'a cut size word', good[:3], 8, b'cut 0\n'
    yield 'a size word alone', good[:4], 8, b'cut 0\n'
    yield 'a cut transaction', good[:-1], 8, b'cut 0\n'
    for size in (0, 3, ITEM_LIMIT + 1, (1 << 32) - 1):
        yield 'a size of %d' % size, size_word(size) + good, 9, b'bad size 0\n'
    yield 'a byte too many', good + b'\0', 12, b'extra %d\n' % len(good)
    yield 'a second transaction', good + good, 12, b'extra %d\n' % len(good)
    # the end of the input is looked for before the transaction is judged
    yield 'a byte after what is no transaction', size_word(4) + b'\0', 12, b'extra 4\n'
    longest = size_word(ITEM_LIMIT) + bytes(ITEM_LIMIT - 4)
    yield 'a byte after the longest item', longest + b'\0', 12, b'extra %d\n' % ITEM_LIMIT


def check_statuses_of_check(program):
    """Each, and that no run changes what is kept."""
    _, tip = contract.contract_chain()
    with contract_store(program) as folder:
        before = log_of(folder)
        for what, given, status, text in inputs_of_check():
            for piped in (False, True):
                must_answer(Ran([program, folder, 'check'], given, piped), status, text, what)
            must_be(log_of(folder), before, 'the log after a check of %s' % what)
        must_be(sorted(os.listdir(folder)), ['log.bin', 'snap_a.bin', 'snap_b.bin'], 'what is in the folder')
        must_have_tip(program, folder, (first.tip(tip) + '\n').encode(), 'after all checks')
    good, _ = contract.transfer()
    # without the chain there is nothing that it could spend
    with new_store(program, CONTRACT_INIT, CONTRACT_LINE) as folder:
        must_answer(Ran([program, folder, 'check'], good), 1, b'refused J20\n', 'after the genesis')
    # it has the cycles of a whole block, and not one more
    for cycles, status, text in ((505, 0, b'ok 1000 505\n'), (504, 1, b'refused J30\n')):
        given = first.changed(contract.SPEC, max_cycles=cycles).item() + contract.GENESIS.item()
        with new_store(program, given, CONTRACT_LINE) as folder:
            ran = Ran([program, folder, 'check'], contract.FUNDS.item)
            must_answer(ran, status, text, 'with %d cycles a block' % cycles)
    with new_folder() as folder:
        ran = Ran([program, folder, 'check'], good)
        must_answer(ran, 7, b'', 'check, where no store is')
        must_be(ran.read, 0, 'bytes read where no store is')


def check_line_before_the_end(program):
    """Who sends a byte too many need not end the input to be answered."""
    good, _ = contract.transfer()
    with contract_store(program) as folder, started([program, folder, 'check']) as process:
        process.stdin.write(good + b'\0')
        must_be(line_of(process), b'extra %d\n' % len(good), 'the line, before the input ends')
        must_be(status_of(process), 12, 'status')


# ----------------------------------------------------------------------- exec

def check_statuses_of_exec(program):
    with open(PRIMES, 'rb') as f:
        primes = f.read()
    # 12 bytes to load are 3 cycles, two ADDI are 2, ECALL is 500
    cases = [
        ('primes', primes, '1000000', 0, b'exit 25 8337\n'),
        ('primes, to the cycle', primes, '8337', 0, b'exit 25 8337\n'),
        ('primes, a cycle short', primes, '8336', 0, b'spent\n'),
        ('exit with -1', elf(addi(A7, 93), addi(A0, -1), ECALL), '505', 0, b'exit -1 505\n'),
        ('an unknown syscall', elf(addi(A7, 94), addi(A0, 0), ECALL), '505', 0, b'fault 5 505\n'),
        ('no file', b'', '0', 0, b'bad elf 1\n'),
        ('the longest file', bytes(1 << 20), '1', 0, b'bad elf 2\n'),
        ('a longer file', bytes((1 << 20) + 2), '1', 12, b'extra 1048576\n'),
    ]
    # the folder is not looked at, and need not be there
    for what, stdin, budget, status, wanted in cases:
        for piped in (False, True):
            must_answer(Ran([program, '/no/such/folder', 'exec', budget], stdin, piped), status, wanted, what)
    ran = Ran([program, 'any', 'exec', '1'], bytes(1 << 21))
    must(ran.read <= (1 << 20) + 1, 'more is read than a byte after the longest file')


# each file of examples/scripts with its line; what it exits with is worked out from its source, and the cycles are those
# of bench/rvref.c. One that loads its script goes no further: `exec` shows it none
SAMPLES = {
    'calls.elf': 'fault 5 1315',
    'checks.elf': 'fault 5 763', 'code.elf': 'fault 5 669', 'count.elf': 'fault 5 530', 'exit.elf': 'fault 5 543',
    'global.elf': 'exit 42 703', 'table.elf': 'exit 19 2096',
}


def check_samples(program):
    must_be(sorted(it for it in os.listdir(SCRIPTS) if it.endswith('.elf')), sorted(SAMPLES), 'the files of examples/scripts')
    for name, line in SAMPLES.items():
        with open(os.path.join(SCRIPTS, name), 'rb') as f:
            given = f.read()
        cycles = int(line.split()[-1])
        for budget, wanted in ((10 ** 6, line), (cycles, line), (cycles - 1, 'spent')):
            must_answer(Ran([program, 'any', 'exec', str(budget)], given), 0, wanted.encode() + b'\n',
                        '%s with %d cycles' % (name, budget))


def check_calls_of_a_lock(program):
    """The lock that makes each call of examples/scripts/ckb.h, on a chain that has it in place of one for signatures."""
    with open(os.path.join(SCRIPTS, 'calls.elf'), 'rb') as f:
        scenery = signature.Scenery(f.read())
    init, line = signature.SPEC.item() + scenery.genesis.item(), first.genesis_line(scenery.genesis) + '\n'
    given, text = first.input_and_text(scenery.blocks()[0])
    with new_store(program, init, line.encode()) as folder:
        must_answer(Ran([program, folder, 'import'], given), 0, text, 'the blocks with the lock')
        # the cycles are those of examples/script_machine.py: 14,318 of the lock, and 505 of the program that exits with 0
        must_answer(Ran([program, folder, 'check'], scenery.spends([b'']).item), 0, b'ok 10000 14823\n', 'each call')
        must_answer(Ran([program, folder, 'check'], scenery.spends([]).item), 1, b'refused J29\n', 'without a witness')


# ------------------------------------------------------------ asm, dis, unjson

def check_statuses_of_texts(program):
    exit0 = elf(addi(A7, 93), addi(A0, 0), ECALL)
    text = b'addi x17,x0,93\naddi x10,x0,0\necall\n'
    listing = b'0 addi x17,x0,93\n4 addi x10,x0,0\n8 ecall\n'
    cases = [
        ('a program that exits', 'asm', text, 0, exit0),
        ('no text', 'asm', b'', 0, elf()),
        ('a bad line after two skipped ones', 'asm', b'# a note\n\nnop\n', 1, b'bad line 3\n'),
        ('the longest text', 'asm', b'\n' * (1 << 20), 0, elf()),
        ('a longer text', 'asm', b'\n' * ((1 << 20) + 2), 12, b'extra 1048576\n'),
        ('its code', 'dis', exit0[-12:], 0, listing),
        ('no code', 'dis', b'', 0, b''),
        ('longer code', 'dis', bytes((1 << 20) + 2), 12, b'extra 1048576\n'),
        ('no text', 'unjson', b'', 1, b'bad json\n'),
        ('spaces alone', 'unjson', b' ' * (1 << 24), 1, b'bad json\n'),
        ('a longer text', 'unjson', b' ' * ((1 << 24) + 2), 12, b'extra 16777216\n'),
    ]
    # the folder is not looked at, and need not be there
    for what, word, stdin, status, wanted in cases:
        for piped in (False, True):
            must_answer(Ran([program, '/no/such/folder', word], stdin, piped), status, wanted, '%s: %s' % (word, what))
    ran = Ran([program, 'any', 'unjson'], b' ' * (1 << 25))
    must(ran.read <= (1 << 24) + 1, 'more is read than a byte past the longest text')


def check_generated_blocks(program):
    """Nothing is read, and no folder is looked at."""
    for words, line in (('0 0', b'made 0 joined 0 height 0 cells 2\n'),
                        ('0 20', b'made 20 joined 20 height 18 cells 9\n'),
                        ('5 2000', b'made 2000 joined 2000 height 1714 cells 1705\n')):
        ran = Ran([program, '/no/such/folder', 'make', *words.split()], FIRST_INIT)
        must_answer(ran, 0, line, 'make ' + words)
        must_be(ran.read, 0, 'make %s: bytes read' % words)


def instructions_of(program, code):
    """The texts of the instructions in a listing of code, without what is none, each with its offset."""
    lines = [line.split(b' ', 1) for line in Ran([program, 'any', 'dis'], code).out.splitlines()]
    return [(int(offset), text) for offset, text in lines if not text.startswith(b'.')]


def check_listings_assemble(program):
    """Each instruction that `dis` lists goes back through `asm`, to a word of four bytes that is listed so again."""
    random = Random(1)
    codes = [random.randbytes(1 << 20) for _ in range(1)] + [
        b''.join(uint(random.getrandbits(32), 4) for _ in range(50000)) for _ in range(2)]
    for name in sorted(os.listdir(SCRIPTS)):
        if name.endswith('.elf'):
            with open(os.path.join(SCRIPTS, name), 'rb') as f:
                codes.append(f.read())
    with open(PRIMES, 'rb') as f:
        codes.append(f.read())
    some = 0
    for code in codes:
        texts = [text for _, text in instructions_of(program, code)]
        some += len(texts)
        # a text of `asm` has at most 1,048,576 bytes, and a line of `dis` is shorter than 40
        for at in range(0, len(texts), 25000):
            part = texts[at:at + 25000]
            ran = Ran([program, 'any', 'asm'], b''.join(text + b'\n' for text in part))
            must_be((ran.status, len(ran.out)), (0, 120 + 4 * len(part)), 'asm of a listing')
            must_be(instructions_of(program, ran.out[120:]), [(4 * i, text) for i, text in enumerate(part)],
                    'the listing of what asm makes of a listing')
    must(some > 100000, 'only %d instructions were listed' % some)


def check_no_other_line_assembles(program):
    for line in ('addi x1,x1,2048', 'addi x1,x1,-2049', 'addi x32,x0,0', 'addi x1, x1,1', 'addi  x1,x1,1', ' ecall', 'ecall ',
                 'addi\tx1,x1,1', 'ADDI x1,x1,1', 'addi X1,x1,1', 'addi x1,x1,+1', 'addi x1,x1,-0', 'addi x1,x1,007',
                 'addi x01,x1,1', 'ecall\r', 'nop', 'beq x1,x2,1', 'beq x1,x2,4096', 'jal x1,1048576', 'lui x1,1048576',
                 'lui x1,-1', 'slli x1,x1,64', 'slliw x1,x1,32', 'sw x1,x2', 'lw x1,(x2)', 'lw x1,0(x2)#', 'addi x1,x1,0x1'):
        must_answer(Ran([program, 'any', 'asm'], b'ecall\n' + line.encode() + b'\n'), 1, b'bad line 2\n', repr(line))
    for line in ('addi x1,x1,2047', 'addi x1,x1,-2048', 'beq x1,x2,-4096', 'beq x1,x2,4094', 'jal x1,-1048576',
                 'jal x1,1048574', 'lui x31,1048575', 'lui x0,0', 'slli x1,x1,63', 'slliw x1,x1,31', 'sd x31,-2048(x30)',
                 'lw x1,2047(x2)', 'fence', 'fence.i', 'ebreak'):
        ran = Ran([program, 'any', 'asm'], line.encode())
        must_be((ran.status, instructions_of(program, ran.out[120:])), (0, [(0, line.encode())]), repr(line))


# --------------------------------------------------------------------- faults

def check_failing_input(program):
    with new_folder() as empty, new_store(program) as kept:
        for words in ([empty, 'init'], [kept, 'import'], [kept, 'check'], [kept, 'exec', '9']):
            folder = os.open('/', os.O_RDONLY)
            try:
                must_answer(Ran([program, *words], stdin=folder), 3, b'', '%s of a folder' % words[1])
            finally:
                os.close(folder)
            closed = Ran(['sh', '-c', 'exec "$@" <&-', '', program, *words])
            must_answer(closed, 3, b'', '%s of a closed standard input' % words[1])
        line = (first.tip(first.GENESIS) + '\n').encode()
        closed = Ran(['sh', '-c', 'exec "$@" <&-', '', program, kept, 'tip'])
        must_answer(closed, 0, line, 'tip, which reads nothing')
        must_have_tip(program, kept, line, 'after runs without input')


def check_failing_output(program):
    """The status, and that what was answered is kept, and no line lands in a file of the store."""
    # more text than a pipe holds
    chain = chain_of(3000)
    given, text = b''.join(chain.blocks), b''.join(chain.lines)
    for piece in (0, 1, 100, 5000):
        # the reader goes when it has so many bytes
        with chain.store(program) as folder, file_with(given) as stdin:
            process = subprocess.Popen([program, folder, 'import'], stdin=stdin, stdout=subprocess.PIPE, bufsize=0)
            if piece == 0:
                process.stdout.close()
            got = b''
            while len(got) < piece:
                got += os.read(process.stdout.fileno(), piece - len(got))
            process.stdout.close()
            must_be(status_of(process), 4, 'a pipe that is closed after %d bytes: status' % piece)
            must_be(got, text[:piece], 'a pipe that is closed after %d bytes' % piece)
            count = got.count(b'\n')
            known = b''.join(chain.known(at) for at in range(1, count + 1))
            must_answer(Ran([program, folder, 'import'], b''.join(chain.blocks[:count])), 0, known,
                        'the blocks whose lines were read')
    for closes in ('>&-', '>&- <&-', '>&- 2>&-'):
        with new_store(program) as folder:
            block, line = first.first_blocks()[0][0]
            closed = Ran(['sh', '-c', 'exec "$@" ' + closes, '', program, folder, 'tip'])
            must_answer(closed, 4, b'', 'tip with ' + closes)
            closed = Ran(['sh', '-c', 'exec "$@" ' + closes, '', program, folder, 'import'], block)
            must_answer(closed, 3 if '<' in closes else 4, b'', 'import with ' + closes)
            closed = Ran(['sh', '-c', 'exec "$@" ' + closes, '', program, folder, 'check'], size_word(4))
            must_answer(closed, 3 if '<' in closes else 4, b'', 'check with ' + closes)
            must_answer(Ran([program, folder, 'import'], block), 0,
                        ((line if '<' in closes else line.replace('joined 1', 'known')) + '\n').encode(),
                        'import after one with ' + closes)


def check_full_output(program):
    if not os.path.exists('/dev/full'):
        return
    chain = chain_of(1)
    with open(PRIMES, 'rb') as f:
        primes = f.read()
    with open('/dev/full', 'wb') as full, new_folder() as empty, chain.store(program) as kept:
        runs = (([empty, 'init'], chain.init), ([kept, 'import'], chain.blocks[0]), ([kept, 'tip'], b''),
                ([kept, 'check'], size_word(4)), ([kept, 'exec', '9999'], primes))
        for words, content in runs:
            with file_with(content) as stdin:
                process = subprocess.Popen([program, *words], stdin=stdin, stdout=full)
                must_be(status_of(process), 4, '%s to a full disk: status' % words[1])
        must_have_tip(program, kept, chain.tip(1), 'a block whose line was lost')
