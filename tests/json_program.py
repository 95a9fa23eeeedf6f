"""`ckbjson` over the items of examples/: their texts beside a writer in plain Python, sealed blocks, hashes, what is said of wrong texts,
words and streams."""

import functools
import itertools
import json
import os
import subprocess
import sys

import block_json
from harness import TOP, Ran, contract, first, must, must_answer, must_be, new_folder
from encoding import ckbhash, fields_of, table, transactions_root, uint

sys.path.append(os.path.join(TOP, 'tests', 'rows'))
import spec_items  # noqa: E402 (beside the path above)
import wrong_texts  # noqa: E402

INPUT_LIMIT = 1 << 24


@functools.lru_cache(None)
def converter():
    """The program, which is built where there is none."""
    subprocess.run([sys.executable, os.path.join(TOP, 'tools', 'build.py'), 'ckbjson'], stdin=subprocess.DEVNULL)
    program = os.path.join(TOP, 'build', 'ckbjson')
    must(os.access(program, os.X_OK), 'there is no program %s' % program)
    return program


def blocks():
    """Every block of examples/ that is one."""
    items = first.first_blocks()[0] + contract.contract_chain()[0]
    return [first.GENESIS.item(), *(item for item, line in items if line != 'refused J1')]


def compact(tree):
    return json.dumps(tree, separators=(',', ':')).encode()


def witness_tree(b):
    lock, message = fields_of(b)
    return {'lock': block_json.script(lock), 'message': block_json.text(message[4:])}


@functools.lru_cache(None)
def items():
    """(the kind, the bytes, the tree) of each block and of its parts, each once."""
    found = {}
    for block in blocks():
        found['block', block] = block_json.tree_of(block)
        for place, transaction in enumerate(fields_of(fields_of(block)[2])):
            found['transaction', transaction] = block_json.of_transaction(transaction)
            raw, witnesses = fields_of(transaction)
            for output in fields_of(fields_of(raw)[4]):
                for script in filter(None, fields_of(output)[1:]):
                    found['script', script] = block_json.script(script)
            held = fields_of(witnesses)[:1]
            if place == 0 and held and len(held[0]) > 16:
                found['witness', held[0][4:]] = witness_tree(held[0][4:])
    for spec in (first.SPEC, contract.SPEC):
        found['spec', spec.item()] = spec_items.tree_of(spec.item())
    return [(kind, item, tree) for (kind, item), tree in found.items()]


def lines_of_hashes(kind, item):
    if kind == 'block':
        hashes = [ckbhash(fields_of(it)[0]) for it in fields_of(fields_of(item)[2])]
        lines = ['hash 0x%s' % ckbhash(fields_of(item)[0]).hex(), *('transaction 0x%s' % it.hex() for it in hashes)]
    else:
        own = ckbhash(fields_of(item)[0]).hex()
        lines = ['hash 0x' + own, 'witness hash 0x' + ckbhash(item).hex(), 'proposal id 0x' + own[:20], 'size %d' % len(item)]
    return ''.join(line + '\n' for line in lines).encode()


def must_refuse(words, given, line):
    ran = Ran([converter(), *words], given)
    must_be((ran.status, ran.out, ran.err), (1, b'', line), '%s of %r' % (words, given[:60]))


# ---------------------------------------------------------------------- checks

def check_json_items(_):
    """Each item is shown as its text, and read from it, also with spaces and line feeds."""
    kinds = {kind for kind, _, _ in items()}
    must_be(kinds, {'block', 'transaction', 'script', 'witness', 'spec'}, 'what the samples hold')
    for kind, item, tree in items():
        must_answer(Ran([converter(), kind, '--show'], item), 0, compact(tree) + b'\n', kind)
        for given in (compact(tree), json.dumps(tree, indent=1).encode()):
            must_answer(Ran([converter(), kind], given), 0, item, kind)


def check_json_ids(_):
    """The hashes of each transaction and block; nothing else has any."""
    for kind, item, _ in items():
        if kind in ('transaction', 'block'):
            must_answer(Ran([converter(), 'id'], item), 0, lines_of_hashes(kind, item), 'the hashes of a ' + kind)
        else:
            must_refuse(['id'], item, b'ckbjson: no bytes of a transaction or of a block\n')


def check_json_refused(_):
    """An item of one kind is none of another, and a refusal is said on standard error alone."""
    samples = {kind: (item, tree) for kind, item, tree in items()}
    for kind, (item, tree) in samples.items():
        for other in samples:
            if other != kind:
                must_refuse([other, '--show'], item, b'ckbjson: no bytes of a %s\n' % other.encode())
                must_refuse([other], compact(tree), wrong_texts.said_of(other, compact(tree)).encode())
        must_refuse([kind, '--show'], item[:-1], b'ckbjson: no bytes of a %s\n' % kind.encode())
        must_refuse([kind, '--show'], b'', b'ckbjson: no bytes of a %s\n' % kind.encode())


def check_json_wrong_texts(_):
    """What is said of each text that is refused, beside a reader in plain Python."""
    rows = wrong_texts.rows()
    must(len(rows) >= 200, 'there are %d wrong texts' % len(rows))
    for kind, given, line in rows:
        must_refuse([kind], given, line.encode())
    for given, line in [(text, line) for kind, text, line in rows if kind == 'block'][:10]:
        must_refuse(['block', '--seal'], given, line.encode())


def check_json_specifications(_):
    """The rows of spec_items.py, in both directions."""
    for word, given, wanted in spec_items.rows():
        if word == 'spec':
            must_answer(Ran([converter(), 'spec', '--show'], given), 0, wanted + b'\n', 'the text of ' + given.hex())
            must_answer(Ran([converter(), 'spec'], wanted), 0, given, repr(wanted))
        else:
            must_answer(Ran([converter(), 'spec'], given), 0, wanted, repr(given))


def sealed(block):
    """The block with what its header commits to, by docs/RULES.md; None where a number leaves u64."""
    header, uncles, transactions, proposals = fields_of(block)
    hashes = [transactions_root(fields_of(transactions)), hash_of(proposals[4:]),
              hash_of(b''.join(ckbhash(fields_of(it)[0]) for it in fields_of(uncles)))]
    dao = header[160:192]
    if header[16:24] == bytes(8):
        outputs = [it for transaction in fields_of(transactions) for it in outputs_of(fields_of(transaction)[0])]
        sums = [sum(it) for it in zip(*outputs)] or [0, 0]
        if max(sums) >= 1 << 64:
            return None
        dao = uint(sums[0], 8) + dao[8:24] + uint(sums[1], 8)
    return table([header[:64] + b''.join(hashes) + dao + header[192:], uncles, transactions, proposals])


def hash_of(content):
    return ckbhash(content) if content else bytes(32)


def outputs_of(raw):
    """(what each output holds, what it occupies with its data, of which there may be none)."""
    _, _, _, _, outputs, contents = fields_of(raw)
    for output, content in itertools.zip_longest(fields_of(outputs), fields_of(contents)[:len(fields_of(outputs))], fillvalue=bytes(4)):
        capacity, *scripts = fields_of(output)
        size = 8 + len(content) - 4 + sum(33 + len(fields_of(it)[2]) - 4 for it in scripts if it)
        yield int.from_bytes(capacity, 'little'), size * 10 ** 8


def check_json_sealed(_):
    """A block is what it was, where only what its header commits to was changed, and so is one with an uncle and proposals."""
    for block in blocks():
        header, *rest = fields_of(block)
        is_genesis = header[16:24] == bytes(8)
        spoilt = header[:64] + bytes(range(96)) + (bytes(8) + header[168:184] + bytes(8) if is_genesis else header[160:192]) + header[192:]
        tree = block_json.tree_of(table([spoilt, *rest]))
        must_answer(Ran([converter(), 'block', '--seal'], compact(tree)), 0, block, 'a sealed block')
        must_be(sealed(table([spoilt, *rest])), block, 'a block that is sealed in Python')
    tree = next(tree for kind, tree in wrong_texts.samples() if kind == 'block')
    transaction, = tree['transactions']
    others = [], [transaction] * 3, [{**transaction, 'outputs_data': []}], [{**transaction, 'outputs': [], 'outputs_data': []}]
    for number in ('0x0', '0x5', '0x100000000'):
        for transactions in (tree['transactions'], *others):
            it = {**tree, 'header': {**tree['header'], 'number': number}, 'transactions': transactions}
            whole = Ran([converter(), 'block'], compact(it)).out
            must_answer(Ran([converter(), 'block', '--seal'], compact(it)), 0, sealed(whole), 'an uncle and proposals, number ' + number)


def check_json_sealed_genesis(program):
    """A genesis that was changed makes a store, and has another hash; one whose cells hold too much is named."""
    tree = block_json.tree_of(first.GENESIS.item())
    outputs = tree['transactions'][0]['outputs']
    outputs[1]['capacity'] = hex(12345 * 10 ** 8)
    tree['header']['timestamp'] = hex(5000)
    ran = Ran([converter(), 'block', '--seal'], compact(tree))
    must_be(ran.status, 0, 'the seal of a genesis that was changed')
    must_be(ran.out, sealed(Ran([converter(), 'block'], compact(tree)).out), 'a genesis that is sealed in Python')
    must(ckbhash(fields_of(ran.out)[0]) != first.GENESIS.hash(), 'a genesis that was changed keeps its hash')
    with new_folder() as folder:
        line = b'genesis 0x%s\n' % ckbhash(fields_of(ran.out)[0]).hex().encode()
        must_answer(Ran([program, folder, 'init'], first.SPEC.item() + ran.out), 0, line, 'init of a sealed genesis')
    held = int(outputs[0]['capacity'], 16)
    outputs[1]['capacity'] = hex((1 << 64) - 1 - held)
    must_be(Ran([converter(), 'block', '--seal'], compact(tree)).status, 0, 'cells that hold as much as a field has room for')
    outputs[1]['capacity'] = hex((1 << 64) - held)
    must_refuse(['block', '--seal'], compact(tree),
                b'ckbjson: the block is not sealed: its cells hold or occupy more than 2^64 - 1 shannons\n')


# what the script says of words that are none of its own
WRONG_WORDS = [
    ([], 'there are no words'), (['Block'], "there is no kind 'Block'; did you mean 'block'?"), (['q'], "there is no kind 'q'"),
    (['', 'x'], "there is no kind ''"), (['a\nb'], "there is no kind 'a?b'"), (['--show'], 'the kind comes first: ckbjson KIND --show'),
    (['--seal', 'block'], 'the kind comes first: ckbjson block --seal'), (['id', 'x'], "id takes no word after it, and here is 'x'"),
    (['block', 'show'], "after block may stand --show or --seal, and not 'show'"), (['spec', '--seal'], "after spec may stand --show, and not '--seal'"),
    (['block', '--seal', '--show'], 'block takes at most one word after it, and here there are 2'),
]


def check_json_script_says_what_is_wrong_with_words(_):
    """One line before the usage text, and nothing is read."""
    for words, why in WRONG_WORDS:
        ran = Ran([os.path.join(TOP, 'ckbjson'), *words], b'{}')
        must_be((ran.status, ran.out, ran.read), (2, b'', 0), repr(words))
        must_be(ran.err.split(b'\nusage: ')[0].decode(), 'ckbjson: ' + why, repr(words))


def check_json_words_and_streams(_):
    """Words outside the grammar read and write nothing; a stream that fails has its status."""
    kind, item, tree = next(it for it in items() if it[0] == 'transaction')
    for words in ([], [''], ['Block'], ['transactions'], ['--show'], ['--show', 'block'], ['block', 'show'], ['block', '--show', ''],
                  ['id', '--show'], ['id', 'block'], ['block', 'block'], ['specification'], ['block', '--Show'], ['spec', '--seal'],
                  ['transaction', '--seal'], ['--seal'], ['block', '--seal', '--show'], ['id', '--seal']):
        ran = Ran([converter(), *words], item)
        must_be((ran.status, ran.out, ran.read), (2, b'', 0), repr(words))
    must_be(Ran([converter(), 'id'], bytes(INPUT_LIMIT + 1)).status, 12, 'an input that is too long')
    must_be(Ran([converter(), 'id'], bytes(INPUT_LIMIT)).status, 1, 'the longest input')
    must_answer(Ran([converter(), kind], compact(tree), piped=True), 0, item, 'by pipes')
    with open('/dev/full', 'wb') as full:
        ran = subprocess.run([converter(), kind], input=compact(tree), stdout=full, stderr=subprocess.DEVNULL, check=False)
    must_be(ran.returncode, 4, 'a full standard output')
    must_be(Ran(['sh', '-c', 'exec "$@" <&-', '', converter(), kind]).status, 3, 'a closed standard input')


def check_json_document(_):
    """What docs/COMMANDS.md shows of hashes is what comes, by the script."""
    with open(os.path.join(TOP, 'docs', 'COMMANDS.md'), encoding='utf-8') as f:
        part = f.read().split('\n## JSON and bytes\n')[1].split('\n## ')[0]
    shown = [line[4:] for line in part.splitlines() if line.startswith('    ')][4:]
    command, wanted = shown[0], shown[1:5]
    # the script has a build to run
    converter()
    with new_folder() as away:
        for name in ('ckbjson', 'examples'):
            os.symlink(os.path.join(TOP, name), os.path.join(away, name))
        must_answer(Ran(['sh', '-c', './' + command], cwd=away), 0, ''.join(line + '\n' for line in wanted).encode(), command)
        wrong, line = shown[5:]
        ran = Ran(['sh', '-c', wrong.replace('ckbjson', './ckbjson')], cwd=away)
        must_be((ran.status, ran.out, ran.err), (1, b'', line.encode() + b'\n'), wrong)
    with open(os.path.join(TOP, 'examples', 'transfer.bin'), 'rb') as f:
        must_be(lines_of_hashes('transaction', f.read()).decode().splitlines(), wanted, 'the hashes in docs/COMMANDS.md')


def check_json_stored(_):
    """The stored run of the crate has the text of a writer in plain Python."""
    crate = os.path.join(TOP, 'crates', 'ckbjson')
    with open(os.path.join(crate, 'stdin'), 'rb') as given, open(os.path.join(crate, 'stdout'), 'rb') as text:
        must_be(text.read(), compact(block_json.of_transaction(given.read())) + b'\n', 'crates/ckbjson/stdout')
