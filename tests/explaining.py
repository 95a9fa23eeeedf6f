"""The pages of `ckbtrace FOLDER check` and `ckbtrace FOLDER import`: the line and the status beside the rows of rows/runs.txt, each
line below beside explain_model.py and trace_model.py, and the store as it was."""

import collections
import concurrent.futures
import functools
import os
import re
import sys

from harness import (CONTRACT_INIT, CONTRACT_LINE, TOP, Ran, contract, contract_store, first, must, must_answer, must_be,
                     must_be_lines, new_folder, new_store, size_word)
import encoding
import explain_model
import runs
import trace_model
import tracing


def text_of(columns):
    return runs.bytes_of(columns[4]).decode('latin1') if len(columns) > 4 else ''


def each_item(columns):
    """Of an import of several items a row for each that is refused or known, with the row of those before it."""
    items, lines = items_of(runs.bytes_of(columns[3])), text_of(columns).splitlines(True)
    for i, (item, line) in enumerate(zip(items, lines)):
        if line.split(' ')[0] in ('refused', 'known'):
            first = ['', 'import', '0', b''.join(items[:i]).hex() or '-', ''.join(lines[:i]).encode().hex() or '-']
            yield first, ['', 'import', '1' if line.startswith('refused') else '0', item.hex(), line.encode().hex()]


class Asked:
    """A row that is asked for, with the rows before it that made the store."""

    def __init__(self, before, columns):
        self.before, self.command = before, columns[1].split(' ')[0]
        self.item, self.status, self.line = runs.bytes_of(columns[3]), int(columns[2]), text_of(columns)

    def rule(self):
        return int(self.line[9:]) if self.line.startswith('refused J') else None


def asked_rows():
    """Each transaction that is checked, and each block that is refused or known, of folders that commands alone made."""
    for rows in runs.folders():
        before = []
        for columns in rows:
            if columns[0] == 'put':
                break
            if len(columns) < 4 or not runs.is_run(columns):
                continue
            command = columns[1].split(' ')[0]
            if command == 'check':
                yield Asked(list(before), columns)
            if command == 'import':
                for first, one in each_item(columns):
                    yield Asked(before + [first], one)
            before.append(columns)


# of how many rows of each command and rule the pages are made, and how many are looked at of those that are alike but for numbers
# and hashes
MADE, ALIKE = 40, 2


def some_rows():
    """Rows of each command and rule whose pages differ, each with what it is to show."""
    made, taken = collections.Counter(), collections.Counter()
    for asked in asked_rows():
        key = asked.command, asked.rule() or asked.line.split(' ')[0]
        made[key] += 1
        if made[key] <= MADE:
            lines = wanted_lines(asked)
            shape = key, re.sub('0x[0-9a-f]+|[0-9]+', 'N', '\n'.join(lines[:12]))
            taken[shape] += 1
            if taken[shape] <= ALIKE:
                yield asked, lines


def makes(columns):
    return columns[1].split(' ')[0] in ('init', 'import', 'migrate')


def items_of(content):
    items = []
    while content:
        size = int.from_bytes(content[:4], 'little')
        items.append(content[:size])
        content = content[size:]
    return items


def store_of(before):
    """The model's store after these rows, by what they answered."""
    store = None
    for columns in before:
        command, lines = columns[1].split(' ')[0], text_of(columns).splitlines()
        items = items_of(runs.bytes_of(columns[3])) if command in ('init', 'import') else []
        if command == 'init' and columns[2] == '0':
            store = explain_model.Store(*items)
        if command == 'import':
            for item, line in zip(items, lines):
                if line.startswith('joined'):
                    store.keep(item)
        if command == 'migrate' and columns[2] == '0':
            store.second_from = int(columns[1].split(' ')[1])
    return store


def wanted_lines(asked, group=None):
    """What the lines below the first are."""
    store, rule, is_block = store_of(asked.before), asked.rule(), asked.command == 'import'
    if rule is None and (is_block or asked.status != 0):
        # of what joins, is known or is no item there is no more
        return []
    if rule is None or rule in range(28, 31):
        groups = (trace_model.groups_in_block if is_block else trace_model.groups_after_tip)(store, asked.item, group)
        must_be(groups.rule, rule, 'what the groups break by the model')
        lines = groups.page()
        if rule is None:
            must_be(asked.line.split()[2], str(store.spec.max_cycles - groups.left), 'the cycles by the model')
            return lines
    else:
        lines = (explain_model.of_block if is_block else explain_model.of_transaction)(store, asked.item, rule)
    return ['J%d: %s' % (rule, words_of_rule(rule)), *lines]


# the rules that the page says in other words than docs/RULES.md
REWORDED = {
    1: 'the bytes are a canonical item of the kind that is asked for',
    5: "its number is its parent's plus 1",
    19: 'its id was proposed in the branch, w_close to w_far blocks before',
    22: 'each header dep is the hash of an ancestor that may be named',
    23: 'from the block of each input and resolved dep that a cellbase made the span maturity is over',
    27: 'what the outputs hold is at most what the inputs count, and both sums are at most 2^64 - 1',
    30: 'the groups take no more cycles than are left',
}


@functools.lru_cache(None)
def words_of_rule(rule):
    """Those of docs/RULES.md, without marks and what it says in parentheses, where the page has no others."""
    with open(os.path.join(TOP, 'docs', 'RULES.md'), encoding='utf-8') as f:
        row = next(it for it in f if it.startswith('| J%d |' % rule)).split(' | ')
    return REWORDED.get(rule) or re.sub(r' \([^)]*\)', '', row[1]).replace('`', '')


def must_explain(asked, wanted, status, page):
    """The line and the status are those of the command, and each line below is that of the model."""
    what = '%s of %s' % (asked.command, asked.line.strip() or 'an input that ends early')
    must_be(status, asked.status, 'the status of ' + what)
    must(page.startswith(asked.line), '%s begins otherwise: %r' % (what, page[:200]))
    must_be_lines(page[len(asked.line):].splitlines(), wanted, what)


def files_of(folder):
    found = {}
    for name in sorted(os.listdir(folder)):
        with open(os.path.join(folder, name), 'rb') as f:
            found[name] = f.read()
    return found


def must_be_explained(program, asked, wanted):
    with new_folder() as top:
        folder = os.path.join(top, 'any')
        os.mkdir(folder)
        for columns in filter(makes, asked.before):
            Ran([program, *runs.words_of(columns[1])], runs.bytes_of(columns[3]), cwd=top)
        # a run that opens the store leaves its snapshots as any later one does
        Ran([program, 'any', 'tip'], cwd=top)
        before = files_of(folder)
        ran = Ran([tracing.tracer(), 'any', asked.command], asked.item, cwd=top)
        must_be(ran.err, b'', 'standard error')
        must_explain(asked, wanted, ran.status, ran.out.decode('latin1'))
        must(files_of(folder) == before, 'the store of %s has changed' % asked.line.strip())


def check_explained_items(program):
    """The page of refused and other items of each rule: the line and the status, and what the model says; the store is as it was."""
    # it is built once, before there are threads
    tracing.tracer()
    rows = list(some_rows())
    must({it.rule() for it, _ in rows} >= set(range(1, 33)) - {2}, 'a rule has no example')
    with concurrent.futures.ThreadPoolExecutor(os.cpu_count()) as pool:
        list(pool.map(lambda it: must_be_explained(program, *it), rows))


def pages_with(groups, asked, program):
    """What comes with each group asked for in turn."""
    with new_folder() as top:
        os.mkdir(os.path.join(top, 'any'))
        for columns in filter(makes, asked.before):
            Ran([program, *runs.words_of(columns[1])], runs.bytes_of(columns[3]), cwd=top)
        return [Ran([tracing.tracer(), 'any', asked.command, '--group', str(it)], asked.item, cwd=top) for it in groups]


def check_explained_groups(program):
    """With --group the page of a group comes below those of all, whether it passed or failed; of a number that no group has no more."""
    found = {}
    for asked in asked_rows():
        found.setdefault((asked.command, asked.rule() or asked.line.split(' ')[0]), asked)
    for key in (('check', 'ok'), ('check', 28), ('check', 29), ('import', 28), ('import', 29), ('import', 30), ('import', 32)):
        for group, ran in zip((0, 1, 99), pages_with((0, 1, 99), found[key], program)):
            must_explain(found[key], wanted_lines(found[key], group), ran.status, ran.out.decode('latin1'))


class Uncle:
    """A block as an uncle, with other ids than its own, or with bytes of its header changed from a place on."""

    def __init__(self, block, ids=None, at=0, changed=b''):
        self.ids = block.proposals if ids is None else ids
        header = block.header() if ids is None else block.header()[:96] + encoding.hash_of_all(self.ids) + block.header()[128:]
        self.header = header[:at] + changed + header[at + len(changed):]

    def as_uncle(self):
        return encoding.uncle(self.header, self.ids)

    def hash(self):
        return encoding.ckbhash(self.header)


def wrong_uncles(good, parent, grandparent):
    """Uncles of a block on the parent that are none, each with what it is; the good one stands beside the parent."""
    def u64(number):
        return encoding.uint(number, 8)
    ids = [bytes([i]) * 10 for i in range(3)]
    yield 'another compact target', [Uncle(good, at=4, changed=encoding.uint(7, 4))]
    yield 'another epoch', [Uncle(good, at=24, changed=u64(good.number // 10 + 1 | 10 << 40))]
    yield 'the number of the block', [Uncle(good, at=16, changed=u64(parent.number + 1))]
    yield "a number that is not its parent's plus 1", [Uncle(good, at=16, changed=u64(grandparent.number))]
    yield 'a parent that is not there', [Uncle(good, at=32, changed=bytes(32))]
    yield 'an ancestor', [parent]
    yield 'one twice', [good, good]
    yield 'one id twice', [Uncle(good, [*ids, ids[1]])]
    yield 'too many ids', [Uncle(good, [i.to_bytes(10, 'little') for i in range(contract.SPEC.max_proposals + 1)])]
    yield 'the hash of other ids', [Uncle(good, at=96, changed=bytes([1]) * 32)]
    yield 'a second that is none', [good, Uncle(good, at=4, changed=encoding.uint(7, 4))]


def check_explained_uncles(program):
    """Of J15 each part that an uncle may lack."""
    below = contract.Block(contract.GENESIS)
    parent, good = contract.Block(below), contract.Block(below, nonce=1)
    above = contract.Block(parent, uncles=[good])
    chain = [it.item() for it in (below, parent, above)]
    model = explain_model.Store(contract.SPEC.item(), contract.GENESIS.item())
    for item in chain:
        model.keep(item)
    cases = [(what, contract.Block(parent, uncles=uncles)) for what, uncles in wrong_uncles(good, parent, below)]
    cases.append(('one that an ancestor has', contract.Block(above, uncles=[good])))
    with new_store(program, CONTRACT_INIT, CONTRACT_LINE) as folder:
        must_be(Ran([program, folder, 'import'], b''.join(chain)).status, 0, 'the blocks below')
        for what, block in cases:
            must_be(Ran([program, folder, 'import'], block.item()).out, b'refused J15\n', what)
            page = Ran([tracing.tracer(), folder, 'import'], block.item()).out.decode()
            wanted = ['refused J15', 'J15: ' + words_of_rule(15), *explain_model.of_block(model, block.item(), 15)]
            must_be_lines(page.splitlines(), wanted, what)


def check_explaining_words(program):
    """Words outside the grammar read and write nothing; what cannot be opened has the status of check."""
    for words in (['any', 'tip'], ['any', 'check', 'x'], ['any', 'check', '--group'], ['any', 'check', '--group', '01'],
                  ['any', 'import', '--group', '4294967296'], ['any', 'import', '--group', '1', '2']):
        ran = Ran([tracing.tracer(), *words], b'abcd')
        must_be((ran.status, ran.out, ran.read), (2, b'', 0), repr(words))
    with new_folder() as top:
        for command in ('check', 'import'):
            must_be(Ran([tracing.tracer(), os.path.join(top, 'none'), command]).status, 5, 'a folder that is not there')
            must_be(Ran([tracing.tracer(), top, command]).status, 7, 'a folder without a store')


def check_explaining_script(program):
    """The script says of an input with a second item that one is taken, and of a folder alone that a command follows it."""
    tracing.tracer()
    item, script = size_word(4), os.path.join(TOP, 'ckbtrace')
    with contract_store(program) as folder:
        for command, kind in (('check', b'transaction'), ('import', b'block')):
            ran = Ran([script, folder, command], item + item)
            must_be((ran.status, ran.out), (12, b'extra 4\n'), 'two items to ' + command)
            must_be(ran.err, b'ckbtrace: status 12: bytes follow the %s: the command takes one\n' % kind, 'what the script says of two items')
        ran = Ran([script, folder], item)
        must_be((ran.status, ran.out, ran.read), (2, b'', 0), 'a folder alone')
        must(ran.err.startswith(b"ckbtrace: after the folder '%s' comes check or import, " % folder.encode()), 'a folder alone: %r' % ran.err[:99])


def check_items_are_taken(_):
    """take_item.py writes each item of an input, and none where it ends before or inside that."""
    take = [sys.executable, os.path.join(TOP, 'examples', 'take_item.py')]
    items = [item for item, _ in first.first_blocks()[0]]
    for i, item in enumerate(items):
        must_answer(Ran([*take, str(i + 1)], b''.join(items)), 0, item, 'item %d' % (i + 1))
    for given in (b''.join(items), b''.join(items) + b'\0\0', b''.join(items) + size_word(5), b''.join(items) + size_word(3)):
        ran = Ran([*take, str(len(items) + 1)], given)
        must_be((ran.status, ran.out), (1, b''), 'an item that is not there')
