"""`ckbask` over real pipes, question by question: beside a model over trees of blocks with reorganisations, and beside `ckbdev`."""

import contextlib
import functools
import json
import os
import random
import select
import subprocess
import sys
import tempfile
import time

import block_json
from harness import TOP, Ran, must, must_answer, must_be, new_folder
from encoding import ckbhash, fields_of

sys.path.insert(1, os.path.join(TOP, 'tests', 'rows'))
import index_runs  # noqa: E402 (beside the line above)
from index_runs import hexed, live_cells  # noqa: E402
from paying_chain import ancestors  # noqa: E402

LINE_LIMIT = 2097154
SECONDS = 60
# how many answers of `ckbask` are put beside those of `ckbdev`
COMPARED = 2000
NONE, NO_QUESTION = 'none\n', 'no question\n'


@functools.lru_cache(None)
def asker():
    """The program, which is built where there is none."""
    given = os.environ.get('CKBASK')
    if given:
        return given
    subprocess.run([sys.executable, os.path.join(TOP, 'tools', 'build.py'), 'ckbask'], stdin=subprocess.DEVNULL)
    program = os.path.join(TOP, 'build', 'ckbask')
    must(os.access(program, os.X_OK), 'there is no program %s' % program)
    return program


# ------------------------------------------------------------------ over pipes

class Asked:
    """A run that is held open: each question is written alone, and its whole answer read, before the next is."""

    def __init__(self, folder):
        self.err = tempfile.TemporaryFile()
        self.process = subprocess.Popen([asker(), folder], stdin=subprocess.PIPE, stdout=subprocess.PIPE, stderr=self.err, bufsize=0)

    def answer(self, question, ended=True):
        """What it writes of a question: up to the line of the total for `list`, and else one line."""
        self.process.stdin.write(question.encode() + (b'\n' if ended else b''))
        if not ended:
            self.process.stdin.close()
        last = b'total ' if question.startswith('list ') else b''
        text, ends = b'', time.monotonic() + SECONDS
        while not (text.endswith(b'\n') and (text[:-1].rsplit(b'\n', 1)[-1].startswith(last) or text == b'no question\n')):
            must(select.select([self.process.stdout], [], [], max(0, ends - time.monotonic()))[0], 'no answer to %r' % question)
            more = os.read(self.process.stdout.fileno(), 65536)
            must(more, 'it ended before it answered %r' % question)
            text += more
        # (after the last line the end of the text may be there)
        more = select.select([self.process.stdout], [], [], 0)[0] and os.read(self.process.stdout.fileno(), 65536)
        must(not more, 'it wrote more than the answer to %r' % question)
        return text.decode()

    def end(self, status=0):
        with contextlib.suppress(BrokenPipeError):
            self.process.stdin.close()
        must_be(self.process.stdout.read(), b'', 'what follows the answers')
        must_be(self.process.wait(SECONDS), status, 'status')
        self.err.seek(0)
        must_be(self.err.read(), b'', 'standard error')


@contextlib.contextmanager
def asking(folder):
    it = Asked(folder)
    try:
        yield it
        it.end()
    finally:
        it.process.kill()
        it.process.wait()


# ------------------------------------------------------------------ the model

class Model:
    """What is answered over kept blocks and a tip, by docs/COMMANDS.md."""

    def __init__(self, kept, tip):
        self.kept = {it.hash(): it for it in kept}
        self.best = ancestors(tip)
        self.placed = {}
        for block in self.best:
            for place, transaction in enumerate(fields_of(fields_of(block.item())[2])):
                self.placed.setdefault(ckbhash(fields_of(transaction)[0]), (block, place))

    def at(self, number):
        return self.best[number] if number < len(self.best) else None

    def tip(self):
        return 'tip %d %s\n' % (self.best[-1].number, hexed(self.best[-1].hash()))

    def header(self, block):
        return block and 'header %d %s %s\n' % (block.number, hexed(block.hash()), hexed(fields_of(block.item())[0])) or NONE

    def json(self, block):
        return block and json.dumps(block_json.tree_of(block.item()), separators=(',', ':')) + '\n' or NONE

    def block(self, block):
        if not block:
            return NONE
        hashes = [hexed(ckbhash(fields_of(it)[0])) for it in fields_of(fields_of(block.item())[2])]
        return json.dumps({'block': block_json.tree_of(block.item()), 'hashes': hashes}, separators=(',', ':')) + '\n'

    def branch(self, block):
        return block and '%s %d\n' % ('best' if block in self.best else 'side', block.number) or NONE

    def transaction(self, named):
        if named not in self.placed:
            return NONE
        block, place = self.placed[named]
        return 'committed %d %d %s\n' % (block.number, place, hexed(block.hash()))

    def list(self, lock):
        return index_runs.listed(self.best[-1], lock)


def questions_of(model, others):
    """Each question that the model answers, with the answer; the others are hashes that no block has."""
    found = [('tip', model.tip())]
    for number in (*range(len(model.best) + 1), 2 ** 64 - 1):
        found += [('header %d' % number, model.header(model.at(number))), ('json %d' % number, model.json(model.at(number)))]
    for named in (*model.kept, *others):
        block = model.kept.get(named)
        found += [('%s %s' % (word, hexed(named)), getattr(model, word)(block)) for word in ('header', 'json', 'block', 'branch')]
    every = {ckbhash(fields_of(it)[0]) for block in model.kept.values() for it in fields_of(fields_of(block.item())[2])}
    for named in (*sorted(every), *others):
        found.append(('transaction ' + hexed(named), model.transaction(named)))
    for lock in (*(it.hash() for it in (*index_runs.LOCKS, index_runs.NOBODY)), *others):
        found.append(('list ' + hexed(lock), model.list(lock)))
    return found


def trees():
    """Trees of blocks with reorganisations: the kept blocks, the items, and the tip after each item."""
    for seed in index_runs.SEEDS:
        chain = index_runs.tree_of(seed)
        tips = chain.best[1:]
        must(any(b.number and a not in ancestors(b) for a, b in zip(tips, tips[1:]) if a is not b), 'no branch was left in the tree of seed %d' % seed)
        yield chain, tips


def store_of(program, chain, items, folder):
    must_be(Ran([program, folder, 'init'], chain.spec.item() + chain.genesis.item()).status, 0, 'init')
    must(Ran([program, folder, 'import'], b''.join(items)).status in (0, 1), 'import')


# ------------------------------------------------------------------ the checks

def check_ask_trees(program):
    """Each question over trees with reorganisations, as the model answers it; in the order of a seed, so that none leans on the one before it."""
    for turn, (chain, tips) in enumerate(trees()):
        for count in (0, len(chain.items) // 2, len(chain.items)):
            with new_folder() as folder:
                store_of(program, chain, [item for item, _ in chain.items[:count]], folder)
                joined = [it for it in chain.kept if it is chain.genesis or any(item == it.item() and line.startswith('joined') for item, line in chain.items[:count])]
                model = Model(joined, tips[count - 1] if count else chain.genesis)
                others = [ckbhash(b'no block %d' % turn)] + [it.hash() for it in chain.kept if it not in joined]
                pairs = questions_of(model, others)
                random.Random(turn).shuffle(pairs)
                with asking(folder) as it:
                    for question, wanted in pairs:
                        must_be(it.answer(question), wanted, question)


def check_ask_as_ckbdev(program):
    """What one run of `ckbdev` says too, word for word."""
    chain, tips = next(trees())
    chance = random.Random(7)
    with new_folder() as folder:
        store_of(program, chain, [item for item, _ in chain.items], folder)
        cells = [(key, place) for key, place in live_cells(tips[-1])]
        hashes = [key for key, _ in cells] + [it.hash() for it in chain.kept]
        makers = [
            lambda: ['tip'], lambda: ['epoch'], lambda: ['audit'],
            lambda: ['header', str(chance.randrange(16))], lambda: ['json', str(chance.randrange(16))],
            lambda: [chance.choice(('cell', 'dao')), hexed(chance.choice(hashes)), str(chance.choice((0, 1, 2, 2 ** 32 - 1, 2 ** 32, 2 ** 64 - 1)))],
            lambda: ['list', hexed(chance.choice([it.hash() for it in index_runs.LOCKS] + hashes))],
        ]
        asked = [chance.choice(makers)() for _ in range(COMPARED)]
        once = {tuple(it): None for it in asked}
        # (two runs cannot have one folder)
        for words in once:
            ran = Ran([program, folder, *words])
            must_be(ran.status, 0, ' '.join(words))
            once[words] = ran.out.decode()
        with asking(folder) as it:
            for words in asked:
                must_be(it.answer(' '.join(words)), once[tuple(words)], ' '.join(words))


def check_ask_transactions(program):
    """`check` in hex, as `ckbdev` judges the bytes: one that passes, one that is spent, and bytes that are none."""
    chain, tips = next(trees())
    with new_folder() as folder:
        store_of(program, chain, [item for item, _ in chain.items], folder)
        items = [it.item for block in chain.kept if block.number for it in block.commits][:20] + [b'', b'\0', b'\4\0\0\0', chain.genesis.item()]
        wanted = {}
        for item in items[:20]:
            wanted[item] = Ran([program, folder, 'check'], item).out.decode()
        with asking(folder) as it:
            for item in items:
                must_be(it.answer('check ' + hexed(item)), wanted.get(item, 'refused J1\n'), 'check of %d bytes' % len(item))


def check_ask_words(program):
    """Lines that are no question, between two that are; a last line without a line feed; no line at all."""
    chain, tips = next(trees())
    good = hexed(chain.genesis.hash())
    bad = ['', ' ', 'tip ', ' tip', 'TIP', 'tip 0', 'header', 'header 01', 'header +1', 'header -1', 'header 18446744073709551616', 'header 0 0',
           'header ' + good[:-1], 'header ' + good + '0', 'header ' + good.upper().replace('X', 'x'), 'branch', 'branch 0', 'branch %s 0' % good,
           'block 0', 'transaction', 'transaction ' + good[2:], 'cell ' + good, 'cell %s 0 0' % good, 'list', 'check', 'check 0x0', 'check 0xZZ',
           'check 0x0A', 'check 00', 'check 0x00 0x00', 'import', 'init', 'watch ' + good, 'migrate 1', 'exec 1', 'make 0 1', 'assemble', 'tip\0', 't\xefp', 'tip\r']
    with new_folder() as folder:
        store_of(program, chain, [item for item, _ in chain.items], folder)
        tip = 'tip %d %s\n' % (tips[-1].number, hexed(tips[-1].hash()))
        with asking(folder) as it:
            for line in bad:
                must_be(it.answer(line), NO_QUESTION, repr(line))
                must_be(it.answer('tip'), tip, 'tip after %r' % line)
        with asking(folder) as it:
            must_be(it.answer('tip', ended=False), tip, 'a last line')
        must_answer(Ran([asker(), folder], b''), 0, b'', 'no line')
        must_answer(Ran([asker(), folder], b'\n'), 0, NO_QUESTION.encode(), 'an empty line')
        must_answer(Ran([asker(), folder], b'tip\nt', piped=True), 0, (tip + NO_QUESTION).encode(), 'two lines')


def check_ask_words_of_the_script(_):
    for words, why in (([], 'there are no words'), ([''], 'the folder is empty'), (['--hlep'], "there is no option '--hlep'"),
                       (['chain', 'tip'], 'it takes one word, the folder, and here there are 2: questions are lines of standard input')):
        ran = Ran([os.path.join(TOP, 'ckbask'), *words], b'tip\n')
        must_be((ran.status, ran.out), (2, b''), repr(words))
        must_be(ran.err.split(b'\nusage: ckbask FOLDER ')[0].decode(), 'ckbask: ' + why, repr(words))


def check_ask_limits(program):
    """A line of as many bytes as one has, and one more; words of the program; a folder that is no store, or is held."""
    chain, tips = next(trees())
    with new_folder() as folder:
        store_of(program, chain, [], folder)
        tip = 'tip 0 %s\n' % hexed(chain.genesis.hash())
        longest, longer = b'x' * LINE_LIMIT, b'x' * (LINE_LIMIT + 1)
        must_answer(Ran([asker(), folder], b'tip\n' + longest + b'\ntip'), 0, (tip + NO_QUESTION + tip).encode(), 'the longest line')
        for rest in (b'', b'\n', b'\ntip\n', b'x'):
            must_answer(Ran([asker(), folder], b'tip\n' + longer + rest), 9, tip.encode(), 'a longer line')
        checked = 'check 0x' + '00' * ((LINE_LIMIT - 8) // 2)
        must_answer(Ran([asker(), folder], checked.encode() + b'\n'), 0, b'refused J1\n', 'the longest transaction')
        before = {name: open(os.path.join(folder, name), 'rb').read() for name in os.listdir(folder)}
        must_answer(Ran([asker(), folder], b'tip\n'), 0, tip.encode(), 'tip')
        must_be({name: open(os.path.join(folder, name), 'rb').read() for name in os.listdir(folder)}, before, 'the folder')
        for words in ([], [''], [folder, 'tip']):
            must_answer(Ran([asker(), *words], b'tip\n'), 2, b'', 'words %r' % words)
        with asking(folder) as it:
            must_be(it.answer('tip'), tip, 'tip')
            must_be(Ran([program, folder, 'tip']).status, 5, 'a folder that is held')
        must_be(Ran([program, folder, 'tip']).status, 0, 'a folder that was let go')
    with new_folder() as folder:
        must_answer(Ran([asker(), folder], b'tip\n'), 7, b'', 'no store')
        must_answer(Ran([asker(), os.path.join(folder, 'none')], b'tip\n'), 5, b'', 'no folder')
