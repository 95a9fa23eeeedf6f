"""Runs of the program in which one allocation is refused, each in its turn, and runs whose allocations are counted."""

import contextlib
import os
import shutil
import subprocess
import sys

from harness import FIRST_INIT, FIRST_LINE, Ran, chaingen, first, must, must_answer, must_be, must_have_tip, new_folder, new_store
sys.path.insert(0, os.path.join(os.path.dirname(os.path.abspath(__file__)), 'rows'))
import assembled_runs  # noqa: E402 (beside the path above)
import assembling  # noqa: E402
import branch_runs  # noqa: E402
import store_model  # noqa: E402
import stream_faults  # noqa: E402

# Stands before the C library's allocations. It refuses the one whose number REFUSED gives, and at the end writes to the
# file COUNT how many were asked for, and how many bytes.
SHIM = r'''
#include <stddef.h>
#include <stdio.h>
#include <stdlib.h>
extern void *__libc_malloc(size_t), *__libc_calloc(size_t, size_t), *__libc_realloc(void *, size_t), *__libc_memalign(size_t, size_t);
static long asked, bytes, refused = -1;
static int refuses(size_t n) { __atomic_fetch_add(&bytes, (long)n, __ATOMIC_RELAXED); return __atomic_fetch_add(&asked, 1, __ATOMIC_RELAXED) == refused; }
__attribute__((constructor)) static void begin(void) {
    const char *number = getenv("REFUSED");
    refused = number ? atol(number) : -1;
    asked = bytes = 0;
}
__attribute__((destructor)) static void end(void) {
    long all = asked, size = bytes;
    const char *name = getenv("COUNT");
    FILE *file = name ? fopen(name, "w") : NULL;
    if (file) { fprintf(file, "%ld %ld", all, size); fclose(file); }
}
void *malloc(size_t n) { return refuses(n) ? NULL : __libc_malloc(n); }
void *calloc(size_t n, size_t m) { return refuses(n * m) ? NULL : __libc_calloc(n, m); }
void *realloc(void *p, size_t n) { return refuses(n) ? NULL : __libc_realloc(p, n); }
void *aligned_alloc(size_t to, size_t n) { return refuses(n) ? NULL : __libc_memalign(to, n); }
int posix_memalign(void **p, size_t to, size_t n) { return refuses(n) || !(*p = __libc_memalign(to, n)) ? 12 : 0; }
'''
# The live cells of the stores whose allocations are compared, the blocks that come, the least of bytes that a balance made of
# live cells takes for each, and the most that a block may take more on one store than on the other: a line may be longer.
FEW, MANY, BLOCKS, LEAST_OF_A_CELL, MOST_OF_A_BLOCK = 1000, 9000, 24, 100, 100
# The status of a run without memory. What an adapter lacks is a fault of its stream or of the disk.
WITHOUT_MEMORY = 3, 4, 5, 6


@contextlib.contextmanager
def shim():
    """The path of the library, or none where no C compiler is there."""
    with new_folder() as folder:
        source, library = os.path.join(folder, 'shim.c'), os.path.join(folder, 'shim.so')
        with open(source, 'w', encoding='utf-8') as f:
            f.write(SHIM)
        compiler = shutil.which('cc')
        made = compiler and subprocess.run([compiler, '-shared', '-fPIC', '-fno-builtin', '-O1', '-o', library, source],
                                           capture_output=True).returncode == 0
        yield library if made else None


class Runs:
    """Runs of the program over a folder, each of which is made again with another allocation refused."""

    def __init__(self, program, library):
        self.program, self.library = program, library

    def run(self, folder, words, given, number, count):
        environment = dict(os.environ, LD_PRELOAD=self.library, REFUSED=str(number), COUNT=count)
        return Ran([self.program, folder] + words, given, env=environment)

    def asked(self, folder, words, given, text):
        """How many bytes a run asks for, over a copy of a store."""
        with new_folder() as top:
            count, copy = os.path.join(top, 'count'), os.path.join(top, 'store')
            shutil.copytree(folder, copy)
            must_answer(self.run(copy, words, given, -1, count), 0, text, words[0])
            with open(count, encoding='utf-8') as f:
                return int(f.read().split()[1])

    def must_bear(self, store, words, given, status, text, again, what):
        """`again` is the text of the same run once more, by whether this one answered the first of its lines and so on."""
        with new_folder() as top:
            count, folder, refused = os.path.join(top, 'count'), os.path.join(top, 'store'), 0

            def begins():
                shutil.rmtree(folder, ignore_errors=True)
                shutil.copytree(store, folder) if store else os.mkdir(folder)

            begins()
            must_answer(self.run(folder, words, given, -1, count), status, text, what)
            with open(count, encoding='utf-8') as f:
                asked = int(f.read().split()[0])
            for number in range(asked):
                begins()
                ran = self.run(folder, words, given, number, count)
                name = '%s, without allocation %d of %d' % (what, number, asked)
                if ran.status == status:
                    must_be(ran.out, text, name)
                else:
                    refused += 1
                    must(ran.status in WITHOUT_MEMORY, '%s: status %d' % (name, ran.status))
                    must(text.startswith(ran.out), name + ': it wrote %r' % ran.out)
                if store or not words == ['init']:
                    after = Ran([self.program, folder] + words, given)
                    must_be(after.status, status, name + ', and once more')
                    must(after.out in again(ran.out), name + ', and once more: it wrote %r' % after.out)
            must(refused, what + ': no allocation was missed')


def check_each_allocation_refused(program):
    """A run that misses memory says so, and what it answered stays."""
    with shim() as library:
        if not library or Ran([program], env=dict(os.environ, LD_PRELOAD=library)).err:
            print('edge: no library can be put before the program here: no allocation is refused')
            return
        runs = Runs(program, library)
        runs.must_bear(None, ['init'], FIRST_INIT, 0, FIRST_LINE, None, 'init')
        with new_store(program) as store:
            tip = (first.tip(first.GENESIS) + '\n').encode()
            runs.must_bear(store, ['tip'], b'', 0, tip, lambda _: [tip], 'tip of a genesis')
            runs.must_bear(store, ['import'], b'', 0, b'', lambda _: [b''], 'import of nothing')
            block = first.child(first.SPEC, first.GENESIS)
            runs.must_bear(store, ['import'], block.item() * 2, 0, lines_of([first.joined(block), first.known(block)]),
                           lambda _: [lines_of([it, first.known(block)]) for it in (first.joined(block), first.known(block))],
                           'import of a block, twice')
        chain = stream_faults.four_blocks()
        line = (first.genesis_line(chain.genesis) + '\n').encode()
        with new_store(program, chain.spec.item() + chain.genesis.item(), line) as store:
            items, lines = zip(*chain.items)
            known = ['known ' + it.split()[2] for it in lines]

            def once_more(answered):
                count = answered.count(b'\n')
                # the block whose line did not come may be kept or not
                return [lines_of(known[:kept] + list(lines[kept:])) for kept in (count, count + 1)]

            runs.must_bear(store, ['import'], b''.join(items), 0, lines_of(lines), once_more, 'import of two branches')
            must_answer(Ran([program, store, 'import'], b''.join(items)), 0, lines_of(lines), 'import of two branches')
            tip = (first.tip(chain.best[-1]) + '\n').encode()
            runs.must_bear(store, ['tip'], b'', 0, tip, lambda _: [tip], 'tip of two branches')
            must_have_tip(program, store, tip, 'two branches')
            for output in branch_runs.ASKED:
                text = (branch_runs.line_of(branch_runs.live_cells(chain.best[-1]), output) + '\n').encode()
                runs.must_bear(store, ['cell', '0x' + output[0].hash.hex(), str(output[1])], b'', 0, text, lambda _, text=text: [text], 'cell')


def check_each_allocation_of_assemble_refused(program):
    """Of two transactions, of which the second spends what the first makes."""
    with shim() as library:
        if not library or Ran([program], env=dict(os.environ, LD_PRELOAD=library)).err:
            return
        chain = next(assembled_runs.each_on_the_other())
        with assembling.store_of(program, chain) as store:
            for words, status, given, text in chain.rows[:3]:
                if words == 'assemble':
                    Runs(program, library).must_bear(store, [words], given, status, text, lambda _: [text], words)
                else:
                    must_answer(Ran([program, store, words], given), status, text, words)


def lines_of(lines):
    return ''.join(it + '\n' for it in lines).encode()



# --------------------------------------------------- a lock that is watched

def following(runs, cells, plain):
    """The bytes that `watch` asks for more than `import`: to make the balance of so many live cells, and then for the blocks."""
    spec, genesis, blocks, _, _ = chaingen.make(1, BLOCKS, plain=plain, far=BLOCKS, cells=cells)
    chain, lock = store_model.Chain(spec, genesis, blocks), chaingen.ckbhash(chaingen.LOCK)
    lines = [chain.line(b'joined', at) for at in range(1, BLOCKS + 1)]
    watched = [b'%s balance %d %d\n' % (line[:-1], *balance) for line, balance in zip(lines, chain.balances(lock)[1:])]
    must(any(chain.parents[at] != chain.tip(at - 1) and chain.tip(at) == at for at in range(1, BLOCKS + 1)), 'no block is detached')
    words = ['import'], ['watch', '0x' + lock.hex()]
    with new_store(runs.program, spec + genesis, b'genesis 0x%s\n' % chain.hashes[0].hex().encode()) as store:
        made, all_of = ([runs.asked(store, it, given, b''.join(text)) for it, text in zip(words, texts)]
                        for given, texts in ((b'', ([], [])), (b''.join(blocks), (lines, watched))))
    return made[1] - made[0], (all_of[1] - made[1]) - (all_of[0] - made[0])


def check_watch_follows(program):
    """The balance is made once, and then follows the tip, across blocks that are detached too: the memory that it asks for at a
    block is nearly the same over few live cells and over many. One that were made anew would ask for as much again."""
    with shim() as library:
        if not library or Ran([program], env=dict(os.environ, LD_PRELOAD=library)).err:
            return
        runs = Runs(program, library)
        for plain in (True, False):
            (made_of_few, of_few), (made_of_many, of_many) = (following(runs, cells, plain) for cells in (FEW, MANY))
            must(made_of_many - made_of_few >= LEAST_OF_A_CELL * (MANY - FEW), 'a balance of more cells asks for %d and for %d bytes' % (made_of_few, made_of_many))
            must(of_few > 0, 'following asks for nothing')
            must(abs(of_many - of_few) <= MOST_OF_A_BLOCK * BLOCKS, '%d blocks ask for %d bytes over few live cells, and for %d over many' % (BLOCKS, of_few, of_many))
