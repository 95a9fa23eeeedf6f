"""The folder of a store: who may use it, what its files hold, and what a run leaves that is cut off."""

import os
import random
import resource
import shutil
import signal
import stat
import subprocess
import time

from harness import (CONTRACT_INIT, FIRST_INIT, FIRST_LINE, Ran, chain_of, chaingen, contract, contract_store,
                     developer, file_with, first, line_of, log_of, must, must_answer, must_be, must_have_tip,
                     new_folder, new_store, size_word, started, status_of, write)
import paying_chain
from encoding import as_bytes, fields_of, fixvec, uint
from script_scene import Cell

KILLS, MOST_LINES = 200, 10
# as many joined blocks as a snapshot is taken of, and the kills while one is written
SNAPSHOT, SNAPSHOT_KILLS = 1000, 40
NOBODY = 65534


def record(kind, body):
    """A record of a log, from its open gate on."""
    return b'\1' + bytes([kind]) + as_bytes(body)


def log_with(init, blocks, exts=None):
    """The log of a store with these blocks, up to its end. Without `exts` each has no fee and no cell."""
    bodies = [as_bytes(block) + ext for block, ext in zip(blocks, exts or [bytes(8)] * len(blocks))]
    return (b'CKBDEV01' + record(1, init[:100]) + record(2, init[100:])
            + b''.join(record(3, body) for body in bodies))


def check_bytes_of_the_log(program):
    """They are those of docs/STORE.md. What stands after the end is not looked at."""
    chain = chain_of(9)
    with chain.store(program) as folder:
        must_be(log_of(folder), log_with(chain.init, []) + b'\0', 'a new log')
        ran = Ran([program, folder, 'import'], b''.join(chain.blocks[:4]))
        must_answer(ran, 0, b''.join(chain.lines[:4]), 'import')
        whole = log_with(chain.init, chain.blocks[:4])
        must_be(log_of(folder), whole + b'\0', 'a log with four blocks')
        unfinished = record(3, bytes(700))
        for after in (b'\0' + unfinished, unfinished, unfinished[:-1], b'\1', b'\1\3', b'\2' * 9):
            write(os.path.join(folder, 'log.bin'), whole + after)
            must_have_tip(program, folder, chain.tip(4), repr(after[:9]))
        must_answer(Ran([program, folder, 'import'], b''.join(chain.blocks[3:])), 0,
                    chain.known(4) + b''.join(chain.lines[4:]), 'import after an unfinished record')
        must_be(log_of(folder), log_with(chain.init, chain.blocks) + b'\0', 'records that were put over old bytes')
        must_have_tip(program, folder, chain.tip(9), 'after all')


def row(output, block, transaction):
    """A row of an output, which a transaction of a block made: both by their places. It has no type script."""
    cell = contract.cell_of(output)
    return (contract.point_of(output) + size_word(block) + size_word(transaction) + uint(cell.capacity, 8)
            + uint(cell.occupied(), 8) + cell.lock.hash() + bytes(33 + 32) + size_word(0))


def check_exts_of_the_log(program):
    """After the blocks of the chain with a contract stand the fees that they take and the cells that they spend."""
    exts = {
        3: fixvec([uint(1000, 8)]) + fixvec([row((contract.First, 1), 0, 0)]),
        5: fixvec([uint(2000, 8)]) + fixvec([row((contract.FUNDS, 0), 3, 1)]),
        9: fixvec([uint(3000, 8)]) + fixvec([row((contract.SPENDS, 0), 5, 1)]),
    }
    blocks = [item for item, line in contract.contract_chain()[0] if line.startswith('joined')]
    with contract_store(program) as folder:
        wanted = log_with(CONTRACT_INIT, blocks, [exts.get(height, bytes(8)) for height in range(1, 13)])
        must_be(log_of(folder), wanted + b'\0', 'the log')


def check_developer_chain(program):
    """300 blocks over a genesis with a cell of 1 MiB: transfers, a deposit, uncles, locks through a dep group."""
    chain, moved = developer.developer_chain()
    given, text = first.input_and_text(chain.items)
    must_be(text.count(b'joined '), 300, 'blocks that join')
    with new_folder() as folder:
        made = Ran([program, folder, 'init'], chain.spec.item() + chain.genesis.item())
        must_answer(made, 0, (first.genesis_line(chain.genesis) + '\n').encode(), 'init')
        must_answer(Ran([program, folder, 'import'], given), 0, text, 'import of 300 blocks')
        for words, line in developer.answers(chain, moved):
            must_answer(Ran([program, folder, *words.split()]), 0, (line + '\n').encode(), words)
        transfer, line = developer.last_transfer(moved)
        must_answer(Ran([program, folder, 'check'], transfer), 0, (line + '\n').encode(), 'check')


def check_queries_over_generated_blocks(program):
    """20 blocks of which two are siblings: `epoch` by the height of the tip, `audit` of the genesis, and a header on its branch alone."""
    spec, genesis, blocks, kept, tip = chaingen.make(0, 20)
    must_be(kept[tip][0], 18, 'the height of the tip')

    def header_of(block):
        return fields_of(block)[0].hex()

    with new_store(program, spec + genesis, b'genesis 0x%s\n' % kept[0][1].hex().encode()) as folder:
        must_be(Ran([program, folder, 'import'], b''.join(blocks)).status, 0, 'import: status')
        for words, text in (('epoch', 'epoch 1 8 10'), ('audit', 'audit 0 0'),
                            ('header 0', 'header 0 0x%s 0x%s' % (kept[0][1].hex(), header_of(genesis))),
                            ('header 18', 'header 18 0x%s 0x%s' % (kept[tip][1].hex(), header_of(blocks[tip - 1]))),
                            ('header 19', 'none')):
            must_answer(Ran([program, folder, *words.split()]), 0, text.encode() + b'\n', words)


def check_what_is_no_store(program):
    chain = chain_of(2)
    whole = log_with(chain.init, chain.blocks)
    logs = {
        'an empty log': b'',
        'another start': b'CKBDEV02' + whole[8:] + b'\0',
        'a start alone': b'CKBDEV01',
        'a genesis first': b'CKBDEV01' + record(2, chain.init[100:]) + b'\0',
        'no genesis': b'CKBDEV01' + record(1, chain.init[:100]) + b'\0',
        'a genesis with nothing after it': log_with(chain.init, []),
        'a record of kind 4': whole + record(4, b'') + b'\0',
        'a block that is no block': whole + record(3, size_word(4) + size_word(4) + bytes(8)) + b'\0',
        'a block that is there twice': log_with(chain.init, [chain.blocks[0]] * 2) + b'\0',
    }
    with new_folder() as folder:
        for what, log in logs.items():
            write(os.path.join(folder, 'log.bin'), log)
            for command in ('tip', 'import', 'check'):
                ran = Ran([program, folder, command], chain.blocks[0])
                must_answer(ran, 7, b'', '%s of a folder with %s' % (command, what))
                must_be(ran.read, 0, 'bytes read over %s' % what)


# ------------------------------------------------------- folders that are refused

def must_be_refused(program, folder, what, **how):
    for command, given in (('init', FIRST_INIT), ('import', b''), ('check', b''), ('tip', b'')):
        must_answer(Ran([program, folder, command], given, **how), 5, b'', '%s of %s' % (command, what))


def check_folders_that_are_refused(program):
    with new_folder() as top:
        file = os.path.join(top, 'file')
        write(file, b'')
        must_be_refused(program, os.path.join(top, 'none'), 'a folder that is not there')
        must_be_refused(program, file, 'a file')
        must_be_refused(program, os.path.join(file, 'any'), 'a folder in a file')
        must_be_refused(program, 'w' * 5000, 'a name that is too long')
        must_be(os.listdir(top), ['file'], 'what is there afterwards')
        for name in ('log.bin', 'snap_b.bin'):
            folder = os.path.join(top, 'of ' + name)
            os.makedirs(os.path.join(folder, name))
            must_be_refused(program, folder, 'a folder whose %s is a folder' % name)
        dangling = os.path.join(top, 'dangling')
        os.symlink(os.path.join(top, 'none'), dangling)
        must_be_refused(program, dangling, 'a link to nothing')


def check_rights(program):
    with new_folder() as top:
        who = {}
        if os.geteuid() == 0:
            who = {'user': NOBODY, 'group': NOBODY, 'extra_groups': []}
            os.chmod(top, 0o755)
            program = shutil.copy(program, os.path.join(top, 'program'))
        folder = os.path.join(top, 'folder')
        os.mkdir(folder)
        os.chmod(folder, 0o777)
        must_answer(Ran([program, folder, 'init'], FIRST_INIT, **who), 0, FIRST_LINE, 'init with rights')
        log = os.path.join(folder, 'log.bin')
        mode = stat.S_IMODE(os.stat(log).st_mode)
        for path, rights, back in ((log, 0, mode), (log, 0o444, mode), (folder, 0, 0o777)):
            os.chmod(path, rights)
            must_be_refused(program, folder, '%s with rights %o' % (os.path.basename(path), rights), **who)
            os.chmod(path, back)
        # a folder where nothing can be made will do as long as all files are there
        os.chmod(folder, 0o555)
        must_answer(Ran([program, folder, 'tip'], **who), 0,
                    (first.tip(first.GENESIS) + '\n').encode(), 'tip in a folder that is not to be written')
        os.chmod(folder, 0o777)
        os.remove(log)
        os.chmod(folder, 0o555)
        must_be_refused(program, folder, 'a folder in which no log can be made', **who)
        os.chmod(folder, 0o777)


def check_one_run_a_folder(program):
    """A second run on the same folder fails, and harms nothing. It may come when the first has ended, however."""
    chain = chain_of(20)
    for number in (None, signal.SIGTERM, signal.SIGKILL):
        with chain.store(program) as folder, started([program, folder, 'import']) as process:
            process.stdin.write(chain.blocks[0])
            must_be(line_of(process), chain.lines[0], 'the first block')
            before = log_of(folder)
            must_be_refused(program, folder, 'a folder that is held')
            must_be_refused(program, os.path.join(folder, '.'), 'the same by another name')
            must_be(log_of(folder), before, 'the log, which another run holds')
            must_answer(Ran([program, folder, 'exec', '0']), 0, b'bad elf 1\n', 'exec, which opens nothing')
            process.stdin.write(chain.blocks[1])
            must_be(line_of(process), chain.lines[1], 'the second block')
            if number is None:
                process.stdin.close()
            else:
                process.send_signal(number)
            must_be(status_of(process), 0 if number is None else -number, 'status')
            must_have_tip(program, folder, chain.tip(2), 'after the run that held the folder')


# ---------------------------------------------------------- runs that are cut off

def check_limited_file(program):
    """A write that fails within a block: the status, and that what was answered is kept."""
    chain = chain_of(300)
    given = b''.join(chain.blocks)

    def limit():
        signal.signal(signal.SIGXFSZ, signal.SIG_IGN)
        resource.setrlimit(resource.RLIMIT_FSIZE, (60000, 60000))

    with chain.store(program) as folder:
        ran = Ran([program, folder, 'import'], given, preexec_fn=limit)
        must_survive(program, folder, chain, ran)


def must_survive(program, folder, chain, ran):
    """After an import that ended with a fault of the disk its lines are known, and the chain goes on."""
    must_be(ran.status, 5, 'status of an import whose disk is full')
    count = ran.out.count(b'\n')
    must_be(ran.out, b''.join(chain.lines[:count]), 'its lines')
    must(0 < count < len(chain.blocks), 'an import met no full disk, or took nothing')
    after = Ran([program, folder, 'import'], b''.join(chain.blocks))
    known = b''.join(chain.known(at) for at in range(1, count + 1))
    rest = b''.join(chain.lines[count:])
    must_be(after.status, 0, 'status of the next import')
    # the block whose line did not come may be there, or not
    also_known = known + chain.known(count + 1) + b''.join(chain.lines[count + 1:])
    must(after.out in (known + rest, also_known), 'the next import does not know what was answered')
    must_have_tip(program, folder, chain.tip(len(chain.blocks)), 'the next import')


def limited_to(megabytes):
    def limit():
        resource.setrlimit(resource.RLIMIT_AS, (megabytes << 20, megabytes << 20))
    return limit


def least_to_open(program, folder):
    """The least of memory, in megabytes, with which the store is opened."""
    low, high = 0, 1024
    while low + 1 < high:
        middle = (low + high) // 2
        if Ran([program, folder, 'tip'], preexec_fn=limited_to(middle)).status == 0:
            high = middle
        else:
            low = middle
    return high


def check_memory_that_ends_on_the_way_to_another_branch(program):
    """A block on a branch of many live cells, with memory for none of them: it is not kept, nor anything else lost."""
    chain, tip, wide, asked = wide_branch()
    given, text = first.input_and_text(chain.items)
    on_tip, beside = chain.block(parent=tip), chain.block(parent=wide)
    with new_store(program, chain.spec.item() + chain.genesis.item(), (first.genesis_line(chain.genesis) + '\n').encode()) as folder:
        must_answer(Ran([program, folder, 'import'], given), 0, text, 'import of both branches')
        least = least_to_open(program, folder)
        joins = (first.joined(on_tip) + '\n').encode()
        # one on the tip finds memory enough
        ran = Ran([program, folder, 'import'], on_tip.item() + beside.item(), preexec_fn=limited_to(least + 1))
        must_answer(ran, 6, joins, 'import with little memory')
        before = log_of(folder)
        must_answer(Ran([program, folder, 'import'], beside.item(), preexec_fn=limited_to(least + 1)), 6, b'', 'once more')
        must_be(log_of(folder), before, 'the log')
        must_have_tip(program, folder, (first.tip(on_tip) + '\n').encode(), 'after little memory')
        for output, live in asked:
            ran = Ran([program, folder, 'cell', '0x' + output[0].hash.hex(), str(output[1])])
            must_be((ran.status, ran.out.startswith(b'live ')), (0, live), 'cell %d after little memory' % output[1])
        must_answer(Ran([program, folder, 'import'], beside.item()), 0, (first.joined(beside) + '\n').encode(), 'with memory')


def wide_branch():
    """Two branches on block 1: one of blocks without a transaction, whose last is the tip, and one of blocks that make
    9,000 cells each. Beside them cells that are live at the tip or not."""
    chain = paying_chain.Chain(w_close=1, w_far=10, max_block_bytes=1 << 20)
    makes, spent, left = [], (contract.First, 1), contract.COIN
    for _ in range(3):
        left -= 9000 * 50 * contract.SHANNONS + 10 ** 6
        cells = [Cell(contract.ANYONE, capacity=50 * contract.SHANNONS) for _ in range(9000)]
        makes.append(contract.Transaction([spent], [Cell(contract.ANYONE, capacity=left)] + cells))
        spent = (makes[-1], 0)
    chain.joins(proposes=makes)
    root = chain.tip
    for _ in range(5):
        chain.joins()
    tip, chain.tip = chain.tip, root
    for it in makes:
        chain.joins(commits=[it])
    return chain, tip, chain.tip, (((contract.First, 1), True), ((makes[0], 1), False), ((makes[2], 0), False))


def check_full_disk(program):
    """The same in a file system that is full. Making one takes rights that not every machine gives."""
    chain = chain_of(300)
    with new_folder() as top:
        mounts = ['mount', '-t', 'tmpfs', '-o', 'size=96k', 'tmpfs', top]
        try:
            mounted = subprocess.run(mounts, stdout=subprocess.DEVNULL, stderr=subprocess.DEVNULL).returncode == 0
        except OSError:
            mounted = False
        if not mounted:
            print('edge: no small file system can be made here: not tried on a full disk')
            return
        try:
            must_answer(Ran([program, top, 'init'], chain.init), 0, chain.first_line, 'init')
            ran = Ran([program, top, 'import'], b''.join(chain.blocks))
            subprocess.run(['mount', '-o', 'remount,size=10m', top], check=True)
            must_survive(program, top, chain, ran)
        finally:
            subprocess.run(['umount', top], check=True)


class Killed:
    """A store that grows by imports which are killed. `count` blocks are kept for sure."""

    def __init__(self, program, folder, chain):
        self.program, self.folder, self.chain = program, folder, chain
        self.count = 0
        self.dice = random.Random()

    def wanted(self, at):
        """The lines that may answer the block at this place."""
        if at <= self.count:
            return (self.chain.known(at),)
        # the block that was under way when an earlier run was killed may be kept
        return (self.chain.lines[at - 1],) + ((self.chain.known(at),) if at == self.count + 1 else ())

    def import_and_kill(self, count=None):
        """Starts some blocks back, and is killed after so many lines, or some, and some moments."""
        begin = max(0, self.count - 3)
        count = self.dice.randrange(MOST_LINES) if count is None else count
        with file_with(b''.join(self.chain.blocks[begin:])) as given:
            process = subprocess.Popen([self.program, self.folder, 'import'], stdin=given, stdout=subprocess.PIPE,
                                       bufsize=0)
            try:
                out = b''.join(line_of(process) for _ in range(count))
                time.sleep(self.dice.uniform(0, 0.004))
            finally:
                process.kill()
                process.wait()
            # what it had written is read too
            out += process.stdout.read()
            process.stdout.close()
        self.must_be_right(begin, out)

    def must_be_right(self, begin, out):
        lines = out.splitlines(keepends=True)
        must(not lines or lines[-1].endswith(b'\n'), 'a line is there in part')
        count = self.count
        for at, line in enumerate(lines, begin + 1):
            must(line in self.wanted(at), 'block %d is answered %r after %d that were' % (at, line, self.count))
            count = max(count, at)
        self.count = count

    def must_have_tip(self):
        ran = Ran([self.program, self.folder, 'tip'])
        must_be(ran.status, 0, 'the status of tip')
        most = min(self.count + 1, len(self.chain.blocks))
        must(ran.out in (self.chain.tip(self.count), self.chain.tip(most)),
             'the tip after %d blocks is %r' % (self.count, ran.out))


    def must_go_on(self):
        """The whole chain, in one more import."""
        ran = Ran([self.program, self.folder, 'import'], b''.join(self.chain.blocks))
        must_be(ran.status, 0, 'the status of the last import')
        self.must_be_right(0, ran.out)
        must_be(self.count, len(self.chain.blocks), 'blocks that are kept in the end')
        must_have_tip(self.program, self.folder, self.chain.tip(self.count), 'the last import')
        self.must_be_left()

    def must_be_left(self):
        """All blocks in a row."""
        must(log_of(self.folder).startswith(log_with(self.chain.init, self.chain.blocks)), 'the log is another')


def check_killed_imports(program):
    """Each line that was read is of a block that is kept, whenever the program is killed."""
    chain = chain_of(3000)
    kills = 0
    while kills < KILLS:
        # on a quick disk one chain is used up sooner
        with chain.store(program) as folder:
            store = Killed(program, folder, chain)
            while kills < KILLS and store.count < 2500:
                store.import_and_kill()
                kills += 1
                if kills % 4 == 0:
                    store.must_have_tip()
            must(store.count > 0, 'no block was kept')
            store.must_go_on()


def check_imports_killed_at_a_snapshot(program):
    """The same where the program is killed while it takes a snapshot: what it left of one is no matter."""
    chain = chain_of(SNAPSHOT + 10)
    kept = SNAPSHOT - 2
    with chain.store(program) as grown, new_folder() as top:
        must_answer(Ran([program, grown, 'import'], b''.join(chain.blocks[:kept])), 0, b''.join(chain.lines[:kept]), 'the first blocks')
        for number in range(SNAPSHOT_KILLS):
            folder = os.path.join(top, str(number))
            shutil.copytree(grown, folder)
            store = Killed(program, folder, chain)
            store.count = kept
            # three blocks that are known, and the last one before the snapshot
            store.import_and_kill(4)
            store.must_have_tip()
            store.must_go_on()
            shutil.rmtree(folder)
