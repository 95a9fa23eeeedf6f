"""The script that runs the program, its build, and what the README shows."""

import fcntl
import functools
import itertools
import os
import re
import shlex
import shutil
import signal
import subprocess
import time

import all as figures
import block_json
import make_store as store
from harness import (CONTRACT_LINE, FIRST_INIT, FIRST_LINE, SCRIPT, SECONDS, TOP, Ran, chain_of,
                     contract, first, line_of, must, must_answer, must_be, must_have_tip, new_folder, new_store,
                     started, status_of, write)
from assembling import assembled_on, contract_chain
from json_program import converter
from making import contract_cell_line, live_line, mined_on_page
from streams import BAD_WORDS
from tracing import tracer

TRACER = os.path.join(TOP, 'ckbtrace')


def check_script_passes_on(_):
    """Words, streams, status and folder go through the script as they are."""
    given, text = first.input_and_text(first.first_blocks()[0])
    with new_folder() as away:
        for name in ('a b', ' ', '*', '-n', "it's"):
            os.mkdir(os.path.join(away, name))
            must_answer(Ran([SCRIPT, name, 'init'], FIRST_INIT, cwd=away), 0, FIRST_LINE, 'init in %r' % name)
            ran = Ran([SCRIPT, name, 'import'], given, name == '*', cwd=away)
            must_be((ran.status, ran.out, ran.err), (1, text, why_of_import(TRACER, name)), 'import in %r' % name)
        link = os.path.join(away, 'a link')
        os.symlink(SCRIPT, link)
        tip = ('%s\n' % first.tip(first.first_blocks()[1])).encode()
        must_answer(Ran([link, 'a b', 'tip'], cwd=away), 0, tip, 'by a link, from another folder')
        must_be(sorted(os.listdir(away)), sorted(['a b', ' ', '*', '-n', "it's", 'a link']), 'what is left there')
        must_be(sorted(os.listdir(os.path.join(away, 'a b'))), ['log.bin', 'snap_a.bin', 'snap_b.bin'],
                'what is left in a folder')


# what ends a wait, in a thirtieth of the time
IMPATIENT = '#!/bin/sh\n[ "$1" = 3 ] || exit 1\nshift\nexec %s 0.1 "$@"\n' % shutil.which('timeout')


def impatient(top):
    """An environment in which a wait of 3 seconds is a tenth of one."""
    os.makedirs(os.path.join(top, 'hurry'), exist_ok=True)
    path = os.path.join(top, 'hurry', 'timeout')
    write(path, IMPATIENT.encode())
    os.chmod(path, 0o755)
    return {**os.environ, 'PATH': os.path.dirname(path) + ':' + os.environ['PATH']}


def check_script_explains_statuses(_):
    """Each status above 2 has a line on standard error, which says what it means here."""
    items, _ = first.first_blocks()
    given, text = first.input_and_text(items)

    def must_tell(words, status, out, why, given=b'', **how):
        ran = Ran([SCRIPT, *words], given, cwd=away, **how)
        must_be((ran.status, ran.out), (status, out), repr(words))
        must(ran.err.startswith(b'ckbdev: status %d: ' % status), '%r: no line explains the status' % words)
        must(why.encode() in ran.err, '%r: %r is not named, but %r' % (words, why, ran.err))
        must_be(ran.err.count(b'\n'), 1, '%r: lines on standard error' % words)

    with new_folder() as away:
        for name in ('store', 'empty', 'other'):
            os.mkdir(os.path.join(away, name))
        must_tell(['gone', 'tip'], 5, b'', "the folder 'gone' is not there")
        must_tell(['empty', 'tip'], 7, b'', 'init makes one')
        with open(os.path.join(away, 'other', 'log.bin'), 'wb') as f:
            f.write(b'no log')
        must_tell(['other', 'import'], 7, b'', 'something else')
        must_tell(['other/log.bin', 'tip'], 5, b'', "is no folder")
        must_answer(Ran([SCRIPT, 'store', 'init'], FIRST_INIT, cwd=away), 0, FIRST_LINE, 'init')
        for taken in ('store', 'other'):
            must_tell([taken, 'init'], 10, b'', "the folder '%s' has a log.bin already" % taken, FIRST_INIT)
        with open(os.path.join(away, 'store', 'log.bin'), 'rb') as log:
            fcntl.flock(log, fcntl.LOCK_EX)
            must_tell(['store', 'tip'], 5, b'', "another run has the folder 'store'", env=impatient(away))
        closed = Ran(['sh', '-c', 'exec "$@" <&-', '', SCRIPT, 'store', 'import'], cwd=away)
        must_be((closed.status, closed.out), (3, b''), 'a closed standard input')
        must(closed.err.startswith(b'ckbdev: status 3: '), 'a closed standard input is not named')
        with open('/dev/full', 'wb') as full:
            ran = subprocess.run([SCRIPT, 'store', 'tip'], stdin=subprocess.DEVNULL, stdout=full,
                                 stderr=subprocess.PIPE, cwd=away, timeout=SECONDS)
        must_be(ran.returncode, 4, 'a full standard output')
        must(ran.stderr.startswith(b'ckbdev: status 4: '), 'a full standard output is not named')
        block, lines = items[0][0], text.splitlines(keepends=True)
        must_tell(['store', 'import'], 8, lines[0] + b'cut %d\n' % len(block), 'inside an item', block + block[:9])
        # the block that joined stands in epoch 0
        must_tell(['store', 'migrate', '0'], 13, b'too early 0\n', 'the tip has reached the epoch that the line names')
        must_answer(Ran([SCRIPT, 'store', 'migrate', '1'], cwd=away), 0, b'edition 1\n', 'an edition')
        must_tell(['store', 'migrate', '7'], 14, b'edition 1\n', 'the store has an edition, which the line names')
        must_tell(['store', 'import'], 9, b'bad size 0\n', 'the size at the start', b'\3\0\0\0')
        must_tell(['store', 'import'], 9, b'bad size 0\n', "begins as JSON does, and ckbdev 'store' unjson", b'{"header":{}}')
        must_tell(['empty', 'exec', '5'], 12, b'extra 1048576\n', 'more than 1,048,576 bytes', bytes((1 << 20) + 1))
        must_tell(['empty', 'init'], 8, b'cut 0\n', 'a specification and a genesis')
        must_tell(['store', 'assemble'], 8, b'cut 0\n', "its cellbase's witness")
        bad = first.changed(first.SPEC, epoch_length=0).item() + first.GENESIS.item()
        must_tell(['empty', 'init'], 11, b'bad spec S2\n', 'the rule that the line names', bad)


def check_script_on_bad_words(_):
    given, _ = first.input_and_text(first.first_blocks()[0])
    with new_store(SCRIPT) as store:
        before = os.stat(os.path.join(store, 'log.bin'))
        for words in [*BAD_WORDS, ['', store, 'import'], [store, '', 'import'], [store + ' import'],
                      [store, 'exec 5']]:
            ran = Ran([SCRIPT, *words], given)
            must_be(ran.status, 2, '%r: status' % words)
            must_be(ran.out, b'', '%r: standard output' % words)
            must_be(ran.err.count(b'usage: ckbdev FOLDER '), 1, '%r: usages on standard error' % words)
            must(re.match(rb'ckbdev: [^\n]+\nusage: ', ran.err), '%r: no line says what is wrong: %r' % (words, ran.err[:99]))
            must_be(ran.read, 0, '%r: bytes read' % words)
        must_be(os.stat(os.path.join(store, 'log.bin')), before, 'the log after bad words')


def check_script_ends_by_a_signal(_):
    caught = (signal.SIGTERM, signal.SIGINT, signal.SIGHUP)

    def heed():
        # they are ignored where this script was started so, as by a shell in the background
        for it in (*caught, signal.SIGQUIT):
            signal.signal(it, signal.SIG_DFL)

    chain = chain_of(1)
    for number in (*caught, signal.SIGKILL):
        with chain.store(SCRIPT) as store, started([SCRIPT, store, 'import'], preexec_fn=heed) as process:
            process.stdin.write(chain.blocks[0])
            must_be(line_of(process), chain.lines[0], 'the line of a block')
            process.send_signal(number)
            must_be(status_of(process), -number, 'the end by signal %d' % number)
            if number in caught:
                # the program has ended before the script: another run gets the folder
                must_have_tip(SCRIPT, store, chain.tip(1), 'after signal %d' % number)
            # the program holds the pipe as long as it runs
            must_be(line_of(process), b'', 'what is written after signal %d' % number)


def check_script_ignores_what_its_caller_ignores(_):
    def ignore():
        signal.signal(signal.SIGINT, signal.SIG_IGN)

    chain = chain_of(2)
    with chain.store(SCRIPT) as store, started([SCRIPT, store, 'import'], preexec_fn=ignore) as process:
        process.stdin.write(chain.blocks[0])
        must_be(line_of(process), chain.lines[0], 'the line of a block')
        for pid in (process.pid, *children_of(process.pid)):
            os.kill(pid, signal.SIGINT)
        process.stdin.write(chain.blocks[1])
        must_be(line_of(process), chain.lines[1], 'the line of a block after an interrupt')
        process.stdin.close()
        must_be(status_of(process), 0, 'the end')


# ------------------------------------------------- how the script builds

PROGRAM_OF_A_FAKE = '#!/bin/sh\n[ "$2" = import ] || exit 2\necho "in $(basename "$PWD"): program %s"\n'
SLOW_TO_END = """#!/bin/sh
trap 'sleep 0.3; echo ended; exit 3' TERM
echo begun
while :; do sleep 0.02; done
"""
CRATES = 'low:\nckbdev: low\nother:\n'
LOW = '//! %s\n\n#[cfg(test)]\nmod tests;\n'
# a toolchain that proves nothing, is slow, and may be made to fail or never to end
FAKE_RT = r'''#!/bin/sh
[ "$1" = fmt ] && exit 0
[ "$1" = version ] && echo 'a fake kit' && exit 0
echo "$1" >>"$FAKE_LOG"
if [ "$1" = run ]; then
    [ "$FAKE_STATUS" = 0 ] || exit 2
    cp src/program out/ckbdev && chmod 755 out/ckbdev
    exit 2
fi
[ "$1" = ci ] || exit 1
[ -d .git ] && ! grep -rq test crates && [ ! -e crates/other ] || exit 1
echo 'rt: low proved'
sleep "$FAKE_SECONDS"
[ "$FAKE_STATUS" = 0 ] || exit "$FAKE_STATUS"
mkdir -p crates/ckbdev/out
cp crates/ckbdev/src/program crates/ckbdev/out/ckbdev
chmod 755 crates/ckbdev/out/ckbdev
echo 'rt: ckbdev proved'
'''
BUILD = ('--build',)


class Checkout:
    """A checkout of a few crates, with the script and the fake toolchain."""

    def __init__(self, top):
        self.top, self.log = top, os.path.join(top, 'log')
        for name in ('ckbdev', 'HANDLES', *('tools/' + it for it in os.listdir(os.path.join(TOP, 'tools')) if it[-3:] in ('.py', '.sh'))):
            os.makedirs(os.path.dirname(self.at(name)), exist_ok=True)
            shutil.copy(os.path.join(TOP, name), self.at(name))
        self.write('crates.txt', CRATES)
        self.write('crates/low/src/lib.rt', LOW % 'low')
        self.write('crates/low/src/tests.rt', '#[test]\n')
        self.write('crates/low/must-fail/one.edit', 'test\n')
        self.write('crates/ckbdev/src/program', PROGRAM_OF_A_FAKE % 'one')
        self.write('crates/ckbdev/src/main.rt', '')
        self.write('crates/other/src/lib.rt', '')
        self.write_program('bin/rt', FAKE_RT)
        os.mkdir(self.at('elsewhere'))

    def at(self, name):
        return os.path.join(self.top, name)

    def write(self, name, text):
        os.makedirs(os.path.dirname(self.at(name)), exist_ok=True)
        with open(self.at(name), 'w', encoding='utf-8') as f:
            f.write(text)

    def write_program(self, name, text):
        self.write(name, text)
        os.chmod(self.at(name), 0o755)

    def start(self, seconds=0, status=0, words=('any', 'import')):
        environment = {**os.environ, 'PATH': self.at('bin') + ':' + os.environ['PATH'], 'FAKE_LOG': self.log,
                       'FAKE_SECONDS': str(seconds), 'FAKE_STATUS': str(status), 'TMPDIR': self.top}
        return subprocess.Popen([self.at('ckbdev'), *words], env=environment, cwd=self.at('elsewhere'),
                                stdin=subprocess.DEVNULL, stdout=subprocess.PIPE, stderr=subprocess.PIPE)

    def run(self, **how):
        process = self.start(**how)
        out, err = process.communicate(timeout=SECONDS)
        return process.returncode, out, err

    def builds(self):
        """How often the toolchain was called."""
        if not os.path.exists(self.log):
            return 0
        with open(self.log, encoding='utf-8') as f:
            return len(f.read().split())

    def copies(self):
        return [name for name in os.listdir(self.top) if name.startswith('ckbdev-build')]

    def must_run(self, which, what):
        """There is a build of these sources, which runs and has this in its text."""
        must_be(self.run(), (0, b'in elsewhere: program %s\n' % which, b''), what)

    def must_build(self, which, builds, what):
        status, out, err = self.run(words=BUILD)
        must_be((status, out), (0, b''), what)
        must_be(self.builds(), builds, what + ': builds')
        self.must_run(which, what)
        return err


def check_script_answers_words_without_a_build(_):
    with new_folder() as top:
        it = Checkout(top)
        for words, why in (([], 'no words'), (['any'], 'no command'), (['tip'], 'ckbdev FOLDER tip'),
                           (['import', 'any'], 'ckbdev FOLDER import'), (['any', 'Import'], "did you mean 'import'?"),
                           (['any', 'tpi'], "did you mean 'tip'?"), (['any', 'chekc', '5'], "did you mean 'check'?"),
                           (['any', 'zzzz'], "no command 'zzzz'\n"), (['any', '--help'], 'no command'),
                           (['any', ''], 'no command'), (['any', '*'], "no command '*'\n"), (['--verison'], "no option '--verison': --help,"),
                           (['help'], "no option 'help'")):
            status, out, err = it.run(words=words)
            must_be((status, out), (2, b''), repr(words))
            must(why.encode() in err, '%r: %r is not named, but %r' % (words, why, err))
            must(b'usage: ckbdev FOLDER ' in err, '%r: no usage' % words)
        usages = [it.run(words=[word]) for word in ('--help', '-h')]
        must_be(usages[0], usages[1], '--help and -h')
        must_be((usages[0][0], usages[0][2]), (0, b''), '--help')
        for command in ('init', 'import', 'watch HASH', 'migrate N', 'check', 'assemble', 'tip', 'header N', 'json N', 'epoch', 'audit', 'cell HASH N', 'list HASH', 'dao HASH N',
                        'exec N', 'asm', 'dis', 'unjson', 'make N M', 'soak N M'):
            lines = [line for line in usages[0][1].splitlines() if b'ckbdev FOLDER %s ' % command.encode() in line]
            must_be(len(lines), 1, 'lines of --help on ' + command)
        status, out, err = it.run(words=['--version'])
        must_be((status, err), (0, b''), '--version')
        must(out.startswith(b'ckbdev ') and b'\nunproved: there is no build; ' in out, '--version before a build: %r' % out)
        must_be(it.builds(), 0, 'builds for words that are answered without one')
        it.must_build(b'one', 1, 'a build')
        must(it.run(words=['--version'])[1].endswith(b'\nproved with a fake kit\n'), '--version after a build')
        it.write('crates/low/src/lib.rt', LOW % 'changed')
        must(b'\nunproved: the build that is there is of other sources; ' in it.run(words=['--version'])[1], '--version after a change')
        must_be(it.builds(), 1, 'builds')


HASH = '0x' + '5a' * 32
MOST = 2 ** 64 - 1
NOT_A_NUMBER = '%s of %s is a number in decimal digits, without a sign or leading zeros, and %r is not'
NOT_A_HASH = 'HASH of %s is 0x and 64 hex digits in lower case, and %r is not: %s'
ABOVE = '%s is at most %s, and %r is above it'
TAKES = '%s takes %s after it%s, and here there %s'


def refused_words():
    """Words after the folder that the program refuses, each with what is wrong."""
    for words, takes, named, count in (
            ('tip 0', 'no word', '', 'is one'), ('init 5 6', 'no word', '', 'are 2'), ('header', 'one word', ', N', 'is none'),
            ('exec 5 6', 'one word', ', N', 'are 2'), ('cell ' + HASH, 'two words', ', HASH and N', 'is one'),
            ('make 0 1 2', 'two words', ', N and M', 'are 3'), ('soak', 'two words', ', N and M', 'is none')):
        yield words.split(), TAKES % (words.split()[0], takes, named, count)
    for word in ('abc', '', '01', '00', '-1', '+1', '0x1', '1 ', '\u0663'):
        for before, name, after in ((['header'], 'N', []), (['exec'], 'N', []), (['dao', HASH], 'N', []), (['make'], 'N', ['1']), (['make', '5'], 'M', [])):
            yield [*before, word, *after], NOT_A_NUMBER % (name, before[0], word)
    for word, why in ((HASH[:-1], 'it has 63 digits'), (HASH + '0', 'it has 65 digits'), (HASH.upper(), 'it does not begin with 0x'),
                      (HASH.replace('a', 'A'), 'it has a character that is none of 0 to 9 and a to f'), (HASH[2:], 'it does not begin with 0x'), ('5', 'it does not begin with 0x')):
        yield ['cell', word, '0'], NOT_A_HASH % ('cell', word, why)
    for before, name, most, shown in (
            (['exec'], 'N of exec, the budget in cycles,', 2 ** 40, '%d (2^40)'), (['json'], 'N of json', MOST, '%d (2^64 - 1)'),
            (['cell', HASH], 'N of cell', MOST, '%d (2^64 - 1)'), (['make', '0'], 'M of make', 20000, '%d'), (['soak', '0'], 'M of soak', 100, '%d')):
        for more in (1, 10 ** 10, 10 ** 21):
            yield [*before, str(most + more)], ABOVE % (name, shown % most, str(most + more))
        # what has no fault is blamed for nothing else
        yield [*before, str(most)], 'a word is no text in UTF-8'


def said_of(cases):
    """What the script says of words that the program has refused."""
    tools = os.path.join(TOP, 'tools')
    calls = '\n'.join('say_refused any ' + shlex.join(words) for words in cases)
    ran = Ran(['sh', '-c', 'name=ckbdev; . "$0/program.sh"; . "$0/words.sh"\n' + calls, tools])
    return ran.err.decode().splitlines()


def check_script_says_what_is_wrong_with_words(_):
    """One line before the usage text, which is true of a program that refuses all words."""
    cases = [*refused_words()]
    said = said_of([words for words, _ in cases])
    must_be(len(said), len(cases), 'lines for so many refused words')
    for (words, why), line in zip(cases, said):
        must_be(line, 'ckbdev: ' + why, repr(words))
    with new_folder() as top:
        it = Checkout(top)
        it.write('crates/ckbdev/src/program', '#!/bin/sh\nexit 2\n')
        must_be(it.run(words=BUILD)[0], 0, 'the build')
        for words, why in ((['any', *cases[0][0]], cases[0][1]), (['', 'tip'], 'the first word, the folder, is empty'),
                           (['any', 'a\nb'], "there is no command 'a?b'"), ([b'\xff', 'tip'], 'a word is no text in UTF-8'),
                           (['any', 'x' * 99], "there is no command '%s..'" % ('x' * 90))):
            status, out, err = it.run(words=words)
            must_be((status, out), (2, b''), repr(words))
            must_be(err.split(b'\nusage: ')[0].decode(), 'ckbdev: ' + why, repr(words))


# it prints its input; its log is claimed for a tenth of a second, or the input is not what it takes
ANSWERS = r'''#!/bin/sh
case $2 in
    exec) exec cat ;;
    check) read line; case $line in refused*) echo "$line"; exit 1 ;; ok*) echo "$line" ;; *) exit 9 ;; esac ;;
    unjson | asm) read line; case $line in bad*) echo "$line"; exit 1 ;; *) exit 9 ;; esac ;;
    tip) flock -n "$1/log.bin" sleep 0.1 || exit 5 ;;
    epoch) echo >"$1/begun"; while [ ! -e "$1/go" ]; do sleep 0.01; done; exit 5 ;;
    *) exit 9 ;;
esac
'''
STATUS_5 = 'ckbdev: status 5: a call of the disk failed: '


class Answering(Checkout):
    """A checkout with a build that answers so, and a store."""

    def __init__(self, top):
        super().__init__(top)
        self.write('crates/ckbdev/src/program', ANSWERS)
        must_be(self.run(words=BUILD)[0], 0, 'the build')
        self.write('elsewhere/any/log.bin', 'log')

    def held(self):
        """The log of the store, which is claimed until this is closed."""
        log = open(self.at('elsewhere/any/log.bin'), 'rb')
        fcntl.flock(log, fcntl.LOCK_EX)
        return log

    def ran(self, words, given=b'', piped=False, **how):
        return Ran([self.at('ckbdev'), 'any', *words], given, piped, cwd=self.at('elsewhere'), **how)


def check_script_waits_for_a_folder(_):
    with new_folder() as top:
        it = Answering(top)
        with it.held():
            begun = time.monotonic()
            must_answer(it.ran(['exec', '5'], b'spent\n'), 0, b'spent\n', 'a command that looks at no folder')
            must(time.monotonic() - begun < 3, 'a command that looks at no folder waits for it')
            process = it.start(words=['any', 'tip'])
            time.sleep(0.3)
            must_be(process.poll(), None, 'the end while another run has the folder')
        must_be((process.wait(SECONDS), *process.communicate()), (0, b'', b''), 'the end when that run has ended')
        all_at_once = [it.start(words=['any', 'tip']) for _ in range(5)]
        for process in all_at_once:
            must_be((process.wait(SECONDS), *process.communicate()), (0, b'', b''), 'one of five that each take a tenth of a second')


def check_script_says_who_has_a_folder(_):
    had = "another run %s the folder 'any'%s"
    with new_folder() as top:
        it = Answering(top)
        hurry = impatient(top)
        with it.held() as log:
            for words in (['tip'], ['tip']):
                ran = it.ran(words, env=hurry)
                why = had % ('has', ', and had it for the 3 seconds that this one waited: try again when it has ended')
                must_be((ran.status, ran.err.decode()), (5, STATUS_5 + why + '\n'), 'where another run has the folder')
            process = subprocess.Popen([it.at('ckbdev'), 'any', 'epoch'], env=hurry, cwd=it.at('elsewhere'), stderr=subprocess.PIPE)
            while not os.path.exists(it.at('elsewhere/any/begun')):
                time.sleep(0.01)
            log.close()
            it.write('elsewhere/any/go', '')
            why = had % ('had', ' for the 3 seconds that this one waited, and has ended since: try again')
            must_be(process.communicate(timeout=SECONDS)[1].decode(), STATUS_5 + why + '\n', 'where it had the folder too long')
        ran = it.ran(['epoch'])
        why = "is there space left, and are the files of 'any' sound? Or another run had the folder, and has ended since: try again"
        must_be(ran.err.decode(), STATUS_5 + why + '\n', 'where it may have had the folder')


def check_script_explains_lines_of_exec(_):
    """The line comes as the program wrote it, or the status for a line that is lost; then where to look, once."""
    elf = ('ckbdev: bad elf %s: docs/MACHINE.md has what meets E %s, and what to look at first ("A program as an ELF file")\n')
    fault = ('ckbdev: fault %s: docs/MACHINE.md has what could not be done ("A step"), and what that usually means ("Building a '
             'program"); {} 1000 < PROGRAM shows where, the last jumps and the registers\n')
    with new_folder() as top:
        it = Answering(top)
        fault = fault.format(it.at('ckbtrace'))
        for line, said in (('exit 1 5', ''), ('exit -1 505', ''), ('spent', ''), ('bad elf 1', elf % (1, 1)), ('bad elf 8', elf % (8, 8)),
                           ('fault 5 505', fault % 5), ('fault 1 0', fault % 1)):
            for piped in (False, True):
                ran = it.ran(['exec', '1000'], line.encode() + b'\n', piped)
                must_be((ran.status, ran.out.decode(), ran.err.decode()), (0, line + '\n', said), line)
        both = Ran(['sh', '-c', 'exec "$@" 2>&1', '', it.at('ckbdev'), 'any', 'exec', '1000'], b'fault 1 5\n', cwd=it.at('elsewhere'))
        must_be(both.out.decode(), 'fault 1 5\n' + fault % 1, 'the line, and then where to look')
        for how, line in (('exec "$@" >/dev/full', b'write to standard output failed'), ('("$@"; echo $? >&2) | true', b'write to standard output failed')):
            ran = Ran(['sh', '-c', how, '', it.at('ckbdev'), 'any', 'exec', '5'], b'fault 1 5\n', cwd=it.at('elsewhere'))
            must(ran.err.startswith(b'ckbdev: status 4: a ' + line) and b'fault' not in ran.err, '%s: %r' % (how, ran.err))
            must(ran.status == 4 or ran.err.endswith(b'\n4\n'), '%s: status' % how)
    with open(os.path.join(TOP, 'docs', 'MACHINE.md'), encoding='utf-8') as f:
        parts = f.read().splitlines()
    for part in ('A step', 'Building a program', 'A program as an ELF file'):
        must('## ' + part in parts, 'docs/MACHINE.md has no part %r' % part)


def why_text(what, ckbtrace, folder, command, rule):
    """What the script says of a refusal, with the script beside it that explains."""
    return ("ckbdev: %s: %s '%s' %s explains it; docs/RULES.md has what breaks %s, and what to look at first (\"A block\")\n"
            % (what, ckbtrace, folder, command, rule))


def why_of_import(ckbtrace, folder):
    return why_text('a block is refused', ckbtrace, folder, 'import < BLOCK', 'each rule').encode()


def check_script_explains_refused_transactions(_):
    """After the line of `check` which command explains it, once, and the status of the program; after `import` that of a block."""
    with new_folder() as top:
        it = Answering(top)
        refused = why_text('refused J%d', it.at('ckbtrace'), 'any', 'check < TRANSACTION', 'J%d')
        for line, status, said in (('ok 10000 505', 0, ''), ('refused J1', 1, refused % (1, 1)), ('refused J29', 1, refused % (29, 29))):
            for piped in (False, True):
                ran = it.ran(['check'], line.encode() + b'\n', piped)
                must_be((ran.status, ran.out.decode(), ran.err.decode()), (status, line + '\n', said), line)
        both = Ran(['sh', '-c', 'exec "$@" 2>&1', '', it.at('ckbdev'), 'any', 'check'], b'refused J20\n', cwd=it.at('elsewhere'))
        must_be((both.out.decode(), both.status), ('refused J20\n' + refused % (20, 20), 1), 'the line, and then where to look')
    with open(os.path.join(TOP, 'docs', 'RULES.md'), encoding='utf-8') as f:
        must('## A block' in f.read().splitlines(), "docs/RULES.md has no part 'A block'")


def check_script_explains_other_refusals(_):
    """After a text that says no where to look, once, and the status of the program."""
    with new_folder() as top:
        it = Answering(top)
        for command, line, said in (
                ('unjson', 'bad json', 'bad json: %s block < TEXT says in which line and at which path, and what is wanted there' % it.at('ckbjson')),
                ('asm', 'bad line 3', 'bad line: docs/MACHINE.md has what a line may be ("The text of an instruction")')):
            ran = it.ran([command], line.encode() + b'\n')
            must_be((ran.status, ran.out.decode(), ran.err.decode()), (1, line + '\n', 'ckbdev: %s\n' % said), line)
    with open(os.path.join(TOP, 'docs', 'MACHINE.md'), encoding='utf-8') as f:
        must('## The text of an instruction' in f.read().splitlines(), "docs/MACHINE.md has no part 'The text of an instruction'")


def check_script_names_json(_):
    """Where a size word is none, the script says of an input in JSON what makes bytes of it."""
    of_block = "ckbdev 'any' unjson writes the bytes of a block\n"
    of_store = 'ckbjson spec and ckbjson block write the bytes of a specification and of a block\n'
    of_one = 'ckbjson transaction writes the bytes of a transaction\n'
    of_items = 'ckbjson writes the bytes of a transaction and of a witness\n'
    begins, may_be = 'the input begins as JSON does, and ', 'the input is something else. If it is JSON: '
    with new_folder() as top:
        it = Answering(top)
        for given, piped, command, said in (
                (b'{}', False, 'import', begins + of_block), (b' \r\n\t[1]', False, 'init', begins + of_store),
                (b'{', False, 'check', begins + of_one), (b'{', False, 'assemble', begins + of_items),
                (b'{}', True, 'import', may_be + of_block), (b'{}', True, 'check', may_be + of_one),
                (b'\3\0\0\0', False, 'import', 'the input is something else\n'), (b'0x{}', False, 'init', 'the input is something else\n')):
            ran = it.ran([command], given, piped)
            must_be((ran.status, ran.out), (9, b''), command)
            must_be(ran.err.decode(), 'ckbdev: status 9: the size at the start of an item is below 4 or above its limit: ' + said, command)


def check_script_builds_once(_):
    with new_folder() as top:
        it = Checkout(top)
        err = it.must_build(b'one', 1, 'the first build')
        must(err.startswith(b'ckbdev: building: proving the program and the crates below it, 2 in all, on '),
             'the first build does not begin with what it does: %r' % err)
        for line in (rb'about \d+ \w+ where none is kept', rb'1 of 2 crates are proved; about \d+ \w+ left; now at ckbdev\n'):
            must(re.search(line, err), 'the first build does not say how far it is and how long is left: %r' % err)
        must_be(it.must_build(b'one', 1, 'a second build'), b'ckbdev: there is a build of these sources\n', 'a second build')
        it.write('crates/other/src/lib.rt', '// changed')
        it.must_run(b'one', 'after a change of a crate that is not below the program')
        it.write('crates/ckbdev/src/program', PROGRAM_OF_A_FAKE % 'two')
        it.must_build(b'two', 2, 'after a change')
        os.remove(it.at('build/ckbdev'))
        it.must_build(b'two', 3, 'after the program was removed')
        must_be(it.copies(), [], 'what is left of the builds')


NO_PYTHON = '#!/bin/sh\nexit 1\n'
# as before edition 4.9
FIND_WITHOUT_LISTS = '#!/bin/sh\ncase $* in *-files0-from*) exit 1 ;; esac\nexec %s "$@"\n' % shutil.which('find')


def changes_of(it):
    """What may happen to the sources, each with what takes it back."""
    for name in ('low/src/lib.rt', 'low/specs/Low.antt', 'ckbdev/proofs/main/Lemmas.antt'):
        path = it.at('crates/' + name)
        with open(path, encoding='utf-8') as f:
            text = f.read()
        times = os.stat(path)

        def change(name=name, path=path, text=text, times=times):
            it.write('crates/' + name, text + '// changed')
            os.utime(path, ns=(times.st_atime_ns, times.st_mtime_ns))

        def write(name=name, text=text):
            it.write('crates/' + name, text)

        yield 'a change in place of %s, with its time put back' % name, change, write
        yield 'the removal of %s' % name, functools.partial(os.remove, path), write
    for name in ('low/src/more.rt', 'ckbdev/proofs/main/More.antt', 'low/proofs/Part.antt'):
        yield 'the addition of %s' % name, functools.partial(it.write, 'crates/' + name, ''), functools.partial(os.remove, it.at('crates/' + name))
    moved = it.at('crates/low'), it.at('crates/moved')
    yield 'the removal of a crate', functools.partial(os.rename, *moved), functools.partial(os.rename, *reversed(moved))
    yield 'a line of crates.txt', functools.partial(it.write, 'crates.txt', 'low:\nckbdev: low other\nother:\n'), functools.partial(it.write, 'crates.txt', CRATES)


def must_see(it, what, change):
    """The build is taken before a change, and is not after it."""
    # a tick of the system's clock for files apart
    time.sleep(0.01)
    os.utime(it.at('build/ckbdev.stamp'))
    time.sleep(0.01)
    it.must_run(b'one', 'before ' + what)
    change()
    must(b'of other sources' in it.run(words=['--version'])[1], 'it does not see ' + what)


def check_script_sees_each_change(_):
    """It needs no Python to see that nothing was changed, and what was."""
    with new_folder() as top:
        it = Checkout(top)
        it.write('crates/low/specs/Low.antt', '-- low')
        it.write('crates/ckbdev/proofs/main/Lemmas.antt', '-- main')
        it.must_build(b'one', 1, 'a build')
        it.write_program('bin/python3', NO_PYTHON)
        for count, find in ((None, None), (2, FIND_WITHOUT_LISTS)):
            if find:
                it.write_program('bin/find', find)
            for what, change, undo in itertools.islice(changes_of(it), count):
                must_see(it, what, change)
                undo()


def check_script_says_how_far_a_build_is(_):
    """Where no crate gets done, a build still says how far it is, by what the crates took here before."""
    with new_folder() as top:
        it = Checkout(top)
        it.write('build/times.json', '{"check": {"low": 10, "ckbdev": 6000}}')
        with open(it.at('tools/build.py'), encoding='utf-8') as f:
            text = f.read()
        must('\nSAID_EVERY = 30\n' in text, 'tools/build.py has no SAID_EVERY')
        it.write('tools/build.py', text.replace('\nSAID_EVERY = 30\n', '\nSAID_EVERY = 1\n'))
        err = it.run(words=BUILD, seconds=4)[2]
        must_be(it.builds(), 1, 'builds')
        must(b'about 1.7 hours where none is kept from an earlier run, by what they took here\n' in err, 'how long it takes: %r' % err)
        lines = re.findall(rb'1 of 2 crates are proved; about (.*) left; now at ckbdev\n', err)
        must(len(lines) > 2 and set(lines) == {b'1.7 hours'}, 'how long is left: %r' % err)


def check_script_waits_for_the_program(_):
    """A signal that asks for the end goes on to the program, and its end is awaited."""
    with new_folder() as top:
        it = Checkout(top)
        it.write('crates/ckbdev/src/program', SLOW_TO_END)
        must_be(it.run(words=BUILD)[0], 0, 'the build')
        process = it.start()
        must_be(line_of(process), b'begun\n', 'what is written first')
        process.send_signal(signal.SIGTERM)
        out, _ = process.communicate(timeout=SECONDS)
        must_be((process.returncode, out), (3, b'ended\n'), 'the end of a program that takes its time')


def check_script_builds_once_for_two(_):
    with new_folder() as top:
        it = Checkout(top)
        both = [it.start(seconds=2, words=BUILD), it.start(seconds=2, words=BUILD)]
        for process in both:
            process.communicate(timeout=SECONDS)
            must_be(process.returncode, 0, 'status')
        must_be(it.builds(), 1, 'builds of two at once')
        it.must_run(b'one', 'after two builds at once')


def check_script_survives_a_broken_build(_):
    with new_folder() as top:
        it = Checkout(top)
        status, out, err = it.run(status=3, words=BUILD)
        must_be((status, out), (70, b''), 'a build that fails')
        must(b'the build failed' in err, 'a build that fails says nothing')
        for number in (signal.SIGINT, signal.SIGTERM, signal.SIGKILL):
            builds, ends = it.builds(), time.monotonic() + SECONDS
            process = it.start(seconds=10, words=BUILD)
            while it.builds() == builds:
                must(time.monotonic() < ends, 'no build begins')
                time.sleep(0.01)
            process.send_signal(number)
            err = process.communicate(timeout=SECONDS)[1]
            must_be(process.returncode, -number, 'a build that signal %d ends' % number)
            must(number == signal.SIGKILL or b'of 2 crates are proved, and ./ckbdev --build goes on' in err, 'what is kept: %r' % err)
            must(not os.path.exists(it.at('build/ckbdev.stamp')), 'a build that was interrupted left a stamp')
        it.must_build(b'one', it.builds() + 1, 'after broken builds')
        must_be(it.copies(), [], 'what is left of broken builds')


def children_of(pid):
    with open('/proc/%d/task/%d/children' % (pid, pid), encoding='utf-8') as f:
        return [int(it) for it in f.read().split()]


def check_script_builds_over_earlier_work(_):
    with new_folder() as top:
        it = Checkout(top)
        for name in ('low', 'ckbdev'):
            os.makedirs(it.at('crates/%s/out/incremental' % name))
        it.write('crates/ckbdev/out/ckbdev', PROGRAM_OF_A_FAKE % 'old')
        os.chmod(it.at('crates/ckbdev/out/ckbdev'), 0o755)
        must_be(it.run(status=1, words=BUILD)[:2], (70, b''), 'a build that fails, beside an old program')
        it.must_build(b'one', 2, 'over earlier work')
        with open(it.log, encoding='utf-8') as f:
            must_be(f.read(), 'run\nrun\n', 'what was asked of the toolchain')


def check_script_takes_the_build_of_the_gate(_):
    with new_folder() as top:
        it = Checkout(top)
        time.sleep(0.02)
        it.write('.git/rt-ci.lock', '')
        time.sleep(0.02)
        it.write('crates/ckbdev/out/ckbdev', PROGRAM_OF_A_FAKE % 'the gate')
        os.chmod(it.at('crates/ckbdev/out/ckbdev'), 0o755)
        it.write('crates/ckbdev/stdout', 'text')
        it.write('crates/ckbdev/out/stdout', 'text')
        it.must_build(b'one', 1, 'where the gate has not run both builds')
        shutil.rmtree(it.at('build'))
        it.write('crates/ckbdev/out/stdout.by-rattle', 'text')
        it.must_run(b'the gate', 'after the gate')
        it.must_run(b'the gate', 'a second time after the gate')
        must_be(it.builds(), 1, 'builds after the gate')
        it.write('crates/low/src/lib.rt', LOW % 'changed')
        it.must_build(b'one', 2, 'after a change since the gate')


# ------------------------------------------------------------ what is shown

def check_documents(_):
    """What docs/ shows of JSON is what comes."""
    text = block_json.of_block(first.GENESIS.item())
    header = text[:text.index('},"proposals"') + 1]
    shown = [
        ('FORMATS.md', './ckbdev chain json 0 | cut -c 1-%d' % len(header), header + '\n'),
        ('COMMANDS.md', './ckbdev chain json 0 > block.json', ''),
        ('COMMANDS.md', './ckbdev chain unjson < block.json | cmp - examples/genesis.bin', ''),
        ('COMMANDS.md', './ckbdev chain json 3', 'none\n'),
    ]
    with new_folder() as away:
        os.mkdir(os.path.join(away, 'chain'))
        for name in ('ckbdev', 'examples'):
            os.symlink(os.path.join(TOP, name), os.path.join(away, name))
        must_answer(Ran([SCRIPT, 'chain', 'init'], FIRST_INIT, cwd=away), 0, FIRST_LINE, 'init')
        given, text = first.input_and_text(first.first_blocks()[0])
        ran = Ran([SCRIPT, 'chain', 'import'], given, cwd=away)
        must_be((ran.status, ran.out, ran.err), (1, text, why_of_import(TRACER, 'chain')), 'import')
        for name, line, wanted in shown:
            with open(os.path.join(TOP, 'docs', name), encoding='utf-8') as f:
                document = f.read()
            lines = [line.removeprefix('./')] + wanted.splitlines()
            must(''.join('    %s\n' % it for it in lines) in document, 'docs/%s does not show %s with what it prints' % (name, line))
            must_answer(Ran(['sh', '-c', line], cwd=away), 0, wanted.encode(), line)


def check_lines_of_the_rules(_):
    """The line of each rule in docs/RULES.md is the one that the program has: rule_vectors has it in a row, and fails
    where the program has another."""
    with open(os.path.join(TOP, 'docs', 'RULES.md')) as f:
        rules = f.read().split('\n## A block\n')[1].split('\n`import` tries')[0]
    lines = re.findall(r'^\| (J\d+) \| ([^|]*) \| [^|]+ \| [^|]+ \|$', rules, re.MULTILINE)
    must_be([name for name, _ in lines], ['J%d' % n for n in range(1, 33)], 'the rules of docs/RULES.md')
    with open(os.path.join(TOP, 'crates', 'rule_vectors', 'stdin')) as f:
        rows = [tuple(row.rstrip('\n').split('\t')[1:]) for row in f if row.startswith('rule\t')]
    must_be(rows, lines, 'the rows of rules in crates/rule_vectors/stdin')


def check_figures(_):
    """The README's table of figures has the rows that bench/all.py writes."""
    with open(figures.README, encoding='utf-8') as f:
        _, rows, _ = figures.rows_of(f.read())
    must_be(list(rows), [it.what for bench in figures.BENCHES.values() for it in bench.figures], 'the figures of the README')


def shown_by(page):
    """The lines of a page, those of its samples without the spaces before them."""
    with open(os.path.join(TOP, page), encoding='utf-8') as f:
        return re.sub(r'^ {4}', '', f.read(), flags=re.MULTILINE)


def check_refusals(_):
    """Each number that a refusal may name has a row with an example and what to look at first."""
    rows = r'^\| %s \| [^|]+ \| [^|]+ \| [^|]+ \|$'
    for page, name, count in (('RULES.md', 'S%d', 7), ('RULES.md', 'G%d', 7), ('RULES.md', 'J%d', 32), ('MACHINE.md', 'E %d', 8)):
        with open(os.path.join(TOP, 'docs', page), encoding='utf-8') as f:
            text = f.read()
        for number in range(1, count + 1):
            found = re.findall(rows % (name % number), text, re.MULTILINE)
            must(len(found) == 1, 'docs/%s has %d rows of %s' % (page, len(found), name % number))


def blocks_of_items(chain):
    """Three blocks after the chain with a contract: the first and the third are assembled of two transactions, the second of none."""
    items = [contract.TRANSFER, contract.FORCES]
    for given, (lines, joined) in zip(('items', 'examples/witness.bin', 'items'), assembled_on(chain, items, [], items)):
        yield './ckbdev contract assemble < %s | python3 examples/take_block.py block' % given, 0, lines
        yield './ckbdev contract import < block', 0, joined


# how the page begins that explains the transaction which the README has refused
EXPLAINED = b'''refused J29
J29: each group exits with 0
group 0 lock 0xf7657e5b7ffeeb62b50aa012bdf1102eb2a2723c13df806a9ed3ced1740452f9, inputs 0
  code resolved dep 1, cell 0x90450ffedc39898878267ef422c92182ff4652dbf00e04056fb1d5143eca0748 2
  exit 7 after 1053 cycles
page of group 0
exit 7 1053
cycles 1053 of 1000000000
'''


def own_genesis():
    """The genesis of the first chain at the start of 2026, with 1,000 CKB in place of 10,000,000."""
    only, = first.GENESIS.transactions
    outputs = only.outputs[0], (1000 * 10 ** 8, b'')
    dao = sum(it[0] for it in outputs), 10 ** 16, 0, sum(store.occupied(*it[1:]) for it in outputs)
    return first.changed(first.GENESIS, timestamp=1767225600000, dao=dao, transactions=(first.changed(only, outputs=outputs),))


def check_readme(_):
    """What the README and the page on examples/ show is what comes."""
    readme, examples = shown_by('README.md'), shown_by('examples/README.md')
    items, tip = first.first_blocks()
    _, text = first.input_and_text(items)
    of_chain = [
        ('cat examples/spec.bin examples/genesis.bin | ./ckbdev chain init', 0, FIRST_LINE),
        ('./ckbdev chain import < examples/first-blocks.bin', 1, text),
        ('./ckbdev chain tip', 0, (first.tip(tip) + '\n').encode()),
    ]
    of_own_chain = [
        ('./ckbdev chain json 0 | sed \'s/"0x3e8"/"0x19b76daa800"/; s/"0x38d7ea4c68000"/"0x174876e800"/\' > own.json', 0, b''),
        ('./ckbjson block --seal < own.json > own.bin', 0, b''),
        ('cat examples/spec.bin own.bin | ./ckbdev own init', 0, (first.genesis_line(own_genesis()) + '\n').encode()),
        ('./ckbdev own json 1', 0, b'none\n'),
        ('./ckbjson spec --show < examples/spec.bin | sed \'s/"maturity":"0x0"/"maturity":"1 1\\/3"/\' > longer.json', 0, b''),
        ('./ckbjson spec < longer.json > longer.bin', 0, b''),
    ]
    of_program = [('./ckbdev chain exec 1000000 < examples/primes.elf', 0, b'exit 25 8337\n')]
    of_code = [
        ('tail -c +177 examples/primes.elf | head -c 64 | ./ckbdev chain dis | tail -n 5', 0,
         b'50 addi x17,x0,93\n54 ecall\n58 addiw x10,x10,1\n60 addiw x14,x14,1\n62 jal x0,-52\n'),
        ("printf 'addi x17,x0,93\\naddi x10,x0,0\\necall\\n' | ./ckbdev chain asm > exit0.elf", 0, b''),
        ('./ckbdev chain exec 505 < exit0.elf', 0, b'exit 0 505\n'),
    ]
    makes = 'python3 examples/make_store.py --window 2 11 --cell examples/scripts/exit.elf | ./ckbdev contract init'
    # what comes on standard error
    told = {makes: contract_cell_line()}
    # and what comes there after the line
    rule = contract.refused()[1].split(' ')[1]
    refuses = './ckbdev contract check < examples/refused.bin'
    imports = './ckbdev contract import < examples/contract-chain.bin | grep refused'
    told_after = {refuses: why_text('refused ' + rule, './ckbtrace', 'contract', 'check < TRANSACTION', rule).encode(),
                  imports: why_of_import('./ckbtrace', 'contract'),
                  './ckbdev chain import < examples/first-blocks.bin': why_of_import('./ckbtrace', 'chain')}
    coin = './ckbdev contract cell 0x%s 1' % contract.First.hash.hex()
    text_of_contract = first.input_and_text(contract.contract_chain()[0])[1]
    of_contract = [
        (makes, 0, CONTRACT_LINE),
        (coin, 0, live_line(contract.First.outputs[1], 0)),
        (imports, 0,
         b''.join(it for it in text_of_contract.splitlines(keepends=True) if it.startswith(b'refused'))),
        ('./ckbdev contract check < examples/transfer.bin', 0, (contract.transfer()[1] + '\n').encode()),
        (refuses, 1, (contract.refused()[1] + '\n').encode()),
        ('./ckbtrace contract check < examples/refused.bin | head -n 8', 0, EXPLAINED),
    ]
    # the scripts ckbjson and ckbtrace have a build to run
    converter()
    tracer()
    chain = contract_chain()
    of_assembled = [('cat examples/witness.bin examples/transfer.bin examples/refused.bin > items', 0, b''),
                    *blocks_of_items(chain), *mined_on_page(chain)]
    with new_folder() as away:
        for folder, page in (('chain', readme), ('own', examples), ('contract', readme)):
            must('\nmkdir %s\n' % folder in page, 'no page makes the folder %s' % folder)
            os.mkdir(os.path.join(away, folder))
        for name in ('ckbdev', 'ckbjson', 'ckbtrace', 'examples'):
            os.symlink(os.path.join(TOP, name), os.path.join(away, name))
        for page, lines in ((readme, of_chain), (examples, of_own_chain), (readme, of_contract), (examples, of_assembled),
                            (readme, of_program), (examples, of_code)):
            for line, status, wanted in lines:
                ran, text, after = Ran(['sh', '-c', line], cwd=away), told.get(line, b''), told_after.get(line, b'')
                must('\n%s\n%s' % (line, (text + wanted + after).decode()) in page, 'no page shows %s with what it prints' % line)
                must_be((ran.status, ran.out, ran.err), (status, wanted, text + after), line)
        must_answer(Ran(['sh', '-c', coin], cwd=away), 0, b'none\n', coin + ' after the import')
        ran = Ran(['sh', os.path.join(TOP, 'examples', 'first-chain.sh'), 'new'], cwd=away)
        must(ran.status == 0 and ran.err.startswith(b'ckbdev: a block is refused: ') and ran.err.count(b'\n') == 1, 'first-chain.sh: %r' % ran.err)
        for _, _, wanted in of_chain:
            must(wanted in ran.out, 'first-chain.sh does not show %r' % wanted)
        must_be(sorted(os.listdir(os.path.join(away, 'new'))), ['log.bin', 'snap_a.bin', 'snap_b.bin'],
                'what first-chain.sh leaves in its folder')
