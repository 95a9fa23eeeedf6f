"""What the documents say to an author of a chain with accounts, of locks that are wrong, and of a page to look at: with the
compiler of C, and with the browser of Debian's package chromium."""

import json
import os
import re
import shutil
import subprocess
import sys

from harness import SCRIPTS, TOP, must, must_be, new_folder, signature, write
import make_contract_chain as contract
import make_devnet
import secp256k1
from encoding import ckbhash
from make_contract_chain import ANYONE, Transaction, ckb
from make_first_blocks import genesis_line
from make_store import Spec
from script_scene import Cell, Script

CKBDEV = os.path.join(TOP, 'ckbdev')
TRACER = os.path.join(TOP, 'ckbtrace')
FEE = 1000


def ran(words, folder, given=b'', status=0):
    process = subprocess.run(words, cwd=folder, input=given, stdout=subprocess.PIPE)
    must_be(process.returncode, status, 'the status of %s' % ' '.join(words))
    return process.stdout.decode()


# -------------------------------------------------------------- the accounts

class Genesis:
    """The transaction of the genesis that devnet.sh made with this lock."""

    def __init__(self, code):
        chain = make_devnet.Chain(code)
        only, = chain.genesis.transactions
        self.accounts, self.hash = chain.accounts, ckbhash(only.raw())
        locks = [Script(ckbhash(code), args=it.args) for it in chain.accounts]
        self.outputs = [Cell(ANYONE, content=it[1], capacity=it[0]) for it in only.outputs[:3]]
        self.outputs += [Cell(lock, capacity=make_devnet.FUNDS) for lock in locks]


def paid(genesis, signed_by):
    """100 CKB of account 0 to account 1, with what pay.py pays as a fee."""
    made = [Cell(genesis.outputs[4].lock, capacity=ckb(100)),
            Cell(genesis.outputs[3].lock, capacity=make_devnet.FUNDS - ckb(100) - 10000)]

    def spends(witness):
        return Transaction([(genesis, 3)], made, deps=[(genesis, 2)], witnesses=[witness])

    message = signature.message_of(spends(signature.witness(bytes(65))), [0])
    return spends(signature.witness(secp256k1.sign(signed_by.key, message)))


def check_accounts(folder):
    """Of the chain that devnet.sh makes: who has the key spends the cell, and nobody else."""
    said = ran(['sh', 'examples/devnet.sh', 'net'], folder)
    lock = os.path.join(folder, 'net', 'lock.elf')
    if not os.path.exists(lock):
        return 'the accounts of devnet.sh have no lock that asks for a signature here'
    must('the lock by a signature' in said, 'devnet.sh says nothing of the lock')
    with open(lock, 'rb') as f:
        genesis = Genesis(f.read())
    own, other = (paid(genesis, it) for it in genesis.accounts[:2])
    ran(['sh', '-c', 'python3 examples/pay.py net 0 1 100 > payment.bin'], folder)
    with open(os.path.join(folder, 'payment.bin'), 'rb') as f:
        must(f.read() == own.item, 'pay.py signs something else')
    _, cycles = own.outcome(10 ** 9).split()
    must_be(ran(['./ckbdev', 'net/chain', 'check'], folder, own.item), 'ok 10000 %s\n' % cycles, 'the key of the account')
    must_be(ran(['./ckbdev', 'net/chain', 'check'], folder, other.item, 1), 'refused J29\n', 'another key')
    said = ran([sys.executable, 'examples/mine.py', 'net/chain', '0', 'payment.bin'], folder)
    must(said.startswith('committed 13 0x'), 'the payment is not mined: %r' % said)
    return 'an account of devnet.sh pays another by its key'


# ------------------------------------------------------------ locks that are wrong

ASKS = '#include "ckb.h"\nint main(void) { uint64_t n = 0; return ckb_load_cell(0, &n, 0, 0, 9); }'
OURS = ['sh', os.path.join(SCRIPTS, 'gcc.sh')]
FAR = 'riscv64-unknown-elf-gcc -march=rv64imc -mabi=lp64 -nostdlib -static -Wl,-Ttext=0x80000000 -e main'.split()
# how each is built, how it ends by the plain machine, the line of `check`, and how its group ends on the page that explains it
WRONG_LOCKS = [
    ('exits with 5', 'int main(void) { return 5; }', OURS, 'exit 0 5', 'refused J29', 'exit 5 after'),
    ('loads past memory', 'int main(void) { return *(volatile int *)0x400000; }', OURS, 'fault 0 1', 'refused J29', 'fault 1 after'),
    ('asks for a source that there is not', ASKS, OURS, 'fault 0 5', 'refused J29', 'fault 5 after'),
    ('does not end', 'int main(void) { for (volatile int i = 0;; i++); }', OURS, 'spent', 'refused J30', 'spent after'),
    ('is linked for another machine', 'int main(void) { return 0; }', FAR, 'bad_elf 0 7', 'refused J29', 'bad elf 7'),
]


def check_wrong_locks(folder):
    """A lock that is wrong in five ways: what `check` says of each, and how it ended on the page that explains it."""
    spec = Spec(max_cycles=10 ** 6)
    for what, source, words, end, line, ended in WRONG_LOCKS:
        write(os.path.join(folder, 'wrong.c'), source.encode())
        ran([*words, 'wrong.c', '-o', 'wrong.elf'], folder)
        with open(os.path.join(folder, 'wrong.elf'), 'rb') as f:
            code = f.read()
        cells = [Cell(ANYONE, content=code), Cell(Script(ckbhash(code)), capacity=ckb(100))]
        cells[0].capacity = cells[0].occupied()
        genesis = contract.store.genesis(spec, outputs=[(it.capacity, it.content, it.lock.item()) for it in cells])

        class Made:
            hash = ckbhash(genesis.transactions[0].raw())
            outputs = contract.First.outputs[:2] + cells

        spends = Transaction([(Made, 3)], [Cell(ANYONE, capacity=ckb(100) - FEE)], deps=[(Made, 2)])
        must_be(spends.outcome(spec.max_cycles), end, 'a lock that %s, on the plain machine' % what)
        with new_folder() as store:
            must_be(ran([CKBDEV, store, 'init'], folder, spec.item() + genesis.item()), genesis_line(genesis) + '\n', 'init')
            must_be(ran([CKBDEV, store, 'check'], folder, spends.item, 1), line + '\n', 'a lock that %s' % what)
            page = ran([TRACER, store, 'check'], folder, spends.item, 1)
            must(page.startswith(line + '\nJ') and '\n  %s' % ended in page, 'the page of a lock that %s: %r' % (what, page))
    return 'a lock that is wrong in %d ways is refused as docs/RULES.md says, and explained' % len(WRONG_LOCKS)


# ------------------------------------------------------- a chain and payments as texts

# a chain whose specification and genesis were edited as JSON, and a transaction from JSON; the commands of docs/WAYS.md
EDITED = """
mkdir texts
./ckbjson spec --show < examples/spec.bin | sed 's/"epoch_length":"0xa"/"epoch_length":"0x4"/; s/"maturity":"0x0"/"maturity":"1 1\\/2"/' > spec.json
./ckbjson spec < spec.json > texts.spec
./ckbjson block --show < examples/genesis.bin | sed 's/"0x3e8"/"0x19b76daa800"/' > genesis.json
./ckbjson block --seal < genesis.json > texts.genesis
cat texts.spec texts.genesis | ./ckbdev texts init
"""


def check_texts(folder):
    """A specification and a genesis are edited as JSON and make a chain that is mined; a wallet's JSON is checked; a slip is named."""
    said = ran(['sh', '-ec', EDITED], folder)
    must(re.fullmatch('genesis 0x[0-9a-f]{64}\n', said), 'init of an edited genesis says %r' % said)
    ran([sys.executable, 'examples/mine.py', 'texts', '14', '--timestamp', '1767225600000'], folder)
    must(ran(['./ckbdev', 'texts', 'tip'], folder).startswith('tip 14 '), 'the edited chain is not mined')
    must_be(ran(['./ckbdev', 'texts', 'epoch'], folder).split()[1], '3', 'the epoch of block 14, of four blocks each')
    with open(os.path.join(TOP, 'examples', 'transfer.bin'), 'rb') as f:
        item = f.read()
    tree = json.loads(ran(['./ckbjson', 'transaction', '--show'], folder, item))
    wallet = json.dumps({**tree, 'hash': '0x' + '00' * 32}, indent=2)
    made = subprocess.run(['./ckbjson', 'transaction'], cwd=folder, input=wallet.encode(), stdout=subprocess.PIPE, check=True).stdout
    must_be(made, item, 'a transaction of JSON')
    slip = subprocess.run(['./ckbjson', 'transaction'], cwd=folder, input=wallet.replace('"since": "0x0"', '"since": "0"', 1).encode(),
                          stdout=subprocess.PIPE, stderr=subprocess.PIPE).stderr.decode()
    line = wallet[:wallet.index('"since"')].count('\n') + 1
    must('line %d: inputs[0].since: a number is 0x and lower-case hex, without leading zeros' % line in slip, 'a slip is called %r' % slip)
    return 'a chain is made of JSON, and so is a transaction; a slip in it is named'


# ------------------------------------------------------------- pages in a browser

# what a browser finds of a page: boxes that overlap or whose text does not fit, arrows that do not lead from the box of a
# block to that of another, links that lead nowhere, and parts that are wider than the window
LOOKS = '''
<script>
const wrong = [], boxes = [...document.querySelectorAll('a.box')], at = it => it.getBoundingClientRect();
boxes.forEach((it, i) => {
  if (i && at(it).left < at(boxes[i - 1]).right) wrong.push('block ' + i + ' overlaps');
  if (it.scrollHeight > it.clientHeight || it.scrollWidth > it.clientWidth) wrong.push('block ' + i + ' is too small');
});
const ways = [...document.querySelectorAll('path.way')].map(way => {
  const matrix = way.getScreenCTM(), ends = [0, way.getTotalLength()].map(n => way.getPointAtLength(n).matrixTransform(matrix));
  const meets = (it, end) => at(it).left <= end.x && end.x <= at(it).right && Math.abs(at(it).top - end.y) < 4;
  return ends.map(end => boxes.findIndex(it => meets(it, end)));
});
document.querySelectorAll('a[href^="#"]').forEach(it => {
  if (!document.getElementById(it.getAttribute('href').slice(1))) wrong.push('no ' + it.getAttribute('href'));
});
document.querySelectorAll('section, article').forEach(it => {
  if (!at(it).height || at(it).right > innerWidth) wrong.push((it.id || 'a part') + ' is not seen');
});
if (document.documentElement.scrollWidth > innerWidth) wrong.push('the page is wider than the window');
document.title = JSON.stringify({ wrong, ways, boxes: boxes.length });
</script>'''
BROWSERS = 'chromium', 'chromium-browser'


def seen(browser, folder, page):
    """What the browser finds of it."""
    path = os.path.join(folder, 'looks.html')
    write(path, page.replace('</body>', LOOKS + '</body>').encode())
    words = [browser, '--headless', '--no-sandbox', '--disable-gpu', '--window-size=1300,900', '--virtual-time-budget=60000',
             '--dump-dom', 'file://' + path]
    shown = subprocess.run(words, cwd=folder, stdin=subprocess.DEVNULL, stdout=subprocess.PIPE, stderr=subprocess.DEVNULL,
                           timeout=300)
    title = re.search('<title>(.*?)</title>', shown.stdout.decode())
    must(title, 'the browser shows no page')
    return json.loads(title[1])


def proposals_of(page):
    """The pairs of the blocks that propose and commit, as the page tells them in words."""
    found = re.findall(r'proposed in block (\d+)(?: by an uncle)?, committed in block (\d+)<', page)
    return [list(map(int, it)) for it in found]


def must_look_well(browser, folder, store, height):
    page = ran([sys.executable, 'examples/page.py', store], folder)
    found = seen(browser, folder, page)
    must_be(found, {'wrong': [], 'ways': proposals_of(page), 'boxes': height + 1}, 'the page of %s' % store)


def check_pages_in_a_browser(folder):
    """Of 20 blocks, which devnet.sh and mine.py made, and of 300."""
    browser = next(filter(None, map(shutil.which, BROWSERS)), None)
    if not browser:
        return 'no page was looked at: chromium is not there'
    if not os.path.exists(os.path.join(folder, 'net')):
        ran(['sh', 'examples/devnet.sh', 'net', '--without-signatures'], folder)
    ran([sys.executable, 'examples/mine.py', 'net/chain', '0', '--until', '20'], folder)
    must_look_well(browser, folder, 'net/chain', 20)
    os.mkdir(os.path.join(folder, 'developer'))
    os.mkdir(os.path.join(folder, 'made'))
    ran([sys.executable, 'examples/make_developer_chain.py', 'made'], folder)
    for word, name in (('init', 'store'), ('import', 'blocks')):
        with open(os.path.join(folder, 'made', name + '.bin'), 'rb') as f:
            ran(['./ckbdev', 'developer', word], folder, f.read())
    must_look_well(browser, folder, 'developer', 300)
    return 'a browser shows the pages of 20 and of 300 blocks well'
