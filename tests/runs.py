"""Runs of the program over whole folders, inputs and texts in which nothing fails: the rows of rows/runs.txt.

A row has columns with a tab between two, bytes in hex, `-` for none and `+N` after them for N zero bytes more:

- `folder` and a name: the rows up to the next one are over a new folder;
- `put`, an area (`log`, `snap_a` or `snap_b`) and bytes: they take the place of its file;
- a run: its name, the words after the folder, the status, the input (`=` for that of the run before) and the text,
  and, where that is looked at, an offset, a colon and the SHA-256 of the log's bytes up to there. Words that begin with
  a colon are all words, with a comma before each, the folder's among them;
- `left` and a count: so many bytes of its input the run before did not read;
- `byte`, an offset and a number: the log has that byte there;
- `fronts`, a length and another, a status and a text: over each beginning of the log that was put last, from the first
  length up to the other, `tip` answers so.

What is wanted was made by programs that were written from the rules of docs/ alone, or by hand from them; README.md says
which rows scripts of rows/ make.
"""

import concurrent.futures
import hashlib
import os

from harness import TOP, Ran, must, must_answer, must_be, new_folder, write
import hostile

ROWS = os.path.join(TOP, 'tests', 'rows', 'runs.txt')
FILES = {'log': 'log.bin', 'snap_a': 'snap_a.bin', 'snap_b': 'snap_b.bin'}
# a file with fewer runs has lost some
LEAST_RUNS = 4500


def bytes_of(column):
    digits, _, zeros = column.partition('+')
    return bytes.fromhex(digits.strip('-')) + bytes(int(zeros or 0))


def rows():
    """The columns of each row, where an input that is that of the run before stands written out."""
    given = ''
    with open(ROWS, encoding='ascii') as f:
        for row in f:
            if row.startswith('#'):
                continue
            columns = row.rstrip('\n').split('\t')
            if is_run(columns):
                given = columns[3] = given if columns[3] == '=' else columns[3]
            yield columns


def is_run(columns):
    return columns[0] not in ('folder', 'put', 'left', 'byte', 'fronts')


def folders():
    """The rows over each folder."""
    found = []
    for columns in rows():
        if columns[0] == 'folder' or not found:
            found.append([])
        found[-1].append(columns)
    return found


def words_of(column):
    return column[1:].split(',')[1:] if column.startswith(':') else ['any', *column.split(' ')]


class Folder:
    """A folder that rows act on."""

    def __init__(self, program, top):
        self.program, self.top, self.path = program, top, os.path.join(top, 'any')
        self.runs, self.left, self.log = 0, None, b''
        os.mkdir(self.path)

    def put(self, area, content):
        write(os.path.join(self.path, FILES[area]), content)

    def bytes_of_log(self):
        with open(os.path.join(self.path, FILES['log']), 'rb') as f:
            return f.read()

    def run(self, name, words, status, given, text, log=''):
        given = bytes_of(given)
        ran = Ran([self.program, *words_of(words)], given, cwd=self.top)
        must_answer(ran, int(status), bytes_of(text), '%s, %s' % (name, words))
        if log:
            end, digest = log.split(':')
            must_be(hashlib.sha256(self.bytes_of_log()[:int(end)]).hexdigest(), digest, '%s, %s: the log' % (name, words))
        self.left = len(given) - ran.read
        self.runs += 1

    def row(self, name, *columns):
        if name == 'put':
            self.log = bytes_of(columns[1]) if columns[0] == 'log' else self.log
            self.put(columns[0], bytes_of(columns[1]))
        elif name == 'left':
            must_be(self.left, int(columns[0]), 'bytes that are left of an input')
        elif name == 'byte':
            must_be(self.bytes_of_log()[int(columns[0])], int(columns[1]), 'the byte at %s of a log' % columns[0])
        elif name == 'fronts':
            for end in range(int(columns[0]), int(columns[1])):
                self.put('log', self.log[:end])
                self.run('the first %d bytes of a log' % end, 'tip', columns[2], '-', columns[3])
        elif name != 'folder':
            self.run(name, *columns)


def must_agree(program, columns_of):
    """How many runs there are over a folder, each of which agrees."""
    with new_folder() as top:
        folder = Folder(program, top)
        for columns in columns_of:
            folder.row(*columns)
        return folder.runs


def check_stored_runs(program):
    """Each stored run, the folders side by side."""
    with concurrent.futures.ThreadPoolExecutor(os.cpu_count()) as pool:
        runs = sum(pool.map(lambda it: must_agree(program, it), folders()))
    must(runs >= LEAST_RUNS, 'only %d runs are stored' % runs)


def check_files_that_load_slowly(program):
    """The line of `exec` on files of 1 MiB that have as many program headers as fit."""
    for name, make, budget in hostile.FILES:
        file = make()
        ran = Ran([program, 'any', 'exec', str(budget)], file)
        must_answer(ran, 0, hostile.line(file, budget).encode() + b'\n', '%s within %d' % (name, budget))
