"""What the documents name is there: files, headings, clauses of the crates, and a page for each crate. And no cell of a table
is long."""

import functools
import glob
import os
import re
import subprocess
import sys

from harness import TOP, must, must_be
import all as figures
from script import said_of

CRATES = os.path.join(TOP, 'crates')
CELL_LIMIT = 300
# a file that a document names, as `src/main.rt` or `crates.txt`
FILE = re.compile(r'(?<![\w/.-])[\w-]+(?:[/.][\w-]+)*\.(?:rt|antt|py|sh|c|h|S|ld|elf|bin|json|toml)(?![\w/])')
# files that the commands of the documents make, where they are run; and names that stand for others
MADE = {'longer.json', 'longer.bin', 'block.json', 'transfer.json', 'own.json', 'own.bin', 'store.bin', 'blocks.bin', 'exit0.elf', 'hello.elf', 'fault.elf', 'lock.elf',
        'payment.bin'}
EXAMPLES = {'FILE.antt', 'NAME.py', 'NAME.elf', 'NAME.c', 'SOURCE.c', 'it.py'}
AREAS = {'log.bin', 'snap_a.bin', 'snap_b.bin'}


def pages():
    """The README, docs/, and the README of each folder, those of the crates among them."""
    return [it for place in ('README.md', 'docs/*.md', '*/README.md', '*/*/README.md')
            for it in sorted(glob.glob(os.path.join(TOP, place)))]


@functools.lru_cache(maxsize=None)
def text_of(path):
    with open(path, encoding='utf-8') as f:
        return f.read()


def lines_of(path):
    """(where it stands, the line)"""
    name = os.path.relpath(path, TOP)
    return [('%s:%d' % (name, number), line) for number, line in enumerate(text_of(path).splitlines(), 1)]


# ---------------------------------------------------------------------- tables and links

def check_cells_of_tables(_):
    """Each is read at a glance, and each row of a table has as many as its head."""
    for path in pages():
        head = 0
        for where, line in lines_of(path):
            cells = [it.strip() for it in re.split(r'(?<!\\)\|', line)] if line.startswith('|') else []
            longest = max(cells, key=len, default='')
            must(len(longest) <= CELL_LIMIT, '%s: a cell has %d characters: %s..' % (where, len(longest), longest[:60]))
            head = (head or len(cells)) if cells else 0
            must(not cells or len(cells) == head, '%s: this row has %d cells, and the head of its table %d' % (where, len(cells) - 2, head - 2))


def anchors_of(path):
    """What a link into a page may name: a heading, in the form that a browser has of it, or an anchor of its own."""
    headings = re.findall(r'^#+ (.*)$', text_of(path), re.MULTILINE)
    return [re.sub(r'[^\w\- ]', '', it.lower()).replace(' ', '-') for it in headings] + \
        re.findall(r'<a id="([^"]+)">', text_of(path))


def check_links(_):
    """What a link of a page leads to is there."""
    for path in pages():
        for where, line in lines_of(path):
            for link in re.findall(r'\]\(([^)\s:]+)\)', line):
                file, _, anchor = link.partition('#')
                there = os.path.join(os.path.dirname(path), file) if file else path
                must(os.path.exists(there), '%s: there is no file %s' % (where, link))
                must(not anchor or anchor in anchors_of(there), '%s: there is no heading %s' % (where, link))


# ---------------------------------------------------------------------- files

@functools.lru_cache(maxsize=None)
def ends_of_paths():
    """What paths of files end with, from `main.rt` to `crates/ckbdev/src/main.rt`."""
    ends = set()
    for folder, inner, names in os.walk(TOP):
        inner[:] = [it for it in inner if it not in ('.git', 'out', 'build', '__pycache__')]
        for name in names:
            parts = os.path.relpath(os.path.join(folder, name), TOP).split(os.sep)
            ends.update('/'.join(parts[place:]) for place in range(len(parts)))
    return ends


def check_files_of_the_documents(_):
    """Each file that a page names is in the repository."""
    for where, line in (it for path in pages() for it in lines_of(path)):
        for name in FILE.findall(line):
            must(name in ends_of_paths() or os.path.basename(name) in MADE | EXAMPLES | AREAS,
                 '%s: there is no file %s' % (where, name))


def check_places_of_a_change(_):
    """Each row of docs/CHANGING.md names folders and files that are there: `crate/folder: names`, or a path."""
    count = 0
    for where, line in lines_of(os.path.join(TOP, 'docs', 'CHANGING.md')):
        for part in re.split(r'[|;]', line) if line.startswith('|') else ():
            found = re.match(r'([a-z_]+/[\w/.]+)(?:: (.*)| .*)?$', part.strip())
            if not found or not os.path.isdir(os.path.join(CRATES, found[1].split('/')[0])):
                continue
            folder, names = found[1], re.sub(r' (?:for|which|and of) [^,]*', '', found[2] or '')
            must(os.path.exists(os.path.join(CRATES, folder)), '%s: there is no place %s' % (where, folder))
            count += 1
            for name in filter(None, re.split(r', | and ', names)):
                # the folder of a function lies below that of its file
                must(' ' in name or '`' in name or os.path.exists(os.path.join(CRATES, folder, name))
                     or glob.glob(os.path.join(CRATES, folder, '*', name)), '%s: there is no place %s/%s' % (where, folder, name))
    must(count > 200, 'docs/CHANGING.md names only %d places' % count)


def check_benches_start(_):
    """Each script that bench/all.py runs reads its words: what it imports is there."""
    for script in sorted({bench.words[0] for bench in figures.BENCHES.values()}):
        ran = subprocess.run([sys.executable, os.path.join(TOP, 'bench', script), '--help'], stdin=subprocess.DEVNULL,
                             stdout=subprocess.DEVNULL, stderr=subprocess.PIPE, text=True)
        must(ran.returncode == 0, 'bench/%s does not start: %s' % (script, ran.stderr))


def check_commands_of_the_script(_):
    """The script `ckbdev` knows the commands of docs/COMMANDS.md, and its usage text has each with its words."""
    wanted = re.findall(r'^    ckbdev FOLDER (\w+(?: [A-Z]+)*)', text_of(os.path.join(TOP, 'docs', 'COMMANDS.md')), re.MULTILINE)
    script = text_of(os.path.join(TOP, 'ckbdev'))
    known = re.findall(r"^commands='(.*)'$", script, re.MULTILINE)[0].split()
    must_be(sorted(known), sorted(it.split()[0] for it in wanted), 'the commands of the script')
    shown = re.findall(r'^(?:usage:|      ) ckbdev FOLDER (\w+(?: [A-Z]+)*)(?= )', script, re.MULTILINE)
    must_be(sorted(shown), sorted(wanted), 'the commands of its usage text')
    said = said_of([[it.split()[0], *'five words are too many'.split()] for it in wanted])
    named = [re.findall(r'[A-Z]+', line.split(' takes ')[1].split('after it')[1]) for line in said]
    must_be(named, [it.split()[1:] for it in wanted], 'the words after each command, in tools/words.sh')
    waits, = re.findall(r'^    case \$2 in ([a-z |]+)\) ;; \*\) wait_for_folder', script, re.MULTILINE)
    apart, = re.findall(r'^FOLDER is .*; (.*) do not look at it', script, re.MULTILINE)
    must_be(waits.split(' | '), re.split(', | and ', apart), 'the commands for which it does not wait')


# ---------------------------------------------------------------------- names and clauses

@functools.lru_cache(maxsize=None)
def names_of_the_code():
    """The words of all sources, and what their files and folders are called."""
    names = set(os.listdir(CRATES))
    for part in ('src', 'specs', 'proofs'):
        for folder in glob.glob(os.path.join(CRATES, '*', part)):
            names.update(re.sub(r'\.\w+$', '', name) for _, inner, files in os.walk(folder) for name in inner + files)
    for place in ('crates/*/src/**/*.rt', 'crates/*/specs/**/*.antt', 'crates/*/proofs/**/*.antt', '*/*.py', '*/*/*.py', 'bench/*.c'):
        for path in glob.glob(os.path.join(TOP, place), recursive=True):
            names.update(re.findall(r'[A-Za-z_]\w*', text_of(path)))
    return names


def check_names_of_the_documents(_):
    """What looks like a name of the code, as `read_line` or `FolderDisk`, is one."""
    named = ('ARCHITECTURE', 'CHANGING', 'COMMANDS', 'DECISIONS', 'PROVED', 'PROVING', 'STORE', 'WAYS', 'WORDS')
    for path in [os.path.join(TOP, 'docs', it + '.md') for it in named] + pages_of_crates():
        for where, line in lines_of(path):
            for name in re.findall(r'\b[A-Za-z]\w*_\w+\b|\b[A-Z][a-z]+[A-Z]\w+\b', line):
                must(name in names_of_the_code() or name in ('start_lib', 'start_io'), '%s: there is no %s' % (where, name))


def sources(crate, *places):
    return '\n'.join(text_of(it) for place in places
                     for it in glob.glob(os.path.join(CRATES, crate, place), recursive=True))


@functools.lru_cache(maxsize=None)
def clauses_of(crate):
    return set(re.findall(r'\bensures\s+(\w+)\s*\{', sources(crate, 'src/**/*.rt')))


@functools.lru_cache(maxsize=None)
def words_of(crate):
    """The functions of a crate, the conditions of its calls, its definitions and the fields of its records."""
    return set(re.findall(r'\b(?:fn|requires) (\w+)', sources(crate, 'src/**/*.rt'))) | \
        set(re.findall(r'\b(\w+) *:', sources(crate, 'specs/**/*.antt'))) | \
        set(re.findall(r'\b[A-Z]\w+', sources(crate, 'specs/**/*.antt')))


def clauses_in(path, here):
    """How many clauses a page names in brackets: each such name is a clause of these crates or of one that is named in its
    line, or a word of theirs."""
    crates, count = set(os.listdir(CRATES)), 0
    for where, line in lines_of(path):
        named = here + [it for it in re.findall(r'\w+', line) if it in crates]
        for name in re.findall(r'`(\w+)`', ' '.join(re.findall(r'\(([^()]*)\)', line))):
            is_clause = any(name in clauses_of(it) for it in named)
            must(is_clause or name in crates or name in ('ensures', 'requires') or any(name in words_of(it) for it in named),
                 '%s: there is no clause %s of %s' % (where, name, ', '.join(named)))
            count += is_clause
    return count


def check_clauses_of_the_pages(_):
    """docs/PROVED.md is about a run, with the definitions of its report, and the README of a crate about that crate."""
    count = clauses_in(os.path.join(TOP, 'docs', 'PROVED.md'), ['node_run', 'report_defs'])
    must(count > 40, 'docs/PROVED.md names only %d clauses' % count)
    count = sum(clauses_in(it, [os.path.basename(os.path.dirname(it))]) for it in pages_of_crates())
    must(count > 300, 'the pages of the crates name only %d clauses' % count)


def check_words_of_the_code(_):
    """Each word of docs/WORDS.md that is a name stands in the file beside it."""
    count = 0
    for where, line in lines_of(os.path.join(TOP, 'docs', 'WORDS.md')):
        cells = [it.strip() for it in line.strip('|').split('|')]
        path = os.path.join(CRATES, cells[-1])
        if len(cells) != 3 or not re.search(r'\.(rt|antt)$', path):
            continue
        must(os.path.isfile(path), '%s: there is no file %s' % (where, cells[-1]))
        for name in re.findall(r'`(\w+)`', cells[0]):
            must(re.search(r'\b%s\b' % name, text_of(path)), '%s: %s has no %s' % (where, cells[-1], name))
            count += 1
    must(count > 40, 'docs/WORDS.md names only %d words' % count)


# ---------------------------------------------------------------------- crates

def pages_of_crates():
    return sorted(glob.glob(os.path.join(CRATES, '*', 'README.md')))


def groups_of_crates():
    """(the heading, its crates) of crates.txt"""
    groups = []
    for _, line in lines_of(os.path.join(TOP, 'crates.txt'))[1:]:
        if line.startswith('# '):
            groups.append((line[2:], []))
        elif ':' in line:
            groups[-1][1].append(line.partition(':')[0])
    return groups


def check_pages_of_crates(_):
    """Each crate has a page, which has its name above all, its contract, and what is proved of it and what is tested."""
    must_be([os.path.basename(os.path.dirname(it)) for it in pages_of_crates()], sorted(os.listdir(CRATES)), 'the pages of crates')
    for path in pages_of_crates():
        crate, page = os.path.basename(os.path.dirname(path)), text_of(path)
        must(page.startswith('# %s\n' % crate), 'crates/%s/README.md begins with another name' % crate)
        must('\n**Contract.** ' in page, 'crates/%s/README.md has no contract' % crate)
        must('No clause says anything' in page or '\n## What is proved\n' in page and '\n## What only tests show\n' in page,
             'crates/%s/README.md does not say what is proved' % crate)


def check_groups_of_crates(_):
    """crates.txt, docs/ARCHITECTURE.md and docs/PROVED.md have the same groups of crates, in the same order."""
    wanted = groups_of_crates()
    shown = []
    for _, line in lines_of(os.path.join(TOP, 'docs', 'ARCHITECTURE.md')):
        group = re.match(r'\| \*\*(.*)\*\* \|', line)
        crate = re.match(r'\| \[(\w+)\]\(\.\./crates/\w+/README\.md\) \|', line)
        if group:
            shown.append((group[1], []))
        elif crate:
            shown[-1][1].append(crate[1])
    must_be(shown, wanted, 'the groups of docs/ARCHITECTURE.md')
    page = text_of(os.path.join(TOP, 'docs', 'PROVED.md'))
    rows = re.findall(r'(?m)^\| (.*) \| (.*) \|$', page[page.index('| group | crates |'):page.index('## What only tests show')])[2:]
    must_be([(name, crates.split(', ')) for name, crates in rows], wanted, 'the groups of docs/PROVED.md')
