#!/usr/bin/env python3
"""The processor time of the gate, crate by crate.

    python3 tools/gate_time.py [--write] [WORD ..]

runs `rt ci` with these words at the top of the checkout, passes on what it prints,
and looks four times a second at what the processes below it have used. Then it
prints a table: of each crate the seconds of the processor that its check, its tests
and its must-fail edits took, and below them those of rt itself, whose own time grows
with the paths down from each crate of crates.txt, and of links and runs. What an earlier run on this machine has passed is kept
and takes no time: `--anew` as a word proves all. With --write the table takes the
place of the one in docs/PROVING.md. The status is that of `rt ci`.
"""

import argparse
import os
import re
import subprocess
import sys
import threading
import time

TOP = os.path.dirname(os.path.dirname(os.path.abspath(__file__)))
PAGE = os.path.join(TOP, 'docs', 'PROVING.md')
BEGIN, END = '<!-- the gate\'s time: made by tools/gate_time.py -->\n', '<!-- end -->\n'
KINDS = ('check', 'tests', 'edits')
TICKS = os.sysconf('SC_CLK_TCK')


class Seen:
    """What the processes below one have used, each at its last look."""

    def __init__(self, root):
        self.root, self.used, self.what, self.now = root, {}, {}, set()

    def look(self):
        parents, used = {}, {}
        for name in os.listdir('/proc'):
            if name.isdigit():
                try:
                    with open('/proc/%s/stat' % name, encoding='ascii', errors='replace') as f:
                        fields = f.read().rpartition(')')[2].split()
                except OSError:
                    continue
                parents[int(name)] = int(fields[1])
                # with the time at which it began, since numbers are used again
                used[int(name)] = (fields[19], int(fields[11]) + int(fields[12]))
        self.now = {(pid, begun) for pid, (begun, _) in used.items() if self.is_below(pid, parents)}
        for pid, (begun, ticks) in used.items():
            if (pid, begun) in self.now:
                self.used[pid, begun] = ticks / TICKS
                if (pid, begun) not in self.what:
                    self.what[pid, begun] = self.what_of(pid, parents)

    def is_below(self, pid, parents):
        while pid in parents and pid != self.root:
            pid = parents[pid]
        return pid == self.root

    def what_of(self, pid, parents):
        """The crate and the kind of work of a process, or of the nearest one above that shows it."""
        while pid != self.root and pid in parents:
            try:
                with open('/proc/%d/cmdline' % pid, 'rb') as f:
                    words = f.read().decode(errors='replace').split('\0')
                folder = os.readlink('/proc/%d/cwd' % pid)
            except OSError:
                return None
            if '--crate-name' in words:
                kind = 'edits' if 'rt-edit' in folder else 'tests' if '--test' in words else 'check'
                return words[words.index('--crate-name') + 1], kind
            pid = parents[pid]
        return None

    def table(self):
        """What crates took by kind, what the gate's own process took, and what is left: links and runs."""
        total, own, other = {}, 0.0, 0.0
        for (pid, begun), seconds in self.used.items():
            if self.what.get((pid, begun)):
                what = self.what[pid, begun]
                total[what] = total.get(what, 0.0) + seconds
            elif pid == self.root:
                own += seconds
            else:
                other += seconds
        return total, own, other


def edits_of(name):
    folder = os.path.join(TOP, 'crates', name, 'must-fail')
    return len([it for it in os.listdir(folder) if it.endswith('.edit')]) if os.path.isdir(folder) else 0


def text_of(total, own, other, elapsed):
    with open(os.path.join(TOP, 'crates.txt'), encoding='utf-8') as f:
        names = re.findall(r'(?m)^(\w+).*:', f.read())
    lines = ['| crate | check | tests | edits | of them | sum |', '| --- | ---: | ---: | ---: | ---: | ---: |']
    for name in names:
        row = [total.get((name, kind), 0.0) for kind in KINDS]
        cells = ['%.0f' % it if it >= 0.5 else '' for it in row]
        lines.append('| %s | %s | %s | %s | %s | %.0f |' % (name, *cells, edits_of(name) or '', sum(row)))
    sums = [sum(total.get((name, kind), 0.0) for name in names) for kind in KINDS]
    lines.append('| all | %.0f | %.0f | %.0f | %d | %.0f |' % (*sums, sum(map(edits_of, names)), sum(sums)))
    lines.append('| rt itself | | | | | %.0f |' % own)
    lines.append('| links and runs | | | | | %.0f |' % other)
    version = subprocess.run(['rt', 'version'], capture_output=True, text=True).stdout.strip()
    lines.append('\n%.0f processor minutes in all, of which %.1f of rt itself; %.0f minutes on %d processors. Last measured '
                 'with `%s`.' % ((sum(sums) + own + other) / 60, own / 60, elapsed / 60, os.cpu_count(), version))
    return '\n'.join(lines) + '\n'


def main():
    a = argparse.ArgumentParser(description=__doc__.split('\n')[0])
    a.add_argument('--write', action='store_true')
    a, words = a.parse_known_args()
    begun = time.monotonic()
    gate = subprocess.Popen(['rt', 'ci', *words], cwd=TOP, stdin=subprocess.DEVNULL)
    seen, ended = Seen(gate.pid), threading.Event()

    def watch():
        while not ended.wait(0.25):
            seen.look()

    watcher = threading.Thread(target=watch)
    watcher.start()
    status = gate.wait()
    ended.set()
    watcher.join()
    text = text_of(*seen.table(), time.monotonic() - begun)
    print(text, end='')
    if a.write:
        with open(PAGE, encoding='utf-8') as f:
            page = f.read()
        at, to = page.index(BEGIN) + len(BEGIN), page.index(END)
        with open(PAGE, 'w', encoding='utf-8') as f:
            f.write(page[:at] + text + page[to:])
    return status


if __name__ == '__main__':
    sys.exit(main())
