"""That crates.txt lists what each crate names, and how many paths lead down from a crate: the toolchain goes along each
of them, so that its own time in a gate grows with their number."""

import functools
import os
import re

from harness import TOP, must

PATHS_OF_THE_PROGRAM, PATHS_OF_ALL = 10_000, 60_000


def listed():
    """Each crate of crates.txt with its entries."""
    with open(os.path.join(TOP, 'crates.txt'), encoding='utf-8') as f:
        lines = (line.partition('#')[0].partition(':') for line in f)
        return {name.strip(): entries.split() for name, colon, entries in lines if colon}


def words_of(crate):
    """The libraries that the files of a crate may name: what stands after `Rattle.` or `use`, or before `::`, outside comments."""
    text = []
    for part in ('src', 'specs', 'proofs'):
        for folder, _, names in os.walk(os.path.join(TOP, 'crates', crate, part)):
            for name in names:
                with open(os.path.join(folder, name), encoding='utf-8') as f:
                    text.append(re.sub(r'(?m)//.*$|^\s*--.*$', '', f.read()))
    text = '\n'.join(text)
    own = set(re.findall(r'(?m)^\s*(?:pub )?mod (\w+);', text))
    return set(re.findall(r'\bRattle\.(\w+)\.|(?<![\w:])(\w+)::', text)), set(re.findall(r'\buse (\w+);', text)), own


def named_in(crate):
    pairs, used, own = words_of(crate)
    return ({word for pair in pairs for word in pair if word} | used) - own


def check_entries_of_crates(_):
    """Each entry of crates.txt is a library that a file of the crate names, and each crate that one names has its entry."""
    crates = listed()
    for crate, entries in crates.items():
        named = named_in(crate)
        for entry in entries:
            must(entry in named, 'crates.txt: no file of %s names %s' % (crate, entry))
        for other in sorted(named & crates.keys() - {crate}):
            must(other in entries, 'crates.txt: %s names %s, and does not list it' % (crate, other))


def check_paths_down_from_a_crate(_):
    crates = listed()

    @functools.lru_cache(maxsize=None)
    def paths(crate):
        return 1 + sum(paths(it) for it in crates.get(crate, ()))

    must(paths('ckbdev') <= PATHS_OF_THE_PROGRAM, 'crates.txt: %d paths lead down from ckbdev' % paths('ckbdev'))
    total = sum(paths(it) for it in crates)
    must(total <= PATHS_OF_ALL, 'crates.txt: %d paths lead down from its crates' % total)
