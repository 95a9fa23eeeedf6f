"""How long parts of the work took on this machine: seconds by a kind and a name, kept in build/."""

import contextlib
import json
import os

TOP = os.path.dirname(os.path.dirname(os.path.abspath(__file__)))
KEPT = os.path.join(TOP, 'build', 'times.json')


def kept():
    try:
        with open(KEPT, encoding='utf-8') as f:
            found = json.load(f)
        return {kind: {name: float(it) for name, it in of.items()} for kind, of in found.items()}
    except (OSError, ValueError, AttributeError, TypeError):
        return {}


def keep(kind, name, seconds):
    """What cannot be kept is not: it is only for saying how long something takes."""
    found = kept()
    found.setdefault(kind, {})[name] = round(seconds, 1)
    part = '%s.%d' % (KEPT, os.getpid())
    with contextlib.suppress(OSError):
        os.makedirs(os.path.dirname(KEPT), exist_ok=True)
        with open(part, 'w', encoding='utf-8') as f:
            json.dump(found, f, indent=1, sort_keys=True)
        os.replace(part, KEPT)


def in_words(seconds):
    if seconds < 90:
        return 'a minute' if seconds >= 50 else '%d seconds' % max(10, round(seconds, -1))
    if seconds < 5400:
        return '%d minutes' % round(seconds / 60)
    return '%.1f hours' % (seconds / 3600)
