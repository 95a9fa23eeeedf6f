"""What the scripts of this folder share: it finds the modules of examples/ for them,
and writes rows."""

import os
import sys

sys.dont_write_bytecode = True
EXAMPLES = os.path.join(os.path.dirname(os.path.abspath(__file__)), '..', '..', 'examples')
sys.path.insert(0, EXAMPLES)


def hexed(content):
    return content.hex() or '-'


def row_of(*columns):
    """Its columns with a tab between two: bytes in hex, `-` for none."""
    return '\t'.join(hexed(it) if isinstance(it, bytes) else str(it) for it in columns)


def emit(*columns):
    print(row_of(*columns))


def emit_listed(*columns):
    """A run of a list in which no read or write of its own fails."""
    emit(*columns, '-', '-')
