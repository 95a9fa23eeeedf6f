"""Reads what is written of a chain by hand: numbers, bytes, scripts and cells, as words of a shell or as values of a file
in TOML or JSON.

`where` is what a value is called. What is wrong with one is a ValueError of one line, which begins with that.
"""

import difflib
import json
import os
import re

from encoding import ckbhash, script

HASH_TYPES = {'data': 0, 'type': 1}


# ------------------------------------------------------------------- values

def number(value, where, size=8):
    """A number of so many bytes, of an integer or of its digits."""
    if isinstance(value, str):
        try:
            value = int(value, 0)
        except ValueError:
            value = None
    if not isinstance(value, int) or isinstance(value, bool) or not 0 <= value < 1 << 8 * size:
        raise ValueError('%s: a number is decimal, or 0x and hex digits, and below 2^%d' % (where, 8 * size))
    return value


def epochs(value, where):
    """An epoch value (docs/RULES.md, "Epochs and issuance"): a number, or a text as `4` and `1 1/3`."""
    mixed = isinstance(value, str) and re.fullmatch(r'(\d+) (\d+)/(\d+)', value)
    if not mixed:
        return number(value, where)
    whole, index, length = map(int, mixed.groups())
    if whole >= 1 << 24 or not index < length < 1 << 16:
        raise ValueError('%s: a span of epochs is 4 or 1 1/3: the fraction below 1, and its parts below 65536' % where)
    return whole | index << 24 | length << 40


def hex_bytes(value, where, size=None):
    """Bytes of hex digits, with or without 0x before them; as many as `size` says."""
    try:
        content = bytes.fromhex(value.removeprefix('0x'))
    except (AttributeError, ValueError):
        raise ValueError('%s: bytes are hex digits, two for each, as 0x0a0b' % where) from None
    if size not in (None, len(content)):
        raise ValueError('%s: it has %d bytes, and not %d' % (where, len(content), size))
    return content


def must_be_keys(value, where, known):
    """It is a table with keys of these alone."""
    if not isinstance(value, dict):
        raise ValueError('%s: a table is wanted, with keys of %s' % (where, ', '.join(known)))
    for key in value:
        if key not in known:
            near = difflib.get_close_matches(key, known, 1)
            raise ValueError('%s.%s: there is no such key; %s' % (
                where, key, 'did you mean %s?' % near[0] if near else 'those that are: %s' % ', '.join(known)))


def content_of(path, where, folder=''):
    """The bytes of a file, whose path is from the folder on."""
    if not isinstance(path, str):
        raise ValueError('%s: the path of a file is a text' % where)
    try:
        with open(os.path.join(folder, path), 'rb') as f:
            return f.read()
    except OSError as error:
        raise ValueError('%s: %s: %s' % (where, os.path.join(folder, path), error.strerror)) from None


# ------------------------------------------------------------------ scripts

def script_of(value, where, folder=''):
    """A script of a table: `code_hash`, or `code` with the file whose hash that is; `hash_type` and `args`, or none."""
    must_be_keys(value, where, ('code', 'code_hash', 'hash_type', 'args'))
    if ('code' in value) == ('code_hash' in value):
        raise ValueError('%s: it takes either code, the path of a file, or code_hash' % where)
    if 'code' in value:
        code_hash = ckbhash(content_of(value['code'], where, folder))
    else:
        code_hash = hex_bytes(value['code_hash'], where + '.code_hash', 32)
    return script(code_hash, hash_type_of(value.get('hash_type', 'data'), where + '.hash_type'),
                  hex_bytes(value.get('args', ''), where + '.args'))


def hash_type_of(value, where):
    """As JSON has it (docs/FORMATS.md): data, type, or another byte."""
    if isinstance(value, str) and re.fullmatch('0x[0-9a-fA-F]{2}', value):
        return int(value, 16)
    if not isinstance(value, str) or value not in HASH_TYPES:
        raise ValueError('%s: a hash type is data, type, or another byte as 0x02' % where)
    return HASH_TYPES[value]


def script_of_words(words):
    """The table of a script of three words: a code hash or the path of a file, a hash type, and args."""
    code, hash_type, args = words
    key = 'code_hash' if re.fullmatch('0x[0-9a-fA-F]{64}', code) else 'code'
    return {key: code, 'hash_type': hash_type, 'args': args}


# -------------------------------------------------------------------- files

def table_of(path, where):
    """The table that a file has: JSON where it begins with `{`, else TOML."""
    content = content_of(path, where)
    try:
        text = content.decode()
        return json.loads(text) if text.lstrip().startswith('{') else toml_of(text)
    except UnicodeDecodeError:
        raise ValueError('%s: it is no text in UTF-8, and so neither TOML nor JSON' % path) from None
    except (ValueError, RecursionError) as error:
        raise ValueError('%s: %s' % (path, error)) from None


def toml_of(text):
    try:
        import tomllib
    except ImportError:
        raise ValueError('TOML is read by Python 3.11 or later; JSON with the same keys by any') from None
    return tomllib.loads(text)
