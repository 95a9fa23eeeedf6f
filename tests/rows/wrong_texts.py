#!/usr/bin/env python3
"""Texts that `ckbjson` refuses, and what it says of each.

    python3 tests/rows/wrong_texts.py

A row is the kind, the text in hex, and the line. `said_of` is a second reading of texts, by docs/COMMANDS.md, "What is
wrong with a text", and docs/FORMATS.md: it goes down a text by calls of itself, and stops at the first thing that is
wrong. tests/json_program.py runs the program on each row; nothing of them is stored.
"""

import json
import re

from common import emit

import block_json
import make_contract_chain as contract
import make_first_blocks as first
from encoding import fields_of

NUMBER, BYTES = 'a number is 0x and lower-case hex, without leading zeros', 'bytes are 0x and hex digits, two for each'
EPOCHS = 'epochs are 4 or 1 1/3 in quotes, the fraction below 1, or a number'
NAMED = {'hash_type': ('data', 'type'), 'dep_type': ('code', 'dep_group')}
ZERO = '0x' + '00' * 32


# ---------------------------------------------------------------------- what is wanted

# a scalar is ('number', bits), ('bytes', count or None), ('named', key), ('epochs',); an object its keys, of which the last column is
# whether it may have a key `hash`; a list ('list', item)
def u(bits):
    return 'number', bits


HASH = 'bytes', 32
SCRIPT = 'object', {'args': ('bytes', None), 'code_hash': HASH, 'hash_type': ('named', 'hash_type')}
OUT_POINT = 'object', {'index': u(32), 'tx_hash': HASH}
INPUT = 'object', {'previous_output': OUT_POINT, 'since': u(64)}
DEP = 'object', {'dep_type': ('named', 'dep_type'), 'out_point': OUT_POINT}
OUTPUT = 'object', {'capacity': u(64), 'lock': SCRIPT, 'type': ('optional', SCRIPT)}
TRANSACTION = 'hashed', {
    'cell_deps': ('list', DEP), 'header_deps': ('list', HASH), 'inputs': ('list', INPUT), 'outputs': ('list', OUTPUT),
    'outputs_data': ('list', ('bytes', None)), 'version': u(32), 'witnesses': ('list', ('bytes', None))}
HEADER = 'hashed', {
    'compact_target': u(32), 'dao': HASH, 'epoch': u(64), 'nonce': u(128), 'number': u(64), 'parent_hash': HASH,
    'proposals_hash': HASH, 'timestamp': u(64), 'transactions_root': HASH, 'uncles_hash': HASH, 'version': u(32)}
IDS = 'list', ('bytes', 10)
UNCLE = 'object', {'header': HEADER, 'proposals': IDS}
WANTED = {
    'transaction': TRANSACTION, 'script': SCRIPT, 'witness': ('object', {'lock': SCRIPT, 'message': ('bytes', None)}),
    'block': ('object', {'header': HEADER, 'proposals': IDS, 'transactions': ('list', TRANSACTION), 'uncles': ('list', UNCLE)}),
    'spec': ('object', {
        'compact_target': u(32), 'dao_code_hash': HASH, 'epoch_length': u(32), 'halving_interval': u(64), 'maturity': ('epochs',),
        'max_block_bytes': u(32), 'max_cycles': u(64), 'max_proposals': u(32), 'primary_reward': u(64), 'secondary_reward': u(64),
        'w_close': u(32), 'w_far': u(32)})}


def shown(keys):
    return ', '.join(keys)


def of_other(wanted):
    """What is said where something of another kind stands."""
    kind = wanted[0]
    if kind == 'number':
        return NUMBER.replace('is 0x', 'is a text in quotes: 0x')
    if kind == 'bytes' and wanted[1]:
        return '%d bytes are a text in quotes: 0x and %d hex digits' % (wanted[1], 2 * wanted[1])
    if kind == 'bytes':
        return BYTES.replace('are 0x', 'are a text in quotes: 0x')
    if kind in ('named', 'epochs'):
        return of_text(wanted, '')
    if kind == 'list':
        return 'a list is wanted'
    if kind == 'optional':
        return 'null is wanted, or an object with the keys ' + shown(wanted[1][1])
    return 'an object is wanted with the keys ' + shown(wanted[1])


def of_text(wanted, text):
    """What is said of a text in quotes, or None where it is well there."""
    kind = wanted[0]
    if kind == 'number':
        if not re.fullmatch('0x(0|[1-9a-fA-F][0-9a-fA-F]*)', text):
            return NUMBER
        return None if int(text, 16) < 1 << wanted[1] else 'a number below 2^%d is wanted' % wanted[1]
    if kind == 'epochs':
        if re.fullmatch('0x(0|[1-9a-fA-F][0-9a-fA-F]*)', text):
            return None if int(text, 16) < 1 << 64 else EPOCHS
        one = '(0|[1-9][0-9]*)'
        parts = re.fullmatch('%s( %s/%s)?' % (one, one, one), text)
        if not parts or int(parts[1]) >= 1 << 24:
            return EPOCHS
        return EPOCHS if parts[2] and not int(parts[3]) < int(parts[4]) < 1 << 16 else None
    if kind == 'named':
        names = NAMED[wanted[1]]
        if text in names or re.fullmatch('0x[0-9a-fA-F]{2}', text) and int(text, 16) > 1:
            return None
        return 'a %s is %s, %s, or another byte as 0x02' % (wanted[1].replace('_', ' '), *names)
    if kind == 'bytes':
        is_bytes = re.fullmatch('0x([0-9a-fA-F]{2})*', text)
        if wanted[1] is None:
            return None if is_bytes else BYTES
        if not is_bytes:
            return '%d bytes are 0x and %d hex digits' % (wanted[1], 2 * wanted[1])
        count = len(text) // 2 - 1
        return None if count == wanted[1] else '%d bytes are wanted, and these are %d' % (wanted[1], count)
    return of_other(wanted)


# ---------------------------------------------------------------------- a text, read

class Fault(Exception):
    """At an offset of the text: the path there, and what is wrong."""

    def __init__(self, at, path, wrong):
        super().__init__(at, path, wrong)
        self.at, self.path, self.wrong = at, path, wrong


STRING = re.compile(r'"(?:[^"\\\x00-\x1f]|\\["\\/bfnrt]|\\u[0-9a-fA-F]{4})*"')
WORD = re.compile(r'(?:-?(?:0|[1-9][0-9]*)(?:\.[0-9]+)?(?:[eE][+-]?[0-9]+)?|true|false|null)(?=[\s,\]}:]|$)')
KEY_WANTED = 'a key in quotes'
# what opens a list or an object that is not looked at, and ends it
ENDS = {'[': ']', '{': '}'}


def joined(path, key):
    name = ''.join('?' if ord(c) < 32 or 127 <= ord(c) < 160 else c for c in key[:60]) + '..' * (len(key) > 60)
    return '%s.%s' % (path, name) if path else name


class Text:
    def __init__(self, text):
        self.text = text

    def skip(self, at):
        return re.compile(r'[ \t\n\r]*').match(self.text, at).end()

    def no_json(self, at, wanted):
        ends = 'the text ends where ' if at == len(self.text) else ''
        raise Fault(at, '', 'no JSON: %s%s is wanted' % (ends, wanted))

    def string(self, at):
        """The text in quotes that begins here, and where it ends."""
        found = STRING.match(self.text, at)
        try:
            value = json.loads(found[0])
            value.encode()
        except (TypeError, ValueError):
            raise Fault(at, '', 'no JSON: a text ends with a quote, and has no controls and no escapes but those of JSON') from None
        return value, found.end()

    def is_at(self, at, marks):
        return self.text[at:at + 1] in tuple(marks)

    def value(self, at, wanted, path, here):
        """Where the value ends that is wanted here."""
        at = self.skip(at)
        if self.is_at(at, '"'):
            text, end = self.string(at)
            if self.is_at(self.skip(end), ':'):
                raise Fault(at, '', 'no JSON: a colon stands after a key alone')
            wrong = wanted and of_text(wanted, text)
            if wrong:
                raise Fault(at, path, wrong)
            return end
        kind = wanted[0] if wanted else 'anything'
        if self.is_at(at, '{'):
            if kind in ('object', 'hashed', 'optional'):
                return self.members(at + 1, wanted[1] if kind == 'optional' else wanted, path)
            if wanted:
                raise Fault(at, path, of_other(wanted))
            return self.members(at + 1, None, path)
        if self.is_at(at, '['):
            if wanted and kind != 'list':
                raise Fault(at, path, of_other(wanted))
            return self.items(at + 1, wanted and wanted[1], path)
        word = WORD.match(self.text, at)
        if not word:
            self.no_json(at, here)
        if wanted and not (kind == 'optional' and word[0] == 'null'):
            raise Fault(at, path, of_other(wanted))
        return word.end()

    def items(self, at, item, path):
        at, here, count = self.skip(at), 'a value or ]', 0
        if self.is_at(at, ']'):
            return at + 1
        while True:
            at = self.skip(self.value(at, item, '%s[%d]' % (path, count), here))
            if self.is_at(at, ']'):
                return at + 1
            if not self.is_at(at, ','):
                self.no_json(at, 'a comma or ]')
            at, here, count = at + 1, 'a value', count + 1

    def members(self, at, wanted, path):
        keys = dict(wanted[1]) if wanted else {}
        if wanted == HEADER:
            keys['extra_hash'] = HASH
        if wanted and wanted[0] == 'hashed':
            keys['hash'] = None
        at, here, seen = self.skip(at), KEY_WANTED + ' or }', set()
        while not (here != KEY_WANTED and self.is_at(at, '}')):
            if not self.is_at(at, '"'):
                self.no_json(at, here)
            key, end = self.string(at)
            colon = self.skip(end)
            if not self.is_at(colon, ':'):
                raise Fault(at, '', 'no JSON: a colon is wanted after the key')
            if wanted:
                self.must_be_key(at, key, keys, wanted, seen, path)
                seen.add(key)
            at = self.skip(self.value(colon + 1, keys.get(key), joined(path, key), 'a value'))
            if self.is_at(at, ','):
                at, here = self.skip(at + 1), KEY_WANTED
            elif self.is_at(at, '}'):
                break
            else:
                self.no_json(at, 'a comma or }')
        if 'extra_hash' in seen:
            seen.add('uncles_hash')
        for key in wanted[1] if wanted else ():
            if key not in seen:
                raise Fault(at, joined(path, key), 'this key is missing')
        return at + 1

    @staticmethod
    def must_be_key(at, key, keys, wanted, seen, path):
        if key not in keys:
            raise Fault(at, joined(path, key), 'there is no such key; the keys are ' + shown(wanted[1]))
        if wanted == HEADER and {'uncles_hash', 'extra_hash'} <= seen | {key}:
            raise Fault(at, joined(path, key), 'either uncles_hash or extra_hash is wanted, and not both')

    def whole(self, wanted):
        at = self.skip(self.value(0, wanted, '', 'a value'))
        if self.is_at(at, ','):
            after = self.skip(at + 1)
        elif at == len(self.text):
            return
        else:
            after = at
        raise Fault(after, '', 'no JSON: nothing may follow the value')


def said_of(kind, content):
    """What is said of a text that is refused."""
    try:
        text = content.decode()
    except UnicodeDecodeError as error:
        line, path, wrong = content[:error.start].count(b'\n'), '', 'no JSON: the text is not UTF-8'
    else:
        try:
            Text(text).whole(WANTED[kind])
            line, path = text.count('\n'), ''
            wrong = 'a value of a key hash nests more than 127 deep, or has a number above those of JSON'
        except Fault as fault:
            line, path, wrong = text[:fault.at].count('\n'), fault.path, fault.wrong
    return 'ckbjson: no text of a %s: line %d: %s%s\n' % (kind, line + 1, path and path + ': ', wrong)


# ---------------------------------------------------------------------- the texts

def samples():
    """(the kind, the tree) of an item of each kind, with each kind of part in it."""
    transaction = block_json.of_transaction(contract.TRANSFER.item)
    transaction['header_deps'] = [ZERO, ZERO]
    header = block_json.header(fields_of(first.GENESIS.item())[0])
    lock = transaction['outputs'][0]['lock']
    block = block_json.tree_of(first.GENESIS.item())
    block['uncles'] = [{'header': header, 'proposals': ['0x' + '11' * 10]}]
    block['proposals'] = ['0x' + '22' * 10, '0x' + '33' * 10]
    block['transactions'][0]['outputs'][0]['type'] = lock
    spec = {key: '0x1' for key in WANTED['spec'][1]}
    spec.update(dao_code_hash=ZERO, maturity='1 1/3')
    yield 'transaction', transaction
    yield 'block', block
    yield 'script', lock
    yield 'witness', {'lock': lock, 'message': '0x0a'}
    yield 'spec', spec


def places(tree, wanted, path=()):
    """(the path, what is wanted there) of each part of a tree, but of lists for their first and last items."""
    yield path, wanted
    if wanted[0] == 'optional' and tree is not None:
        wanted = wanted[1]
    if wanted[0] in ('object', 'hashed'):
        for key, of_key in wanted[1].items():
            yield from places(tree[key], of_key, path + (key,))
    elif wanted[0] == 'list' and tree:
        for place in sorted({0, len(tree) - 1}):
            yield from places(tree[place], wanted[1], path + (place,))


def changed(tree, path, change):
    """The tree with what `change` makes of the object or list that has the last step of a path."""
    tree = json.loads(json.dumps(tree))
    part = tree
    for step in path[:-1]:
        part = part[step]
    change(part, path[-1])
    return tree


def put(value):
    def change(part, step):
        part[step] = value
    return change


def leave_out(part, step):
    del part[step]


def beside(key, value):
    def change(part, step):
        part[key] = value
    return change


# what may stand in place of a part of a kind, wrong
OTHERS = {
    'number': ['0x', '0x00', '0x01', '5', '0X5', '-0x1', '0xg', ' 0x1', '', 5, None, ['0x1']],
    'bytes': ['0x0', '00', '', '0x0g', '0X00', 7, None, {}], 'named': ['0x00', '0x01', 'data1', '', '0x0202', 0, None],
    'epochs': ['04', '1 3/3', '1 1/65536', '16777216', '1 1', '1/3', '1  1/3', '-1', '0x01', '0x' + '1' * 17, '4 ', 4, None, {}],
    'list': [{}, None, 'x'], 'object': [[], None, 'x', 1], 'hashed': [[], None, '0x'], 'optional': [[], '0x', True, {}],
}
TOO_LARGE = {32: '0x100000000', 64: '0x1' + '0' * 16, 128: '0x1' + '0' * 32}


def spoiled(kind, tree):
    """Trees with one change each, no more than two of a sort in one kind of part."""
    made = {}
    for path, wanted in places(tree, WANTED[kind]):
        if not path:
            continue
        others = [put(it) for it in OTHERS[wanted[0]]]
        if wanted[0] == 'number':
            others.append(put(TOO_LARGE[wanted[1]]))
        if wanted[0] == 'bytes' and wanted[1]:
            others += [put('0x' + '00' * (wanted[1] + more)) for more in (-1, 1)]
        if isinstance(path[-1], str):
            others += [leave_out, beside('nonce_', '0x0')]
        for number, change in enumerate(others):
            sort = wanted[0], wanted[1] if wanted[0] == 'number' else None, number
            made[sort] = made.get(sort, 0) + 1
            if made[sort] <= 2 and (number + len(made)) % 2 == 0:
                yield changed(tree, path, change)


def of_headers(block):
    """What a header may have wrong with the hash of its uncles."""
    header = block['header']
    yield {**block, 'header': {**header, 'extra_hash': header['uncles_hash']}}
    without = {key: value for key, value in header.items() if key != 'uncles_hash'}
    yield {**block, 'header': without}
    yield {**block, 'header': {**without, 'extra_hash': '0x00'}}
    yield {**block, 'header': {**header, 'hash': 5, 'Hash': 5}}


def broken(text):
    """Texts that are no JSON, of one with a line for each key."""
    lines = text.split('\n')
    for cut in (0, 1, 2, len(text) // 3, len(text) // 2, len(text) - 1):
        yield text[:cut]
    yield from (text + more for more in (',', '\n,', '}', '\n1', ' {}', ',\n\n{}', ']'))
    yield from (text.replace(old, new, 1) for old, new in (
        ('":', '"'), ('": ', '" = '), ('{', '['), ('{', '{,'), ('}', ']'), ('"', "'"), ('"0x', '0x'), ('"0x', '"\\x'), ('"0x', '"\t0x'),
        (': "', ': : "'), (': "', ':, "'), (': "', ': }"'), (': "', ': tru'), (': "', ': 01, "'), (',\n', '\n'), (',\n', ',,\n'), (',\n', ', 5,\n'),
        ('"0x', '"\\ud8000x')))
    yield '\n'.join(lines[:-1]) + ',\n}'
    yield '\ufeff' + text
    yield '\n\n\n'
    yield '[' + text + ']'
    yield '"a": 1'
    yield '}'


def texts():
    """(the kind, a text that is refused), each once."""
    found = {}
    for kind, tree in samples():
        trees = list(spoiled(kind, tree)) + (list(of_headers(tree)) if kind == 'block' else [])
        for it in [*trees, [tree], None, 5, {}]:
            found[kind, json.dumps(it, indent=1).encode()] = True
        if kind in ('transaction', 'spec'):
            for it in broken(json.dumps(tree, indent=1)):
                found[kind, it.encode()] = True
            text = json.dumps(tree, indent=1).encode()
            found[kind, text.replace(b'0x', b'\xff', 1)] = True
        if kind == 'transaction':
            deep = '[' * 130 + ']' * 130
            for value in (deep, '1e309', '[1, 2}', '{"a" 1}', '{"a": [1,]}', '{5: 1}', '[{"a": tru}]', '["a": 1]'):
                found[kind, json.dumps(tree, indent=1).replace('{', '{"hash": %s,' % value, 1).encode()] = True
            found[kind, json.dumps({**tree, 'a\nkey' * 20: 1}).encode()] = True
    return list(found)


def rows():
    return [(kind, text, said_of(kind, text)) for kind, text in texts()]


def main():
    for kind, text, line in rows():
        emit(kind, text, line.rstrip('\n'))


if __name__ == '__main__':
    main()
