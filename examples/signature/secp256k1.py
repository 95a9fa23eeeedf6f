"""Signatures over secp256k1 in plain Python, with whole numbers alone: for examples, and not for keys that hold a value.

A signature has 65 bytes: r and s, and which of the public keys that made it is recovered (SEC 1, 4.1.6).
"""

import hashlib
import hmac

FIELD = 2 ** 256 - 2 ** 32 - 977
ORDER = 0xfffffffffffffffffffffffffffffffebaaedce6af48a03bbfd25e8cd0364141
BASE = (0x79be667ef9dcbbac55a06295ce870b07029bfcdb2dce28d959f2815b16f81798,
        0x483ada7726a3c4655da4fbfc0e1108a8fd17b448a68554199c47d08ffb10d4b8)


def add(a, b):
    """The sum of two points of the curve y^2 = x^3 + 7; None is the point at infinity."""
    if a is None or b is None:
        return b if a is None else a
    if a[0] == b[0]:
        if (a[1] + b[1]) % FIELD == 0:
            return None
        slope = 3 * a[0] * a[0] * pow(2 * a[1], -1, FIELD)
    else:
        slope = (b[1] - a[1]) * pow(b[0] - a[0], -1, FIELD)
    x = (slope * slope - a[0] - b[0]) % FIELD
    return x, (slope * (a[0] - x) - a[1]) % FIELD


def times(count, point):
    total = None
    while count:
        if count & 1:
            total = add(total, point)
        point = add(point, point)
        count >>= 1
    return total


def public_key(key):
    """The 33 bytes of the public key."""
    x, y = times(key, BASE)
    return bytes([2 + y % 2]) + x.to_bytes(32, 'big')


def secret_of(key, message):
    """A number from 1 to ORDER - 1 that nobody can guess and no other message has. (It is not that of RFC 6979.)"""
    return 1 + int.from_bytes(hmac.digest(key.to_bytes(32, 'big'), message, hashlib.sha512), 'big') % (ORDER - 1)


def sign(key, message):
    secret = secret_of(key, message)
    x, y = times(secret, BASE)
    r = x % ORDER
    s = pow(secret, -1, ORDER) * (int.from_bytes(message, 'big') + r * key) % ORDER
    which = y % 2 + 2 * (x >= ORDER)
    # of s and -s, which sign alike, the lesser one
    if s > ORDER // 2:
        s, which = ORDER - s, which ^ 1
    return r.to_bytes(32, 'big') + s.to_bytes(32, 'big') + bytes([which])
