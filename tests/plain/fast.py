"""Puts the ChaCha20 of the package cryptography in the place of the plain one, where it is here.

For tests that make many reports: importing this is all. The comparison of tests/plain does without.
"""

import functools
import struct

import shared

try:
    from cryptography.hazmat.primitives.ciphers import Cipher, algorithms
except ImportError:
    Cipher = None


def block(key, nonce, counter):
    """The 64 bytes of one block."""
    cipher = Cipher(algorithms.ChaCha20(key, struct.pack("<I", counter) + nonce), mode=None)
    return cipher.encryptor().update(bytes(64))


if Cipher is not None:
    shared.chacha20_block = functools.lru_cache(maxsize=65_536)(block)
