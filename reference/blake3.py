"""BLAKE3, written from the paper: the hash, key derivation and extended output.

An independent reference for the proved code. Plain and slow.

A word is a number of 32 bits; bytes and words stand for each other in
little-endian order.

    python3 reference/blake3.py --selftest
"""

import struct
import sys
from pathlib import Path

sys.dont_write_bytecode = True  # no __pycache__ in the tree
import aes  # noqa: E402

BLOCK_LENGTH = 64
CHUNK_LENGTH = 1024
DEFAULT_LENGTH = 32

# Table 3: the flags.

CHUNK_START = 1 << 0
CHUNK_END = 1 << 1
PARENT = 1 << 2
ROOT = 1 << 3
DERIVE_KEY_CONTEXT = 1 << 5
DERIVE_KEY_MATERIAL = 1 << 6


# Section 2.2: the compression function.

IV = (
    0x6A09E667,
    0xBB67AE85,
    0x3C6EF372,
    0xA54FF53A,
    0x510E527F,
    0x9B05688C,
    0x1F83D9AB,
    0x5BE0CD19,
)

PERMUTATION = (2, 6, 3, 10, 7, 0, 4, 13, 1, 11, 12, 5, 9, 14, 15, 8)

COLUMNS = ((0, 4, 8, 12), (1, 5, 9, 13), (2, 6, 10, 14), (3, 7, 11, 15))
DIAGONALS = ((0, 5, 10, 15), (1, 6, 11, 12), (2, 7, 8, 13), (3, 4, 9, 14))


def rotated(x, count):
    """The word rotated right."""
    return (x >> count | x << 32 - count) % 2**32


def mix(a, b, c, d, x, y):
    """G, on four words of the state."""
    for word, first, second in ((x, 16, 12), (y, 8, 7)):
        a = (a + b + word) % 2**32
        d = rotated(d ^ a, first)
        c = (c + d) % 2**32
        b = rotated(b ^ c, second)
    return a, b, c, d


def compress(h, m, t, b, d):
    """The sixteen words of output from chaining value, message, counter, length and flags."""
    v = [*h, *IV[:4], t % 2**32, t // 2**32, b, d]
    for _ in range(7):
        for number, places in enumerate(COLUMNS + DIAGONALS):
            mixed = mix(*(v[place] for place in places), *m[2 * number : 2 * number + 2])
            for place, word in zip(places, mixed):
                v[place] = word
        m = [m[place] for place in PERMUTATION]
    return [v[i] ^ v[i + 8] for i in range(8)] + [v[i + 8] ^ h[i] for i in range(8)]


def words(block):
    return struct.unpack("<16I", block.ljust(BLOCK_LENGTH, b"\0"))


# Sections 2.1, 2.4 and 2.5: a node is the input of its last compression.


def chaining_value(node):
    return compress(*node)[:8]


def chunk_node(key, flags, number, data):
    starts = range(0, len(data), BLOCK_LENGTH)
    blocks = [data[start : start + BLOCK_LENGTH] for start in starts] or [b""]
    value, start = key, CHUNK_START
    for block in blocks[:-1]:
        value = chaining_value((value, words(block), number, BLOCK_LENGTH, flags | start))
        start = 0
    last = blocks[-1]
    return value, words(last), number, len(last), flags | start | CHUNK_END


def tree_node(key, flags, number, data):
    """The tree over data whose first chunk has this number."""
    chunks = -(-len(data) // CHUNK_LENGTH)
    if chunks <= 1:
        return chunk_node(key, flags, number, data)
    left = 1 << (chunks - 1).bit_length() - 1  # the largest power of two below the count
    cut = left * CHUNK_LENGTH
    message = chaining_value(tree_node(key, flags, number, data[:cut]))
    message += chaining_value(tree_node(key, flags, number + left, data[cut:]))
    return key, message, 0, BLOCK_LENGTH, flags | PARENT


# Section 2.6: the output, block by block.


def output(node, length):
    h, m, _, b, d = node
    count = -(-length // BLOCK_LENGTH)
    blocks = (struct.pack("<16I", *compress(h, m, t, b, d | ROOT)) for t in range(count))
    return b"".join(blocks)[:length]


# Section 2.3: the modes.


def hash(data, length=DEFAULT_LENGTH):
    return output(tree_node(IV, 0, 0, data), length)


def derive_key(context, material, length=DEFAULT_LENGTH):
    key = struct.unpack("<8I", output(tree_node(IV, DERIVE_KEY_CONTEXT, 0, context), 32))
    return output(tree_node(key, DERIVE_KEY_MATERIAL, 0, material), length)


# The official vectors: for each input length the hash and the derived key, extended.

OFFICIAL = Path(__file__).resolve().parent.parent / "vectors" / "blake3-official.txt"
OFFICIAL_CONTEXT = b"BLAKE3 2019-12-27 16:29:52 test vectors context"


def official_input(length):
    return bytes(i % 251 for i in range(length))


def official():
    """Input length, hash and derived key of each vector."""
    for line in OFFICIAL.read_text("ascii").splitlines():
        if line and not line.startswith("#"):
            length, hashed, derived = line.split()
            yield int(length), bytes.fromhex(hashed), bytes.fromhex(derived)


def selftest():
    """The names of the official vectors that this code fails."""
    failed = []
    for length, hashed, derived in official():
        data = official_input(length)
        if hash(data, len(hashed)) != hashed:
            failed.append(f"hash of {length} bytes")
        if derive_key(OFFICIAL_CONTEXT, data, len(derived)) != derived:
            failed.append(f"key derived from {length} bytes")
    return failed


if __name__ == "__main__":
    aes.run(selftest, f"{len(list(official()))} official vectors of BLAKE3: all agree")
