"""SHA-1 (FIPS 180-4), HMAC (RFC 2104) and HKDF (RFC 5869), written from these documents.

An independent reference for the proved code. Plain and slow. Python's own hashlib and
hmac are a second opinion, in the self-check alone.

A word is a number of 32 bits, its bytes in big-endian order.

    python3 reference/hkdf.py --selftest
"""

import hashlib
import hmac as second_opinion
import struct
import sys

sys.dont_write_bytecode = True  # no __pycache__ in the tree
import aes  # noqa: E402

BLOCK_LENGTH = 64  # B of RFC 2104
HASH_LENGTH = 20  # L of RFC 2104, HashLen of RFC 5869


# FIPS 180-4, section 3.2, 4.1.1 and 4.2.1: operations, functions and constants.


def rotl(x, n):
    """The word rotated left."""
    return (x << n | x >> 32 - n) % 2**32


def ch(x, y, z):
    return x & y ^ ~x & z


def parity(x, y, z):
    return x ^ y ^ z


def maj(x, y, z):
    return x & y ^ x & z ^ y & z


# By t // 20.
FUNCTIONS = (ch, parity, maj, parity)
K = (0x5A827999, 0x6ED9EBA1, 0x8F1BBCDC, 0xCA62C1D6)


# Section 5: padding, and the initial hash value.

INITIAL = (0x67452301, 0xEFCDAB89, 0x98BADCFE, 0x10325476, 0xC3D2E1F0)


def padded(message):
    """A bit 1, zeros, and the length in bits as a number of 64."""
    zeros = -(len(message) + 1 + 8) % BLOCK_LENGTH
    return message + b"\x80" + bytes(zeros) + (8 * len(message)).to_bytes(8, "big")


# Section 6.1.2: the hash.


def schedule(block):
    w = list(struct.unpack(">16I", block))
    for t in range(16, 80):
        w.append(rotl(w[t - 3] ^ w[t - 8] ^ w[t - 14] ^ w[t - 16], 1))
    return w


def compress(h, block):
    a, b, c, d, e = h
    for t, word in enumerate(schedule(block)):
        total = rotl(a, 5) + FUNCTIONS[t // 20](b, c, d) + e + K[t // 20] + word
        a, b, c, d, e = total % 2**32, a, rotl(b, 30), c, d
    return tuple((x + y) % 2**32 for x, y in zip(h, (a, b, c, d, e)))


def sha1(message):
    h, data = INITIAL, padded(message)
    for start in range(0, len(data), BLOCK_LENGTH):
        h = compress(h, data[start : start + BLOCK_LENGTH])
    return struct.pack(">5I", *h)


# RFC 2104, section 2.


def hmac(key, text):
    """A key of more than a block is hashed first."""
    key = sha1(key) if len(key) > BLOCK_LENGTH else key
    key = key.ljust(BLOCK_LENGTH, b"\0")
    inner = sha1(bytes(x ^ 0x36 for x in key) + text)
    return sha1(bytes(x ^ 0x5C for x in key) + inner)


# RFC 5869, section 2.


def extract(salt, ikm):
    return hmac(salt, ikm)


def expand(prk, info, length):
    if length > 255 * HASH_LENGTH:
        raise ValueError("no such output")
    t, okm = b"", b""
    for number in range(1, -(-length // HASH_LENGTH) + 1):
        t = hmac(prk, t + info + bytes([number]))
        okm += t
    return okm[:length]


def hkdf(salt, ikm, info, length):
    return expand(extract(salt, ikm), info, length)


# Published examples.

# Examples of NIST for FIPS 180: the message and its hash.
HASHES = (
    (b"", "da39a3ee5e6b4b0d3255bfef95601890afd80709"),
    (b"abc", "a9993e364706816aba3e25717850c26c9cd0d89d"),
    (
        b"abcdbcdecdefdefgefghfghighijhijkijkljklmklmnlmnomnopnopq",
        "84983e441c3bd26ebaae4aa1f95129e5e54670f1",
    ),
)

# RFC 2202, section 3: number, key, data and digest.
MACS = (
    (1, b"\x0b" * 20, b"Hi There", "b617318655057264e28bc0b6fb378c8ef146be00"),
    (2, b"Jefe", b"what do ya want for nothing?", "effcdf6ae5eb2fa2d27416d5f184df9c259a7c79"),
    (
        6,
        b"\xaa" * 80,
        b"Test Using Larger Than Block-Size Key - Hash Key First",
        "aa4ae5e15272d00e95705637ce8a3b55ed402112",
    ),
)

# RFC 5869, appendix A: number, IKM, salt, info, PRK and OKM. No salt is as many zeros as a hash has.
KEYS = (
    (
        4,
        b"\x0b" * 11,
        bytes(range(13)),
        bytes(range(0xF0, 0xFA)),
        "9b6c18c432a7bf8f0e71c8eb88f4b30baa2ba243",
        "085a01ea1b10f36933068b56efa5ad81a4f14b822f5b091568a9cdd4f155fda2"
        "c22e422478d305f3f896",
    ),
    (
        5,
        bytes(range(80)),
        bytes(range(0x60, 0xB0)),
        bytes(range(0xB0, 0x100)),
        "8adae09a2a307059478d309b26c4115a224cfaf6",
        "0bd770a74d1160f7c9f12cd5912a06ebff6adcae899d92191fe4305673ba2ffe"
        "8fa3f1a4e5ad79f3f334b3b202b2173c486ea37ce3d397ed034c7f9dfeb15c5e"
        "927336d0441f4c4300e2cff0d0900b52d3b4",
    ),
    (
        6,
        b"\x0b" * 22,
        b"",
        b"",
        "da8c8a73c7fa77288ec6f5e7c297786aa0d32d01",
        "0ac1af7002b3d761d1e55298da9d0506b9ae52057220a306e07b6b87e8df21d0"
        "ea00033de03984d34918",
    ),
    (
        7,
        b"\x0c" * 22,
        bytes(HASH_LENGTH),
        b"",
        "2adccada18779e7c2077ad2eb19d3f3e731385dd",
        "2c91117204d745f3500d636a62f64f0ab3bae548aa53d423b0d1f27ebba6f5e5"
        "673a081d70cce7acfc48",
    ),
)


def published():
    for message, digest in HASHES:
        yield f"SHA-1 of {len(message)} bytes", sha1(message).hex() == digest
    for number, key, text, digest in MACS:
        yield f"RFC 2202, case {number}", hmac(key, text).hex() == digest
    for number, ikm, salt, info, prk, okm in KEYS:
        yield f"RFC 5869 A.{number}, PRK", extract(salt, ikm).hex() == prk
        yield f"RFC 5869 A.{number}, OKM", hkdf(salt, ikm, info, len(okm) // 2).hex() == okm


# A second opinion. Lengths on both sides of every number of blocks, and of a key that is hashed.

LENGTHS = (*range(70), 118, 119, 120, 127, 128, 129, 1_000)


def pattern(length):
    return bytes(place * 7 % 251 for place in range(length))


def second_expand(prk, info, length):
    """As section 2.3 has it, over Python's HMAC."""
    blocks = [b""]
    while sum(map(len, blocks)) < length:
        text = blocks[-1] + info + bytes([len(blocks)])
        blocks.append(second_opinion.digest(prk, text, "sha1"))
    return b"".join(blocks)[:length]


def second_opinions():
    for length in LENGTHS:
        text = pattern(length)
        yield f"hashlib, {length} bytes", sha1(text) == hashlib.sha1(text).digest()
        digest = second_opinion.digest(text, b"text", "sha1")
        yield f"hmac, a key of {length}", hmac(text, b"text") == digest
        digest = second_opinion.digest(b"key", text, "sha1")
        yield f"hmac, a text of {length}", hmac(b"key", text) == digest
    for length in (0, 1, 16, 19, 20, 21, 24, 32, 40, 41, 300):
        output = expand(b"prk", b"info", length)
        yield f"expanded to {length}", output == second_expand(b"prk", b"info", length)


def selftest():
    """The names of the examples that this code fails."""
    return [name for each in (published(), second_opinions()) for name, holds in each if not holds]


if __name__ == "__main__":
    aes.run(selftest, "SHA-1, RFC 2202, RFC 5869 A.4 to A.7, hashlib and hmac: all agree")
