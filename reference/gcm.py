"""AES-GCM (SP 800-38D), written from the standard over aes.py.

An independent reference for the proved code: IVs of 12 bytes, tags of 16 and no
additional authenticated data. Plain, slow, and not constant time.

A block is a number of 128 bits, x_0 of the standard its highest bit.

    python3 reference/gcm.py --selftest
"""

import sys

sys.dont_write_bytecode = True  # no __pycache__ in the tree
import aes  # noqa: E402

IV_LENGTH = 12
TAG_LENGTH = 16


# Section 6.2: incrementing.


def inc32(block):
    """The block with its last 32 bits counted up, modulo 2^32."""
    counter = int.from_bytes(block[12:], "big")
    return block[:12] + ((counter + 1) % 2**32).to_bytes(4, "big")


# Section 6.3: the product of blocks.

R = 0b11100001 << 120


def product(x, y):
    """Algorithm 1, bit by bit."""
    z, v = 0, y
    for i in range(128):
        if x >> (127 - i) & 1:
            z ^= v
        v = v >> 1 ^ (R if v & 1 else 0)
    return z


# Section 6.4: GHASH.


def ghash(h, data):
    """Algorithm 2, of whole blocks, under the hash subkey h; both are bytes."""
    if len(data) % 16:
        raise ValueError("GHASH takes whole blocks")
    h = int.from_bytes(h, "big")
    y = 0
    for start in range(0, len(data), 16):
        y = product(y ^ int.from_bytes(data[start : start + 16], "big"), h)
    return y.to_bytes(16, "big")


# Section 6.5: GCTR.


def gctr(key, icb, data):
    """Algorithm 3: counter mode from the block icb on, whose last 32 bits count."""
    return aes.ctr(key, icb[:12], int.from_bytes(icb[12:], "big"), data)


# Section 7: authenticated encryption and decryption.


def pre_counter_block(iv):
    """J_0 of an IV of 96 bits."""
    if len(iv) != IV_LENGTH:
        raise ValueError(f"the IV has {IV_LENGTH} bytes")
    return iv + bytes([0, 0, 0, 1])


def padded(data):
    """Data with zeros up to whole blocks."""
    return data + bytes(-len(data) % 16)


def tag(key, iv, ciphertext):
    """Steps 1, 2 and 4 to 6 of algorithm 4, which are 2, 3 and 5 to 7 of algorithm 5."""
    h = aes.encrypt(key, bytes(16))
    lengths = bytes(8) + (8 * len(ciphertext)).to_bytes(8, "big")
    s = ghash(h, padded(ciphertext) + lengths)
    return gctr(key, pre_counter_block(iv), s)


def seal(key, iv, plaintext):
    """Algorithm 4: ciphertext and tag."""
    ciphertext = gctr(key, inc32(pre_counter_block(iv)), plaintext)
    return ciphertext + tag(key, iv, ciphertext)


def open(key, iv, sealed):
    """Algorithm 5: the plaintext, or None for FAIL."""
    ciphertext, received = sealed[:-TAG_LENGTH], sealed[-TAG_LENGTH:]
    if received != tag(key, iv, ciphertext):
        return None
    return gctr(key, inc32(pre_counter_block(iv)), ciphertext)


# Published examples.

# Test cases of the GCM specification that was submitted to NIST: number, key, IV,
# plaintext, ciphertext, tag.
CASES = [
    (1, "00" * 16, "00" * 12, "", "", "58e2fccefa7e3061367f1d57a4e7455a"),
    (
        2,
        "00" * 16,
        "00" * 12,
        "00" * 16,
        "0388dace60b6a392f328c2b971b2fe78",
        "ab6e47d42cec13bdf53a67b21257bddf",
    ),
    (
        3,
        "feffe9928665731c6d6a8f9467308308",
        "cafebabefacedbaddecaf888",
        "d9313225f88406e5a55909c5aff5269a86a7a9531534f7da2e4c303d8a318a72"
        "1c3c0c95956809532fcf0e2449a6b525b16aedf5aa0de657ba637b391aafd255",
        "42831ec2217774244b7221b784d0d49ce3aa212f2c02a4e035c17e2329aca12e"
        "21d514b25466931c7d8f6a5aac84aa051ba30b396a0aac973d58e091473f5985",
        "4d5c2af327cd64a62cf35abd2ba6fab4",
    ),
    (7, "00" * 24, "00" * 12, "", "", "cd33b28ac773f74ba00ed1f312572435"),
    (
        8,
        "00" * 24,
        "00" * 12,
        "00" * 16,
        "98e7247c07f0fe411c267e4384b0f600",
        "2ff58d80033927ab8ef4d4587514f0fb",
    ),
    (13, "00" * 32, "00" * 12, "", "", "530f8afbc74536b9a963b4f1c4cb738b"),
    (
        14,
        "00" * 32,
        "00" * 12,
        "00" * 16,
        "cea7403d4d606b6e074ec5d3baf39d18",
        "d0d1c8a799996bf0265b98b5d48ab919",
    ),
]

# The hash subkey of test case 2, the blocks that it hashes, and their GHASH.
HASH_SUBKEY = "66e94bd4ef8a2c3b884cfa59ca342b2e"
HASHED = "0388dace60b6a392f328c2b971b2fe78" + "00" * 8 + "0000000000000080"
HASH = "f38cbb1ad69223dcc3457ae5b6b0f885"


def selftest():
    """The names of the published examples that this code fails."""
    failed = []

    def check(name, holds):
        if not holds:
            failed.append(name)

    h, hashed, expected = map(bytes.fromhex, (HASH_SUBKEY, HASHED, HASH))
    check("GHASH of GCM test case 2", ghash(h, hashed) == expected)
    for number, *fields in CASES:
        name = f"GCM test case {number}"
        key, iv, plaintext, ciphertext, tag_ = map(bytes.fromhex, fields)
        sealed = ciphertext + tag_
        check(name, seal(key, iv, plaintext) == sealed)
        check(name + ", opened", open(key, iv, sealed) == plaintext)
        check(name + ", damaged", open(key, iv, sealed[:-1] + bytes([sealed[-1] ^ 1])) is None)
    return failed


if __name__ == "__main__":
    aes.run(selftest, f"GHASH and {len(CASES)} test cases of GCM: all agree")
