"""AES (FIPS 197) and its counter mode, written from the standard.

An independent reference for the proved code: it shares no code and no table
with it. The S-box is computed from its definition. Plain, slow, and not
constant time.

The state is a list of 16 bytes in input order: s[r, c] is state[r + 4 * c]
(section 3.4). A word is 4 bytes.

    python3 reference/aes.py --selftest
"""

import functools
import sys

NB = 4  # columns of the state


# Section 4: arithmetic in GF(2^8) modulo x^8 + x^4 + x^3 + x + 1.


def xtimes(b):
    """b times x, that is {02}."""
    return (b << 1) ^ (0x11B if b & 0x80 else 0)


@functools.lru_cache(maxsize=None)
def multiply(a, b):
    """The product of a and b."""
    product = 0
    while b:
        if b & 1:
            product ^= a
        a = xtimes(a)
        b >>= 1
    return product


def inverse(b):
    """The multiplicative inverse, b^254; {00} is taken to itself."""
    power = 1
    for _ in range(254):
        power = multiply(power, b)
    return power


# Section 5.1.1: the S-box is the inverse followed by an affine map.


def affine(b):
    """Bit i is b_i + b_(i+4) + b_(i+5) + b_(i+6) + b_(i+7) + c_i, indices mod 8, c = {63}."""
    result = 0
    for i in range(8):
        bit = 0x63 >> i
        for j in (0, 4, 5, 6, 7):
            bit ^= b >> ((i + j) % 8)
        result |= (bit & 1) << i
    return result


SBOX = [affine(inverse(b)) for b in range(256)]
INV_SBOX = [SBOX.index(b) for b in range(256)]


# Section 5.2: key expansion.


def xor(a, b):
    return bytes(x ^ y for x, y in zip(a, b))


def rot_word(word):
    return word[1:] + word[:1]


def sub_word(word):
    return bytes(SBOX[b] for b in word)


def rcon(j):
    """[x^(j-1), {00}, {00}, {00}]."""
    power = 1
    for _ in range(j - 1):
        power = xtimes(power)
    return bytes([power, 0, 0, 0])


def key_expansion(key):
    """The 4 * (Nr + 1) words of the key schedule for a key of 16, 24 or 32 bytes."""
    if len(key) not in (16, 24, 32):
        raise ValueError("an AES key has 16, 24 or 32 bytes")
    nk = len(key) // 4
    nr = nk + 6
    w = [bytes(key[4 * i : 4 * i + 4]) for i in range(nk)]
    for i in range(nk, NB * (nr + 1)):
        temp = w[i - 1]
        if i % nk == 0:
            temp = xor(sub_word(rot_word(temp)), rcon(i // nk))
        elif nk > 6 and i % nk == 4:
            temp = sub_word(temp)
        w.append(xor(w[i - nk], temp))
    return w


# Section 5.1: the cipher.


def add_round_key(state, words):
    return list(xor(state, b"".join(words)))


def sub_bytes(state):
    return [SBOX[b] for b in state]


def shift_rows(state):
    """Row r moves left by r places."""
    return [state[r + 4 * ((c + r) % NB)] for c in range(NB) for r in range(4)]


def multiply_columns(state, row):
    """Each column times the circulant matrix whose first row is given."""
    return [
        multiply(row[-r % 4], state[4 * c])
        ^ multiply(row[(1 - r) % 4], state[4 * c + 1])
        ^ multiply(row[(2 - r) % 4], state[4 * c + 2])
        ^ multiply(row[(3 - r) % 4], state[4 * c + 3])
        for c in range(NB)
        for r in range(4)
    ]


def mix_columns(state):
    return multiply_columns(state, (0x02, 0x03, 0x01, 0x01))


def cipher(block, w):
    """One block under the key schedule w."""
    nr = len(w) // NB - 1
    state = add_round_key(list(block), w[:4])
    for round_ in range(1, nr):
        state = sub_bytes(state)
        state = shift_rows(state)
        state = mix_columns(state)
        state = add_round_key(state, w[4 * round_ : 4 * round_ + 4])
    state = sub_bytes(state)
    state = shift_rows(state)
    state = add_round_key(state, w[4 * nr : 4 * nr + 4])
    return bytes(state)


# Section 5.3: the inverse cipher.


def inv_shift_rows(state):
    """Row r moves right by r places."""
    return [state[r + 4 * ((c - r) % NB)] for c in range(NB) for r in range(4)]


def inv_sub_bytes(state):
    return [INV_SBOX[b] for b in state]


def inv_mix_columns(state):
    return multiply_columns(state, (0x0E, 0x0B, 0x0D, 0x09))


def inv_cipher(block, w):
    """The block that the cipher takes to the given one."""
    nr = len(w) // NB - 1
    state = add_round_key(list(block), w[4 * nr : 4 * nr + 4])
    for round_ in range(nr - 1, 0, -1):
        state = inv_shift_rows(state)
        state = inv_sub_bytes(state)
        state = add_round_key(state, w[4 * round_ : 4 * round_ + 4])
        state = inv_mix_columns(state)
    state = inv_shift_rows(state)
    state = inv_sub_bytes(state)
    state = add_round_key(state, w[:4])
    return bytes(state)


def encrypt(key, block):
    return cipher(block, key_expansion(key))


def decrypt(key, block):
    return inv_cipher(block, key_expansion(key))


def ctr(key, nonce, counter, data):
    """Counter mode over nonce (12 bytes) and a 32-bit big-endian counter.

    The counter wraps to 0 and leaves the nonce alone: inc32 of SP 800-38D.
    """
    if len(nonce) != 12:
        raise ValueError("the nonce has 12 bytes")
    w = key_expansion(key)
    out = b""
    for start in range(0, len(data), 16):
        out += xor(data[start : start + 16], cipher(nonce + counter.to_bytes(4, "big"), w))
        counter = (counter + 1) % 2**32
    return out


# Published examples.

# FIPS 197 appendix A: name, key, the schedule's last four words.
KEY_EXPANSIONS = [
    (
        "FIPS 197 appendix A.1",
        "2b7e151628aed2a6abf7158809cf4f3c",
        "d014f9a8 c9ee2589 e13f0cc8 b6630ca6",
    ),
    (
        "FIPS 197 appendix A.2",
        "8e73b0f7da0e6452c810f32b809079e562f8ead2522c6b7b",
        "e98ba06f 448c773c 8ecc7204 01002202",
    ),
    (
        "FIPS 197 appendix A.3",
        "603deb1015ca71be2b73aef0857d77811f352c073b6108d72d9810a30914dff4",
        "fe4890d1 e6188d0b 046df344 706c631e",
    ),
]

# FIPS 197 appendices B and C: name, key, plaintext, ciphertext.
BLOCKS = [
    (
        "FIPS 197 appendix B",
        "2b7e151628aed2a6abf7158809cf4f3c",
        "3243f6a8885a308d313198a2e0370734",
        "3925841d02dc09fbdc118597196a0b32",
    ),
    (
        "FIPS 197 appendix C.1",
        "000102030405060708090a0b0c0d0e0f",
        "00112233445566778899aabbccddeeff",
        "69c4e0d86a7b0430d8cdb78070b4c55a",
    ),
    (
        "FIPS 197 appendix C.2",
        "000102030405060708090a0b0c0d0e0f1011121314151617",
        "00112233445566778899aabbccddeeff",
        "dda97ca4864cdfe06eaf70a0ec0d7191",
    ),
    (
        "FIPS 197 appendix C.3",
        "000102030405060708090a0b0c0d0e0f101112131415161718191a1b1c1d1e1f",
        "00112233445566778899aabbccddeeff",
        "8ea2b7ca516745bfeafc49904b496089",
    ),
]

# SP 800-38A F.5: name, key, ciphertext; one nonce, counter and plaintext.
CTR_NONCE = "f0f1f2f3f4f5f6f7f8f9fafb"
CTR_COUNTER = 0xFCFDFEFF
CTR_PLAINTEXT = (
    "6bc1bee22e409f96e93d7e117393172aae2d8a571e03ac9c9eb76fac45af8e51"
    "30c81c46a35ce411e5fbc1191a0a52eff69f2445df4f9b17ad2b417be66c3710"
)
CTR = [
    (
        "SP 800-38A F.5.1",
        "2b7e151628aed2a6abf7158809cf4f3c",
        "874d6191b620e3261bef6864990db6ce9806f66b7970fdff8617187bb9fffdff"
        "5ae4df3edbd5d35e5b4f09020db03eab1e031dda2fbe03d1792170a0f3009cee",
    ),
    (
        "SP 800-38A F.5.3",
        "8e73b0f7da0e6452c810f32b809079e562f8ead2522c6b7b",
        "1abc932417521ca24f2b0459fe7e6e0b090339ec0aa6faefd5ccc2c6f4ce8e94"
        "1e36b26bd1ebc670d1bd1d665620abf74f78a7f6d29809585a97daec58c6b050",
    ),
    (
        "SP 800-38A F.5.5",
        "603deb1015ca71be2b73aef0857d77811f352c073b6108d72d9810a30914dff4",
        "601ec313775789a5b7a7f504bbf3d228f443e3ca4d62b59aca84e990cacaf5c5"
        "2b0930daa23de94ce87017ba2d84988ddfc9c58db67aada613c2dd08457941a6",
    ),
]


def selftest():
    """The names of the published examples that this code fails."""
    failed = []

    def check(name, holds):
        if not holds:
            failed.append(name)

    for name, key, last_words in KEY_EXPANSIONS:
        w = key_expansion(bytes.fromhex(key))
        check(name, w[-4:] == [bytes.fromhex(word) for word in last_words.split()])
    for name, *fields in BLOCKS:
        key, plaintext, ciphertext = map(bytes.fromhex, fields)
        check(name, encrypt(key, plaintext) == ciphertext)
        check(name + ", inverse", decrypt(key, ciphertext) == plaintext)
    nonce, plaintext = bytes.fromhex(CTR_NONCE), bytes.fromhex(CTR_PLAINTEXT)
    for name, *fields in CTR:
        key, ciphertext = map(bytes.fromhex, fields)
        check(name, ctr(key, nonce, CTR_COUNTER, plaintext) == ciphertext)
        check(
            name + ", counter that wraps",
            ctr(key, nonce, 2**32 - 1, bytes(32))
            == encrypt(key, nonce + b"\xff" * 4) + encrypt(key, nonce + bytes(4)),
        )
    return failed


def run(selftest, success):
    """The command line of a reference program."""
    if sys.argv[1:] != ["--selftest"]:
        sys.exit(f"usage: python3 {sys.argv[0]} --selftest")
    failed = selftest()
    for name in failed:
        print(f"{name}: differs")
    if failed:
        sys.exit(1)
    print(success)


if __name__ == "__main__":
    run(selftest, "FIPS 197 appendices A, B and C, SP 800-38A F.5: all agree")
