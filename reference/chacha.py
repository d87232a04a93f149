"""ChaCha (RFC 8439, sections 2.1 to 2.4) and HChaCha (draft-irtf-cfrg-xchacha, section 2.2), written
from these documents.

An independent reference for the proved code: it shares no code with it. The documents have 20 rounds,
which are 10 double rounds; here their number is an argument. Plain and slow.

A state is a list of 16 words of 32 bits.

    python3 reference/chacha.py --selftest
"""

import struct
import sys

sys.dont_write_bytecode = True  # no __pycache__ in the tree
import aes  # noqa: E402

KEY_LENGTH = 32
NONCE_LENGTH = 12
HNONCE_LENGTH = 16
BLOCK_LENGTH = 64

CONSTANTS = struct.unpack("<4L", b"expand 32-byte k")


# Section 2.1: the quarter round.


def roll(word, count):
    """Towards the high bits."""
    return (word << count | word >> (32 - count)) & 0xFFFFFFFF


def quarter_round(state, a, b, c, d):
    """On the words at these four places."""
    state[a] = (state[a] + state[b]) & 0xFFFFFFFF
    state[d] = roll(state[d] ^ state[a], 16)
    state[c] = (state[c] + state[d]) & 0xFFFFFFFF
    state[b] = roll(state[b] ^ state[c], 12)
    state[a] = (state[a] + state[b]) & 0xFFFFFFFF
    state[d] = roll(state[d] ^ state[a], 8)
    state[c] = (state[c] + state[d]) & 0xFFFFFFFF
    state[b] = roll(state[b] ^ state[c], 7)


# Section 2.3: the block function.


def inner_block(state):
    """A double round: a column round and a diagonal round."""
    quarter_round(state, 0, 4, 8, 12)
    quarter_round(state, 1, 5, 9, 13)
    quarter_round(state, 2, 6, 10, 14)
    quarter_round(state, 3, 7, 11, 15)
    quarter_round(state, 0, 5, 10, 15)
    quarter_round(state, 1, 6, 11, 12)
    quarter_round(state, 2, 7, 8, 13)
    quarter_round(state, 3, 4, 9, 14)


def rounds(doubles, state):
    """The state after so many double rounds."""
    state = list(state)
    for _ in range(doubles):
        inner_block(state)
    return state


def words(data):
    return struct.unpack(f"<{len(data) // 4}L", data)


def serialize(state):
    return struct.pack(f"<{len(state)}L", *state)


def require_length(what, data, length):
    if len(data) != length:
        raise ValueError(f"{what} has {length} bytes")


def block(doubles, key, counter, nonce):
    require_length("the key", key, KEY_LENGTH)
    require_length("the nonce", nonce, NONCE_LENGTH)
    initial = [*CONSTANTS, *words(key), counter, *words(nonce)]
    mixed = rounds(doubles, initial)
    return serialize([(x + y) & 0xFFFFFFFF for x, y in zip(mixed, initial)])


# Section 2.4: encryption, and decryption in the same way.


def encrypt(doubles, key, counter, nonce, text):
    """Blocks are counted modulo 2^32."""
    out = b""
    for start in range(0, len(text), BLOCK_LENGTH):
        key_stream = block(doubles, key, counter, nonce)
        out += aes.xor(text[start : start + BLOCK_LENGTH], key_stream)
        counter = (counter + 1) % 2**32
    return out


# draft-irtf-cfrg-xchacha, section 2.2.


def hchacha(doubles, key, nonce):
    """The first and the last row of the state behind its rounds; nothing is added to it."""
    require_length("the key", key, KEY_LENGTH)
    require_length("the nonce of HChaCha", nonce, HNONCE_LENGTH)
    state = rounds(doubles, [*CONSTANTS, *words(key), *words(nonce)])
    return serialize(state[:4] + state[12:])


# Published examples.

# RFC 8439, section 2.1.1: four words, and those after a quarter round.
QUARTER = "11111111 01020304 9b8d6f43 01234567", "ea2a92f4 cb1cf8ce 4581472e 5881c4bb"

# Section 2.2.1: a state, and the one after a quarter round on 2, 7, 8 and 13.
STATE = (
    "879531e0 c5ecf37d 516461b1 c9a62f8a 44c20ef3 3390af7f d9fc690b 2a5f714c "
    "53372767 b00a5631 974c541a 359e9963 5c971061 3d631689 2098d9d6 91dbd320",
    "879531e0 c5ecf37d bdb886dc c9a62f8a 44c20ef3 3390af7f d9fc690b cfacafd2 "
    "e46bea80 b00a5631 974c541a 359e9963 5c971061 ccc07c79 2098d9d6 91dbd320",
)

# Section 2.3.2: the key, the nonce, and block 1.
KEY = bytes(range(32))
BLOCK_NONCE = "000000090000004a00000000"
BLOCK = (
    "10f1e7e4d13b5915500fdd1fa32071c4c7d1f4c733c068030422aa9ac3d46c4e"
    "d2826446079faa0914c2d705d98b02a2b5129cd1de164eb9cbd083e8a2503c4e"
)

# Section 2.4.2: the nonce, and the text encrypted from counter 1 on.
TEXT_NONCE = "000000000000004a00000000"
TEXT = (
    b"Ladies and Gentlemen of the class of '99: If I could offer you only one tip for the future, "
    b"sunscreen would be it."
)
CIPHERTEXT = (
    "6e2e359a2568f98041ba0728dd0d6981e97e7aec1d4360c20a27afccfd9fae0b"
    "f91b65c5524733ab8f593dabcd62b3571639d624e65152ab8f530c359f0861d8"
    "07ca0dbf500d6a6156a38e088a22b65e52bc514d16ccf806818ce91ab7793736"
    "5af90bbf74a35be6b40b8eedf2785e42874d"
)

# draft-irtf-cfrg-xchacha, section 2.2.1: the nonce and the subkey, of the same key.
HCHACHA_NONCE = "000000090000004a0000000031415927"
SUBKEY = "82413b4227b27bfed30e42508a877d73a0f9e4d58a74a853c12ec41326d3ecdc"


def hex_words(text):
    return [int(word, 16) for word in text.split()]


def selftest():
    """The names of the published examples that this code fails."""
    failed = []

    def check(name, holds):
        if not holds:
            failed.append(name)

    state, expected = map(hex_words, QUARTER)
    quarter_round(state, 0, 1, 2, 3)
    check("RFC 8439, 2.1.1", state == expected)
    state, expected = map(hex_words, STATE)
    quarter_round(state, 2, 7, 8, 13)
    check("RFC 8439, 2.2.1", state == expected)
    check("RFC 8439, 2.3.2", block(10, KEY, 1, bytes.fromhex(BLOCK_NONCE)).hex() == BLOCK)
    nonce = bytes.fromhex(TEXT_NONCE)
    sealed = encrypt(10, KEY, 1, nonce, TEXT)
    check("RFC 8439, 2.4.2", sealed.hex() == CIPHERTEXT)
    check("RFC 8439, 2.4.2, decrypted", encrypt(10, KEY, 1, nonce, sealed) == TEXT)
    check("xchacha, 2.2.1", hchacha(10, KEY, bytes.fromhex(HCHACHA_NONCE)).hex() == SUBKEY)
    for doubles in (0, 1, 4, 6, 10):
        wrapped = encrypt(doubles, KEY, 2**32 - 1, nonce, bytes(128))
        blocks = block(doubles, KEY, 2**32 - 1, nonce) + block(doubles, KEY, 0, nonce)
        check(f"{doubles} double rounds, counter that wraps", wrapped == blocks)
    return failed


if __name__ == "__main__":
    aes.run(selftest, "RFC 8439, sections 2.1 to 2.4, and HChaCha: all agree")
