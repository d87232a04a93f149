"""ChaCha with Poly1305 as an AEAD (RFC 8439, sections 2.6 and 2.8), and its extended-nonce form
(draft-irtf-cfrg-xchacha, section 2.3), written from these documents over chacha.py and poly1305.py.

An independent reference for the proved code. The documents have 20 rounds, which are 10 double rounds;
here their number is an argument, and both stages of the extended form have as many. The relay has no
additional data; published vectors do. Plain and slow.

    python3 reference/chacha_poly.py --selftest
"""

import sys

sys.dont_write_bytecode = True  # no __pycache__ in the tree
import aes  # noqa: E402
import chacha  # noqa: E402
import poly1305  # noqa: E402
from poly1305 import TAG_LENGTH  # noqa: E402

EXTENDED_NONCE_LENGTH = 24


# RFC 8439, section 2.6.


def one_time_key(doubles, key, nonce):
    return chacha.block(doubles, key, 0, nonce)[: poly1305.KEY_LENGTH]


# Section 2.8.


def padded(data):
    """With zeros up to a multiple of 16 bytes."""
    return data + bytes(-len(data) % 16)


def u64_little(number):
    return number.to_bytes(8, "little")


def mac_data(additional, ciphertext):
    lengths = u64_little(len(additional)) + u64_little(len(ciphertext))
    return padded(additional) + padded(ciphertext) + lengths


def tag(doubles, key, nonce, ciphertext, additional=b""):
    return poly1305.mac(one_time_key(doubles, key, nonce), mac_data(additional, ciphertext))


def seal(doubles, key, nonce, text, additional=b""):
    """Ciphertext and tag."""
    ciphertext = chacha.encrypt(doubles, key, 1, nonce, text)
    return ciphertext + tag(doubles, key, nonce, ciphertext, additional)


def open(doubles, key, nonce, sealed, additional=b""):
    """The text, None if the tag is wrong."""
    ciphertext, received = sealed[:-TAG_LENGTH], sealed[-TAG_LENGTH:]
    if received != tag(doubles, key, nonce, ciphertext, additional):
        return None
    return chacha.encrypt(doubles, key, 1, nonce, ciphertext)


# draft-irtf-cfrg-xchacha, section 2.3.


def extended(doubles, key, nonce):
    """Key and nonce of the second stage: a subkey of the first 16 bytes, and the last 8."""
    if len(nonce) != EXTENDED_NONCE_LENGTH:
        raise ValueError(f"the extended nonce has {EXTENDED_NONCE_LENGTH} bytes")
    return chacha.hchacha(doubles, key, nonce[:16]), bytes(4) + nonce[16:]


def seal_extended(doubles, key, nonce, text, additional=b""):
    return seal(doubles, *extended(doubles, key, nonce), text, additional)


def open_extended(doubles, key, nonce, sealed, additional=b""):
    return open(doubles, *extended(doubles, key, nonce), sealed, additional)


# Published examples: RFC 8439, sections 2.6.2 and 2.8.2, and the draft's appendix A.3.1, whose text,
# key and additional data are those of 2.8.2.

KEY = bytes(range(0x80, 0xA0))
ONE_TIME = (
    "000000000001020304050607",
    "8ad5a08b905f81cc815040274ab29471a833b637e3fd0da508dbb8e2fdd1a646",
)
ADDITIONAL = bytes.fromhex("50515253c0c1c2c3c4c5c6c7")
EXAMPLES = (
    (
        "RFC 8439, 2.8.2",
        seal,
        open,
        "070000004041424344454647",
        "d31a8d34648e60db7b86afbc53ef7ec2a4aded51296e08fea9e2b5a736ee62d6"
        "3dbea45e8ca9671282fafb69da92728b1a71de0a9e060b2905d6a5b67ecd3b36"
        "92ddbd7f2d778b8c9803aee328091b58fab324e4fad675945585808b4831d7bc"
        "3ff4def08e4b7a9de576d26586cec64b6116"
        "1ae10b594f09e26a7e902ecbd0600691",
    ),
    (
        "xchacha, A.3.1",
        seal_extended,
        open_extended,
        "404142434445464748494a4b4c4d4e4f5051525354555657",
        "bd6d179d3e83d43b9576579493c0e939572a1700252bfaccbed2902c21396cbb"
        "731c7f1b0b4aa6440bf3a82f4eda7e39ae64c6708c54c216cb96b72e1213b452"
        "2f8c9ba40db5d945b11b69b982c1bb9e3f3fac2bc369488f76b2383565d3fff9"
        "21f9664c97637da9768812f615c68b13b52e"
        "c0875924c1c7987947deafd8780acf49",
    ),
)


def round_trips():
    """Any number of rounds: what is sealed opens, damaged nowhere, and not by another number."""
    for doubles in (1, 4, 6, 10):
        for name, seals, opens, nonce, _ in EXAMPLES:
            nonce, name = bytes.fromhex(nonce), f"{name}, {doubles} double rounds"
            for length in (0, 1, 15, 16, 17, 64, 65):
                text = chacha.TEXT[:length]
                sealed = seals(doubles, KEY, nonce, text)
                yield name, opens(doubles, KEY, nonce, sealed) == text
                yield name + ", others", opens(doubles + 1, KEY, nonce, sealed) is None
                for place in range(len(sealed)):
                    damaged = bytearray(sealed)
                    damaged[place] ^= 1 << place % 8
                    yield name + ", damaged", opens(doubles, KEY, nonce, bytes(damaged)) is None


def selftest():
    """The names of the published examples that this code fails."""
    failed = [name for name, holds in round_trips() if not holds]
    nonce, expected = map(bytes.fromhex, ONE_TIME)
    if one_time_key(10, KEY, nonce) != expected:
        failed.append("RFC 8439, 2.6.2")
    for name, seals, opens, nonce, sealed in EXAMPLES:
        nonce, sealed = map(bytes.fromhex, (nonce, sealed))
        if seals(10, KEY, nonce, chacha.TEXT, ADDITIONAL) != sealed:
            failed.append(name)
        if opens(10, KEY, nonce, sealed, ADDITIONAL) != chacha.TEXT:
            failed.append(f"{name}, opened")
        if opens(10, KEY, nonce, sealed) is not None:
            failed.append(f"{name}, other additional data")
    return failed


if __name__ == "__main__":
    aes.run(selftest, "RFC 8439, sections 2.6 and 2.8, and the extended nonce: all agree")
