"""The vectors of AES: FIPS 197's examples, NIST's known answers, and cases of the reference.

Every vector is first checked with reference/aes.py, in both directions.
"""

import itertools
import sys

sys.dont_write_bytecode = True  # no __pycache__ in the tree
import vectors  # noqa: E402
import aes  # noqa: E402
from vectors import Case  # noqa: E402

CAVP = "aes-block-cavp.txt"

RANDOM_BLOCKS = 64  # for each key length

SCHEDULE = 240  # bytes


def cavp_groups():
    """The CAVP file's lines by (bits, group), in the file's order."""
    lines = vectors.lines(CAVP)
    for (bits, group), members in itertools.groupby(lines, key=lambda line: line[:2]):
        blocks = [tuple(map(bytes.fromhex, fields)) for _, _, *fields in members]
        if any(len(key) * 8 != int(bits) for key, _, _ in blocks):
            raise ValueError(f"{CAVP}: {bits} {group}: a key of another length")
        yield f"{bits} {group}", blocks


def appendix_groups():
    for name, *fields in aes.BLOCKS:
        yield name, [tuple(map(bytes.fromhex, fields))]


def random_groups():
    for key_length in (16, 24, 32):
        name = f"{key_length * 8} reference"
        strings = vectors.stream(name, *(key_length, 16) * RANDOM_BLOCKS)
        # The iterator twice: a key and the plaintext behind it.
        blocks = [(key, text, aes.encrypt(key, text)) for key, text in zip(strings, strings)]
        yield name, blocks


def check_groups(groups):
    """One message for each block on which the reference and the vector differ."""
    for name, blocks in groups:
        for number, (key, plaintext, ciphertext) in enumerate(blocks, 1):
            w = aes.key_expansion(key)
            if aes.cipher(plaintext, w) != ciphertext:
                yield f"{name}, block {number}: the reference encrypts to another ciphertext"
            if aes.inv_cipher(ciphertext, w) != plaintext:
                yield f"{name}, block {number}: the reference decrypts to another plaintext"


def expansion(key):
    """The words of a key's expansion, and zeros behind them."""
    words = aes.key_expansion(key)
    output = b"".join(words).ljust(SCHEDULE, b"\0")
    return Case(vectors.EXPAND, "words", len(words), key=key, output=output, room=SCHEDULE)


def block_cases(blocks):
    for key, plaintext, ciphertext in blocks:
        given = {"key": key, "room": 16}
        yield Case(vectors.ENCRYPT, "encrypted", data=plaintext, output=ciphertext, **given)
        yield Case(vectors.DECRYPT, "decrypted", data=ciphertext, output=plaintext, **given)


def make():
    groups = [*cavp_groups(), *appendix_groups(), *random_groups()]

    # The self-test holds each expanded key to the last four words that FIPS 197 prints.
    problems = [f"{name}: the reference differs" for name in aes.selftest()]
    problems += check_groups(groups)
    cases = [(name, [expansion(bytes.fromhex(key))]) for name, key, _ in aes.KEY_EXPANSIONS]
    cases += [(name, list(block_cases(blocks))) for name, blocks in groups]
    count = sum(len(blocks) for _, blocks in groups)
    agreement = f"{count} AES blocks in {len(groups)} groups agree with the reference"
    counters = ("encrypted", "decrypted", "words")
    return vectors.File("aes.bin", "AES, total", counters, cases, problems, agreement)
