"""The vectors of AES-GCM: NIST's, and messages of the reference, whole and damaged.

Every vector is first checked with reference/gcm.py.
"""

import itertools
import sys

sys.dont_write_bytecode = True  # no __pycache__ in the tree
import vectors  # noqa: E402
import gcm  # noqa: E402
from vectors import Case  # noqa: E402

CAVP = ("aes-gcm-cavp.txt", "aes-192-gcm-cavp.txt")

SEALED, OPENED, REFUSED = range(3)

# Around one, two, four and sixteen blocks, and a long one.
LENGTHS = (0, 1, 15, 16, 17, 31, 32, 33, 63, 64, 65, 255, 256, 257, 1000)

ROOM = 2_064  # a text of 2,048 bytes and its tag

FORGED = 1  # what the program answers to a message that is not authentic


def cavp_bytes(field):
    return b"" if field in ("-", "FAIL") else bytes.fromhex(field)


def cavp_groups():
    """The CAVP files' cases by key length and kind, in the order of their first lines."""
    groups = {}
    for bits, direction, *fields in itertools.chain(*map(vectors.lines, CAVP)):
        key, nonce, text, ciphertext, tag = map(cavp_bytes, fields)
        if len(key) * 8 != int(bits):
            raise ValueError(f"CAVP: {bits} {direction}: a key of another length")
        name, kind = f"{bits} {direction}", {"enc": SEALED, "dec": OPENED}[direction]
        if fields[2] == "FAIL":
            name, kind = f"{name} FAIL", REFUSED
        groups.setdefault((name, kind), []).append((key, nonce, text, ciphertext + tag))
    for (name, kind), cases in groups.items():
        yield name, kind, cases


def flipped(data, place):
    """The data with the bit at a place changed; places past the end start over."""
    place %= 8 * len(data)
    changed = bytearray(data)
    changed[place // 8] ^= 1 << place % 8
    return bytes(changed)


def random_groups():
    """For each key length a message of each length, whole and damaged in one place."""
    for key_length in (16, 24, 32):
        whole, damaged = [], {"ciphertext": [], "tag": [], "nonce": []}
        for length in LENGTHS:
            seed = f"{8 * key_length} gcm {length}"
            key, nonce, text, place = vectors.stream(seed, key_length, 12, length, 4)
            place = int.from_bytes(place, "big")
            sealed = gcm.seal(key, nonce, text)
            ciphertext, tag = sealed[:length], sealed[length:]
            whole.append((key, nonce, text, sealed))
            if ciphertext:
                damaged["ciphertext"].append((key, nonce, b"", flipped(ciphertext, place) + tag))
            damaged["tag"].append((key, nonce, b"", ciphertext + flipped(tag, place)))
            damaged["nonce"].append((key, flipped(nonce, place), b"", sealed))
        yield f"{8 * key_length} reference", SEALED, whole
        for part, cases in damaged.items():
            yield f"{8 * key_length} damaged {part}", REFUSED, cases


def check_groups(groups):
    """One message for each case on which the reference and the vector differ."""
    for name, kind, cases in groups:
        for number, (key, nonce, text, sealed) in enumerate(cases, 1):
            if kind == SEALED and gcm.seal(key, nonce, text) != sealed:
                yield f"{name}, case {number}: the reference seals to another text"
            if gcm.open(key, nonce, sealed) != (None if kind == REFUSED else text):
                yield f"{name}, case {number}: the reference opens to another answer"


def cases_of(kind, messages):
    """What is sealed is opened again."""
    for key, nonce, text, sealed in messages:
        given = {"key": key, "salt": nonce, "room": ROOM}
        if kind == SEALED:
            yield Case(vectors.SEAL, "sealed", data=text, output=sealed, **given)
        if kind == REFUSED:
            yield Case(vectors.OPEN, "refused", number=FORGED, data=sealed, **given)
        else:
            yield Case(vectors.OPEN, "opened", data=sealed, output=text, **given)


def make():
    groups = [*cavp_groups(), *random_groups()]
    problems = [f"{name}: the reference differs" for name in gcm.selftest()]
    problems += check_groups(groups)
    cases = [(name, list(cases_of(kind, each))) for name, kind, each in groups]
    count = sum(len(each) for _, _, each in groups)
    agreement = f"{count} AES-GCM messages in {len(groups)} groups agree with the reference"
    counters = ("sealed", "opened", "refused")
    return vectors.File("gcm.bin", "AES-GCM, total", counters, cases, problems, agreement)
