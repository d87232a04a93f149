"""The vectors of SHA-1, HMAC and HKDF: published ones, and cases of Python's own hashlib and hmac.

Every published vector is first checked with those.
"""

import hashlib
import hmac
import sys

sys.dont_write_bytecode = True  # no __pycache__ in the tree
import vectors  # noqa: E402
from vectors import Case  # noqa: E402

SHA1, HMAC, HKDF = "sha1-cavp.txt", "hmac-sha1-rfc2202.txt", "hkdf-sha1-rfc5869.txt"

DIGEST = 20
SUBKEY_INFO = b"ss-subkey"
KEY_LENGTHS = (16, 24, 32)  # of the methods

# Every length up to two blocks and a little, and around more of them.
MESSAGES = (*range(131), 183, 184, 191, 192, 247, 248, 4095, 4096)

# Keys around one block, which are hashed past it, and texts around the ends of blocks.
KEYS = (0, 1, 16, 20, 24, 32, 63, 64, 65, 127, 128, 200)
TEXTS = (0, 1, 20, 55, 56, 63, 64, 119)

# Lengths of the output around HMAC's and up to the longest, and of the info up to the longest.
OUTPUTS = (0, 1, 19, 20, 21, 40, 41, 255, 5_099, 5_100)
INFOS = (0, 1, 9, 43, 44, 107, 235)

# Lengths of the info and of the output of which one at least is too long.
LONG = ((236, 32), (300, 0), (9, 5_101), (236, 5_101), (0, 6_000))


def octets(field):
    return b"" if field == "-" else bytes.fromhex(field)


def sha1(message):
    return hashlib.sha1(message).digest()


def mac(key, text):
    return hmac.new(key, text, "sha1").digest()


def hkdf(salt, key, info, length):
    """RFC 5869, sections 2.2 and 2.3."""
    prk, last, output = mac(salt, key), b"", b""
    for count in range(1, -(-length // DIGEST) + 1):
        last = mac(prk, last + info + bytes([count]))
        output += last
    return output[:length]


def hashed(message, digest=None):
    output = digest or sha1(message)
    return Case(vectors.HASH, "hashed", data=message, output=output, room=DIGEST)


def authenticated(key, text, digest=None):
    call = {"key": key, "data": text, "output": digest or mac(key, text)}
    return Case(vectors.AUTHENTICATE, "authenticated", room=DIGEST, **call)


def extracted(salt, key, prk):
    return Case(vectors.EXTRACT, salt=salt, key=key, output=prk, room=DIGEST)


def derived(salt, key, info, output):
    call = {"salt": salt, "key": key, "other": info, "output": output}
    return Case(vectors.DERIVE_HKDF, "derived", room=len(output), **call)


def rfc5869_cases():
    """A PRK is extracted too, and does not count."""
    for _, *fields in vectors.lines(HKDF):
        key, salt, info, prk, output = map(octets, fields)
        yield extracted(salt, key, prk)
        yield derived(salt, key, info, output)


def published_groups():
    messages = {}
    for name, *fields in vectors.lines(SHA1):
        messages.setdefault(f"SHA1{name}", []).append(hashed(*map(octets, fields)))
    yield from messages.items()
    yield "RFC 2202", [authenticated(*map(octets, fields)) for fields in vectors.lines(HMAC)]
    yield "RFC 5869", list(rfc5869_cases())


def subkeys():
    for length in KEY_LENGTHS:
        for i in range(20):
            salt, key = vectors.stream(f"ss-subkey {length} {i}", length, length)
            yield derived(salt, key, SUBKEY_INFO, hkdf(salt, key, SUBKEY_INFO, length))


def output_lengths():
    for length in OUTPUTS:
        for n in INFOS:
            salt, key, info = vectors.stream(f"hkdf {length} {n}", 16, 16, n)
            yield derived(salt, key, info, hkdf(salt, key, info, length))


def too_long():
    """Nothing is written."""
    for n, room in LONG:
        salt, key, info = vectors.stream(f"hkdf too long {n} {room}", 16, 16, n)
        call = {"salt": salt, "key": key, "other": info, "room": room}
        yield Case(vectors.DERIVE_HKDF, "refused", number=1, **call)


def own_groups():
    messages = (next(vectors.stream(f"sha1 {n}", n)) for n in MESSAGES)
    yield "message lengths", list(map(hashed, messages))
    pairs = (vectors.stream(f"hmac {n} {m}", n, m) for n in KEYS for m in TEXTS)
    yield "key and text lengths", [authenticated(*pair) for pair in pairs]
    yield "ss-subkey", list(subkeys())
    yield "info and output lengths", list(output_lengths())
    yield "info or output too long", list(too_long())


def expected(case):
    """What Python's own functions make of a case's call."""
    salt, key, info, data = map(case.string, ("salt", "key", "other", "data"))
    if case.kind == vectors.HASH:
        return sha1(data)
    if case.kind == vectors.AUTHENTICATE:
        return mac(key, data)
    if case.kind == vectors.EXTRACT:
        return mac(salt, key)
    return hkdf(salt, key, info, case.call["room"])


def make():
    published = list(published_groups())
    problems = [
        f"{name}, case {number}: hashlib and hmac differ"
        for name, cases in published
        for number, case in enumerate(cases, 1)
        if case.string("output") != expected(case)
    ]
    count = sum(len(cases) for _, cases in published)
    agreement = f"{count} vectors of SHA-1, HMAC and HKDF agree with hashlib and hmac"
    counters = ("hashed", "authenticated", "derived", "refused")
    title, groups = "SHA-1, HMAC and HKDF, total", [*published, *own_groups()]
    return vectors.File("hashes.bin", title, counters, groups, problems, agreement)
