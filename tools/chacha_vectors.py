"""The vectors of ChaCha, HChaCha and Poly1305: published ones, and cases of the reference.

Every published vector is first checked with reference/chacha.py and reference/poly1305.py. Of the
messages of the AEAD the parts are taken here too: those with additional data are sealed in no other
way.
"""

import itertools
import sys

sys.dont_write_bytecode = True  # no __pycache__ in the tree
import vectors  # noqa: E402
import chacha  # noqa: E402
import chacha_poly  # noqa: E402
import poly1305  # noqa: E402
from vectors import Case  # noqa: E402

STREAMS = ("chacha20-rfc8439.txt", "chacha20-go.txt", "chacha-rounds-go.txt")
HCHACHA = "hchacha20.txt"
MACS = {"RFC 8439": "poly1305-rfc8439.txt", "Go": "poly1305-go.txt"}
MESSAGES = {
    "RFC 8439": "chacha20-poly1305-rfc8439.txt",
    "cryptography": "chacha20-poly1305-cryptography.txt",
    "Go": "chacha20-poly1305-go.txt",
    "Go, extended nonce": "xchacha20-poly1305-go.txt",
}

DOUBLES = (4, 6, 10)  # of the methods
ODD_DOUBLES = (0, 1, 2, 3, 5, 7, 11, 32)  # of none

# Around one, two, four and eight blocks of ChaCha.
LENGTHS = (0, 1, 16, 63, 64, 65, 127, 128, 129, 255, 256, 257, 320, 511, 512, 513, 1_000)
COUNTERS = (0, 1, 255, 2**31, 2**32 - 5, 2**32 - 4, 2**32 - 3, 2**32 - 2, 2**32 - 1)

# Every length up to four blocks of Poly1305 and a little, and around more of them.
TEXTS = (*range(67), 95, 96, 97, 127, 128, 129, 255, 256, 257, 1_000)


def octets(field):
    return b"" if field == "-" else bytes.fromhex(field)


# Cases.


def encrypted(doubles, key, counter, nonce, text, result=None):
    if result is None:
        result = chacha.encrypt(doubles, key, counter, nonce, text)
    call = {"key": key, "salt": nonce, "data": text, "output": result, "room": len(text)}
    return Case(vectors.CHACHA, "encrypted", arguments=(doubles, counter), **call)


def block(doubles, key, counter, nonce):
    call = {"key": key, "salt": nonce, "output": chacha.block(doubles, key, counter, nonce)}
    arguments = doubles, counter
    return Case(vectors.CHACHA_BLOCK, "encrypted", arguments=arguments, room=64, **call)


def derived(doubles, key, nonce, subkey=None):
    subkey = chacha.hchacha(doubles, key, nonce) if subkey is None else subkey
    call = {"key": key, "salt": nonce, "output": subkey, "room": chacha.KEY_LENGTH}
    return Case(vectors.HCHACHA, "derived", arguments=(doubles,), **call)


def authenticated(key, message, tag=None):
    tag = poly1305.mac(key, message) if tag is None else tag
    call = {"key": key, "data": message, "output": tag, "room": poly1305.TAG_LENGTH}
    return Case(vectors.POLY1305, "authenticated", **call)


def aead_authenticated(key, ciphertext):
    tag = poly1305.mac(key, chacha_poly.mac_data(b"", ciphertext))
    call = {"key": key, "data": ciphertext, "output": tag, "room": poly1305.TAG_LENGTH}
    return Case(vectors.AEAD_MAC, "authenticated", **call)


# Published.


def published_streams():
    """By file and cipher. A nonce of 24 bytes is XChaCha20's: its subkey is derived first."""
    groups = {}
    for file in STREAMS:
        for name, rounds, *fields in vectors.lines(file):
            key, counter, nonce, text, result = fields
            name = f"RFC 8439 {name}" if file == STREAMS[0] else name
            title = f"{name}, Go" if file == STREAMS[1] else name
            result = octets(result)
            text = bytes(len(result)) if text == "zeros" else octets(text)
            key, nonce, doubles = octets(key), octets(nonce), int(rounds) // 2
            cases = groups.setdefault(title, [])
            if len(nonce) == chacha_poly.EXTENDED_NONCE_LENGTH:
                cases.append(derived(doubles, key, nonce[:16]))
                key, nonce = chacha_poly.extended(doubles, key, nonce)
            cases.append(encrypted(doubles, key, int(counter), nonce, text, result))
    return groups


def message_parts(file):
    """What the AEAD does of each message: the ciphertext from block 1 on, and the tag."""
    for _, *fields in vectors.lines(file):
        if fields[3] == "FAIL":
            continue
        key, nonce, additional, text, ciphertext, tag = map(octets, fields)
        if len(nonce) == chacha_poly.EXTENDED_NONCE_LENGTH:
            yield derived(10, key, nonce[:16])
            key, nonce = chacha_poly.extended(10, key, nonce)
        yield encrypted(10, key, 1, nonce, text, ciphertext)
        one_time_key = chacha_poly.one_time_key(10, key, nonce)
        yield authenticated(one_time_key, chacha_poly.mac_data(additional, ciphertext), tag)


def published_groups():
    yield from published_streams().items()
    yield "HChaCha20", [derived(10, *map(octets, each)) for _, *each in vectors.lines(HCHACHA)]
    for name, file in MACS.items():
        lines = vectors.lines(file)
        yield f"Poly1305, {name}", [authenticated(*map(octets, each)) for _, *each in lines]
    for name, file in MESSAGES.items():
        yield f"messages by parts, {name}", list(message_parts(file))


# Of the reference.


def own_streams():
    for doubles in DOUBLES:
        cases = []
        for length in LENGTHS:
            key, nonce, text = vectors.stream(f"chacha {doubles} {length}", 32, 12, length)
            cases.append(encrypted(doubles, key, 1, nonce, text))
        for counter in COUNTERS:
            key, nonce, text = vectors.stream(f"chacha {doubles} from {counter}", 32, 12, 400)
            cases.append(encrypted(doubles, key, counter, nonce, text))
            cases.append(block(doubles, key, counter, nonce))
        yield f"{2 * doubles} rounds, lengths and counters", cases
    cases = []
    for doubles in ODD_DOUBLES:
        key, nonce, text = vectors.stream(f"chacha {doubles}", 32, 16, 300)
        cases.append(encrypted(doubles, key, 2**32 - 2, nonce[:12], text))
        cases.append(block(doubles, key, 0, nonce[:12]))
        cases.append(derived(doubles, key, nonce))
    yield "other numbers of rounds", cases


def own_subkeys():
    for doubles in DOUBLES:
        pairs = (vectors.stream(f"hchacha {doubles} {n}", 32, 16) for n in range(20))
        yield f"HChaCha, {2 * doubles} rounds", [derived(doubles, *pair) for pair in pairs]


def own_macs():
    pairs = (vectors.stream(f"poly1305 {length}", 32, length) for length in TEXTS)
    yield "Poly1305, lengths", [authenticated(*pair) for pair in pairs]

    # The largest and the smallest numbers, and r of 0, 1, 2 and all that clamping leaves.
    keys = [r.to_bytes(16, "little") for r in (0, 1, 2, 4, poly1305.CLAMP, 2**128 - 1)]
    ends = [bytes(16), b"\xff" * 16, b"\1" + bytes(15)]
    messages = [b"\xff" * n for n in (1, 15, 16, 17, 32, 48, 64, 80, 160)]
    messages += [bytes(n) for n in (1, 16, 33)] + [b"\xfb" + b"\xff" * 15 + bytes(32)]
    pairs = itertools.product(keys, ends, messages)
    yield "Poly1305, edges", [authenticated(r + s, each) for r, s, each in pairs]

    pairs = (vectors.stream(f"aead mac {length}", 32, length) for length in TEXTS)
    yield "Poly1305 of a ciphertext", [aead_authenticated(*pair) for pair in pairs]


def own_groups():
    yield from own_streams()
    yield from own_subkeys()
    yield from own_macs()


# What the reference makes of a case's call.


def expected(case):
    key, nonce, data = map(case.string, ("key", "salt", "data"))
    arguments = case.call.get("arguments", ())
    if case.kind == vectors.CHACHA:
        doubles, counter = arguments
        return chacha.encrypt(doubles, key, counter, nonce, data)
    if case.kind == vectors.HCHACHA:
        return chacha.hchacha(*arguments, key, nonce)
    return poly1305.mac(key, data)


def selftests():
    return chacha.selftest() + poly1305.selftest()


def make():
    published = list(published_groups())
    problems = [f"{name}: the reference differs" for name in selftests()]
    problems += [
        f"{name}, case {number}: the reference differs"
        for name, cases in published
        for number, case in enumerate(cases, 1)
        if case.string("output") != expected(case)
    ]
    count = sum(len(cases) for _, cases in published)
    agreement = f"{count} vectors of ChaCha and Poly1305 agree with the reference"
    counters = ("encrypted", "derived", "authenticated")
    title, groups = "ChaCha and Poly1305, total", [*published, *own_groups()]
    return vectors.File("chacha.bin", title, counters, groups, problems, agreement)
