"""The vectors of ChaCha with Poly1305 as an AEAD, with nonces of 12 bytes and of 24: published messages
without additional data, and messages of the reference, whole and damaged.

Every published message, with additional data too, is first checked with reference/chacha_poly.py.
Messages of fewer rounds than 20 are the reference's alone.
"""

import sys

sys.dont_write_bytecode = True  # no __pycache__ in the tree
import vectors  # noqa: E402
import chacha  # noqa: E402
import chacha_poly  # noqa: E402
from chacha_poly import TAG_LENGTH  # noqa: E402
from chacha_vectors import DOUBLES, MESSAGES, octets  # noqa: E402
from gcm_vectors import flipped  # noqa: E402
from vectors import Case  # noqa: E402

# Around blocks of Poly1305 and of ChaCha, and long ones.
LENGTHS = (0, 1, 15, 16, 17, 31, 32, 33, 63, 64, 65, 128, 255, 256, 257, 511, 512, 1_000, 4_111)

FORGED = 1  # what the program answers to a message that is not authentic

# By the length of the nonce: the reference's functions, and the program's calls.
PLAIN, EXTENDED = chacha.NONCE_LENGTH, chacha_poly.EXTENDED_NONCE_LENGTH
SEALS = {PLAIN: chacha_poly.seal, EXTENDED: chacha_poly.seal_extended}
OPENS = {PLAIN: chacha_poly.open, EXTENDED: chacha_poly.open_extended}
SEAL_KINDS = {PLAIN: vectors.SEAL_CHACHA, EXTENDED: vectors.SEAL_EXTENDED}
OPEN_KINDS = {PLAIN: vectors.OPEN_CHACHA, EXTENDED: vectors.OPEN_EXTENDED}
FORMS = {PLAIN: "AEAD", EXTENDED: "extended AEAD"}


# Cases.


def sealed_case(doubles, key, nonce, text, sealed):
    call = {"key": key, "salt": nonce, "data": text, "output": sealed, "room": len(sealed)}
    return Case(SEAL_KINDS[len(nonce)], "sealed", arguments=(doubles,), **call)


def opened_case(doubles, key, nonce, sealed, text):
    """With a little more room than the text needs; None for one that is not authentic."""
    call = {"key": key, "salt": nonce, "data": sealed, "room": max(0, len(sealed) - TAG_LENGTH) + 8}
    kind, arguments = OPEN_KINDS[len(nonce)], (doubles,)
    if text is None:
        return Case(kind, "refused", number=FORGED, arguments=arguments, **call)
    return Case(kind, "opened", arguments=arguments, output=text, **call)


# Published.


def published():
    """The messages by file: key, nonce, additional data, ciphertext with its tag, and text or None."""
    for name, file in MESSAGES.items():
        messages = []
        for _, key, nonce, additional, text, ciphertext, tag in vectors.lines(file):
            text = None if text == "FAIL" else octets(text)
            sealed = octets(ciphertext) + octets(tag)
            messages.append((*map(octets, (key, nonce, additional)), sealed, text))
        yield name, messages


def check_published(groups):
    """One message for each on which the reference and the vector differ."""
    for name, messages in groups:
        for number, (key, nonce, additional, sealed, text) in enumerate(messages, 1):
            form = len(nonce)
            if OPENS[form](10, key, nonce, sealed, additional) != text:
                yield f"{name}, message {number}: the reference opens to another answer"
            if text is not None and SEALS[form](10, key, nonce, text, additional) != sealed:
                yield f"{name}, message {number}: the reference seals to another text"


def published_groups(groups):
    """Those without additional data, where a file has any."""
    for name, messages in groups:
        cases = []
        for key, nonce, additional, sealed, text in messages:
            if not additional:
                cases.append(sealed_case(10, key, nonce, text, sealed))
                cases.append(opened_case(10, key, nonce, sealed, text))
        if cases:
            yield f"{name}, 20 rounds", cases


# Of the reference.


def whole_group(form, doubles):
    """A message of each length, sealed and opened again."""
    cases = []
    for length in LENGTHS:
        key, nonce, text = vectors.stream(f"{doubles} {form} {length}", 32, form, length)
        sealed = SEALS[form](doubles, key, nonce, text)
        cases.append(sealed_case(doubles, key, nonce, text, sealed))
        cases.append(opened_case(doubles, key, nonce, sealed, text))
    return f"{FORMS[form]}, {2 * doubles} rounds", cases


def damaged_group(form, doubles):
    """Each message with one bit changed of its ciphertext, tag, nonce and key; cut, and by others'
    rounds."""
    cases = []
    for length in LENGTHS[:-1]:
        seed = f"{doubles} {form} {length} damaged"
        key, nonce, text, place = vectors.stream(seed, 32, form, length, 4)
        place = int.from_bytes(place, "big")
        sealed = SEALS[form](doubles, key, nonce, text)
        ciphertext, tag = sealed[:length], sealed[length:]
        forged = [(key, nonce, ciphertext + flipped(tag, place))]
        if ciphertext:
            forged.append((key, nonce, flipped(ciphertext, place) + tag))
            forged.append((key, nonce, sealed[1:]))
        forged += [(key, flipped(nonce, place), sealed), (flipped(key, place), nonce, sealed)]
        cases += [opened_case(doubles, *each, None) for each in forged]
        others = [other for other in DOUBLES if other != doubles]
        cases += [opened_case(other, key, nonce, sealed, None) for other in others]
    return f"{FORMS[form]}, {2 * doubles} rounds, damaged", cases


def every_bit_group():
    """One short message of each form with every bit of nonce, text and tag changed in turn."""
    cases = []
    for form, doubles in ((PLAIN, 6), (EXTENDED, 4)):
        key, nonce, text = vectors.stream(f"{form} every bit", 32, form, 5)
        sealed = SEALS[form](doubles, key, nonce, text)
        for place in range(8 * len(sealed)):
            cases.append(opened_case(doubles, key, nonce, flipped(sealed, place), None))
        for place in range(8 * len(nonce)):
            cases.append(opened_case(doubles, key, flipped(nonce, place), sealed, None))
    return "every bit changed", cases


def mixed_group():
    """A subkey of other rounds than the second stage has, as some libraries have it, another inner nonce,
    and no first stage at all: other ciphers."""
    cases = []
    for doubles in DOUBLES:
        key, nonce, text = vectors.stream(f"{doubles} mixed", 32, EXTENDED, 40)
        for other in DOUBLES:
            subkey, inner = chacha.hchacha(other, key, nonce[:16]), bytes(4) + nonce[16:]
            sealed = chacha_poly.seal(doubles, subkey, inner, text)
            answer = text if other == doubles else None
            cases.append(opened_case(doubles, key, nonce, sealed, answer))
        subkey = chacha.hchacha(doubles, key, nonce[:16])
        for inner in (nonce[12:], nonce[16:] + bytes(4), bytes(4) + nonce[:8], nonce[:12]):
            sealed = chacha_poly.seal(doubles, subkey, inner, text)
            cases.append(opened_case(doubles, key, nonce, sealed, None))
        sealed = chacha_poly.seal(doubles, key, bytes(4) + nonce[16:], text)
        cases.append(opened_case(doubles, key, nonce, sealed, None))
    return "other first stages", cases


def own_groups():
    for form in FORMS:
        for doubles in DOUBLES:
            yield whole_group(form, doubles)
        for doubles in DOUBLES:
            yield damaged_group(form, doubles)
    yield every_bit_group()
    yield mixed_group()


def check_own(groups):
    """One message for each case that is opened, on which the reference answers otherwise."""
    for name, cases in groups:
        for number, case in enumerate(cases, 1):
            key, nonce, sealed, text = map(case.string, ("key", "salt", "data", "output"))
            if case.kind == OPEN_KINDS[len(nonce)]:
                opened = OPENS[len(nonce)](*case.call["arguments"], key, nonce, sealed)
                if opened != (None if case.number else text):
                    yield f"{name}, case {number}: the reference opens to another answer"


def make():
    messages, own = list(published()), list(own_groups())
    problems = [f"{name}: the reference differs" for name in chacha_poly.selftest()]
    problems += [*check_published(messages), *check_own(own)]
    groups = [*published_groups(messages), *own]
    count = sum(len(each) for _, each in messages)
    agreement = f"{count} messages of ChaCha20-Poly1305 agree with the reference"
    counters, title = ("sealed", "opened", "refused"), "ChaCha-Poly1305, total"
    return vectors.File("chacha_poly.bin", title, counters, groups, problems, agreement)
