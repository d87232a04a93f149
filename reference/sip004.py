"""Datagrams and streams of the 2017 edition (SIP004), written from its document over the other
references.

An independent reference for the proved code: the three methods of AES-GCM, and the
numbers of the scope for what is not sealed or opened. Plain and slow. What its chunks
share with those of SIP022, streams.py says.

    python3 reference/sip004.py --selftest
"""

import functools
import itertools
import sys

sys.dont_write_bytecode = True  # no __pycache__ in the tree
import aes  # noqa: E402
import gcm  # noqa: E402
import hkdf  # noqa: E402
import openssl  # noqa: E402
import streams  # noqa: E402
from datagram import COUNTER, LENGTH, MAX_LENGTH, ROOM, SETTINGS, flipped, u16  # noqa: E402
from gcm import TAG_LENGTH  # noqa: E402
from sessions import MALFORMED, NOT_AUTHENTIC  # noqa: E402
from streams import ENDED, LAST_COUNTER, LENGTH_NEXT, MORE, PAYLOAD_NEXT  # noqa: E402
from streams import Receiver, Sender, words_from  # noqa: E402

KEY_LENGTHS = {11: 16, 12: 24, 13: 32}  # by method; salts are as long
INFO = b"ss-subkey"
NONCE = bytes(gcm.IV_LENGTH)  # of every datagram
MAX_CHUNK = 0x3FFF

SIP004 = streams.Edition(KEY_LENGTHS, 0, MAX_CHUNK)


# Key derivation.


@functools.lru_cache(maxsize=None)
def subkey(key, salt):
    return hkdf.hkdf(salt, key, INFO, len(key))


def lawful(method, key, *salts):
    return all(KEY_LENGTHS.get(method) == len(each) for each in (key, *salts))


# UDP: the salt, and the payload sealed under a nonce of zeros.


def seal_datagram(method, key, salt, payload, room=MAX_LENGTH):
    """A refusal's number, or 0; and the datagram, empty if refused."""
    length = len(salt) + len(payload) + TAG_LENGTH
    if not lawful(method, key, salt):
        return SETTINGS, b""
    if length > MAX_LENGTH:
        return LENGTH, b""
    if length > room:
        return ROOM, b""
    return 0, salt + gcm.seal(subkey(key, salt), NONCE, payload)


def open_datagram(method, key, datagram, room=MAX_LENGTH):
    """A refusal's number, or 0; and the plaintext, empty if refused."""
    if not lawful(method, key):
        return SETTINGS, b""
    least = KEY_LENGTHS[method] + TAG_LENGTH
    if not least <= len(datagram) <= MAX_LENGTH:
        return LENGTH, b""
    if len(datagram) - least > room:
        return ROOM, b""
    salt, sealed = datagram[: len(key)], datagram[len(key) :]
    text = gcm.open(subkey(key, salt), NONCE, sealed)
    return (NOT_AUTHENTIC, b"") if text is None else (0, text)


# TCP: the host carries the salt. The first operation is a length, with counter 0.


def begin_sealing(method, key, salt):
    """A refusal's number, or 0; and the stream, None if refused."""
    if not lawful(method, key, salt):
        return SETTINGS, None
    return 0, Sender(method, 0, words_from(subkey(key, salt)))


def begin_opening(method, key, salt):
    if not lawful(method, key, salt):
        return SETTINGS, None
    return 0, Receiver(method, LENGTH_NEXT, 0, 0, words_from(subkey(key, salt)))


def seal_chunk(stream, payload, output):
    return streams.seal_chunk(stream, payload, output, SIP004)


def step(stream, data, output):
    """Opens the next chunk. Refusals 4 and 5 end the stream."""
    return streams.step(stream, data, output, SIP004)


# Examples.

KEYS = {method: bytes(range(length)) for method, length in KEY_LENGTHS.items()}
SALTS = {method: bytes(range(100, 100 + length)) for method, length in KEY_LENGTHS.items()}
FILLED = b"\xa5" * 17_000
NO_METHODS = (0, 1, 2, 3, 4, 5, 10, 14, 256 + 11, 2**32 + 12, 2**63 + 13, 2**64 - 1)


def open_whole(method, key, data):
    """A datagram opened by hashlib, hmac and OpenSSL alone, None where there is no OpenSSL."""
    if openssl.LIBRARY is None:
        return None
    salt = data[: len(key)]
    prk = hkdf.second_opinion.digest(salt, key, "sha1")
    secret = hkdf.second_expand(prk, INFO, len(key))
    return openssl.open(secret, NONCE, data[len(key) :])


def datagram_examples():
    for method, key in KEYS.items():
        salt = SALTS[method]
        for length in (0, 1, 15, 16, 17, 1_400):
            name, payload = f"{method}, {length} bytes", hkdf.pattern(length)
            number, data = seal_datagram(method, key, salt, payload)
            yield name, number == 0 and len(data) == len(salt) + length + TAG_LENGTH
            yield f"{name}, salt", data[: len(salt)] == salt
            yield f"{name}, opened", open_datagram(method, key, data) == (0, payload)
            yield f"{name}, elsewhere", open_whole(method, key, data) in (payload, None)
        for place in range(0, len(data), 61):
            forged = open_datagram(method, key, flipped(data, place))
            yield f"{method}, forged at {place}", forged == (NOT_AUTHENTIC, b"")


def datagram_refusals():
    for method, key in KEYS.items():
        salt = SALTS[method]
        for other in NO_METHODS:
            yield f"sealed by {other}", seal_datagram(other, key, salt, b"") == (SETTINGS, b"")
            yield f"opened by {other}", open_datagram(other, key, bytes(99)) == (SETTINGS, b"")
        for wrong in (key[1:], key + b"\0", b""):
            yield "a key", seal_datagram(method, wrong, salt, b"") == (SETTINGS, b"")
            yield "a salt", seal_datagram(method, key, wrong, b"") == (SETTINGS, b"")
            yield "a key that opens", open_datagram(method, wrong, bytes(99)) == (SETTINGS, b"")
        around = len(key) + TAG_LENGTH
        most = bytes(MAX_LENGTH - around)
        yield "2 before 3", seal_datagram(method, key, salt, most + b"\0", 0)[0] == LENGTH
        yield "3", seal_datagram(method, key, salt, most, MAX_LENGTH - 1)[0] == ROOM
        for length in (around - 1, MAX_LENGTH + 1):
            yield f"2 of {length}", open_datagram(method, key, bytes(length), 0)[0] == LENGTH
        yield "3 before 4", open_datagram(method, key, bytes(around + 1), 0)[0] == ROOM
        yield "4 of no text", open_datagram(method, key, bytes(around), 0)[0] == NOT_AUTHENTIC


PAYLOADS = (b"first", b"", bytes(99), b"", b"last")


def steps(stream, data):
    """The payloads of a stream's bytes, and the refusal behind them with its stream."""
    payloads = []
    while True:
        answer = step(stream, data, FILLED)
        if answer.number:
            return payloads, answer.number, answer.stream, data
        if stream.turn == PAYLOAD_NEXT:
            payloads.append(answer.output[: answer.said.length])
        stream, data = answer.stream, data[answer.count :]


def stream_examples():
    for method, key in KEYS.items():
        salt, data = SALTS[method], b""
        _, sender = begin_sealing(method, key, salt)
        _, receiver = begin_opening(method, key, salt)
        zeros = (32 - len(key)) // 8
        yield f"{method}, begun", sender.counter == 0 and receiver[1:4] == (LENGTH_NEXT, 0, 0)
        yield f"{method}, zeros", sender.subkey[4 - zeros :] == (0,) * zeros
        for payload in PAYLOADS:
            answer = seal_chunk(sender, payload, FILLED)
            yield f"{method}, {len(payload)} bytes", answer.count == len(payload) + 34
            data, sender = data + answer.output[: answer.count], answer.stream
        payloads, number, last, left = steps(receiver, data)
        yield f"{method}, payloads", (payloads, number, left) == (list(PAYLOADS), MORE, b"")
        yield f"{method}, counters", sender.counter == last.counter == 2 * len(PAYLOADS)
        junk = words_from(secret_bytes(receiver) + b"\xff" * (32 - len(key)))
        other = receiver._replace(subkey=junk)
        yield f"{method}, junk", steps(other, data)[0] == payloads


def secret_bytes(stream):
    return streams.secret_of(stream, SIP004)


def length_examples():
    """Lengths on both sides of the cap, opened and sealed."""
    for method, key in KEYS.items():
        _, stream = begin_opening(method, key, SALTS[method])
        _, sender = begin_sealing(method, key, SALTS[method])
        ended = stream._replace(turn=ENDED)
        for length in (0, 1, MAX_CHUNK, MAX_CHUNK + 1, 0x8000, 0xC001, 0xFFFF):
            data = streams.sealed_piece(method, secret_bytes(stream), 0, u16(length))
            answer, name = step(stream, data + b"behind", FILLED), f"{method}, {length}"
            if length <= MAX_CHUNK:
                later = stream._replace(turn=PAYLOAD_NEXT, length=length, counter=1)
                yield name, answer == (0, 18, (length,), later, FILLED)
            else:
                yield name, answer == (MALFORMED, 0, None, ended, FILLED)
            forged = step(stream, flipped(data, 17), FILLED)
            yield f"{name}, its tag first", forged == (NOT_AUTHENTIC, 0, None, ended, FILLED)
            sealed = seal_chunk(sender, bytes(length), b"")
            yield f"{name}, sealed", sealed.number == (ROOM if length <= MAX_CHUNK else LENGTH)
        lent = stream._replace(turn=PAYLOAD_NEXT, length=MAX_CHUNK + 1)
        yield f"{method}, lent", step(lent, FILLED, FILLED) == (SETTINGS, 0, None, lent, FILLED)
        lent = lent._replace(length=MAX_CHUNK)
        yield f"{method}, wanted", step(lent, b"", b"")[:2] == (MORE, MAX_CHUNK + TAG_LENGTH)


def state_examples():
    key, salt = KEYS[12], SALTS[12]
    _, sender = begin_sealing(12, key, salt)
    _, stream = begin_opening(12, key, salt)
    for method in NO_METHODS:
        begun = begin_sealing(method, key, salt), begin_opening(method, key, salt)
        yield f"begun with {method}", begun == ((SETTINGS, None), (SETTINGS, None))
        yield f"sealing by {method}", seal_chunk(sender._replace(method=method), b"", b"")[0] == 1
        yield f"opening by {method}", step(stream._replace(method=method), b"", b"")[0] == 1
    yield "a step of SIP022", streams.step(stream, b"", b"")[0] == SETTINGS
    yield "a chunk of SIP022", streams.seal_chunk(sender, b"a", FILLED)[0] == SETTINGS
    for counter, number in ((2**64 - 3, 0), (2**64 - 2, COUNTER), (2**64 - 1, COUNTER)):
        answer = seal_chunk(sender._replace(counter=counter), b"", FILLED)
        yield f"sealing at {counter}", answer.number == number
        long = seal_chunk(sender._replace(counter=counter), bytes(MAX_CHUNK + 1), b"")
        yield f"11 before 2 at {counter}", long.number == (number or LENGTH)
    for counter, number in ((LAST_COUNTER - 1, MORE), (LAST_COUNTER, COUNTER)):
        answer = step(stream._replace(counter=counter), b"", b"")
        yield f"opening at {counter}", answer.number == number
    ended = stream._replace(turn=ENDED, counter=LAST_COUNTER)
    yield "4 before 11", step(ended, b"", b"") == (NOT_AUTHENTIC, 0, None, ended, b"")


def selftest():
    """The names of the examples that this code fails."""
    checks = (datagram_examples(), datagram_refusals(), stream_examples(), length_examples())
    failed = [name for name, holds in itertools.chain(*checks, state_examples()) if not holds]
    return hkdf.selftest() + failed


if __name__ == "__main__":
    aes.run(selftest, "hkdf.py, and examples of the 2017 edition: all agree")
