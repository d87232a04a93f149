"""Sealed datagrams (SIP022, sections 3.2 and 4.1), written from that document over the other references.

An independent reference for the proved code: both sides, the two methods of
AES-GCM and the three of ChaCha with Poly1305, and the numbers of the scope for
what is not sealed. Plain and slow.

A client is None on a client's side; on a server's it is the ID of the client's
session.

    python3 reference/datagram.py --selftest
"""

import collections
import functools
import itertools
import sys

sys.dont_write_bytecode = True  # no __pycache__ in the tree
import aes  # noqa: E402
import blake3  # noqa: E402
import chacha_poly  # noqa: E402
import gcm  # noqa: E402

KEY_LENGTHS = {1: 16, 2: 32, 3: 32, 4: 32, 5: 32}  # by method
DOUBLES = {3: 10, 4: 6, 5: 4}  # double rounds of the methods of ChaCha; the others have AES
SUBKEY_CONTEXT = b"shadowsocks 2022 session subkey"
SEPARATE_LENGTH = 16  # session ID and packet ID: before the body, or of methods of ChaCha inside it
NONCE_LENGTH = 24  # of methods of ChaCha
MAX_LENGTH = 65_507  # what UDP can carry over IPv4
LAST_PACKET = 2**64 - 1  # a packet ID that is never sealed
CLIENT_PACKET, SERVER_PACKET = 0, 1  # types

# The numbers of refusals. 0 is none.
SETTINGS, LENGTH, ROOM, COUNTER, ARGUMENT = 1, 2, 3, 11, 12

# A sending session: its ID, the ID of its next packet, and its client.
Sender = collections.namedtuple("Sender", "session packet client", defaults=(None,))

# What an opened datagram says. The padding is its bytes.
Opened = collections.namedtuple("Opened", "sender time padding address payload")


def u16(number):
    return number.to_bytes(2, "big")


def u64(number):
    return number.to_bytes(8, "big")


# Sections 2.2 and 3.2.1: the subkey of a session.


@functools.lru_cache(maxsize=None)
def subkey(key, session):
    return blake3.derive_key(SUBKEY_CONTEXT, key + u64(session), len(key))


# Section 3.2.2: the separate header.


def separate_header(session, packet):
    return u64(session) + u64(packet)


def body_nonce(header):
    return header[4:16]


# Section 3.2.3: the main header.


def main_header(client, time, padding, address):
    """With so many zeros of padding."""
    if client is None:
        fixed = bytes([CLIENT_PACKET]) + u64(time)
    else:
        fixed = bytes([SERVER_PACKET]) + u64(time) + u64(client)
    return fixed + u16(padding) + bytes(padding) + address


# RFC 1928, section 5: addresses.


def address_length(data):
    """The length of the address and port that the data begins with, None for no address."""
    kind = data[0] if data else None
    if kind == 1:
        length = 1 + 4 + 2
    elif kind == 3 and len(data) > 1 and data[1] > 0:
        length = 1 + 1 + data[1] + 2
    elif kind == 4:
        length = 1 + 16 + 2
    else:
        return None
    return length if length <= len(data) else None


# Datagrams of any plaintext.


def overhead(method):
    """How many bytes a datagram has more than its plaintext: nonce or separate header, and tag."""
    return (NONCE_LENGTH if method in DOUBLES else SEPARATE_LENGTH) + gcm.TAG_LENGTH


def sealed_inner(method, key, nonce, text):
    """By a method of ChaCha: the nonce, and any plaintext under the shared key."""
    return nonce + chacha_poly.seal_extended(DOUBLES[method], key, nonce, text)


def sealed_text(method, key, nonce, session, packet, text):
    """Any bytes in the place of main header and payload. Methods of AES do not look at the nonce."""
    header = separate_header(session, packet)
    if method in DOUBLES:
        return sealed_inner(method, key, nonce, header + text)
    return aes.encrypt(key, header) + gcm.seal(subkey(key, session), body_nonce(header), text)


def opened_text(method, key, datagram):
    """The plaintext, with session and packet ID in front, None if too short or not authentic."""
    if len(datagram) < overhead(method):
        return None
    if method in DOUBLES:
        nonce, sealed = datagram[:NONCE_LENGTH], datagram[NONCE_LENGTH:]
        return chacha_poly.open_extended(DOUBLES[method], key, nonce, sealed)
    header = aes.decrypt(key, datagram[:SEPARATE_LENGTH])
    session = int.from_bytes(header[:8], "big")
    text = gcm.open(subkey(key, session), body_nonce(header), datagram[SEPARATE_LENGTH:])
    return None if text is None else header + text


# Sealing.


def sealed_length(method, client, address, padding, payload):
    """The length of the datagram, for any number of bytes of padding."""
    fixed = 1 + 8 + (0 if client is None else 8) + 2
    inner = SEPARATE_LENGTH if method in DOUBLES else 0
    return overhead(method) + inner + fixed + padding + len(address) + len(payload)


def begin(session):
    """A client's sending session. A server's begins on the table of its clients' (sessions.py)."""
    return Sender(session, 0)


def refusal(method, key, nonce, sender, address, padding, payload, room):
    """The number of the first refusal in the order of sealing, or 0."""
    length = sealed_length(method, sender.client, address, padding, payload)
    if KEY_LENGTHS.get(method) != len(key):
        return SETTINGS
    if method in DOUBLES and len(nonce) != NONCE_LENGTH:
        return SETTINGS
    if address_length(address) != len(address) or sender.session == sender.client:
        return ARGUMENT
    if sender.packet == LAST_PACKET:
        return COUNTER
    if length > MAX_LENGTH:
        return LENGTH
    if length > room:
        return ROOM
    return 0


def body(sender, time, address, padding, payload):
    """Main header and payload."""
    return main_header(sender.client, time, padding, address) + payload


def seal(method, key, nonce, sender, time, address, padding, payload, room=MAX_LENGTH):
    """A refusal's number, or 0; and the datagram, empty if refused."""
    number = refusal(method, key, nonce, sender, address, padding, payload, room)
    if number:
        return number, b""
    text = body(sender, time, address, padding, payload)
    return 0, sealed_text(method, key, nonce, sender.session, sender.packet, text)


# Opening, without the rules of time, replay and binding.


def parts(text, *lengths):
    """The text cut into parts of these lengths and a last one, None if it is too short."""
    if len(text) < sum(lengths):
        return None
    cut = []
    for length in lengths:
        cut.append(text[:length])
        text = text[length:]
    return [*cut, text]


def open(method, key, datagram):
    """What the datagram says, None if it is too short, not authentic or malformed."""
    text = opened_text(method, key, datagram)
    ids = parts(text, 8, 8) if text else None
    if ids is None or ids[2][:1] not in (b"\0", b"\1"):
        return None
    session, packet = (int.from_bytes(part, "big") for part in ids[:2])
    kind = ids[2][0]
    fixed = parts(ids[2], 1, 8, 8 if kind == SERVER_PACKET else 0, 2)
    if fixed is None:
        return None
    time, client, length = (int.from_bytes(part, "big") for part in fixed[1:4])
    padded = parts(fixed[4], length)
    if padded is None or address_length(padded[1]) is None:
        return None
    address, payload = parts(padded[1], address_length(padded[1]))
    sender = Sender(session, packet, client if kind == SERVER_PACKET else None)
    return Opened(sender, time, padded[0], address, payload)


# Examples.

KEYS = {method: bytes(range(length)) for method, length in KEY_LENGTHS.items()}
NONCE = bytes(range(40, 64))
SENDERS = (
    Sender(0, 0),
    Sender(2**64 - 1, 2**64 - 2),
    Sender(2**63, 5, 0),
    Sender(1, 2**32, 2**64 - 1),
)
V4, V6, NAME, LONG_NAME = map(
    bytes.fromhex,
    (
        "01 c0000201 0050",
        "04 20010db8000000000000000000000001 01bb",
        "03 01 61 0050",
        "03 ff" + "00" * 255 + "0050",
    ),
)
CONTENTS = ((V4, 0, b""), (V6, 1, b"\0"), (NAME, 900, bytes(99)), (LONG_NAME, 2, b"payload"))

# Of the scope: session, packet, and the nonce of GCM.
SESSION, PACKET = 0x0102030405060708, 5
BODY_NONCE = "05060708 00000000 00000005"

# Of the scope: a client's main header with NAME and no payload, its length and the datagram's. A method
# of ChaCha has 24 bytes more, and a client's with V4 is 74 bytes long.
TIME = 1_000
TEXT = "00 00000000000003e8 0000 03 01 61 0050"
TEXT_LENGTH = 16
DATAGRAM_LENGTH = 48

# That datagram with method 1: what is changed in the call, and the answer.
CALL = {"method": 1, "key": KEYS[1], "nonce": b"", "sender": Sender(SESSION, PACKET), "time": TIME}
CALL |= {"address": NAME, "padding": 0, "payload": b"", "room": DATAGRAM_LENGTH}
LAST = Sender(SESSION, LAST_PACKET)
TOO_MUCH = MAX_LENGTH - DATAGRAM_LENGTH + 1
CHACHA = {"method": 3, "key": KEYS[3], "nonce": NONCE, "room": DATAGRAM_LENGTH + 24}
ANSWERS = (
    ({}, 0),
    ({"method": 2}, SETTINGS),
    ({"method": 257}, SETTINGS),
    ({"key": KEYS[2]}, SETTINGS),
    ({"address": b""}, ARGUMENT),
    ({"address": NAME[:-1]}, ARGUMENT),
    ({"address": NAME + b"\0"}, ARGUMENT),
    ({"address": bytes.fromhex("03 00 0050")}, ARGUMENT),
    ({"address": b"\2" + V4[1:]}, ARGUMENT),
    ({"sender": Sender(7, 0, 7)}, ARGUMENT),
    ({"sender": LAST}, COUNTER),
    ({"padding": TOO_MUCH}, LENGTH),
    ({"padding": TOO_MUCH - 1}, ROOM),
    ({"padding": 2**64 - 1}, LENGTH),
    ({"payload": bytes(TOO_MUCH)}, LENGTH),
    ({"payload": bytes(TOO_MUCH - 1)}, ROOM),
    ({"room": DATAGRAM_LENGTH - 1}, ROOM),
    ({"method": 0, "address": b"", "sender": LAST, "padding": 65_536, "room": 0}, SETTINGS),
    ({"address": b"", "sender": LAST, "padding": 65_536, "room": 0}, ARGUMENT),
    ({"sender": LAST, "padding": 65_536, "room": 0}, COUNTER),
    ({"padding": 65_536, "room": 0}, LENGTH),
    *(({"nonce": bytes(length)}, 0) for length in (0, 12, 23, 24, 25)),
    (CHACHA, 0),
    (CHACHA | {"method": 6}, SETTINGS),
    (CHACHA | {"method": 2**32 + 3}, SETTINGS),
    (CHACHA | {"key": KEYS[1]}, SETTINGS),
    *((CHACHA | {"nonce": bytes(length)}, SETTINGS) for length in (0, 12, 23, 25, 48)),
    (CHACHA | {"nonce": b"", "address": b"", "sender": LAST, "room": 0}, SETTINGS),
    (CHACHA | {"address": b"", "sender": LAST, "room": 0}, ARGUMENT),
    (CHACHA | {"sender": LAST, "padding": 65_536, "room": 0}, COUNTER),
    (CHACHA | {"padding": TOO_MUCH - 24, "room": 0}, LENGTH),
    (CHACHA | {"padding": TOO_MUCH - 25, "room": 0}, ROOM),
    (CHACHA | {"room": DATAGRAM_LENGTH + 23}, ROOM),
)


def flipped(data, place):
    changed = bytearray(data)
    changed[place] ^= 1
    return bytes(changed)


def scope_examples():
    header = separate_header(SESSION, PACKET)
    yield "nonce", body_nonce(header) == bytes.fromhex(BODY_NONCE)
    text = bytes.fromhex(TEXT)
    yield "plaintext", body(Sender(SESSION, PACKET), TIME, NAME, 0, b"") == text
    yield "plaintext's length", len(text) == TEXT_LENGTH
    for method, key in KEYS.items():
        more = 24 if method in DOUBLES else 0
        call = {"method": method, "key": key, "nonce": NONCE, "room": DATAGRAM_LENGTH + more}
        number, datagram = seal(**(CALL | call))
        name = f"datagram of method {method}"
        yield name, number == 0 and len(datagram) == DATAGRAM_LENGTH + more
        damaged = (flipped(datagram, place) for place in range(DATAGRAM_LENGTH + more))
        yield name + ", damaged", all(open(method, key, each) is None for each in damaged)
        short = sealed_text(method, key, NONCE, SESSION, PACKET, b"")
        length = 32 + more
        yield name + ", without a main header", (len(short), open(method, key, short)) == (length, None)
        yield name + ", its IDs", opened_text(method, key, short) == header


def layouts():
    """Where a datagram has its nonce and its IDs."""
    header = separate_header(SESSION, PACKET)
    text = bytes.fromhex(TEXT)
    for method, key in KEYS.items():
        _, datagram = seal(**(CALL | {"method": method, "key": key, "nonce": NONCE, "room": 99}))
        name = f"layout of method {method}"
        if method not in DOUBLES:
            yield name, aes.decrypt(key, datagram[:16]) == header
            continue
        yield name, datagram[:24] == NONCE
        inner = chacha_poly.extended(DOUBLES[method], key, NONCE)
        yield name + ", body", chacha_poly.open(DOUBLES[method], *inner, datagram[24:]) == header + text
        others = {DOUBLES[other] for other in DOUBLES if other != method}
        wrong = (chacha_poly.open_extended(each, key, NONCE, datagram[24:]) for each in others)
        yield name + ", other rounds", all(each is None for each in wrong)
        least = sealed_length(method, None, V4, 0, b""), sealed_length(method, 7, V4, 0, b"")
        yield name + ", shortest", least == (40 + 27 + 7, 40 + 35 + 7) == (74, 82)
        empty = sealed_inner(method, key, NONCE, b"")
        yield name + ", empty", len(empty) == 40 and opened_text(method, key, empty) == b""


def round_trips():
    for method, key in KEYS.items():
        for sender in SENDERS:
            for address, padding, payload in CONTENTS:
                _, datagram = seal(method, key, NONCE, sender, TIME, address, padding, payload)
                said = Opened(sender, TIME, bytes(padding), address, payload)
                name = f"method {method}, {sender}, padding {padding}"
                yield name, open(method, key, datagram) == said


def refusals():
    for changed, expected in ANSWERS:
        number, datagram = seal(**(CALL | changed))
        name = f"refusal {expected} for {', '.join(changed)}"
        yield name, number == expected and bool(datagram) == (expected == 0)
    yield "client begun", begin(7) == Sender(7, 0)


def selftest():
    """The names of the examples that this code fails."""
    checks = itertools.chain(scope_examples(), layouts(), round_trips(), refusals())
    return [name for name, holds in checks if not holds]


if __name__ == "__main__":
    aes.run(selftest, "examples of sealed datagrams: all agree")
