"""The vectors of sealed datagrams and sending sessions, all from the reference.

The reference opens every sealed datagram again.
"""

import collections
import itertools
import sys

sys.dont_write_bytecode = True  # no __pycache__ in the tree
import vectors  # noqa: E402
import datagram  # noqa: E402
from datagram import ARGUMENT, COUNTER, DOUBLES, KEY_LENGTHS, LAST_PACKET, LENGTH  # noqa: E402
from datagram import LONG_NAME, MAX_LENGTH, NAME, NONCE_LENGTH, ROOM, SESSION, SETTINGS  # noqa: E402
from datagram import V4, V6  # noqa: E402
from vectors import Case  # noqa: E402

SEALING, BEGINNING = range(2)

METHODS = {"128": 1, "256": 2, "ChaCha20": 3, "ChaCha12": 4, "ChaCha8": 5}
CLIENT = 0xFEDCBA9876543210
SIDES = {"client": None, "server": CLIENT}

LONG_PAYLOAD = 70_000
ROOM_LIMIT = 65_600

BEHIND = 16  # bytes of room behind a datagram, to show that they are left alone

(HOST,) = vectors.stream("datagram host", 255)
ADDRESSES = (V4, V6, NAME, b"\3\x0bexample.com\x01\xbb", LONG_NAME[:2] + HOST + b"\xff\xff")

# The arguments of a call that seals; the payload by its length and seed.
Call = collections.namedtuple(
    "Call", "method key nonce sender time address padding length seed room"
)

# A call with its answer and its datagram, and a beginning session with its answer.
Sealing = collections.namedtuple("Sealing", "call answer datagram")
Beginning = collections.namedtuple("Beginning", "session")


def payload(length, seed):
    return bytes((i + seed) % 251 for i in range(length))


def length_of(call):
    """The length of its datagram, sealed or not."""
    text = bytes(call.length)
    return datagram.sealed_length(
        call.method, call.sender.client, call.address, call.padding, text
    )


def make_call(
    method=1,
    key_length=None,
    nonce_length=None,
    session=SESSION,
    packet=5,
    client=None,
    time=1_000,
    address=NAME,
    padding=0,
    length=0,
    room=None,
):
    """A call that is sealed, unless what is changed has it refused. Methods of AES have no nonce."""
    if key_length is None:
        key_length = KEY_LENGTHS[method]
    if nonce_length is None:
        nonce_length = NONCE_LENGTH if method in DOUBLES else 0
    sender = datagram.Sender(session, packet, client)
    name = f"datagram {method} {sender} {time} {padding} {length}"
    key, seed = vectors.stream(name, key_length, 1)
    (nonce,) = vectors.stream(f"{name}, nonce", nonce_length)
    call = Call(method, key, nonce, sender, time, address, padding, length, seed[0], room)
    if room is None:
        call = call._replace(room=min(length_of(call) + BEHIND, ROOM_LIMIT))
    return call


def sealing(answer=0, **changes):
    """The call with these changes, the expected answer, and the datagram."""
    call = make_call(**changes)
    text = payload(call.length, call.seed)
    number, sealed = datagram.seal(*call[:7], text, call.room)
    if number != answer:
        raise ValueError(f"{call}: the reference answers {number} and not {answer}")
    return Sealing(call, answer, sealed)


def due(**changes):
    """The length of the datagram of the call with these changes."""
    return length_of(make_call(**changes))


# Sealed.

# The changes for each method and side, by name.
PAIRS = {
    f"{name} {side}": {"method": method, "client": client}
    for name, method in METHODS.items()
    for side, client in SIDES.items()
}


def alternating(count):
    """The methods and sides, over and over."""
    return itertools.islice(itertools.cycle(PAIRS.values()), count)


def sealed_groups():
    worked = [sealing(method=m, room=72 if m in DOUBLES else 48) for m in METHODS.values()]
    yield "worked example", SEALING, worked

    lengths = itertools.cycle((0, 1, 16, 47, 255, 1000, 1400))
    for name, each in PAIRS.items():
        pairs = itertools.product(ADDRESSES, (0, 1, 900))
        cases = [sealing(address=a, padding=p, length=next(lengths), **each) for a, p in pairs]
        yield name, SEALING, cases

    cases = [sealing(length=n, **each) for n, each in enumerate(alternating(130))]
    yield "each payload length", SEALING, cases

    ids = (0, 1, SESSION, 2**32, 2**63, CLIENT - 1, 2**64 - 1)
    packets = (0, 1, 5, 2**32 - 1, 2**32, 2**63, 2**64 - 2)
    pairs = zip(itertools.product(ids, packets), alternating(len(ids) * len(packets)))
    cases = [sealing(session=s, packet=p, length=9, **each) for (s, p), each in pairs]
    yield "session and packet IDs", SEALING, cases

    ids = (0, 1, SESSION - 1, 2**63, 2**64 - 1)
    yield "client session IDs", SEALING, [sealing(client=client) for client in ids]

    times = (0, 1, 255, 256, 2**32, 2**63, 2**64 - 1)
    cases = [sealing(time=time, **each) for time in times for each in PAIRS.values()]
    yield "times", SEALING, cases

    changes = [{"address": a} | each for a in ADDRESSES for each in PAIRS.values()]
    cases = [sealing(room=due(**each), **each) for each in changes]
    yield "room for just the datagram", SEALING, cases

    lengths = (0, 1, 12, 23, 25, 32)
    aes = [sealing(method=m, nonce_length=n) for m in (1, 2) for n in (*lengths, NONCE_LENGTH)]
    yield "a nonce that is not looked at", SEALING, aes
    cases = [sealing(SETTINGS, method=m, nonce_length=n) for m in DOUBLES for n in (*lengths, 255)]
    yield "nonces of other lengths", SEALING, cases


def padded_groups():
    for name in ("128 client", "256 server", "ChaCha12 client"):
        cases = [sealing(padding=20_000, length=33, **PAIRS[name])]
        yield f"{name}, padding of 20000", SEALING, cases


def longest_groups():
    """The room is just enough for a client's."""
    names = "128 client", "128 server", "256 client", "256 server", "ChaCha20 client", "ChaCha8 server"
    for address, name in zip((NAME, V6, V4, ADDRESSES[4], V6, NAME), names):
        each = PAIRS[name]
        length = MAX_LENGTH - due(address=address, **each)
        room = MAX_LENGTH if each["client"] is None else ROOM_LIMIT
        cases = [sealing(address=address, length=length, room=room, **each)]
        yield f"{name}, longest", SEALING, cases


# Refused.


def settings_groups():
    methods = (0, 6, 7, 257, 259, 2**32 + 1, 2**32 + 2, 2**32 + 3, 2**64 - 1)
    triples = itertools.product(methods, (16, 32), (0, NONCE_LENGTH))
    cases = [sealing(SETTINGS, method=m, key_length=n, nonce_length=k) for m, n, k in triples]
    yield "unknown methods", SEALING, cases
    pairs = itertools.product(METHODS.values(), (0, 1, 15, 16, 17, 24, 31, 32, 33, 255))
    cases = [sealing(SETTINGS, method=m, key_length=n) for m, n in pairs if n != KEY_LENGTHS[m]]
    yield "key lengths", SEALING, cases


def argument_groups():
    wrong = (kind for kind in range(256) if kind not in (1, 3, 4))
    addresses = [bytes([kind]) + V4[1:] for kind in wrong]
    cases = [sealing(ARGUMENT, address=a, **each) for a, each in zip(addresses, alternating(253))]
    yield "wrong address kinds", SEALING, cases

    addresses = [b"", b"\1", b"\3", b"\4", b"\3\0", b"\3\0\0\x50", b"\3\0\0\x50\0", b"\3\xff"]
    addresses += [a[:-1] for a in ADDRESSES] + [a + b"\0" for a in ADDRESSES]
    cases = [sealing(ARGUMENT, address=a, **each) for a in addresses for each in PAIRS.values()]
    yield "wrong address lengths", SEALING, cases

    ids = (0, 1, SESSION, 2**63, 2**64 - 1)
    pairs = itertools.product(ids, METHODS.values())
    cases = [sealing(ARGUMENT, session=i, client=i, method=m) for i, m in pairs]
    yield "server session ID that is its client's", SEALING, cases


# The pairs whose lengths differ.
TESTED = [PAIRS[name] for name in PAIRS if not name.startswith(("ChaCha12", "ChaCha8"))]


def length_groups():
    changes = [{"length": n} | each for n in (0, 40) for each in PAIRS.values()]
    cases = [sealing(COUNTER, packet=LAST_PACKET, **each) for each in changes]
    yield "last packet ID", SEALING, cases

    cases = []
    for each in TESTED:
        least = due(**each)
        most = MAX_LENGTH - least  # bytes of padding and payload
        # The last three add up to little modulo 2^64.
        paddings = (most + 1, 65_535, 65_536, 2**32, 2**63, 2**64 - 1, 2**64 - 16, 2**64 - least)
        pairs = [(padding, 0) for padding in paddings]
        pairs += [(0, most + 1), (1, most), (900, most - 899), (0, 65_536), (0, LONG_PAYLOAD)]
        cases += [sealing(LENGTH, padding=p, length=n, **each) for p, n in pairs]
    yield "too long", SEALING, cases


def room_group():
    cases = []
    for each in TESTED:
        most = MAX_LENGTH - due(**each)
        for padding, length in ((0, 0), (0, 100), (900, 0), (0, most), (most, 0)):
            changes = each | {"padding": padding, "length": length}
            rooms = (0, 16, 31, 39, due(**changes) - 1)
            cases += [sealing(ROOM, room=room, **changes) for room in rooms]
    return "too little room", SEALING, cases


# What is sealed, and three ways to each refusal, in the order of sealing.
BASES = ({}, {}, {"method": 4})
FAULTS = {
    SETTINGS: ({"method": 6, "key_length": 16}, {"key_length": 33}, {"nonce_length": 23}),
    ARGUMENT: ({"address": NAME[:-1]}, {"client": SESSION}, {"address": NAME + b"\0"}),
    COUNTER: ({"packet": LAST_PACKET},) * 3,
    LENGTH: ({"padding": 65_536}, {"length": LONG_PAYLOAD}, {"padding": MAX_LENGTH - 71}),
    ROOM: ({"room": 0}, {"room": 47}, {"room": 71}),
}


def order_group():
    """Every set of faults, in all ways. The first is answered."""
    cases = []
    for way, count in itertools.product(range(3), range(1, len(FAULTS) + 1)):
        for faults in itertools.combinations(FAULTS, count):
            changes = dict(BASES[way])
            for number in faults:
                changes |= FAULTS[number][way]
            cases.append(sealing(faults[0], **changes))
    return "several faults", SEALING, cases


def begun_groups():
    ids = (0, 1, SESSION, 2**32, 2**63, 2**64 - 1)
    yield "client sessions", BEGINNING, [Beginning(session) for session in ids]


# The groups.


def make_groups():
    """The groups in the program's order."""
    return [
        *sealed_groups(),
        *padded_groups(),
        *settings_groups(),
        *argument_groups(),
        *length_groups(),
        *(room_group(), order_group()),
        *begun_groups(),
        *longest_groups(),
    ]


def check_groups(groups):
    """One message for each case on which the reference does not agree with itself."""
    for name, kind, cases in groups:
        for number, case in enumerate(cases, 1):
            if kind == SEALING and case.answer == 0 and not opens(*case):
                yield f"{name}, case {number}: the reference opens to another answer"


def opens(call, _, sealed):
    """Whether a datagram of the due length opens to what was sealed."""
    text = payload(call.length, call.seed)
    said = call.sender, call.time, bytes(call.padding), call.address, text
    opened = datagram.open(call.method, call.key, sealed)
    return len(sealed) == length_of(call) and opened == said


def session_words(session, packet, client):
    return (0, session, 0, packet) if client is None else (1, session, client, packet)


def sealing_case(call, answer, sealed):
    words = session_words(*call.sender)
    values, done = (0, *words), "refused"
    if answer == 0:
        values, done = (len(sealed), *words[:3], words[3] + 1), "sealed"
    return Case(
        vectors.SEAL_DATAGRAM,
        done,
        number=answer,
        values=values,
        room=call.room,
        method=call.method,
        clock=call.time,
        arguments=(*words, call.padding),
        key=call.key,
        salt=call.nonce,
        other=call.address,
        data=payload(call.length, call.seed),
        output=sealed,
    )


def beginning_case(session):
    words = session_words(*datagram.begin(session))
    return Case(vectors.BEGIN, "begun", values=(0, *words), arguments=words)


CASES = {SEALING: sealing_case, BEGINNING: beginning_case}


def make():
    groups = make_groups()
    problems = [f"{name}: the reference differs" for name in datagram.selftest()]
    problems += check_groups(groups)
    cases = [(name, [CASES[kind](*each) for each in calls]) for name, kind, calls in groups]
    count = sum(len(calls) for _, _, calls in groups)
    agreement = f"{count} calls about datagrams in {len(groups)} groups"
    counters = ("sealed", "refused", "begun")
    return vectors.File("datagram.bin", "datagrams, total", counters, cases, problems, agreement)
