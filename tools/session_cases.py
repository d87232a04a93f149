"""Calls on session tables, in groups, with what the reference answers to each."""

import collections
import itertools
import sys

sys.dont_write_bytecode = True  # no __pycache__ in the tree
import vectors  # noqa: E402
import sessions  # noqa: E402
from datagram import ARGUMENT, DOUBLES, KEY_LENGTHS, LENGTH, LONG_NAME, MAX_LENGTH  # noqa: E402
from datagram import NAME, NONCE_LENGTH, ROOM, SETTINGS, V4, V6, overhead, u16  # noqa: E402
from datagram import separate_header, u64  # noqa: E402
from sessions import BINDING, CLIENT, FULL, ID, MALFORMED, NOT_AUTHENTIC  # noqa: E402
from sessions import PEER, RECORD_WORDS, REPLAY, TABLE_WORDS, TIME, TYPE, Dice, Host  # noqa: E402
from sessions import Peer, Session, begun, table_with  # noqa: E402

METHODS = {"128": 1, "256": 2, "ChaCha20": 3, "ChaCha12": 4, "ChaCha8": 5}

# Methods and openers by name. What a server opens has no client.
PAIRS = {
    f"{name} {side}": {"method": method, "client": client}
    for name, method in METHODS.items()
    for side, client in (("server", None), ("client", CLIENT))
}
TWO_PAIRS = {name: PAIRS[name] for name in ("128 server", "256 client")}
CHACHA_PAIRS = {name: PAIRS[name] for name in ("ChaCha20 client", "ChaCha12 server", "ChaCha8 client")}
FIVE_PAIRS = TWO_PAIRS | CHACHA_PAIRS

LONG_BUFFER = 65_600
WORD_LIMIT = TABLE_WORDS + 1  # words of a table, and one behind it

BEHIND = 8  # bytes of room behind a plaintext, to show that they are left alone
FILL = b"\xa5"  # what the program fills its output with
LAST = 2**64 - 1

HOST_NAME, PADDING = vectors.stream("session host and padding", 255, 900)
ADDRESSES = (V4, V6, NAME, b"\3\x0bexample.com\x01\xbb", LONG_NAME[:2] + HOST_NAME + b"\xff\xff")
ADDRESSES += (b"\1" + bytes(6), b"\4" + bytes(18), b"\3\1" + bytes(3))

# A call with what it lends and what it leaves, and words that a list begins with. The
# datagram of a call is as it is before the flip: a place, and a mask for the byte there.
Opening = collections.namedtuple("Opening", "call words flip before answer after")
Making = collections.namedtuple("Making", "retention words before answer after")
Beginning = collections.namedtuple("Beginning", "id client clock words before answer sender")
Words = collections.namedtuple("Words", "after")


def pattern(length):
    """The end of a long datagram or plaintext, by the place of each byte."""
    return bytes(i % 251 for i in range(length))


def flipped(call, flip):
    """The call with its datagram as it is opened."""
    place, mask = flip
    data = bytearray(call.datagram)
    if place < len(data):
        data[place] ^= mask
    return call._replace(datagram=bytes(data))


def key_of(length):
    return bytes(range(length))


def filled(words):
    """A buffer of words, zeros behind these."""
    return tuple(words) + (0,) * (WORD_LIMIT - len(words))


class Calls:
    """The records of a group, on one table. An answer that is named must be the reference's."""

    def __init__(self, retention=None):
        self.table, self.records = filled(()), []
        if retention is not None:
            self.make(retention)

    def begin(self, table):
        """Begins anew with these words."""
        self.table = filled(table)
        self.records.append(Words(self.table))

    def lend(self, words, work):
        """What the work answers on so many words, and the words before it and after."""
        before = self.table
        answer, table = work(before[:words])
        self.table = table + before[words:]
        return before, answer, self.table

    def make(self, retention, answer=0, words=TABLE_WORDS):
        left = self.lend(words, lambda table: sessions.make(retention, table))
        self.expect(("making", retention, words), left[1], answer)
        self.records.append(Making(retention, words, *left))

    def reply(self, id, client, answer, clock=1_000, words=TABLE_WORDS):
        """Begins a session in reply to a client's. The table is only read."""
        given, sender = sessions.begin_reply(self.table[:words], clock, id, client)
        self.expect(("reply", id, client, clock, words), given, answer)
        self.records.append(Beginning(id, client, clock, words, self.table, given, sender))

    def run(self, call, answer=None, words=TABLE_WORDS, flip=(0, 0)):
        left = self.lend(words, lambda table: sessions.open(flipped(call, flip), table))
        self.expect(call, left[1].number, answer)
        self.records.append(Opening(call, words, flip, *left))

    def open(self, answer=0, words=TABLE_WORDS, flip=(0, 0), **changes):
        self.run(make_call(**changes), answer, words, flip)

    def expect(self, what, number, answer):
        if answer not in (None, number):
            raise ValueError(f"{what}: the reference answers {number} and not {answer}")


def make_call(
    method=1,
    key=None,
    client=None,
    clock=1_000,
    peer=PEER,
    room=None,
    data=None,
    length=None,
    **changes,
):
    """A call that opens its datagram, unless what is changed has it refused."""
    if data is None:
        data = make_data(method, client, **changes)
    if length is not None:
        data = (data + pattern(length)[len(data) :])[:length]
    if key is None:
        key = key_of(KEY_LENGTHS[method])
    if room is None:
        room = max(0, len(data) - overhead(method)) + BEHIND
    return sessions.Call(method, key, client, clock, peer, data, FILL * room)


def make_data(method, client, session=ID, packet=5, text=None, inner=None, nonce=None, **changes):
    """The datagram of a main header and payload, or of what is in one. The inner plaintext of a method of
    ChaCha can be any bytes; its nonce is by the IDs, unless it is given."""
    key = key_of(KEY_LENGTHS[method])
    if nonce is None:
        (nonce,) = vectors.stream(f"nonce {session} {packet}", NONCE_LENGTH)
    if inner is not None:
        return sessions.sealed_inner(method, key, nonce, inner)
    if text is None:
        text = make_text(client, **changes)
    return sessions.sealed(method, key, nonce, session, packet, text)


def make_text(client, time=1_000, address=NAME, padding=b"", payload=b"", kind=None, bound=None):
    """A plaintext for this client or for a server, or bound to another client."""
    bound = client if bound is None else bound
    return sessions.plaintext(bound, time, address, padding, payload, kind)


def claiming(client, padding, rest):
    """A plaintext whose padding length is any number."""
    return make_text(client, address=b"")[:-2] + u16(padding) + rest


def alternating(count):
    """The methods and sides, over and over."""
    return itertools.islice(itertools.cycle(PAIRS.values()), count)


# Opened.


def worked_groups():
    for name, method in METHODS.items():
        calls, inner = Calls(60), 16 if method in DOUBLES else 0
        calls.open(method=method, room=inner + 16)
        calls.open(REPLAY, method=method, room=inner + 16)
        for room in (inner, inner + 5):
            calls.open(MALFORMED, method=method, packet=6, text=b"", room=room)
        calls.open(method=method, packet=6, room=inner + 17)
        yield f"worked example, {name}", calls


def opened_groups():
    lengths = itertools.cycle((0, 1, 5, 16, 47))
    for name, each in PAIRS.items():
        calls = Calls(60)
        for packet, (address, count) in enumerate(itertools.product(ADDRESSES, (0, 1, 17))):
            said = {"address": address, "padding": PADDING[:count]}
            calls.open(packet=packet, payload=pattern(next(lengths)), **said, **each)
        calls.open(packet=99, padding=PADDING, **each)
        yield name, calls

    calls = Calls(60)
    for length, each in enumerate(alternating(70)):
        calls.open(packet=length, payload=PADDING[:length], **each)
    for packet, name in enumerate(("256 client", "ChaCha20 server", "ChaCha8 client"), 99):
        calls.open(packet=packet, payload=PADDING * 9, **PAIRS[name])
    yield "payload lengths", calls

    ids = (0, 1, ID, 2**63, CLIENT, LAST)
    packets = (0, 1, 5, 2**32, 2**63, LAST)
    calls = Calls(3_600)
    for (session, packet), each in zip(itertools.product(ids, packets), alternating(36)):
        calls.open(session=session, packet=packet, **each)
    yield "session and packet IDs", calls

    calls = Calls(60)
    peers = itertools.product((0, 1, 2**32, 2**63, LAST), (0, 255, 256, 65_535))
    for packet, (first, port) in enumerate(peers):
        calls.open(packet=packet, peer=Peer(first, LAST - first, port))
    yield "callers' addresses", calls


# By methods of ChaCha.


def inner_text(each, **said):
    """The whole plaintext of a datagram."""
    return separate_header(ID, 5) + make_text(each["client"], **said)


def nonce_group():
    """A nonce that comes again is no replay; the same IDs under another nonce are."""
    calls = Calls(60)
    for number, each in enumerate(PAIRS.values()):
        if each["method"] not in DOUBLES:
            continue
        same = {"nonce": bytes(range(number, number + NONCE_LENGTH)), "session": number, **each}
        other = same | {"nonce": bytes(NONCE_LENGTH)}
        for packet in (5, 6, 7):
            calls.open(0, packet=packet, **same)
            calls.open(REPLAY, packet=packet, **same)
            calls.open(REPLAY, packet=packet, **other)
        calls.open(0, packet=8, **other)
        calls.open(0, packet=9, nonce=b"\xff" * NONCE_LENGTH, session=number, **each)
    return "nonces", calls


def inner_groups():
    """Whole plaintexts cut at each place: under 27 bytes, or 35 of a server's, before all else."""
    for name, each in CHACHA_PAIRS.items():
        fixed = 27 if each["client"] is None else 35
        calls = Calls(60)
        for said in ({"address": V4}, {"kind": 9}, {"time": 1_031}):
            inner = inner_text(each, payload=b"xyz", **said)
            for length in range(fixed + 10):
                answer = MALFORMED if length < fixed else None
                calls.open(answer, inner=inner[:length], **each)
        yield f"{name}, inner plaintexts cut short", calls

    calls = Calls(60)
    for each in (PAIRS[name] for name in PAIRS if PAIRS[name]["method"] in DOUBLES):
        least = 34 if each["client"] is None else 42
        inner = inner_text(each, address=V4)
        for length in range(40):
            calls.open(LENGTH, inner=inner, length=length, room=0, **each)
        calls.open(MALFORMED, inner=b"", room=0, **each)  # 40 bytes, and nothing is due
        calls.open(MALFORMED, inner=b"", room=9, **each)
        calls.open(MALFORMED, inner=inner[:26], room=26, **each)
        calls.open(ROOM, inner=inner[:26], room=25, **each)
        calls.open(MALFORMED, inner=inner[: least - 1], **each)
        calls.open(ROOM, inner=inner, room=least - 1, **each)
        session = each["method"] + 10 * (each["client"] is None)
        good = u64(session) + inner[8:]
        calls.open(0, inner=good, room=least, **each)
        calls.open(REPLAY, inner=good, room=least + 3, **each)
    yield "shortest datagrams of ChaCha", calls


def other_method_group():
    """A datagram by another method of the same key: it is not authentic."""
    calls = Calls(60)
    methods = [method for method in METHODS.values() if KEY_LENGTHS[method] == 32]
    for number, (ours, theirs) in enumerate(itertools.product(methods, methods)):
        data = make_data(ours, None, session=number, payload=bytes(40))
        calls.open(0 if ours == theirs else NOT_AUTHENTIC, method=theirs, data=data)
    return "other methods' datagrams", calls


# Refused by what the datagram says.


def short_groups():
    for name, each in TWO_PAIRS.items():
        calls = Calls(60)
        for said in ({}, {"kind": 9}, {"time": 1_031}):
            text = make_text(each["client"], payload=b"xyz", **said)
            for length in range(20 if said else 25):
                calls.open(None, text=text[:length], packet=1_000 + length, **each)
        yield f"{name}, plaintexts cut short", calls


def type_groups():
    for name, each in FIVE_PAIRS.items():
        calls = Calls(60)
        for packet, kind in enumerate((0, 1, 2, 3, 4, 16, 127, 128, 129, 254, 255)):
            answer = 0 if kind == (each["client"] is not None) else TYPE
            calls.open(answer, packet=packet, kind=kind, payload=b"abc", **each)
        yield f"{name}, types", calls

    calls = Calls(60)
    for method in METHODS.values():
        clients = make_call(method=method, packet=7 * method, payload=b"abc")
        servers = make_call(method=method, packet=9 * method, client=CLIENT)
        calls.run(clients._replace(client=CLIENT), TYPE)
        calls.run(servers._replace(client=None), TYPE)
        calls.run(make_call(method=method)._replace(client=CLIENT), MALFORMED)
        calls.run(clients, 0)
        calls.run(servers, 0)
    yield "mirrored", calls


# Clock and time.
TIMES = [(1_000, time) for time in (0, 969, 970, 1_000, 1_030, 1_031, 2**63, LAST)]
TIMES += [(0, time) for time in (0, 30, 31, LAST, LAST - 29, 2**63)]
TIMES += [(29, time) for time in (0, 59, 60, LAST, LAST - 1)]
TIMES += [(clock, time) for clock in (30, 31) for time in (0, clock + 30, clock + 31, LAST)]
TIMES += [(LAST, time) for time in (LAST, LAST - 30, LAST - 31, 0, 29, 30)]
TIMES += [(LAST - 30, LAST), (LAST - 31, LAST), (2**63, 2**63 - 30), (2**63, 2**63 - 31)]


def time_groups():
    for name, each in FIVE_PAIRS.items():
        calls = Calls(60)
        for session, (clock, time) in enumerate(TIMES):
            answer = 0 if abs(clock - time) <= 30 else TIME
            calls.open(answer, clock=clock, time=time, session=session, **each)
        yield f"{name}, times", calls


def binding_group():
    calls = Calls(60)
    others = [CLIENT ^ 1 << 8 * place for place in range(8)] + [0, LAST, ID]
    broken = claiming(CLIENT, 6, NAME)
    for method in METHODS.values():
        for other in others:
            calls.open(BINDING, method=method, client=CLIENT, bound=other)
        calls.open(BINDING, method=method, client=7, text=broken)
        calls.open(TIME, method=method, client=7, text=broken, clock=1_031)
        calls.open(TYPE, method=method, client=7, text=b"\0" + broken[1:], clock=1_031)
        calls.open(MALFORMED, method=method, client=7, text=broken[:18], clock=1_031)
        calls.open(MALFORMED, method=method, client=CLIENT, text=broken)
        for packet, client in enumerate((0, LAST, CLIENT, ID), 10 * method):
            calls.open(0, method=method, client=client, packet=packet)
    return "another client's", calls


BAD_KINDS = (0, 2, *range(5, 20), 31, 32, 63, 64, 97, 127, 128, 129, 131, 132, 192, 254, 255)
BAD_ADDRESSES = [b"", b"\1", b"\3", b"\4", b"\3\0", b"\3\0\0\x50", b"\3\0\0\x50\0\0", b"\3\xff"]
BAD_ADDRESSES += [address[:-count] for address in ADDRESSES for count in (1, 2)]


def address_groups():
    for name, each in FIVE_PAIRS.items():
        client = each["client"]
        calls = Calls(60)
        for kind in BAD_KINDS:
            calls.open(MALFORMED, address=bytes([kind]) + V6[1:], **each)
        for address in BAD_ADDRESSES:
            calls.open(MALFORMED, address=address, **each)
        for padding in (1, 4, 5, 6, 7, 255, 256, 32_768, 65_535):
            calls.open(MALFORMED, text=claiming(client, padding, NAME), **each)
        calls.open(MALFORMED, text=claiming(client, 5, NAME + NAME[:-1]), **each)
        calls.open(0, text=claiming(client, 5, NAME + NAME), **each)
        calls.open(0, text=claiming(client, 0, NAME + NAME), packet=6, **each)
        yield f"{name}, padding and addresses", calls


# Refused by the rest.


def room_group():
    calls = Calls(60)
    for packet, each in enumerate(PAIRS.values()):
        due = len(make_text(each["client"])) + (16 if each["method"] in DOUBLES else 0)
        for room in (0, 1, due - 1):
            calls.open(ROOM, room=room, packet=packet, **each)
        for turn, more in enumerate((0, 1, 1_000)):
            calls.open(0, room=due + more, packet=packet + 20 * turn, **each)
        for room in (due, due + 1_000):
            calls.open(REPLAY, room=room, packet=packet, **each)
            calls.open(TYPE, room=room, kind=7, **each)
            calls.open(TIME, room=room, clock=1_031, **each)
            calls.open(MALFORMED, room=room, address=b"\5" + NAME[1:], **each)
            calls.open(NOT_AUTHENTIC, room=room, flip=(20, 4), **each)
            if each["client"] is not None:
                calls.open(BINDING, room=room, bound=1, **each)
    return "room", calls


def forged_groups():
    for (name, each), mask in zip(FIVE_PAIRS.items(), (1, 128, 2, 16, 128)):
        calls = Calls(60)
        calls.open(0, packet=4, **each)
        data, later = (make_data(packet=packet, **each) for packet in (5, 6))
        for place in range(len(data)):
            calls.open(NOT_AUTHENTIC, data=data, flip=(place, mask), **each)
        lead = overhead(each["method"]) - 16
        calls.open(NOT_AUTHENTIC, data=later[:lead] + data[lead:], **each)
        calls.open(NOT_AUTHENTIC, data=data[:-16] + later[-16:], **each)
        calls.open(NOT_AUTHENTIC, data=data + b"\0", **each)
        calls.open(NOT_AUTHENTIC, data=data[:-1], **each)
        another = bytes(KEY_LENGTHS[each["method"]])
        calls.open(NOT_AUTHENTIC, data=data, key=another, **each)
        calls.open(0, data=data, **each)
        calls.open(REPLAY, data=data, **each)
        calls.open(NOT_AUTHENTIC, data=data, flip=(17, mask), **each)
        yield f"{name}, forged", calls


def length_groups():
    for title, names in (
        ("lengths", ("128 server", "128 client", "256 server", "256 client")),
        ("lengths, ChaCha", ("ChaCha20 server", "ChaCha8 client")),
    ):
        calls = Calls(60)
        for each in map(PAIRS.get, names):
            try_lengths(calls, each)
        each = PAIRS[names[0]]
        room = MAX_LENGTH - overhead(each["method"])
        calls.open(NOT_AUTHENTIC, length=MAX_LENGTH, room=room, **each)
        yield title, calls


def try_lengths(calls, each):
    least = overhead(each["method"])
    for length in (0, 1, 15, 16, 17, least - 1):
        calls.open(LENGTH, length=length, **each)
        calls.open(LENGTH, length=length, room=0, **each)
    for length in (least, least + 1, least + 15, 100):
        calls.open(NOT_AUTHENTIC, length=length, **each)
        calls.open(NOT_AUTHENTIC, data=b"", length=length, **each)
    for length in (MAX_LENGTH + 1, 65_535, LONG_BUFFER):
        calls.open(LENGTH, length=length, room=0, **each)
        calls.open(LENGTH, length=length, room=LONG_BUFFER, **each)
    calls.open(ROOM, length=MAX_LENGTH, room=MAX_LENGTH - least - 1, **each)


def settings_groups():
    calls = Calls(60)
    for method in (0, 6, 257, 259, 2**32 + 1, 2**32 + 2, 2**32 + 3, LAST):
        for length in (16, 32):
            calls.open(SETTINGS, method=method, key=key_of(length), data=pattern(48))
    for method in METHODS.values():
        for length in (0, 1, 15, 16, 17, 24, 31, 32, 33, 255):
            answer = 0 if length == KEY_LENGTHS[method] else SETTINGS
            calls.open(answer, method=method, key=key_of(length), packet=method)
    yield "methods and keys", calls

    calls = Calls(60)
    for each in PAIRS.values():
        for words in (0, 1, 705, 832, 834):
            calls.open(SETTINGS, words=words, **each)
            calls.open(SETTINGS, words=words, length=3, room=0, **each)
    calls.open(0)
    for retention in (0, 1, 59, 60, 3_600, 3_601, 2**32 + 60, LAST):
        answer = 0 if retention in (60, 3_600) else SETTINGS
        calls.begin((retention, *table_with(60, begun(3, 5, 990, PEER))[1:]))
        for packet, each in enumerate(PAIRS.values()):
            calls.open(answer, packet=packet, **each)
        calls.open(SETTINGS, method=6, key=b"", data=b"", room=0)
    yield "tables", calls


# What brings each refusal about, in the order of opening.
FAULTS = {
    SETTINGS: {"words": 705},
    LENGTH: {},
    ROOM: {"room": 0},
    NOT_AUTHENTIC: {"flip": (40, 1)},
    "short": {},
    TYPE: {"kind": 9},
    TIME: {"time": 969},
    BINDING: {"bound": 1},
    MALFORMED: {"address": b"\3\0\0\x50"},
}
SAID = ("kind", "time", "bound", "address")


def faulty(calls, faults, last, each):
    """A call with these faults: the first is answered, or the last refusal if there are none."""
    changes = {}
    for fault in faults:
        changes |= FAULTS[fault]
    said = {name: changes.pop(name) for name in SAID if name in changes}
    text = make_text(each["client"], **said)
    if "short" in faults:
        text = text[: 10 if each["client"] is None else 18]
    if LENGTH in faults:
        changes["length"] = overhead(each["method"]) - 1
    answer = faults[0] if faults else last
    calls.open(MALFORMED if answer == "short" else answer, text=text, **changes, **each)


def order_groups():
    known = table_with(60, begun(ID, 5, 1_000, PEER))
    full = table_with(60, *(begun(n, 9, 990, PEER) for n in range(64)))
    for name, table, last, most in (("known", known, REPLAY, 2), ("full", full, FULL, 1)):
        calls = Calls()
        calls.begin(table)
        for each in FIVE_PAIRS.values():
            order = [fault for fault in FAULTS if fault != BINDING or each["client"] is not None]
            for place in range(len(order) + 1):
                faulty(calls, order[place:], last, each)
            for faults in itertools.combinations(order, most):
                faulty(calls, faults, last, each)
        yield f"several faults, {name}", calls


# The window.

JUMPS = (1, 2, 62, 63, 64, 65, 127, 128, 129, 191, 192, 193, 254, 255, 256, 257, 300, 2**32, 2**63)
DISTANCES = (0, 1, 2, 62, 63, 64, 65, 127, 128, 191, 192, 254, 255, 256, 257, 1_000)


def random_marks(dice):
    return frozenset(distance for distance in range(256) if dice.often(50))


def window_groups():
    dice = Dice("window")
    calls = Calls()
    for jump in JUMPS:
        high = 5_000 + jump
        calls.begin(table_with(60, Session(1, ID, 5_000, 1_000, random_marks(dice), PEER)))
        calls.open(0, packet=high)
        for distance in (0, 1, 64, 254, 255, 256, jump % 300, (jump + 9) % 300):
            calls.open(None, packet=high - distance)
    yield "jumps", calls

    calls = Calls()
    for marks in (range(256), (), range(1, 256, 2)):
        table = table_with(60, Session(1, ID, 2**63 + 100, 1_000, frozenset(marks), PEER))
        for distance in DISTANCES:
            calls.begin(table)
            calls.open(None, packet=2**63 + 100 - distance)
    yield "distances", calls

    calls = Calls(60)
    for packet, answer in (
        *((300, 0), (45, 0), (44, REPLAY), (300, REPLAY), (45, REPLAY), (555, 0), (300, REPLAY)),
        *((299, REPLAY), (301, 0), (556, 0), (300, REPLAY), (301, REPLAY), (302, 0), (0, REPLAY)),
        *((LAST, 0), (LAST, REPLAY), (LAST - 255, 0), (LAST - 256, REPLAY), (0, REPLAY)),
    ):
        calls.open(answer, packet=packet)
    for packet, answer in (
        *((0, 0), (0, REPLAY), (255, 0), (0, REPLAY), (1, 0), (256, 0), (0, REPLAY), (1, REPLAY)),
        *((2, 0), (LAST, 0), (256, REPLAY), (LAST - 255, 0), (LAST - 255, REPLAY)),
    ):
        calls.open(answer, packet=packet, session=0, **PAIRS["256 client"])
    yield "window from a new table", calls


def refused_group():
    """Refused datagrams of far packets: the window stays."""
    calls = Calls(60)
    for each in PAIRS.values():
        session = (7 if each["client"] is None else 8) + 10 * (each["method"] - 1)
        known = {"session": session, **each}
        calls.open(0, packet=300, **known)
        calls.open(NOT_AUTHENTIC, packet=9_000, flip=(30, 2), **known)
        calls.open(MALFORMED, packet=9_000, text=b"\0", **known)
        calls.open(TYPE, packet=9_000, kind=5, **known)
        calls.open(TIME, packet=9_000, time=900, **known)
        if each["client"] is not None:
            calls.open(BINDING, packet=9_000, bound=5, **known)
        calls.open(MALFORMED, packet=9_000, address=b"\2" + NAME, **known)
        calls.open(REPLAY, packet=300, **known)
        calls.open(0, packet=299, **known)
    return "refused for far packets", calls


def low_group():
    """Marks below packet 0, and a highest packet that is not marked."""
    dice = Dice("low")
    calls = Calls()
    for high in (0, 1, 10, 63, 64, 200, 254, 255):
        for up in (1, 5, 64, 100, 255, 256):
            calls.begin(table_with(60, Session(1, ID, high, 1_000, random_marks(dice), PEER)))
            calls.open(None, packet=high)
            calls.open(None, packet=high // 2)
            calls.open(0, packet=high + up)
    return "marks below packet 0", calls


# Forgetting.


def kept_groups():
    calls = Calls()
    for retention in (60, 61, 3_600):
        for gap in (-10, 0, 59, 60, 61, 62, 3_599, 3_600, 3_601, 100_000):
            clock = 1_000 + gap
            calls.begin(table_with(retention, begun(ID, 300, 1_000, PEER)))
            answer = REPLAY if gap <= retention else 0
            calls.open(answer, packet=300, clock=clock, time=clock)
            calls.open(0, packet=301, clock=clock, time=clock, peer=Peer(3, 4, 5))
            calls.open(None, packet=299, clock=clock + 60, time=clock + 60)
    yield "gaps", calls

    calls = Calls()
    for last in (1_001, 5_000, 2**63, LAST - 60, LAST):
        for clock in (0, 1_000, last, LAST):
            calls.begin(table_with(60, begun(ID, 300, last, PEER)))
            calls.open(None, packet=300, clock=clock, time=clock)
            calls.open(0, packet=302, clock=clock, time=clock)
    yield "last times in the future", calls

    calls = Calls()
    for retention, clock in ((0, 1_300), (60, 1_060)):
        calls.make(retention)
        calls.open(0, clock=1_000, time=1_000)
        calls.open(REPLAY, clock=clock, time=clock)
        calls.open(0, clock=clock + 1, time=clock + 1)
    yield "made with 0 and with 60", calls

    calls = Calls(60)
    calls.open(0, time=1_030)
    calls.open(REPLAY, time=1_030, clock=1_059)
    calls.open(0, time=1_090, clock=1_060, session=9)  # does not shorten the other's life
    calls.open(REPLAY, time=1_030, clock=1_060)
    calls.open(TIME, time=1_030, clock=1_061)
    calls.open(0, time=1_061, clock=1_061)
    calls.open(0, time=1_091, clock=1_061, packet=6)
    calls.open(REPLAY, time=1_121, clock=1_121)
    calls.open(0, time=1_122, clock=1_122)
    calls.open(0, time=1_122, clock=1_122, packet=6)
    yield "forgotten and begun again", calls


def clock_group():
    """Clocks that go back."""
    calls = Calls(60)
    calls.open(0, clock=2_000, time=2_000, packet=10)
    calls.open(0, clock=1_990, time=2_000, packet=11)
    calls.open(REPLAY, clock=0, time=0, packet=10)
    calls.open(0, clock=2_060, time=2_060, packet=12)
    calls.open(0, clock=2_121, time=2_121, packet=12, session=9)  # takes the forgotten record
    calls.open(0, clock=2_100, time=2_100, packet=12)
    calls.open(0, clock=2_000, time=2_000, packet=12, session=8)
    calls.begin(table_with(60, begun(ID, 100, 1_000, PEER), begun(ID, 900, 1_100, PEER)))
    calls.open(REPLAY, clock=1_061, time=1_061, packet=900)
    calls.open(0, clock=1_060, time=1_060, packet=900)  # the lower one is alive again
    calls.open(0, clock=1_061, time=1_061, packet=901)
    calls.open(0, clock=LAST, time=LAST, packet=3)
    calls.open(0, clock=LAST - 30, time=LAST, packet=4)
    calls.open(0, clock=5, time=5, packet=5)
    return "clocks that go back", calls


# Many sessions.


def full_groups():
    calls = Calls(60)
    for session in range(64):
        calls.open(0, session=session, packet=session, clock=1_000 + session // 2, time=1_009)
    calls.open(FULL, session=64, clock=1_031, time=1_009)
    calls.open(0, session=63, packet=64, clock=1_031, time=1_009)
    calls.open(REPLAY, session=63, packet=64, clock=1_031, time=1_009)
    calls.open(0, session=0, packet=9, clock=1_031, time=1_009)
    calls.open(FULL, session=64, clock=1_060, time=1_060)
    calls.open(0, session=64, clock=1_061, time=1_061)  # record 1
    calls.open(FULL, session=65, clock=1_061, time=1_061)
    calls.open(0, session=2, packet=3, clock=1_061, time=1_061)
    calls.open(0, session=1, clock=1_062, time=1_062)  # record 3
    calls.open(FULL, session=3, clock=1_062, time=1_062)
    calls.open(0, session=65, clock=1_063, time=1_063)  # record 4
    calls.open(0, session=5, clock=1_063, time=1_063)  # its own again
    calls.open(FULL, session=4, clock=1_063, time=1_063)
    yield "full, from a new table", calls

    calls = Calls()
    for dead in ((63,), (0,), (5, 40), (40,), ()):
        records = [begun(n, 9, 1_000, PEER) for n in range(64)]
        for place in dead:
            records[place] = begun(ID if place == 40 else place, 9, 939, PEER)
        calls.begin(table_with(60, *records))
        for packet, session in enumerate((ID, 700, 63, 0), 9):
            calls.open(None, session=session, packet=packet)
        calls.open(None, session=701, clock=1_060, time=1_060)
        calls.open(0, session=701, clock=1_061, time=1_061)
    yield "full, from words", calls


# Words that no call leaves.


def odd_group():
    """Odd words in use, ports of more bits, several records of one ID."""
    calls = Calls()
    for used, last in itertools.product((0, 1, 2, 7, 2**32, 2**63, LAST), (1_000, LAST)):
        odd = Session(used, ID, 300, last, frozenset({0, 9}), PEER)
        table = list(table_with(60, begun(1, 1, 1_000, PEER), odd))
        table[1 + 13 + 10] = LAST - 65_535 + 17  # the port's word
        calls.begin(table)
        for packet in (300, 290, 310):
            calls.open(None, packet=packet, peer=Peer(5, 6, 7))
    alike = [begun(ID, n, 1_000 - 61 * (n % 2), PEER)._replace(used=n % 3) for n in range(64)]
    for place in (0, 20, 63):
        calls.begin(table_with(60, *alike[place:]))
        for packet in (place, 1, 2, 3, 4, 60, 61, 62):
            calls.open(None, packet=packet)
    return "odd words", calls


def counts_group():
    """Repeats and acceptances, both counts up to their end, with junk in the port's word."""
    calls = Calls()
    ends = (0, 1, 2**32 - 1, 2**63, LAST - 2, LAST - 1, LAST)
    places = itertools.cycle((0, 5, 63))
    for place, (accepted, repeats) in zip(places, itertools.product(ends, ends)):
        known = Session(1, ID, 300, 1_000, frozenset({0, 9}), PEER, accepted, repeats)
        records = [begun(n, 1, 1_000, PEER) for n in range(place)] + [known, known]
        table = list(table_with(60, *records[:64]))
        table[1 + RECORD_WORDS * place + 10] = LAST - 65_535 + 17
        calls.begin(table)
        # marked, below the window, marked at a later clock; accepted; and again
        for packet, clock, answer in (
            *((300, 1_000, REPLAY), (44, 1_000, REPLAY), (291, 1_030, REPLAY)),
            *((299, 1_030, 0), (299, 1_030, REPLAY)),
        ):
            calls.open(answer, packet=packet, clock=clock, time=clock, peer=Peer(5, 6, 7))
    return "counts", calls


def random_table(dice, retention):
    """Words of no meaning, with about half the sessions alive at clock 2^63."""
    words = [dice.below(2**64) for _ in range(TABLE_WORDS)]
    words[0] = retention
    for start in range(1, TABLE_WORDS, RECORD_WORDS):
        used, _, high, last = words[start : start + 4]
        words[start] = dice.pick((0, 1, 7, used, used))
        words[start + 2] = dice.pick((high, dice.below(300), LAST))
        words[start + 3] = dice.pick((last, 2**63 - 60, 2**63 - 61, 2**63 - 3_601, 0))
        if start > 1 and dice.often(10):
            words[start + 1] = words[dice.below(start // RECORD_WORDS) * RECORD_WORDS + 2]
    return words


def random_groups():
    for retention, (name, each) in zip((60, 3_600), TWO_PAIRS.items()):
        dice = Dice(f"words {name}")
        calls = Calls()
        table = random_table(dice, retention)
        calls.begin(table)
        for _ in range(75):
            start = 1 + RECORD_WORDS * dice.below(64)
            session, high = table[start + 1 : start + 3]
            if dice.often(10):
                session = dice.below(2**64)
            step = dice.pick((-256, -255, -100, -3, 0, 1, 70, 255, 256))
            packet = max(0, min(LAST, high + step))
            clock = 2**63 + dice.pick((0, 0, 0, -9, 30))
            peer = Peer(dice.below(2**64), dice.below(2**64), dice.below(2**16))
            what = {"session": session, "packet": packet, "time": 2**63}
            calls.open(None, clock=clock, peer=peer, **what, **each)
        yield f"{name}, words of no meaning", calls


# Reply sessions.

IDS = (0, 1, ID, 2**32, 2**63, LAST)


def reply_groups():
    calls = Calls(60)
    for id, client in itertools.product(IDS, IDS):
        calls.reply(id, client, ARGUMENT if id == client else 0)
    calls.open(0)  # ID
    for id, client in itertools.product(IDS, IDS):
        calls.reply(id, client, ARGUMENT if id in (client, ID) else 0)
    calls.open(0, session=CLIENT, clock=1_020, time=1_020)
    for clock in (0, 1_000, 1_060, 1_061, 1_080, 1_081, LAST):
        calls.reply(ID, 5, ARGUMENT if clock <= 1_060 else 0, clock)
        calls.reply(CLIENT, ID, ARGUMENT if clock <= 1_080 else 0, clock)
        calls.reply(5, CLIENT, 0, clock)
        calls.reply(5, 5, ARGUMENT, clock)
    calls.open(0, session=5, clock=1_081, time=1_081)  # a client that comes later with the ID
    calls.reply(5, CLIENT, ARGUMENT, 1_081)
    yield "replies from a new table", calls

    calls = Calls()
    for retention in (60, 61, 3_600):
        for place, gap in itertools.product((0, 1, 62, 63), (0, retention, retention + 1)):
            records = [begun(n, 9, 1_000, PEER) for n in range(64)]
            records[place] = begun(700, 9, 5_000 - gap, PEER)
            calls.begin(table_with(retention, *records))
            calls.reply(700, 7, ARGUMENT if gap <= retention else 0, 5_000)
            calls.reply(700, 700, ARGUMENT, 5_000)
            calls.reply(place, 7, None, 5_000)
    alike = [begun(ID, n, 1_000 - 61 * (n % 2), PEER)._replace(used=n % 3) for n in range(64)]
    for place in (0, 1, 61, 62, 63):
        calls.begin(table_with(60, *alike[place:]))
        for clock in (0, 939, 999, 1_000, 1_060, 1_061):
            calls.reply(ID, 7, None, clock)
        calls.reply(0, 7, 0)
    yield "replies, records of any place", calls

    calls = Calls()
    known = table_with(60, begun(ID, 5, 1_000, PEER))
    for retention in (0, 1, 59, 60, 3_600, 3_601, 2**32 + 60, LAST):
        calls.begin((retention, *known[1:]))
        for id, client in ((ID, 7), (7, 7), (8, 7)):
            answer = SETTINGS if retention not in (60, 3_600) else ARGUMENT if id != 8 else 0
            calls.reply(id, client, answer)
    calls.begin(known)
    for words in (0, 1, 705, 832, 834):
        for id, client in ((ID, 7), (7, 7), (8, 7)):
            calls.reply(id, client, SETTINGS, words=words)
    yield "replies, tables", calls


# Making.


def making_group():
    calls = Calls()
    for retention in (0, 1, 59, 60, 61, 3_600, 3_601, 2**32 + 60, LAST):
        answer = 0 if retention in (0, 60, 61, 3_600) else SETTINGS
        calls.begin((LAST,) * WORD_LIMIT)
        for words in (0, 1, 60, 705, 832, 834):
            calls.make(retention, SETTINGS, words)
        calls.make(retention, answer)
        calls.make(60, 0)
        calls.make(retention, answer)
    return "making", calls


# Lists.


def list_groups():
    """Random lists from a new table."""
    hosts = (
        ("few sessions, 128", 60, Host("list 0", 1, 3, quiet=85), 90),
        ("few sessions, 256", 61, Host("list 1", 2, 4, quiet=90), 90),
        ("one session", 3_600, Host("list 2", 1, 1, quiet=95), 90),
        ("many sessions", 60, Host("list 6", 2, 400, quiet=99), 150),
        ("late clocks", 60, Host("list 4", 1, 5, LAST - 900, 95), 60),
        ("equal clocks", 60, Host("list 5", 2, 6, quiet=100), 90),
        ("few sessions, ChaCha20", 60, Host("list 7", 3, 3, quiet=85), 90),
        ("many sessions, ChaCha12", 60, Host("list 8", 4, 400, quiet=99), 120),
        ("equal clocks, ChaCha8", 61, Host("list 9", 5, 6, quiet=100), 90),
    )
    for name, retention, host, count in hosts:
        calls = Calls(retention)
        for call in host.calls(count):
            calls.run(call._replace(output=FILL * len(call.output)))
        yield f"list, {name}", calls


def longest_groups():
    for name, title in (("128 server", "longest"), ("ChaCha12 client", "longest, ChaCha12")):
        each = PAIRS[name]
        least = overhead(each["method"])
        head = make_text(each["client"], address=V6)
        inner = 16 if each["method"] in DOUBLES else 0
        text = head + pattern(MAX_LENGTH - least - inner)[len(head) :]
        call = make_call(text=text, room=MAX_LENGTH - least, **each)
        longer = call._replace(output=FILL * LONG_BUFFER)
        calls = Calls(60)
        calls.run(call._replace(output=call.output[1:]), ROOM)
        calls.run(longer, 0)
        calls.run(call, REPLAY)
        calls.run(longer, REPLAY)
        yield title, calls


# The files.


def make_groups():
    """The groups in the program's order."""
    return [
        *worked_groups(),
        *opened_groups(),
        nonce_group(),
        *inner_groups(),
        other_method_group(),
        *short_groups(),
        *type_groups(),
        *time_groups(),
        binding_group(),
        *address_groups(),
        room_group(),
        *forged_groups(),
        *length_groups(),
        *settings_groups(),
        *order_groups(),
        *window_groups(),
        refused_group(),
        low_group(),
        *kept_groups(),
        clock_group(),
        *full_groups(),
        odd_group(),
        counts_group(),
        *random_groups(),
        *reply_groups(),
        making_group(),
        *list_groups(),
        *longest_groups(),
    ]
