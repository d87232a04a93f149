"""Calls of the 2017 edition, in groups."""

import itertools
import sys

sys.dont_write_bytecode = True  # no __pycache__ in the tree
from datagram import COUNTER, LENGTH, MAX_LENGTH, ROOM, SETTINGS, u16  # noqa: E402
from gcm import TAG_LENGTH  # noqa: E402
from sessions import MALFORMED, NOT_AUTHENTIC, Dice  # noqa: E402
from sip004 import KEY_LENGTHS, MAX_CHUNK, NO_METHODS  # noqa: E402
from sip004_calls import BEGIN_OPENING, BEGIN_SEALING, BEGINNING, METHODS  # noqa: E402
from sip004_calls import OPEN_CHUNK, OPEN_DATAGRAM, SEAL_CHUNK, SEAL_DATAGRAM, Calls  # noqa: E402
from sip004_calls import datagram, piece, receiver, salt_of, sender  # noqa: E402
from stream_calls import JUNK, LAST, pattern  # noqa: E402
from streams import ENDED, MORE  # noqa: E402
from vectors import BUFFER_LIMIT, STREAMS  # noqa: E402

ODD_LENGTHS = (0, 1, 15, 16, 17, 23, 24, 25, 31, 32, 33, 255)  # of keys and salts
BLOCKS = (0, 1, 2, 15, 16, 17, 31, 32, 33)  # lengths of payloads: around AES's blocks


def string(length):
    return bytes(range(length))


def around(method):
    """The bytes of a datagram that are not its payload."""
    return KEY_LENGTHS[method] + TAG_LENGTH


def rooms_below(due):
    """Some that are too small."""
    return sorted({room for room in (0, 1, 15, 16, due - 17, due - 16, due - 1) if 0 <= room < due})


def subsets(faults):
    """Each choice of faults: the refusal of the first one, and the changes of all."""
    for count in range(len(faults) + 1):
        for chosen in itertools.combinations(faults, count):
            changes = {}
            for fault in chosen:
                changes |= faults[fault]
            yield (chosen[0] if chosen else 0), changes


# Datagrams.


def there_and_back(calls, method, length, **call):
    """Seals a payload of this length and opens it again."""
    data = calls.sealed(SEAL_DATAGRAM, method=method, data=pattern(length), **call)
    calls.run(OPEN_DATAGRAM, method=method, data=data, count=length)


def datagram_groups():
    for bits, method in METHODS.items():
        calls = Calls(method)
        for number, length in enumerate((*BLOCKS, 47, 48, 49, 63, 64, 65, 255, 256, 1_400)):
            there_and_back(calls, method, length, salt=salt_of(method, number))
        yield f"{bits}, datagrams", calls


def forged_datagram_groups():
    for (bits, method), mask in zip(METHODS.items(), (1, 16, 128)):
        calls, data = Calls(method), datagram(method, b"abc")
        for place in range(len(data)):
            calls.run(OPEN_DATAGRAM, NOT_AUTHENTIC, data=data, flip=(place, mask))
        for cut in range(len(data)):
            answer = LENGTH if cut < around(method) else NOT_AUTHENTIC
            calls.run(OPEN_DATAGRAM, answer, data=data, cut=cut)
        calls.run(OPEN_DATAGRAM, NOT_AUTHENTIC, data=data + b"\0")
        calls.run(OPEN_DATAGRAM, NOT_AUTHENTIC, data=data, key=bytes(KEY_LENGTHS[method]))
        other = datagram(method, b"abc", 1)
        calls.run(OPEN_DATAGRAM, NOT_AUTHENTIC, data=salt_of(method) + other[len(data) - 19 :])
        calls.run(OPEN_DATAGRAM, 0, data=other)
        yield f"{bits}, forged and cut datagrams", calls


def datagram_settings_groups():
    calls = Calls()
    for method, length in itertools.product(NO_METHODS, KEY_LENGTHS.values()):
        odd = {"method": method, "key": string(length), "salt": string(length)}
        calls.run(SEAL_DATAGRAM, SETTINGS, **odd)
        calls.run(OPEN_DATAGRAM, SETTINGS, data=datagram(11, b"abc"), **odd)
        calls.run(OPEN_DATAGRAM, SETTINGS, data=b"", room=0, **odd)
    yield "methods of datagrams", calls

    calls = Calls()
    for method, length in itertools.product(METHODS.values(), ODD_LENGTHS):
        if length != KEY_LENGTHS[method]:
            odd = string(length)
            calls.run(SEAL_DATAGRAM, SETTINGS, method=method, key=odd)
            calls.run(SEAL_DATAGRAM, SETTINGS, method=method, salt=odd)
            calls.run(SEAL_DATAGRAM, SETTINGS, method=method, key=odd, salt=odd)
            calls.run(OPEN_DATAGRAM, SETTINGS, method=method, key=odd, data=datagram(method, b""))
    yield "lengths of a datagram's key and salt", calls


def datagram_room_group():
    calls = Calls()
    for method in METHODS.values():
        for length in (0, 1, 40):
            data, due = datagram(method, pattern(length)), around(method) + length
            call = {"method": method, "data": pattern(length)}
            for room in rooms_below(due):
                calls.run(SEAL_DATAGRAM, ROOM, room=room, **call)
            calls.run(SEAL_DATAGRAM, 0, room=due, **call)
            for room in rooms_below(length):
                calls.run(OPEN_DATAGRAM, ROOM, method=method, data=data, room=room)
            calls.run(OPEN_DATAGRAM, 0, method=method, data=data, room=length)
    return "room for datagrams", calls


def datagram_lengths(calls, method):
    """On both sides of the longest datagram's."""
    most, call = MAX_LENGTH - around(method), {"method": method}
    for length in (most + 1, most + 2, MAX_LENGTH, 65_536):
        for room in (0, BUFFER_LIMIT):
            calls.run(SEAL_DATAGRAM, LENGTH, data=pattern(length), room=room, **call)
    calls.run(SEAL_DATAGRAM, ROOM, data=pattern(most), room=MAX_LENGTH - 1, **call)
    for length in (MAX_LENGTH + 1, 65_536, BUFFER_LIMIT):
        calls.run(OPEN_DATAGRAM, LENGTH, data=pattern(length), room=0, **call)
        calls.run(OPEN_DATAGRAM, LENGTH, data=pattern(length), **call)
    calls.run(OPEN_DATAGRAM, ROOM, data=pattern(MAX_LENGTH), room=most - 1, **call)
    calls.run(OPEN_DATAGRAM, NOT_AUTHENTIC, data=pattern(MAX_LENGTH), room=most, **call)


DATAGRAM_FAULTS = {
    SEAL_DATAGRAM: {
        SETTINGS: {"salt": string(17)},
        LENGTH: {"data": pattern(MAX_LENGTH)},
        ROOM: {"room": 16},
    },
    OPEN_DATAGRAM: {
        SETTINGS: {"method": 14},
        LENGTH: {"data": pattern(MAX_LENGTH + 1)},
        ROOM: {"room": 2},
        NOT_AUTHENTIC: {"key": bytes(16)},
    },
}


def datagram_faults(calls):
    for kind, faults in DATAGRAM_FAULTS.items():
        good = {"data": pattern(3) if kind == SEAL_DATAGRAM else datagram(11, b"abc")}
        for answer, changes in subsets(faults):
            calls.run(kind, answer, **(good | changes))


# Streams.


def receive(calls, slot, data):
    """Opens the bytes of a stream behind its salt, all of them lent each time."""
    while True:
        given = calls.run(OPEN_CHUNK, None if not data else 0, slot=slot, data=data)
        if given.number:
            return
        data = data[given.count :]


def whole_groups():
    for bits, method in METHODS.items():
        calls = Calls(method)
        for number, lengths in enumerate(((0, 1, 16), (5, 0, 0, 17), (), (300, 0, 31))):
            salt = salt_of(method, number)
            calls.run(BEGIN_SEALING, salt=salt)
            calls.run(BEGIN_OPENING, slot=1, salt=salt)
            chunks = [calls.sealed(SEAL_CHUNK, data=pattern(length)) for length in lengths]
            receive(calls, 1, b"".join(chunks))
        yield f"{bits}, whole streams", calls

        calls = Calls(method)
        for length in BLOCKS:
            calls.begin(s0=sender(method, length), s1=receiver(method, None, length))
            data = calls.sealed(SEAL_CHUNK, data=pattern(length), room=length + 34)
            calls.run(OPEN_CHUNK, slot=1, data=data, room=0, count=18)
            calls.run(OPEN_CHUNK, slot=1, data=data[18:], room=length, count=length + 16)
        yield f"{bits}, payload lengths", calls


def begin_group():
    calls = Calls()
    for method, length, kind in itertools.product(NO_METHODS, KEY_LENGTHS.values(), BEGINNING):
        calls.run(kind, SETTINGS, method=method, key=string(length), salt=string(length))
    for method, length, kind in itertools.product(METHODS.values(), ODD_LENGTHS, BEGINNING):
        if length != KEY_LENGTHS[method]:
            calls.run(kind, SETTINGS, method=method, key=string(length))
            calls.run(kind, SETTINGS, method=method, salt=string(length))
            calls.run(kind, SETTINGS, method=method, key=string(length), salt=string(length))
    return "beginnings", calls


def cut_group():
    """Pieces are opened once they are whole; a payload of no bytes is its tag."""
    calls = Calls()
    calls.begin(s0=receiver(11))
    texts = b"\0\3", b"xyz", b"\0\0", b"", b"\0\1", b"w"
    pieces = [piece(11, text, at) for at, text in enumerate(texts)]
    for number, sealed in enumerate(pieces):
        data = b"".join(pieces[number:])
        for cut in range(len(sealed)):
            calls.run(OPEN_CHUNK, MORE, data=data, cut=cut, count=len(sealed))
        calls.run(OPEN_CHUNK, 0, data=data, count=len(sealed))
    return "steps cut short", calls


LENGTHS = (0, 1, 255, 256, MAX_CHUNK - 1, MAX_CHUNK)
LONG_LENGTHS = (MAX_CHUNK + 1, 0x7FFF, 0x8000, 0xC000, 0xFFFF)


def length_group():
    """Lengths on both sides of the cap, which ends a stream, as a wrong tag does; that first."""
    calls = Calls()
    for method, length in itertools.product(METHODS.values(), LENGTHS):
        calls.begin(s0=receiver(method))
        calls.run(OPEN_CHUNK, 0, data=piece(method, u16(length)), room=0)
        for cut in sorted({0, 15, min(length, 256) + 15}):
            calls.run(OPEN_CHUNK, MORE, data=b"", cut=cut, room=0, count=length + 16)
    for method, length in itertools.product(METHODS.values(), LONG_LENGTHS):
        data = piece(method, u16(length))
        calls.begin(s0=receiver(method), s1=receiver(method))
        calls.run(OPEN_CHUNK, MORE, data=data[:-1])
        calls.run(OPEN_CHUNK, MALFORMED, data=data + JUNK, room=0)
        calls.run(OPEN_CHUNK, NOT_AUTHENTIC, data=piece(method, b"\0\1"))
        calls.run(OPEN_CHUNK, NOT_AUTHENTIC, slot=1, data=data, flip=(17, 1))
    return "lengths read", calls


def forged_groups():
    """A length and a payload, damaged at each place. The good ones then come too late."""
    for (bits, method), mask in zip(METHODS.items(), (64, 8, 2)):
        calls = Calls(method)
        pieces = piece(method, b"\0\3", 8), piece(method, b"xyz", 9)
        for place in range(19):
            calls.begin(s0=receiver(method, None, 8), s1=receiver(method, 3, 9))
            for slot, data in enumerate(pieces):
                damaged = place < len(data)
                number = NOT_AUTHENTIC if damaged else 0
                calls.run(OPEN_CHUNK, number, slot=slot, data=data + b"\0", flip=(place, mask))
                calls.run(OPEN_CHUNK, NOT_AUTHENTIC if damaged else None, slot=slot, data=data)
        calls.begin(s0=receiver(method, None, 8), s1=receiver(method, None, 9))
        calls.run(OPEN_CHUNK, NOT_AUTHENTIC, data=pieces[1])
        calls.run(OPEN_CHUNK, NOT_AUTHENTIC, data=pieces[0], slot=1)  # one counter too late
        calls.begin(s0=receiver(method, 0, 3))
        calls.run(OPEN_CHUNK, NOT_AUTHENTIC, data=piece(method, b"", 3), flip=(0, mask), room=0)
        yield f"{bits}, forged chunks", calls


GOOD_COUNTERS = (0, 1, 2, 255, 256, 258, 65_535, 2**32 - 1, 2**32, 2**40 + 7, 2**63)


def counter_group():
    calls = Calls()
    for counter in (*GOOD_COUNTERS, LAST - 3, LAST - 2, LAST - 1, LAST):
        calls.begin(s0=sender(12, counter), s1=receiver(12, None, counter))
        answer = COUNTER if counter > LAST - 2 else 0
        data = calls.sealed(SEAL_CHUNK, answer=answer, data=b"abc")
        if data:
            calls.run(SEAL_CHUNK, None, data=b"d")
            receive(calls, 1, data)
    for text, length in ((b"\0\5", None), (b"abc", 3), (b"", 0)):
        calls.begin(s0=receiver(12, length, LAST - 1), s1=receiver(12, length, LAST))
        for slot, answer in ((0, 0), (1, COUNTER), (0, COUNTER)):
            calls.run(OPEN_CHUNK, answer, data=piece(12, text, LAST - 1), slot=slot)
            calls.run(OPEN_CHUNK, COUNTER, data=b"", slot=slot, room=0)
    return "counters", calls


def with_junk(stream):
    """Words behind the subkey that are not zero."""
    words = KEY_LENGTHS[stream.method] // 8
    return stream._replace(subkey=stream.subkey[:words] + (LAST,) * (4 - words))


def state_group():
    """States that a host made: other methods, payloads of other lengths, junk behind a subkey."""
    calls = Calls()
    for method in NO_METHODS:
        odd = {"method": method}
        calls.begin(
            s0=sender(11)._replace(**odd),
            s1=receiver(11)._replace(**odd),
            s2=receiver(11, 3)._replace(**odd),
        )
        for data in (b"", JUNK):
            calls.run(SEAL_CHUNK, SETTINGS, data=data)
            calls.run(OPEN_CHUNK, SETTINGS, data=data, slot=1)
            calls.run(OPEN_CHUNK, SETTINGS, data=data, slot=2)
    for method in METHODS.values():
        for length in (MAX_CHUNK + 1, 65_535, 65_536, 2**32, 2**32 + 3, LAST):
            calls.begin(s0=receiver(method, length), s1=receiver(method, length, LAST))
            for slot, data in itertools.product((0, 1), (b"", piece(method, b"abc"))):
                calls.run(OPEN_CHUNK, SETTINGS, slot=slot, data=data)
        calls.begin(s0=receiver(method, MAX_CHUNK), s1=receiver(method)._replace(length=LAST))
        calls.run(OPEN_CHUNK, MORE, data=b"", count=MAX_CHUNK + 16)
        calls.run(OPEN_CHUNK, 0, slot=1, data=piece(method, b"\0\3"))  # at a length it is not read
        calls.begin(s0=with_junk(sender(method)), s1=with_junk(receiver(method)))
        receive(calls, 1, calls.sealed(SEAL_CHUNK, data=b"abc"))
    return "states of a host", calls


def ended_group():
    calls = Calls()
    for counter, method in itertools.product((0, LAST), (*METHODS.values(), *NO_METHODS)):
        ended = (ENDED, method, counter, MAX_CHUNK + 1, *receiver(13).subkey)
        calls.begin((0,) * STREAMS + ended + (0,) * 24)
        answer = NOT_AUTHENTIC if method in KEY_LENGTHS else SETTINGS
        for data in (b"", piece(13, b"\0\3", counter)):
            calls.run(OPEN_CHUNK, answer, data=data, room=0)
            calls.run(OPEN_CHUNK, answer, data=data)
    return "ended", calls


def room_group():
    calls = Calls()
    for method, length in itertools.product(METHODS.values(), (0, 1, 40)):
        calls.begin(s0=sender(method), s1=receiver(method, length))
        call, due = {"data": pattern(length)}, length + 34
        for room in rooms_below(due):
            calls.run(SEAL_CHUNK, ROOM, room=room, **call)
        calls.run(SEAL_CHUNK, 0, room=due, **call)
        data = piece(method, pattern(length))
        for room in rooms_below(length):
            calls.run(OPEN_CHUNK, ROOM, slot=1, data=data, room=room)
        calls.run(OPEN_CHUNK, 0, slot=1, data=data, room=length)
    return "room for chunks", calls


def chunk_lengths(calls, method):
    """On both sides of the longest chunk's."""
    calls.begin(s0=sender(method))
    for length, room in itertools.product((MAX_CHUNK + 1, 16_385, 65_535, 65_536), (0, None)):
        calls.run(SEAL_CHUNK, LENGTH, data=pattern(length), room=room)
    calls.run(SEAL_CHUNK, ROOM, data=pattern(MAX_CHUNK), room=MAX_CHUNK + 33)


def longest_chunk(calls, method):
    calls.begin(s0=sender(method), s1=receiver(method))
    data = calls.sealed(SEAL_CHUNK, data=pattern(MAX_CHUNK), room=MAX_CHUNK + 34)
    calls.run(OPEN_CHUNK, 0, slot=1, data=data, room=0)
    sealed = data[18:]
    calls.run(OPEN_CHUNK, MORE, slot=1, data=sealed[:-1], room=MAX_CHUNK)
    calls.run(OPEN_CHUNK, ROOM, slot=1, data=sealed, room=MAX_CHUNK - 1)
    calls.run(OPEN_CHUNK, 0, slot=1, data=sealed, room=MAX_CHUNK)


STATE = ("method", "turn", "counter")
STEP_FAULTS = {
    SETTINGS: {"method": 10},
    "ended": {"turn": ENDED},
    COUNTER: {"counter": LAST},
    MORE: {"cut": 18},
    ROOM: {"room": 2},
    NOT_AUTHENTIC: {"flip": (1, 1)},
}
LENGTH_FAULTS = STEP_FAULTS | {MORE: {"cut": 17}, MALFORMED: {"text": u16(MAX_CHUNK + 1)}}
del LENGTH_FAULTS[ROOM]  # a length asks for none
CHUNK_FAULTS = {
    SETTINGS: {"method": 14},
    COUNTER: {"counter": LAST - 1},
    LENGTH: {"data": pattern(MAX_CHUNK + 1)},
    ROOM: {"room": 20},
}


def step_order_groups():
    for name, faults, good, right in (
        ("step", STEP_FAULTS, receiver(12, 3), b"abc"),
        ("length", LENGTH_FAULTS, receiver(12), b"\0\3"),
    ):
        calls = Calls(12)
        for answer, changes in subsets(faults):
            odd = {each: changes.pop(each) for each in STATE if each in changes}
            state = good._replace(**odd)
            words = state.turn, state.method, state.counter, state.length, *state.subkey
            calls.begin((0,) * STREAMS + words + (0,) * 24)
            answer = NOT_AUTHENTIC if answer == "ended" else answer
            data = piece(12, changes.pop("text", right))
            calls.run(OPEN_CHUNK, answer, data=data, **changes)
            if answer in (NOT_AUTHENTIC, MALFORMED):
                calls.run(OPEN_CHUNK, NOT_AUTHENTIC, data=piece(12, right))
        yield f"several faults of a {name}", calls


def chunk_faults(calls):
    for answer, changes in subsets(CHUNK_FAULTS):
        odd = {each: changes.pop(each) for each in STATE if each in changes}
        calls.begin(s0=sender(13)._replace(**odd))
        calls.run(SEAL_CHUNK, answer, **changes)


# A list of calls by chance.


class Host:
    """Sends and receives on two streams."""

    def __init__(self, method):
        self.dice, self.calls, self.data = Dice(f"SIP004 {method}"), Calls(method), b""
        self.begin()

    def begin(self):
        salt = salt_of(self.calls.method, f"list {self.dice.below(1_000)}")
        self.calls.run(BEGIN_SEALING, salt=salt)
        self.calls.run(BEGIN_OPENING, slot=1, salt=salt)
        self.data = b""

    def send(self):
        payload = pattern(self.dice.pick((0, 0, 1, 2, 15, 16, 17, 40)))
        room = {"room": self.dice.below(60)} if self.dice.often(8) else {}
        given = self.calls.run(SEAL_CHUNK, None, data=payload, **room)
        if given.number == 0:
            self.data += given.output[: given.count]

    def receive(self):
        changes = {"room": self.dice.below(20)} if self.dice.often(8) else {}
        if self.dice.often(15):
            changes["cut"] = self.dice.below(len(self.data) + 1)
        if self.data and self.dice.often(6):
            changes["flip"] = (self.dice.below(min(len(self.data), 40)), 1 << self.dice.below(8))
        given = self.calls.run(OPEN_CHUNK, None, slot=1, data=self.data, **changes)
        if given.number == 0:
            self.data = self.data[given.count :]
        if given.number == NOT_AUTHENTIC and self.dice.often(60):
            self.begin()

    def play(self, count):
        for _ in range(count):
            self.dice.pick((self.send, self.receive, self.receive))()
        return self.calls


def list_groups():
    for bits, method in METHODS.items():
        yield f"{bits}, list", Host(method).play(60)


# Long strings.


def long_group():
    """One group, which holds once the pattern that long strings are parts of."""
    calls = Calls()
    for method in METHODS.values():
        datagram_lengths(calls, method)
        chunk_lengths(calls, method)
    datagram_faults(calls)
    chunk_faults(calls)
    there_and_back(calls, 13, MAX_LENGTH - around(13), room=MAX_LENGTH)
    longest_chunk(calls, 12)
    return "longest, too long, several faults", calls


# The file.


def make_groups():
    """The groups in the program's order."""
    return [
        *datagram_groups(),
        *forged_datagram_groups(),
        *datagram_settings_groups(),
        datagram_room_group(),
        *whole_groups(),
        begin_group(),
        cut_group(),
        length_group(),
        *forged_groups(),
        counter_group(),
        state_group(),
        ended_group(),
        room_group(),
        *step_order_groups(),
        *list_groups(),
        long_group(),
    ]
