"""Calls about streams, in groups."""

import itertools
import sys

sys.dont_write_bytecode = True  # no __pycache__ in the tree
import streams  # noqa: E402
from datagram import ARGUMENT, COUNTER, LENGTH, NAME, ROOM, SETTINGS, V6, u16  # noqa: E402
from sessions import BINDING, FULL, MALFORMED, NOT_AUTHENTIC, REPLAY, TIME, TYPE  # noqa: E402
from sessions import Dice  # noqa: E402
from stream_calls import ADDRESSES, AES, BEHIND, JUNK, LAST, LONG, METHODS, beside  # noqa: E402
from stream_calls import NO_OUTPUT, OPEN_CHUNK, OPEN_REQUEST, OPEN_RESPONSE, OPEN_VARIABLE  # noqa: E402
from stream_calls import SEAL_CHUNK, SEAL_REQUEST, SEAL_RESPONSE, SEALING, WORD_LIMIT  # noqa: E402
from stream_calls import Calls, between, flipped, front_of, full_pool, pattern, piece  # noqa: E402
from stream_calls import receiver, request, response, salt_of, sender, subkey_of  # noqa: E402
from stream_calls import slot_start, text_of  # noqa: E402
from streams import EMPTY, ENDED, KEYS, MAX_CHUNK, MORE, POOL_WORDS, SALT_LENGTHS  # noqa: E402
from streams import LENGTH_NEXT, PAYLOAD_NEXT, SALTS, VARIABLE_NEXT, new_pool  # noqa: E402
from vectors import BUFFER_LIMIT, STREAMS  # noqa: E402


# Whole streams.


def receive(calls, slot, data):
    """Opens what is behind a head, all bytes lent each time, up to the end."""
    while True:
        given = calls.run(OPEN_CHUNK, None if not data else 0, slot=slot, data=data)
        if given.number:
            return
        data = data[given.count :]


def send(calls, slot, data, lengths):
    """The bytes of a stream: its head, and chunks of these lengths."""
    for length in lengths:
        data += calls.sealed(SEAL_CHUNK, slot=slot, data=pattern(length))
    return data


def exchange(calls, number, address, padding, lengths):
    """A stream in each direction."""
    method = calls.method
    ours, theirs = salt_of(method, number), salt_of(method, f"response {number}")
    first = {"data": pattern(lengths[0]), "clock": 1_000 + number}
    head = calls.sealed(SEAL_REQUEST, salt=ours, other=address, padding=padding, **first)
    data = send(calls, 0, head, lengths[1:])
    receive(calls, 1, data[calls.open_head(slot=1, data=data, clock=1_009) :])
    if lengths[0] == 0:  # a request may begin with padding alone, a response may not
        calls.run(SEAL_RESPONSE, EMPTY, slot=2, salt=theirs, other=ours, **first)
        first["data"] = pattern(1)
    head = calls.sealed(SEAL_RESPONSE, slot=2, salt=theirs, other=ours, **first)
    data = send(calls, 2, head, lengths[1:])
    given = calls.run(OPEN_RESPONSE, slot=3, salt=ours, data=data)
    receive(calls, 3, data[given.count :])


LENGTHS = ((0, 1, 16), (5, 1, 17), (1, 40, 2), (33, 15, 1), (16, 2, 31), (0, 1, 1), (64, 3, 255))


def whole_groups():
    for name, method in METHODS.items():
        calls = Calls(method)
        paddings = itertools.cycle((1, 0, 900, 0, 17))
        for number, (address, lengths) in enumerate(zip(ADDRESSES, LENGTHS)):
            padding = next(paddings) or int(lengths[0] == 0)
            exchange(calls, number, address, padding, lengths)
        yield f"{name}, whole streams", calls

    calls = Calls(2)
    exchange(calls, 0, LONG, 900, (1_000, 1_500, 2, 1, 1_400))
    yield "longer chunks", calls

    calls = Calls()
    for length in range(70):
        method = 1 + length % 5
        calls.begin(s0=sender(method), s1=receiver(method))
        data = calls.sealed(SEAL_CHUNK, answer=0 if length else EMPTY, data=pattern(length))
        receive(calls, 1, data)
    yield "payload lengths", calls


def head_groups():
    for name, method in beside("ChaCha12").items():
        calls = Calls(method)
        for number, (address, padding) in enumerate(itertools.product(ADDRESSES, (0, 1, 900))):
            said = {"salt": salt_of(method, number), "other": address, "padding": padding}
            payload = pattern(number % 5 or int(padding == 0))
            data = calls.sealed(SEAL_REQUEST, data=payload, **said)
            calls.open_head(data=data + JUNK[:number], slot=1)
        for clock in (0, 1, 255, 2**32, 2**63, LAST):
            said = {"salt": salt_of(method, f"at {clock}"), "clock": clock}
            data = calls.sealed(SEAL_REQUEST, **said)
            calls.open_head(data=data, clock=clock)
            data = calls.sealed(SEAL_RESPONSE, **said)
            bound = salt_of(method, "of the request")
            calls.run(OPEN_RESPONSE, data=data, clock=clock, salt=bound)
        same = salt_of(method)  # a response may have its request's salt
        data = calls.sealed(SEAL_RESPONSE, salt=same, other=same)
        calls.run(OPEN_RESPONSE, data=data, salt=same)
        yield f"{name}, heads", calls


# Bytes that are not there yet.


def cut_fronts(calls, data, answer):
    """The front cut at each place; from its whole length on it is answered so."""
    front = front_of(calls.method, 0)
    for cut in range(front):
        calls.run(OPEN_REQUEST, MORE, data=data, cut=cut, count=front)
    for cut in (front, front + 1, len(data), len(data) + 1):
        calls.run(OPEN_REQUEST, answer, data=data, cut=cut)


def cut_request_groups():
    for name, method in beside("ChaCha20").items():
        data, front = request(method, payload=b"abc"), front_of(method, 0)
        behind, calls = data[front:], Calls(method)
        for cut in range(front):
            calls.run(OPEN_REQUEST, MORE, data=data, cut=cut, count=front)
        calls.run(OPEN_REQUEST, 0, data=data, cut=front, count=front)
        for cut in range(len(behind)):
            calls.run(OPEN_VARIABLE, MORE, data=behind, cut=cut, count=len(behind))
        calls.run(OPEN_VARIABLE, 0, data=behind, count=len(behind))
        cut_fronts(calls, data, REPLAY)
        calls.begin(full_pool(method))
        cut_fronts(calls, data, FULL)
        later = {"data": request(method, payload=b"abc", time=1_061), "clock": 1_061}
        for cut in (0, front - 1):
            calls.run(OPEN_REQUEST, MORE, cut=cut, **later)
        calls.open_head(MORE, cut=len(data) - 1, **later)
        calls.run(OPEN_VARIABLE, 0, data=later["data"][front:])
        yield f"{name}, requests cut short", calls


def cut_steps(calls, data, length):
    """A piece of this length is opened once it is whole."""
    for cut in range(length):
        calls.run(OPEN_CHUNK, MORE, data=data, cut=cut, count=length)
    calls.run(OPEN_CHUNK, 0, data=data, count=length)


def cut_response_groups():
    for name, method in beside("ChaCha8").items():
        front, data = front_of(method, 1), response(method, payload=b"abcde")
        calls = Calls(method)
        for cut in range(front):
            calls.run(OPEN_RESPONSE, MORE, data=data, cut=cut, count=front)
        calls.run(OPEN_RESPONSE, 0, data=data, cut=front, count=front)
        cut_steps(calls, data[front:], 21)
        texts = (b"\0\3", b"xyz", b"\0\1", b"w", b"\0\0")
        pieces = [piece(method, text, at, "of a response") for at, text in enumerate(texts, 2)]
        for number, sealed in enumerate(pieces[:-1]):
            cut_steps(calls, b"".join(pieces[number:]), len(sealed))
        for cut in range(18):
            calls.run(OPEN_CHUNK, MORE, data=pieces[-1], cut=cut, count=18)
        calls.run(OPEN_CHUNK, EMPTY, data=pieces[-1])
        calls.run(OPEN_CHUNK, NOT_AUTHENTIC, data=pieces[-1])
        yield f"{name}, responses and steps cut short", calls


def wanted_group():
    """Lengths that are said, with few bytes or none behind them."""
    calls = Calls()
    for method in beside("ChaCha12").values():
        for length in (0, 1, 255, 256, 65_534, MAX_CHUNK):
            calls.begin(new_pool(method), s1=receiver(method, length))
            data = request(method, text=b"", length=length)[:-16]
            calls.run(OPEN_REQUEST, 0, method=method, data=data, count=len(data))
            for cut in (0, 15, length + 15):
                call = {"data": b"", "cut": cut, "room": 0}
                calls.run(OPEN_VARIABLE, MORE, count=length + 16, **call)
                call |= {"count": length + 16} if length else {}
                calls.run(OPEN_CHUNK, MORE if length else SETTINGS, slot=1, **call)
    return "numbers wanted", calls


# Refused by what a head says.

KINDS = (0, 1, 2, 3, 127, 128, 254, 255)
TIMES = [(1_000, time) for time in (0, 969, 970, 1_000, 1_030, 1_031, 2**63, LAST)]
TIMES += [(0, time) for time in (0, 30, 31, LAST, LAST - 29)]
TIMES += [(29, time) for time in (0, 59, 60, LAST, LAST - 1)]
TIMES += [(LAST, time) for time in (LAST, LAST - 30, LAST - 31, 0, 29, 30)]
TIMES += [(LAST - 30, LAST), (LAST - 31, LAST), (2**63, 2**63 - 30), (2**63, 2**63 - 31)]


def type_groups():
    for name, method in METHODS.items():
        calls = Calls(method)
        for kind in KINDS:
            data = request(method, salt_of(method, kind), kind=kind)
            calls.run(OPEN_REQUEST, TYPE if kind != 0 else 0, data=data)
            data = response(method, kind=kind)
            calls.run(OPEN_RESPONSE, TYPE if kind != 1 else 0, data=data, slot=1)
        mirrored = response(method, payload=bytes(60)), request(method, payload=bytes(60))
        calls.run(OPEN_REQUEST, NOT_AUTHENTIC, data=mirrored[0])
        calls.run(OPEN_RESPONSE, NOT_AUTHENTIC, data=mirrored[1])
        yield f"{name}, types", calls


def time_groups():
    for name, method in beside("ChaCha8").items():
        calls = Calls(method)
        for number, (clock, time) in enumerate(TIMES):
            answer = 0 if abs(clock - time) <= 30 else TIME
            data = request(method, salt_of(method, number), time=time)
            calls.run(OPEN_REQUEST, answer, data=data, clock=clock)
            data = response(method, time=time)
            calls.run(OPEN_RESPONSE, answer, data=data, clock=clock, slot=1)
        yield f"{name}, times", calls


def binding_groups():
    for name, method in beside("ChaCha20").items():
        calls = Calls(method, pool=False)
        salt = salt_of(method)
        for place in range(len(salt)):
            data = response(method, bound=flipped(salt, (place, 1 << place % 8)))
            calls.run(OPEN_RESPONSE, BINDING, data=data)
        for bound in (bytes(len(salt)), salt_of(method, "of a response")):
            data = response(method, bound=bound)
            calls.run(OPEN_RESPONSE, BINDING, data=data)
            calls.run(OPEN_RESPONSE, 0, data=data, salt=bound)
        yield f"{name}, request salts", calls


BAD_KINDS = (0, 2, *range(5, 12), 127, 128, 129, 131, 132, 254, 255)
BAD_ADDRESSES = [b"", b"\1", b"\3", b"\4", b"\3\0", b"\3\0\0\x50", b"\3\0\0\x50\0\1\0", b"\3\xff"]


def malformed_texts():
    """Variable chunks with a broken rule of address or padding."""
    yield from BAD_ADDRESSES
    for address in ADDRESSES:
        yield address[:-1]
        for behind in (b"", b"\0", b"\1", b"\0\0", b"\0\1", b"\3\x84"):
            yield address + behind
    for kind in BAD_KINDS:
        yield bytes([kind]) + V6[1:] + b"\0\1\0"
    for padding in (901, 902, 1_000, 4_096):
        yield text_of(padding=padding)
    for said in (2, 255, 256, 900, 901, 65_535):
        yield text_of(padding=1, payload=b"", said=said)
    yield text_of(padding=898, said=900)  # padding and payload are one byte too few
    yield text_of(padding=900, payload=b"", said=901)
    yield text_of(said=256)


def malformed_groups():
    for name, method in beside("ChaCha12").items():
        calls = Calls(method)
        for number, text in enumerate(malformed_texts()):
            room = len(text) + (0, 1, BEHIND)[number % 3]
            data = request(method, salt_of(method, f"malformed {number}"), text=text)
            calls.open_head(MALFORMED, data=data, room=room)
            calls.run(OPEN_VARIABLE, NOT_AUTHENTIC, data=data[front_of(method, 0) :])
        good = [text_of(padding=900), text_of(padding=900, payload=b""), text_of()]
        good += [text_of(padding=1, payload=b""), text_of(payload=bytes(900), said=900)]
        good += [text_of(payload=NAME + NAME), text_of(padding=5, payload=NAME)]
        good += [text_of(payload=b"\1" + NAME, said=1), text_of(padding=899, payload=b"", said=0)]
        for number, text in enumerate(good):
            calls.open_head(data=request(method, salt_of(method, number), text=text))
        yield f"{name}, malformed", calls


# Damaged and ended.


def forged_head_groups():
    for (name, method), mask in zip(METHODS.items(), (1, 128, 2, 16, 64)):
        calls = Calls(method)
        another = bytes(len(KEYS[method]))
        data, other = (request(method, payload=payload) for payload in (b"abc", b"abd"))
        front = front_of(method, 0)
        for place in range(front):
            calls.run(OPEN_REQUEST, NOT_AUTHENTIC, data=data, flip=(place, mask))
        calls.run(OPEN_REQUEST, NOT_AUTHENTIC, data=data, key=another)
        calls.run(OPEN_REQUEST, 0, data=data, flip=(front, mask))
        behind = data[front:]
        forged = [flipped(behind, (place, mask)) for place in range(len(behind))]
        for each in (*forged, behind[:-16] + other[-16:]):
            calls.begin(s0=between(method, len(behind) - 16))
            calls.run(OPEN_VARIABLE, NOT_AUTHENTIC, data=each)
            calls.run(OPEN_VARIABLE, NOT_AUTHENTIC, data=behind)  # too late
        calls.begin(s0=between(method, len(behind) - 16))
        calls.run(OPEN_VARIABLE, 0, data=behind + b"\0", flip=(len(behind), mask))
        data, front = response(method), front_of(method, 1)
        for place in range(front):
            calls.run(OPEN_RESPONSE, NOT_AUTHENTIC, data=data, flip=(place, mask))
        calls.run(OPEN_RESPONSE, NOT_AUTHENTIC, data=data, key=another)
        calls.run(OPEN_RESPONSE, 0, data=data, flip=(front, mask))
        yield f"{name}, forged heads", calls


def forged_chunk_groups():
    """A length and a payload, damaged at each place. The good ones then come too late."""
    for (name, method), mask in zip(METHODS.items(), (64, 2, 128, 1, 8)):
        calls = Calls(method, pool=False)
        pieces = piece(method, b"\0\3", 8), piece(method, b"xyz", 9)
        for place in range(19):
            calls.begin(s0=receiver(method, None, 8), s1=receiver(method, 3, 9))
            for slot, data in enumerate(pieces):
                damaged = place < len(data)
                call = {"data": data + b"\0", "slot": slot}
                number = NOT_AUTHENTIC if damaged else 0
                calls.run(OPEN_CHUNK, number, flip=(place, mask), **call)
                calls.run(OPEN_CHUNK, None, **call)
                calls.run(OPEN_CHUNK, NOT_AUTHENTIC if damaged else None, data=b"", slot=slot)
        calls.begin(s0=receiver(method, None, 8), s1=receiver(method, None, 9))
        calls.run(OPEN_CHUNK, NOT_AUTHENTIC, data=pieces[1])
        calls.run(OPEN_CHUNK, NOT_AUTHENTIC, data=pieces[0], slot=1)  # one counter too late
        yield f"{name}, forged chunks", calls


def other_method_group():
    """Heads and chunks by another method whose keys are as long: they are not authentic."""
    calls = Calls()
    methods = [method for method in METHODS.values() if SALT_LENGTHS[method] == 32]
    for ours, theirs in itertools.product(methods, methods):
        answer = 0 if ours == theirs else NOT_AUTHENTIC
        calls.begin(new_pool(theirs), s1=receiver(theirs), s2=receiver(theirs, 3))
        calls.run(OPEN_REQUEST, answer, method=theirs, data=request(ours))
        calls.run(OPEN_CHUNK, answer, slot=1, data=piece(ours, b"\0\3"))
        calls.run(OPEN_CHUNK, answer, slot=2, data=piece(ours, b"abc"))
        calls.run(OPEN_RESPONSE, answer, method=theirs, slot=3, data=response(ours))
    return "other methods' heads and chunks", calls


def ended_group():
    calls = Calls(pool=False)
    good = piece(1, b"\0\3")
    for counter in (0, 2, LAST - 1, LAST):
        for method in (1, 2, 3, 4, 5, 0, 6, 2**32 + 1, LAST):
            ended = (ENDED, method, counter, 5, *subkey_of(1))
            words = [0] * STREAMS + list(ended)
            answer = NOT_AUTHENTIC if method in METHODS.values() else SETTINGS
            calls.begin(words)
            for data, kind in itertools.product((b"", good, good + JUNK), (OPEN_CHUNK, OPEN_VARIABLE)):
                calls.run(kind, answer, data=data, room=0)
                calls.run(kind, answer, data=data)
    return "ended", calls


def turn_group():
    """Each call at the turn of another, and the second call's turn with another counter."""
    calls = Calls(pool=False)
    for method in METHODS.values():
        text = text_of()
        length, good = len(text), piece(method, text, 1)
        for turn, counter in itertools.product((LENGTH_NEXT, PAYLOAD_NEXT), (1, 2, LAST)):
            calls.begin(s0=between(method, length, counter)._replace(turn=turn))
            for data in (b"", good):
                calls.run(OPEN_VARIABLE, SETTINGS, data=data)
        for counter in (0, 2, 3, 2**32 + 1, LAST - 1, LAST):
            calls.begin(s0=between(method, length, counter))
            for data in (b"", piece(method, text, counter), good):
                calls.run(OPEN_VARIABLE, SETTINGS, data=data)
                calls.run(OPEN_CHUNK, SETTINGS, data=data)
        calls.begin(s0=between(method, length))
        for data in (b"", good, piece(method, b"\0\5", 1)):
            calls.run(OPEN_CHUNK, SETTINGS, data=data, room=0)
        calls.run(OPEN_VARIABLE, 0, data=good, room=length)
        calls.run(OPEN_VARIABLE, SETTINGS, data=good)
        calls.run(OPEN_CHUNK, 0, data=piece(method, b"\0\5"))
    return "turns", calls


# Counters.

GOOD_COUNTERS = (0, 1, 2, 255, 256, 257, 258, 65_535, 2**32 - 1, 2**32, 2**40 + 7, 2**63)


def counter_groups():
    for name, method in METHODS.items():
        calls = Calls(method, pool=False)
        for counter in (*GOOD_COUNTERS, LAST - 3, LAST - 2, LAST - 1, LAST):
            calls.begin(s0=sender(method, counter), s1=receiver(method, None, counter))
            answer = COUNTER if counter > LAST - 2 else 0
            data = calls.sealed(SEAL_CHUNK, answer=answer, data=b"abc")
            if data:
                calls.run(SEAL_CHUNK, None, data=b"d")
                receive(calls, 1, data)
        for text, length in ((b"\0\5", None), (b"abc", 3)):
            calls.begin(s0=receiver(method, length, LAST - 1), s1=receiver(method, length, LAST))
            for slot, answer in ((0, 0), (1, COUNTER), (0, COUNTER)):
                data = piece(method, text, LAST - 1)
                calls.run(OPEN_CHUNK, answer, data=data, slot=slot)
                calls.run(OPEN_CHUNK, COUNTER, data=b"", slot=slot, room=0)
        yield f"{name}, counters", calls


def state_group():
    """States that a host made: other methods, and words behind a subkey of 16 bytes."""
    calls = Calls(pool=False)
    for method in ODD_METHODS:
        odd = {"method": method}
        states = {"s0": sender(1)._replace(**odd), "s1": receiver(1)._replace(**odd)}
        states |= {"s2": receiver(1, 3)._replace(**odd), "s3": between(1, 3)._replace(**odd)}
        calls.begin(**states)
        for data in (b"", JUNK):
            calls.run(SEAL_CHUNK, SETTINGS, data=data)
            calls.run(OPEN_CHUNK, SETTINGS, data=data, slot=1)
            calls.run(OPEN_CHUNK, SETTINGS, data=data, slot=2)
            calls.run(OPEN_VARIABLE, SETTINGS, data=data, slot=3)
    junk = (*subkey_of(1)[:2], 7, LAST)
    calls.begin(s0=sender(1)._replace(subkey=junk), s1=receiver(1)._replace(subkey=junk))
    receive(calls, 1, calls.sealed(SEAL_CHUNK, data=b"abc"))
    for method in (2, 3, 4, 5):
        state = {"s0": sender(method), "s1": receiver(method)}
        calls.begin(**{slot: each._replace(subkey=junk) for slot, each in state.items()})
        receive(calls, 1, calls.sealed(SEAL_CHUNK, data=b"abc"))
    return "states of a host", calls


# Settings.

ODD_METHODS = (0, 6, 257, 259, 2**32 + 1, 2**32 + 2, 2**32 + 3, LAST)
ODD_LENGTHS = (0, 1, 15, 16, 17, 24, 31, 32, 33, 255)


def string(length):
    return bytes(range(length))


def settings_groups():
    calls = Calls()
    for method, kind in itertools.product(ODD_METHODS, (0, 1, OPEN_REQUEST, OPEN_RESPONSE)):
        for length in (16, 32):
            odd = {"key": string(length), "salt": string(length)}
            if kind == SEAL_RESPONSE:
                odd["other"] = string(length)
            if kind == OPEN_REQUEST:
                calls.begin((method, *new_pool(1)[1:]))
            calls.run(kind, SETTINGS, method=method, data=JUNK * 2, **odd)
    yield "methods", calls

    calls = Calls()
    for method in METHODS.values():
        calls.make(method)
        names = {SEAL_REQUEST: ("key", "salt"), SEAL_RESPONSE: ("key", "salt", "other")}
        names |= {OPEN_REQUEST: ("key",), OPEN_RESPONSE: ("key", "salt")}
        for kind, name in ((kind, name) for kind in names for name in names[kind]):
            for length in ODD_LENGTHS:
                if length != SALT_LENGTHS[method]:
                    odd = {name: string(length), "method": method}
                    data = request(method) if kind == OPEN_REQUEST else response(method)
                    calls.run(kind, SETTINGS, data=data, **odd)
    yield "lengths of keys and salts", calls

    calls = Calls()
    for method in METHODS.values():
        calls.make(method)
        another = method % 5 + 1
        data, other = request(method), request(another)
        for lent in (0, 1, 16, 1_536, 1_538):
            calls.run(OPEN_REQUEST, SETTINGS, method=method, data=data, lent=lent)
        calls.run(OPEN_REQUEST, SETTINGS, method=another, data=other)
        for first in (0, 6, another, 2**32 + method, LAST):
            calls.begin((first, *new_pool(method)[1:]))
            calls.run(OPEN_REQUEST, SETTINGS, method=method, data=data)
            calls.run(OPEN_REQUEST, SETTINGS, method=method, data=b"")
        calls.begin((*new_pool(method), LAST))
        calls.run(OPEN_REQUEST, 0, method=method, data=data)
    yield "pools of another length or method", calls


# Sealing refused.

PADDINGS = (901, 902, 65_535, 65_536, 2**32, 2**63, LAST - 7, LAST)


def argument_groups():
    calls = Calls()
    addresses = [bytes([kind]) + V6[1:] for kind in range(256) if kind not in (1, 3, 4)]
    addresses += BAD_ADDRESSES + [a[:-1] for a in ADDRESSES] + [a + b"\0" for a in ADDRESSES]
    for number, address in enumerate(addresses):
        calls.run(SEAL_REQUEST, ARGUMENT, method=1 + number % 5, other=address)
    yield "addresses that are not sealed", calls

    calls = Calls()
    for method in beside("ChaCha20").values():
        for padding, data in itertools.product(PADDINGS, (b"", b"x")):
            calls.run(SEAL_REQUEST, ARGUMENT, method=method, padding=padding, data=data)
        calls.run(SEAL_REQUEST, ARGUMENT, method=method, padding=0, data=b"")
        for padding, data in ((0, b"x"), (1, b""), (900, b""), (900, b"x")):
            calls.run(SEAL_REQUEST, 0, method=method, padding=padding, data=data)
    yield "paddings", calls


def size_group():
    """The payload of refused calls is not stored: it is the pattern."""
    calls = Calls()
    for method in beside("ChaCha8").values():
        calls.begin(s0=sender(method))
        for address, padding in ((NAME, 0), (LONG, 900), (V6, 1)):
            most = MAX_CHUNK - len(address) - 2 - padding
            for length in (most + 1, MAX_CHUNK, 65_536, BUFFER_LIMIT):
                said = {"other": address, "padding": padding, "data": pattern(length)}
                calls.run(SEAL_REQUEST, LENGTH, method=method, **said)
            said["data"] = pattern(most)
            room = front_of(method, 0) + MAX_CHUNK + 16
            calls.run(SEAL_REQUEST, ROOM, method=method, room=room - 1, **said)
        for length in (65_536, 65_537, BUFFER_LIMIT):
            for kind in (SEAL_RESPONSE, SEAL_CHUNK):
                calls.run(kind, LENGTH, method=method, data=pattern(length))
                calls.run(kind, LENGTH, method=method, data=pattern(length), room=0)
        room = front_of(method, 1) + MAX_CHUNK + 16
        longest = {"method": method, "data": pattern(MAX_CHUNK)}
        calls.run(SEAL_RESPONSE, ROOM, room=room - 1, **longest)
        calls.run(SEAL_CHUNK, ROOM, room=18 + MAX_CHUNK + 15, **longest)
    return "too long", calls


def room_groups():
    calls = Calls()
    for method in METHODS.values():
        for number, kind in itertools.product((1, 2, 40), SEALING):
            calls.begin(s0=sender(method))
            call = {"method": method, "data": pattern(number), "padding": 1 + number}
            due = len(calls.sealed(kind, **call))
            calls.begin(s0=sender(method))
            for room in (0, 16, due - 17, due - 16, due - 1):
                calls.run(kind, ROOM, room=room, **call)
            calls.run(kind, 0, room=due, **call)
    yield "room for sealing", calls

    calls = Calls()
    for method in METHODS.values():
        calls.make(method)
        data, due = request(method, payload=b"abcd"), len(text_of(payload=b"abcd"))
        calls.run(OPEN_REQUEST, 0, method=method, data=data)
        for room in (0, 1, due - 1):
            calls.run(OPEN_VARIABLE, ROOM, data=data[front_of(method, 0) :], room=room)
        calls.run(OPEN_VARIABLE, 0, data=data[front_of(method, 0) :], room=due)
        empty = request(method, salt_of(method, 1), text=b"")
        calls.open_head(MALFORMED, method=method, data=empty, room=0)
        pieces = {None: piece(method, b"\0\5"), 1: piece(method, b"a"), 5: piece(method, b"abcde")}
        for length, sealed in pieces.items():
            calls.begin(new_pool(method), s0=receiver(method, length))
            for room in range(length or 0):
                calls.run(OPEN_CHUNK, ROOM, data=sealed, room=room)
            calls.run(OPEN_CHUNK, 0, data=sealed, room=length or 0)
    yield "room for opening", calls


# Several faults at once. Each brings a refusal about, in the order of its call; what a head says
# is sealed with it.

REQUEST_FAULTS = {
    SETTINGS: {"lent": 1_536},
    MORE: {"cut": 42},
    NOT_AUTHENTIC: {"flip": (20, 1)},
    TYPE: {"kind": 1},
    TIME: {"time": 969},
    REPLAY: {"salt": salt_of(1, "kept 255")},
    FULL: {},
}
REQUEST_SAID = ("kind", "time", "salt")
SAID = ("kind", "time", "bound", "payload")


def faulty_request(calls, faults):
    """A request of method 1 with these faults."""
    changes = {}
    for fault in faults:
        changes = REQUEST_FAULTS[fault] | changes
    said = {name: changes.pop(name) for name in REQUEST_SAID if name in changes}
    kept = (1, 1_000, REQUEST_FAULTS[REPLAY]["salt"])
    calls.begin(full_pool(1, r255=kept) if FULL in faults else new_pool(1, kept))
    calls.run(OPEN_REQUEST, faults[0] if faults else 0, data=request(1, **said), **changes)


RESPONSE_FAULTS = {
    SETTINGS: {"salt": string(17)},
    MORE: {"cut": 58},
    NOT_AUTHENTIC: {"flip": (20, 1)},
    TYPE: {"kind": 0},
    TIME: {"time": 1_031},
    BINDING: {"bound": string(16)},
    EMPTY: {"payload": b""},
}


def order_groups():
    calls = Calls(pool=False)
    order = list(REQUEST_FAULTS)
    for count in range(len(order) + 1):
        for faults in itertools.combinations(order, count):
            faulty_request(calls, faults)
    yield "several faults of a request", calls

    calls = Calls(pool=False)
    for count in range(len(RESPONSE_FAULTS) + 1):
        for faults in itertools.combinations(RESPONSE_FAULTS, count):
            changes = {}
            for fault in faults:
                changes |= RESPONSE_FAULTS[fault]
            said = {name: changes.pop(name) for name in SAID if name in changes}
            answer = faults[0] if faults else 0
            calls.run(OPEN_RESPONSE, answer, data=response(1, **said), **changes)
    yield "several faults of a response", calls


STEP_FAULTS = {
    SETTINGS: {"method": 6},
    "ended": {"turn": ENDED},
    COUNTER: {"counter": LAST},
    MORE: {"cut": 18},
    ROOM: {"room": 2},
    NOT_AUTHENTIC: {"flip": (1, 1)},
}
STATE = ("method", "turn", "counter")
LENGTH_FAULTS = STEP_FAULTS | {MORE: {"cut": 17}, EMPTY: {}}
del LENGTH_FAULTS[ROOM]  # a length asks for none
VARIABLE_FAULTS = STEP_FAULTS | {MORE: {"cut": 23}, ROOM: {"room": 7}, MALFORMED: {}}
del VARIABLE_FAULTS[COUNTER]  # its counter is 1


def step_order_group(name, possible, good, text_with, kind=OPEN_CHUNK):
    """Each choice of the possible faults, in a stream that is else the good one."""
    calls = Calls(pool=False)
    for count in range(len(possible) + 1):
        for faults in itertools.combinations(possible, count):
            changes = {}
            for fault in faults:
                changes |= possible[fault]
            odd = {name: changes.pop(name) for name in STATE if name in changes}
            state = good._replace(**odd)
            words = (state.turn, state.method, state.counter, state.length, *state.subkey)
            calls.begin([0] * STREAMS + list(words))
            answer = (NOT_AUTHENTIC if faults[0] == "ended" else faults[0]) if faults else 0
            sealed, right = (piece(1, text_with(each), good.counter) for each in (faults, ()))
            calls.run(kind, answer, data=sealed, **changes)
            if answer in (NOT_AUTHENTIC, MALFORMED, EMPTY):
                calls.run(kind, NOT_AUTHENTIC, data=right)
    return name, calls


def step_order_groups():
    yield step_order_group(
        "several faults of a step", STEP_FAULTS, receiver(1, 3), lambda faults: b"abc"
    )
    yield step_order_group(
        "several faults of a length",
        LENGTH_FAULTS,
        receiver(1),
        lambda faults: b"\0\0" if EMPTY in faults else b"\0\1",
    )
    yield step_order_group(
        "several faults of a variable chunk",
        VARIABLE_FAULTS,
        between(1, 8),
        lambda faults: text_of(said=2 if MALFORMED in faults else 0),
        OPEN_VARIABLE,
    )


# By kind of call, in the order of sealing. A head has no counter to run out.
SEALING_FAULTS = {
    SETTINGS: ({"salt": string(15)}, {"other": string(17)}, {"method": 6}),
    ARGUMENT: ({"other": NAME[:-1], "padding": 901}, None, None),
    EMPTY: (None, {"data": b""}, {"data": b""}),
    COUNTER: (None, None, {"counter": LAST - 1}),
    LENGTH: ({"data": pattern(65_536)}, {"data": pattern(65_536)}, {"data": pattern(65_536)}),
    ROOM: ({"room": 20}, {"room": 20}, {"room": 20}),
}


def sealing_order_group():
    calls = Calls(pool=False)
    for kind in SEALING:
        order = [number for number in SEALING_FAULTS if SEALING_FAULTS[number][kind]]
        for count in range(len(order) + 1):
            for faults in itertools.combinations(order, count):
                if {EMPTY, LENGTH} <= {*faults}:
                    continue  # no payload is both
                changes = {}
                for fault in faults:
                    changes |= SEALING_FAULTS[fault][kind]
                if kind == SEAL_CHUNK:
                    odd = {name: changes.pop(name) for name in STATE if name in changes}
                    calls.begin(s0=sender(1)._replace(**odd))
                calls.run(kind, faults[0] if faults else 0, **changes)
    return "several faults of sealing", calls


# The pool.


def kept_groups():
    for name, method in beside("ChaCha20").items():
        calls = Calls(method)
        calls.run(OPEN_REQUEST, 0, data=request(method))
        for clock in (1_000, 1_001, 1_030, 999, 970):
            calls.run(OPEN_REQUEST, REPLAY, data=request(method), clock=clock)
        for clock, answer in (
            *((1_059, REPLAY), (1_060, REPLAY), (0, REPLAY), (500, REPLAY), (1_061, 0)),
            *((1_061, REPLAY), (1_121, REPLAY), (1_122, 0), (9_999, 0), (1, REPLAY), (LAST, 0)),
            *((0, REPLAY), (LAST - 61, REPLAY)),
        ):
            data = request(method, time=clock)
            calls.run(OPEN_REQUEST, answer, data=data, clock=clock)
        yield f"{name}, salts kept", calls

    calls = Calls()
    times = (0, 939, 940, 1_000, 2**63, LAST - 60, LAST)
    for time, clock in itertools.product(times, (1_000, LAST)):
        for method in beside("ChaCha8").values():
            salt = salt_of(method)
            calls.begin(new_pool(method, (1, time, salt)))
            data = request(method, time=clock)
            answer = REPLAY if clock <= time + 60 else 0
            calls.run(OPEN_REQUEST, answer, method=method, data=data, clock=clock)
    yield "times of salts", calls

    calls = Calls(1)
    early = request(1, time=1_030)  # its own time does not count for the pool
    calls.run(OPEN_REQUEST, 0, data=early)
    calls.run(OPEN_REQUEST, REPLAY, data=early, clock=1_060)
    calls.run(OPEN_REQUEST, TIME, data=early, clock=1_061)
    late = request(1, salt_of(1, 1), time=970)
    calls.run(OPEN_REQUEST, 0, data=late)
    calls.run(OPEN_REQUEST, REPLAY, data=request(1, salt_of(1, 1), time=1_059), clock=1_060)
    yield "stored with the clock", calls


def stored_group():
    """A front that is refused stores nothing, so that the good one is taken later. The salt of an
    accepted one stays, whatever the second call answers, and 10 and 3 leave that to be made
    again."""
    calls = Calls()
    for method in beside("ChaCha12").values():
        calls.make(method)
        data, front = request(method), front_of(method, 0)
        each = {"method": method, "data": data}
        calls.run(OPEN_REQUEST, MORE, cut=front - 1, **each)
        calls.run(OPEN_REQUEST, NOT_AUTHENTIC, flip=(front - 1, 1), **each)
        calls.run(OPEN_REQUEST, TYPE, method=method, data=request(method, kind=1))
        calls.run(OPEN_REQUEST, TIME, clock=1_031, **each)
        calls.open_head(**each)
        calls.run(OPEN_REQUEST, REPLAY, **each)
        for answer, fault in (
            (MORE, {"cut": len(data) - 1}),
            (ROOM, {"room": 7}),
            (NOT_AUTHENTIC, {"flip": (front, 1)}),
            (MALFORMED, {"said": 2}),
        ):
            said = {name: fault.pop(name) for name in ("said",) if name in fault}
            bad = request(method, salt_of(method, f"bad {answer}"), **said)
            calls.open_head(answer, method=method, data=bad, **fault)
            again = {"method": method, "data": bad}
            calls.run(OPEN_REQUEST, REPLAY, slot=1, **again)
            calls.run(OPEN_REQUEST, REPLAY, slot=1, clock=1_030, **again)
            kept = request(method, salt_of(method, f"bad {answer}"), time=1_060)
            calls.run(OPEN_REQUEST, REPLAY, slot=1, method=method, data=kept, clock=1_060)
            good = 0 if answer in (MORE, ROOM) else NOT_AUTHENTIC
            calls.run(OPEN_VARIABLE, good, data=bad[front:])
            late = request(method, salt_of(method, f"bad {answer}"), time=1_061)
            calls.run(OPEN_REQUEST, 0, slot=1, method=method, data=late, clock=1_061)
    return "salts stored by the first call", calls


def full_groups():
    calls = Calls(1)
    for number in range(SALTS):
        clock = 1_000 + number // 64
        data = request(1, salt_of(1, f"kept {number}"), time=1_009)
        calls.run(OPEN_REQUEST, 0, data=data, clock=clock)
    for salt, answer in (("new", FULL), ("kept 0", REPLAY), ("kept 255", REPLAY)):
        data = request(1, salt_of(1, salt))
        calls.run(OPEN_REQUEST, answer, data=data, clock=1_003)
    for salt, clock, answer in (
        *(("new", 1_060, FULL), ("new", 1_061, 0), ("newer", 1_061, 0), ("kept 1", 1_061, 0)),
        *(("kept 64", 1_061, REPLAY), ("kept 64", 1_062, 0), ("new", 1_062, REPLAY)),
    ):
        data = request(1, salt_of(1, salt), time=clock)
        calls.run(OPEN_REQUEST, answer, data=data, clock=clock)
    yield "full, from a new pool", calls

    calls = Calls()
    for dead in ((), (255,), (0,), (5, 40), (8, 10, 255)):
        for method in beside("ChaCha20").values():
            gone = {f"r{place}": (1, 939, salt_of(method, "gone")) for place in dead}
            known = {"r9": (1, 940, salt_of(method, "known"))}
            calls.begin(full_pool(method, **gone, **known))
            for salt in ("known", "gone", "new", "newer", "gone"):
                data = request(method, salt_of(method, salt))
                calls.run(OPEN_REQUEST, None, method=method, data=data)
    yield "full, from words", calls


def odd_groups():
    calls = Calls()
    for method in beside("ChaCha12").values():
        salt, other = salt_of(method), salt_of(method, "other")
        each = {"method": method, "data": request(method)}
        for used in (0, 1, 2, 7, 2**32, 2**63, LAST):
            records = ((1, 1_000, other), (used, 1_000, salt), (0, LAST, salt))
            calls.begin(new_pool(method, *records))
            calls.run(OPEN_REQUEST, REPLAY if used else 0, **each)
            calls.run(OPEN_REQUEST, REPLAY, **each)
        calls.begin(new_pool(method, (1, 900, salt), *[(1, 1_000, other)] * 254, (9, 940, salt)))
        calls.run(OPEN_REQUEST, REPLAY, **each)  # kept in the last record only
        calls.begin(new_pool(method, *[(1, 1_000, other)] * 255, (1, 939, salt)))
        calls.run(OPEN_REQUEST, 0, **each)
        calls.begin(new_pool(method, *[(LAST, 0, other)] * 9))
        calls.run(OPEN_REQUEST, 0, **each)
    yield "odd words in use", calls

    calls = Calls()
    for method in beside("ChaCha8").values():
        salt = salt_of(method)
        for place in range(0, 32, 4):
            junk = flipped(salt.ljust(32, b"\7"), (place, 32))
            calls.begin(new_pool(method, (1, 1_000, junk), (0, 1_000, junk)))
            answer = REPLAY if method == 1 and place >= 16 else 0
            calls.run(OPEN_REQUEST, answer, method=method, data=request(method))
        calls.begin(new_pool(method, *[(0, 1_000, JUNK[:32])] * 3))
        calls.run(OPEN_REQUEST, 0, method=method, data=request(method))
    yield "words behind a salt", calls


def random_pool(dice, method, salts):
    """Words of no meaning, with some of these salts and about half of the records kept."""
    words = [dice.below(2**64) for _ in range(POOL_WORDS)]
    words[0] = method
    for start in range(1, POOL_WORDS, streams.RECORD_WORDS):
        words[start] = dice.pick((0, 1, 7, words[start], words[start]))
        words[start + 1] = dice.pick((words[start + 1], 2**63 - 60, 2**63 - 61, 0, 2**63 + 9))
        if dice.often(40):
            salt = dice.pick(salts)
            count = len(salt) // 8
            words[start + 2 : start + 2 + count] = streams.words_from(salt)[:count]
    return words


def random_groups():
    for name, method in AES.items():
        dice = Dice(f"pool {name}")
        salts = [salt_of(method, f"random {n}") for n in range(60)]
        calls = Calls(method, pool=False)
        calls.begin(random_pool(dice, method, salts))
        for _ in range(60):
            clock = 2**63 + dice.pick((0, 0, 0, -9, 1, 30))
            data = request(method, dice.pick(salts), time=2**63)
            calls.run(OPEN_REQUEST, None, data=data, clock=clock)
        yield f"{name}, words of no meaning", calls


def making_group():
    calls = Calls(pool=False)
    for method in (*METHODS.values(), *ODD_METHODS):
        answer = 0 if method in METHODS.values() else SETTINGS
        calls.begin((LAST,) * WORD_LIMIT)
        for words in (0, 1, 1_536, 1_538):
            calls.make(method, SETTINGS, words)
        calls.make(method, answer)
        calls.make(2, 0)
        calls.make(method, answer)
    return "making", calls


# Lists of calls by chance.


class Host:
    """Sends and receives on a pool and four streams: two that send, two that receive."""

    def __init__(self, method):
        self.dice, self.method = Dice(f"streams {method}"), method
        self.calls, self.clock, self.heads = Calls(method), 1_000, []
        self.waiting = {2: b"", 3: b""}

    def salt(self):
        return salt_of(self.method, f"list {self.dice.below(1_000)}")

    def payload(self):
        return pattern(self.dice.pick((0, 1, 2, 15, 16, 17, 40)))

    def send_head(self):
        padding = self.dice.pick((0, 0, 1, 30, 901))
        said = {"salt": self.salt(), "other": self.dice.pick(ADDRESSES), "padding": padding}
        given = self.run(SEAL_REQUEST, slot=0, data=self.payload(), **said)
        if given.number == 0:
            self.heads.append(given.output[: given.count])

    def send_chunk(self):
        """Opened only if the head that was accepted last was the last one sealed."""
        given = self.run(SEAL_CHUNK, slot=0, data=self.payload())
        if given.number == 0:
            self.waiting[2] += given.output[: given.count]

    def open_head(self):
        data = self.dice.pick(self.heads[-6:])
        given = self.run(OPEN_REQUEST, slot=2, data=data, **self.damage(data))
        if given.number == 0:
            self.waiting[2] = data[given.count :]

    def step(self):
        data, turn = self.waiting[2], self.calls.words[slot_start(2)]
        kind = OPEN_VARIABLE if turn == VARIABLE_NEXT else OPEN_CHUNK
        kind = OPEN_VARIABLE + OPEN_CHUNK - kind if self.dice.often(20) else kind
        given = self.run(kind, slot=2, data=data, **self.damage(data))
        if given.number == 0:
            self.waiting[2] = data[given.count :]

    def exchange_response(self):
        bound = self.salt()
        said = {"salt": self.salt(), "other": bound, "data": self.payload()}
        given = self.run(SEAL_RESPONSE, slot=1, **said)
        data = given.output[: given.count]
        bound = self.salt() if self.dice.often(20) else bound
        given = self.run(OPEN_RESPONSE, slot=3, data=data, salt=bound, **self.damage(data))
        if given.number == 0:
            self.run(OPEN_CHUNK, slot=3, data=data[given.count :])

    def damage(self, data):
        if data and self.dice.often(8):
            return {"flip": (self.dice.below(len(data)), 1 << self.dice.below(8))}
        if self.dice.often(10):
            return {"cut": self.dice.below(len(data) + 1)}
        return {}

    def run(self, kind, **changes):
        if self.dice.often(10):
            self.clock += self.dice.pick((1, 5, 29, 30, 31, 61))
        if kind not in NO_OUTPUT and self.dice.often(4):
            changes["room"] = self.dice.below(60)
        return self.calls.run(kind, None, clock=self.clock, **changes)

    def play(self, count):
        while not self.heads:
            self.send_head()
        turns = (self.send_head, self.open_head, self.open_head, self.send_chunk, self.step)
        turns += (self.step, self.step, self.exchange_response)
        for _ in range(count):
            self.dice.pick(turns)()
        return self.calls


def list_groups():
    for name, method in METHODS.items():
        yield f"{name}, list", Host(method).play(150)


# The longest chunks, one stored for each file.


def longest_chunk_groups():
    lengths = MAX_CHUNK, MAX_CHUNK - 1, MAX_CHUNK
    for (name, method), length in zip(beside("ChaCha20").items(), lengths):
        calls = Calls(method, pool=False)
        calls.begin(s0=sender(method), s1=receiver(method))
        due = 18 + length + 16
        data = calls.sealed(SEAL_CHUNK, data=pattern(length), room=due)
        calls.run(SEAL_CHUNK, LENGTH, data=pattern(65_536))
        calls.run(OPEN_CHUNK, 0, slot=1, data=data[:18], room=0)
        sealed = data[18:]
        calls.run(OPEN_CHUNK, MORE, slot=1, data=sealed[:-1], room=length)
        calls.run(OPEN_CHUNK, ROOM, slot=1, data=sealed, room=length - 1)
        calls.run(OPEN_CHUNK, 0, slot=1, data=sealed, room=length)
        yield f"{name}, chunk of {length}", calls


def longest_request_group():
    """Places in the plaintext and in the payload have the same pattern: 753 is 3 times 251."""
    calls = Calls(2)
    padding = 753 - len(V6) - 2
    payload = pattern(MAX_CHUNK - 753)
    said = {"other": V6, "padding": padding, "data": payload}
    room = front_of(2, 0) + MAX_CHUNK + 16
    data = calls.sealed(SEAL_REQUEST, room=room, **said)
    front = front_of(2, 0)
    calls.run(OPEN_REQUEST, 0, data=data[:front])
    calls.run(OPEN_VARIABLE, MORE, data=data[front:-1])
    calls.run(OPEN_VARIABLE, ROOM, data=data[front:], room=MAX_CHUNK - 1)
    calls.run(OPEN_VARIABLE, 0, data=data[front:], room=BUFFER_LIMIT)
    calls.run(OPEN_REQUEST, REPLAY, data=data[:front])
    return "256, longest request", calls


def longest_malformed_group():
    """Its last byte of padding is not there; all of it is cleared."""
    calls = Calls(1)
    text = NAME + u16(901) + pattern(MAX_CHUNK)[7:]
    calls.open_head(MALFORMED, data=request(1, text=text), room=BUFFER_LIMIT)
    return "128, longest malformed request", calls


def longest_response_group():
    calls = Calls(1, pool=False)
    room, bound = front_of(1, 1) + MAX_CHUNK + 16, salt_of(1, "of the request")
    data = calls.sealed(SEAL_RESPONSE, data=pattern(MAX_CHUNK), room=room)
    calls.run(OPEN_RESPONSE, 0, data=data, salt=bound, slot=1)
    rest = data[front_of(1, 1) :]
    calls.run(OPEN_CHUNK, 0, data=rest, slot=1)
    return "128, longest response", calls


# The files.


def make_groups():
    """The groups in the program's order."""
    return [
        *whole_groups(),
        *head_groups(),
        *cut_request_groups(),
        *cut_response_groups(),
        wanted_group(),
        *type_groups(),
        *time_groups(),
        *binding_groups(),
        *malformed_groups(),
        *forged_head_groups(),
        *counter_groups(),
        state_group(),
        ended_group(),
        turn_group(),
        *forged_chunk_groups(),
        other_method_group(),
        *settings_groups(),
        *argument_groups(),
        size_group(),
        *room_groups(),
        *order_groups(),
        *step_order_groups(),
        sealing_order_group(),
        *kept_groups(),
        stored_group(),
        *odd_groups(),
        *random_groups(),
        making_group(),
        *full_groups(),
        *list_groups(),
        *longest_chunk_groups(),
        longest_request_group(),
        longest_malformed_group(),
        longest_response_group(),
    ]
