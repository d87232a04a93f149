"""Calls of the 2017 edition: both editions' methods and streams in each other's functions, states that
a host made, and sequences by dice."""

from __future__ import annotations

import itertools
import random
import sys
from collections.abc import Iterator

sys.dont_write_bytecode = True  # no __pycache__ in the tree
from library import ROOT, Value  # noqa: E402

sys.path.insert(0, str(ROOT / "reference"))
import relay  # noqa: E402
import sip004  # noqa: E402
import streams  # noqa: E402
from datagram import MAX_LENGTH, NAME, u16  # noqa: E402
from gcm import TAG_LENGTH  # noqa: E402
from oddities import LAST, odd_bytes, pattern  # noqa: E402
from scenarios import Line, Lines, Run  # noqa: E402
from sip004 import KEY_LENGTHS, MAX_CHUNK, NO_METHODS  # noqa: E402
from streams import POOL_WORDS  # noqa: E402

ANSWER = tuple(range(1_001, 1_001 + relay.ANSWER_WORDS))
STREAM = (99,) * relay.STREAM_WORDS
SESSION = (0, 7, 0, 5)
TABLE = (60,) + (0,) * (relay.TABLE_WORDS - 1)
FILLED = b"\xa5" * 200
SECRET = streams.words_from(bytes(range(32)))

Call = tuple[str, dict[str, Value]]


# The methods of each edition in the other's functions.

# What is lent to the functions of SIP022 that have a method, beside method, key and salts.
OTHERS = {
    "datagram_seal": {"nonce": bytes(24), "session": SESSION, "clock": 1_000, "padding": 0},
    "datagram_open_server": {"clock": 1_000, "table": TABLE},
    "datagram_open_client": {"clock": 1_000, "client": 7, "table": TABLE},
    "stream_seal_request": {"clock": 1_000, "padding": 1},
    "stream_open_request": {"clock": 1_000},
    "stream_seal_response": {"clock": 1_000},
    "stream_open_response": {"clock": 1_000},
    "plan_make": {"limit": 1_500, "length": 9, "plan": (0, 0)},
    "plan_check": {"limit": 1_500, "length": 9, "plan": (9, 0)},
}
PEER = {"first": 1, "second": 2, "port": 3}
BOTH = ("datagram_seal", "datagram_open", "stream_begin_seal", "stream_begin_open")


def settings(method: int, length: int) -> dict[str, Value]:
    """Of any function, with a key and salts of this length."""
    values = {"method": method, "key": bytes(range(length)), "address": NAME, "payload": b"abc"}
    values |= {"salt": bytes(range(length)), "request_salt": bytes(range(length))}
    values |= {"datagram": FILLED, "bytes": FILLED, "out": FILLED, "answer": ANSWER}
    return values | PEER | {"stream": STREAM, "pool": (method,) + (0,) * (POOL_WORDS - 1)}


def foreign_methods() -> Iterator[Call]:
    for method, length in itertools.product(range(10, 15), KEY_LENGTHS.values()):
        for name, others in OTHERS.items():
            yield f"relay_{name}", settings(method, length) | others
        yield "relay_pool_new", settings(method, length)
    for method, length in itertools.product((*NO_METHODS, 11, 12, 13), KEY_LENGTHS.values()):
        for name in BOTH:
            yield f"relay_sip004_{name}", settings(method, length)


# Streams that a host made.

CHUNK_CALLS = ("stream_seal_chunk", "stream_open_chunk")
STATE_METHODS = (1, 2, 3, 5, 11, 12, 13, 10, 14, 256 + 11, 2**32 + 12, LAST)
STATE_LENGTHS = (0, 1, MAX_CHUNK, MAX_CHUNK + 1, 65_535, 65_536, 2**32 + 1, LAST)


def states() -> Iterator[relay.Words]:
    turns = (0, 1, 2, 3, 4, 5, 256, LAST)
    for turn, method, length in itertools.product(turns, STATE_METHODS, STATE_LENGTHS):
        for counter in (0, 1, LAST - 2, LAST - 1, LAST):
            yield (turn, method, counter, length, *SECRET)


def state_calls() -> Iterator[Call]:
    """Each state in the functions of both editions. Nothing is authentic."""
    for number, stream in enumerate(states()):
        payload = (b"", b"abc")[number % 2]
        values = {"stream": stream, "payload": payload, "bytes": FILLED[: number % 40]}
        values |= {"out": FILLED[: number % 50], "answer": ANSWER}
        for name in CHUNK_CALLS:
            yield f"relay_sip004_{name}", values
        if stream[1] in KEY_LENGTHS:
            for name in (*CHUNK_CALLS, "stream_open_variable"):
                yield f"relay_{name}", values


def wrong_lengths() -> Iterator[Call]:
    """Answers and streams that are lent with other lengths."""
    for words in (0, 1, 7, 8, 9, 10):
        lent = {"answer": (5,) * words}
        for method, length in KEY_LENGTHS.items():
            good = settings(method, length)
            for name in BOTH[:2]:
                yield f"relay_sip004_{name}", good | lent
            for name in BOTH[2:]:
                yield f"relay_sip004_{name}", good | {"stream": (5,) * words}
            for turn, name in zip((3, 1), CHUNK_CALLS):
                stream = (turn, method, 0, 0, *SECRET)
                yield f"relay_sip004_{name}", good | lent | {"stream": stream}
                yield f"relay_sip004_{name}", good | {"stream": (*stream, 0)[:words]}


def calls() -> Iterator[Call]:
    yield from foreign_methods()
    yield from state_calls()
    yield from wrong_lengths()


# By dice.

LENGTHS = (0, 0, 1, 255, MAX_CHUNK - 1, MAX_CHUNK, MAX_CHUNK + 1, 0x8000, 0xC000, 0xFFFF)


class Sip004(Lines):
    """Datagrams, and streams of which each has both its ends here."""

    def __init__(self, run: Run, dice: random.Random) -> None:
        super().__init__(run, dice)
        self.method = dice.choice(tuple(KEY_LENGTHS))
        self.key = dice.randbytes(KEY_LENGTHS[self.method])
        self.around = len(self.key) + TAG_LENGTH
        self.sent: list[bytes] = []
        self.lines: list[Line] = []
        self.blank = tuple(dice.getrandbits(64) for _ in range(relay.STREAM_WORDS))

    def new_salt(self) -> bytes:
        return self.dice.randbytes(len(self.key))

    # Datagrams.

    def seal_datagram(self) -> None:
        payload = pattern(self.dice, self.size(MAX_LENGTH - self.around))
        values = {"salt": self.new_salt(), "payload": payload}
        values["out"] = self.room(self.around + len(payload))
        name = "sip004_datagram_seal"
        number, left = self.call(name, **self.settings(), **values, answer=self.answer)
        if number == 0:
            self.sent.append(left["out"][: left["answer"][0]])

    def open_datagram(self) -> None:
        if not self.sent:
            return self.seal_datagram()
        data = self.dice.choice(self.sent[-6:])
        if self.often(10):
            data = odd_bytes(self.dice, data)
        if self.often(5):
            data = data[: self.around + self.dice.choice((-1, -1, 0, 1))]
        if self.often(1):
            data = (data + bytes(MAX_LENGTH + 2))[: MAX_LENGTH + self.dice.randrange(3)]
        values = {"datagram": data, "out": self.room(max(0, len(data) - self.around))}
        self.call("sip004_datagram_open", **self.settings(), **values, answer=self.answer)

    # Streams.

    def begin(self) -> None:
        """Both ends of a line, at times of different salts, or far up."""
        salt = self.new_salt()
        other = salt if self.often(95) else self.new_salt()
        ends = []
        for name, salt in (("seal", salt), ("open", other)):
            values = self.settings() | {"salt": salt, "stream": self.blank}
            number, left = self.call(f"sip004_stream_begin_{name}", **values)
            if number:
                return
            ends.append(left["stream"])
        if self.often(20):
            counter = self.dice.choice((LAST - 9, LAST - 8, 2**32 - 3, 255))
            ends = [(*stream[:2], counter, *stream[3:]) for stream in ends]
        if self.often(20):  # words behind the subkey
            count = 4 + len(self.key) // 8
            ends = [(*stream[:count], *self.blank[count:]) for stream in ends]
        line = Line(salt, b"", ends[0], b"")
        line.receiver = ends[1]
        self.lines.append(line)

    def seal_chunk(self, line: Line) -> None:
        stream = self.disturbed(line.sender)
        payload = pattern(self.dice, self.size(MAX_CHUNK))
        values = {"stream": stream, "payload": payload, "out": self.room(len(payload) + 34)}
        number, left = self.call("sip004_stream_seal_chunk", **values, answer=self.answer)
        if number == 0:
            line.data += left["out"][: left["answer"][0]]
            line.sender = left["stream"]

    def craft_length(self, line: Line) -> None:
        """An authentic length of any number, next for a line whose bytes are all opened."""
        turn, method, counter, *_ = line.receiver
        if not line.data and turn == streams.LENGTH_NEXT and method in KEY_LENGTHS:
            secret = streams.secret_of(relay.receiver_in(line.receiver), sip004.SIP004)
            length = self.dice.choice(LENGTHS)
            line.data = streams.sealed_piece(method, secret, counter, u16(length))

    def open_chunk(self, line: Line) -> None:
        stream = self.disturbed(line.receiver)
        length = stream[3] if stream[0] == streams.PAYLOAD_NEXT else self.dice.choice((0, 2))
        values = {"stream": stream, "bytes": self.bytes_of(line)}
        values["out"] = self.room(min(length, MAX_CHUNK + 1))
        number, left = self.call("sip004_stream_open_chunk", **values, answer=self.answer)
        if number == 0:
            line.data = line.data[left["answer"][0] :]
        if len(left["stream"]) == relay.STREAM_WORDS and (number == 0 or self.often(20)):
            line.receiver = left["stream"]

    def step(self) -> None:
        """One or two calls."""
        if self.often(35):
            return self.dice.choice((self.seal_datagram, self.open_datagram))()
        if self.often(8) or not self.lines:
            return self.begin()
        line = self.dice.choice(self.lines[-4:])
        if self.often(8):
            self.craft_length(line)
        return self.dice.choice((self.seal_chunk, self.open_chunk, self.open_chunk))(line)
