"""Long sequences of calls on the same tables, pools, sessions and streams, by dice.

A scenario makes mostly good calls, so that its states come far, and some with one thing odd.
It goes on from what each call left.
"""

from __future__ import annotations

import random
import sys
from collections.abc import Callable

sys.dont_write_bytecode = True  # no __pycache__ in the tree
import relay  # noqa: E402
import sessions  # noqa: E402
import streams  # noqa: E402
from datagram import DOUBLES, KEY_LENGTHS, LONG_NAME, MAX_LENGTH, NAME, NONCE_LENGTH  # noqa: E402
from datagram import V4, V6, overhead, separate_header, u16, u64  # noqa: E402
from library import Value  # noqa: E402
from oddities import LAST, METHODS, few_changed, flipped, odd_bytes, pattern  # noqa: E402
from sessions import RECORD_WORDS, SESSIONS, TABLE_WORDS, Peer  # noqa: E402
from streams import MAX_CHUNK, POOL_WORDS, SALT_LENGTHS, SALTS  # noqa: E402

# Makes a call, and gives the number returned and the values afterwards.
Run = Callable[..., tuple[int, dict[str, Value]]]

CLOCKS = (0, 1_000, 1_700_000_000, 2**63, LAST - 5_000)
CLOCK_STEPS = (0, 0, 0, 0, 1, 5, 29, 30, 31, 59, 60, 61, 62, 3_600, 3_601, -1, -30, -31, -60, -61)
PACKET_STEPS = (1, 1, 1, 2, 63, 64, 65, 255, 256, 257, 2**63, 0, -1, -2, -63, -64, -255, -256)
SIZES = (0, 0, 1, 1, 5, 15, 16, 17, 31, 32, 33, 63, 64, 65, 100, 255, 256)
SIZES += (319, 321, 336, 447, 448, 512, 529)  # where AES and its hash begin to work otherwise
LARGE = (800, 1_400, 1_400, 9_000)
NONCE_LENGTHS = (0, 0, 1, 12, 23, 24, 25, 48)  # of methods that do not look at it
INNER_LENGTHS = (0, 7, 8, 15, 16, 26, 27, 34, 35, 42)  # of plaintexts that are cut
LONG_HOST = b"\3\xff" + bytes(range(255)) + b"\xff\xff"
ADDRESSES = (V4, V6, NAME, LONG_NAME, LONG_HOST, b"\3\x0bexample.com\x01\xbb", b"\1" + bytes(6))
BAD_ADDRESSES = (b"", b"\3\0\0\x50", b"\2" + V4[1:], V6[:-1], NAME + b"\0", b"\3\xff", b"\1")


def any_word(dice: random.Random, *near: int) -> int:
    """Small, large, or near one of these."""
    way = dice.randrange(4)
    if way == 0:
        return dice.randrange(4)
    if way == 1:
        return dice.getrandbits(64)
    return (dice.choice(near) + dice.choice((0, 0, 1, -1, 60, -60, -61, 255, -256))) % 2**64


class Scenario:
    """A method and its key, a clock, and buffers to lend."""

    def __init__(self, run: Run, dice: random.Random) -> None:
        self.run, self.dice = run, dice
        self.method = dice.choice(tuple(KEY_LENGTHS))
        self.key = dice.randbytes(KEY_LENGTHS[self.method])
        self.clock = dice.choice(CLOCKS)
        self.answer = tuple(dice.getrandbits(64) for _ in range(relay.ANSWER_WORDS))

    def often(self, percent: float) -> bool:
        return self.dice.random() * 100 < percent

    def settings(self) -> dict[str, Value]:
        """With a method that is none, at times."""
        method = self.dice.choice(METHODS) if self.often(1) else self.method
        return {"method": method, "key": self.key}

    def move_clock(self) -> None:
        step = self.dice.choice(CLOCK_STEPS)
        self.clock = min(max(0, self.clock + step), LAST)

    def size(self, most: int) -> int:
        """Of a payload; at times the most that there may be, or one more."""
        if self.often(97):
            return self.dice.choice(SIZES)
        if self.often(80):
            return self.dice.choice(LARGE)
        return max(0, most + self.dice.choice((0, 0, 1, -1)))

    def room(self, due: int) -> bytes:
        """A buffer for these bytes: exact, longer, or a little too short."""
        more = self.dice.choice((0, 0, 0, 0, 1, 8, 100, -1 if self.often(30) else 2))
        return pattern(self.dice, max(0, due + more))

    def address(self) -> bytes:
        return self.dice.choice(BAD_ADDRESSES if self.often(2) else ADDRESSES)

    def call(self, name: str, **values: Value) -> tuple[int, dict[str, Value]]:
        return self.run(f"relay_{name}", **values)


class Datagrams(Scenario):
    """Clients and servers that send to each other, and a table on each side."""

    def __init__(self, run: Run, dice: random.Random) -> None:
        super().__init__(run, dice)
        self.retention = dice.choice((60, 60, 61, 300, 3_600))
        self.clients = [self.begun(client=None) for _ in range(3)]
        ids = [session[1] for session in self.clients]
        self.tables = [self.table(self.clients)]
        self.servers = [self.begun(client=dice.choice(ids)) for _ in range(3)]
        self.tables.append(self.table(self.servers))
        self.sent: list[tuple[int, int, bytes]] = []  # side, client and datagram

    def begun(self, client: int | None) -> relay.Words:
        lent = tuple(self.dice.getrandbits(64) for _ in range(relay.SESSION_WORDS))
        id = self.dice.choice((0, 1, LAST, self.dice.getrandbits(64), self.dice.getrandbits(64)))
        if client is not None and self.often(40):
            id = self.taken()
        if client is None:
            number, left = self.call("session_begin_client", id=id, session=lent)
        else:
            values = {"id": id, "client": client, "clock": self.clock}
            values |= {"table": self.clients_table(), "session": lent}
            number, left = self.call("session_begin_server", **values)
        return (int(client is not None), id, client or 0, 0) if number else left["session"]

    def clients_table(self) -> relay.Words:
        """The server's table, at times with odd words."""
        table = self.tables[0]
        return few_changed(self.dice, table) if self.often(5) else table

    def taken(self) -> int:
        """An ID that a record of the server's table has, alive or not."""
        return self.tables[0][2 + RECORD_WORDS * self.dice.randrange(SESSIONS)]

    # Tables.

    def table(self, senders: list[relay.Words]) -> relay.Words:
        lent = tuple(self.dice.getrandbits(64) for _ in range(TABLE_WORDS))
        if self.often(50):
            retention = 0 if self.often(50) and self.retention == 300 else self.retention
            self.call("table_new", retention=retention, table=lent)
            return sessions.table_with(self.retention)
        if self.often(50):
            return (self.retention, *self.full_records(senders))
        near = [session[1] for session in senders] + [self.clock, self.clock - self.retention]
        if self.often(50):
            return (self.retention, *(any_word(self.dice, *near) for _ in lent[1:]))
        return (self.retention, *lent[1:])

    def full_records(self, senders: list[relay.Words]) -> list[int]:
        """64 records, nearly all of them alive, some of sessions that will send."""
        words = []
        for _ in range(SESSIONS):
            id = self.dice.choice(senders)[1] if self.often(5) else self.dice.getrandbits(64)
            gap = self.dice.choice((0, 1, self.retention)) if self.often(99) else self.retention + 1
            marks = [self.dice.getrandbits(64) for _ in range(4)]
            last = (self.clock - gap) % 2**64
            high = self.dice.choice((0, 5, 300, LAST))
            counts = self.dice.choices((0, 1, LAST - 1, LAST, marks[0]), k=2)
            words += [self.dice.choice((1, 1, 7)), id, high, last, *marks]
            words += [*marks[:2], 2**20, *counts]
        assert len(words) == SESSIONS * RECORD_WORDS
        return words

    # Sending.

    def new_nonce(self) -> bytes:
        """Of a method of ChaCha; the others take anything."""
        if self.method in DOUBLES:
            length = NONCE_LENGTH if self.often(99) else self.dice.choice(NONCE_LENGTHS)
            return self.dice.randbytes(length)
        return self.dice.randbytes(self.dice.choice(NONCE_LENGTHS))

    def seal(self) -> None:
        """Seals with one of the sessions, at times moved to another packet ID."""
        side = self.dice.randrange(2)
        senders = (self.clients, self.servers)[side]
        place = self.dice.randrange(len(senders))
        session = senders[place]
        if self.often(40):
            packet = session[3] + self.dice.choice(PACKET_STEPS)
            session = (*session[:3], min(max(0, packet), LAST))
        if self.often(2):
            session = few_changed(self.dice, session)
        address = self.address()
        padding = self.dice.choice((0, 0, 0, 1, 2, 17, 900, 901))
        if self.often(1):
            padding = self.dice.choice((65_535, 65_536, 2**32, LAST))
        besides = (67, 75)[side] if self.method in DOUBLES else (43, 51)[side]
        most = MAX_LENGTH - besides - len(address) - padding
        payload = pattern(self.dice, self.size(most))
        due = min(besides + len(address) + padding + len(payload), 2 * MAX_LENGTH)
        values = {"nonce": self.new_nonce(), "session": session}
        values |= {"clock": self.clock, "address": address}
        values |= {"padding": padding, "payload": payload, "out": self.room(due)}
        number, left = self.call("datagram_seal", **self.settings(), **values, answer=self.answer)
        if number == 0:
            self.sent.append((side, session[2], left["out"][: left["answer"][0]]))
        if len(left["session"]) == relay.SESSION_WORDS and left["session"][0] < 2:
            senders[place] = left["session"]

    def craft(self) -> None:
        """An authentic datagram of any plaintext."""
        side = self.dice.randrange(2)
        _, id, client, packet = self.dice.choice((self.clients, self.servers)[side])
        time = max(0, self.clock + self.dice.choice((0, 0, 0, 30, -30, 31, -31, 2**63))) % 2**64
        address, payload = self.address(), pattern(self.dice, self.dice.choice(SIZES))
        padding = self.dice.choice((0, 0, 0, 1, len(payload), len(payload) + 1, 65_535))
        kind = side if self.often(85) else self.dice.randrange(256)
        text = bytes([kind]) + u64(time) + (u64(client) if side else b"")
        text += u16(padding) + bytes(self.dice.choice((0, padding % 1_000))) + address + payload
        if self.often(15):
            text = text[: self.dice.randrange(min(len(text), 40))]
        if self.often(10):
            text = odd_bytes(self.dice, text)
        packet = (packet + self.dice.choice(PACKET_STEPS)) % 2**64
        self.sent.append((side, client, self.crafted(id, packet, text)))

    def crafted(self, id: int, packet: int, text: bytes) -> bytes:
        """By a method of ChaCha the IDs are in the plaintext, which may be cut among them."""
        nonce = self.dice.randbytes(NONCE_LENGTH)
        if self.method in DOUBLES and self.often(15):
            inner = separate_header(id, packet) + text
            cut = inner[: self.dice.choice(INNER_LENGTHS)]
            return sessions.sealed_inner(self.method, self.key, nonce, cut)
        return sessions.sealed(self.method, self.key, nonce, id, packet, text)

    # Receiving.

    def open(self) -> None:
        if not self.sent:
            return self.seal()
        side, client, data = self.dice.choice(self.sent[-6:] if self.often(85) else self.sent)
        if self.often(5):
            data = odd_bytes(self.dice, data)
        if self.often(0.3):
            data = (data + bytes(MAX_LENGTH + 2))[: MAX_LENGTH + self.dice.randrange(3)]
        if self.often(4):
            side = 1 - side
        values = {"clock": self.clock, **self.peer()._asdict(), "datagram": data}
        if side == 1:
            values["client"] = client if self.often(93) else self.dice.choice(self.clients)[1]
        due = max(0, len(data) - overhead(self.method))
        values |= {"table": self.tables[side], "out": self.room(due)}
        name = ("datagram_open_server", "datagram_open_client")[side]
        _, left = self.call(name, **self.settings(), **values, answer=self.answer)
        table = left["table"]
        if len(table) == TABLE_WORDS and table[0] in sessions.RETENTIONS:
            self.tables[side] = table

    def peer(self) -> Peer:
        return Peer(*(self.dice.getrandbits(bits) for bits in (64, 64, 16)))

    def step(self) -> None:
        """One or two calls."""
        if self.often(6):
            self.move_clock()
        if self.often(2):
            side = self.dice.randrange(2)
            self.tables[side] = self.table((self.clients, self.servers)[side])
        if self.often(2):
            senders, client = (self.clients, None) if self.often(50) else (self.servers, 7)
            senders[0] = self.begun(client)
        if self.often(10):
            self.craft()
        self.dice.choice((self.seal, self.open, self.open))()


class Line:
    """A stream of one direction: the sender's and the receiver's words, and the bytes between."""

    def __init__(self, salt: bytes, bound: bytes, sender: relay.Words, data: bytes) -> None:
        self.salt, self.bound, self.sender, self.data = salt, bound, sender, data
        self.receiver: relay.Words | None = None  # its head is not opened yet


class Lines(Scenario):
    """What lines are lent to their calls as."""

    def bytes_of(self, line: Line) -> bytes:
        """What has come in of a line: all, or only a part; damaged at times."""
        data = line.data
        if self.often(15):
            data = data[: self.dice.randrange(len(data) + 1)]
        if self.often(15):
            data = data[: self.dice.choice((17, 18, 19, 42, 43, 58, 59, 60, 90, 91, 92))]
        if self.often(10):
            data += pattern(self.dice, self.dice.choice(SIZES))
        return flipped(self.dice, data) if self.often(5) else data

    def disturbed(self, stream: relay.Words) -> relay.Words:
        """At times with other words: a counter near its end, another turn, anything."""
        if self.often(2):
            return (*stream[:2], LAST - self.dice.randrange(4), *stream[3:])
        if self.often(3):
            return (self.dice.choice((0, 1, 2, 3, 4, 5, LAST)), *stream[1:])
        return few_changed(self.dice, stream) if self.often(2) else stream


class Streams(Lines):
    """Requests with their responses, chunks in both directions, and a server's pool."""

    def __init__(self, run: Run, dice: random.Random) -> None:
        super().__init__(run, dice)
        self.salts = [self.new_salt() for _ in range(4)]
        self.pool = self.new_pool()
        self.requests: list[Line] = []
        self.responses: list[Line] = []
        self.blank = tuple(dice.getrandbits(64) for _ in range(relay.STREAM_WORDS))

    def new_salt(self) -> bytes:
        return self.dice.randbytes(SALT_LENGTHS[self.method])

    def new_pool(self) -> relay.Words:
        lent = tuple(self.dice.getrandbits(64) for _ in range(POOL_WORDS))
        if self.often(50):
            self.call("pool_new", method=self.method, pool=lent)
            return streams.new_pool(self.method)
        words = [self.method]
        for _ in range(SALTS):
            gap = self.dice.choice((0, 1, 60)) if self.often(99.5) else 61
            words += [self.dice.choice((1, 1, 7)), (self.clock - gap) % 2**64]
            salt = self.dice.choice(self.salts) if self.often(0.5) else self.new_salt()
            words += streams.words_from(salt)
            if self.method == 1 and self.often(30):
                words[-1] = self.dice.getrandbits(64)
        if self.often(30):
            return few_changed(self.dice, tuple(words))
        return tuple(words) if self.often(60) else (self.method, *lent[1:])

    # Heads.

    def seal_request(self) -> None:
        salt = self.dice.choice(self.salts) if self.often(30) else self.new_salt()
        address, padding = self.address(), self.dice.choice((0, 0, 1, 16, 900))
        if self.often(3):
            padding = self.dice.choice((901, 65_536, LAST))
        payload = pattern(self.dice, self.size(MAX_CHUNK - len(address) - 2 - padding))
        text = len(address) + 2 + min(padding, 1_000) + len(payload)
        values = {"salt": salt, "clock": self.clock, "address": address, "padding": padding}
        values |= {"payload": payload, "out": self.room(len(salt) + 27 + text + 16)}
        self.sealed("stream_seal_request", self.requests, values)

    def seal_response(self) -> None:
        salt = self.new_salt()
        bound = self.requests[-1].salt if self.requests else self.new_salt()
        payload = pattern(self.dice, self.size(MAX_CHUNK))
        due = 2 * len(salt) + 27 + len(payload) + 16
        values = {"salt": salt, "request_salt": bound, "clock": self.clock}
        values |= {"payload": payload, "out": self.room(due)}
        self.sealed("stream_seal_response", self.responses, values)

    def sealed(self, name: str, lines: list[Line], values: dict[str, Value]) -> None:
        lent = {"stream": self.blank, "answer": self.answer}
        number, left = self.call(name, **self.settings(), **values, **lent)
        if number == 0:
            head = left["out"][: left["answer"][0]]
            lines.append(Line(left["salt"], left.get("request_salt", b""), left["stream"], head))

    def craft_head(self) -> None:
        """An authentic head of any plaintexts."""
        salt, kind = self.new_salt(), self.dice.randrange(2)
        time = max(0, self.clock + self.dice.choice((0, 0, 0, 30, -30, 31, -31))) % 2**64
        payload = pattern(self.dice, self.dice.choice(SIZES))
        text = payload
        if kind == streams.REQUEST:
            padding = self.dice.choice((0, 1, len(payload), len(payload) + 1, 900, 901, 65_535))
            text = self.address() + u16(padding) + bytes(padding % 1_000) + payload
        if self.often(20):
            text = text[: self.dice.randrange(30)]
        bound = self.dice.choice(self.requests).salt if self.requests else salt
        length = len(text) if self.often(95) else self.dice.choice((0, 1, MAX_CHUNK))
        said = kind if self.often(85) else self.dice.randrange(256)
        fixed = streams.fixed_header(said, time, bound if kind else b"", length)
        sender = relay.sender_words(streams.begun(self.method, self.key, salt))
        data = streams.head(self.method, self.key, salt, fixed, text)
        line = Line(salt, bound, sender, data)
        (self.requests, self.responses)[kind].append(line)

    def open_request(self, line: Line) -> None:
        values = {"clock": self.clock, "bytes": self.bytes_of(line), "pool": self.pool}
        lent = {"stream": self.blank, "answer": self.answer}
        number, left = self.call("stream_open_request", **self.settings(), **values, **lent)
        if number == 0:
            line.receiver, line.data = left["stream"], line.data[left["answer"][0] :]
        if len(left["pool"]) == POOL_WORDS and left["pool"][0] == self.method:
            self.pool = left["pool"]

    def open_response(self, line: Line) -> None:
        bound = line.bound if self.often(95) else self.dice.choice((line.salt, self.new_salt()))
        values = {"clock": self.clock, "request_salt": bound, "bytes": self.bytes_of(line)}
        lent = {"stream": self.blank, "answer": self.answer}
        number, left = self.call("stream_open_response", **self.settings(), **values, **lent)
        if number == 0:
            line.receiver, line.data = left["stream"], line.data[left["answer"][0] :]

    # Chunks.

    def seal_chunk(self, line: Line) -> None:
        stream = self.disturbed(line.sender)
        payload = pattern(self.dice, self.size(MAX_CHUNK))
        values = {"stream": stream, "payload": payload, "out": self.room(len(payload) + 34)}
        number, left = self.call("stream_seal_chunk", **values, answer=self.answer)
        if number == 0:
            line.data += left["out"][: left["answer"][0]]
            line.sender = left["stream"]

    def open_chunk(self, line: Line) -> None:
        """The next piece, or a request's variable header; at times by the other's call."""
        stream = self.disturbed(line.receiver)
        length = stream[3] if stream[0] in (2, 4) else self.dice.choice((0, 2))
        values = {"stream": stream, "bytes": self.bytes_of(line)}
        values["out"] = self.room(min(length, MAX_CHUNK))
        variable = (stream[0] == 4) != self.often(5)
        name = "stream_open_variable" if variable else "stream_open_chunk"
        number, left = self.call(name, **values, answer=self.answer)
        if number == 0:
            line.data = line.data[left["answer"][6 if variable else 0] :]
        if len(left["stream"]) == relay.STREAM_WORDS and (number == 0 or self.often(20)):
            line.receiver = left["stream"]

    def at_counter(self) -> None:
        """A line whose two ends are near the last counter, or far up."""
        salt, counter = self.new_salt(), self.dice.choice((LAST - 9, LAST - 8, 2**32 - 3, 255))
        sender = streams.begun(self.method, self.key, salt)._replace(counter=counter)
        line = Line(salt, b"", relay.sender_words(sender), b"")
        line.receiver = (1, self.method, counter, 0, *sender.subkey)
        self.requests.append(line)

    def step(self) -> None:
        """One or two calls."""
        if self.often(2):
            self.move_clock()
        if self.often(1):
            self.pool = self.new_pool()
        if self.often(1):
            self.at_counter()
        if self.often(6):
            self.craft_head()
        if self.often(10) or not self.requests:
            return self.seal_request()
        if self.often(8) or not self.responses:
            return self.seal_response()
        lines, opens = self.dice.choice(
            ((self.requests, self.open_request), (self.responses, self.open_response))
        )
        line = self.dice.choice(lines[-4:])
        if line.receiver is None or self.often(5):
            return opens(line)
        return self.dice.choice((self.seal_chunk, self.open_chunk, self.open_chunk))(line)


SCENARIOS = (Datagrams, Streams)
