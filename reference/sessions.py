"""The session table, its book, and opening datagrams, written from the scope over datagram.py.

An independent reference for the proved code: the table as its 833 words, the book
as pages, and both sides' opening over either. Plain and slow.

The client of a call is None where a server opens a client's datagram; where a
client opens a server's it is the ID of its own session.

    python3 reference/sessions.py --selftest
"""

import collections
import functools
import hashlib
import itertools
import sys

sys.dont_write_bytecode = True  # no __pycache__ in the tree
import aes  # noqa: E402
import datagram  # noqa: E402
from datagram import ARGUMENT, CLIENT_PACKET, DOUBLES, KEY_LENGTHS, LENGTH, MAX_LENGTH  # noqa: E402
from datagram import NONCE, NONCE_LENGTH, ROOM, SEPARATE_LENGTH, SERVER_PACKET, SETTINGS  # noqa: E402
from datagram import overhead, u16, u64  # noqa: E402

SESSIONS = 64
RECORD_WORDS = 13
TABLE_WORDS = 1 + SESSIONS * RECORD_WORDS
WINDOW = 256
RETENTIONS = range(60, 3_601)
DEFAULT_RETENTION = 300
TIME_LIMIT = 30
MOST_COUNTED = 2**64 - 1

# The numbers of the other refusals.
NOT_AUTHENTIC, MALFORMED, TYPE, TIME, REPLAY, FULL, BINDING = 4, 5, 6, 7, 8, 9, 13

Peer = collections.namedtuple("Peer", "first second port")

# The meaning of a record: its marks are the distances from the highest packet ID down, and
# its counts are of datagrams accepted and of repeats since the session began.
FIELDS = "used id high last marks peer accepted repeats"
Session = collections.namedtuple("Session", FIELDS, defaults=(1, 0))

# A page of the book, under its ID: `accepted` are packet IDs, and the counts stand behind.
Page = collections.namedtuple("Page", "high accepted last peer taken repeats")

# What an opened datagram says. Its target: (1, number), (4, number, number) or (3, place, length).
Header = collections.namedtuple("Header", "target port session packet time padding payload")

# A call: its arguments but the table. The output is the buffer as it is lent.
Call = collections.namedtuple("Call", "method key client clock peer datagram output")

# The number of the refusal or 0, the header if there is one, and the output afterwards.
Answer = collections.namedtuple("Answer", "number header output")


# Time, for the table and the book.


def alive(last, retention, clock):
    return clock <= last + retention


def time_valid(time, clock):
    return abs(time - clock) <= TIME_LIMIT


def one_more(count):
    return min(count + 1, MOST_COUNTED)


# The table. A table is a tuple of words; what changes it gives another.


def make(retention, table):
    """A refusal's number, or 0; and the table afterwards."""
    if retention == 0:
        retention = DEFAULT_RETENTION
    if len(table) != TABLE_WORDS or retention not in RETENTIONS:
        return SETTINGS, table
    return 0, (retention,) + (0,) * (TABLE_WORDS - 1)


def lawful(table):
    return len(table) == TABLE_WORDS and table[0] in RETENTIONS


def words_of(table, record):
    start = 1 + record * RECORD_WORDS
    return table[start : start + RECORD_WORDS]


def with_words(table, record, words):
    start = 1 + record * RECORD_WORDS
    return table[:start] + tuple(words) + table[start + RECORD_WORDS :]


def with_repeat(table, record):
    """The table with one repeat more in a record: no other word changes."""
    place = 1 + record * RECORD_WORDS + 12
    return table[:place] + (one_more(table[place]),) + table[place + 1 :]


def session_of(words):
    used, id, high, last, *marks, first, second, port, accepted, repeats = words
    distances = frozenset(d for d in range(WINDOW) if marks[d // 64] >> d % 64 & 1)
    peer = Peer(first, second, port % 2**16)
    return Session(used, id, high, last, distances, peer, accepted, repeats)


def words_from(session):
    marks = [sum(1 << d % 64 for d in session.marks if d // 64 == k) for k in range(4)]
    counts = session.accepted, session.repeats
    return (session.used, session.id, session.high, session.last, *marks, *session.peer, *counts)


def alive_records(table, clock):
    for record in range(SESSIONS):
        used, _, _, last, *_ = words_of(table, record)
        if used != 0 and alive(last, table[0], clock):
            yield record


def fresh(session, packet):
    distance = session.high - packet
    return distance < 0 or distance < WINDOW and distance not in session.marks


def accepted(session, packet, clock, peer):
    """The session after it accepted a fresh packet."""
    up = max(0, packet - session.high)
    high = session.high + up
    marks = {distance + up for distance in session.marks} | {high - packet}
    marks = frozenset(distance for distance in marks if distance < WINDOW)
    last, count = max(session.last, clock), one_more(session.accepted)
    return session._replace(high=high, last=last, marks=marks, peer=peer, accepted=count)


def begun(id, packet, clock, peer):
    return Session(1, id, packet, clock, frozenset({0}), peer, 1, 0)


def admit(table, clock, id, packet, peer):
    """Refusal 8 or 9, or 0; and the table afterwards."""
    living = list(alive_records(table, clock))
    for record in living:
        session = session_of(words_of(table, record))
        if session.id == id:
            if not fresh(session, packet):
                return REPLAY, with_repeat(table, record)
            session = accepted(session, packet, clock, peer)
            return 0, with_words(table, record, words_from(session))
    for record in range(SESSIONS):
        if record not in living:
            session = begun(id, packet, clock, peer)
            return 0, with_words(table, record, words_from(session))
    return FULL, table


def begin_reply(table, clock, id, client):
    """A refusal's number, or 0; and the sending session in reply to a client's, if there is one."""
    if not lawful(table):
        return SETTINGS, None
    alive_ids = {words_of(table, record)[1] for record in alive_records(table, clock)}
    if id in alive_ids or id == client:
        return ARGUMENT, None
    return 0, datagram.Sender(id, 0, client)


def table_sessions(table, clock):
    """What the table says of its sessions alive: by ID, without record numbers."""
    sessions = (session_of(words_of(table, record)) for record in alive_records(table, clock))
    return sorted(
        (s.id, s.high, sorted(s.marks), s.last, s.peer, s.accepted, s.repeats) for s in sessions
    )


# The book: pages by ID.


def enter(pages, retention, clock, id, packet, peer):
    """Refusal 8 or 9, or 0; and the pages afterwards."""
    living = {key for key, page in pages.items() if alive(page.last, retention, clock)}
    if id in living:
        page = pages[id]
        close = page.high - packet < 256 and packet not in page.accepted
        if not (packet > page.high or close):
            return REPLAY, pages | {id: page._replace(repeats=min(page.repeats + 1, 2**64 - 1))}
    elif len(living) == 64:
        return FULL, pages
    else:
        page = Page(packet, frozenset(), clock, peer, 0, 0)
    high, taken = max(page.high, packet), min(page.taken + 1, 2**64 - 1)
    page = Page(high, page.accepted | {packet}, clock, peer, taken, page.repeats)
    return 0, pages | {id: page}


def book_sessions(pages, retention, clock):
    """What the book says of its pages alive, as of the table's sessions."""
    sessions = []
    for id, page in pages.items():
        if alive(page.last, retention, clock):
            marks = sorted(page.high - p for p in page.accepted if page.high - p < 256)
            sessions.append((id, page.high, marks, page.last, page.peer, page.taken, page.repeats))
    return sorted(sessions)


# Opening: what the arguments decide.


# Remembered: datagrams of any plaintext.
sealed = functools.lru_cache(maxsize=None)(datagram.sealed_text)
sealed_inner = functools.lru_cache(maxsize=None)(datagram.sealed_inner)


@functools.lru_cache(maxsize=None)
def separate(key, block):
    """The session ID and packet ID of a datagram's first 16 bytes, by a method of AES."""
    header = aes.decrypt(key, block)
    return tuple(int.from_bytes(header[at : at + 8], "big") for at in (0, 8))


@functools.lru_cache(maxsize=None)
def text_of(method, key, sealed):
    """The plaintext, which by a method of ChaCha begins with session and packet ID; None if the tag is
    wrong, or if there is none."""
    text = datagram.opened_text(method, key, sealed)
    return text if text is None or method in DOUBLES else text[SEPARATE_LENGTH:]


def target_of(address):
    """The target of an address and port, the place of a name from the address's start."""
    number = int.from_bytes(address[1:-2], "big")
    if address[0] == 1:
        return (1, number)
    if address[0] == 4:
        return (4, number >> 64, number % 2**64)
    return (3, 2, len(address) - 4)


def read(client, clock, ids, text):
    """Refusal 5, 6, 7 or 13, or 0; and the header if there is one. Without IDs from before the body they
    stand in front of the text."""
    kind, bound = (CLIENT_PACKET, 0) if client is None else (SERVER_PACKET, 8)
    *fixed, behind = datagram.parts(text, *(() if ids else (8, 8)), 1, 8, bound, 2) or [None]
    if behind is None:
        return MALFORMED, None
    *inner, said, time, ours, padding = (int.from_bytes(part, "big") for part in fixed)
    if said != kind:
        return TYPE, None
    if not time_valid(time, clock):
        return TIME, None
    if client is not None and ours != client:
        return BINDING, None
    padded = datagram.parts(behind, padding)
    length = datagram.address_length(padded[1]) if padded else None
    if length is None:
        return MALFORMED, None
    address, payload = datagram.parts(padded[1], length)
    end = len(text) - len(payload)
    target = target_of(address)
    if target[0] == 3:
        target = (3, end - length + target[1], target[2])
    port = int.from_bytes(address[-2:], "big")
    return 0, Header(target, port, *(ids or inner), time, padding, end)


def judge(call):
    """The first refusal before 8, or 0; the header if there is one; a good tag's plaintext."""
    if KEY_LENGTHS.get(call.method) != len(call.key):
        return SETTINGS, None, None
    if not overhead(call.method) <= len(call.datagram) <= MAX_LENGTH:
        return LENGTH, None, None
    if len(call.output) < len(call.datagram) - overhead(call.method):
        return ROOM, None, None
    text = text_of(call.method, call.key, call.datagram)
    if text is None:
        return NOT_AUTHENTIC, None, None
    return *read(call.client, call.clock, separate_ids(call), text), text


def separate_ids(call):
    """Session and packet ID from before the body, None by a method of ChaCha."""
    if call.method in DOUBLES:
        return None
    return separate(call.key, call.datagram[:SEPARATE_LENGTH])


def answer(call, number, header, text):
    """What is answered; the output is untouched without a good tag, else plaintext or zeros."""
    if text is None:
        return Answer(number, None, call.output)
    left = call.output[len(text) :]
    if number:
        return Answer(number, None, bytes(len(text)) + left)
    return Answer(0, header, text + left)


# Opening, on the table and by the book.


def open(call, table):
    """The answer, and the table afterwards."""
    if not lawful(table):
        return Answer(SETTINGS, None, call.output), table
    return open_untested(call, table)


def open_untested(call, table):
    """The same without the test of the table, which a retention of 59 does not pass."""
    number, header, text = judge(call)
    if number == 0:
        packet = header.session, header.packet
        number, table = admit(table, call.clock, *packet, call.peer)
    return answer(call, number, header, text), table


def open_by_book(call, pages, retention):
    """The answer, and the pages afterwards."""
    number, header, text = judge(call)
    if number == 0:
        packet = header.session, header.packet
        number, pages = enter(pages, retention, call.clock, *packet, call.peer)
    return answer(call, number, header, text), pages


def run_table(retention, calls):
    """The answers, and the sessions alive at the last clock, from a new table."""
    _, table = make(retention, (0,) * TABLE_WORDS)
    answers = []
    for call in calls:
        given, table = open(call, table)
        answers.append(given)
    return answers, table_sessions(table, calls[-1].clock) if calls else []


def run_book(retention, calls):
    """The same by the book."""
    retention = retention or DEFAULT_RETENTION
    pages, answers = {}, []
    for call in calls:
        given, pages = open_by_book(call, pages, retention)
        answers.append(given)
    return answers, book_sessions(pages, retention, calls[-1].clock) if calls else []


def counted(retention, calls, answers):
    """By ID of the sessions alive at the last clock, how many of its calls since it began were
    accepted and how many answered 8: from the answers alone."""
    retention = retention or DEFAULT_RETENTION
    counts = {}
    for call, given in zip(calls, answers):
        id = belongs(call)
        if given.number == REPLAY:
            last, taken, repeats = counts[id]
            counts[id] = last, taken, repeats + 1
        elif given.number == 0:
            last, taken, repeats = counts.get(id, (None, 0, 0))
            if last is None or not alive(last, retention, call.clock):
                taken, repeats = 0, 0
            counts[id] = call.clock, taken + 1, repeats
    living = (id for id in counts if alive(counts[id][0], retention, calls[-1].clock))
    return {id: counts[id][1:] for id in living}


def belongs(call):
    """The ID of the session that a call's datagram belongs to, None if it names none. By a method of ChaCha
    it names one only if it authenticates and has room for an ID, whatever else is wrong with it."""
    if KEY_LENGTHS.get(call.method) != len(call.key):
        return None
    if call.method in DOUBLES:
        text = text_of(call.method, call.key, call.datagram)
        return None if text is None or len(text) < 8 else int.from_bytes(text[:8], "big")
    if len(call.datagram) < SEPARATE_LENGTH:
        return None
    return separate_ids(call)[0]


# Lists of calls, the same in every run.


class Dice:
    """Numbers from SHAKE256 of a seed."""

    def __init__(self, seed):
        self.seed, self.count = seed, 0

    def below(self, limit):
        self.count += 1
        data = hashlib.shake_256(f"{self.seed} {self.count}".encode()).digest(16)
        return int.from_bytes(data, "big") % limit

    def pick(self, options):
        return options[self.below(len(options))]

    def often(self, percent):
        return self.below(100) < percent


def plaintext(client, time, address, padding=b"", payload=b"", kind=None):
    """The plaintext of a datagram for this client, or for a server; any padding and type byte."""
    if kind is None:
        kind = CLIENT_PACKET if client is None else SERVER_PACKET
    bound = b"" if client is None else u64(client)
    return bytes([kind]) + u64(time) + bound + u16(len(padding)) + padding + address + payload


# How far a packet ID is from the highest so far.
STEPS = (1, 1, 1, 2, 3, 9, 63, 64, 65, 128, 255, 256, 300, 2**40)
STEPS += (0, -1, -2, -3, -64, -100, -254, -255, -256, -257)
GAPS = (1, 1, 5, 29, 30, 31, 59, 60, 61, 62, 200)
ADDRESSES = (datagram.V4, datagram.NAME, datagram.V6)


class Host:
    """Makes the calls of a list: a clock that never goes back, and what was sent before."""

    def __init__(self, seed, method=1, sessions=4, clock=1_000, quiet=80):
        self.dice = Dice(seed)
        self.method, self.key = method, datagram.KEYS[method]
        self.ids = [self.dice.below(2**64) for _ in range(sessions)]
        self.clients = (None, self.dice.below(2**64))
        self.high = {}
        self.clock, self.quiet = clock, quiet
        self.sent = []

    def text(self, client):
        time = max(0, self.clock + self.dice.pick((0, 0, 0, 30, -30, 17, -9)))
        if self.dice.often(4):
            time += 61
        address = self.dice.pick(ADDRESSES)
        if self.dice.often(4):
            address = address[:-1]
        payload = bytes(self.dice.below(256) for _ in range(self.dice.below(6)))
        return plaintext(client, time, address, bytes(self.dice.below(3)), payload)

    def nonce(self):
        """New for each datagram by a method of ChaCha; the others have none."""
        if self.method not in DOUBLES:
            return b""
        return self.dice.below(2**128).to_bytes(NONCE_LENGTH, "big")

    def new(self):
        """A client, and a datagram for its side."""
        id, client = self.dice.pick(self.ids), self.dice.pick(self.clients)
        high = self.high.get(id, self.dice.below(600))
        packet = min(max(0, high + self.dice.pick(STEPS)), 2**64 - 1)
        self.high[id] = max(high, packet)
        nonce, text = self.nonce(), self.text(client)
        if self.method in DOUBLES and self.dice.often(6):
            inner = datagram.separate_header(id, packet) + text
            cut = inner[: self.dice.pick((0, 7, 8, 15, 16, 26, 27, 34, 35))]
            return client, sealed_inner(self.method, self.key, nonce, cut)
        return client, sealed(self.method, self.key, nonce, id, packet, text)

    def damaged(self, data):
        if self.dice.often(50):
            lengths = (0, 23, 24, 39, 40, 48) if self.method in DOUBLES else (0, 15, 16, 31, 32, 40)
            return data[: self.dice.pick(lengths)]
        return datagram.flipped(data, self.dice.below(len(data)))

    def call(self):
        if not self.dice.often(self.quiet):
            self.clock += self.dice.pick(GAPS)
        if self.sent and self.dice.often(35):
            client, data = self.dice.pick(self.sent[-20:])
        else:
            client, data = self.new()
            self.sent.append((client, data))
        if self.dice.often(8):
            data = self.damaged(data)
        if self.dice.often(4):
            client = self.dice.pick((None, self.dice.below(2**64)))
        room = max(0, len(data) - overhead(self.method) + self.dice.pick((0, 0, 1, 3)))
        if self.dice.often(3) and room:
            room -= 4 if room > 4 else 1
        peer = Peer(self.dice.below(2**64), self.dice.below(2**64), self.dice.below(2**16))
        fill = bytes([self.dice.below(256)])
        return Call(self.method, self.key, client, self.clock, peer, data, fill * room)

    def calls(self, count):
        return [self.call() for _ in range(count)]


def rearranged(calls, dice):
    """The calls' places in another order: within equal clocks, each session's as they were."""
    order = []
    for _, run in itertools.groupby(enumerate(calls), lambda pair: pair[1].clock):
        waiting = collections.OrderedDict()
        for place, call in run:
            id = belongs(call)
            waiting.setdefault(("none", place) if id is None else id, []).append(place)
        while waiting:
            id = dice.pick(list(waiting))
            order.append(waiting[id].pop(0))
            if not waiting[id]:
                del waiting[id]
    return order


# Examples of the scope.

PEER = Peer(2**64 - 1, 0, 65_535)
OTHER_PEER = Peer(1, 2, 3)
ID = datagram.SESSION
KEY = datagram.KEYS[1]
CLIENT = 0xFEDCBA9876543210


def table_with(retention, *records):
    """A table with these sessions in its first records."""
    _, table = make(retention, (0,) * TABLE_WORDS)
    for number, session in enumerate(records):
        table = with_words(table, number, words_from(session))
    return table


def marked_300(*packets):
    """A table with only 300 marked, after these packets too; and the last answer."""
    table = table_with(60, begun(ID, 300, 1_000, PEER))
    number = None
    for packet in packets:
        number, table = admit(table, 1_000, ID, packet, PEER)
    return number, table


def is_marked(table, packet):
    session = session_of(words_of(table, 0))
    return session.high - packet in session.marks


def marked_edges():
    yield "P1", time_valid(970, 1_000) and time_valid(1_030, 1_000)
    yield "P2", not time_valid(969, 1_000) and not time_valid(1_031, 1_000)
    yield "P3", not time_valid(2**64 - 1, 0)
    table = table_with(60, begun(ID, 300, 1_000, PEER))
    yield "P4", all(list(alive_records(table, clock)) == [0] for clock in (1_060, 990))
    yield "P5", not list(alive_records(table, 1_061))
    table = table_with(0, begun(ID, 300, 1_000, PEER))
    yield "P4, made with 0", list(alive_records(table, 1_300)) == [0]
    yield "P5, made with 0", not list(alive_records(table, 1_301))
    yield "P6", marked_300(45)[0] == 0
    yield "P7", marked_300(44)[0] == REPLAY and marked_300(300)[0] == REPLAY
    number, table = marked_300(555)
    yield "P8", number == 0 and is_marked(table, 300)
    number, table = marked_300(556)
    far = not is_marked(table, 300) and marked_300(556, 300)[0] == REPLAY
    yield "P9", number == 0 and far and marked_300(556, 301)[0] == 0
    text = plaintext(None, 0, bytes.fromhex("03 01 61 0050"))
    _, header = read(None, 0, (ID, 5), text)
    yield "P10", (header.target, header.port) == ((3, 13, 1), 80) and text[13:14] == b"a"
    text = plaintext(None, 0, bytes.fromhex("03 00 0050"))
    yield "P11", read(None, 0, (ID, 5), text)[0] == MALFORMED


def opened(text, client=None, clock=1_000, table=None, room=None, packet=5, peer=PEER, method=1):
    """What opening answers to a datagram of the method with this main header and payload."""
    key = datagram.KEYS[method]
    data = sealed(method, key, NONCE, ID, packet, text)
    room = len(data) - overhead(method) if room is None else room
    call = Call(method, key, client, clock, peer, data, b"\xa5" * room)
    return open(call, table_with(60) if table is None else table)


def worked_example():
    text = bytes.fromhex(datagram.TEXT)
    given, table = opened(text, room=20)
    header = Header((3, 13, 1), 80, ID, 5, 1_000, 0, 16)
    yield "worked example", given == Answer(0, header, text + b"\xa5" * 4)
    record = (1, ID, 5, 1_000, 1, 0, 0, 0, *PEER, 1, 0)
    yield "its record", table == (60, *record) + (0,) * (TABLE_WORDS - 14)
    again, after = opened(text, table=table)
    repeated = (60, *record[:-1], 1) + (0,) * (TABLE_WORDS - 14)
    yield "the same again", again == Answer(REPLAY, None, bytes(16)) and after == repeated
    given, after = opened(b"", table=table)
    yield "a datagram of 32 bytes", given == Answer(MALFORMED, None, b"") and after == table
    given, after = opened(text, table=table, room=15)
    yield "too little room", given == Answer(ROOM, None, b"\xa5" * 15) and after == table
    lengths = {n: opened(bytes(n))[0].number for n in range(19)}
    yield "short plaintexts", set(lengths.values()) == {MALFORMED, TIME}
    yield "under 11 bytes", [n for n in lengths if lengths[n] == MALFORMED] == list(range(11))


def inner(method, length, client=None, room=None, time=1_000, kind=None):
    """A call whose datagram, by a method of ChaCha, has the first bytes of a good plaintext, or of one of
    another time or type."""
    key = datagram.KEYS[method]
    text = plaintext(client, time, datagram.V4, payload=b"abc", kind=kind)
    text = datagram.separate_header(ID, 5) + text
    data = sealed_inner(method, key, NONCE, text[:length])
    room = len(data) - 40 if room is None else room
    return Call(method, key, client, 1_000, PEER, data, b"\xa5" * room)


def chacha_edges():
    """Both sides of each length by the methods of ChaCha, and where places are counted from."""
    new = table_with(60)
    for method, key in datagram.KEYS.items():
        if method not in DOUBLES:
            continue
        cut = Call(method, key, None, 1_000, PEER, inner(method, 0).datagram[:39], b"")
        yield f"39 bytes by {method}", open(cut, new) == (Answer(LENGTH, None, b""), new)
        long = cut._replace(datagram=bytes(MAX_LENGTH + 1))
        yield f"65,508 bytes by {method}", open(long, new)[0].number == LENGTH
        for client, fixed in ((None, 27), (CLIENT, 35)):
            for length in range(fixed + 7):
                call = inner(method, length, client, length + 3)
                left = bytes(length) + b"\xa5" * 3, new
                name = f"{length} bytes of plaintext by {method} of {fixed}"
                yield name, open(call, new) == (Answer(MALFORMED, None, left[0]), new)
                yield name + ", named", belongs(call) == (ID if length >= 8 else None)
            for length, number in ((fixed - 1, MALFORMED), (fixed, TYPE)):
                wrong = open(inner(method, length, client, time=0, kind=9), new)[0].number
                yield f"type behind {length} bytes by {method}", wrong == number
        call = inner(method, 34)
        given, table = open(call, new)
        target = Header((1, 0xC0000201), 80, ID, 5, 1_000, 0, 34)
        yield f"74 bytes by {method}", len(call.datagram) == 74 and given.header == target
        yield f"its record by {method}", table == table_with(60, begun(ID, 5, 1_000, PEER))
        short = open(call._replace(output=call.output[1:]), new)
        yield f"its room by {method}", short == (Answer(ROOM, None, b"\xa5" * 33), new)
        yield f"of a server by {method}", open(inner(method, 42, CLIENT), new)[0].number == 0
        given, _ = opened(plaintext(None, 1_000, datagram.NAME, b"\0\0", b"x"), method=method)
        yield f"places by {method}", (given.header.target, given.header.payload) == ((3, 31, 1), 34)
        yield f"the place by {method}", given.output[31:32] == b"a" and given.output[34:] == b"x"


def naming():
    """By the methods of ChaCha only what authenticates names a session, whatever its length."""
    for method in DOUBLES:
        call = inner(method, 37)
        yield f"named by {method}", belongs(call) == ID
        yield f"without room by {method}", belongs(call._replace(output=b"")) == ID
        for place in (0, 23, 24, 31, 40, len(call.datagram) - 1):
            forged = call._replace(datagram=datagram.flipped(call.datagram, place))
            yield f"forged at {place} by {method}", belongs(forged) is None
        for other in {1, 2, 3, 4, 5, 6} - {method}:
            there = other in KEY_LENGTHS and other not in DOUBLES and KEY_LENGTHS[other] == 32
            by_other = belongs(call._replace(method=other))
            yield f"of {method} by {other}", (by_other is not None) == there
        long = sealed_inner(method, call.key, NONCE, u64(ID) + bytes(MAX_LENGTH))
        yield f"over 65,507 by {method}", belongs(call._replace(datagram=long)) == ID


def order_examples():
    name = datagram.NAME
    padded = b"\1" + u64(1_000) + u64(CLIENT) + u16(1)  # padding past the end
    yield "under 19 bytes", opened(padded[:18], CLIENT)[0].number == MALFORMED
    yield "wrong type", opened(b"\2" + padded[1:], CLIENT)[0].number == TYPE
    yield "mirrored", opened(plaintext(None, 1_000, name), CLIENT)[0].number == MALFORMED
    mirrored = plaintext(None, 1_000, name, payload=bytes(3))
    yield "mirrored and longer", opened(mirrored, CLIENT)[0].number == TYPE
    yield "wrong time", opened(padded, 7, 1_031)[0].number == TIME
    yield "another client's", opened(padded, 7)[0].number == BINDING
    yield "padding past the end", opened(padded, CLIENT)[0].number == MALFORMED
    text = plaintext(CLIENT, 1_000, name)
    yield "our own", opened(text, CLIENT)[0].number == 0
    far = plaintext(None, 2**64 - 1, name)
    yield "time past the last", opened(far, clock=29)[0].number == TIME


def table_examples():
    yield "making, 0", make(0, (9,) * TABLE_WORDS) == (0, (300,) + (0,) * (TABLE_WORDS - 1))
    for retention in (1, 59, 3_601, 2**64 - 1):
        table = (9,) * TABLE_WORDS
        yield f"making, {retention}", make(retention, table) == (SETTINGS, table)
    for count in (0, 705, 832, 834):
        yield f"making, {count} words", make(60, (9,) * count) == (SETTINGS, (9,) * count)
    full = table_with(60, *(begun(n, 0, 1_000 + n, PEER) for n in range(64)))
    yield "full", admit(full, 1_060, 64, 0, PEER) == (FULL, full)
    number, table = admit(full, 1_060, 63, 1, OTHER_PEER)
    known = Session(1, 63, 1, 1_063, frozenset({0, 1}), OTHER_PEER, 2, 0)
    yield "known in a full table", number == 0 and table == with_words(full, 63, words_from(known))
    number, table = admit(full, 1_062, 64, 9, OTHER_PEER)
    new = begun(64, 9, 1_062, OTHER_PEER)
    yield "lowest forgotten", number == 0 and table == with_words(full, 0, words_from(new))
    odd = begun(ID, 20, 2**64 - 1, PEER)._replace(used=7, marks=frozenset({3, 30}))
    number, table = admit(table_with(60, odd), 0, ID, 21, PEER)
    expected = odd._replace(high=21, marks=frozenset({0, 4, 31}), accepted=2)
    yield "words of a host", number == 0 and table == table_with(60, expected)
    known = begun(ID, 20, 1_000, PEER)._replace(accepted=2**64 - 1, repeats=2**64 - 2)
    most = table_with(60, known)
    most = most[:11] + (2**63 + 80,) + most[12:]  # junk in the port's word
    number, table = admit(most, 1_010, ID, 20, OTHER_PEER)
    counted_once = most[:13] + (2**64 - 1,) + most[14:]
    yield "a repeat writes one word", (number, table) == (REPLAY, counted_once)
    yield "repeats stop", admit(table, 1_010, ID, 20, OTHER_PEER) == (REPLAY, table)
    _, table = admit(table, 1_010, ID, 21, OTHER_PEER)
    yield "accepted stops", words_of(table, 0)[10:] == (3, 2**64 - 1, 2**64 - 1)
    yield from reply_examples()
    early = plaintext(None, 1_030, datagram.NAME)
    _, table = opened(early)
    again, _ = opened(early, clock=1_060, table=table)
    yield "30 ahead, at its 60th second", again.number == REPLAY


def reply_examples():
    table = table_with(60, *(begun(n, 0, 1_000, PEER) for n in range(64)))
    for id in (0, 1, 63):
        at = {clock: begin_reply(table, clock, id, 99)[0] for clock in (990, 1_060, 1_061)}
        yield f"reply of ID {id}", at == {990: ARGUMENT, 1_060: ARGUMENT, 1_061: 0}
    yield "reply begun", begin_reply(table, 1_000, 64, 1) == (0, datagram.Sender(64, 0, 1))
    yield "its own client's ID", begin_reply(table, 1_061, 1, 1) == (ARGUMENT, None)
    yield "a client that is not there", begin_reply(table, 1_000, 64, 64) == (ARGUMENT, None)
    alike = [begun(ID, 0, last, PEER) for last in (939, 1_000)]
    yield "behind a forgotten one", begin_reply(table_with(60, *alike), 1_000, ID, 1)[0] == ARGUMENT
    for unlawful in ((59, *table[1:]), table[:-1], table + (0,), table[:705]):
        yield "1 before 12", begin_reply(unlawful, 1_000, 1, 1) == (SETTINGS, None)


# The same datagram twice: why a session is remembered for 60 seconds at least.


def answers_of(step, state, calls):
    """The numbers that a list of calls gets, each with what the one before left."""
    numbers = []
    for call in calls:
        given, state = step(call, state)
        numbers.append(given.number)
    return numbers


def twice(method, client, address, padding, payload):
    """A datagram sealed at 1,030, for its side at 1,000, at 1,060 and at 1,061."""
    text = plaintext(client, 1_030, address, bytes(padding), payload)
    data = sealed(method, datagram.KEYS[method], NONCE, ID, 5, text)
    due = len(data) - overhead(method)
    lent = ((1_000, PEER, b"\xa5"), (1_060, OTHER_PEER, b"\x5a"), (1_061, PEER, b"\0"))
    for clock, peer, fill in lent:
        yield Call(method, datagram.KEYS[method], client, clock, peer, data, fill * due)


def breaking_runs():
    sides = itertools.product(KEY_LENGTHS, (None, CLIENT), ADDRESSES, (0, 7), (b"", b"reading"))
    for side in sides:
        calls = list(twice(*side))
        for retention, again in ((59, 0), (60, REPLAY)):
            book = functools.partial(open_by_book, retention=retention)
            untested = (retention,) + (0,) * (TABLE_WORDS - 1)
            expected = [0, again, TIME]
            yield f"{retention} by the book, {side}", answers_of(book, {}, calls) == expected
            by_table = answers_of(open_untested, untested, calls)
            yield f"{retention} by the table, {side}", by_table == expected
        unlawful = (59,) + (0,) * (TABLE_WORDS - 1)
        yield f"59 refused, {side}", answers_of(open, unlawful, calls) == [SETTINGS] * 3
        lawful_table = table_with(60)
        yield f"60 is lawful, {side}", answers_of(open, lawful_table, calls) == [0, REPLAY, TIME]
        every = [calls[0]._replace(clock=clock) for clock in range(990, 1_130)]
        for retention in (60, 61, 3_600):
            numbers = answers_of(open, table_with(retention), every)
            yield f"every second, {retention}, {side}", numbers.count(0) == 1


# Random lists: the table against the book, and rearranged.


def lists():
    """Retention and calls."""
    yield 60, []
    yield 60, Host("empty").calls(1)
    for number in range(6):
        yield 60, Host(f"few {number}", 1 + number % 2, 3, quiet=85).calls(90)
    for number in range(6):
        yield 60, Host(f"few of ChaCha {number}", 3 + number % 3, 3, quiet=85).calls(90)
    yield 60, Host("many of ChaCha", 4, 200, quiet=99).calls(220)
    yield 60, Host("many", 1, 200, quiet=99).calls(220)
    yield 61, Host("late", 2, 5, 2**64 - 1_000, quiet=93).calls(90)
    yield 3_600, Host("equal", 1, 6, quiet=100).calls(90)


def book_runs():
    seen = collections.Counter()
    for number, (retention, calls) in enumerate(lists()):
        answers, sessions = run_table(retention, calls)
        seen.update(given.number for given in answers)
        yield f"list {number} by the book", (answers, sessions) == run_book(retention, calls)
        counts = {id: (taken, repeats) for id, *_, taken, repeats in sessions}
        seen.update("repeats" for _, repeats in counts.values() if repeats > 1)
        yield f"list {number}, replies", replies_by_book(retention, calls)
        same = not calls or counts == counted(retention, calls, answers)
        yield f"list {number}, calls counted", same
        taken = [call.datagram for call, given in zip(calls, answers) if given.number == 0]
        yield f"list {number}, no datagram twice", len(taken) == len(set(taken))
        if FULL in (given.number for given in answers):
            continue
        for turn in range(3):
            order = rearranged(calls, Dice(f"order {number} {turn}"))
            other = run_table(retention, [calls[place] for place in order])
            same = other == ([answers[place] for place in order], sessions)
            yield f"list {number} rearranged", same and sorted(order) == list(range(len(calls)))
    every = {0, LENGTH, ROOM, NOT_AUTHENTIC, MALFORMED, TYPE, TIME, REPLAY, FULL, BINDING}
    yield "every answer in the lists", set(seen) - {"repeats"} == every
    yield "sessions with repeats", seen["repeats"] > 3


def replies_by_book(retention, calls):
    """Whether 12 is given behind a list exactly for pages alive and the client's own ID."""
    _, table = make(retention, (0,) * TABLE_WORDS)
    pages = {}
    for call in calls:
        _, table = open(call, table)
        _, pages = open_by_book(call, pages, retention)
    last = calls[-1].clock if calls else 1_000
    clocks = last, last + 31, last + retention, last + 4_000
    for clock, id in itertools.product(clocks, (*pages, 7)):
        page = pages.get(id)
        is_alive = page is not None and alive(page.last, retention, clock)
        for client in (id, id + 1):
            number, _ = begin_reply(table, clock, id, client)
            if number != (ARGUMENT if is_alive or id == client else 0):
                return False
    return True


def selftest():
    """The names of the examples that this code fails."""
    edges = (marked_edges(), worked_example(), chacha_edges(), order_examples(), table_examples())
    runs = (naming(), breaking_runs(), book_runs())
    return [name for name, holds in itertools.chain(*edges, *runs) if not holds]


if __name__ == "__main__":
    aes.run(selftest, "examples of sessions, and the table against the book: all agree")
