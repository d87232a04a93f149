"""Streams and the salt pool (SIP022, sections 3.1 and 4), written from that document and the scope.

An independent reference for the proved code: the heads of both directions and the
chunks behind them, sealed and opened, and the pool as its 1,537 words. Plain and slow.
Chunks are said over what an edition sets for them, for sip004.py too.

Each call checks in the order of its refusals; the first that is not met is raised
as Refused and answered.

    python3 reference/streams.py --selftest
"""

import collections
import functools
import itertools
import sys

sys.dont_write_bytecode = True  # no __pycache__ in the tree
import aes  # noqa: E402
import blake3  # noqa: E402
import chacha_poly  # noqa: E402
import datagram  # noqa: E402
import gcm  # noqa: E402
from datagram import ARGUMENT, COUNTER, DOUBLES, KEY_LENGTHS, LENGTH, ROOM, SETTINGS  # noqa: E402
from datagram import u16, u64  # noqa: E402
from gcm import TAG_LENGTH  # noqa: E402
from sessions import BINDING, FULL, MALFORMED, NOT_AUTHENTIC, REPLAY, TIME, TYPE  # noqa: E402
from sessions import target_of, time_valid  # noqa: E402

MORE = 10  # the refusal that gives the number of bytes wanted
EMPTY = 14  # a payload of no bytes

SALT_LENGTHS = {1: 16, 2: 32, 3: 32, 4: 32, 5: 32}  # by method
REQUEST, RESPONSE = 0, 1  # types
MAX_CHUNK = 0xFFFF
MAX_PADDING = 900
LAST_COUNTER = 2**64 - 1  # never used
LENGTH_CHUNK = 2 + TAG_LENGTH

SALTS = 256
RECORD_WORDS = 6
POOL_WORDS = 1 + SALTS * RECORD_WORDS
KEPT = 60  # seconds

# What an edition sets for the chunks of a stream: the key lengths by method, and how many bytes a
# payload has at least and at most.
Edition = collections.namedtuple("Edition", "key_lengths least greatest")
SIP022 = Edition(KEY_LENGTHS, 1, MAX_CHUNK)

# What a receiving stream opens next.
ENDED, LENGTH_NEXT, PAYLOAD_NEXT, _, VARIABLE_NEXT = range(5)

# A stream behind its head, or between the two calls that open a request's. The subkey is four words;
# the length is that of the next payload or variable chunk, or 0.
Sender = collections.namedtuple("Sender", "method counter subkey")
Receiver = collections.namedtuple("Receiver", "method turn length counter subkey")

# What an accepted head or step says. A variable chunk's target: (1, number), (4, number, number)
# or (3, place, length); its places are from the start of its plaintext.
Request = collections.namedtuple("Request", "time length")
Variable = collections.namedtuple("Variable", "target port padding payload length")
Response = collections.namedtuple("Response", "time length")
Chunk = collections.namedtuple("Chunk", "length")

# An answer: the number of the refusal or 0; the count of bytes sealed, used or wanted; what an
# opened piece says; the stream afterwards, None if there is none; the output afterwards.
Answer = collections.namedtuple("Answer", "number count said stream output")


class Refused(Exception):
    """A refusal: its number, the bytes wanted, and how many bytes of the output it clears."""

    def __init__(self, number, wanted=0, cleared=0):
        super().__init__(number)
        self.number, self.wanted, self.cleared = number, wanted, cleared

    def answer(self, stream, output):
        left = bytes(self.cleared) + output[self.cleared :]
        return Answer(self.number, self.wanted, None, stream, left)


def require(holds, number, **others):
    if not holds:
        raise Refused(number, **others)


def require_bytes(data, wanted):
    require(len(data) >= wanted, MORE, wanted=wanted)


# Section 2.2 and 3.1.1: the subkey and the nonce of a stream.


@functools.lru_cache(maxsize=None)
def subkey(key, salt):
    return blake3.derive_key(datagram.SUBKEY_CONTEXT, key + salt, len(key))


def nonce(counter):
    return counter.to_bytes(12, "little")


# Section 4: the methods of ChaCha replace GCM and nothing else. The 2017 edition has GCM.


@functools.lru_cache(maxsize=None)
def sealed_piece(method, secret, counter, text):
    if method in DOUBLES:
        return chacha_poly.seal(DOUBLES[method], secret, nonce(counter), text)
    return gcm.seal(secret, nonce(counter), text)


@functools.lru_cache(maxsize=None)
def text_of_piece(method, secret, counter, sealed):
    """The plaintext, None if the tag is wrong."""
    if method in DOUBLES:
        return chacha_poly.open(DOUBLES[method], secret, nonce(counter), sealed)
    return gcm.open(secret, nonce(counter), sealed)


def opened_piece(method, secret, counter, sealed):
    """The plaintext, where the tag is good."""
    text = text_of_piece(method, secret, counter, sealed)
    require(text is not None, NOT_AUTHENTIC)
    return text


def words_from(data):
    """A subkey or a salt as four words, zeros behind one of less than 32 bytes."""
    data = data.ljust(32, b"\0")
    return tuple(int.from_bytes(data[at : at + 8], "big") for at in range(0, 32, 8))


def secret_of(stream, edition=SIP022):
    return b"".join(map(u64, stream.subkey))[: edition.key_lengths[stream.method]]


# Section 3.1.3: the headers.


def fixed_header(kind, time, request_salt, length):
    """A request's has no request salt."""
    return bytes([kind]) + u64(time) + request_salt + u16(length)


def fixed_length(method, kind):
    return 1 + 8 + (0 if kind == REQUEST else SALT_LENGTHS[method]) + 2


def variable_header(address, padding, payload):
    return address + u16(padding) + bytes(padding) + payload


def read_fixed(kind, clock, text):
    """Time, request salt and length."""
    require(text[0] == kind, TYPE)
    time = int.from_bytes(text[1:9], "big")
    require(time_valid(time, clock), TIME)
    return time, text[9:-2], int.from_bytes(text[-2:], "big")


def read_variable(text):
    """Target, port, padding length and the payload's place, None if malformed."""
    end = datagram.address_length(text)
    if end is None:
        return None
    behind = datagram.parts(text[end:], 2)
    if behind is None:
        return None
    padding = int.from_bytes(behind[0], "big")
    padded = datagram.parts(behind[1], padding)
    if padding > MAX_PADDING or padded is None or (padding == 0 and not padded[1]):
        return None
    port = int.from_bytes(text[end - 2 : end], "big")
    return target_of(text[:end]), port, padding, end + 2 + padding


# Section 3.1.4: the salt pool. A pool is a tuple of words; what changes it gives another.


def make(method, pool):
    """A refusal's number, or 0; and the pool afterwards."""
    if method not in SALT_LENGTHS or len(pool) != POOL_WORDS:
        return SETTINGS, pool
    return 0, (method,) + (0,) * (POOL_WORDS - 1)


def lawful(pool, method):
    return len(pool) == POOL_WORDS and pool[0] == method


def record_words(pool, record):
    start = 1 + record * RECORD_WORDS
    return pool[start : start + RECORD_WORDS]


def kept_records(pool, clock):
    for record in range(SALTS):
        used, time, *_ = record_words(pool, record)
        if used != 0 and clock <= time + KEPT:
            yield record


def salts_kept(pool, clock):
    """The salts kept, as bytes of the pool's method."""
    for record in kept_records(pool, clock):
        salt = b"".join(map(u64, record_words(pool, record)[2:]))
        yield salt[: SALT_LENGTHS[pool[0]]]


def free_record(pool, clock):
    """The lowest record not kept, None if there is none."""
    kept = set(kept_records(pool, clock))
    return next((record for record in range(SALTS) if record not in kept), None)


def stored(pool, record, clock, salt):
    start = 1 + record * RECORD_WORDS
    words = (1, clock, *words_from(salt))
    return pool[:start] + words + pool[start + RECORD_WORDS :]


# Sealing.


def begun(method, key, salt):
    """The sending stream behind its head."""
    return Sender(method, 2, words_from(subkey(key, salt)))


def require_settings(method, key, *salts):
    require(KEY_LENGTHS.get(method) == len(key), SETTINGS)
    for salt in salts:
        require(SALT_LENGTHS[method] == len(salt), SETTINGS)


def require_size(chunk, before, output, greatest=MAX_CHUNK):
    """The length of what is sealed: a chunk of this length and tag, and the bytes before it."""
    require(chunk <= greatest, LENGTH)
    length = before + chunk + TAG_LENGTH
    require(length <= len(output), ROOM)
    return length


def written(data, stream, output):
    return Answer(0, len(data), None, stream, data + output[len(data) :])


def seal_request(method, key, salt, clock, address, padding, payload, output):
    try:
        require_settings(method, key, salt)
        require(datagram.address_length(address) == len(address), ARGUMENT)
        require(padding <= MAX_PADDING and (padding or payload), ARGUMENT)
        length = len(address) + 2 + padding + len(payload)
        require_size(length, len(salt) + fixed_length(method, REQUEST) + TAG_LENGTH, output)
    except Refused as refusal:
        return refusal.answer(None, output)
    texts = fixed_header(REQUEST, clock, b"", length), variable_header(address, padding, payload)
    return written(head(method, key, salt, *texts), begun(method, key, salt), output)


def seal_response(method, key, salt, request_salt, clock, payload, output):
    try:
        require_settings(method, key, salt, request_salt)
        require(payload, EMPTY)
        before = len(salt) + fixed_length(method, RESPONSE) + TAG_LENGTH
        require_size(len(payload), before, output)
    except Refused as refusal:
        return refusal.answer(None, output)
    fixed = fixed_header(RESPONSE, clock, request_salt, len(payload))
    return written(head(method, key, salt, fixed, payload), begun(method, key, salt), output)


def head(method, key, salt, *texts):
    """The salt and these plaintexts sealed, from counter 0 on."""
    secret = subkey(key, salt)
    return salt + b"".join(sealed_piece(method, secret, *each) for each in enumerate(texts))


def seal_chunk(stream, payload, output, edition=SIP022):
    try:
        require(stream.method in edition.key_lengths, SETTINGS)
        require(len(payload) >= edition.least, EMPTY)
        require(stream.counter + 2 <= LAST_COUNTER, COUNTER)
        require_size(len(payload), LENGTH_CHUNK, output, edition.greatest)
    except Refused as refusal:
        return refusal.answer(stream, output)
    settings, counter = (stream.method, secret_of(stream, edition)), stream.counter
    data = sealed_piece(*settings, counter, u16(len(payload)))
    data += sealed_piece(*settings, counter + 1, payload)
    return written(data, stream._replace(counter=counter + 2), output)


# Opening.


def open_request(method, key, clock, data, pool, output=b""):
    """The salt and the fixed header: the answer, and the pool afterwards. Nothing is put out."""
    try:
        return accept_request(method, key, clock, data, pool, output)
    except Refused as refusal:
        return refusal.answer(None, output), pool


def accept_request(method, key, clock, data, pool, output):
    require_settings(method, key)
    require(lawful(pool, method), SETTINGS)
    fixed = SALT_LENGTHS[method]
    end = fixed + fixed_length(method, REQUEST) + TAG_LENGTH
    require_bytes(data, end)
    salt = data[:fixed]
    secret = subkey(key, salt)
    text = opened_piece(method, secret, 0, data[fixed:end])
    time, _, length = read_fixed(REQUEST, clock, text)
    require(salt not in salts_kept(pool, clock), REPLAY)
    record = free_record(pool, clock)
    require(record is not None, FULL)
    stream = Receiver(method, VARIABLE_NEXT, length, 1, words_from(secret))
    answer = Answer(0, end, Request(time, length), stream, output)
    return answer, stored(pool, record, clock, salt)


def open_variable(stream, data, output):
    """The variable chunk, behind the fixed header. Refusals 4 and 5 end the stream."""
    try:
        return accept_variable(stream, data, output)
    except Refused as refusal:
        return refusal.answer(left_by(refusal, stream), output)


def accept_variable(stream, data, output):
    require(stream.method in KEY_LENGTHS, SETTINGS)
    require(stream.turn != ENDED, NOT_AUTHENTIC)
    require(stream.turn == VARIABLE_NEXT and stream.counter == 1, SETTINGS)
    require(stream.length <= MAX_CHUNK, SETTINGS)
    length, end = stream.length, stream.length + TAG_LENGTH
    require_bytes(data, end)
    require(length <= len(output), ROOM)
    text = opened_piece(stream.method, secret_of(stream), 1, data[:end])
    said = read_variable(text)
    require(said is not None, MALFORMED, cleared=length)
    later = stream._replace(turn=LENGTH_NEXT, length=0, counter=2)
    return Answer(0, end, Variable(*said, length), later, text + output[length:])


def left_by(refusal, stream):
    """A stream as a refusal leaves it."""
    ends = refusal.number in (NOT_AUTHENTIC, MALFORMED, EMPTY)
    return stream._replace(turn=ENDED) if ends else stream


def open_response(method, key, clock, request_salt, data, output=b""):
    """Nothing is put out."""
    try:
        require_settings(method, key, request_salt)
        fixed = SALT_LENGTHS[method]
        end = fixed + fixed_length(method, RESPONSE) + TAG_LENGTH
        require_bytes(data, end)
        secret = subkey(key, data[:fixed])
        text = opened_piece(method, secret, 0, data[fixed:end])
        time, bound, length = read_fixed(RESPONSE, clock, text)
        require(bound == request_salt, BINDING)
        require(length, EMPTY)
    except Refused as refusal:
        return refusal.answer(None, output)
    stream = Receiver(method, PAYLOAD_NEXT, length, 1, words_from(secret))
    return Answer(0, end, Response(time, length), stream, output)


def step(stream, data, output, edition=SIP022):
    """Opens the next chunk. Refusals 4, 5 and 14 end the stream."""
    try:
        return accept_chunk(stream, data, output, edition)
    except Refused as refusal:
        return refusal.answer(left_by(refusal, stream), output)


def accept_chunk(stream, data, output, edition):
    lengths = range(edition.least, edition.greatest + 1)
    require(stream.method in edition.key_lengths, SETTINGS)
    require(stream.turn in (ENDED, LENGTH_NEXT, PAYLOAD_NEXT), SETTINGS)
    require(stream.turn != PAYLOAD_NEXT or stream.length in lengths, SETTINGS)
    require(stream.turn != ENDED, NOT_AUTHENTIC)
    require(stream.counter < LAST_COUNTER, COUNTER)
    text_length = stream.length if stream.turn == PAYLOAD_NEXT else 2
    end = text_length + TAG_LENGTH
    require_bytes(data, end)
    if stream.turn == PAYLOAD_NEXT:
        require(text_length <= len(output), ROOM)
    secret = secret_of(stream, edition)
    text = opened_piece(stream.method, secret, stream.counter, data[:end])
    later = stream._replace(counter=stream.counter + 1)
    if stream.turn == PAYLOAD_NEXT:
        later = later._replace(turn=LENGTH_NEXT, length=0)
        return Answer(0, end, Chunk(text_length), later, text + output[text_length:])
    length = int.from_bytes(text, "big")
    require(length >= edition.least, EMPTY)
    require(length <= edition.greatest, MALFORMED)
    later = later._replace(turn=PAYLOAD_NEXT, length=length)
    return Answer(0, end, Chunk(length), later, output)


# Examples.

KEYS = datagram.KEYS
SALTS_OF = {method: bytes(range(100, 100 + length)) for method, length in SALT_LENGTHS.items()}
REQUEST_SALTS = {method: bytes(range(200, 200 + length)) for method, length in SALT_LENGTHS.items()}
CLOCK = 1_000

# Of the scope: a counter and its nonce.
COUNTER_OF_NONCE, NONCE = 258, "02 01" + " 00" * 10

# By method: the bytes wanted of a request and of a response.
WANTED = {1: (43, 59), 2: (59, 91), 3: (59, 91), 4: (59, 91), 5: (59, 91)}
FILLED = b"\xa5" * 70_000


def new_pool(method, *records):
    """A pool with these records, each its word in use, time and salt."""
    pool = [method] + [0] * (POOL_WORDS - 1)
    for number, (used, time, salt) in enumerate(records):
        start = 1 + number * RECORD_WORDS
        pool[start : start + RECORD_WORDS] = (used, time, *words_from(salt))
    return tuple(pool)


def request_of(method, text, kind=REQUEST, time=CLOCK, length=None):
    """A head of any plaintext of the variable chunk, with any length said."""
    length = len(text) if length is None else length
    fixed = fixed_header(kind, time, b"", length)
    return head(method, KEYS[method], SALTS_OF[method], fixed, text)


def response_of(method, payload, kind=RESPONSE, time=CLOCK, bound=None):
    bound = REQUEST_SALTS[method] if bound is None else bound
    fixed = fixed_header(kind, time, bound, len(payload))
    return head(method, KEYS[method], SALTS_OF[method], fixed, payload)


def opened(method, data, clock=CLOCK, pool=None):
    pool = new_pool(method) if pool is None else pool
    return open_request(method, KEYS[method], clock, data, pool)


def number_of(method, data, **others):
    return opened(method, data, **others)[0].number


def between(method, data, output=FILLED):
    """The second call on a request's bytes, from the stream that the first one handed on."""
    answer, _ = opened(method, data)
    return open_variable(answer.stream, data[answer.count :], output)


def steps(stream, data):
    """The payloads of a stream's bytes behind its head, and what is left of them."""
    payloads = []
    while True:
        answer = step(stream, data, FILLED)
        if answer.number:
            return payloads, answer.number, data
        if stream.turn == PAYLOAD_NEXT:
            payloads.append(answer.output[: answer.said.length])
        stream, data = answer.stream, data[answer.count :]


PAYLOADS = (b"first", b"\0", bytes(99), b"last")


def chunks(stream, payloads):
    data = b""
    for payload in payloads:
        answer = seal_chunk(stream, payload, FILLED)
        data, stream = data + answer.output[: answer.count], answer.stream
    return data


def whole_streams():
    yield "nonce", nonce(COUNTER_OF_NONCE) == bytes.fromhex(NONCE)
    for method, key in KEYS.items():
        salt, bound = SALTS_OF[method], REQUEST_SALTS[method]
        sealed = seal_request(method, key, salt, CLOCK, datagram.NAME, 3, b"abc", FILLED)
        data = sealed.output[: sealed.count] + chunks(sealed.stream, PAYLOADS)
        answer, pool = opened(method, data)
        front, behind = answer.count, data[answer.count :]
        yield f"request {method}", answer.said == (CLOCK, 13) and front == WANTED[method][0]
        yield f"its pool {method}", pool == new_pool(method, (1, CLOCK, salt))
        answer = open_variable(answer.stream, behind, FILLED)
        yield f"its header {method}", answer.said == Variable((3, 2, 1), 80, 3, 10, 13)
        yield f"its bytes {method}", front + answer.count == sealed.count
        yield f"its text {method}", answer.output[:13] == datagram.NAME + b"\0\3\0\0\0abc"
        yield f"its stream {method}", answer.stream[1:4] == (LENGTH_NEXT, 0, 2)
        left = steps(answer.stream, behind[answer.count :])
        yield f"its chunks {method}", left == (list(PAYLOADS), MORE, b"")
        sealed = seal_response(method, key, salt, bound, CLOCK, PAYLOADS[0], FILLED)
        data = sealed.output[: sealed.count] + chunks(sealed.stream, PAYLOADS[1:])
        answer = open_response(method, key, CLOCK, bound, data)
        yield f"response {method}", answer.said == Response(CLOCK, len(PAYLOADS[0]))
        left = steps(answer.stream, data[answer.count :])
        yield f"its chunks {method}", left == (list(PAYLOADS), MORE, b"")


def wanted_numbers():
    for method, (request, response) in WANTED.items():
        data, pool = request_of(method, datagram.NAME + b"\0\0x"), new_pool(method)
        for length in range(request):
            answer, after = opened(method, data[:length])
            same = answer == Answer(MORE, request, None, None, b"") and after == pool
            yield f"request {method} of {length} bytes", same
        first, after = opened(method, data[:request])
        yield f"stored {method}", after == new_pool(method, (1, CLOCK, SALTS_OF[method]))
        for length in range(request, len(data)):
            answer = open_variable(first.stream, data[request:length], FILLED)
            same = answer == Answer(MORE, len(data) - request, None, first.stream, FILLED)
            yield f"variable chunk {method} of {length} bytes", same
        yield f"then {method}", open_variable(first.stream, data[request:], FILLED).number == 0
        data = response_of(method, b"abc")
        for length in range(response):
            answer = open_response(
                method, KEYS[method], CLOCK, REQUEST_SALTS[method], data[:length]
            )
            yield f"response {method} of {length} bytes", answer[:2] == (MORE, response)
        stream = Receiver(method, LENGTH_NEXT, 0, 2, (0,) * 4)
        yield f"length {method}", step(stream, bytes(17), b"") == (MORE, 18, None, stream, b"")
        stream = stream._replace(turn=PAYLOAD_NEXT, length=65_535)
        yield f"payload {method}", step(stream, bytes(65_550), b"")[:2] == (MORE, 65_551)


def malformed_requests():
    name = datagram.NAME
    texts = (b"", name, name + b"\0", name + b"\0\0", name + b"\0\1", name[:-1])
    texts += (name + u16(901) + bytes(901), b"\2" + name[1:] + b"\0\1\0")
    for text in texts:
        answer = between(1, request_of(1, text), FILLED[: len(text) + 1])
        same = answer[:3] == (MALFORMED, 0, None) and answer.stream.turn == ENDED
        yield f"malformed {text[:9]}", same and answer.output == bytes(len(text)) + FILLED[:1]
    for text in (name + b"\0\1\0", name + b"\0\0\0", name + u16(900) + bytes(900)):
        yield f"good {text[:9]}", between(1, request_of(1, text)).number == 0


def order_examples():
    name, salt = datagram.NAME + b"\0\0", SALTS_OF[1]
    full = new_pool(1, *((1, CLOCK, u64(n)) for n in range(SALTS)))
    known = new_pool(1, (7, CLOCK, salt))
    bad = request_of(1, name, time=CLOCK + 31, kind=1)
    yield "10 before 4", number_of(1, datagram.flipped(bad, 20)[:42]) == MORE
    yield "4 before 6", number_of(1, datagram.flipped(bad, 20)) == NOT_AUTHENTIC
    yield "6 before 7", number_of(1, bad, pool=known) == TYPE
    late = request_of(1, name, time=CLOCK + 31)
    yield "7 before 8", number_of(1, late, pool=known) == TIME
    data = request_of(1, name)
    yield "8 before 9", number_of(1, data[:43], pool=known[:7] + full[7:]) == REPLAY
    yield "9", number_of(1, data[:43], pool=full) == FULL
    yield "10 before 3", between(1, data[:-1], b"").number == MORE
    damaged = datagram.flipped(data, len(data) - 1)
    yield "3 before 4", between(1, damaged, b"").number == ROOM
    yield "4 before 5", between(1, damaged).number == NOT_AUTHENTIC
    yield "5", between(1, data).number == MALFORMED
    bad = response_of(1, b"", kind=0, time=0, bound=salt)
    yield "a response's 6", open_response(1, KEYS[1], CLOCK, SALTS_OF[1], bad).number == TYPE
    bad = response_of(1, b"", bound=salt)
    answer = open_response(1, KEYS[1], CLOCK, REQUEST_SALTS[1], bad)
    yield "a response's 13", answer.number == BINDING
    answer = open_response(1, KEYS[1], CLOCK, REQUEST_SALTS[1], response_of(1, b""))
    yield "a response's 14", answer == Answer(EMPTY, 0, None, None, b"")


def second_calls():
    """What the second call leaves, and what the pool knows then."""
    for method in KEYS:
        data = request_of(method, datagram.NAME + b"\0\0x")
        first, pool = opened(method, data)
        stream, behind = first.stream, data[first.count :]
        bare = request_of(method, datagram.NAME + b"\0\0")[first.count :]
        short = stream._replace(length=len(bare) - TAG_LENGTH)
        for name, state, sealed, output, number, turn in (
            ("10", stream, behind[:-1], FILLED, MORE, VARIABLE_NEXT),
            ("3", stream, behind, b"", ROOM, VARIABLE_NEXT),
            ("4", stream, datagram.flipped(behind, 0), FILLED, NOT_AUTHENTIC, ENDED),
            ("5", short, bare, FILLED, MALFORMED, ENDED),
        ):
            answer = open_variable(state, sealed, output)
            left = answer.number == number and answer.stream.turn == turn
            yield f"{name} of {method}", left and answer.stream[2:] == state[2:]
            again = opened(method, data, pool=pool, clock=CLOCK + 30)
            yield f"known after {name} of {method}", again == (Refused(REPLAY).answer(None, b""), pool)
        yield f"again {method}", open_variable(stream, behind, FILLED).number == 0
        yield f"forgotten {method}", opened(
            method, request_of(method, b"", time=CLOCK + 61), pool=pool, clock=CLOCK + 61
        )[0].number == 0
        for turn, number in ((ENDED, 4), (LENGTH_NEXT, 1), (PAYLOAD_NEXT, 1)):
            other = stream._replace(turn=turn)
            answer = open_variable(other, behind, FILLED)
            yield f"turn {turn} of {method}", answer == (number, 0, None, other, FILLED)
        for counter in (0, 2, LAST_COUNTER):
            other = stream._replace(counter=counter)
            yield f"counter {counter}", open_variable(other, behind, FILLED).number == SETTINGS
        yield f"a step {method}", step(stream, behind, FILLED) == (1, 0, None, stream, FILLED)
        none = request_of(method, b"")
        first, _ = opened(method, none)
        yield f"length 0 of {method}", first.number == 0 and first.said.length == 0
        answer = open_variable(first.stream, none[first.count : -1], b"")
        yield f"wants 16 of {method}", answer[:2] == (MORE, 16)
        answer = open_variable(first.stream, none[first.count :], b"")
        yield f"then 5 of {method}", answer.number == MALFORMED and answer.stream.turn == ENDED


def empty_chunks():
    for method, key in KEYS.items():
        words = words_from(subkey(key, SALTS_OF[method]))
        for counter in (2, LAST_COUNTER - 1, LAST_COUNTER):
            sender = Sender(method, counter, words)
            answer = seal_chunk(sender, b"", b"")
            yield f"sealed by {method} at {counter}", answer == (EMPTY, 0, None, sender, b"")
        bad = seal_response(method, key, SALTS_OF[method], REQUEST_SALTS[method], CLOCK, b"", b"")
        yield f"a response of {method}", bad == (EMPTY, 0, None, None, b"")
        stream = Receiver(method, LENGTH_NEXT, 0, 2, words)
        data = sealed_piece(method, secret_of(stream), 2, b"\0\0")
        answer = step(stream, data + b"behind", FILLED)
        ended = stream._replace(turn=ENDED)
        yield f"a length of {method}", answer == (EMPTY, 0, None, ended, FILLED)
        yield f"then {method}", step(ended, data, FILLED).number == NOT_AUTHENTIC
        bad = step(stream, datagram.flipped(data, 17), FILLED)
        yield f"its tag first {method}", bad.number == NOT_AUTHENTIC
        lent = stream._replace(turn=PAYLOAD_NEXT)
        answer = step(lent, sealed_piece(method, secret_of(stream), 2, b""), FILLED)
        yield f"a payload turn of {method}", answer == (SETTINGS, 0, None, lent, FILLED)
        one = sealed_piece(method, secret_of(stream), 2, b"\0\1")
        yield f"a length of 1 of {method}", step(stream, one, FILLED).number == 0


def pool_examples():
    data, salt = request_of(1, datagram.NAME + b"\0\0x"), SALTS_OF[1]
    for time in (CLOCK - 61, CLOCK - 60, CLOCK, 2**64 - 1):
        answer = 0 if time == CLOCK - 61 else REPLAY
        yield f"stored at {time}", number_of(1, data, pool=new_pool(1, (9, time, salt))) == answer
    junk = new_pool(1, (1, 0, salt), (1, CLOCK, salt + bytes(range(16))))
    yield "junk behind a salt", number_of(1, data, pool=junk) == REPLAY
    places = new_pool(1, (1, CLOCK, b"x"), (0, 2**64 - 1, salt + salt), (0, 0, b""))
    answer, pool = opened(1, data, pool=places)
    good = new_pool(1, (1, CLOCK, b"x"), (1, CLOCK, salt))
    yield "the lowest record", answer.number == 0 and pool == good
    yield "another method's pool", number_of(1, data, pool=new_pool(2)) == SETTINGS
    yield "making", make(2, (9,) * POOL_WORDS) == (0, new_pool(2))
    for method in (3, 4, 5):
        yield f"making {method}", make(method, (9,) * POOL_WORDS) == (0, new_pool(method))
        others = {1, 2, 3, 4, 5, 6} - {method}
        data = request_of(method, datagram.NAME + b"\0\0x")
        wrong = {number_of(method, data, pool=new_pool(other)) for other in others}
        yield f"pools of others by {method}", wrong == {SETTINGS}
        junk = new_pool(method, (1, CLOCK, SALTS_OF[method][:31] + b"\0"))
        yield f"four words of {method}", number_of(method, data, pool=junk) == 0
    for method, words in ((0, POOL_WORDS), (6, POOL_WORDS), (2**32 + 1, POOL_WORDS), (1, 1_536)):
        pool = (9,) * words
        yield f"making {method} of {words}", make(method, pool) == (SETTINGS, pool)


def heads_once():
    """A head at every second from before its time to behind it: accepted once."""
    for method in KEYS:
        data = request_of(method, datagram.NAME + b"\0\0x", time=CLOCK + 30)
        for pool in (new_pool(method), new_pool(method, (9, CLOCK - 60, SALTS_OF[method]))):
            numbers = {}
            for clock in range(CLOCK - 10, CLOCK + 70):
                answer, pool = opened(method, data, clock, pool)
                numbers[clock - CLOCK] = answer.number
            yield f"once, {method}", list(numbers.values()).count(0) == 1
            yield f"kept while timely, {method}", numbers[60] == REPLAY
            yield f"then stale, {method}", numbers[61] == TIME


def counter_examples():
    words = words_from(KEYS[1])
    for counter, number in ((2**64 - 3, 0), (2**64 - 2, COUNTER), (2**64 - 1, COUNTER)):
        stream = Sender(1, counter, words)
        answer = seal_chunk(stream, b"a", FILLED)
        later = stream if number else stream._replace(counter=LAST_COUNTER)
        yield f"sealing at {counter}", (answer.number, answer.stream) == (number, later)
        yield f"sealed at {counter}", (answer.output == FILLED) == (number != 0)
    for method, key in KEYS.items():
        words = words_from(key)
        data = sealed_piece(method, key, 2**64 - 2, b"\0\5")
        stream = Receiver(method, LENGTH_NEXT, 0, 2**64 - 2, words)
        answer = step(stream, data, b"")
        later = Receiver(method, PAYLOAD_NEXT, 5, LAST_COUNTER, words)
        yield f"opening at 2^64 - 2 by {method}", answer.stream == later
        yield f"then by {method}", step(later, b"", b"") == (COUNTER, 0, None, later, b"")
        ended = step(stream, datagram.flipped(data, 0), b"").stream
        yield "ended", ended.turn == ENDED and step(ended, b"", b"").number == NOT_AUTHENTIC
        yield "no method", step(ended._replace(method=6), b"", b"").number == SETTINGS


def ciphers():
    """A piece of one method opens by no other, and by ChaCha as RFC 8439 has it."""
    for method, key in KEYS.items():
        sealed = sealed_piece(method, key, COUNTER_OF_NONCE, b"text")
        others = [other for other in KEYS if len(KEYS[other]) == len(key) and other != method]
        opened = {text_of_piece(other, key, COUNTER_OF_NONCE, sealed) for other in others}
        yield f"{method} by others", opened <= {None}
        if method in DOUBLES:
            plain = chacha_poly.open(DOUBLES[method], key, bytes.fromhex(NONCE), sealed)
            yield f"by {method}", plain == b"text"


def selftest():
    """The names of the examples that this code fails."""
    checks = (whole_streams(), wanted_numbers(), malformed_requests(), order_examples())
    checks += (pool_examples(), heads_once(), counter_examples(), second_calls(), empty_chunks())
    checks += (ciphers(),)
    return [name for name, holds in itertools.chain(*checks) if not holds]


if __name__ == "__main__":
    aes.run(selftest, "examples of streams and of the salt pool: all agree")
