"""Calls about streams, and what the reference answers to each."""

import collections
import sys

sys.dont_write_bytecode = True  # no __pycache__ in the tree
import vectors  # noqa: E402
import streams  # noqa: E402
from datagram import LONG_NAME, NAME, V4, V6, u16, u64  # noqa: E402
from streams import ENDED, KEYS, LENGTH_NEXT, PAYLOAD_NEXT, POOL_WORDS  # noqa: E402
from streams import SALT_LENGTHS, SALTS, VARIABLE_NEXT, Receiver, Sender, new_pool  # noqa: E402
from vectors import BUFFER_LIMIT, NO_STREAM, STREAM_WORDS, STREAMS  # noqa: E402

AES = {"128": 1, "256": 2}
METHODS = AES | {"ChaCha20": 3, "ChaCha12": 4, "ChaCha8": 5}

WORD_LIMIT = NO_STREAM  # words of a pool, one behind it, and four streams

SENDING = 3  # the first word of a sending stream; a receiving one has its turn there
BEHIND = 8  # bytes behind what is used or written, to show that they are left alone
FILL = b"\xa5"  # what the program fills its output with
LAST = 2**64 - 1

HOST_NAME, JUNK = vectors.stream("stream host and junk", 255, 64)
LONG = LONG_NAME[:2] + HOST_NAME + b"\xff\xff"
ADDRESSES = (V4, V6, NAME, b"\3\x0bexample.com\x01\xbb", LONG, b"\1" + bytes(6), b"\4" + bytes(18))

SEAL_REQUEST, SEAL_RESPONSE, SEAL_CHUNK, OPEN_REQUEST, OPEN_RESPONSE, OPEN_CHUNK = range(6)
OPEN_VARIABLE = vectors.OPEN_VARIABLE - vectors.SEAL_REQUEST
SEALING = (SEAL_REQUEST, SEAL_RESPONSE, SEAL_CHUNK)
NO_OUTPUT = (OPEN_REQUEST, OPEN_RESPONSE)

# The arguments of a call. The stream is in a slot; the salt is the call's own, or the request's
# where a response is opened; the other string is an address or the request's salt; the data is
# a payload, or a stream's bytes before the flip: a place, and a mask for the byte there.
Call = collections.namedtuple(
    "Call", "kind slot method clock padding lent room key salt other data flip"
)

# A call with what it leaves, and words that a list begins with.
Run = collections.namedtuple("Run", "call before answer after")
Making = collections.namedtuple("Making", "method words before answer after")
Words = collections.namedtuple("Words", "after")


def beside(name):
    """The methods of AES and this one, for what does not depend on the cipher."""
    return AES | {name: METHODS[name]}


def pattern(length):
    """A payload, or the end of a long string, by the place of each byte."""
    return bytes(i % 251 for i in range(length))


def salt_of(method, number=0):
    (salt,) = vectors.stream(f"stream salt {number}", 32)
    return salt[: SALT_LENGTHS[method]]


def flipped(data, flip):
    place, mask = flip
    changed = bytearray(data)
    if place < len(changed):
        changed[place] ^= mask
    return bytes(changed)


# Streams as words.


def words_of(stream, before):
    """Of an ended stream only the turn is compared, so its other words stay."""
    if isinstance(stream, Sender):
        return (SENDING, stream.method, stream.counter, 0, *stream.subkey)
    if stream.turn == ENDED:
        return (ENDED, *before[1:])
    return (stream.turn, stream.method, stream.counter, stream.length, *stream.subkey)


def slot_start(slot):
    return STREAMS + slot * STREAM_WORDS


def stream_at(words, slot, sealing):
    start = slot_start(slot)
    turn, method, counter, length, *subkey = words[start : start + STREAM_WORDS]
    if sealing:
        return Sender(method, counter, tuple(subkey))
    return Receiver(method, turn, length, counter, tuple(subkey))


def with_stream(words, slot, stream):
    start = slot_start(slot)
    before = words[start : start + STREAM_WORDS]
    return words[:start] + words_of(stream, before) + words[start + STREAM_WORDS :]


# Calls.


def answer_to(call, words):
    """What the reference answers, and the words afterwards."""
    stream = stream_at(words, call.slot, call.kind in SEALING)
    data, output = flipped(call.data, call.flip), FILL * call.room
    settings = call.method, call.key
    if call.kind == SEAL_REQUEST:
        said = call.salt, call.clock, call.other, call.padding
        answer = streams.seal_request(*settings, *said, data, output)
    elif call.kind == SEAL_RESPONSE:
        said = call.salt, call.other, call.clock
        answer = streams.seal_response(*settings, *said, data, output)
    elif call.kind == SEAL_CHUNK:
        answer = streams.seal_chunk(stream, data, output)
    elif call.kind == OPEN_REQUEST:
        pool = words[: call.lent]
        answer, pool = streams.open_request(*settings, call.clock, data, pool, output)
        words = pool + words[call.lent :]
    elif call.kind == OPEN_VARIABLE:
        answer = streams.open_variable(stream, data, output)
    elif call.kind == OPEN_RESPONSE:
        answer = streams.open_response(*settings, call.clock, call.salt, data, output)
    else:
        answer = streams.step(stream, data, output)
    if answer.stream is not None:
        words = with_stream(words, call.slot, answer.stream)
    return answer, words


class Calls:
    """The records of a group, on one pool and four streams. An answer that is named must be the
    reference's."""

    def __init__(self, method=1, pool=True):
        self.method, self.words, self.records = method, (0,) * WORD_LIMIT, []
        if pool:
            self.make(method)

    def begin(self, pool=(), **slots):
        """Begins anew with these words, and with streams in the slots s0 to s3."""
        words = tuple(pool) + (0,) * (WORD_LIMIT - len(pool))
        for slot, stream in slots.items():
            words = with_stream(words, int(slot[1:]), stream)
        self.words = words
        self.records.append(Words(words))

    def make(self, method, answer=0, words=POOL_WORDS):
        before = self.words
        number, pool = streams.make(method, before[:words])
        self.expect(("making", method, words), number, answer)
        self.words = pool + before[words:]
        self.records.append(Making(method, words, before, number, self.words))

    def run(self, kind, answer=0, method=None, count=None, **changes):
        """The reference's answer to a call; what is not changed has it accepted."""
        call = make_call(kind, self.method if method is None else method, **changes)
        before = self.words
        given, self.words = answer_to(call, before)
        self.expect(call, given.number, answer)
        self.expect(call, given.count, count)
        self.records.append(Run(call, before, given, self.words))
        return given

    def open_head(self, answer=0, data=b"", slot=0, room=None, cut=None, flip=(0, 0), **changes):
        """Both calls on a request's bytes, the second on those behind its front; the answer is that
        of the last one made. How many bytes were used, where both accept."""
        data = flipped(cut_at(data, cut), flip)
        first = self.run(OPEN_REQUEST, None, slot=slot, data=data, **changes)
        if first.number:
            return self.expect(data, first.number, answer)
        behind = data[first.count :]
        return first.count + self.run(OPEN_VARIABLE, answer, slot=slot, data=behind, room=room).count

    def sealed(self, kind, **changes):
        """The bytes of what is sealed."""
        given = self.run(kind, **changes)
        return given.output[: given.count]

    def expect(self, what, number, answer):
        if answer not in (None, number):
            raise ValueError(f"{what}: the reference answers {number} and not {answer}")


def make_call(
    kind,
    method,
    slot=0,
    clock=1_000,
    padding=0,
    lent=POOL_WORDS,
    room=None,
    key=None,
    salt=None,
    other=None,
    data=b"x",
    cut=None,
    flip=(0, 0),
):
    known = method if method in METHODS.values() else 1
    key = KEYS[known] if key is None else key
    salt = salt_of(known) if salt is None else salt
    if other is None:
        other = salt_of(known, "of the request") if kind == SEAL_RESPONSE else NAME
    data = cut_at(data, cut)
    if room is None:
        room = default_room(kind, other, padding, data)
    return Call(kind, slot, method, clock, padding, lent, room, key, salt, other, data, flip)


def cut_at(data, cut):
    """Its first bytes, where it is shorter with the pattern behind it."""
    return data if cut is None else (data + pattern(cut)[len(data) :])[:cut]


def default_room(kind, other, padding, data):
    """Room for what is due and some bytes behind it. The front of a head that is opened has no
    output."""
    if kind in NO_OUTPUT:
        return 0
    if kind in SEALING:
        return min(150 + len(other) + min(padding, 900) + len(data), BUFFER_LIMIT)
    return min(len(data) + BEHIND, BUFFER_LIMIT)


def text_of(address=NAME, padding=0, payload=b"x", said=None):
    """The plaintext of a variable chunk, with any padding length said."""
    said = padding if said is None else said
    return address + u16(said) + bytes(padding) + payload


def request(method, salt=None, text=None, kind=0, time=1_000, length=None, **said):
    """A request's head of any contents."""
    text = text_of(**said) if text is None else text
    salt = salt_of(method) if salt is None else salt
    fixed = streams.fixed_header(kind, time, b"", len(text) if length is None else length)
    return streams.head(method, KEYS[method], salt, fixed, text)


def response(method, salt=None, bound=None, kind=1, time=1_000, payload=b"x"):
    """A response's head of any contents, with its first payload."""
    salt = salt_of(method, "of a response") if salt is None else salt
    bound = salt_of(method) if bound is None else bound
    fixed = streams.fixed_header(kind, time, bound, len(payload))
    return streams.head(method, KEYS[method], salt, fixed, payload)


def front_of(method, kind):
    """The length of a head's salt and fixed part."""
    return SALT_LENGTHS[method] + streams.fixed_length(method, kind) + 16


def sender(method, counter=2, number=0):
    return Sender(method, counter, subkey_of(method, number))


def receiver(method, length=None, counter=2, number=0):
    """At the turn of a payload of this length, or of a length."""
    turn = LENGTH_NEXT if length is None else PAYLOAD_NEXT
    return Receiver(method, turn, length or 0, counter, subkey_of(method, number))


def between(method, length, counter=1, number=0):
    """At the turn of a request's variable chunk of this length."""
    return Receiver(method, VARIABLE_NEXT, length, counter, subkey_of(method, number))


def subkey_of(method, number=0):
    return streams.words_from(streams.subkey(KEYS[method], salt_of(method, number)))


def piece(method, text, counter=2, number=0):
    secret = streams.secret_of(sender(method, 0, number))
    return streams.sealed_piece(method, secret, counter, text)


def full_pool(method, **others):
    """A pool of salts kept at 1,000, with other records in the places r0 to r255. One word
    nearly everywhere takes little room in a file."""
    records = [(1_000, 1_000, u64(1_000) * 4)] * SALTS
    for place, record in others.items():
        records[int(place[1:])] = record
    return new_pool(method, *records)
