"""Calls of the 2017 edition, and what the reference answers to each."""

import collections
import sys

sys.dont_write_bytecode = True  # no __pycache__ in the tree
import vectors  # noqa: E402
import sip004  # noqa: E402
import streams  # noqa: E402
from sip004 import KEY_LENGTHS, KEYS, SIP004  # noqa: E402
from stream_calls import BEHIND, FILL, WORD_LIMIT, Run, Words, cut_at, flipped  # noqa: E402
from stream_calls import stream_at, with_stream  # noqa: E402
from streams import LENGTH_NEXT, PAYLOAD_NEXT, Answer, Receiver, Sender, words_from  # noqa: E402
from vectors import BUFFER_LIMIT  # noqa: E402

METHODS = {128: 11, 192: 12, 256: 13}

SEAL_DATAGRAM, OPEN_DATAGRAM, BEGIN_SEALING, BEGIN_OPENING, SEAL_CHUNK, OPEN_CHUNK = range(6)
BEGINNING = (BEGIN_SEALING, BEGIN_OPENING)
SEALING = (SEAL_DATAGRAM, SEAL_CHUNK)
MOST_ADDED = 48  # bytes of salt and tag, or of a length and two tags, at most

# The arguments of a call. The stream is in a slot; the data is a payload, a datagram or a stream's
# bytes.
Call = collections.namedtuple("Call", "kind slot method room key salt data")


def salt_of(method, number=0):
    (salt,) = vectors.stream(f"SIP004 salt {number}", 32)
    return salt[: KEY_LENGTHS[method]]


def datagram_answer(number, written, output):
    left = output if number else written + output[len(written) :]
    return Answer(number, len(written), None, None, left)


def answer_to(call, words):
    """What the reference answers, and the words afterwards."""
    stream, output = stream_at(words, call.slot, call.kind == SEAL_CHUNK), FILL * call.room
    settings = call.method, call.key
    if call.kind == SEAL_DATAGRAM:
        given = sip004.seal_datagram(*settings, call.salt, call.data, call.room)
        answer = datagram_answer(*given, output)
    elif call.kind == OPEN_DATAGRAM:
        answer = datagram_answer(*sip004.open_datagram(*settings, call.data, call.room), output)
    elif call.kind in BEGINNING:
        begins = sip004.begin_sealing if call.kind == BEGIN_SEALING else sip004.begin_opening
        number, begun = begins(*settings, call.salt)
        answer = Answer(number, 0, None, begun, output)
    elif call.kind == SEAL_CHUNK:
        answer = sip004.seal_chunk(stream, call.data, output)
    else:
        answer = sip004.step(stream, call.data, output)
    if answer.stream is not None:
        words = with_stream(words, call.slot, answer.stream)
    return answer, words


class Calls:
    """The records of a group, on four streams. An answer that is named must be the reference's."""

    def __init__(self, method=11):
        self.method, self.words, self.records = method, (0,) * WORD_LIMIT, []

    def begin(self, words=None, **slots):
        """Begins anew with streams in the slots s0 to s3, or with these words."""
        words = (0,) * WORD_LIMIT if words is None else words
        for slot, stream in slots.items():
            words = with_stream(words, int(slot[1:]), stream)
        self.words = words
        self.records.append(Words(words))

    def run(self, kind, answer=0, method=None, count=None, **changes):
        """The reference's answer to a call; what is not changed has it accepted."""
        call = make_call(kind, self.method if method is None else method, **changes)
        before = self.words
        given, self.words = answer_to(call, before)
        for ours, expected in ((given.number, answer), (given.count, count)):
            if expected not in (None, ours):
                raise ValueError(f"{call}: the reference answers {ours} and not {expected}")
        self.records.append(Run(call, before, given, self.words))
        return given

    def sealed(self, kind, **changes):
        """The bytes of what is sealed."""
        given = self.run(kind, **changes)
        return given.output[: given.count]


def make_call(kind, method, slot=0, room=None, key=None, salt=None, data=b"x", cut=None, flip=(0, 0)):
    known = method if method in KEY_LENGTHS else 11
    key = KEYS[known] if key is None else key
    salt = salt_of(known) if salt is None else salt
    data = flipped(cut_at(data, cut), flip)
    if room is None:
        room = 0 if kind in BEGINNING else min(default_room(kind, data), BUFFER_LIMIT)
    return Call(kind, slot, method, room, key, salt, data)


def default_room(kind, data):
    """Room for what is due, and some bytes behind it."""
    return len(data) + BEHIND + (MOST_ADDED if kind in SEALING else 0)


def datagram(method, payload, number=0):
    return sip004.seal_datagram(method, KEYS[method], salt_of(method, number), payload)[1]


def subkey_of(method, number=0):
    return words_from(sip004.subkey(KEYS[method], salt_of(method, number)))


def sender(method, counter=0, number=0):
    return Sender(method, counter, subkey_of(method, number))


def receiver(method, length=None, counter=0, number=0):
    """At the turn of a payload of this length, or of a length."""
    turn = LENGTH_NEXT if length is None else PAYLOAD_NEXT
    return Receiver(method, turn, length or 0, counter, subkey_of(method, number))


def piece(method, text, counter=0, number=0):
    secret = streams.secret_of(sender(method, 0, number), SIP004)
    return streams.sealed_piece(method, secret, counter, text)
