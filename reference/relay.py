"""The exported functions of include/relay.h, over the other references.

An independent reference for the proved library: buffers in, a number and buffers out.
A buffer of bytes is bytes, one of words a tuple of numbers. The parameters have the
names that they have in the header, without the lengths, and stand in the same order.

The functions here only sort the words that a host lends into states and back, and
answers into words: what is sealed, opened and refused, datagram.py, sessions.py,
streams.py, sip004.py, plans.py, recordings.py and settings.py say.

    python3 reference/relay.py --selftest
"""

from __future__ import annotations

import collections
import itertools
import sys

sys.dont_write_bytecode = True  # no __pycache__ in the tree
import aes  # noqa: E402
import chacha_poly  # noqa: E402
import datagram  # noqa: E402
import gcm  # noqa: E402
import openssl  # noqa: E402
import plans  # noqa: E402
import recordings  # noqa: E402
import sessions  # noqa: E402
import settings  # noqa: E402
import sip004  # noqa: E402
import streams  # noqa: E402
from datagram import SETTINGS  # noqa: E402
from sessions import NOT_AUTHENTIC, Peer  # noqa: E402
from settings import write as write_settings  # noqa: E402
from streams import EMPTY, ENDED, MORE, SIP022, Edition  # noqa: E402

TABLE_WORDS = sessions.TABLE_WORDS
POOL_WORDS = streams.POOL_WORDS
SESSION_WORDS = 4
STREAM_WORDS = 8
ANSWER_WORDS = 9

CLIENT_SIDE, SERVER_SIDE = 0, 1  # a sending session's first word
SEALING = 3  # a stream's first word, beside the turns of opening

Words = tuple[int, ...]

# What a call leaves: the number that it returns, and the buffers that it wrote, by their names.
Left = collections.namedtuple("Left", "number wrote")


def refused(number: int) -> Left:
    return Left(number, {})


def accepted(**wrote: bytes | Words) -> Left:
    return Left(0, wrote)


def front(answer: Words, *values: int) -> Words:
    """The answer with these values as its first words."""
    return values + answer[len(values) :]


def asks_more(answer: Words, wanted: int) -> Left:
    return Left(MORE, {"answer": front(answer, wanted)})


# Session tables and sending sessions.


def table_new(retention: int, table: Words) -> Left:
    number, table = sessions.make(retention, table)
    return refused(number) if number else accepted(table=table)


def session_begin_client(id: int, session: Words) -> Left:
    if len(session) != SESSION_WORDS:
        return refused(SETTINGS)
    return accepted(session=(CLIENT_SIDE, id, 0, 0))


def session_begin_server(id: int, client: int, clock: int, table: Words, session: Words) -> Left:
    if len(session) != SESSION_WORDS:
        return refused(SETTINGS)
    number, sender = sessions.begin_reply(table, clock, id, client)
    if number:
        return refused(number)
    return accepted(session=(SERVER_SIDE, sender.session, sender.client, sender.packet))


# Datagrams.


def datagram_seal(
    method: int,
    key: bytes,
    nonce: bytes,
    session: Words,
    clock: int,
    address: bytes,
    padding: int,
    payload: bytes,
    out: bytes,
    answer: Words,
) -> Left:
    if (len(session), len(answer)) != (SESSION_WORDS, ANSWER_WORDS):
        return refused(SETTINGS)
    side, id, client, packet = session
    if side not in (CLIENT_SIDE, SERVER_SIDE):
        return refused(SETTINGS)
    sender = datagram.Sender(id, packet, client if side == SERVER_SIDE else None)
    said = clock, address, padding, payload
    number, sealed = datagram.seal(method, key, nonce, sender, *said, len(out))
    if number:
        return refused(number)
    return accepted(
        session=(side, id, client, packet + 1),
        out=sealed + out[len(sealed) :],
        answer=front(answer, len(sealed)),
    )


def target_words(target: tuple) -> Words:
    """Kind, first and second; an IPv4 address has no second."""
    return (*target, 0)[:3]


def datagram_opened(call: sessions.Call, table: Words, answer: Words) -> Left:
    if len(answer) != ANSWER_WORDS:
        return refused(SETTINGS)
    given, table = sessions.open(call, table)
    if given.number:
        return Left(given.number, {"table": table, "out": given.output})
    target, *rest = given.header
    return accepted(table=table, out=given.output, answer=(*target_words(target), *rest))


def datagram_open_server(
    method: int,
    key: bytes,
    clock: int,
    first: int,
    second: int,
    port: int,
    datagram: bytes,
    table: Words,
    out: bytes,
    answer: Words,
) -> Left:
    peer = Peer(first, second, port)
    return datagram_opened(
        sessions.Call(method, key, None, clock, peer, datagram, out), table, answer
    )


def datagram_open_client(
    method: int,
    key: bytes,
    clock: int,
    client: int,
    first: int,
    second: int,
    port: int,
    datagram: bytes,
    table: Words,
    out: bytes,
    answer: Words,
) -> Left:
    peer = Peer(first, second, port)
    return datagram_opened(
        sessions.Call(method, key, client, clock, peer, datagram, out), table, answer
    )


# Salt pools.


def pool_new(method: int, pool: Words) -> Left:
    number, pool = streams.make(method, pool)
    return refused(number) if number else accepted(pool=pool)


# Streams.


def fits(stream: Words, answer: Words) -> bool:
    return (len(stream), len(answer)) == (STREAM_WORDS, ANSWER_WORDS)


def sender_words(sender: streams.Sender) -> Words:
    return (SEALING, sender.method, sender.counter, 0, *sender.subkey)


def receiver_words(receiver: streams.Receiver) -> Words:
    return (receiver.turn, receiver.method, receiver.counter, receiver.length, *receiver.subkey)


def sealed_left(given: streams.Answer, answer: Words) -> Left:
    if given.number:
        return refused(given.number)
    return accepted(
        out=given.output, stream=sender_words(given.stream), answer=front(answer, given.count)
    )


def stream_seal_request(
    method: int,
    key: bytes,
    salt: bytes,
    clock: int,
    address: bytes,
    padding: int,
    payload: bytes,
    out: bytes,
    stream: Words,
    answer: Words,
) -> Left:
    if not fits(stream, answer):
        return refused(SETTINGS)
    given = streams.seal_request(method, key, salt, clock, address, padding, payload, out)
    return sealed_left(given, answer)


def stream_open_request(
    method: int,
    key: bytes,
    clock: int,
    bytes: bytes,
    pool: Words,
    stream: Words,
    answer: Words,
) -> Left:
    if not fits(stream, answer):
        return refused(SETTINGS)
    given, pool = streams.open_request(method, key, clock, bytes, pool)
    return head_left(given, answer, pool=pool)


def head_left(given: streams.Answer, answer: Words, **others: Words) -> Left:
    """Of the call for a head: bytes used, the length of the piece behind it, and its time."""
    if given.number == MORE:
        return asks_more(answer, given.count)
    if given.number:
        return refused(given.number)
    return accepted(
        stream=receiver_words(given.stream),
        answer=front(answer, given.count, given.said.length, given.said.time),
        **others,
    )


def stream_seal_response(
    method: int,
    key: bytes,
    salt: bytes,
    request_salt: bytes,
    clock: int,
    payload: bytes,
    out: bytes,
    stream: Words,
    answer: Words,
) -> Left:
    if not fits(stream, answer):
        return refused(SETTINGS)
    given = streams.seal_response(method, key, salt, request_salt, clock, payload, out)
    return sealed_left(given, answer)


def stream_open_response(
    method: int,
    key: bytes,
    clock: int,
    request_salt: bytes,
    bytes: bytes,
    stream: Words,
    answer: Words,
) -> Left:
    if not fits(stream, answer):
        return refused(SETTINGS)
    given = streams.open_response(method, key, clock, request_salt, bytes)
    return head_left(given, answer)


def chunk_sealed(
    edition: Edition, stream: Words, payload: bytes, out: bytes, answer: Words
) -> Left:
    if not fits(stream, answer):
        return refused(SETTINGS)
    turn, method, counter, _, *subkey = stream
    if turn == ENDED and method in edition.key_lengths:
        return refused(NOT_AUTHENTIC if len(payload) >= edition.least else EMPTY)
    if turn != SEALING:
        return refused(SETTINGS)
    sender = streams.Sender(method, counter, tuple(subkey))
    return sealed_left(streams.seal_chunk(sender, payload, out, edition), answer)


def stream_seal_chunk(stream: Words, payload: bytes, out: bytes, answer: Words) -> Left:
    return chunk_sealed(SIP022, stream, payload, out, answer)


def receiver_in(stream: Words) -> streams.Receiver:
    turn, method, counter, length, *subkey = stream
    return streams.Receiver(method, turn, length, counter, tuple(subkey))


def opening_refused(given: streams.Answer, stream: Words, answer: Words) -> Left:
    """What a refusal writes: the number wanted, the turn of a stream that it ends, the output."""
    if given.number == MORE:
        return asks_more(answer, given.count)
    wrote = {"out": given.output}
    if given.stream.turn == ENDED != stream[0]:
        wrote["stream"] = (ENDED, *stream[1:])
    return Left(given.number, wrote)


def stream_open_variable(stream: Words, bytes: bytes, out: bytes, answer: Words) -> Left:
    if not fits(stream, answer):
        return refused(SETTINGS)
    given = streams.open_variable(receiver_in(stream), bytes, out)
    if given.number:
        return opening_refused(given, stream, answer)
    said = given.said
    words = (*target_words(said.target), said.port, said.padding, said.payload)
    return accepted(
        out=given.output,
        stream=receiver_words(given.stream),
        answer=front(answer, *words, given.count, said.length),
    )


def chunk_opened(edition: Edition, stream: Words, bytes: bytes, out: bytes, answer: Words) -> Left:
    if not fits(stream, answer):
        return refused(SETTINGS)
    given = streams.step(receiver_in(stream), bytes, out, edition)
    if given.number:
        return opening_refused(given, stream, answer)
    return accepted(
        out=given.output,
        stream=receiver_words(given.stream),
        answer=front(answer, given.count, given.said.length),
    )


def stream_open_chunk(stream: Words, bytes: bytes, out: bytes, answer: Words) -> Left:
    return chunk_opened(SIP022, stream, bytes, out, answer)


# The 2017 edition.


def sip004_datagram_seal(
    method: int, key: bytes, salt: bytes, payload: bytes, out: bytes, answer: Words
) -> Left:
    if len(answer) != ANSWER_WORDS:
        return refused(SETTINGS)
    number, sealed = sip004.seal_datagram(method, key, salt, payload, len(out))
    return datagram_left(number, sealed, out, answer)


def sip004_datagram_open(
    method: int, key: bytes, datagram: bytes, out: bytes, answer: Words
) -> Left:
    if len(answer) != ANSWER_WORDS:
        return refused(SETTINGS)
    number, text = sip004.open_datagram(method, key, datagram, len(out))
    return datagram_left(number, text, out, answer)


def datagram_left(number: int, written: bytes, out: bytes, answer: Words) -> Left:
    if number:
        return refused(number)
    return accepted(out=written + out[len(written) :], answer=front(answer, len(written)))


def sip004_stream_begin_seal(method: int, key: bytes, salt: bytes, stream: Words) -> Left:
    number, sender = sip004.begin_sealing(method, key, salt)
    if number or len(stream) != STREAM_WORDS:
        return refused(SETTINGS)
    return accepted(stream=sender_words(sender))


def sip004_stream_begin_open(method: int, key: bytes, salt: bytes, stream: Words) -> Left:
    number, receiver = sip004.begin_opening(method, key, salt)
    if number or len(stream) != STREAM_WORDS:
        return refused(SETTINGS)
    return accepted(stream=receiver_words(receiver))


def sip004_stream_seal_chunk(stream: Words, payload: bytes, out: bytes, answer: Words) -> Left:
    return chunk_sealed(sip004.SIP004, stream, payload, out, answer)


def sip004_stream_open_chunk(stream: Words, bytes: bytes, out: bytes, answer: Words) -> Left:
    return chunk_opened(sip004.SIP004, stream, bytes, out, answer)


# Plans.


def plan_make(
    method: int, address: bytes, limit: int, length: int, plan: Words, answer: Words
) -> Left:
    if len(answer) != ANSWER_WORDS:
        return refused(SETTINGS)
    number, made = plans.make(method, address, limit, length, len(plan))
    if number:
        return refused(number)
    return accepted(plan=made + plan[len(made) :], answer=front(answer, len(made) // 2))


def plan_check(
    method: int, address: bytes, limit: int, length: int, plan: Words, answer: Words
) -> Left:
    if len(answer) != ANSWER_WORDS:
        return refused(SETTINGS)
    number, good = plans.check(method, address, limit, length, plan)
    return refused(number) if number else accepted(answer=front(answer, int(good)))


# Recordings.


def recording_compare(first: bytes, second: bytes, out: bytes, answer: Words) -> Left:
    if len(answer) != ANSWER_WORDS:
        return refused(SETTINGS)
    number, text = recordings.compare(first, second)
    if number:
        return refused(number)
    if len(out) < len(text):
        return refused(recordings.ROOM)
    return accepted(out=text + out[len(text) :], answer=front(answer, len(text)))


def recording_mend(file: bytes, report: Words, answer: Words) -> Left:
    if len(answer) != ANSWER_WORDS:
        return refused(SETTINGS)
    if len(file) < recordings.COUNT.size:
        return refused(recordings.LENGTH)
    mended, changes = recordings.mend(file)
    words = tuple(itertools.chain.from_iterable(changes))
    if len(report) < len(words):
        return refused(recordings.ROOM)
    return accepted(
        file=mended, report=words + report[len(words) :], answer=front(answer, len(changes))
    )


# Settings files.


def shown_words(shown: settings.File) -> Words:
    """The edition, which settings there are, and what they say; 0 for those that are not there."""
    known, which = shown.known, sum(1 << number - 1 for number in shown.known)
    numbers = (settings.METHOD, settings.RETENTION, settings.LIMIT)
    values = (int.from_bytes(known[each].body, "big") if each in known else 0 for each in numbers)
    target = (0,) * 4
    if settings.TARGET in known:
        _, offset, address = known[settings.TARGET]
        kind, first, second = target_words(sessions.target_of(address))
        if kind == 3:
            first += offset
        target = (kind, first, second, int.from_bytes(address[-2:], "big"))
    return (shown.edition, which, *values, *target)


def settings_read(file: bytes, answer: Words) -> Left:
    if len(answer) != ANSWER_WORDS:
        return refused(SETTINGS)
    number, said = settings.read(file)
    if number == settings.UNKNOWN:
        return Left(number, {"answer": front(answer, said)})
    return refused(number) if number else accepted(answer=shown_words(said))


def settings_in(words: Words, bodies: bytes) -> list[settings.Setting] | None:
    """Numbers with their bodies; None if the lengths do not add up."""
    numbers, lengths = words[::2], words[1::2]
    if len(words) % 2 or sum(lengths) != len(bodies):
        return None
    ends = list(itertools.accumulate(lengths, initial=0))
    places = itertools.pairwise(ends)
    return [(number, bodies[start:end]) for number, (start, end) in zip(numbers, places)]


def settings_write(edition: int, settings: Words, bodies: bytes, out: bytes, answer: Words) -> Left:
    given = settings_in(settings, bodies)
    if len(answer) != ANSWER_WORDS or given is None:
        return refused(SETTINGS)
    number, file = write_settings(edition, given, len(out))
    if number:
        return refused(number)
    return accepted(out=file + out[len(file) :], answer=front(answer, len(file)))


# Each function with the numbers that it may return.

NUMBERS = {
    table_new: {0, 1},
    pool_new: {0, 1},
    session_begin_client: {0, 1},
    session_begin_server: {0, 1, 12},
    datagram_seal: {0, 1, 2, 3, 11, 12},
    datagram_open_server: set(range(10)),
    datagram_open_client: {*range(10), 13},
    stream_seal_request: {0, 1, 2, 3, 12},
    stream_open_request: {0, 1, 4, 6, 7, 8, 9, 10},
    stream_open_variable: {0, 1, 3, 4, 5, 10},
    stream_seal_response: {0, 1, 2, 3, 14},
    stream_open_response: {0, 1, 4, 6, 7, 10, 13, 14},
    stream_seal_chunk: {0, 1, 2, 3, 4, 11, 14},
    stream_open_chunk: {0, 1, 3, 4, 10, 11, 14},
    sip004_datagram_seal: {0, 1, 2, 3},
    sip004_datagram_open: {0, 1, 2, 3, 4},
    sip004_stream_begin_seal: {0, 1},
    sip004_stream_begin_open: {0, 1},
    sip004_stream_seal_chunk: {0, 1, 2, 3, 4, 11},
    sip004_stream_open_chunk: {0, 1, 3, 4, 5, 10, 11},
    plan_make: {0, 1, 3, 12},
    plan_check: {0, 1, 12},
    recording_compare: {0, 1, 2, 3, 5},
    recording_mend: {0, 1, 2, 3},
    settings_read: {0, 1, 2, 4, 5, 15},
    settings_write: {0, 1, 2, 3, 12},
}

FUNCTIONS = {f"relay_{function.__name__}": function for function in NUMBERS}


def use_openssl() -> bool:
    """Has all references take AES, GCM and ChaCha20-Poly1305 from OpenSSL, which is much faster;
    False if it is not there. Texts are then no longer remembered, only subkeys and separate headers."""
    if openssl.LIBRARY is None:
        return False
    aes.encrypt, aes.decrypt = openssl.encrypt, openssl.decrypt
    gcm.seal, gcm.open = openssl.seal, openssl.open
    chacha_poly.seal, chacha_poly.open = openssl.seal_chacha, openssl.open_chacha
    for module, names in (
        (sessions, ("sealed", "sealed_inner", "text_of")),
        (streams, ("sealed_piece", "text_of_piece")),
    ):
        for name in names:
            setattr(module, name, getattr(module, name).__wrapped__)
    return True


# Examples.

KEY = bytes(range(16))
SALT, OTHER_SALT = bytes(range(100, 116)), bytes(range(200, 216))
ANSWER = (9,) * ANSWER_WORDS
STREAM = (9,) * STREAM_WORDS
FILLED = b"\xa5" * 100
NAME = datagram.NAME


def datagram_examples():
    _, wrote = table_new(60, (9,) * TABLE_WORDS)
    table = wrote["table"]
    yield "table", table == (60,) + (0,) * 832
    _, wrote = table_new(0, (9,) * TABLE_WORDS)
    yield "table of 0", wrote["table"] == (300,) + (0,) * 832
    session = session_begin_client(7, (9,) * 4).wrote["session"]
    yield "session", session == (0, 7, 0, 0)
    yield "equal IDs", session_begin_server(7, 7, 1_000, table, (9,) * 4) == refused(12)
    yield "lengths", session_begin_server(7, 7, 1_000, table, (9,) * 5) == refused(1)
    yield "table", session_begin_server(7, 7, 1_000, table[1:], (9,) * 4) == refused(1)
    begun = session_begin_server(7, 8, 1_000, table, (9,) * 4)
    yield "reply", begun == accepted(session=(1, 7, 8, 0))
    call = {"clock": 1_000, "address": NAME, "padding": 0, "payload": b"", "out": FILLED}
    wrote = datagram_seal(1, KEY, b"", session, answer=ANSWER, **call).wrote
    sealed = wrote["out"][: wrote["answer"][0]]
    yield "sealed", wrote["session"] == (0, 7, 0, 1) and wrote["answer"] == (48, *ANSWER[1:])
    lent = {"datagram": sealed, "out": FILLED, "answer": ANSWER}
    number, wrote = datagram_open_server(1, KEY, 1_000, 1, 2, 3, table=table, **lent)
    yield "opened", (number, wrote["answer"]) == (0, (3, 13, 1, 80, 7, 0, 1_000, 0, 16))
    record = (1, 7, 0, 1_000, 1, 0, 0, 0, 1, 2, 3, 1, 0)
    on = {"table": wrote["table"], "session": (9,) * 4}
    yield "taken", session_begin_server(7, 8, 1_060, **on) == refused(12)
    yield "forgotten", session_begin_server(7, 8, 1_061, **on) == accepted(session=(1, 7, 8, 0))
    yield "record", wrote["table"] == (60, *record) + (0,) * 819
    again = datagram_open_server(1, KEY, 1_000, 1, 2, 3, table=wrote["table"], **lent)
    repeated = (60, *record[:-1], 1) + (0,) * 819
    yield "again", again == Left(8, {"table": repeated, "out": bytes(16) + FILLED[16:]})
    odd = (2, 7, 0, 0)
    yield "no side", datagram_seal(1, KEY, b"", odd, answer=ANSWER, **call) == refused(1)


def chacha_examples():
    """A datagram of each method of ChaCha, opened once; the same again, and forged."""
    table = table_new(60, (9,) * TABLE_WORDS).wrote["table"]
    session = session_begin_client(7, (9,) * 4).wrote["session"]
    call = {"clock": 1_000, "address": NAME, "padding": 0, "payload": b"", "out": FILLED}
    for method in datagram.DOUBLES:
        key, nonce = datagram.KEYS[method], datagram.NONCE
        settings, lent = (method, key, 1_000, 1, 2, 3), {"out": FILLED, "answer": ANSWER}
        for length in (0, 23, 25):
            short = datagram_seal(method, key, bytes(length), session, answer=ANSWER, **call)
            yield f"a nonce of {length} by {method}", short == refused(1)
        wrote = datagram_seal(method, key, nonce, session, answer=ANSWER, **call).wrote
        sealed = wrote["out"][: wrote["answer"][0]]
        yield f"sealed by {method}", len(sealed) == 72 and wrote["session"] == (0, 7, 0, 1)
        yield f"its nonce by {method}", sealed[:24] == nonce
        number, wrote = datagram_open_server(*settings, sealed, table, **lent)
        header = (3, 29, 1, 80, 7, 0, 1_000, 0, 32)
        yield f"opened by {method}", (number, wrote["answer"]) == (0, header)
        yield f"its plaintext by {method}", wrote["out"][:16] == bytes(7) + b"\7" + bytes(8)
        again = datagram_open_server(*settings, sealed, wrote["table"], **lent)
        yield f"again by {method}", (again.number, again.wrote["out"][:33]) == (8, bytes(32) + b"\xa5")
        forged = datagram_open_server(*settings, datagram.flipped(sealed, 3), table, **lent)
        yield f"forged by {method}", forged == Left(4, {"table": table, "out": FILLED})


def stream_examples():
    pool = pool_new(1, (9,) * POOL_WORDS).wrote["pool"]
    said = 1, KEY, SALT, 1_000, NAME, 3, b"abc", FILLED, STREAM, ANSWER
    wrote = stream_seal_request(*said).wrote
    head, sender = wrote["out"][: wrote["answer"][0]], wrote["stream"]
    yield "sealed", len(head) == 16 + 27 + 13 + 16 and sender[:4] == (3, 1, 2, 0)
    short = stream_open_request(1, KEY, 1_000, head[:42], pool, STREAM, ANSWER)
    yield "more", short == Left(10, {"answer": (43, *ANSWER[1:])})
    number, wrote = stream_open_request(1, KEY, 1_000, head, pool, STREAM, ANSWER)
    yield "opened", (number, wrote["answer"]) == (0, (43, 13, 1_000, *ANSWER[3:]))
    between = wrote["stream"]
    yield "between", between == (4, 1, 1, 13, *sender[4:])
    short = stream_open_variable(between, head[43:71], FILLED, ANSWER)
    yield "more of it", short == Left(10, {"answer": (29, *ANSWER[1:])})
    number, wrote = stream_open_variable(between, head[43:], FILLED, ANSWER)
    yield "header", (number, wrote["answer"]) == (0, (3, 2, 1, 80, 3, 10, 29, 13, 9))
    receiver = wrote["stream"]
    yield "receiver", receiver == (1, 1, 2, 0, *sender[4:])
    forged = stream_open_variable(between, bytes(29), FILLED, ANSWER)
    yield "its end", forged == Left(4, {"out": FILLED, "stream": (0, *between[1:])})
    yield "a step", stream_open_chunk(between, head[43:], FILLED, ANSWER)[0] == 1
    yield "another turn", stream_open_variable(receiver, head[43:], FILLED, ANSWER)[0] == 1
    for place, word in ((2, 2), (3, 65_536), (1, 6)):
        odd = (*between[:place], word, *between[place + 1 :])
        yield f"word {place}", stream_open_variable(odd, head[43:], FILLED, ANSWER)[0] == 1
    wrote = stream_seal_chunk(sender, b"abc", FILLED, ANSWER).wrote
    chunk = wrote["out"][: wrote["answer"][0]]
    yield "chunk", len(chunk) == 37 and wrote["stream"] == (3, 1, 4, 0, *sender[4:])
    number, wrote = stream_open_chunk(receiver, chunk, b"", ANSWER)
    yield "length", (number, wrote["answer"][:2]) == (0, (18, 3))
    receiver = wrote["stream"]
    yield "a payload is next", receiver == (2, 1, 3, 3, *sender[4:])
    forged = stream_open_chunk(receiver, bytes(19), FILLED, ANSWER)
    yield "ended", forged == Left(4, {"out": FILLED, "stream": (0, *receiver[1:])})
    yield "turns", stream_seal_chunk(receiver, b"", FILLED, ANSWER) == refused(1)
    yield "too long", stream_open_chunk((2, 1, 3, 65_536, *sender[4:]), b"", b"", ANSWER)[0] == 1
    for stream in ((0, 1, *sender[2:]), (0, 6, *sender[2:])):
        for payload, refusal in ((b"a", 4), (b"", 14)):
            number = stream_seal_chunk(stream, payload, FILLED, ANSWER).number
            yield "sealing, ended", number == (refusal if stream[1] == 1 else 1)
    none = stream_open_chunk((2, 1, 3, 0, *sender[4:]), bytes(16), b"", ANSWER)
    yield "a payload of 0", none == Left(1, {"out": b""})
    empty = streams.sealed_piece(1, streams.subkey(KEY, SALT), 4, b"\0\0")
    stream = (1, 1, 4, 0, *sender[4:])
    given = stream_open_chunk(stream, empty, FILLED, ANSWER)
    yield "a length of 0", given == Left(14, {"out": FILLED, "stream": (0, *stream[1:])})


def response_examples():
    said = 1, KEY, SALT, OTHER_SALT, 1_000, b"abc", FILLED, STREAM
    wrote = stream_seal_response(*said, ANSWER).wrote
    head = wrote["out"][: wrote["answer"][0]]
    yield "length", len(head) == 16 + 43 + 19
    opened = stream_open_response(1, KEY, 1_000, OTHER_SALT, head, STREAM, ANSWER)
    stream = opened.wrote["stream"]
    yield "opened", opened.wrote["answer"] == (59, 3, 1_000, *ANSWER[3:])
    yield "its stream", stream == (2, 1, 1, 3, *wrote["stream"][4:])
    opened = stream_open_chunk(stream, head[59:], FILLED, ANSWER)
    yield "first payload", opened.wrote["out"] == b"abc" + FILLED[3:]
    yield "answer's length", stream_seal_response(*said, ANSWER[1:]) == refused(1)


def sip004_examples():
    key, salt = bytes(range(24)), bytes(range(100, 124))
    wrote = sip004_datagram_seal(12, key, salt, b"abc", FILLED, ANSWER).wrote
    sealed = wrote["out"][:43]
    yield "a datagram", wrote["answer"] == (43, *ANSWER[1:]) and wrote["out"][43:] == FILLED[43:]
    opened = sip004_datagram_open(12, key, sealed, FILLED, ANSWER)
    yield "opened", opened == accepted(out=b"abc" + FILLED[3:], answer=(3, *ANSWER[1:]))
    yield "no room", sip004_datagram_open(12, key, sealed, b"ab", ANSWER) == refused(3)
    yield "forged", sip004_datagram_open(12, key, sealed[:-1] + b"x", FILLED, ANSWER) == refused(4)
    yield "answer's length", sip004_datagram_open(12, key, b"", b"", ANSWER[1:]) == refused(1)
    sender = sip004_stream_begin_seal(12, key, salt, STREAM).wrote["stream"]
    receiver = sip004_stream_begin_open(12, key, salt, STREAM).wrote["stream"]
    yield "sender", sender[:4] == (3, 12, 0, 0) and sender[7] == 0
    yield "receiver", receiver == (1, *sender[1:])
    yield "stream's length", sip004_stream_begin_open(12, key, salt, STREAM[1:]) == refused(1)
    for payload in (b"", b"abc"):
        wrote = sip004_stream_seal_chunk(sender, payload, FILLED, ANSWER).wrote
        chunk, length = wrote["out"][: wrote["answer"][0]], len(payload)
        yield "chunk", len(chunk) == length + 34 and wrote["stream"] == (3, 12, 2, *sender[3:])
        wrote = sip004_stream_open_chunk(receiver, chunk, b"", ANSWER).wrote
        yield "length", wrote["answer"] == (18, length, *ANSWER[2:])
        later = wrote["stream"]
        yield "a payload is next", later == (2, 12, 1, length, *sender[4:])
        wrote = sip004_stream_open_chunk(later, chunk[18:], FILLED, ANSWER).wrote
        yield "payload", wrote["out"] == payload + FILLED[length:]
        yield "used", wrote["answer"] == (16 + length, length, *ANSWER[2:])
        yield "a length is next", wrote["stream"] == (1, 12, 2, 0, *sender[4:])
    long = streams.sealed_piece(12, sip004.subkey(key, salt), 0, b"\x40\0")
    given = sip004_stream_open_chunk(receiver, long, FILLED, ANSWER)
    yield "a long length", given == Left(5, {"out": FILLED, "stream": (0, *receiver[1:])})
    ended = (0, *sender[1:])
    yield "sealing, ended", sip004_stream_seal_chunk(ended, b"", FILLED, ANSWER) == refused(4)
    for method in (1, 2, 3, 5, 10, 14, 267):
        other = (3, method, *sender[2:])
        yield f"by {method}", sip004_stream_seal_chunk(other, b"", FILLED, ANSWER) == refused(1)
    yield "of SIP022", stream_seal_chunk(sender, b"abc", FILLED, ANSWER) == refused(1)


def plan_examples():
    said = 1, datagram.V4, 1_500, 2_901
    made = plan_make(*said, (9,) * 7, ANSWER)
    plan = (1_450, 0, 1_450, 0, 1, 0)
    yield "plan", made == accepted(plan=(*plan, 9), answer=(3, *ANSWER[1:]))
    yield "no room for a plan", plan_make(*said, (9,) * 5, ANSWER) == refused(3)
    yield "good", plan_check(*said, plan, ANSWER) == accepted(answer=(1, *ANSWER[1:]))
    yield "not good", plan_check(*said, (*plan, 9), ANSWER) == accepted(answer=(0, *ANSWER[1:]))
    yield "a plan's answer", plan_check(6, b"", 0, 0, (), ANSWER[1:]) == refused(1)


def recording_examples():
    first, second = recordings.example()
    text = b"entries 2 3\ndiffer 1 byte 17\nsecond-only 2\n"
    said = recording_compare(first, second, FILLED, ANSWER)
    yield "compared", said.wrote["out"] == text + FILLED[len(text) :]
    yield "its length", said.wrote["answer"] == (len(text), *ANSWER[1:])
    yield "no room", recording_compare(first, second, text[1:], ANSWER) == refused(3)
    yield "ill-formed", recording_compare(first, second[:-1], b"", ANSWER) == refused(5)
    yield "answer's length", recording_compare(first, bytes(40_000), FILLED, ()) == refused(1)
    words = (recordings.OF_COUNT, recordings.COUNT_FIELD, 1, 0)
    said = recording_mend(b"\0\0\0\1xyz", (7,) * 5, ANSWER)
    yield "mended", said.wrote["file"] == bytes(4) + b"xyz"
    yield "its report", said.wrote["report"] == (*words, 7)
    yield "how many changes", said.wrote["answer"] == (1, *ANSWER[1:])
    yield "too short a report", recording_mend(b"\0\0\0\1xyz", (7,) * 3, ANSWER) == refused(3)
    yield "too short a file", recording_mend(bytes(3), (), ANSWER) == refused(2)


def settings_examples():
    file = settings.EXAMPLE_BYTES + bytes.fromhex(settings.EXAMPLE_HASH)
    said = (7, 0b1111, 3, 300, 1_500, 3, 43, 1, 80)
    yield "settings", settings_read(file, ANSWER) == accepted(answer=said)
    forged = file[:-1] + bytes([file[-1] ^ 1])
    yield "forged settings", settings_read(forged, ANSWER) == refused(4)
    odd = settings.laid_out(0, [(2, bytes(2)), (4, datagram.V4), (5, b""), (6, b"")])
    yield "unknown", settings_read(odd, ANSWER) == Left(15, {"answer": (5, *ANSWER[1:])})
    some = settings.laid_out(9, [(2, bytes(2)), (4, datagram.V4), (128, b"")])
    said = (9, 0b1010, 0, 0, 0, 1, 0xC0000201, 0, 80)
    yield "some settings", settings_read(some, ANSWER) == accepted(answer=said)
    words = tuple(word for number, body in settings.EXAMPLE for word in (number, len(body)))
    call = 7, words, b"".join(body for _, body in settings.EXAMPLE)
    lent = {"out": file + b"xy", "answer": ANSWER}
    written = accepted(out=file + b"xy", answer=(len(file), *ANSWER[1:]))
    yield "written", settings_write(*call, **lent) == written
    yield "no room for settings", settings_write(*call, file[1:], ANSWER) == refused(3)
    yield "odd words", settings_write(7, words[1:], call[2], **lent) == refused(1)
    yield "modulo 2^64", settings_write(7, (128, 2**64 - 1, 129, 1), b"", **lent) == refused(1)
    yield "a number of 17 bits", settings_write(7, (65_664, 0), b"", **lent) == refused(12)


def selftest() -> list[str]:
    """The names of the examples that this code fails."""
    checks = itertools.chain(datagram_examples(), chacha_examples())
    checks = itertools.chain(checks, stream_examples(), response_examples())
    checks = itertools.chain(checks, sip004_examples(), plan_examples(), recording_examples())
    checks = itertools.chain(checks, settings_examples())
    return plans.selftest() + [name for name, holds in checks if not holds]


if __name__ == "__main__":
    aes.run(selftest, f"examples of {len(FUNCTIONS)} exported functions: all agree")
