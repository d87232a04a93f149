"""The calls about datagrams, session tables and streams, of both editions, of the proved programs of
vectors, as calls of the library: every edge that they hold, through the exported functions."""

from __future__ import annotations

import sys
from collections.abc import Iterator

sys.dont_write_bytecode = True  # no __pycache__ in the tree
from library import ROOT, Value  # noqa: E402

sys.path[:0] = [str(ROOT / "reference"), str(ROOT / "tools")]
import datagram_vectors  # noqa: E402
import session_cases  # noqa: E402
import sip004_calls  # noqa: E402
import sip004_cases  # noqa: E402
import stream_calls  # noqa: E402
import stream_cases  # noqa: E402
from relay import ANSWER_WORDS, CLIENT_SIDE, SERVER_SIDE, SESSION_WORDS  # noqa: E402
from relay import STREAM_WORDS  # noqa: E402

ANSWER = tuple(range(1_001, 1_001 + ANSWER_WORDS))
SESSION = (99,) * SESSION_WORDS
FILL = 0xA5

Call = tuple[str, dict[str, Value]]


# Sealed datagrams.


def sealing(call) -> Call:
    sender = call.sender
    side = CLIENT_SIDE if sender.client is None else SERVER_SIDE
    return "relay_datagram_seal", {
        "method": call.method,
        "key": call.key,
        "nonce": call.nonce,
        "session": (side, sender.session, sender.client or 0, sender.packet),
        "clock": call.time,
        "address": call.address,
        "padding": call.padding,
        "payload": datagram_vectors.payload(call.length, call.seed),
        "out": bytes([FILL]) * call.room,
        "answer": ANSWER,
    }


def beginning(case) -> Call:
    return "relay_session_begin_client", {"id": case.session, "session": SESSION}


def datagrams() -> Iterator[Call]:
    for _, kind, records in datagram_vectors.make_groups():
        for record in records:
            if kind == datagram_vectors.BEGINNING:
                yield beginning(record)
            else:
                yield sealing(record.call)


# Opened datagrams and the session table.


def opening(record) -> Call:
    call = session_cases.flipped(record.call, record.flip)
    first, second, port = call.peer
    values = {"method": call.method, "key": call.key, "clock": call.clock}
    if call.client is not None:
        values["client"] = call.client
    values |= {"first": first, "second": second, "port": port, "datagram": call.datagram}
    values |= {"table": record.before[: record.words], "out": call.output, "answer": ANSWER}
    side = "server" if call.client is None else "client"
    return f"relay_datagram_open_{side}", values


def replying(record) -> Call:
    values = {"id": record.id, "client": record.client, "clock": record.clock}
    values |= {"table": record.before[: record.words], "session": SESSION}
    return "relay_session_begin_server", values


def tables() -> Iterator[Call]:
    for _, calls in session_cases.make_groups():
        for record in calls.records:
            if isinstance(record, session_cases.Opening):
                yield opening(record)
            elif isinstance(record, session_cases.Beginning):
                yield replying(record)
            elif isinstance(record, session_cases.Making):
                lent = record.before[: record.words]
                yield "relay_table_new", {"retention": record.retention, "table": lent}


# Streams and the salt pool.

NAMES = {
    stream_calls.SEAL_REQUEST: "relay_stream_seal_request",
    stream_calls.SEAL_RESPONSE: "relay_stream_seal_response",
    stream_calls.SEAL_CHUNK: "relay_stream_seal_chunk",
    stream_calls.OPEN_REQUEST: "relay_stream_open_request",
    stream_calls.OPEN_RESPONSE: "relay_stream_open_response",
    stream_calls.OPEN_CHUNK: "relay_stream_open_chunk",
    stream_calls.OPEN_VARIABLE: "relay_stream_open_variable",
}

# Where a call's data and its other string go.
DATA = {kind: "payload" if kind in stream_calls.SEALING else "bytes" for kind in NAMES}
OTHER = {stream_calls.SEAL_REQUEST: "address", stream_calls.SEAL_RESPONSE: "request_salt"}


def streaming(record) -> Call:
    call, words = record.call, record.before
    start = stream_calls.slot_start(call.slot)
    salt = "request_salt" if call.kind == stream_calls.OPEN_RESPONSE else "salt"
    values = {
        "method": call.method,
        "key": call.key,
        salt: call.salt,
        "clock": call.clock,
        "padding": call.padding,
        "pool": words[: call.lent],
        "out": bytes([FILL]) * call.room,
        "stream": words[start : start + STREAM_WORDS],
        "answer": ANSWER,
        DATA[call.kind]: stream_calls.flipped(call.data, call.flip),
    }
    if call.kind in OTHER:
        values[OTHER[call.kind]] = call.other
    return NAMES[call.kind], values


def streams() -> Iterator[Call]:
    for _, calls in stream_cases.make_groups():
        for record in calls.records:
            if isinstance(record, stream_calls.Run):
                yield streaming(record)
            elif isinstance(record, stream_calls.Making):
                yield "relay_pool_new", {
                    "method": record.method,
                    "pool": record.before[: record.words],
                }


# The 2017 edition.

SIP004_NAMES = {
    sip004_calls.SEAL_DATAGRAM: "relay_sip004_datagram_seal",
    sip004_calls.OPEN_DATAGRAM: "relay_sip004_datagram_open",
    sip004_calls.BEGIN_SEALING: "relay_sip004_stream_begin_seal",
    sip004_calls.BEGIN_OPENING: "relay_sip004_stream_begin_open",
    sip004_calls.SEAL_CHUNK: "relay_sip004_stream_seal_chunk",
    sip004_calls.OPEN_CHUNK: "relay_sip004_stream_open_chunk",
}


def sip004(record) -> Call:
    call, start = record.call, stream_calls.slot_start(record.call.slot)
    data = "payload" if call.kind in sip004_calls.SEALING else "bytes"
    if call.kind == sip004_calls.OPEN_DATAGRAM:
        data = "datagram"
    return SIP004_NAMES[call.kind], {
        "method": call.method,
        "key": call.key,
        "salt": call.salt,
        data: call.data,
        "out": bytes([FILL]) * call.room,
        "stream": record.before[start : start + STREAM_WORDS],
        "answer": ANSWER,
    }


def sip004_groups() -> Iterator[Call]:
    for _, calls in sip004_cases.make_groups():
        for record in calls.records:
            if isinstance(record, stream_calls.Run):
                yield sip004(record)


def calls() -> Iterator[Call]:
    yield from datagrams()
    yield from tables()
    yield from streams()
    yield from sip004_groups()
