#!/usr/bin/env python3
"""Writes the seed corpus of the fuzz target: short lists of steps that together bring about every
answer of every function.

    tests/fuzz/seeds.py FOLDER
"""

from __future__ import annotations

import re
import struct
import sys
from pathlib import Path

HERE = Path(__file__).resolve().parent


def names_of(file: str, enum: str) -> list[str]:
    """The names of an enum of a header, in order."""
    text = re.sub(r"/\*.*?\*/", "", (HERE / file).read_text("ascii"), flags=re.DOTALL)
    body = re.search(rf"enum {enum} {{(.*?)}}", text, re.DOTALL)[1]
    return [part.split("=")[0].strip() for part in body.split(",") if part.strip()]


FUNCTIONS = names_of("calls.h", "function")[:-1]
BUFFERS = names_of("calls.h", "buffer")[:-1]
CODES = {name: code for code, name in enumerate(FUNCTIONS + names_of("host.h", "step_code")[:-1])}

CLOCK = 1_700_000_000

# What stands in the first byte of a value (word_of in host.c), and of the room given.
AFTER, BEFORE, ID_OF, FROM_END = (number << 56 for number in (0xF0, 0xF1, 0xF2, 0xF3))
MUCH_MORE, ONE_MORE, ONE_SHORT, NO_ROOM = 4, 5, 6, 7
CUT = 0x80

# Ways of a fault (spoil in host.c).
EMPTY, SHORTER, LONGER, AT_LENGTH, FLIPPED = range(5)


def fault(buffer: str, way: int) -> int:
    return 128 | way << 4 | BUFFERS.index(buffer)


def wrong_method(way: int) -> int:
    return 128 | way << 4 | 15


def near_sip004(way: int) -> int:
    """A method near those of the 2017 edition, or one of them."""
    return 128 | way << 4 | 14


def step(code: str, fault=0, who=0, how=0, length=0, place=0, value=0) -> bytes:
    return struct.pack("<BBBBHHQ", CODES[code], fault, who, how, length, place, value)


# Sessions 0 and 2 are clients', 1 and 3 servers'. A datagram's slot is who / 8, a line who / 4.


def begun() -> list[bytes]:
    return [
        step("TABLE_NEW", value=60),
        step("TABLE_NEW", who=1, value=60),
        step("BEGIN_CLIENT", value=0x0102030405060708),
        step("BEGIN_SERVER", who=1, value=77),
        step("BEGIN_CLIENT", who=2, value=5),
        step("BEGIN_SERVER", who=3 + 4 * 2, value=(1 << 63)),
        step("POOL_NEW"),
    ]


def faulty(code: str, *buffers: str, **fields) -> list[bytes]:
    """The call with each of these buffers of a wrong length, and with wrong methods."""
    steps = [
        step(code, fault(each, way), length=1, **fields)
        for each in buffers
        for way in (EMPTY, SHORTER, LONGER, AT_LENGTH)
    ]
    methods = [wrong_method(way) for way in range(8)] + [near_sip004(way) for way in range(8)]
    return steps + [step(code, each, **fields) for each in methods]


def settings():
    yield [
        *faulty("TABLE_NEW", "TABLE", value=60),
        *(step("TABLE_NEW", value=each) for each in (0, 1, 59, 61, 3_600, 3_601, FROM_END)),
        *faulty("POOL_NEW", "POOL"),
        *faulty("BEGIN_CLIENT", "SESSION"),
        *faulty("BEGIN_SERVER", "TABLE", "SESSION", value=9),
        step("BEGIN_CLIENT", value=9),
        step("BEGIN_SERVER", who=1, value=ID_OF),
    ]
    yield begun() + faulty("DATAGRAM_SEAL", "KEY", "NONCE", "SESSION", "ANSWER")
    opened = [step("DATAGRAM_SEAL"), *faulty("OPEN_SERVER", "KEY", "TABLE", "ANSWER")]
    yield begun() + opened + faulty("OPEN_CLIENT", "KEY", "TABLE", "ANSWER")
    yield begun() + faulty("SEAL_REQUEST", "KEY", "SALT", "STREAM", "ANSWER", place=1)
    head = step("SEAL_REQUEST", place=1, length=4)
    yield [*begun(), head, *faulty("OPEN_REQUEST", "KEY", "POOL", "STREAM", "ANSWER")]
    yield [*begun(), head, step("OPEN_REQUEST"), *faulty("OPEN_VARIABLE", "STREAM", "ANSWER")]
    yield begun() + faulty("SEAL_RESPONSE", "KEY", "SALT", "REQUEST_SALT", "STREAM", "ANSWER")
    yield [
        step("SEAL_RESPONSE"),
        *faulty("OPEN_RESPONSE", "KEY", "REQUEST_SALT", "STREAM", "ANSWER"),
        *faulty("SEAL_CHUNK", "STREAM", "ANSWER"),
        *faulty("OPEN_CHUNK", "STREAM", "ANSWER"),
    ]


def sealed_datagrams():
    for address in range(8):
        yield begun() + [
            step("DATAGRAM_SEAL", who=4 * address, length=17, place=3),
            step("OPEN_SERVER", how=ONE_MORE),
            step("DATAGRAM_SEAL", who=1 + 4 * address, how=ONE_MORE, length=1),
            step("OPEN_CLIENT", who=1 + 8, how=MUCH_MORE, length=80),
        ]
    for less in (142, 143, 150, 166, 167, 174):  # the last three by methods of ChaCha
        yield begun() + [step("DATAGRAM_SEAL", who=who, length=0xFFFF - less) for who in (0, 1)]
    yield begun() + [
        step("DATAGRAM_SEAL", how=ONE_SHORT),
        step("DATAGRAM_SEAL", how=NO_ROOM),
        *(step("DATAGRAM_SEAL", place=place) for place in (0xF001, 0xF000)),
        step("SET_WORD", who=8, place=3, value=FROM_END | 1),
        step("DATAGRAM_SEAL"),
        step("DATAGRAM_SEAL"),
        step("SET_WORD", who=9, place=2, value=77),
        step("DATAGRAM_SEAL", who=1),
        step("SET_WORD", who=10, place=0, value=2),
        step("DATAGRAM_SEAL", who=2),
    ]


def refused_datagrams():
    for code, who in (("OPEN_SERVER", 0), ("OPEN_CLIENT", 1)):
        yield begun() + [
            step("DATAGRAM_SEAL", who=who, length=9),
            step(code, who=who, how=ONE_SHORT),
            step(code, fault("INPUT", FLIPPED), who=who, place=20),
            step(code, fault("INPUT", FLIPPED), who=who, place=3),
            *(
                step(code, fault("INPUT", AT_LENGTH), who=who, length=n)
                for n in (0, 31, 32, 39, 40, 48)
            ),
            step("CLOCK", value=AFTER | 31),
            step(code, who=who),
            step("CLOCK", value=BEFORE | 1),
            step(code, who=who),
            step("CLOCK", value=AFTER | 31),
            step(code, who=who, value=99),
        ]
        yield begun() + [
            step("DATAGRAM_SEAL", who=1 - who, length=20),
            step(code, who=who),
            *(step("CRAFT_DATAGRAM", who=who * 3, how=CUT | n) for n in (0, 10, 11)),
            *(step(code, who=who + 8 * slot) for slot in (1, 2, 3)),
            step("PATCH", who=2, place=9 + 8 * who, value=0xFFFF),
            step("CRAFT_DATAGRAM", who=who * 3),
            step(code, who=who),
            step("CRAFT_DATAGRAM", who=who * 3 + 8 * 6),
            step(code, who=who + 8),
            step("DATAGRAM_SEAL", who=who),
            step(code, who=who + 16, value=99),
            step("FILL", who=who, value=1_000),
            step(code, who=who + 16),
            step("CLOCK", value=AFTER | 60),
            step("CRAFT_DATAGRAM", who=who * 3),
            step(code, who=who + 24),
            step("CLOCK", value=AFTER | 1),
            step("CRAFT_DATAGRAM", who=who * 3),
            step(code, who=who),
        ]


# Plaintexts by methods of ChaCha: where the IDs end, and the fixed headers of both sides.
INNER_LENGTHS = 0, 7, 8, 15, 16, 26, 27, 33, 34, 35, 41, 42


def inner_datagrams():
    """Authentic plaintexts cut at each edge, for both sides, with exactly the room or less; others' types
    and times behind; and the same packet under another nonce."""
    for code, who in (("OPEN_SERVER", 0), ("OPEN_CLIENT", 1)):
        steps = begun()
        for number, length in enumerate(INNER_LENGTHS):
            steps.append(step("CRAFT_DATAGRAM", who=who * 3, how=CUT | length))
            steps += [step(code, who=who + 8 * (number % 4), how=how) for how in (ONE_SHORT, 0)]
        yield steps
        fixed = 27 + 8 * who
        steps = begun()
        for number, length in enumerate((fixed - 1, fixed, fixed + 7)):
            steps.append(step("PATCH", who=1, place=0, value=9))
            steps.append(step("CRAFT_DATAGRAM", who=who * 3, how=CUT | length, value=AFTER | 31))
            steps.append(step(code, who=who + 8 * number, how=MUCH_MORE))
        yield steps
        yield begun() + [
            *(step("CRAFT_DATAGRAM", who=who * 3, place=place) for place in (0, 0, 1)),
            *(step(code, who=who + 8 * slot) for slot in (0, 1, 2)),
            *(step(code, fault("INPUT", FLIPPED), who=who, place=n) for n in (0, 15, 16, 23, 24, 31)),
            *(step("DATAGRAM_SEAL", who=who, how=how) for how in (ONE_SHORT, ONE_MORE)),
            step(code, who=who + 24),
        ]


EDGES = 300, 45, 44, 300, 555, 556, 300, 301, FROM_END, FROM_END | 1
JUMPS = 1, 64, 65, 129, 194, 257, 385, 514, 706, 898, 1_153, 1_409, 1_666


def windows():
    for packets in (EDGES, JUMPS):
        steps = begun()
        for number, packet in enumerate(packets):
            steps.append(step("SET_WORD", who=8, place=3, value=packet))
            steps.append(step("CRAFT_DATAGRAM"))
            steps.append(step("OPEN_SERVER", who=8 * (number % 4), length=number))
        yield steps


def several():
    """Several sessions in one table, several salts in one pool."""
    steps = begun()
    for number in range(5):
        steps.append(step("SET_WORD", who=8, place=1, value=number % 3))
        steps.append(step("CRAFT_DATAGRAM"))
        steps.append(step("OPEN_SERVER", who=8 * (number % 4)))
    for value in (0, 1, 2, 0, 1, 2):
        steps.append(step("SEAL_REQUEST", length=1, value=value))
        steps.append(step("OPEN_REQUEST"))
    yield steps
    for record in (1, 2):
        yield begun() + [
            step("FILL", value=1_000),
            step("SET_WORD", place=1 + 13 * record + 3, value=BEFORE | 61),
            step("DATAGRAM_SEAL"),
            step("OPEN_SERVER"),
            step("FILL", who=2),
            step("SET_WORD", who=4, place=1 + 6 * record + 1, value=BEFORE | 61),
            step("SEAL_REQUEST", length=1),
            step("OPEN_REQUEST"),
        ]


def replies():
    """Reply sessions of IDs in the first record and the last, alive and forgotten."""
    steps = [*begun(), step("DATAGRAM_SEAL"), step("OPEN_SERVER")]
    for number in (0, 63):
        steps.append(step("SET_WORD", place=1 + 13 * number, value=1))
        steps.append(step("SET_WORD", place=1 + 13 * number + 1, value=9 + number))
        for seconds in (0, 60, 61):
            steps.append(step("SET_WORD", place=1 + 13 * number + 3, value=BEFORE | seconds))
            steps += [step("BEGIN_SERVER", who=2, value=each) for each in (9, 72, ID_OF | 2)]
    steps.append(step("SET_WORD", value=59))
    yield [*steps, step("BEGIN_SERVER", who=2, value=ID_OF | 2)]


def repeats():
    """Counts near their end, junk in the port, and repeats of marked and of late packets."""
    steps = [*begun(), step("DATAGRAM_SEAL"), step("OPEN_SERVER")]
    steps += [step("SET_WORD", place=1 + word, value=FROM_END | 1) for word in (10, 11, 12)]
    for packet in (0, 300, 0, 300, 44, 45):
        steps.append(step("SET_WORD", who=8, place=3, value=packet))
        steps.append(step("CRAFT_DATAGRAM"))
        steps += [step("OPEN_SERVER")] * 2
    yield steps


def requests():
    for address in range(8):
        yield begun() + [
            step("SEAL_REQUEST", who=16 * address, length=5, place=3),
            step("SEAL_CHUNK", length=7),
            step("SEAL_CHUNK", how=ONE_MORE, length=0),
            step("OPEN_REQUEST", who=1),
            step("OPEN_VARIABLE", who=1, how=ONE_MORE),
            *[step("OPEN_CHUNK", who=1, how=MUCH_MORE)] * 5,
        ]
    yield begun() + [
        step("SEAL_REQUEST", place=0),
        step("SEAL_REQUEST", how=ONE_SHORT, place=1),
        *(step("SEAL_REQUEST", place=place, value=1) for place in (900, 901, 0xF001, 0xF000)),
    ]
    yield begun() + [step("SEAL_REQUEST", length=0xFFFF - less) for less in (73, 74)]


def refused_requests():
    yield begun() + [
        step("SEAL_REQUEST", length=5),
        *(step("OPEN_REQUEST", fault("INPUT", AT_LENGTH), length=n) for n in (0, 42)),
        *(step("OPEN_REQUEST", fault("INPUT", FLIPPED), place=place) for place in (0, 20)),
        step("CLOCK", value=BEFORE | 31),
        step("OPEN_REQUEST"),
        step("CLOCK", value=AFTER | 31),
        step("FILL", who=2),
        step("OPEN_REQUEST"),
        step("CLOCK", value=AFTER | 30),
        step("POOL_NEW"),
        step("OPEN_REQUEST"),
    ]
    both = [step("OPEN_REQUEST"), step("OPEN_VARIABLE")]
    steps = [step("PATCH", who=1, place=0x8000, value=1), step("CRAFT_HEAD", length=1)]
    for value, cut in enumerate((0, 6, 8, 10)):  # odd ones would be responses
        steps += both
        steps.append(step("CRAFT_HEAD", how=CUT | cut, length=5, value=value))
    steps += both
    steps.append(step("PATCH", who=2, place=7, value=0x8503))
    steps.append(step("CRAFT_HEAD", length=1_000))
    yield [*begun(), *steps, *both]


def variable_headers():
    """The second call: short of bytes and of room, at other turns, forged, and behind its end."""
    yield begun() + [
        step("SEAL_REQUEST", length=5),
        step("OPEN_VARIABLE"),
        step("OPEN_REQUEST"),
        step("OPEN_CHUNK"),
        *(step("OPEN_VARIABLE", fault("INPUT", AT_LENGTH), length=n) for n in (0, 15, 16)),
        step("OPEN_VARIABLE", how=NO_ROOM),
        step("SET_WORD", who=12, place=2, value=2),
        step("OPEN_VARIABLE"),
        step("SET_WORD", who=12, place=2, value=1),
        step("OPEN_VARIABLE", how=ONE_MORE),
        step("OPEN_VARIABLE"),
    ]
    for place in (0, 20):
        yield begun() + [
            step("SEAL_REQUEST", length=5),
            step("OPEN_REQUEST"),
            step("OPEN_VARIABLE", fault("INPUT", FLIPPED), place=place),
            step("OPEN_VARIABLE"),
            step("OPEN_CHUNK"),
            step("OPEN_REQUEST"),
        ]
    yield begun() + [
        step("SET_WORD", who=12, place=0, value=4),
        step("SET_WORD", who=12, place=1, value=1),
        step("SET_WORD", who=12, place=2, value=1),
        *(
            each
            for length in (65_535, 65_536)
            for each in (
                step("SET_WORD", who=12, place=3, value=length),
                step("OPEN_VARIABLE"),
                step("OPEN_CHUNK"),
            )
        ),
    ]


def responses():
    yield [
        step("SEAL_RESPONSE", length=5, place=2),
        step("SEAL_CHUNK", length=7),
        step("OPEN_RESPONSE", who=1, place=1),
        step("OPEN_RESPONSE", who=1, place=2),
        step("OPEN_CHUNK", who=1, how=NO_ROOM),
        *[step("OPEN_CHUNK", who=1)] * 4,
        step("ANY_BYTES", how=1, length=40, place=3),
        *[step("OPEN_CHUNK", who=1)] * 2,
        step("SEAL_CHUNK", who=1, length=1),
        step("SET_WORD", who=13, place=1, value=3),
        step("OPEN_CHUNK", who=1),
        step("SEAL_CHUNK", who=1, length=1),
    ]
    yield [
        step("SEAL_RESPONSE", length=5),
        *(step("OPEN_RESPONSE", fault("INPUT", AT_LENGTH), length=n) for n in (0, 58, 59, 90)),
        step("OPEN_RESPONSE", fault("INPUT", FLIPPED), place=30),
        step("CLOCK", value=AFTER | 31),
        step("OPEN_RESPONSE"),
        step("PATCH", who=1, place=0x8000, value=0),
        step("CRAFT_HEAD", how=1),
        step("OPEN_RESPONSE"),
        step("SEAL_RESPONSE", how=ONE_SHORT, length=1),
        *(step("SEAL_RESPONSE", length=0xFFFF - less) for less in (64, 65)),
    ]
    for length_at in (25, 41):  # by method: a first payload of 0 bytes
        yield [
            step("PATCH", who=2, place=0x8000 | length_at),
            step("CRAFT_HEAD", how=1),
            step("OPEN_RESPONSE"),
            step("SEAL_RESPONSE", length=0),
        ]


def chunks():
    yield [
        step("SEAL_RESPONSE", length=1),
        step("SEAL_CHUNK", how=ONE_SHORT, length=3),
        *(step("SEAL_CHUNK", length=0xFFFF - less) for less in (64, 65)),
        *(
            each
            for less in (3, 2, 1, 0)
            for each in (
                step("SET_WORD", who=12, place=2, value=FROM_END | less),
                step("SEAL_CHUNK", length=3),
                step("SET_WORD", who=12, place=0, value=1),
                step("SET_WORD", who=12, place=2, value=FROM_END | less),
                step("OPEN_CHUNK"),
                step("SET_WORD", who=12, place=0, value=3),
            )
        ),
    ]
    yield [
        step("SEAL_RESPONSE", length=3),
        step("OPEN_RESPONSE"),
        step("OPEN_CHUNK"),
        step("CRAFT_CHUNK", how=1, length=8, place=0),
        *[step("OPEN_CHUNK")] * 2,
    ]
    yield [
        step("SEAL_RESPONSE", length=3),
        step("OPEN_RESPONSE"),
        step("OPEN_CHUNK"),
        step("CRAFT_CHUNK", how=1, length=9, place=9),
        step("OPEN_CHUNK"),
        step("OPEN_CHUNK"),
        step("CRAFT_CHUNK", how=1, length=8, place=9),
        *[step("OPEN_CHUNK")] * 3,
        step("CRAFT_CHUNK", how=1, length=8, place=0),
        *[step("OPEN_CHUNK")] * 2,
        step("SET_WORD", who=12, place=0, value=2),
        step("SET_WORD", who=12, place=3, value=0),
        step("OPEN_CHUNK"),
        step("SET_WORD", who=12, place=3, value=65_536),
        step("OPEN_CHUNK"),
        step("SET_WORD", who=12, place=3, value=9),
        step("SET_WORD", who=12, place=2, value=FROM_END),
        step("OPEN_CHUNK"),
    ]


# Plans: method who % 8 % 5 + 1, address who / 8; the low 10 bits of the place are the room that the
# limit leaves, the next 3 the way of the limit (6 the longest, 7 a small one).

LONGEST, SMALL = 6 << 10, 7 << 10
ANY_LENGTH = 0xF000  # of the report: the value


def plans():
    for who in range(5):
        yield [
            step("PLAN_MAKE", who=who, length=2_900, place=1_023),
            step("PLAN_CHECK", who=who, length=2_900, place=1_023),
            *faulty("PLAN_MAKE", "ADDRESS", "PLAN", "ANSWER", who=who, place=7),
            *faulty("PLAN_CHECK", "ADDRESS", "PLAN", "ANSWER", who=who, place=7),
        ]
    for address in range(8):
        yield [
            step("PLAN_MAKE", who=8 * address, length=n, place=room, how=how)
            for n, room in ((0, 0), (0, 5), (1, 0), (1, 1), (10, 3), (9, 3), (30, 1), (33, 1))
            for how in (0, MUCH_MORE, ONE_MORE, ONE_SHORT, NO_ROOM)
        ]
    yield [
        step("PLAN_MAKE", length=n, place=place)
        for n in (0, 1, 100)
        for place in (LONGEST, LONGEST | 1, SMALL, SMALL | 50, SMALL | 51)
    ]
    yield [
        step("PLAN_MAKE", length=ANY_LENGTH, place=1, value=value)
        for value in (FROM_END, FROM_END | 1, 1 << 63, 3)
    ]
    yield [
        step("PLAN_MAKE", length=10, place=4),
        *(
            step("PLAN_CHECK", length=10, place=4, how=word | moved, value=value)
            for word in range(6)
            for moved in (0, 0x80)
            for value in (0, 1, 2, 65_536, 1 << 63, FROM_END)
        ),
    ]


# The 2017 edition. Its method is who % 3 of an input's first step; a stream's salt is who / 16.

CHUNK_LENGTHS = 0xFD7F  # of 16,382 bytes, the next one of one more


def sip004_settings():
    yield faulty("SIP004_DATAGRAM_SEAL", "KEY", "SALT", "ANSWER")
    yield [
        step("SIP004_DATAGRAM_SEAL", length=9),
        *faulty("SIP004_DATAGRAM_OPEN", "KEY", "ANSWER"),
    ]
    yield faulty("SIP004_BEGIN_SEAL", "KEY", "SALT", "STREAM")
    yield faulty("SIP004_BEGIN_OPEN", "KEY", "SALT", "STREAM")
    yield [
        step("SIP004_BEGIN_SEAL"),
        *faulty("SIP004_SEAL_CHUNK", "STREAM", "ANSWER"),
        step("SIP004_BEGIN_OPEN"),
        *faulty("SIP004_OPEN_CHUNK", "STREAM", "ANSWER"),
    ]


def sip004_datagrams():
    for length in (0, 1, 16, 300):
        yield [
            step("SIP004_DATAGRAM_SEAL", length=length, how=ONE_MORE),
            step("SIP004_DATAGRAM_OPEN", how=MUCH_MORE),
            *(step("SIP004_DATAGRAM_OPEN", how=how) for how in (0, ONE_SHORT, NO_ROOM)),
            *(step("SIP004_DATAGRAM_SEAL", length=length, how=how) for how in (ONE_SHORT, NO_ROOM)),
            *(step("SIP004_DATAGRAM_OPEN", fault("INPUT", FLIPPED), place=n) for n in (0, 20, 45)),
            *(
                step("SIP004_DATAGRAM_OPEN", fault("INPUT", AT_LENGTH), length=n)
                for n in (0, 31, 32, 39, 40, 47, 48)
            ),
            step("OPEN_SERVER"),
        ]
    for less in (125, 133, 141):  # the longest payload by method, and one byte more
        yield [
            step("SIP004_DATAGRAM_SEAL", length=0xFFFF - less),
            step("SIP004_DATAGRAM_SEAL", length=0xFFFF - less + 1),
            step("SIP004_DATAGRAM_OPEN"),
            step("SIP004_DATAGRAM_OPEN", fault("INPUT", LONGER)),
        ]
    yield [
        *(step("ANY_BYTES", who=n, length=0xFFFF - 93 + n, place=3) for n in (0, 1)),  # 65,507
        *(step("SIP004_DATAGRAM_OPEN", who=8 * n, how=how) for n in (0, 1) for how in (0, NO_ROOM)),
    ]


def sip004_begun() -> list[bytes]:
    """Stream 0 seals to line 0, and stream 1 opens it."""
    return [step("SIP004_BEGIN_SEAL"), step("SIP004_BEGIN_OPEN", who=1)]


def sip004_streams():
    yield [
        *sip004_begun(),
        *(step("SIP004_SEAL_CHUNK", length=n) for n in (5, 0, 1, 0, 300)),
        *(step("SIP004_OPEN_CHUNK", fault("INPUT", AT_LENGTH), who=1, length=n) for n in (0, 17)),
        *[step("SIP004_OPEN_CHUNK", who=1, how=MUCH_MORE)] * 11,
        step("OPEN_CHUNK", who=1),
        step("SEAL_CHUNK", length=1),
        step("OPEN_VARIABLE", who=1),
        step("SIP004_OPEN_CHUNK", fault("INPUT", FLIPPED), who=1),
        step("ANY_BYTES", who=1, how=1, length=40, place=3),
        *[step("SIP004_OPEN_CHUNK", who=1)] * 2,
        step("SIP004_SEAL_CHUNK", who=1, length=1),
        step("SIP004_SEAL_CHUNK", who=1),
    ]
    yield [
        *sip004_begun(),
        *(step("SIP004_SEAL_CHUNK", length=3, how=how) for how in (ONE_SHORT, NO_ROOM, ONE_MORE)),
        step("SIP004_OPEN_CHUNK", who=1, how=NO_ROOM),
        *(step("SIP004_OPEN_CHUNK", who=1, how=how) for how in (NO_ROOM, ONE_SHORT, 0)),
        step("SEAL_RESPONSE", length=1),
        step("SIP004_SEAL_CHUNK"),
        step("OPEN_RESPONSE"),
        step("SIP004_OPEN_CHUNK"),
    ]
    for length in (CHUNK_LENGTHS, CHUNK_LENGTHS + 1, CHUNK_LENGTHS + 2):
        yield [
            *sip004_begun(),
            step("SIP004_SEAL_CHUNK", length=length),
            *[step("SIP004_OPEN_CHUNK", who=1)] * 2,
        ]


def sip004_lengths():
    """Lengths that are said, on both sides of the cap, and payloads that a host lends."""
    for said in (0, 1, 16_383, 16_384, 0x8000, 65_535):
        yield [
            step("SIP004_BEGIN_OPEN"),
            step("CRAFT_CHUNK", how=1, length=said % 16_383, place=said),
            *[step("SIP004_OPEN_CHUNK")] * 3,
            step("SIP004_SEAL_CHUNK", length=1),
        ]
    for said in (0, 16_383, 16_384, 65_535, 65_536, FROM_END):
        yield [
            step("SIP004_BEGIN_OPEN"),
            step("SET_WORD", who=12, place=0, value=2),
            step("SET_WORD", who=12, place=3, value=said),
            step("SIP004_OPEN_CHUNK"),
            step("ANY_BYTES", how=1, length=40, place=3),
            step("SIP004_OPEN_CHUNK"),
            step("SIP004_OPEN_CHUNK"),
        ]


def sip004_orders():
    """Several faults at once: of an ended stream, of a length to seal, of a payload."""
    words = {0: 0, 2: FROM_END, 1: 10}
    for faults in ((0,), (0, 2), (0, 2, 1)):
        yield [
            *sip004_begun(),
            *(step("SET_WORD", who=12, place=place, value=words[place]) for place in faults),
            *(step("SIP004_SEAL_CHUNK", length=n) for n in (0, CHUNK_LENGTHS + 2)),
            step("SIP004_OPEN_CHUNK", how=NO_ROOM),
        ]
    yield [
        *sip004_begun(),
        step("SIP004_OPEN_CHUNK"),
        step("SIP004_SEAL_CHUNK", length=CHUNK_LENGTHS + 2, how=NO_ROOM),
        step("SET_WORD", who=12, place=2, value=FROM_END),
        step("SIP004_SEAL_CHUNK", length=CHUNK_LENGTHS + 2),
        step("SIP004_SEAL_CHUNK", length=1, how=NO_ROOM),
        step("SET_WORD", who=13, place=0, value=2),
        step("SET_WORD", who=13, place=3, value=5),
        step("ANY_BYTES", who=1, how=1, length=20, place=3),
        step("SIP004_OPEN_CHUNK", who=1, how=NO_ROOM),
        step("ANY_BYTES", who=1, how=1, length=21, place=3),
        *(step("SIP004_OPEN_CHUNK", who=1, how=how) for how in (NO_ROOM, 0)),
    ]


def sip004_states():
    """Counters near their end, other turns, other methods, words behind a shorter subkey."""
    yield [
        step("SIP004_BEGIN_SEAL"),
        *(
            each
            for less in (3, 2, 1, 0)
            for each in (
                step("SET_WORD", who=12, place=2, value=FROM_END | less),
                step("SIP004_SEAL_CHUNK", length=3),
                step("SET_WORD", who=12, place=0, value=1),
                step("SET_WORD", who=12, place=2, value=FROM_END | less),
                step("SIP004_OPEN_CHUNK"),
                step("SET_WORD", who=12, place=0, value=3),
            )
        ),
    ]
    for place, words in ((0, (0, 4, 5, FROM_END)), (1, (1, 2, 10, 14, 267)), (7, (9,)), (6, (9,))):
        for value in words:
            changed = [step("SET_WORD", who=who, place=place, value=value) for who in (12, 13)]
            yield [
                *sip004_begun(),
                *changed,
                step("SIP004_SEAL_CHUNK", length=3),
                step("SIP004_SEAL_CHUNK", length=0),
                *[step("SIP004_OPEN_CHUNK", who=1)] * 4,
            ]


GROUPS = (
    plans,
    settings,
    sealed_datagrams,
    refused_datagrams,
    inner_datagrams,
    windows,
    several,
    repeats,
    replies,
    requests,
    refused_requests,
    variable_headers,
    responses,
    chunks,
)


SIP004_GROUPS = (
    sip004_settings,
    sip004_datagrams,
    sip004_streams,
    sip004_lengths,
    sip004_orders,
    sip004_states,
)


def at_starts(each: bytes) -> bytes:
    """A call with its buffers lent at the starts of their places, not at the ends."""
    code, fault, who, how = each[:4]
    return bytes([code, fault, who, how | 0xF8 if code < len(FUNCTIONS) else how]) + each[4:]


def seed(name: str, steps: list[bytes], method: int, code: int, who: int):
    """A list of steps by a method: its number, and the code and who of the first step that set it."""
    first = struct.pack("<BBBBHHQ", code, 0, who, 0, 0, 0, CLOCK)
    yield f"{name}-{method}", first + b"".join(steps)
    yield f"{name}-{method}-starts", first + b"".join(map(at_starts, steps))


def with_methods(groups, methods):
    """Each list of the groups by each of the methods that there are for its number."""
    for group in groups:
        for number, steps in enumerate(group()):
            for method in methods(group, number):
                yield from seed(f"{group.__name__}-{number}", steps, *method)


def sip022_methods(group, number: int):
    """Both of AES, and one of ChaCha in turn; of what differs by the cipher all three."""
    ciphers = (inner_datagrams, sealed_datagrams, requests, responses)
    numbers = (1, 2, 3, 4, 5) if group in ciphers else (1, 2, 3 + number % 3)
    return [(method, method - 1, 0) for method in numbers]


def sip004_methods(group, number: int):
    return (11, 0, 0), (12, 1, 1), (13, 0, 2)


def all_seeds():
    yield from with_methods(GROUPS, sip022_methods)
    yield from with_methods(SIP004_GROUPS, sip004_methods)


def main() -> None:
    if len(sys.argv) != 2:
        sys.exit(f"usage: {sys.argv[0]} FOLDER")
    folder = Path(sys.argv[1])
    folder.mkdir(parents=True, exist_ok=True)
    for name, content in all_seeds():
        (folder / name).write_bytes(content)


if __name__ == "__main__":
    main()
