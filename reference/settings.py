"""Settings files with editions: reading and writing, from the scope's words over blake3.py.

A file is its edition and a count (2 bytes each); for each setting a number, the offset of its
body in the file and the body's length (2 bytes each), all big-endian; then the bodies back to
back, and a BLAKE3 hash of all before it. An independent reference: it reads a file entry by
entry and shares nothing with the proved crates.

    python3 reference/settings.py --selftest
"""

from __future__ import annotations

import functools
import itertools
import struct
import sys
from typing import NamedTuple

sys.dont_write_bytecode = True  # no __pycache__ in the tree
import aes  # noqa: E402
import blake3  # noqa: E402
from datagram import ARGUMENT, LENGTH, MAX_LENGTH, NAME, ROOM, V4, V6  # noqa: E402
from datagram import address_length  # noqa: E402

NOT_AUTHENTIC, MALFORMED, UNKNOWN = 4, 5, 15  # refusals

METHOD, RETENTION, LIMIT, TARGET = KNOWN = range(1, 5)
FIRST_SKIPPED = 128  # of the numbers that a reader need not know
LAST_NUMBER = 65_535

METHODS = (*range(1, 6), *range(11, 14))
RETENTIONS = (0, *range(60, 3_601))

FRONT = struct.Struct(">HH")  # edition, count
ENTRY = struct.Struct(">HHH")  # number, offset, length
HASH_LENGTH = 32
MIN_FILE = FRONT.size + HASH_LENGTH
MAX_FILE = 65_535


class Entry(NamedTuple):
    """A setting as it stands in a file."""

    number: int
    offset: int
    body: bytes


class File(NamedTuple):
    """What a reader shows: the edition, and the known settings by their numbers."""

    edition: int
    known: dict[int, Entry]


@functools.lru_cache(maxsize=256)
def hash_of(data: bytes) -> bytes:
    """Remembered, as what is written is read too."""
    return blake3.hash(data, HASH_LENGTH)


def hashed(data: bytes) -> bytes:
    """A file of all before its hash."""
    return data + hash_of(data)


def contents_end(count: int) -> int:
    return FRONT.size + ENTRY.size * count


def is_lawful(number: int, body: bytes) -> bool:
    """Whether a known setting may be this."""
    value = int.from_bytes(body, "big")
    if number == METHOD:
        return len(body) == 1 and value in METHODS
    if number == RETENTION:
        return len(body) == 2 and value in RETENTIONS
    if number == LIMIT:
        return len(body) == 4 and value <= MAX_LENGTH
    return address_length(body) == len(body)


def is_skipped(number: int) -> bool:
    return number not in KNOWN and number >= FIRST_SKIPPED


# Reading.


def entries_of(file: bytes) -> list[Entry] | None:
    """The settings of a file in its order; None if its contents are not lawful."""
    _, count = FRONT.unpack_from(file)
    place, end, last = contents_end(count), len(file) - HASH_LENGTH, -1
    if place > end:
        return None
    entries = []
    for number, offset, length in ENTRY.iter_unpack(file[FRONT.size : place]):
        if number <= last or offset != place or place + length > end:
            return None
        last, place = number, place + length
        entries.append(Entry(number, offset, file[offset:place]))
    return entries if place == end else None


def read(file: bytes) -> tuple[int, File | int | None]:
    """0 and what the file shows, UNKNOWN and the number of a setting, or another refusal."""
    if not MIN_FILE <= len(file) <= MAX_FILE:
        return LENGTH, None
    if hash_of(file[:-HASH_LENGTH]) != file[-HASH_LENGTH:]:
        return NOT_AUTHENTIC, None
    entries = entries_of(file)
    if entries is None:
        return MALFORMED, None
    known = {entry.number: entry for entry in entries if entry.number in KNOWN}
    if not all(is_lawful(entry.number, entry.body) for entry in known.values()):
        return MALFORMED, None
    unknown = [entry.number for entry in entries if entry.number not in KNOWN]
    refused = [number for number in unknown if not is_skipped(number)]
    if refused:
        return UNKNOWN, min(refused)
    edition, _ = FRONT.unpack_from(file)
    return 0, File(edition, known)


# Writing.

Setting = tuple[int, bytes]  # its number and its body


def file_length(bodies: list[bytes]) -> int:
    return contents_end(len(bodies)) + sum(map(len, bodies)) + HASH_LENGTH


def laid_out(edition: int, settings: list[Setting]) -> bytes:
    """The file of any settings that its numbers have room for, lawful or not."""
    place, contents = contents_end(len(settings)), [FRONT.pack(edition, len(settings))]
    for number, body in settings:
        contents.append(ENTRY.pack(number, place, len(body)))
        place += len(body)
    return hashed(b"".join([*contents, *(body for _, body in settings)]))


def is_writable(number: int, body: bytes) -> bool:
    if number in KNOWN:
        return is_lawful(number, body)
    return is_skipped(number) and number <= LAST_NUMBER


def write(edition: int, settings: list[Setting], room: int = MAX_FILE) -> tuple[int, bytes]:
    """The number of a refusal and nothing, or 0 and the file."""
    numbers = [number for number, _ in settings]
    if not all(first < second for first, second in itertools.pairwise(numbers)):
        return ARGUMENT, b""
    if not all(is_writable(number, body) for number, body in settings):
        return ARGUMENT, b""
    length = file_length([body for _, body in settings])
    if length > MAX_FILE:
        return LENGTH, b""
    if length > room:
        return ROOM, b""
    return 0, laid_out(edition, settings)


# Examples.

EXAMPLE = [(1, b"\3"), (2, b"\x01\x2c"), (3, b"\0\0\x05\xdc"), (4, NAME), (200, b"later")]
# All before the hash: edition 7, five settings, their bodies from 34 on.
EXAMPLE_BYTES = bytes.fromhex(
    "0007 0005 0001 0022 0001 0002 0023 0002 0003 0025 0004 0004 0029 0005 00c8 002e 0005"
    "03 012c 000005dc 0301610050 6c61746572"
)
# By b3sum 1.2.0: of these, and of edition 0 without settings.
EXAMPLE_HASH = "feaf550ec08d843ba5b992ff92a9a06e342020b06e71a2ab56f0d8ebe199dc63"
EMPTY_HASH = "ec2bd03bf86b935fa34d71ad7ebb049f1f10f87d343e521511d8f9e6625620cd"


def reading_examples():
    file = laid_out(7, EXAMPLE)
    yield "the example", file == EXAMPLE_BYTES + bytes.fromhex(EXAMPLE_HASH)
    shown = {number: body for number, body in EXAMPLE if number in KNOWN}
    number, said = read(file)
    bodies = {each: entry.body for each, entry in said.known.items()}
    yield "read", (number, said.edition, bodies) == (0, 7, shown)
    yield "offsets", [entry.offset for entry in said.known.values()] == [34, 35, 37, 41]
    yield "no settings", laid_out(0, []) == bytes(4) + bytes.fromhex(EMPTY_HASH)
    yield "36 bytes", read(laid_out(65_535, [])) == (0, File(65_535, {}))
    yield "35 bytes", read(file[:35]) == (LENGTH, None)
    longest = laid_out(1, [(128, bytes(MAX_FILE - MIN_FILE - ENTRY.size))])
    yield "65,535 bytes", (len(longest), read(longest)[0]) == (MAX_FILE, 0)
    yield "65,536 bytes", read(longest + b"\0") == (LENGTH, None)
    yield "a bit", read(file[:-1] + bytes([file[-1] ^ 1])) == (NOT_AUTHENTIC, None)
    for name, numbers, expected in (
        ("0", [0], (UNKNOWN, 0)),
        ("5", [5, 127, 128], (UNKNOWN, 5)),
        ("127", [127, 65_535], (UNKNOWN, 127)),
        ("128", [128], (0, File(0, {}))),
        ("equal numbers", [5, 5], (MALFORMED, None)),
        ("falling numbers", [129, 128], (MALFORMED, None)),
    ):
        yield name, read(laid_out(0, [(each, b"") for each in numbers])) == expected
    yield "5 before 15", read(laid_out(0, [(0, b""), (1, b"\0")])) == (MALFORMED, None)


def malformed_examples():
    """Contents that are not in order, hashed as they are."""
    front, entry = FRONT.pack(0, 1), ENTRY.pack(128, 10, 2)
    for name, data, expected in (
        ("in order", front + entry + b"ab", 0),
        ("contents past the hash", FRONT.pack(0, 2) + entry, MALFORMED),
        ("the largest count", FRONT.pack(0, 65_535) + entry, MALFORMED),
        ("a gap", front + ENTRY.pack(128, 11, 2) + b"xab", MALFORMED),
        ("an overlap", front + ENTRY.pack(128, 9, 2) + b"ab", MALFORMED),
        ("a body past the hash", front + ENTRY.pack(128, 10, 3) + b"ab", MALFORMED),
        ("bytes before the hash", front + ENTRY.pack(128, 10, 1) + b"ab", MALFORMED),
        ("bytes and no settings", FRONT.pack(0, 0) + b"a", MALFORMED),
    ):
        yield name, read(hashed(data))[0] == expected


LAWFUL = {
    METHOD: [bytes([each]) for each in METHODS],
    RETENTION: [each.to_bytes(2, "big") for each in (0, 60, 300, 3_600)],
    LIMIT: [each.to_bytes(4, "big") for each in (0, 65_506, 65_507)],
    TARGET: [V4, V6, NAME],
}
UNLAWFUL = {
    METHOD: [b"", b"\0\1", *(bytes([each]) for each in (0, 6, 10, 14, 255))],
    RETENTION: [b"", b"\0", bytes(3), *(each.to_bytes(2, "big") for each in (1, 59, 3_601))],
    LIMIT: [b"", bytes(3), bytes(5), *(each.to_bytes(4, "big") for each in (65_508, 2**32 - 1))],
    TARGET: [b"", V4[:-1], V6 + b"\0", b"\3\0\0\x50", b"\2" + V4[1:]],
}


def writing_examples():
    yield "written", write(7, EXAMPLE) == (0, laid_out(7, EXAMPLE))
    for bodies, expected, shown in ((LAWFUL, 0, 0), (UNLAWFUL, ARGUMENT, MALFORMED)):
        for number, body in ((each, body) for each in KNOWN for body in bodies[each]):
            name = f"setting {number} of {body.hex()}"
            yield name, write(0, [(number, body)])[0] == expected
            yield f"{name}, read", read(laid_out(0, [(number, body)]))[0] == shown
    for number in (0, 5, 127, 65_536, 2**64 - 1):
        yield f"unknown {number}", write(0, [(number, b"")]) == (ARGUMENT, b"")
    yield "equal numbers", write(0, [(128, b""), (128, b"")]) == (ARGUMENT, b"")
    yield "falling numbers", write(0, [(129, b""), (128, b"")]) == (ARGUMENT, b"")
    most = MAX_FILE - MIN_FILE - ENTRY.size
    yield "longest", len(write(0, [(128, bytes(most))])[1]) == MAX_FILE
    yield "too long", write(0, [(128, bytes(most + 1))], 0) == (LENGTH, b"")
    yield "12 before 2", write(0, [(1, b""), (128, bytes(most))]) == (ARGUMENT, b"")
    yield "room", [write(0, [], room)[0] for room in (35, 36)] == [ROOM, 0]


def selftest() -> list[str]:
    """The names of the examples that this code fails."""
    checks = itertools.chain(reading_examples(), malformed_examples(), writing_examples())
    return [name for name, holds in checks if not holds]


if __name__ == "__main__":
    aes.run(selftest, "examples of settings files: all agree")
