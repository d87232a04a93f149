"""Calls about settings files: every kind of file, each of them damaged, and every refusal on both
sides of its edge and with others at once."""

from __future__ import annotations

import itertools
import sys
from collections.abc import Iterable, Iterator

sys.dont_write_bytecode = True  # no __pycache__ in the tree
from library import ROOT, Value  # noqa: E402

sys.path.insert(0, str(ROOT / "reference"))
import settings  # noqa: E402
from datagram import LONG_NAME, NAME, V4, V6  # noqa: E402
from oddities import LAST  # noqa: E402
from relay import ANSWER_WORDS  # noqa: E402
from scenarios import ADDRESSES, BAD_ADDRESSES  # noqa: E402
from settings import ENTRY, FRONT, HASH_LENGTH, KNOWN, MAX_FILE, MIN_FILE, Setting  # noqa: E402

ANSWER = tuple(range(1_001, 1_001 + ANSWER_WORDS))
EDITIONS = (0, 1, 7, 65_535)
UNKNOWN = (0, 5, 127, 128, 129, 65_535)
NUMBERS = (*range(7), *UNKNOWN, 254, 255, 256, 257, 65_534)
LONGEST = MAX_FILE - MIN_FILE - ENTRY.size  # bytes of the body of one setting

METHOD_BYTES = (*range(17), 127, 128, 129, 139, 255)
RETENTIONS = (0, 1, 59, 60, 61, 255, 256, 299, 300, 3_599, 3_600, 3_601, 15_360, 65_535)
LIMITS = (0, 1, 255, 1_500, 65_506, 65_507, 65_508, 65_535, 65_536, 2**24, 2**31, 2**32 - 1)

Call = tuple[str, dict[str, Value]]


def addresses() -> Iterator[bytes]:
    """Lawful ones; and with another kind, a byte more, a byte less, or a name of no bytes."""
    yield from (*ADDRESSES, *BAD_ADDRESSES)
    for address in (V4, V6, NAME, LONG_NAME):
        yield from (address[:-1], address + b"\0", address[:1], address[:2])
        yield from (bytes([kind]) + address[1:] for kind in (0, 1, 2, 3, 4, 5, 129, 131, 255))
    yield from (b"\3\0" + bytes(2), b"\3\0", b"\3\1a\0", b"\3\2a\0\x50", b"\3\1ab\0\x50")


BODIES = {
    settings.METHOD: [b"", b"\0\1", b"\1\1", *(bytes([each]) for each in METHOD_BYTES)],
    settings.RETENTION: [
        *(b"", b"\0", b"\x3c", bytes(3), b"\0\0\x3c"),
        *(each.to_bytes(2, "big") for each in RETENTIONS),
    ],
    settings.LIMIT: [
        *(b"", b"\0", bytes(2), bytes(3), bytes(5), bytes(8)),
        *(each.to_bytes(4, "big") for each in LIMITS),
    ],
    settings.TARGET: list(dict.fromkeys(addresses())),
}
ONE_EACH = [(1, b"\x0d"), (2, b"\x0e\x10"), (3, b"\0\0\xff\xe3"), (4, NAME)]


def read(file: bytes, answer: tuple[int, ...] = ANSWER) -> Call:
    return "relay_settings_read", {"file": file, "answer": answer}


def lent_settings(given: list[Setting]) -> dict[str, Value]:
    """Numbers with lengths, and the bodies."""
    words = (word for number, body in given for word in (number, len(body)))
    return {"settings": tuple(words), "bodies": b"".join(body for _, body in given)}


def write(edition: int, given: list[Setting], more: int = 0, **others: Value) -> Call:
    """With so much more room than the file takes, or less."""
    length = settings.file_length([body for _, body in given])
    out = b"\xa5" * max(0, min(length, MAX_FILE) + more)
    values = {"edition": edition, "out": out, "answer": ANSWER} | lent_settings(given) | others
    return "relay_settings_write", values


def both(edition: int, given: list[Setting]) -> Iterator[Call]:
    """Written, and read whether it may be written or not."""
    yield write(edition, given)
    yield read(settings.laid_out(edition, given))


# Whole files.


def subsets(given: list) -> Iterator[list]:
    for size in range(len(given) + 1):
        yield from map(list, itertools.combinations(given, size))


def good_files() -> Iterator[Call]:
    """Every known setting there or not, alone and before one that is skipped."""
    for edition, some in itertools.product(EDITIONS, subsets(ONE_EACH)):
        yield from both(edition, some)
        yield from both(edition, [*some, (128, b"later"), (65_535, b"")])


def every_body() -> Iterator[Call]:
    """Each body of each known setting: alone, and among the others."""
    for number in KNOWN:
        for body in BODIES[number]:
            yield from both(1, [(number, body)])
            yield from both(1, [(each, body if each == number else own) for each, own in ONE_EACH])


def unknown_numbers() -> Iterator[Call]:
    """Alone, several of them, and beside lawful and unlawful settings."""
    for number in NUMBERS:
        yield from both(3, [(number, b"\1")])
    for some in subsets(list(UNKNOWN)):
        for beside in ([], ONE_EACH[:1], [(1, b"\0")], [(3, bytes(4)), (4, V6)]):
            given = sorted([*((number, b"u") for number in some), *beside])
            yield from both(3, given)


def orders_of_numbers() -> Iterator[Call]:
    """Rising, equal and falling."""
    for numbers in itertools.product((1, 127, 128, 255, 256, 65_535), repeat=3):
        yield from both(2, [(number, b"\2") for number in numbers])


# Damage.


def samples() -> Iterator[bytes]:
    yield settings.laid_out(0, [])
    yield settings.laid_out(0x0102, ONE_EACH)
    yield settings.laid_out(65_535, [*ONE_EACH[:3], (4, V4), (128, b"later"), (300, b"")])
    yield settings.laid_out(1, [(2, bytes(2)), (4, V6)])
    yield settings.laid_out(1, [(4, LONG_NAME), (129, b"")])
    yield settings.laid_out(1, [(1, b"\1"), (5, b"five"), (127, b""), (128, b"x")])


def every_byte() -> Iterator[Call]:
    """Changed with the hash as it was, and with the hash of what it is then."""
    for file in samples():
        for place in range(len(file)):
            for bits in (0x01, 0x80, 0xFF):
                changed = bytearray(file)
                changed[place] ^= bits
                yield read(bytes(changed))
                yield read(settings.hashed(bytes(changed[:-HASH_LENGTH])))


def every_cut() -> Iterator[Call]:
    """At every byte, and lengthened; as it is, and with the hash of what it is then."""
    for file in samples():
        for length in range(len(file)):
            yield read(file[:length])
        for behind in (b"\0", b"\xff", file, bytes(HASH_LENGTH)):
            yield read(file + behind)
        for length in range(len(file) - HASH_LENGTH):
            yield read(settings.hashed(file[:length]))
        yield read(settings.hashed(file[:-HASH_LENGTH] + b"\0"))


def every_field() -> Iterator[Call]:
    """Each number of the contents as other numbers, with the hash of what they are then."""
    for file in samples():
        data = file[:-HASH_LENGTH]
        count = FRONT.unpack_from(data)[1]
        for at in range(0, settings.contents_end(count), 2):
            stands = int.from_bytes(data[at : at + 2], "big")
            near = {stands + step for step in (-2, -1, 1, 2, 256)}
            for value in sorted({0, 1, 4, 5, 127, 128, len(data), len(file), 65_535} | near):
                field = (value % 2**16).to_bytes(2, "big")
                yield read(settings.hashed(data[:at] + field + data[at + 2 :]))


# Edges and several faults at once.


def lengths() -> Iterator[Call]:
    """From no byte on, and both sides of the longest file."""
    for length in (*range(80), MAX_FILE, MAX_FILE + 1, 2 * MAX_FILE):
        yield read(bytes(length))
    for length in (MIN_FILE - 1, MIN_FILE, MIN_FILE + 1, MAX_FILE + 1):
        yield read(settings.hashed(bytes(length - HASH_LENGTH)))
    for more in (-1, 0, 1):
        given = [(3, bytes(4)), (200, b"\x3a" * (LONGEST - ENTRY.size - 4 + more))]
        yield write(1, given)
        yield write(1, given, -1)
        if more <= 0:
            yield read(settings.laid_out(1, given))


def many_settings() -> Iterator[Call]:
    """As many as a file holds, and one more."""
    most = (MAX_FILE - MIN_FILE) // ENTRY.size
    for count in (most, most + 1):
        yield write(1, [(128 + each, b"") for each in range(count)])
    full = settings.laid_out(1, [*ONE_EACH[:1], *((128 + each, b"") for each in range(most - 1))])
    yield read(full)
    data = bytearray(full[:-HASH_LENGTH])
    ENTRY.pack_into(data, settings.contents_end(most - 1), 127 + most - 2, len(data), 0)
    yield read(settings.hashed(bytes(data)))


def chunks() -> Iterator[Call]:
    """Hashed texts around the ends of BLAKE3's blocks and chunks."""
    for chunk in (64, 1_024, 2_048, 3_072, 5_120, 8_192):
        for length in (chunk - 1, chunk, chunk + 1):
            body = bytes(each % 251 for each in range(length - settings.contents_end(1)))
            yield from both(1, [(129, body)])


def several_reading() -> Iterator[Call]:
    """Every choice of faults of a file and its answer, from the first refusal to the last."""
    for bad in itertools.product((False, True), repeat=6):
        answer, length, forged, contents, unlawful, unknown = bad
        given = [(0, b"?")] * unknown + [(1, b"\6" if unlawful else b"\5"), (200, b"")]
        data = settings.laid_out(1, given)[:-HASH_LENGTH] + b"x" * contents
        file = settings.hashed(data)
        file = file[: MIN_FILE - 1] if length else file
        file = file[:-1] + bytes([file[-1] ^ forged])
        yield read(file, ANSWER[1:] if answer else ANSWER)
    for words in (0, 1, 8, 10, 18):
        yield read(settings.laid_out(1, ONE_EACH), tuple(range(words)))


def several_writing() -> Iterator[Call]:
    """Every choice of faults of settings and what is lent."""
    for bad in itertools.product((False, True), repeat=7):
        answer, odd, sums, unlawful, unknown, long, room = bad
        given = [(1, b"\6" if unlawful else b"\5"), (5 if unknown else 128, b"u")]
        given += [(200, bytes(LONGEST if long else 3))]
        name, values = write(1, given, -1 if room else 3)
        values["settings"] += (9,) * odd
        values["bodies"] += b"x" * sums
        values["answer"] = ANSWER[answer:]
        yield name, values


def lengths_that_do_not_add_up() -> Iterator[Call]:
    """Also as numbers of 64 bits."""
    for words, bodies in (
        ((128,), b""),
        ((128, 0, 129), b""),
        ((128, 1), b""),
        ((128, 0), b"x"),
        ((128, 2), b"x"),
        ((128, LAST), b""),
        ((128, LAST), b"x"),
        ((128, LAST, 129, 1), b""),
        ((128, LAST, 129, 2), b"x"),
        ((128, 2**63, 129, 2**63), b""),
        ((128, 2**63, 129, 2**63, 130, 1), b"x"),
        ((128, 2**32), b""),
        ((128, 2**16 + 1), b"x"),
        ((128, 2**64 - 2**16, 129, 2**16), b""),
    ):
        yield write(1, [], 200, settings=words, bodies=bodies)
        yield write(1, [], 200, settings=(1, 0, *words), bodies=bodies)


def numbers_that_do_not_fit() -> Iterator[Call]:
    for number in (65_535, 65_536, 65_537, 65_664, 2**32 + 1, 2**32 + 128, 2**63, LAST):
        yield write(1, [(number, b"\1")], 100)
        yield write(1, [(128, b""), (number, b"\1")], 100)
        yield write(1, [(number, b"\1"), (65_535, b"")], 100)


def rooms() -> Iterator[Call]:
    for given in subsets([*ONE_EACH, (128, b"later")]):
        for more in (-MAX_FILE, -1, 0, 1, 40):
            yield write(1, given, more)


CASES: tuple = (
    *(good_files, every_body, unknown_numbers, orders_of_numbers),
    *(every_byte, every_cut, every_field),
    *(lengths, many_settings, chunks, several_reading, several_writing),
    *(lengths_that_do_not_add_up, numbers_that_do_not_fit, rooms),
)


def calls() -> Iterable[Call]:
    return itertools.chain.from_iterable(case() for case in CASES)
