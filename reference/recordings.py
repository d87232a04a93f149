"""Recordings of datagrams: the format, two recordings side by side, and mending a damaged one.

A recording is a count (4 bytes), for each entry offset, length, direction and clock
(4, 2, 1 and 8 bytes), all big-endian, and then the bodies back to back. An independent
reference: it reads a file entry by entry and shares nothing with the proved crates.

    python3 reference/recordings.py --selftest
"""

from __future__ import annotations

import itertools
import struct
import sys
from typing import NamedTuple

sys.dont_write_bytecode = True  # no __pycache__ in the tree
import aes  # noqa: E402

LENGTH, ROOM, MALFORMED = 2, 3, 5  # refusals
MAX_FILE = 32_768  # bytes that are compared
MAX_ENTRIES = 4_096
MAX_BODY = 65_507
UNKNOWN = 2  # the highest direction

COUNT = struct.Struct(">I")
CONTENTS = struct.Struct(">IHBQ")  # offset, length, direction, clock


class Entry(NamedTuple):
    """What is compared of an entry."""

    direction: int
    clock: int
    body: bytes


def contents_end(count: int) -> int:
    return COUNT.size + CONTENTS.size * count


def recorded(entries: list[Entry], behind: bytes = b"") -> bytes:
    """The well-formed recording of these entries, and bytes behind it."""
    place, contents = contents_end(len(entries)), [COUNT.pack(len(entries))]
    for entry in entries:
        contents.append(CONTENTS.pack(place, len(entry.body), entry.direction, entry.clock))
        place += len(entry.body)
    return b"".join([*contents, *(entry.body for entry in entries), behind])


def read(file: bytes) -> list[Entry] | None:
    """The entries of a well-formed recording; None for any other file."""
    if len(file) < COUNT.size:
        return None
    (count,) = COUNT.unpack_from(file)
    place = contents_end(count)
    if count > MAX_ENTRIES or place > len(file):
        return None
    entries = []
    for at in range(COUNT.size, place, CONTENTS.size):
        offset, length, direction, clock = CONTENTS.unpack_from(file, at)
        if offset != place or length > MAX_BODY or direction > UNKNOWN:
            return None
        place += length
        if place > len(file):
            return None
        entries.append(Entry(direction, clock, file[offset:place]))
    return entries


def difference(index: int, first: Entry | None, second: Entry | None) -> str | None:
    """The line of an index, if it has one."""
    if first is None:
        return f"second-only {index}"
    if second is None:
        return f"first-only {index}"
    if len(first.body) != len(second.body):
        return f"length {index} {len(first.body)} {len(second.body)}"
    if (first.direction, first.clock) != (second.direction, second.clock):
        return f"meta {index}"
    for place, pair in enumerate(zip(first.body, second.body)):
        if pair[0] != pair[1]:
            return f"differ {index} byte {place}"
    return None


def compare(first: bytes, second: bytes) -> tuple[int, bytes]:
    """The number of a refusal and nothing, or 0 and the text of both side by side."""
    if max(len(first), len(second)) > MAX_FILE:
        return LENGTH, b""
    entries = read(first), read(second)
    if None in entries:
        return MALFORMED, b""
    lines = [f"entries {len(entries[0])} {len(entries[1])}"]
    pairs = enumerate(itertools.zip_longest(*entries))
    lines += [line for index, pair in pairs if (line := difference(index, *pair))]
    return 0, "".join(f"{line}\n" for line in lines).encode("ascii")


def printed(first: bytes | None, second: bytes | None) -> bytes:
    """What the program prints of two files, None standing for one that cannot be read."""
    if first is None or second is None:
        return b"refused 2\n"
    number, text = compare(first, second)
    return b"refused %d\n" % number if number else text


# Mending.

OF_COUNT = 4_096  # the count's entry in a report
COUNT_FIELD, OFFSET_FIELD, LENGTH_FIELD, DIRECTION_FIELD = range(4)


class Change(NamedTuple):
    """A field whose number is another one, as it is reported."""

    entry: int
    field: int
    old: int
    new: int


def mend(file: bytes) -> tuple[bytes, list[Change]]:
    """The mended file, of 4 bytes at least, and what was changed."""
    mended, fields = bytearray(file), []
    (stands,) = COUNT.unpack_from(file)
    count = min(stands, MAX_ENTRIES, (len(file) - COUNT.size) // CONTENTS.size)
    COUNT.pack_into(mended, 0, count)
    fields.append(Change(OF_COUNT, COUNT_FIELD, stands, count))
    place = contents_end(count)
    for index in range(count):
        at = contents_end(index)
        offset, length, direction, clock = CONTENTS.unpack_from(file, at)
        cut = min(length, MAX_BODY, len(file) - place)
        CONTENTS.pack_into(mended, at, place, cut, min(direction, UNKNOWN), clock)
        fields.append(Change(index, OFFSET_FIELD, offset, place))
        fields.append(Change(index, LENGTH_FIELD, length, cut))
        fields.append(Change(index, DIRECTION_FIELD, direction, min(direction, UNKNOWN)))
        place += cut
    return bytes(mended), [change for change in fields if change.old != change.new]


# Examples.


def example() -> tuple[bytes, bytes]:
    """Two entries against three, the second differing at byte 17."""
    entries = [Entry(0, 1, b"hello"), Entry(1, 2**63, bytes(range(40)))]
    changed = bytearray(range(40))
    changed[17] ^= 0xFF
    others = [entries[0], Entry(1, 2**63, bytes(changed)), Entry(2, 7, b"")]
    return recorded(entries, b"tail"), recorded(others)


def selftest() -> list[str]:
    """The names of the examples that this code fails."""
    first, second = example()
    one = recorded([Entry(0, 1, b"ab")])
    longer, later = recorded([Entry(2, 9, b"a")]), recorded([Entry(0, 2, b"xy")])
    empty = Entry(0, 0, b"")
    texts = {
        "the example": (first, second, b"entries 2 3\ndiffer 1 byte 17\nsecond-only 2\n"),
        "the other way": (second, first, b"entries 3 2\ndiffer 1 byte 17\nfirst-only 2\n"),
        "empty": (bytes(4), bytes(4), b"entries 0 0\n"),
        "bytes behind": (one, one + b"x", b"entries 1 1\n"),
        "length first": (one, longer, b"entries 1 1\nlength 0 2 1\n"),
        "meta second": (one, later, b"entries 1 1\nmeta 0\n"),
        "3 bytes": (one, bytes(3), b"refused 5\n"),
        "too long": (bytes(MAX_FILE + 1), bytes(3), b"refused 2\n"),
        "as long as may be": (bytes(MAX_FILE), bytes(4), b"entries 0 0\n"),
        "unreadable": (None, bytes(3), b"refused 2\n"),
    }
    read_as = {
        "a gap": (one[:4] + CONTENTS.pack(20, 1, 0, 1) + b"xab", None),
        "direction 3": (recorded([Entry(3, 1, b"ab")]), None),
        "4,096 entries": (recorded([empty] * MAX_ENTRIES), [empty] * MAX_ENTRIES),
        "4,097 entries": (recorded([empty] * (MAX_ENTRIES + 1)), None),
        "65,507 bytes": (recorded([Entry(0, 0, bytes(MAX_BODY))]), [Entry(0, 0, bytes(MAX_BODY))]),
        "65,508 bytes": (recorded([Entry(0, 0, bytes(MAX_BODY + 1))]), None),
    }
    failed = [name for name, (a, b, text) in texts.items() if printed(a, b) != text]
    failed += [name for name, (file, entries) in read_as.items() if read(file) != entries]
    return failed + [name for name, holds in mending_examples() if not holds]


def mending_examples():
    """Names, and whether each holds."""
    good = recorded([Entry(0, 1, b"ab"), Entry(2, 3, b"c")])
    yield "nothing to mend", mend(good) == (good, [])
    scrambled = COUNT.pack(3) + CONTENTS.pack(9, 65_535, 3, 7) + CONTENTS.pack(34, 2, 1, 8) + b"ab"
    mended, changes = mend(scrambled)
    yield "what was changed", changes == [
        (OF_COUNT, COUNT_FIELD, 3, 2),
        (0, OFFSET_FIELD, 9, 34),
        (0, LENGTH_FIELD, 65_535, 2),
        (0, DIRECTION_FIELD, 3, 2),
        (1, OFFSET_FIELD, 34, 36),
        (1, LENGTH_FIELD, 2, 0),
    ]
    yield "mended", read(mended) == [Entry(2, 7, b"ab"), Entry(1, 8, b"")]
    yield "mended again", mend(mended) == (mended, [])
    yield "4 bytes", mend(b"\xff" * 4) == (bytes(4), [(OF_COUNT, COUNT_FIELD, 2**32 - 1, 0)])
    many = mend(COUNT.pack(4_097) + bytes(15 * 4_097))[1]
    yield "4,097 entries", many[0] == (OF_COUNT, COUNT_FIELD, 4_097, 4_096)


if __name__ == "__main__":
    aes.run(selftest, "examples of recordings: all agree")
