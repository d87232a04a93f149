"""Calls about recordings, by dice: files that are well formed, nearly so, or anything."""

from __future__ import annotations

import random
import sys

sys.dont_write_bytecode = True  # no __pycache__ in the tree
import recordings  # noqa: E402
import relay  # noqa: E402
from oddities import LAST, flipped  # noqa: E402
from recordings import COUNT, MAX_FILE, Entry  # noqa: E402
from scenarios import Run, Scenario  # noqa: E402

COUNTS = (0, 0, 1, 1, 2, 3, 5, 12)
LENGTHS = (0, 0, 1, 2, 17, 18, 40, 255, 256, 1_000)
CLOCKS = (0, 1, 1_000, 2**32, 2**63, LAST)
MOST = (MAX_FILE - COUNT.size) // recordings.CONTENTS.size  # entries of a file that is compared


def any_entry(dice: random.Random) -> Entry:
    body = bytes(dice.choices(b"\0\1\xff", k=dice.choice(LENGTHS)))
    return Entry(dice.randrange(3), dice.choice(CLOCKS), body)


def any_entries(dice: random.Random) -> list[Entry]:
    if dice.randrange(50) == 0:
        return [Entry(1, dice.choice(CLOCKS), b"")] * (MOST + dice.choice((0, 0, 1)))
    return [any_entry(dice) for _ in range(dice.choice(COUNTS))]


def changed_entry(dice: random.Random, entry: Entry) -> Entry:
    """With one field changed."""
    way = dice.randrange(5)
    if way == 0:
        return entry._replace(direction=dice.randrange(4))
    if way == 1:
        return entry._replace(clock=entry.clock ^ 1 << dice.randrange(64))
    if way == 2:
        return entry._replace(body=entry.body + b"x")
    return entry._replace(body=flipped(dice, entry.body))


def changed_entries(dice: random.Random, entries: list[Entry]) -> list[Entry]:
    """Nearly the same: some changed, some more or fewer."""
    others = [changed_entry(dice, entry) if dice.randrange(4) == 0 else entry for entry in entries]
    way = dice.randrange(4)
    if way == 0:
        return others[: dice.randrange(len(others) + 1)]
    return others + [any_entry(dice)] if way == 1 else others


def damaged(dice: random.Random, file: bytes) -> bytes:
    """Cut, or with a byte of its contents changed."""
    way = dice.randrange(4)
    if way == 0:
        return file[: dice.randrange(len(file) + 1)]
    if way == 1:
        return file + bytes(max(0, MAX_FILE + dice.randrange(2) - len(file)))
    place = dice.randrange(min(len(file), 4 + 15 * 3))
    value = dice.choice((0, 1, 2, 3, 255, dice.randrange(256)))
    return file[:place] + bytes([value]) + file[place + 1 :]


def scrambled(dice: random.Random, file: bytes) -> bytes:
    """With some numbers of its contents changed, its count among them."""
    changed = bytearray(file)
    for _ in range(dice.choice((0, 1, 1, 2, 5))):
        place, size = dice.choice(((0, 4), (4, 4), (8, 2), (10, 1), (19, 4), (23, 2), (25, 1)))
        values = (0, 1, 2, 3, 19, 34, 4_096, 4_097, 65_507, 65_508, 256**size - 1, len(file))
        if place + size <= len(file):
            changed[place : place + size] = (dice.choice(values) % 256**size).to_bytes(size)
    return bytes(changed)


class Recordings(Scenario):
    """Pairs of files that have much in common."""

    def __init__(self, run: Run, dice: random.Random) -> None:
        super().__init__(run, dice)
        self.entries = any_entries(dice)

    def file(self, entries: list[Entry]) -> bytes:
        behind = b"" if self.often(80) else self.dice.randbytes(3)
        file = recordings.recorded(entries, behind)
        return damaged(self.dice, file) if self.often(12) else file

    def compare(self) -> None:
        first, second = self.file(self.entries), self.file(changed_entries(self.dice, self.entries))
        if self.often(50):
            first, second = second, first
        due = len(recordings.compare(first, second)[1])
        values = {"first": first, "second": second, "out": self.room(due)}
        self.call("recording_compare", **values, answer=self.answer)

    def mend(self) -> None:
        file = scrambled(self.dice, self.file(self.entries))
        if self.often(3):
            file = file[: self.dice.randrange(6)]
        if self.often(1):
            file = recordings.COUNT.pack(self.dice.choice((4_097, 2**32 - 1))) + bytes(62_000)
        due = 4 * len(recordings.mend(file)[1]) if len(file) >= COUNT.size else 3
        lent = max(0, due + self.dice.choice((0, 0, 0, 1, 4, -1 if self.often(30) else 9)))
        report = tuple(self.dice.getrandbits(64) for _ in range(lent))
        number, left = self.call("recording_mend", file=file, report=report, answer=self.answer)
        if number == 0 and self.often(30):
            mended = left["file"]
            self.call("recording_mend", file=mended, report=(), answer=self.answer)
            out = self.room(40)
            values = {"first": mended, "second": mended, "out": out}
            self.call("recording_compare", **values, answer=self.answer)

    def step(self) -> None:
        if self.often(20):
            self.entries = any_entries(self.dice)
        if self.often(50):
            return self.mend()
        return self.compare()
