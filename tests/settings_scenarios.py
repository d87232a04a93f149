"""Settings files by dice: written, read, damaged and hashed again, cut, or anything."""

from __future__ import annotations

import random
import sys

sys.dont_write_bytecode = True  # no __pycache__ in the tree
import settings  # noqa: E402
from oddities import LAST, flipped, odd_bytes  # noqa: E402
from scenarios import Run, Scenario  # noqa: E402
from settings import ENTRY, FRONT, HASH_LENGTH, KNOWN, MAX_FILE, Setting  # noqa: E402
from settings_cases import BODIES, NUMBERS, lent_settings  # noqa: E402

LENGTHS = (0, 0, 1, 2, 17, 64, 300)
LONG = (1_024, 2_000, 5_000)  # of more than one chunk


class Settings(Scenario):
    """Files that have much in common with the last one."""

    def __init__(self, run: Run, dice: random.Random) -> None:
        super().__init__(run, dice)
        self.given = self.any_settings()

    def body(self, number: int) -> bytes:
        """Lawful for the most part."""
        if number in KNOWN:
            lawful = [each for each in BODIES[number] if settings.is_lawful(number, each)]
            return self.dice.choice(BODIES[number] if self.often(4) else lawful)
        return self.dice.randbytes(self.dice.choice(LONG if self.often(2) else LENGTHS))

    def any_settings(self) -> list[Setting]:
        numbers = {number for number in KNOWN if self.often(60)}
        numbers |= {self.dice.randrange(128, 65_536) for _ in range(self.dice.randrange(3))}
        if self.often(20):
            numbers.add(self.dice.choice(NUMBERS))
        return [(number, self.body(number)) for number in sorted(numbers)]

    def edition(self) -> int:
        return self.dice.choice((0, 1, 65_535, self.dice.randrange(2**16)))

    def changed_contents(self, data: bytes) -> bytes:
        """With a field of the contents changed."""
        count = FRONT.unpack_from(data)[1]
        at = 2 * self.dice.randrange(settings.contents_end(count) // 2)
        stands = int.from_bytes(data[at : at + 2], "big")
        values = stands + 1, stands - 1, 0, self.dice.choice(NUMBERS), len(data)
        field = (self.dice.choice(values) % 2**16).to_bytes(2, "big")
        return data[:at] + field + data[at + 2 :]

    def damaged(self, file: bytes) -> bytes:
        """With or without the hash of what it is then."""
        data, way = file[:-HASH_LENGTH], self.dice.randrange(6)
        if way == 0:
            return odd_bytes(self.dice, file)
        if way == 1:
            return settings.hashed(odd_bytes(self.dice, data))
        if way == 2:
            return settings.hashed(flipped(self.dice, data))
        if way == 3:
            return data + flipped(self.dice, file[-HASH_LENGTH:])
        return settings.hashed(self.changed_contents(data))

    def read(self) -> None:
        file = settings.laid_out(self.edition(), self.given)
        if self.often(50):
            file = self.damaged(file)
        if self.often(0.5):
            file += bytes(max(0, MAX_FILE + self.dice.choice((0, 1)) - len(file)))
        self.call("settings_read", file=file, answer=self.answer)

    def changed_words(self, words: tuple[int, ...]) -> tuple[int, ...]:
        """Another number or length, or two lengths that add up as before, modulo 2^64."""
        changed = list(words)
        place = self.dice.randrange(len(words))
        changed[place] = self.dice.choice((*NUMBERS, words[place] + 1, 65_536, LAST)) % 2**64
        if len(words) >= 4 and self.often(50):
            more = self.dice.choice((1, 2**16, 2**32, 2**63, LAST))
            changed = list(words)
            changed[1], changed[3] = (words[1] + more) % 2**64, (words[3] - more) % 2**64
        return tuple(changed)

    def long_settings(self) -> list[Setting]:
        """With one more, that makes the file as long as may be, or a byte more or less."""
        due = settings.file_length([body for _, body in self.given]) + ENTRY.size
        return [*self.given, (65_535, bytes(MAX_FILE + self.dice.choice((-1, 0, 1)) - due))]

    def write(self) -> None:
        given = self.long_settings() if self.often(0.5) else self.given
        lent = lent_settings(given)
        if given and self.often(15):
            lent["settings"] = self.changed_words(lent["settings"])
        due = settings.file_length([body for _, body in given])
        values = {"edition": self.edition(), "out": self.room(due), "answer": self.answer}
        number, left = self.call("settings_write", **lent, **values)
        if number == 0:
            file = left["out"][: left["answer"][0]]
            self.call("settings_read", file=file, answer=self.answer)

    def step(self) -> None:
        if self.often(25):
            self.given = self.any_settings()
        if self.often(40):
            return self.write()
        return self.read()
