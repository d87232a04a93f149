"""Calls about plans: all of short reports under small limits, edges, and sequences by dice."""

from __future__ import annotations

import itertools
import random
import sys
from collections.abc import Iterator

sys.dont_write_bytecode = True  # no __pycache__ in the tree
from library import ROOT, Value  # noqa: E402

sys.path.insert(0, str(ROOT / "reference"))
import plans  # noqa: E402
from datagram import MAX_LENGTH, NAME, V4, V6  # noqa: E402
from oddities import LAST  # noqa: E402
from relay import ANSWER_WORDS  # noqa: E402
from scenarios import BAD_ADDRESSES, Scenario  # noqa: E402

ANSWER = tuple(range(1_001, 1_001 + ANSWER_WORDS))
METHODS = (0, 1, 2, 3, 4, 5, 6, 11, 257, 2**32 + 1, LAST)
LIMITS = (0, 1, 42, 43, 50, 51, 66, 67, 74, 75, 86, 87, 1_500, MAX_LENGTH, MAX_LENGTH + 1, LAST)
LENGTHS = (0, 1, 5, 1_450, 1_451, 2_900, 2_901, 2**63, LAST)
ROOMS = (0, 1, 1, 2, 3, 7, 100, 1_450, 1_450)

Call = tuple[str, dict[str, Value]]


def call(name: str, method: int, address: bytes, limit: int, length: int, plan) -> Call:
    values = {"method": method, "address": address, "limit": limit, "length": length}
    return f"relay_plan_{name}", values | {"plan": tuple(plan), "answer": ANSWER}


def small() -> Iterator[Call]:
    """Every string of words that the reference tries beside all plans enumerated, and plans in
    every number of lent words."""
    for room, length in itertools.product(plans.SMALL_ROOMS, plans.SMALL_LENGTHS):
        method, address = ((1, V4), (2, NAME), (3, V6), (5, V4))[(room + length) % 4]
        said = method, address, plans.BESIDES[method] + len(address) + room, length
        for words in plans.tried(room, length) if room or not length else ((), (length, 0)):
            yield call("check", *said, words)
        for lent in range(2 * length + 3):
            yield call("make", *said, range(1_000, 1_000 + lent))


def edges() -> Iterator[Call]:
    """Both sides of every refusal, and two faults at once."""
    good = itertools.product(METHODS, (V4,), LIMITS, LENGTHS)
    bad = itertools.product(METHODS, BAD_ADDRESSES, (0, 1_500, LAST), (0, 1))
    for said in itertools.chain(good, bad):
        yield call("make", *said, (5, 6, 7, 8))
        yield call("check", *said, (min(said[3], 1_450), 0))


def calls() -> Iterator[Call]:
    yield from small()
    yield from edges()


class Planning(Scenario):
    """Reports of any length under any limit; the plans made, padded, and with a word changed."""

    def said(self) -> dict[str, Value]:
        method = self.dice.choice(METHODS) if self.often(3) else self.dice.randrange(1, 6)
        address = self.address()
        room = self.dice.choice((*ROOMS, self.dice.randrange(MAX_LENGTH)))
        limit = plans.BESIDES.get(method, 43) + len(address) + room
        if self.often(4):
            limit = self.dice.choice(LIMITS)
        count = self.dice.choice((0, 1, 1, 2, 3, 5, 8, 13))
        length = max(0, count * room + self.dice.choice((0, 0, 0, 1, -1)))
        if self.often(4):
            length = self.dice.choice((LAST, LAST - room, 2**63, self.dice.getrandbits(64)))
        return {"method": method, "address": address, "limit": limit, "length": length}

    def lent(self, count: int) -> tuple[int, ...]:
        size = max(0, 2 * count + self.dice.choice((0, 0, 0, 1, 2, 5, -1, -2)))
        return tuple(self.dice.getrandbits(64) for _ in range(size))

    def padded(self, plan: tuple[int, ...], most: int) -> tuple[int, ...]:
        """The same pieces in another order, with what padding there is room for, or a byte more."""
        pieces = [plan[place] for place in range(0, len(plan), 2)]
        self.dice.shuffle(pieces)
        words: list[int] = []
        for piece in pieces:
            spare = max(0, most - piece)
            over = self.dice.choice((1, 2**16, 2**64 - piece - spare)) if self.often(3) else 0
            words += [piece, (self.dice.choice((0, spare, spare // 2)) + over) % 2**64]
        return tuple(words)

    def changed(self, plan: tuple[int, ...]) -> tuple[int, ...]:
        """With bytes moved from one piece to another, modulo 2^64, or a word more or less."""
        words = list(plan)
        if len(words) >= 4 and self.often(60):
            bytes_moved = self.dice.choice((1, 2, 2**63, LAST))
            first, second = self.dice.sample(range(0, len(words) // 2 * 2, 2), 2)
            words[first] = (words[first] + bytes_moved) % 2**64
            words[second] = (words[second] - bytes_moved) % 2**64
            return tuple(words)
        return self.dice.choice((plan[:-1], (*plan, 0), (*plan, 0, 0), plan[2:], (*plan, 1, 0)))

    def step(self) -> None:
        """A plan, and what the check says of it and of others."""
        said = self.said()
        method = said["method"] if said["method"] in plans.BESIDES else 1
        most = plans.room_of(method, said["address"], said["limit"])
        count = min(20, plans.fewest(most, said["length"]) if most else 0)
        number, left = self.call("plan_make", **said, plan=self.lent(count), answer=self.answer)
        plan = left["plan"][: 2 * left["answer"][0]] if number == 0 else left["plan"]
        if self.often(50):
            plan = self.padded(plan, most)
        if self.often(30):
            plan = self.changed(plan)
        self.call("plan_check", **said, plan=plan, answer=self.answer)
