"""Plans of a long report under a path limit, written from the scope's words over datagram.py.

An independent reference for the proved code. A plan is a tuple of words: for each datagram
the length of its piece of the report, and that of its padding. It is good when the pieces
add up to the report, no piece is empty, no datagram is over the limit, and no other such
plan has fewer datagrams.

The selftest enumerates all plans of short reports under small limits. Plain and slow.

    python3 reference/plans.py --selftest
"""

from __future__ import annotations

import itertools
import sys
from collections.abc import Iterator

sys.dont_write_bytecode = True  # no __pycache__ in the tree
import aes  # noqa: E402
from datagram import ARGUMENT, MAX_LENGTH, NAME, ROOM, SETTINGS, V4, V6  # noqa: E402
from datagram import address_length, sealed_length  # noqa: E402

# What a client's datagram has besides address, padding and piece, by method: as it is sealed,
# and of its header. Methods 3 to 5 begin with a nonce and have session and packet ID inside.
BESIDES = {1: 32 + 11, 2: 32 + 11, 3: 40 + 27, 4: 40 + 27, 5: 40 + 27}

Words = tuple[int, ...]


def refusal(method: int, address: bytes, limit: int, length: int) -> int:
    """The number of the first refusal that both functions have, or 0."""
    if method not in BESIDES:
        return SETTINGS
    if address_length(address) != len(address) or limit > MAX_LENGTH:
        return ARGUMENT
    if length > 0 and BESIDES[method] + len(address) + 1 > limit:
        return ARGUMENT
    return 0


def room_of(method: int, address: bytes, limit: int) -> int:
    """What a datagram has room for, piece and padding."""
    return max(0, limit - BESIDES[method] - len(address))


def fewest(room: int, length: int) -> int:
    """How many datagrams a report takes: with k of them go k times the room, and no more."""
    return -(-length // room) if length else 0


def pieces_of(words: Words) -> list[tuple[int, int]]:
    return list(zip(words[::2], words[1::2]))


def fits(room: int, length: int, words: Words) -> bool:
    pieces = pieces_of(words)
    return (
        len(words) % 2 == 0
        and sum(piece for piece, _ in pieces) == length
        and all(piece > 0 and piece + padding <= room for piece, padding in pieces)
    )


def is_good(room: int, length: int, words: Words) -> bool:
    return fits(room, length, words) and len(words) == 2 * fewest(room, length)


def check(method: int, address: bytes, limit: int, length: int, plan: Words) -> tuple[int, bool]:
    """A refusal's number, or 0; and whether the plan is good."""
    number = refusal(method, address, limit, length)
    if number:
        return number, False
    return 0, is_good(room_of(method, address, limit), length, plan)


def make(method: int, address: bytes, limit: int, length: int, room: int) -> tuple[int, Words]:
    """A refusal's number, or 0; and the plan, for so many lent words. Which good plan is made
    is left free: full datagrams, the last one shorter, no padding."""
    number = refusal(method, address, limit, length)
    if number:
        return number, ()
    most = room_of(method, address, limit)
    count = fewest(most, length)
    if room < 2 * count:
        return ROOM, ()
    pieces = [min(most, length - most * index) for index in range(count)]
    return 0, tuple(word for piece in pieces for word in (piece, 0))


# All plans of short reports under small limits.

SMALL_ROOMS = range(5)
SMALL_LENGTHS = range(6)
SMALL_WORDS = 5  # of the strings that are all tried


def all_plans(room: int, length: int) -> Iterator[Words]:
    """Every plan that fits."""
    if length == 0:
        yield ()
    for piece in range(1, min(room, length) + 1):
        for padding in range(room - piece + 1):
            for rest in all_plans(room, length - piece):
                yield (piece, padding, *rest)


def good_plans(room: int, length: int) -> set[Words]:
    """Those that have as few datagrams as any."""
    plans = list(all_plans(room, length))
    least = min(map(len, plans), default=0)
    return {plan for plan in plans if len(plan) == least}


def tried(room: int, length: int) -> Iterator[Words]:
    """Strings of words to check: all short ones of small words, every good plan, and these with
    a word more, a word less, a datagram more, and words that are the same modulo 2^64."""
    for size in range(SMALL_WORDS):
        yield from itertools.product(range(room + 2), repeat=size)
    for plan in sorted(good_plans(room, length)):
        yield plan
        yield (*plan, 0)
        yield plan[:-1]
        yield (*plan, 0, 0)
        for place in range(len(plan)):
            yield (*plan[:place], plan[place] + 1, *plan[place + 1 :])
        if len(plan) > 2:
            yield (2**64 - 1, *plan[1:-2], (plan[0] + plan[-2] + 1) % 2**64, plan[-1])
            yield (plan[0], 2**64 - plan[0], *plan[2:])


# Examples.


def enumeration():
    for room, length in itertools.product(SMALL_ROOMS, SMALL_LENGTHS):
        if length and not room:
            continue
        good = good_plans(room, length)
        name = f"{length} bytes, room for {room}"
        yield f"fewest of {name}", {len(plan) for plan in good} == {2 * fewest(room, length)}
        for words in tried(room, length):
            yield f"{words} for {name}", is_good(room, length, words) == (words in good)
        for method, address in ((1, V4), (2, NAME), (3, V6), (5, V4)):
            limit = BESIDES[method] + len(address) + room
            number, plan = make(method, address, limit, length, 2 * fewest(room, length))
            yield f"plan of {name}", number == 0 and plan in good


def examples():
    for length, count in ((2_900, 2), (2_901, 3), (0, 0), (1_450, 1), (1_451, 2)):
        number, plan = make(1, V4, 1_500, length, 6)
        yield f"{length} bytes", (number, len(plan)) == (0, 2 * count)
        yield f"{length} bytes pass", check(2, V4, 1_500, length, plan) == (0, True)
    yield "too short", make(1, V4, 1_500, 2_901, 5) == (ROOM, ())
    yield "a method of 67", make(3, V4, 1_500, 2_900, 6)[1] == (1_426, 0, 1_426, 0, 48, 0)
    yield "no method", make(6, b"", 1_500, 1, 0) == (SETTINGS, ())
    yield "no address", make(1, V4[:-1], 1_500, 0, 0) == (ARGUMENT, ())
    yield "limit", [make(1, V4, each, 0, 0)[0] for each in (0, 65_507, 65_508)] == [0, 0, ARGUMENT]
    yield "one byte", [make(1, V4, each, 1, 2)[0] for each in (50, 51)] == [ARGUMENT, 0]
    yield "near 2^64", make(1, V4, 51, 2**64 - 1, 6) == (ROOM, ())
    yield "modulo 2^64", not check(1, V4, 52, 3, (2**64 - 1, 0, 4, 0))[1]
    yield "padding", not check(1, V4, 1_500, 1, (1, 2**64 - 50))[1]


def sealed_plans():
    """What is planned for is what is sealed: full datagrams are as long as the limit."""
    for method, address in itertools.product(BESIDES, (V4, V6, NAME)):
        fixed = sealed_length(method, None, address, 0, b"")
        yield f"besides, by {method}", fixed == BESIDES[method] + len(address)
        _, plan = make(method, address, 1_500, 9_999, 100)
        lengths = [
            sealed_length(method, None, address, padding, bytes(piece))
            for piece, padding in pieces_of(plan)
        ]
        yield f"lengths by {method}", set(lengths[:-1]) == {1_500} and lengths[-1] <= 1_500


def selftest() -> list[str]:
    """The names of the examples that this code fails."""
    checks = itertools.chain(enumeration(), examples(), sealed_plans())
    return [name for name, holds in checks if not holds]


if __name__ == "__main__":
    aes.run(selftest, "all plans of short reports enumerated: all agree")
