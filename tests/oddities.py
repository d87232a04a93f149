"""What a host or the network may get wrong: numbers, bytes and words that are odd."""

from __future__ import annotations

import ctypes
import random
import sys

sys.dont_write_bytecode = True  # no __pycache__ in the tree
from library import Parameter, Value  # noqa: E402

LAST = 2**64 - 1
METHODS = (0, 6, 10, 11, 12, 13, 14, 257, 259, 2**32 + 1, 2**32 + 3, LAST)
NUMBERS = (0, 1, 2, 3, 255, 256, 2**16, 2**32, 2**63, LAST - 1, LAST)
STEPS = (1, 30, 31, 60, 61, 255, 256)
KEY_LENGTHS = (0, 1, 15, 16, 17, 23, 24, 25, 31, 32, 33)  # and of nonces

Words = tuple[int, ...]


def pattern(dice: random.Random, length: int) -> bytes:
    """Bytes by their places, so that bytes which were moved show."""
    start = dice.randrange(251)
    return (bytes(range(start, 251)) + bytes(range(251)) * (length // 251 + 1))[:length]


def odd_number(dice: random.Random, number: int) -> int:
    way = dice.randrange(4)
    if way == 0:
        return dice.choice(METHODS + NUMBERS)
    if way == 1:
        return dice.getrandbits(64)
    return number + dice.choice((-1, 1)) * dice.choice(STEPS)


def flipped(dice: random.Random, data: bytes) -> bytes:
    """With one bit changed, if there is any."""
    changed = bytearray(data)
    if changed:
        changed[dice.randrange(len(changed))] ^= 1 << dice.randrange(8)
    return bytes(changed)


def odd_bytes(dice: random.Random, data: bytes) -> bytes:
    way = dice.randrange(8)
    if way < 3:
        return flipped(dice, data)
    if way == 3:
        return data[: dice.randrange(len(data) + 1)]
    if way == 4:
        return data[:-1]
    if way == 5:
        return data + dice.randbytes(1)
    if way == 6:
        return dice.randbytes(len(data))
    return dice.randbytes(dice.choice(KEY_LENGTHS))


def few_changed(dice: random.Random, words: Words) -> Words:
    changed = list(words)
    for _ in range(dice.choice((1, 1, 2, 5)) if changed else 0):
        place = dice.randrange(min(len(changed), dice.choice((4, 24, len(changed)))))
        ways = dice.getrandbits(64), dice.randrange(4), dice.choice(words), changed[place] + 1
        changed[place] = dice.choice(ways) % 2**64
    return tuple(changed)


def odd_words(dice: random.Random, words: Words) -> Words:
    way = dice.randrange(8)
    if way < 4:
        return few_changed(dice, words)
    if way == 4:
        return words[:-1]
    if way == 5:
        return words + (dice.choice((0, 1, LAST)),)
    if way == 6:
        return ()
    if dice.randrange(2):
        return tuple(dice.randrange(4) for _ in words)
    return tuple(dice.getrandbits(64) for _ in words)


def odd(dice: random.Random, parameter: Parameter, value: Value) -> Value:
    """Another value of the parameter."""
    if parameter.kind == "bytes":
        return odd_bytes(dice, value)
    if parameter.kind == "words":
        return odd_words(dice, value)
    return odd_number(dice, value) % 2 ** (8 * ctypes.sizeof(parameter.type))
