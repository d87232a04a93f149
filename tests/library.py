"""The proved library for Python: target/staticlib/librelay.a as include/relay.h declares it.

The prototypes are read from the header, so a function that the header has and the archive
lacks, or one of other parameters, does not pass unseen.
"""

from __future__ import annotations

import array
import ctypes
import re
import subprocess
import sys
from dataclasses import dataclass
from pathlib import Path

sys.dont_write_bytecode = True  # no __pycache__ in the tree

ROOT = Path(__file__).resolve().parent.parent
HEADER = ROOT / "include" / "relay.h"
ARCHIVE = ROOT / "target" / "staticlib" / "librelay.a"
SHARED = ROOT / "target" / "tests" / "librelay.so"

NUMBERS = {"uint64_t": ctypes.c_uint64, "uint16_t": ctypes.c_uint16, "size_t": ctypes.c_size_t}
GUARD = bytes(range(200, 248))  # on both sides of what is lent
WORD = 8

Value = int | bytes | tuple[int, ...]


@dataclass(frozen=True)
class Parameter:
    """A number, or a buffer with its length."""

    name: str
    kind: str  # "number", "bytes" or "words"
    type: type


def read_parameters(text: str) -> list[Parameter]:
    """From the text between the parentheses of a prototype."""
    found, lengths = [], set()
    for part in text.split(","):
        kind, star, name = re.fullmatch(r"\s*(?:const )?(\w+) (\*?)(\w+)\s*", part).groups()
        if star:
            buffer = {"uint8_t": "bytes", "uint64_t": "words"}[kind]
            found.append(Parameter(name, buffer, ctypes.c_void_p))
            lengths.add(f"{name}_len")
        elif name in lengths:
            lengths.remove(name)
        else:
            found.append(Parameter(name, "number", NUMBERS[kind]))
    if lengths:
        raise ValueError(f"buffers without a length: {text}")
    return found


def prototypes() -> dict[str, list[Parameter]]:
    """The header's functions."""
    text = re.sub(r"/\*.*?\*/", "", HEADER.read_text("ascii"), flags=re.DOTALL)
    found = re.findall(r"uint64_t (relay_\w+)\(([^;{]*)\);", " ".join(text.split()))
    return {name: read_parameters(parameters) for name, parameters in found}


def output_of(*command: str) -> str:
    return subprocess.run([*command, ARCHIVE], check=True, capture_output=True, text=True).stdout


def exported() -> set[str]:
    """The archive's functions."""
    return set(re.findall(r" T (\w+)", output_of("nm", "--defined-only", "--extern-only")))


def imported() -> set[str]:
    """What the archive asks of the system."""
    return set(re.findall(r" U (\w+)", output_of("nm", "--undefined-only")))


def written_sections() -> list[str]:
    """The archive's sections that hold writable memory: global state, if there is any."""
    sections = re.findall(r"\] (\S+) +\S+ +\S+ \S+ (\S+) \S+ +(\w+)", output_of("readelf", "-SW"))
    return [name for name, size, flags in sections if "W" in flags and int(size, 16)]


def build() -> Path:
    """The archive as a shared object."""
    if not ARCHIVE.exists():
        sys.exit("target/staticlib/librelay.a is missing: run `make library` at the root")
    SHARED.parent.mkdir(parents=True, exist_ok=True)
    whole = ["-Wl,--whole-archive", ARCHIVE, "-Wl,--no-whole-archive"]
    subprocess.run(["cc", "-shared", "-Wl,-z,text", "-o", SHARED, *whole], check=True)
    return SHARED


def to_bytes(value: bytes | tuple[int, ...]) -> bytes:
    return value if isinstance(value, bytes) else array.array("Q", value).tobytes()


def from_bytes(parameter: Parameter, data: bytes) -> Value:
    return data if parameter.kind == "bytes" else tuple(array.array("Q", data))


class Memory:
    """The memory from which all buffers of a call are lent."""

    def __init__(self) -> None:
        self.room = 0

    def lend(self, lent: list[tuple[Parameter, bytes]], gap: bytes) -> dict[str, int]:
        """The address of each buffer. They stand one behind the other, with a gap between."""
        parts, length, self.places = [GUARD], len(GUARD), []
        for parameter, data in lent:
            filler = bytes(-length % WORD) if parameter.kind == "words" else b""
            length += len(filler)
            self.places.append((parameter, length, length + len(data)))
            parts += [filler, data, gap]
            length += len(data) + len(gap)
        self.whole = b"".join((*parts, GUARD))
        if len(self.whole) > self.room:
            self.room = 2 * len(self.whole)
            self.memory = ctypes.create_string_buffer(self.room + WORD)
            self.start = -(-ctypes.addressof(self.memory) // WORD) * WORD
        ctypes.memmove(self.start, self.whole, len(self.whole))
        return {parameter.name: self.start + start for parameter, start, _ in self.places}

    def take(self) -> dict[str, Value | str]:
        """Each buffer as it is now, or a word about the memory beside it."""
        whole, left, end = ctypes.string_at(self.start, len(self.whole)), {}, 0
        for parameter, start, stop in self.places:
            left[parameter.name] = from_bytes(parameter, whole[start:stop])
            if whole[end:start] != self.whole[end:start]:
                left[parameter.name] = "the memory before it was written"
            end = stop
        if whole[end:] != self.whole[end:]:
            left[self.places[-1][0].name] = "the memory behind it was written"
        return left


class Library:
    """Calls by name, on buffers that are lent anew for each call."""

    def __init__(self) -> None:
        shared = ctypes.CDLL(str(build()))
        self.prototypes = prototypes()
        self.memory = Memory()
        self.calls = 0
        self.functions = {}
        for name, parameters in self.prototypes.items():
            function = getattr(shared, name)
            function.restype = ctypes.c_uint64
            function.argtypes = list(self.types(parameters))
            self.functions[name] = function

    @staticmethod
    def types(parameters: list[Parameter]):
        for parameter in parameters:
            yield parameter.type
            if parameter.kind != "number":
                yield ctypes.c_size_t

    def lend(self, name: str, values: dict[str, Value]) -> dict[str, int]:
        """Guarded on both sides, or back to back in changing order, by turns. At every second
        call a buffer of length 0 is lent with NULL."""
        lent = [each for each in self.prototypes[name] if each.kind != "number"]
        if self.calls % 2:
            lent = [each for each in lent if values[each.name]]
        turn = self.calls % max(1, len(lent))
        lent = lent[turn:] + lent[:turn]
        parts = [(each, to_bytes(values[each.name])) for each in lent]
        return self.memory.lend(parts, b"" if self.calls % 3 == 0 else GUARD)

    def call(self, name: str, values: dict[str, Value]) -> tuple[int, dict[str, Value]]:
        """The number returned, and the values as they are afterwards."""
        self.calls += 1
        addresses, arguments = self.lend(name, values), []
        for parameter in self.prototypes[name]:
            value = values[parameter.name]
            if parameter.kind == "number":
                arguments.append(value)
            else:
                arguments += [addresses.get(parameter.name), len(value)]
        number = self.functions[name](*arguments)
        return number, values | self.memory.take()
