#!/usr/bin/env python3
"""The program compare against the independent reference, on many pairs of files.

    tests/recordings.py [--pairs COUNT]

Each pair is written to files, the program is run with their names, and its whole output is
compared with reference/recordings.py. The program is target/bin/compare, which
`make target/bin/compare` proves and links.
"""

from __future__ import annotations

import argparse
import collections
import itertools
import random
import subprocess
import sys
import tempfile
from collections.abc import Iterator
from pathlib import Path

sys.dont_write_bytecode = True  # no __pycache__ in the tree
from library import ROOT  # noqa: E402

sys.path.insert(0, str(ROOT / "reference"))
import recordings  # noqa: E402
from recording_scenarios import MOST, any_entries, changed_entries, damaged  # noqa: E402
from recordings import CONTENTS, COUNT, MAX_FILE, Entry  # noqa: E402

PROGRAM = ROOT / "target" / "bin" / "compare"
PAIRS = 400  # by dice

File = bytes | None  # None: there is no such file
Pair = tuple[File, File]


def small() -> list[Entry]:
    return [Entry(0, 1, b"abc"), Entry(1, 2, b""), Entry(2, 2**64 - 1, b"de")]


def every_cut() -> Iterator[Pair]:
    """A recording cut at every byte, on either side."""
    whole = recordings.recorded(small(), b"tail")
    for length in range(len(whole) + 1):
        yield whole[:length], whole
        yield whole, whole[:length]


def every_field() -> Iterator[Pair]:
    """Each field of each entry one more, one less, zero, and all ones; and the count."""
    entries = small()
    whole = recordings.recorded(entries)
    places = [(0, COUNT.size)]
    for at in range(COUNT.size, recordings.contents_end(len(entries)), CONTENTS.size):
        places += [(at, 4), (at + 4, 2), (at + 6, 1), (at + 7, 8)]
    for at, size in places:
        value, last = int.from_bytes(whole[at : at + size]), 256**size - 1
        for other in {0, last, min(value + 1, last), max(value - 1, 0), 3, 65_508} - {value}:
            if other <= last:
                yield whole, whole[:at] + other.to_bytes(size) + whole[at + size :]


def edges() -> Iterator[Pair]:
    """The most entries, the longest files, files that are not there, a folder."""
    full = recordings.recorded([Entry(1, number, b"") for number in range(MOST)])
    later = recordings.recorded([Entry(1, number + 1, b"") for number in range(MOST)])
    longest = recordings.recorded([Entry(0, 0, bytes(MAX_FILE - COUNT.size - CONTENTS.size))])
    empty = recordings.recorded([])
    yield recordings.example()
    yield from itertools.product((full, empty), (later, empty, full))
    yield from itertools.permutations((longest, longest + b"x", empty, b"xyz"), 2)
    yield from itertools.permutations((None, longest + b"x", empty, b"xyz"), 2)
    yield None, None
    yield recordings.recorded([Entry(1, 0, b"")] * (MOST + 1)), empty
    yield longest, longest[:-1] + b"x"


def by_dice(count: int) -> Iterator[Pair]:
    for number in range(count):
        dice = random.Random(number)
        entries = any_entries(dice)
        first = recordings.recorded(entries, dice.randbytes(dice.randrange(4)))
        second = recordings.recorded(changed_entries(dice, entries))
        if dice.randrange(5) == 0:
            first = damaged(dice, first)
        yield (first, second) if dice.randrange(2) else (second, first)


class Comparison:
    """Runs the program on files in a folder, compares and counts."""

    def __init__(self, folder: Path) -> None:
        self.folder = folder
        self.seen: collections.Counter = collections.Counter()

    def path(self, name: str, file: File) -> Path:
        if file is None:
            return self.folder / "missing"
        path = self.folder / name
        path.write_bytes(file)
        return path

    def run(self, *arguments: Path) -> bytes:
        return subprocess.run([PROGRAM, *arguments], capture_output=True, check=True).stdout

    def check(self, arguments: list[Path], expected: bytes) -> None:
        printed = self.run(*arguments)
        if printed != expected:
            sys.exit(f"{arguments}: {printed[:200]!r} and not {expected[:200]!r}")
        for line in printed.split(b"\n")[:-1]:
            kind = line if line.startswith(b"refused") else line.split()[0]
            self.seen[kind.decode()] += 1

    def pair(self, pair: Pair) -> None:
        names = [self.path(name, file) for name, file in zip(("first", "second"), pair)]
        self.check(names, recordings.printed(*pair))

    def arguments(self) -> None:
        """A missing name, and a folder in a file's place."""
        good = self.path("first", recordings.recorded(small()))
        for names in ([], [good], [good, self.folder], [self.folder, good]):
            self.check(names, b"refused 2\n")


def main() -> None:
    parser = argparse.ArgumentParser(description="the program compare against the reference")
    parser.add_argument("--pairs", type=int, default=PAIRS, help="by dice")
    pairs = parser.parse_args().pairs
    if not PROGRAM.exists():
        sys.exit("target/bin/compare is missing: run `make target/bin/compare` at the root")
    with tempfile.TemporaryDirectory() as folder:
        calls = Comparison(Path(folder))
        calls.arguments()
        runs = 4
        for pair in itertools.chain(edges(), every_field(), every_cut(), by_dice(pairs)):
            calls.pair(pair)
            runs += 1
    kinds = {"entries", "length", "meta", "differ", "first-only", "second-only"}
    missing = kinds | {"refused 2", "refused 5"}
    missing -= set(calls.seen)
    if missing:
        sys.exit(f"never printed: {', '.join(sorted(missing))}")
    print(", ".join(f"{kind}: {count}" for kind, count in sorted(calls.seen.items())))
    print(f"{runs} runs of compare, 0 differ")


if __name__ == "__main__":
    main()
