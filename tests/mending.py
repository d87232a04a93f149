#!/usr/bin/env python3
"""Mended recordings: the library against the independent reference, and then the program compare.

    tests/mending.py [--files COUNT]

Every file is mended by relay_recording_mend of target/staticlib/librelay.a, with a report of just
the room that is due, and held to reference/recordings.py. Mending it again is to change nothing,
and the program target/bin/compare (`make target/bin/compare`) is to find no difference between the
mended file and itself, which it says of well-formed recordings alone.
"""

from __future__ import annotations

import argparse
import itertools
import random
import subprocess
import sys
import tempfile
from collections.abc import Iterator
from pathlib import Path

sys.dont_write_bytecode = True  # no __pycache__ in the tree
from library import ROOT, Library  # noqa: E402

sys.path.insert(0, str(ROOT / "reference"))
import recordings  # noqa: E402
import relay  # noqa: E402
from recording_scenarios import any_entries, damaged, scrambled  # noqa: E402
from recordings import CONTENTS, COUNT, MAX_FILE, Entry  # noqa: E402

PROGRAM = ROOT / "target" / "bin" / "compare"
FILES = 400  # by dice
ANSWER = (99,) * relay.ANSWER_WORDS


def small(behind: bytes = b"") -> bytes:
    return recordings.recorded([Entry(0, 1, b"abc"), Entry(1, 2, b""), Entry(2, 3, b"de")], behind)


def every_cut() -> Iterator[bytes]:
    whole = small(b"tail")
    yield from (whole[:length] for length in range(len(whole) + 1))


def every_field() -> Iterator[bytes]:
    """Each field of each entry, and the count, as other numbers."""
    whole = small()
    places = [(0, COUNT.size)]
    for at in range(COUNT.size, recordings.contents_end(3), CONTENTS.size):
        places += [(at, 4), (at + 4, 2), (at + 6, 1), (at + 7, 8)]
    values = (0, 1, 2, 3, 4, 34, 49, 4_096, 4_097, 65_507, 65_508, 65_535, 2**32 - 1)
    for (at, size), value in itertools.product(places, values):
        yield whole[:at] + (value % 256**size).to_bytes(size) + whole[at + size :]


def counts() -> Iterator[bytes]:
    """Counts up to the last, in files that hold none, some, 4,096 and 4,097 entries."""
    for count in (0, 1, 4_095, 4_096, 4_097, 2**32 - 1):
        for length in (4, 5, 18, 19, 33, 34, 4 + 15 * 4_096, 4 + 15 * 4_097, 70_000):
            yield COUNT.pack(count) + bytes(length - COUNT.size)
            yield COUNT.pack(count) + b"\xff" * (length - COUNT.size)


def by_dice(count: int) -> Iterator[bytes]:
    for number in range(count):
        dice = random.Random(number)
        file = scrambled(dice, recordings.recorded(any_entries(dice), dice.randbytes(3)))
        yield damaged(dice, file) if dice.randrange(3) == 0 else file


class Mending:
    def __init__(self, folder: Path) -> None:
        self.library, self.file = Library(), folder / "mended"
        self.changes = self.compared = 0

    def call(self, file: bytes, report: relay.Words) -> tuple[int, dict]:
        values = {"file": file, "report": report, "answer": ANSWER}
        number, left = self.library.call("relay_recording_mend", values)
        expected, wrote = relay.recording_mend(**values)
        if number != expected or left != values | wrote:
            sys.exit(f"{file.hex()[:400]}: {number} {left} and not {expected} {wrote}"[:4_000])
        return number, left

    def check(self, file: bytes) -> None:
        if len(file) < COUNT.size:
            self.call(file, ())
            return
        due = 4 * len(recordings.mend(file)[1])
        if due:
            self.call(file, (7,) * (due - 1))
        _, left = self.call(file, (7,) * due)
        self.changes += left["answer"][0]
        mended = left["file"]
        if self.call(mended, ())[1]["answer"][0]:
            sys.exit(f"{file.hex()[:400]}: mended again")
        if len(mended) <= MAX_FILE:
            self.compare(mended)

    def compare(self, mended: bytes) -> None:
        self.file.write_bytes(mended)
        command = [PROGRAM, self.file, self.file]
        printed = subprocess.run(command, capture_output=True, check=True).stdout
        (count,) = COUNT.unpack_from(mended)
        if printed != b"entries %d %d\n" % (count, count):
            sys.exit(f"{mended.hex()[:400]}: compare prints {printed[:200]!r}")
        self.compared += 1


def main() -> None:
    parser = argparse.ArgumentParser(description="mended recordings against the reference")
    parser.add_argument("--files", type=int, default=FILES, help="by dice")
    files = parser.parse_args().files
    if not PROGRAM.exists():
        sys.exit("target/bin/compare is missing: run `make target/bin/compare` at the root")
    with tempfile.TemporaryDirectory() as folder:
        mending = Mending(Path(folder))
        total = 0
        for file in itertools.chain(every_cut(), every_field(), counts(), by_dice(files)):
            mending.check(file)
            total += 1
    print(f"{total} files, {mending.changes} changes, {mending.compared} compared, 0 differ")


if __name__ == "__main__":
    main()
