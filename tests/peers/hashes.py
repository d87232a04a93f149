#!/usr/bin/env python3
"""The hashes of settings files against a peer's that was written elsewhere: b3sum, BLAKE3's own program.

    tests/peers/hashes.py

relay_settings_write of target/staticlib/librelay.a writes files whose hashed parts have every length
around a multiple of 1,024 bytes, and b3sum hashes these parts. Then the library reads each part behind
which the peer's hash stands, and refuses it with one bit of the hash changed.
"""

from __future__ import annotations

import subprocess
import sys
import tempfile
from collections.abc import Iterator
from pathlib import Path

sys.dont_write_bytecode = True  # no __pycache__ in the tree
sys.path.insert(0, str(Path(__file__).resolve().parent.parent))
from library import Library  # noqa: E402

CHUNK = 1_024
CONTENTS = 10  # bytes before the body of a file's only setting
NUMBER = 128  # of that setting
HASH = 32
MAX_FILE = 65_535
ANSWER = (99,) * 9
NOT_AUTHENTIC = 4


def lengths() -> Iterator[int]:
    """Of what is hashed."""
    yield from (CONTENTS, CONTENTS + 1, 63, 64, 65, 127, 128, 129)
    for chunk in range(CHUNK, MAX_FILE - HASH, CHUNK):
        yield from (chunk - 1, chunk, chunk + 1)
    yield MAX_FILE - HASH


class Peers:
    def __init__(self, folder: Path) -> None:
        self.library, self.folder = Library(), folder

    def written(self, length: int) -> bytes:
        body = bytes(place % 251 for place in range(length - CONTENTS))
        values = {"edition": length, "settings": (NUMBER, len(body)), "bodies": body}
        values |= {"out": bytes(length + HASH), "answer": ANSWER}
        number, left = self.library.call("relay_settings_write", values)
        if number or left["answer"][0] != length + HASH:
            sys.exit(f"{length} bytes: the library returns {number}")
        return left["out"]

    def reads(self, file: bytes) -> int:
        return self.library.call("relay_settings_read", {"file": file, "answer": ANSWER})[0]

    def hashes(self, files: list[bytes]) -> list[bytes]:
        """The peer's, of all before each file's own."""
        paths = [self.folder / str(len(file)) for file in files]
        for path, file in zip(paths, files):
            path.write_bytes(file[:-HASH])
        command = ["b3sum", "--no-names", *paths]
        printed = subprocess.run(command, check=True, capture_output=True, text=True).stdout
        return [bytes.fromhex(line) for line in printed.split()]

    def check(self, file: bytes, theirs: bytes) -> None:
        data, ours = file[:-HASH], file[-HASH:]
        if ours != theirs:
            sys.exit(f"{len(data)} bytes: {ours.hex()}, by b3sum {theirs.hex()}")
        changed = bytes([*theirs[:-1], theirs[-1] ^ 1])
        if (self.reads(data + theirs), self.reads(data + changed)) != (0, NOT_AUTHENTIC):
            sys.exit(f"{len(data)} bytes: the peer's hash is not taken, or a changed one is")


def main() -> None:
    with tempfile.TemporaryDirectory() as folder:
        peers = Peers(Path(folder))
        files = [peers.written(length) for length in lengths()]
        for file, theirs in zip(files, peers.hashes(files), strict=True):
            peers.check(file, theirs)
    print(f"{len(files)} settings files have the hashes of b3sum, and are read with them")


if __name__ == "__main__":
    main()
