#!/usr/bin/env python3
"""Lists the blocks of the library's code in a program that is linked with it.

    tests/fuzz/blocks.py ARCHIVE PROGRAM

Prints a line for each block: its place, counted from relay_table_new, and its function. A
block begins where a function does, where a jump leads, and behind a jump.
"""

from __future__ import annotations

import re
import subprocess
import sys

INSTRUCTION = re.compile(r"^ *([0-9a-f]+):\t(?:(?:cs|data16|notrack|bnd) )*(\w+)\s*([0-9a-f]*)")
PADDING = {"nop", "nopw", "nopl", "int3", "xchg"}
ENDS = {"jmp", "ret", "retq", "jmpq", "ud2"}


def output(*command: str) -> str:
    return subprocess.run(command, check=True, capture_output=True, text=True).stdout


def functions(file: str) -> dict[str, tuple[int, int]]:
    """Start and end of each function, by name."""
    found = {}
    for line in output("readelf", "-sW", file).splitlines():
        fields = line.split()
        if len(fields) == 8 and fields[3] == "FUNC" and fields[6] != "UND":
            start, size = int(fields[1], 16), int(fields[2], 0)
            found[fields[7]] = (start, start + size)
    return found


def blocks(program: str, start: int, end: int) -> set[int]:
    """Where the blocks of one function begin."""
    limits = f"--start-address={start}", f"--stop-address={end}"
    found, behind = {start}, False
    for line in output("objdump", "-d", "--no-show-raw-insn", *limits, program).splitlines():
        match = INSTRUCTION.match(line)
        if not match:
            continue
        place, name, operand = int(match[1], 16), match[2], match[3]
        if behind and name not in PADDING:
            found.add(place)
            behind = False
        if name.startswith("j"):
            behind = True
            if operand and start <= int(operand, 16) < end:
                found.add(int(operand, 16))
        elif name in ENDS:
            behind = True
    return found


def main() -> None:
    if len(sys.argv) != 3:
        sys.exit(f"usage: {sys.argv[0]} ARCHIVE PROGRAM")
    archive, program = sys.argv[1:]
    ours = functions(archive)
    linked = functions(program)
    origin = linked["relay_table_new"][0]
    lines = []
    for name in ours:
        if name in linked:
            for place in blocks(program, *linked[name]):
                lines.append((place - origin, name))
    for place, name in sorted(lines):
        print(place, name)


if __name__ == "__main__":
    main()
