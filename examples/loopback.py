#!/usr/bin/env python3
"""A relay box and a branch box on loopback: a reading goes through them, and its copy is refused.

    examples/loopback.py PROGRAM

Between the boxes stands a wire that carries the datagram to the relay twice. Ports and the session's ID are new each
time, so they are not printed.
"""

from __future__ import annotations

import json
import signal
import socket
import subprocess
import sys
import tempfile
import time
from pathlib import Path

METHOD = "2022-blake3-aes-128-gcm"
KEY = ["--method", METHOD, "--key-file", "key"]
READING = "movement 7, idle: +2.1 s/day"
LONGEST = 65_507

# Seconds: for all of it, for one step, and without another datagram.
ALL = 30
STEP = 5
QUIET = 0.2


class Place(socket.socket):
    """A port of its own on loopback, where datagrams are waited for, but not for ever."""

    def __init__(self, name: str):
        super().__init__(socket.AF_INET, socket.SOCK_DGRAM)
        self.bind(("127.0.0.1", 0))
        self.settimeout(STEP)
        self.name = name

    def __str__(self) -> str:
        return "127.0.0.1:%d" % self.getsockname()[1]

    def count_more(self) -> int:
        """How many more datagrams come, until it is quiet."""
        self.settimeout(QUIET)
        count = 0
        try:
            while True:
                self.recv(LONGEST)
                count += 1
        except TimeoutError:
            return count


class Boxes:
    """Runs the program, in a folder of its own. Boxes that were started end with the block."""

    def __init__(self, program: str, folder: str):
        self.program = Path(program).resolve()
        self.folder = folder
        self.started: list[subprocess.Popen] = []

    def __enter__(self) -> Boxes:
        return self

    def __exit__(self, *_) -> None:
        for box in self.started:
            box.kill()
            box.communicate()

    def run(self, *arguments: str) -> str:
        """Runs a command to its end: what it prints."""
        command = [self.program, *arguments]
        return subprocess.run(command, cwd=self.folder, check=True, stdout=subprocess.PIPE, text=True).stdout

    def start(self, *arguments: str | Place) -> tuple[str, int]:
        """Starts a box: the address that it listens on."""
        command = [self.program, *map(str, arguments)]
        box = subprocess.Popen(command, cwd=self.folder, stderr=subprocess.PIPE, text=True)
        self.started.append(box)
        line = box.stderr.readline()
        if not line.startswith("listening on "):
            sys.exit(line + box.stderr.read())
        host, port = line.removeprefix("listening on ").split(",")[0].rsplit(":", 1)
        return host, int(port)

    def refused(self) -> dict:
        """What the relay's one service tells, when it has refused something."""
        until = time.monotonic() + STEP
        while time.monotonic() < until:
            (service,) = json.loads(self.run("sessions", "status", "--json"))["services"]
            if service["refused"]:
                return service
            time.sleep(0.05)
        sys.exit("nothing was refused")


def told(*arguments: str | Place) -> tuple[str | Place, ...]:
    """Prints a command, places by their names."""
    print("$ bhajnolith", *(a.name if isinstance(a, Place) else a for a in arguments))
    return arguments


def show(boxes: Boxes, bench: Place, wire: Place, target: Place) -> None:
    boxes.run(*told("keygen", "--method", METHOD, "--out", "key"))
    relay = boxes.start(*told("serve", "--listen", "127.0.0.1:0", *KEY, "--status", "status"))
    branch = boxes.start(
        *told("connect", "--listen", "127.0.0.1:0", *KEY, "--server", wire, "--target", target)
    )

    print(f'bench:   sends the branch "{READING}"')
    bench.sendto(READING.encode(), branch)
    sealed, way_back = wire.recvfrom(LONGEST)
    print(f"wire:    carries {len(sealed)} sealed bytes to the relay, and the same {len(sealed)} again")
    wire.sendto(sealed, relay)
    wire.sendto(sealed, relay)

    reading, asker = target.recvfrom(LONGEST)
    target.sendto(b"noted", asker)
    wire.sendto(wire.recv(LONGEST), way_back)
    service = boxes.refused()
    for refusal in service["refused"]:
        print(f'relay:   refuses {refusal["count"]}: {refusal["name"]} ({refusal["number"]})')
    print(f'target:  has {1 + target.count_more()} reading, "{reading.decode()}"')
    print(f'bench:   hears "{bench.recv(LONGEST).decode()}"')
    for session in service["sessions"]:
        print(f'session: accepted {session["accepted"]}, repeats {session["repeats"]}')


def stop(*_) -> None:
    sys.exit("not done in time, or stopped")


def main() -> None:
    if len(sys.argv) != 2:
        sys.exit(f"usage: {sys.argv[0]} PROGRAM")
    signal.signal(signal.SIGALRM, stop)
    signal.signal(signal.SIGTERM, stop)
    signal.alarm(ALL)
    with tempfile.TemporaryDirectory() as folder, Boxes(sys.argv[1], folder) as boxes:
        with Place("BENCH") as bench, Place("RELAY") as wire, Place("TARGET") as target:
            show(boxes, bench, wire, target)


main()
