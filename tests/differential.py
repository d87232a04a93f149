#!/usr/bin/env python3
"""The proved library against the independent reference, call by call.

    tests/differential.py [--seed TEXT] [--calls COUNT]
    tests/differential.py --repeat FILE     one call that differed

Every call is made of target/staticlib/librelay.a and of reference/relay.py. Compared are the
number returned and all that was lent, each buffer whole: what is to be written, what is to be
left alone, and the memory on both sides of it. First come the calls of the programs of vectors,
then sequences by dice; then the same of plans, of the 2017 edition and of settings files. At the end
every number that a function may return must have been seen.
"""

from __future__ import annotations

import argparse
import collections
import faulthandler
import inspect
import itertools
import json
import random
import sys
from pathlib import Path

sys.dont_write_bytecode = True  # no __pycache__ in the tree
import library  # noqa: E402
from library import ROOT, Library, Value  # noqa: E402

sys.path.insert(0, str(ROOT / "reference"))
import openssl  # noqa: E402
import planning  # noqa: E402
import relay  # noqa: E402
import recorded  # noqa: E402
import settings_cases  # noqa: E402
import sip004_scenarios  # noqa: E402
from oddities import odd  # noqa: E402
from recording_scenarios import Recordings  # noqa: E402
from scenarios import SCENARIOS  # noqa: E402
from settings_scenarios import Settings  # noqa: E402

CALLS = 70_000
PLAN_CALLS = 10_000  # by dice, beside these
SIP004_CALLS = 20_000
SETTINGS_CALLS = 4_000
SEQUENCE = 150  # steps of a scenario
ODD_PERCENT = 6  # of the calls by dice have one thing odd
FREESTANDING = {"memcpy", "memmove", "memset", "memcmp", "bcmp"}  # what a compiler may put in
DIFFERENCE = ROOT / "target" / "tests" / "difference.json"


class Differs(Exception):
    """A call that the library and the reference answer differently."""


def to_json(name: str, values: dict[str, Value]) -> str:
    plain = {k: {"hex": v.hex()} if isinstance(v, bytes) else v for k, v in values.items()}
    return json.dumps({"function": name, "values": plain})


def from_json(text: str) -> tuple[str, dict[str, Value]]:
    def value(plain) -> Value:
        if isinstance(plain, dict):
            return bytes.fromhex(plain["hex"])
        return tuple(plain) if isinstance(plain, list) else plain

    call = json.loads(text)
    return call["function"], {name: value(plain) for name, plain in call["values"].items()}


def shown(value: object) -> str:
    text = value.hex() if isinstance(value, bytes) else str(value)
    return text if len(text) <= 200 else f"{text[:200]}... ({len(value)} in all)"


def first_difference(ours: Value, theirs: Value) -> str:
    if isinstance(ours, str) or len(ours) != len(theirs):
        return shown(ours)
    place = next(place for place, pair in enumerate(zip(ours, theirs)) if pair[0] != pair[1])
    return f"[{place}] is {ours[place]} and should be {theirs[place]}"


class Comparison:
    """Runs calls, compares and counts."""

    def __init__(self) -> None:
        self.library = Library()
        self.seen: dict[str, collections.Counter] = collections.defaultdict(collections.Counter)
        self.calls = 0

    def run(self, name: str, **values: Value) -> tuple[int, dict[str, Value]]:
        """The number returned, and the values afterwards."""
        values = {each.name: values[each.name] for each in self.library.prototypes[name]}
        number, left = self.library.call(name, values)
        expected, wrote = relay.FUNCTIONS[name](**values)
        if number != expected or left != values | wrote:
            self.tell(name, values, (number, left), (expected, values | wrote))
        self.calls += 1
        self.seen[name][number] += 1
        return number, left

    def tell(self, name: str, values: dict, ours: tuple, theirs: tuple) -> None:
        lines = [f"{name}({', '.join(f'{k}={shown(v)}' for k, v in values.items())})"]
        if ours[0] != theirs[0]:
            lines.append(f"the library returns {ours[0]}, the reference {theirs[0]}")
        for each, value in ours[1].items():
            if value != theirs[1][each]:
                lines.append(f"{each}: {first_difference(value, theirs[1][each])}")
        DIFFERENCE.write_text(to_json(name, values))
        lines.append(f"repeat with: tests/differential.py --repeat {DIFFERENCE.relative_to(ROOT)}")
        raise Differs("\n".join(lines))

    def report(self) -> bool:
        """Prints what was seen; whether it is all that can be."""
        whole = True
        for name, function in relay.FUNCTIONS.items():
            seen = self.seen[name]
            each = ", ".join(f"{number}: {seen[number]}" for number in sorted(seen))
            print(f"{name:30} {seen.total():6} calls   {each}")
            missing = relay.NUMBERS[function] - set(seen)
            if missing:
                print(f"{name}: never returned {', '.join(map(str, sorted(missing)))}")
                whole = False
        return whole


def check_interface(calls: Comparison) -> list[str]:
    """What header, archive and reference disagree on."""
    problems = []
    declared = calls.library.prototypes
    if not set(declared) == library.exported() == set(relay.FUNCTIONS):
        problems.append("header, archive and reference have different functions")
    for name in library.imported() - FREESTANDING:
        problems.append(f"the archive calls {name}: it is to call nothing of the system")
    for name in library.written_sections():
        problems.append(f"the archive has global state: section {name}")
    for name, parameters in declared.items():
        names = list(inspect.signature(relay.FUNCTIONS[name]).parameters)
        if names != [parameter.name for parameter in parameters]:
            problems.append(f"{name}: header and reference have different parameters")
    return problems


def check_openssl() -> list[str]:
    """Takes the cipher from OpenSSL if that is there and agrees with the references."""
    if not relay.use_openssl():
        print("no libcrypto: the references alone, which takes long")
        return []
    return openssl.differences((*range(0, 40, 3), 1_400, 9_000))


def by_dice(calls: Comparison, seed: str, count: int, scenarios: tuple) -> None:
    """Sequences until so many calls are made in all."""
    for number in itertools.count():
        dice = random.Random(f"{seed} {number}")

        def run(name: str, **values: Value) -> tuple[int, dict[str, Value]]:
            if dice.random() * 100 < ODD_PERCENT:
                each = dice.choice(calls.library.prototypes[name])
                values[each.name] = odd(dice, each, values[each.name])
            return calls.run(name, **values)

        scenario = scenarios[number % len(scenarios)](run, dice)
        for _ in range(SEQUENCE):
            if calls.calls >= count:
                return
            scenario.step()


def compare(seed: str, count: int) -> bool:
    calls = Comparison()
    problems = check_interface(calls) + check_openssl()
    if problems:
        print("\n".join(problems))
        return False
    for name, values in recorded.calls():
        calls.run(name, **values)
    by_dice(calls, seed, count, (*SCENARIOS, Recordings))
    for name, values in planning.calls():
        calls.run(name, **values)
    by_dice(calls, seed, calls.calls + PLAN_CALLS, (planning.Planning,))
    for name, values in sip004_scenarios.calls():
        calls.run(name, **values)
    by_dice(calls, seed, calls.calls + SIP004_CALLS, (sip004_scenarios.Sip004,))
    for name, values in settings_cases.calls():
        calls.run(name, **values)
    by_dice(calls, seed, calls.calls + SETTINGS_CALLS, (Settings,))
    whole = calls.report()
    print(f"seed {seed}: {calls.calls} calls, 0 differ")
    return whole


def main() -> None:
    parser = argparse.ArgumentParser(description="the library against the reference")
    parser.add_argument("--seed", default="1", help="of the sequences by dice")
    parser.add_argument("--calls", type=int, default=CALLS, help="how many in all, at least")
    parser.add_argument("--repeat", type=Path, help="a call that differed")
    arguments = parser.parse_args()
    faulthandler.enable()  # says where, if the library crashes
    try:
        if arguments.repeat:
            name, values = from_json(arguments.repeat.read_text())
            number, _ = Comparison().run(name, **values)
            print(f"{name}: both return {number}, 0 differ")
        elif not compare(arguments.seed, arguments.calls):
            sys.exit(1)
    except Differs as difference:
        sys.exit(str(difference))


if __name__ == "__main__":
    main()
