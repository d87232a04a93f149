"""The vectors of the 2017 edition, all from the reference: datagrams and chunks sealed and opened,
streams begun, calls refused."""

import sys

sys.dont_write_bytecode = True  # no __pycache__ in the tree
import vectors  # noqa: E402
import sip004  # noqa: E402
import sip004_cases  # noqa: E402
from sip004_calls import BEGINNING, OPEN_CHUNK, SEALING  # noqa: E402
from stream_calls import FILL, Run, Words, slot_start  # noqa: E402
from stream_vectors import WANTED, words_case  # noqa: E402
from vectors import Case  # noqa: E402


def values_of(kind, answer):
    """The values of an answer."""
    if answer.number:
        return (answer.count,) if answer.number == WANTED else ()
    if kind in BEGINNING:
        return ()
    return (answer.count, answer.said.length) if kind == OPEN_CHUNK else (answer.count,)


def done_by(kind):
    if kind in BEGINNING:
        return "begun"
    return "sealed" if kind in SEALING else "opened"


def run_case(record):
    call, answer = record.call, record.answer
    return Case(
        vectors.SIP004_SEAL_DATAGRAM + call.kind,
        "refused" if answer.number else done_by(call.kind),
        number=answer.number,
        values=values_of(call.kind, answer),
        after=record.after,
        room=call.room,
        stream=slot_start(call.slot),
        method=call.method,
        key=call.key,
        salt=call.salt,
        data=call.data,
        output=answer.output.rstrip(FILL),
    )


CASES = {Run: run_case, Words: words_case}


def make():
    groups = sip004_cases.make_groups()
    problems = [f"{name}: the reference differs" for name in sip004.selftest()]
    cases = [(name, [CASES[type(each)](each) for each in calls.records]) for name, calls in groups]
    count = sum(1 for _, each in cases for case in each if case.done)
    agreement = f"{count} calls of the 2017 edition in {len(groups)} groups"
    counters = ("sealed", "opened", "refused", "begun")
    return vectors.File("sip004.bin", "2017 edition, total", counters, cases, problems, agreement)
