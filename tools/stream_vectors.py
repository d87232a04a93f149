"""The vectors of streams, all from the reference: heads and chunks sealed and opened, calls refused,
salt pools made."""

import collections
import sys

sys.dont_write_bytecode = True  # no __pycache__ in the tree
import vectors  # noqa: E402
import stream_cases  # noqa: E402
import streams  # noqa: E402
from stream_calls import FILL, NO_OUTPUT, OPEN_VARIABLE, SEALING  # noqa: E402
from stream_calls import Making, Run, Words, flipped, slot_start  # noqa: E402
from vectors import Case  # noqa: E402

WANTED = 10  # the refusal that tells how many bytes are wanted


def values_of(kind, answer):
    """The values of an answer."""
    said = answer.said
    if answer.number:
        return (answer.count,) if answer.number == WANTED else ()
    if kind in SEALING:
        return (answer.count,)
    if kind == OPEN_VARIABLE:
        target = (*said.target, 0)[:3]
        return (*target, said.port, said.padding, said.payload, answer.count, said.length)
    if kind in NO_OUTPUT:
        return (answer.count, said.length, said.time)
    return (answer.count, said.length)


def run_case(record):
    call, answer = record.call, record.answer
    done = "sealed" if call.kind in SEALING else "opened"
    return Case(
        vectors.SEAL_REQUEST + call.kind,
        "refused" if answer.number else done,
        number=answer.number,
        values=values_of(call.kind, answer),
        after=record.after,
        room=call.room,
        lent=call.lent,
        stream=slot_start(call.slot),
        method=call.method,
        clock=call.clock,
        arguments=(call.padding,),
        key=call.key,
        salt=call.salt,
        other=call.other,
        data=flipped(call.data, call.flip),
        output=answer.output.rstrip(FILL),
    )


def making_case(record):
    return Case(
        vectors.MAKE_POOL,
        "refused" if record.answer else "made",
        number=record.answer,
        after=record.after,
        filled=0 if record.answer else record.words,
        lent=record.words,
        method=record.method,
    )


def words_case(record):
    ((word, _),) = collections.Counter(record.after).most_common(1)
    return Case(vectors.SETTING, after=record.after, filled=len(record.after), filling=word)


CASES = {Run: run_case, Making: making_case, Words: words_case}


def make():
    groups = stream_cases.make_groups()
    problems = [f"{name}: the reference differs" for name in streams.selftest()]
    cases = [(name, [CASES[type(each)](each) for each in calls.records]) for name, calls in groups]
    count = sum(1 for _, each in cases for case in each if case.done)
    agreement = f"{count} calls about streams in {len(groups)} groups"
    counters = ("sealed", "opened", "refused", "made")
    return vectors.File("streams.bin", "streams, total", counters, cases, problems, agreement)
