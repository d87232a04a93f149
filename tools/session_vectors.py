"""The vectors of session tables, all from the reference: datagrams opened, calls refused, tables made.

Lists of calls that begin with a new table are answered by the book as well.
"""

import collections
import sys

sys.dont_write_bytecode = True  # no __pycache__ in the tree
import vectors  # noqa: E402
import session_cases  # noqa: E402
import sessions  # noqa: E402
from session_cases import Beginning, Making, Opening, Words  # noqa: E402
from datagram import overhead  # noqa: E402
from sessions import TABLE_WORDS  # noqa: E402
from vectors import Case  # noqa: E402

# The book.


def by_book(records):
    """Whether the records are a list of the book's: a new table, clocks that never go back."""
    first, *rest = records
    if not isinstance(first, Making) or not all(isinstance(each, Opening) for each in rest):
        return False
    clocks = [each.call.clock for each in rest]
    return clocks == sorted(clocks) and all(each.words == TABLE_WORDS for each in rest)


def check_groups(groups):
    """One message for each group on which table and book differ."""
    for name, calls in groups:
        if by_book(calls.records):
            making, *openings = calls.records
            made = [session_cases.flipped(each.call, each.flip) for each in openings]
            answers, alive = sessions.run_book(making.retention, made)
            if answers != [each.answer for each in openings]:
                yield f"{name}: the book answers otherwise"
            if alive != sessions.table_sessions(calls.table[:TABLE_WORDS], made[-1].clock):
                yield f"{name}: the book ends with other sessions"


# Cases.


def written(call, answer):
    """The bytes of the output that the call writes."""
    due = max(0, len(call.datagram) - overhead(call.method))
    return b"" if answer.output == call.output else answer.output[:due]


def header_words(header):
    if header is None:
        return ()
    target = (*header.target, 0)[:3]
    return (
        *target,
        header.port,
        header.session,
        header.packet,
        header.time,
        header.padding,
        header.payload,
    )


def opening_case(record):
    call, answer = session_cases.flipped(record.call, record.flip), record.answer
    return Case(
        vectors.OPEN_SERVER if call.client is None else vectors.OPEN_CLIENT,
        "refused" if answer.number else "opened",
        number=answer.number,
        values=header_words(answer.header),
        after=record.after,
        room=len(call.output),
        lent=record.words,
        method=call.method,
        clock=call.clock,
        arguments=(call.peer.first, call.peer.second, call.client or 0, call.peer.port),
        key=call.key,
        data=call.datagram,
        output=written(call, answer),
    )


def making_case(record):
    return Case(
        vectors.MAKE_TABLE,
        "refused" if record.answer else "made",
        number=record.answer,
        after=record.after,
        filled=0 if record.answer else record.words,
        lent=record.words,
        arguments=(record.retention,),
    )


def beginning_case(record):
    words = (1, record.id, record.client, 0)
    values, done = ((), "refused") if record.answer else ((0, *words), "begun")
    return Case(
        vectors.BEGIN,
        done,
        number=record.answer,
        values=values,
        after=record.before,
        lent=record.words,
        clock=record.clock,
        arguments=words,
    )


def words_case(record):
    ((word, _),) = collections.Counter(record.after).most_common(1)
    return Case(vectors.SETTING, after=record.after, filled=len(record.after), filling=word)


CASES = {Opening: opening_case, Making: making_case, Beginning: beginning_case, Words: words_case}


def make():
    groups = session_cases.make_groups()
    problems = [f"{name}: the reference differs" for name in sessions.selftest()]
    problems += check_groups(groups)
    cases = [(name, [CASES[type(each)](each) for each in calls.records]) for name, calls in groups]
    count = sum(1 for _, each in cases for case in each if case.done)
    agreement = f"{count} calls on session tables in {len(groups)} groups"
    counters = ("opened", "refused", "made", "begun")
    return vectors.File("sessions.bin", "sessions, total", counters, cases, problems, agreement)
