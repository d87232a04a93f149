"""The data of the proved program vectors: what the modules that make it share, and its form.

Under crates/vectors, numbers big-endian:

data/NAME.bin   A head of 256 bytes: the number of groups (8), then five fields, the
                title of the total and the names of up to four things that cases come
                to. A field is the place (4) and the length (4) of a string, counted
                from where the head, or the record that has it, begins. Then for each
                group its length (4), and records of seven fields with the strings
                behind them. The first record is the group's head: the number of
                records (8) and the group's title. The others are cases: numbers, key,
                salt, other string, data, output, changes.
                The numbers, 8 bytes each, zeros at the end left out: kind, what the
                case comes to and how many times it counts, room for output, words
                filled and their filling, words lent, place of the stream, method,
                clock, and those of the call.
                A group has 1,600 words, zeros at first: a table or a pool, streams,
                and at the end the nine values of an answer and its number. The words
                expected after a case are those before it, of which the first are
                filled, and then changed: place (2) and word (8) for each change. A
                case of kind SETTING sets the words so, the others are calls.
                Behind the output expected the buffer is as it was filled.
stdout          What the program prints when nothing differs.
"""

import collections
import hashlib
import itertools
import sys
from pathlib import Path

ROOT = Path(__file__).resolve().parent.parent

sys.path.insert(0, str(ROOT / "reference"))  # for the modules that import this one

# The program's arrays have no more room than this: bytes of a group and of an output, words.
GROUP_LIMIT = 350_000
BUFFER_LIMIT = 66_000
WORD_LIMIT = 1_600

# Where the words are of streams, which take the place of no longer table or pool, of the answer's
# values, and of its number. The last stream is of calls that have none.
STREAMS, STREAM_WORDS = 1_538, 8
NO_STREAM = STREAMS + 4 * STREAM_WORDS
ANSWER, ANSWER_WORDS = 1_590, 9
NUMBER = ANSWER + ANSWER_WORDS

# What long payloads are parts of.
PERIOD = bytes(range(251))
PATTERN = PERIOD * 281

HEAD_LENGTH = 256
RECORD_LENGTH = 56
COUNTERS = 4

# Kinds of cases.
SETTING = 0
ENCRYPT, DECRYPT, EXPAND, DERIVE, DERIVE_SUBKEY, SEAL, OPEN = range(1, 8)
HASH, AUTHENTICATE, EXTRACT, DERIVE_HKDF = range(8, 12)
SEAL_DATAGRAM, BEGIN, MAKE_TABLE, OPEN_SERVER, OPEN_CLIENT = range(16, 21)
SEAL_REQUEST, SEAL_RESPONSE, SEAL_CHUNK, OPEN_REQUEST, OPEN_RESPONSE, OPEN_CHUNK = range(32, 38)
MAKE_POOL = 38
OPEN_VARIABLE = 39
SIP004_SEAL_DATAGRAM, SIP004_OPEN_DATAGRAM = 48, 49
SIP004_BEGIN_SEALING, SIP004_BEGIN_OPENING, SIP004_SEAL_CHUNK, SIP004_OPEN_CHUNK = range(50, 54)
CHACHA, CHACHA_BLOCK, HCHACHA, POLY1305, AEAD_MAC = range(64, 69)
SEAL_CHACHA, OPEN_CHACHA, SEAL_EXTENDED, OPEN_EXTENDED = range(69, 73)


def lines(name):
    """The fields of each line of a file of vectors/."""
    text = (ROOT / "vectors" / name).read_text("ascii")
    return [line.split() for line in text.splitlines() if line and not line.startswith("#")]


def stream(seed, *lengths):
    """Strings of these lengths from SHAKE256 of the seed, the same in every run."""
    data = hashlib.shake_256(seed.encode()).digest(sum(lengths))
    for length in lengths:
        yield data[:length]
        data = data[length:]


# What a file holds: groups are pairs of a title and cases.
File = collections.namedtuple("File", "name title counters groups problems agreement")


class Case:
    """A call, what it comes to, and what it leaves: an answer, and words at the front."""

    def __init__(self, kind, done=None, count=1, number=0, values=(), after=(), filled=0, filling=0, **call):
        self.kind, self.done, self.count = kind, done, count if done else 0
        self.number, self.values = number, values
        self.after, self.filled, self.filling = after, filled, filling
        self.call = call

    def string(self, name):
        return self.call.get(name, b"")

    def numbers(self, counters):
        call = self.call
        counter = counters.index(self.done) if self.done else 0
        numbers = (
            *(self.kind, counter, self.count, call.get("room", 0)),
            *(self.filled, self.filling, call.get("lent", 0), call.get("stream", NO_STREAM)),
            *(call.get("method", 0), call.get("clock", 0)),
            *call.get("arguments", ()),
        )
        return b"".join(number(each, 8) for each in numbers).rstrip(b"\0")

    def words_after(self, before):
        """The words that are expected, of those before it."""
        words = (*self.after, *before[len(self.after) :])
        if self.kind == SETTING:
            return words
        values = (*self.values, *(0,) * (ANSWER_WORDS - len(self.values)))
        return (*words[:ANSWER], *values, self.number)

    def fields(self, counters, before, after):
        if max(self.call.get("room", 0), len(self.string("output"))) > BUFFER_LIMIT:
            raise ValueError(f"{self.call}: the program has no such buffer")
        strings = map(self.string, ("key", "salt", "other", "data", "output"))
        filled = (self.filling,) * self.filled + before[self.filled :]
        return (self.numbers(counters), *strings, changes(filled, after))


def number(value, size):
    return value.to_bytes(size, "big")


def changes(before, after):
    """The words that differ: for each its place and what it is then."""
    places = (place for place in range(WORD_LIMIT) if before[place] != after[place])
    return b"".join(number(place, 2) + number(after[place], 8) for place in places)


class Store:
    """Strings, each once. The pattern is first, as far as a long one of them is a part of it; then
    come the longest, as others may be parts of them."""

    def __init__(self, start, strings):
        long = (each for each in strings if len(each) > len(PERIOD) and each in PATTERN)
        ends = (PATTERN.index(each) + len(each) for each in long)
        self.start, self.data = start, PATTERN[: max(ends, default=0)]
        for string in sorted(set(strings), key=lambda each: (-len(each), each)):
            if string not in self.data:
                self.data += string

    def field(self, string, at):
        """The field of a string, in the record at a place."""
        return number(self.start + self.data.index(string) - at, 4) + number(len(string), 4)


def group_data(title, cases, counters):
    words, records = (0,) * WORD_LIMIT, []
    for case in cases:
        after = case.words_after(words)
        records.append(case.fields(counters, words, after))
        words = after
    title = title_of(title)
    store = Store(RECORD_LENGTH * (1 + len(records)), [title, *itertools.chain(*records)])
    data = (number(1 + len(records), 8) + store.field(title, 0)).ljust(RECORD_LENGTH, b"\0")
    for fields in records:
        place = len(data)
        data += b"".join(store.field(each, place) for each in fields)
    data += store.data
    if len(data) > GROUP_LIMIT:
        raise ValueError(f"{title}: {len(data)} bytes, more than {GROUP_LIMIT}")
    return number(len(data), 4) + data


def title_of(name):
    return f"{name}: ".encode("ascii")


def file_data(file):
    strings = [title_of(file.title), *(f" {each}, ".encode("ascii") for each in file.counters)]
    store = Store(8 + 8 * (1 + COUNTERS), strings)
    head = number(len(file.groups), 8) + b"".join(store.field(each, 0) for each in strings)
    head = head.ljust(8 + 8 * (1 + COUNTERS), b"\0") + store.data
    groups = (group_data(*each, file.counters) for each in file.groups)
    return head.ljust(HEAD_LENGTH, b"\0") + b"".join(groups)


def counts(cases, counters):
    done = collections.Counter()
    for case in cases:
        done[case.done] += case.count
    return "".join(f"{done[name]} {name}, " for name in counters if done[name])


def output(file):
    """What the program prints of a file: the counts of each group, then of all."""
    for title, cases in file.groups:
        yield f"{title}: {counts(cases, file.counters)}0 differ"
    cases = itertools.chain(*(cases for _, cases in file.groups))
    yield f"{file.title}: {counts(cases, file.counters)}0 differ"
