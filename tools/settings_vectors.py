"""The data of the proved program settings_vectors, and what it must print.

Under crates/settings_vectors, numbers of 4 bytes, big-endian. A field is the place and the length of a
string, counted from where the head or the case begins that has it.

data/NAME.bin   The number of groups, and for each group a head of 64 bytes, with the number of its cases
                and the field of its title, and the cases.
hashes.bin      BLAKE3's hash. A case is the length of its input, whose byte i is i % 251, and the hash.
files.bin       Settings files that are read (kind 0) or written (1). A case is its own length, kind, number
                returned, edition, room for output, words of settings and words of the answer that are
                lent; the fields of settings, of bodies or the file, of the output and of ten words, of
                which the answer is lent the front; and the strings. Words have 8 bytes. What is lent is
                filled with bytes of 165.
stdout          What the program prints when nothing differs.
"""

import itertools
import sys

sys.dont_write_bytecode = True  # no __pycache__ in the tree
import vectors  # noqa: E402
import blake3  # noqa: E402
import relay  # noqa: E402
import settings  # noqa: E402
from settings import HASH_LENGTH, MAX_FILE, MIN_FILE  # noqa: E402
from vectors import number, title_of  # noqa: E402

HEAD_LENGTH = 64
LONGEST = 102_400  # what the program has room for: bytes of an input of the hash,
CASE_LIMIT = 140_000  # of a case
WORD_LIMIT = 64  # and words of settings
MOST_CHUNKS = 64  # that a settings file has


# BLAKE3's hash: a case is a length and a hash.


def official_cases():
    for length, hashed, _ in blake3.official():
        yield length, hashed[:HASH_LENGTH]


def reference_cases(lengths):
    for length in lengths:
        yield length, blake3.hash(blake3.official_input(length), HASH_LENGTH)


def chunk_ends():
    """Around the end of each chunk."""
    for end in range(blake3.CHUNK_LENGTH, MOST_CHUNKS * blake3.CHUNK_LENGTH + 1, blake3.CHUNK_LENGTH):
        yield from (end - 1, end, end + 1)


def block_ends():
    """Of a first chunk, and of a last one."""
    for start in (0, blake3.CHUNK_LENGTH):
        for end in range(start + blake3.BLOCK_LENGTH, start + blake3.CHUNK_LENGTH, blake3.BLOCK_LENGTH):
            yield from (end - 1, end, end + 1)


def hash_groups():
    yield "official", list(official_cases())
    yield "around each block of two chunks", list(reference_cases(block_ends()))
    yield "around each chunk to 65,536", list(reference_cases(chunk_ends()))


def hash_data(case):
    length, hashed = case
    if length > LONGEST:
        raise ValueError(f"{length} bytes: the program has no such input")
    return number(length, 4) + hashed


# Settings files: a case is a function of relay.py and what it is called with.

READ, WRITE = range(2)
FILL = b"\xa5"
FILLING = int.from_bytes(8 * FILL, "big")
ANSWER_WORDS = relay.ANSWER_WORDS + 1  # of which the front is lent
ONE_EACH = settings.EXAMPLE
SMALLEST = [(128, b"")]


def answer(lent=relay.ANSWER_WORDS):
    return (FILLING,) * lent


def read(file, lent=relay.ANSWER_WORDS):
    return relay.settings_read, {"file": file, "answer": answer(lent)}


def write(given, more=0, edition=7, lent=relay.ANSWER_WORDS, **others):
    """With so much more room than the file takes."""
    room = min(MAX_FILE, settings.file_length([body for _, body in given])) + more
    words = tuple(itertools.chain.from_iterable((each, len(body)) for each, body in given))
    call = {"edition": edition, "settings": words, "bodies": b"".join(body for _, body in given)}
    call |= {"out": FILL * room, "answer": answer(lent)}
    return relay.settings_write, call | others


def both(given, edition=7):
    yield write(given, edition=edition)
    yield read(settings.laid_out(edition, given))


def whole_cases():
    """Every known setting there or not, and every body of each."""
    for edition, size in itertools.product((0, 7, 65_535), range(6)):
        for some in itertools.combinations(ONE_EACH, size):
            yield from both(list(some), edition)
    for bodies in (settings.LAWFUL, settings.UNLAWFUL):
        for each in settings.KNOWN:
            for body in bodies[each]:
                yield from both([(each, body)])


def number_cases():
    """Unknown ones, and ones that do not rise."""
    for numbers in itertools.product((0, 1, 5, 127, 128, 129, 65_535), repeat=2):
        yield from both([(each, b"\1") for each in numbers])
        yield read(settings.laid_out(1, [*((each, b"") for each in numbers), (65_535, b"")]))
    for each in (65_536, 65_664, 2**32 + 128, 2**64 - 1):
        yield write(SMALLEST, settings=(each, 0))


def damaged_cases():
    """Each byte changed, with the hash as it was and with that of what it is then; and cut."""
    file = settings.laid_out(7, ONE_EACH)
    for place in range(len(file)):
        changed = file[:place] + bytes([file[place] ^ 1]) + file[place + 1 :]
        yield read(changed)
        yield read(settings.hashed(changed[:-HASH_LENGTH]))
        yield read(file[:place])
        yield read(settings.hashed(file[: place + 1]))


def lent_cases():
    """Words that do not describe the bodies, room, and answers of other lengths."""
    last = 2**64 - 1
    for words in ((128,), (128, 1), (128, last), (128, last, 129, 1), (128, 2**63, 129, 2**63), (1, 0, 2)):
        yield write(SMALLEST, settings=words)
    for more in (-1, 0, 1, 9):
        yield write(ONE_EACH, more)
        yield write([], more)
    for lent in (0, 8, 10):
        yield write(ONE_EACH, lent=lent)
        yield read(settings.laid_out(7, ONE_EACH), lent)
        yield read(b"", lent)


def longest_cases():
    most = MAX_FILE - MIN_FILE - settings.ENTRY.size
    for length in (most, most + 1):
        yield write([(128, bytes(each % 251 for each in range(length)))])
    yield read(settings.laid_out(1, [(128, bytes(most))]))
    yield read(bytes(MAX_FILE + 1))


def file_groups():
    yield "whole files and every body", list(whole_cases())
    yield "numbers", list(number_cases())
    yield "damaged and cut", list(damaged_cases())
    yield "what is lent", list(lent_cases())
    yield "longest", list(longest_cases())


def to_bytes(words):
    return b"".join(number(word, 8) for word in words)


def file_data(case):
    function, call = case
    returned, wrote = function(**call)
    kind = READ if function is relay.settings_read else WRITE
    given, out = call.get("settings", ()), call.get("out", b"")
    if len(given) > WORD_LIMIT:
        raise ValueError(f"{len(given)} words: the program has no such settings")
    lent = len(call["answer"])
    words = (*wrote.get("answer", call["answer"]), *answer(ANSWER_WORDS - lent))
    numbers = (kind, returned, call.get("edition", 0), len(out), len(given), lent)
    strings = (to_bytes(given), call.get("bodies", call.get("file")), wrote.get("out", b""), to_bytes(words))
    data = b"".join(number(each, 4) for each in numbers)
    place = len(data) + 8 * len(strings)
    for string in strings:
        data += number(place, 4) + number(len(string), 4)
        place += len(string)
    data += b"".join(strings)
    if len(data) > CASE_LIMIT:
        raise ValueError(f"{len(data)} bytes: the program has no such case")
    return number(len(data), 4) + data


# The files.


def group_data(title, cases, case_data):
    name, place = title_of(title), 4 + 8
    head = number(len(cases), 4) + number(place, 4) + number(len(name), 4) + name
    if len(head) > HEAD_LENGTH:
        raise ValueError(f"{title}: too long a title")
    return head.ljust(HEAD_LENGTH, b"\0") + b"".join(map(case_data, cases))


def make():
    """The contents of the program's files by their paths, and the lines that tell of them."""
    folder = vectors.ROOT / "crates" / "settings_vectors"
    contents, lines, agreement = {}, [], []
    for name, title, groups, case_data in (
        ("hashes.bin", "BLAKE3's hash", hash_groups(), hash_data),
        ("files.bin", "settings files", file_groups(), file_data),
    ):
        groups = list(groups)
        count = sum(len(cases) for _, cases in groups)
        lines += [f"{each}: {len(cases)} cases, 0 differ" for each, cases in groups]
        lines.append(f"{title}, total: {count} cases, 0 differ")
        data = b"".join(group_data(*group, case_data) for group in groups)
        contents[folder / "data" / name] = number(len(groups), 4) + data
        agreement.append(f"{count} cases of {title} in {len(groups)} groups")
    contents[folder / "stdout"] = "".join(f"{line}\n" for line in lines).encode("ascii")
    return contents, "\n".join(agreement)
