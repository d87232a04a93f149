"""Whether the theorems speak of what a host calls.

The functions of include/relay.h, those that the archive exports, those of crate `relay_c`, those of
crate `relay` that it calls and those that crate `guarantees` makes its statements of are the same,
with the same parameters. An export of `relay_c` is the call of its namesake with its own parameters
and has the same contract; and what `guarantees` says that a call leaves is, term by term, what that
contract promises.
"""

from __future__ import annotations

import re
import subprocess
import sys
from dataclasses import dataclass, replace
from pathlib import Path

sys.dont_write_bytecode = True  # no __pycache__ in the tree

ROOT = Path(__file__).resolve().parent.parent
HEADER = ROOT / "include" / "relay.h"
ARCHIVE = ROOT / "target" / "staticlib" / "librelay.a"
LIBRARY = ROOT / "crates" / "relay" / "src"
EXPORTS = ROOT / "crates" / "relay_c" / "src"
PAGE = ROOT / "crates" / "guarantees" / "specs" / "Calls.antt"

# What a parameter of the header is called in the code, where it is not its own name.
IN_CODE = {"length": "report"}
# What a lent buffer is called in `Lent`, where it is not its own name.
LENT = {"plan": "words", "report": "words", "file": "out"}
MODULES = ("datagrams", "heads", "edition2017", "plans", "recordings", "settings", "table", "pool")
# A type of the code as C has it.
IN_C = {
    "u16": "uint16_t {0}",
    "u64": "uint64_t {0}",
    "usize": "size_t {0}",
    "&[u8]": "const uint8_t *{0}, size_t {0}_len",
    "&[u64]": "const uint64_t *{0}, size_t {0}_len",
    "&mut [u8]": "uint8_t *{0}, size_t {0}_len",
    "&mut [u64]": "uint64_t *{0}, size_t {0}_len",
}


def words(text: str) -> str:
    return " ".join(text.split())


def in_header(text: str) -> dict[str, str]:
    """Each function's parameters, where one has the name that the code gives it."""
    text = re.sub(r"/\*.*?\*/", " ", text, flags=re.S)
    found = re.findall(r"^uint64_t (relay_\w+)\(([^)]*)\);", text, re.M)
    given = re.compile(rf"\b({'|'.join(IN_CODE)})\b")
    return {name: given.sub(lambda m: IN_CODE[m[0]], words(text)) for name, text in found}


def in_archive() -> set[str]:
    command = ["nm", "--defined-only", "--extern-only", ARCHIVE]
    output = subprocess.run(command, check=True, capture_output=True, text=True).stdout
    return set(re.findall(r"^\w+ T (\w+)$", output, re.M))


@dataclass(frozen=True)
class Function:
    """Its parameters with their types, the facts of its contract, and its body."""

    types: dict[str, str]
    promises: tuple[str, ...]
    body: str

    def terms(self) -> list[str]:
        return [promise.split(" ≡ ", 1)[1] for promise in self.promises]

    def in_c(self) -> str:
        return ", ".join(IN_C[kind].format(name) for name, kind in self.types.items())


def sources(folder: Path) -> str:
    return "\n".join(path.read_text() for path in sorted(folder.glob("*.rt")))


def in_code(text: str, head: str) -> dict[str, Function]:
    """The functions of a crate whose names begin with relay_, by what stands before `fn`."""
    found = {}
    contract = r"((?:    ensures .*\n(?:        .*\n)*)+)"
    pattern = rf"^{head}fn (relay_\w+)\(([^)]*)\) -> u64\n{contract}\{{\n((?:.*\n)*?)\}}"
    for name, parameters, clauses, body in re.findall(pattern, text, re.M):
        pairs = (p.split(":") for p in parameters.split(",") if p.strip())
        types = {a.strip(): b.strip() for a, b in pairs}
        promised = re.split(r"(?:^| )ensures (?:\w+ )?\{ ", words(clauses))[1:]
        assert all(p.endswith(" }") and " ≡ " in p for p in promised), f"{name}: {promised}"
        found[name] = Function(types, tuple(p.removesuffix(" }") for p in promised), words(body))
    return found


def parameters_of(signature: str) -> list[str]:
    return [name for group in re.findall(r"\(([^:()]*):", signature) for name in group.split()]


def on_page(text: str) -> dict[str, tuple[list[str], list[str], str]]:
    """Each call's parameters, their names in its clause of `step`, and the clause."""
    calls = dict(re.findall(r"^  (relay_\w+) : (.*)Call$", text, re.M))
    steps = text[text.index("\nstep ") :]
    steps = steps[: steps.index("\n\n")]
    found = {}
    for clause in re.split(r"\n(?=step )", steps):
        if not clause.strip():
            continue
        pattern = r"\s*step \(?(relay_\w+)([^)]*?)\)? m =(.*)"
        name, names, body = re.match(pattern, clause, re.S).groups()
        found[name] = (parameters_of(calls.pop(name)), names.split(), words(body))
    assert not calls, f"calls without a step: {sorted(calls)}"
    return found


def lent_name(name: str, kind: str) -> str | None:
    """The field of `Lent` that a parameter is: what is written, and the table where it is read."""
    if kind.startswith("&mut") or (name == "table" and kind.startswith("&")):
        return LENT.get(name, name)
    return None


def promised_on_page(term: str, types: dict[str, str], renamed: dict[str, str]) -> str:
    """A contract's term as the page has it."""

    def on_its_page(match: re.Match[str]) -> str:
        name, lent = match.groups()
        field = lent_name(name, types[name]) if lent else None
        return f"m.{field}" if field else renamed[name] if lent else renamed.get(name, name)

    return re.sub(r"(?<![\w.])(\w+)(\.(?:old|now))?(?![\w.])", on_its_page, term)


@dataclass(frozen=True)
class Texts:
    """What is compared."""

    header: str
    library: str
    exports: str
    page: str


def check_exports(header: dict[str, str], library: dict[str, Function], exports: dict[str, Function]):
    for name, export in exports.items():
        function, declared = library[name], header[name]
        assert export.in_c() == declared, f"{name}: the header has {declared}"
        assert export.types == function.types, f"{name}: relay_c has other parameters than relay"
        assert export.promises == function.promises, f"{name}: relay_c promises otherwise than relay"
        called = re.fullmatch(r"(?:\w+::)*(relay_\w+)\((.*?),? ?\)", export.body)
        assert called and called[1] == name, f"{name}: relay_c does not call relay's alone"
        assert words(called[2]).split(", ") == list(export.types), f"{name}: called with {called[2]}"


def check(texts: Texts) -> int:
    header, page = in_header(texts.header), on_page(texts.page)
    library = in_code(texts.library, r"pub ")
    exports = in_code(texts.exports, r'#\[unsafe\(no_mangle\)\]\npub extern "C" ')
    lists = {"archive": in_archive(), "crate relay_c": set(exports), "crate relay": set(library), "page": set(page)}
    for other, names in lists.items():
        assert names == set(header), f"header and {other} differ: {sorted(names ^ set(header))}"
    check_exports(header, library, exports)
    for name, function in library.items():
        types = function.types
        arguments, bound, body = page[name]
        read = [n for n, kind in types.items() if not lent_name(n, kind)]
        assert arguments == read, f"{name}: the page has {arguments}, the code {read}"
        body = re.sub(rf"(?<![\w.])(?:{'|'.join(MODULES)})\.", "", body)
        for term in function.terms():
            wanted = promised_on_page(term, types, dict(zip(arguments, bound)))
            assert wanted in body, f"{name}: its contract's term is not its step's: {wanted}"
    return len(header)


def refuses(texts: Texts) -> bool:
    try:
        check(texts)
    except (AssertionError, KeyError):
        return True
    return False


def replaced(text: str, old: str, new: str) -> str:
    assert old in text, old
    return text.replace(old, new, 1)


def main() -> None:
    right = Texts(HEADER.read_text(), sources(LIBRARY), sources(EXPORTS), PAGE.read_text())
    count = check(right)
    page = right.page
    # Pages that must not pass: a call left out, two salts swapped, a table lent in the answer's
    # place.
    mend = re.search(r"\nstep relay_recording_mend m =.*?(?=\nstep )", page, re.S).group(0)
    left_out = replaced(replaced(page, mend, ""), "  relay_recording_mend : Call\n", "")
    salts = "seals_response method key salt request_salt", "seals_response method key request_salt salt"
    swapped = replaced(page, *salts)
    lent = replaced(page, "s m.table m.out m.answer", "s m.answer m.out m.table")
    assert all(refuses(replace(right, page=wrong)) for wrong in (left_out, swapped, lent))
    # A header that has another function, and one that has a length of 16 bits.
    other = right.header + "uint64_t relay_reset(uint64_t *table, size_t table_len);\n"
    narrow = replaced(right.header, "uint64_t limit", "uint16_t limit")
    assert all(refuses(replace(right, header=wrong)) for wrong in (other, narrow))
    # Exports that must not pass: of another function, of other parameters, and with another promise.
    calls = "relay_stream_seal_chunk(stream, payload", "relay_sip004_stream_seal_chunk(stream, payload"
    places = "relay_recording_compare(first, second", "relay_recording_compare(second, first"
    promise = "≡ made retention table.old", "≡ made 300 table.old"
    wrongs = [replaced(right.exports, *pair) for pair in (calls, places, promise)]
    assert all(refuses(replace(right, exports=wrong)) for wrong in wrongs)
    print(f"{count} functions, each with its contract's terms")


if __name__ == "__main__":
    main()
