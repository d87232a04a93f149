"""The vectors of BLAKE3's key derivation: official ones of one block, and cases of the reference.

The reference is first checked with all official vectors.
"""

import sys

sys.dont_write_bytecode = True  # no __pycache__ in the tree
import vectors  # noqa: E402
import blake3  # noqa: E402
from vectors import Case  # noqa: E402

DERIVED, SUBKEY, REFUSED = range(3)

BLOCK = blake3.BLOCK_LENGTH
OUTPUT = 64
SUBKEY_CONTEXT = b"shadowsocks 2022 session subkey"

# Around words, keys with salts, and the block.
EDGES = (0, 1, 3, 4, 5, 31, 32, 33, 63, 64)

# Lengths of context and material of which one at least is too long.
LONG = ((65, 0), (65, 32), (65, 64), (0, 65), (31, 65), (64, 65), (65, 65), (255, 1), (1, 255))


def official_cases():
    for length, _, derived in blake3.official():
        if length <= BLOCK:
            yield blake3.OFFICIAL_CONTEXT, blake3.official_input(length), derived[:OUTPUT]


def reference_case(name, context_length, material_length):
    seed = f"blake3 {name} {context_length} {material_length}"
    context, material = vectors.stream(seed, context_length, material_length)
    return context, material, blake3.derive_key(context, material, OUTPUT)


def subkey_case(length):
    (material,) = vectors.stream(f"blake3 subkey {length}", length)
    return SUBKEY_CONTEXT, material, blake3.derive_key(SUBKEY_CONTEXT, material, OUTPUT)


def make_groups():
    lengths = range(BLOCK + 1)
    yield "official", DERIVED, list(official_cases())
    # Each length once as a context's and once as a material's: 27 has no factor with 65.
    spread = [reference_case("length", n, 27 * n % (BLOCK + 1)) for n in lengths]
    yield "each length", DERIVED, spread
    yield "edges", DERIVED, [reference_case("edge", c, m) for c in EDGES for m in EDGES]
    yield "session subkeys", SUBKEY, [subkey_case(n) for n in lengths]
    long = (reference_case("long", *pair) for pair in LONG)
    yield "too long", REFUSED, [(c, m, bytes(OUTPUT)) for c, m, _ in long]


def cases_of(kind, derivations):
    """A subkey is derived in both ways, and counts once."""
    for context, material, output in derivations:
        call = {"salt": context, "data": material, "output": output, "room": OUTPUT}
        if kind == SUBKEY:
            yield Case(vectors.DERIVE_SUBKEY, **call)
        if kind == REFUSED:
            yield Case(vectors.DERIVE, "refused", number=1, **call)
        else:
            yield Case(vectors.DERIVE, "derived", **call)


def make():
    groups = list(make_groups())
    problems = [f"{name}: the reference differs" for name in blake3.selftest()]
    cases = [(name, list(cases_of(kind, each))) for name, kind, each in groups]
    count = sum(len(each) for _, _, each in groups)
    agreement = f"{count} BLAKE3 key derivations in {len(groups)} groups"
    counters = ("derived", "refused")
    return vectors.File("blake3.bin", "BLAKE3, total", counters, cases, problems, agreement)
