#!/usr/bin/env python3
"""Makes the data of the proved programs vectors and settings_vectors, and what they must print.

    python3 tools/make-vectors.py            write the files
    python3 tools/make-vectors.py --check    compare them with what would be written

Each file is made by a module of its own, from published vectors and the independent reference.
tools/vectors.py and tools/settings_vectors.py describe the files.
"""

import sys

sys.dont_write_bytecode = True  # no __pycache__ in the tree
import vectors  # noqa: E402
import aes_vectors  # noqa: E402
import blake3_vectors  # noqa: E402
import chacha_poly_vectors  # noqa: E402
import chacha_vectors  # noqa: E402
import datagram_vectors  # noqa: E402
import gcm_vectors  # noqa: E402
import hash_vectors  # noqa: E402
import session_vectors  # noqa: E402
import settings_vectors  # noqa: E402
import sip004_vectors  # noqa: E402
import stream_vectors  # noqa: E402

# In the order of the program vectors.
MODULES = (
    aes_vectors,
    blake3_vectors,
    gcm_vectors,
    hash_vectors,
    chacha_vectors,
    chacha_poly_vectors,
    datagram_vectors,
    session_vectors,
    stream_vectors,
    sip004_vectors,
)


def main():
    if sys.argv[1:] not in ([], ["--check"]):
        sys.exit(f"usage: python3 {sys.argv[0]} [--check]")
    check = bool(sys.argv[1:])

    folder = vectors.ROOT / "crates" / "vectors"
    contents, lines, problems = {}, [], []
    for module in MODULES:
        file = module.make()
        contents[folder / "data" / file.name] = vectors.file_data(file)
        lines += vectors.output(file)
        problems += file.problems
        print(file.agreement, flush=True)
    contents[folder / "stdout"] = "".join(line + "\n" for line in lines).encode("ascii")
    of_settings, agreement = settings_vectors.make()
    contents |= of_settings
    print(agreement, flush=True)
    if check:
        for path, content in contents.items():
            if not path.is_file() or path.read_bytes() != content:
                problems.append(f"{path.relative_to(vectors.ROOT)}: not what this script writes")
    if problems:
        sys.exit("\n".join(problems))

    if not check:
        for path, content in contents.items():
            path.parent.mkdir(parents=True, exist_ok=True)
            path.write_bytes(content)
    print(f"files {'as committed' if check else 'written'}")


if __name__ == "__main__":
    main()
