"""Poly1305 (RFC 8439, section 2.5), written from that document.

An independent reference for the proved code: the accumulator is one whole number, reduced after each
block. Plain, and not constant time.

    python3 reference/poly1305.py --selftest
"""

import sys

sys.dont_write_bytecode = True  # no __pycache__ in the tree
import aes  # noqa: E402

KEY_LENGTH = 32
TAG_LENGTH = 16

P = 2**130 - 5
CLAMP = 0x0FFFFFFC0FFFFFFC0FFFFFFC0FFFFFFF


def number(data):
    return int.from_bytes(data, "little")


def mac(key, message):
    """The tag of a message under a one-time key."""
    if len(key) != KEY_LENGTH:
        raise ValueError(f"the one-time key has {KEY_LENGTH} bytes")
    r, s = number(key[:16]) & CLAMP, number(key[16:])
    accumulator = 0
    for start in range(0, len(message), 16):
        accumulator += number(message[start : start + 16] + b"\1")
        accumulator = accumulator * r % P
    return ((accumulator + s) % 2**128).to_bytes(TAG_LENGTH, "little")


# Published examples.

# Section 2.5.2.
KEY = "85d6be7857556d337f4452fe42d506a80103808afb0db2fd4abff6af4149f51b"
MESSAGE = b"Cryptographic Forum Research Group"
TAG = "a8061dc1305136c6c22b8baf0c0127a9"

# Appendix A.3, numbers 5 to 11: r, s, the message and the tag, each in hexadecimal without zeros behind.
EDGES = (
    ("02", "", "ff" * 16, "03"),
    ("02", "ff" * 16, "02" + "00" * 15, "03"),
    ("01", "", "ff" * 16 + "f0" + "ff" * 15 + "11" + "00" * 15, "05"),
    ("01", "", "ff" * 16 + "fb" + "fe" * 15 + "01" * 16, ""),
    ("02", "", "fd" + "ff" * 15, "fa" + "ff" * 15),
    (
        "010000000000000004",
        "",
        "e33594d7505e43b900000000000000003394d7505e4379cd0100000000000000" + "00" * 16 + "01" + "00" * 15,
        "140000000000000055",
    ),
    (
        "010000000000000004",
        "",
        "e33594d7505e43b900000000000000003394d7505e4379cd0100000000000000" + "00" * 16,
        "13",
    ),
)


def selftest():
    """The names of the published examples that this code fails."""
    failed = []
    if mac(bytes.fromhex(KEY), MESSAGE).hex() != TAG:
        failed.append("RFC 8439, 2.5.2")
    for place, fields in enumerate(EDGES, 5):
        r, s, message, tag = map(bytes.fromhex, fields)
        if mac(r.ljust(16, b"\0") + s.ljust(16, b"\0"), message) != tag.ljust(16, b"\0"):
            failed.append(f"RFC 8439, A.3, number {place}")
    return failed


if __name__ == "__main__":
    aes.run(selftest, "RFC 8439, section 2.5 and appendix A.3: all agree")
