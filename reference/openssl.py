"""AES blocks, AES-GCM and ChaCha20-Poly1305 by OpenSSL's libcrypto, for the other references to be fast.

A second opinion beside aes.py, gcm.py and chacha_poly.py, which stay the originals:
where there is no libcrypto they serve alone, and where there is one it is compared with
them. It has ChaCha of 20 rounds only; of fewer the original serves.

    python3 reference/openssl.py --selftest
"""

from __future__ import annotations

import ctypes
import ctypes.util
import sys

sys.dont_write_bytecode = True  # no __pycache__ in the tree
import aes  # noqa: E402
import chacha  # noqa: E402
import chacha_poly  # noqa: E402
import gcm  # noqa: E402

GET_TAG, SET_TAG = 0x10, 0x11  # EVP_CTRL_AEAD_GET_TAG and EVP_CTRL_AEAD_SET_TAG

# The originals, which another module may replace where they stand.
ORIGINALS = {
    "encrypt": aes.encrypt,
    "decrypt": aes.decrypt,
    "seal": gcm.seal,
    "open": gcm.open,
    "seal_chacha": chacha_poly.seal,
    "open_chacha": chacha_poly.open,
}
DOUBLES = 10  # double rounds of its ChaCha


def load() -> ctypes.CDLL | None:
    """libcrypto, None if it is not there."""
    name = ctypes.util.find_library("crypto") or "libcrypto.so.3"
    try:
        library = ctypes.CDLL(name)
        library.EVP_CIPHER_CTX_new.restype = ctypes.c_void_p
        for bits in (128, 192, 256):
            for mode in ("ecb", "gcm"):
                getattr(library, f"EVP_aes_{bits}_{mode}").restype = ctypes.c_void_p
        library.EVP_chacha20.restype = library.EVP_chacha20_poly1305.restype = ctypes.c_void_p
    except (OSError, AttributeError):
        return None
    return library


LIBRARY = load()


class Cipher:
    """One operation of a cipher under a key: its parts are written one behind the other."""

    def __init__(self, name: str, key: bytes, iv: bytes | None, encrypts: bool) -> None:
        self.context = ctypes.c_void_p(LIBRARY.EVP_CIPHER_CTX_new())
        cipher = ctypes.c_void_p(getattr(LIBRARY, f"EVP_{name}")())
        self.must(LIBRARY.EVP_CipherInit_ex(self.context, cipher, None, key, iv, int(encrypts)))
        self.must(LIBRARY.EVP_CIPHER_CTX_set_padding(self.context, 0))

    def __del__(self) -> None:
        LIBRARY.EVP_CIPHER_CTX_free(self.context)

    @staticmethod
    def must(done: int) -> None:
        if done != 1:
            raise RuntimeError("libcrypto failed")

    def update(self, data: bytes) -> bytes:
        out, length = ctypes.create_string_buffer(len(data) + 16), ctypes.c_int()
        self.must(
            LIBRARY.EVP_CipherUpdate(self.context, out, ctypes.byref(length), data, len(data))
        )
        return out.raw[: length.value]

    def finish(self) -> bool:
        """Whether all is well: at opening, whether the tag is good."""
        out, length = ctypes.create_string_buffer(16), ctypes.c_int()
        return LIBRARY.EVP_CipherFinal_ex(self.context, out, ctypes.byref(length)) == 1

    def control(self, what: int, data: ctypes.Array | bytes) -> None:
        self.must(LIBRARY.EVP_CIPHER_CTX_ctrl(self.context, what, gcm.TAG_LENGTH, data))


def aes_name(key: bytes, mode: str) -> str:
    return f"aes_{8 * len(key)}_{mode}"


def sealed(name: str, key: bytes, iv: bytes, plaintext: bytes) -> bytes:
    cipher = Cipher(name, key, iv, True)
    ciphertext = cipher.update(plaintext)
    cipher.finish()
    tag = ctypes.create_string_buffer(gcm.TAG_LENGTH)
    cipher.control(GET_TAG, tag)
    return ciphertext + tag.raw


def opened(name: str, key: bytes, iv: bytes, sealed: bytes) -> bytes | None:
    cipher = Cipher(name, key, iv, False)
    plaintext = cipher.update(sealed[: -gcm.TAG_LENGTH])
    cipher.control(SET_TAG, sealed[-gcm.TAG_LENGTH :])
    return plaintext if cipher.finish() else None


# As in aes.py and gcm.py.


def encrypt(key: bytes, block: bytes) -> bytes:
    return Cipher(aes_name(key, "ecb"), key, None, True).update(block)


def decrypt(key: bytes, block: bytes) -> bytes:
    return Cipher(aes_name(key, "ecb"), key, None, False).update(block)


def seal(key: bytes, iv: bytes, plaintext: bytes) -> bytes:
    return sealed(aes_name(key, "gcm"), key, iv, plaintext)


def open(key: bytes, iv: bytes, sealed: bytes) -> bytes | None:
    return opened(aes_name(key, "gcm"), key, iv, sealed)


# As in chacha.py and chacha_poly.py. A counter must not wrap; with additional data the original serves.


def encrypt_chacha(key: bytes, counter: int, nonce: bytes, text: bytes) -> bytes:
    return Cipher("chacha20", key, counter.to_bytes(4, "little") + nonce, True).update(text)


def seal_chacha(
    doubles: int, key: bytes, nonce: bytes, text: bytes, additional: bytes = b""
) -> bytes:
    if doubles != DOUBLES or additional:
        return ORIGINALS["seal_chacha"](doubles, key, nonce, text, additional)
    return sealed("chacha20_poly1305", key, nonce, text)


def open_chacha(
    doubles: int, key: bytes, nonce: bytes, sealed: bytes, additional: bytes = b""
) -> bytes | None:
    if doubles != DOUBLES or additional:
        return ORIGINALS["open_chacha"](doubles, key, nonce, sealed, additional)
    return opened("chacha20_poly1305", key, nonce, sealed)


# The two compared.

LENGTHS = (*range(50), 63, 64, 65, 255, 256, 1_400)


def chacha_messages(lengths):
    """What is compared of ChaCha20 and ChaCha20-Poly1305: a name, and both answers."""
    for length in lengths:
        text = bytes((7 * place + length) % 256 for place in range(length))
        key = bytes((length + 3 * place) % 256 for place in range(chacha.KEY_LENGTH))
        nonce, name = key[: chacha.NONCE_LENGTH], f"ChaCha20-Poly1305, {length} bytes"
        sealed = ORIGINALS["seal_chacha"](DOUBLES, key, nonce, text)
        damaged = sealed[:-1] + bytes([sealed[-1] ^ 1])
        yield f"{name}, sealed", seal_chacha(DOUBLES, key, nonce, text), sealed
        yield f"{name}, opened", open_chacha(DOUBLES, key, nonce, sealed), text
        yield f"{name}, damaged", open_chacha(DOUBLES, key, nonce, damaged), None
        for counter in (0, 1, 2**31, 2**32 - 1 - length // chacha.BLOCK_LENGTH):
            ours = encrypt_chacha(key, counter, nonce, text)
            theirs = chacha.encrypt(DOUBLES, key, counter, nonce, text)
            yield f"ChaCha20, {length} bytes from {counter}", ours, theirs


def differences(lengths=LENGTHS) -> list[str]:
    """What the two disagree on, at texts of these lengths under keys of each length."""
    found = []

    def check(what: str, ours: object, theirs: object) -> None:
        if ours != theirs:
            found.append(what)

    for what, ours, theirs in chacha_messages(lengths):
        check(what, ours, theirs)
    for bits in (128, 192, 256):
        for length in lengths:
            text = bytes((7 * place + length) % 256 for place in range(length))
            key = bytes((length + 3 * place) % 256 for place in range(bits // 8))
            iv, name = key[:12], f"AES-{bits}-GCM, {length} bytes"
            sealed = ORIGINALS["seal"](key, iv, text)
            check(f"{name}, sealed", seal(key, iv, text), sealed)
            check(f"{name}, opened", open(key, iv, sealed), text)
            check(f"{name}, damaged", open(key, iv, sealed[:-1] + bytes([sealed[-1] ^ 1])), None)
        block = ORIGINALS["encrypt"](key, key[:16])
        check(f"AES-{bits}", encrypt(key, key[:16]), block)
        check(f"AES-{bits}, inverse", decrypt(key, block), key[:16])
    return found


if __name__ == "__main__":
    if LIBRARY is None:
        sys.exit("there is no libcrypto")
    aes.run(differences, "OpenSSL and aes.py, gcm.py, chacha_poly.py: all agree")
