//! The proved static library, made by `tools/library bench`.

#[link(name = "bench", kind = "static")]
extern "C" {
    fn bench_aes_ctr(
        key: *const u8,
        key_len: usize,
        nonce: *const u8,
        nonce_len: usize,
        counter: u32,
        data: *mut u8,
        data_len: usize,
    ) -> u32;
    fn bench_ghash(
        h: *const u8,
        h_len: usize,
        text: *const u8,
        text_len: usize,
        out: *mut u8,
        out_len: usize,
    ) -> u32;
    fn bench_gcm_seal(
        key: *const u8,
        key_len: usize,
        nonce: *const u8,
        nonce_len: usize,
        text: *const u8,
        text_len: usize,
        out: *mut u8,
        out_len: usize,
    ) -> u32;
    fn bench_gcm_open(
        key: *const u8,
        key_len: usize,
        nonce: *const u8,
        nonce_len: usize,
        sealed: *const u8,
        sealed_len: usize,
        out: *mut u8,
        out_len: usize,
    ) -> u32;
    fn bench_chacha(
        double_rounds: usize,
        key: *const u8,
        key_len: usize,
        counter: u32,
        nonce: *const u8,
        nonce_len: usize,
        data: *mut u8,
        data_len: usize,
    );
    fn bench_poly1305(
        key: *const u8,
        key_len: usize,
        text: *const u8,
        text_len: usize,
        out: *mut u8,
        out_len: usize,
    ) -> u32;
    fn bench_chacha_poly_seal(
        double_rounds: usize,
        key: *const u8,
        key_len: usize,
        nonce: *const u8,
        nonce_len: usize,
        body: *mut u8,
        body_len: usize,
    ) -> u32;
    fn bench_chacha_poly_open(
        double_rounds: usize,
        key: *const u8,
        key_len: usize,
        nonce: *const u8,
        nonce_len: usize,
        sealed: *const u8,
        sealed_len: usize,
        out: *mut u8,
        out_len: usize,
    ) -> u32;
    fn bench_datagram_seal(
        method: u64,
        key: *const u8,
        key_len: usize,
        nonce: *const u8,
        nonce_len: usize,
        id: u64,
        clock: u64,
        address: *const u8,
        address_len: usize,
        payload: *const u8,
        payload_len: usize,
        out: *mut u8,
        out_len: usize,
    ) -> usize;
    fn bench_datagram_open(
        method: u64,
        key: *const u8,
        key_len: usize,
        clock: u64,
        datagram: *const u8,
        datagram_len: usize,
        table: *mut u64,
        table_len: usize,
        out: *mut u8,
        out_len: usize,
    ) -> u64;
    fn bench_chunk_seal(
        method: u64,
        a: u64,
        b: u64,
        c: u64,
        d: u64,
        payload: *const u8,
        payload_len: usize,
        out: *mut u8,
        out_len: usize,
    ) -> usize;
    fn bench_chunk_open(
        method: u64,
        a: u64,
        b: u64,
        c: u64,
        d: u64,
        length: u16,
        sealed: *const u8,
        sealed_len: usize,
        out: *mut u8,
        out_len: usize,
    ) -> u64;
    fn bench_blake3(text: *const u8, text_len: usize, out: *mut u8, out_len: usize) -> u32;
    fn bench_subkey(
        key: *const u8,
        key_len: usize,
        salt: *const u8,
        salt_len: usize,
        out: *mut u8,
        out_len: usize,
    ) -> u32;
}

/// Encrypts `data` in place in counter mode from `counter` on, a 32-bit counter
/// that wraps. The key is expanded at each call.
///
/// # Panics
///
/// If the key has not 16, 24 or 32 bytes.
pub fn aes_ctr(key: &[u8], nonce: &[u8; 12], counter: u32, data: &mut [u8]) {
    // SAFETY: each pointer is a slice's, with that slice's length, and `data` is
    // borrowed mutably, so it overlaps neither of the others.
    let refused = unsafe {
        bench_aes_ctr(
            key.as_ptr(),
            key.len(),
            nonce.as_ptr(),
            nonce.len(),
            counter,
            data.as_mut_ptr(),
            data.len(),
        )
    };
    assert_eq!(
        refused,
        0,
        "bench_aes_ctr refused a key of {} bytes",
        key.len()
    );
}

/// GHASH of `text`, its last block filled up with zeros, under the hash subkey `h`,
/// to the front of `out`.
///
/// # Panics
///
/// If `out` is shorter than a block.
pub fn ghash(h: &[u8; 16], text: &[u8], out: &mut [u8]) {
    // SAFETY: as in `aes_ctr`, with `out` the one that is borrowed mutably.
    let refused = unsafe {
        bench_ghash(
            h.as_ptr(),
            h.len(),
            text.as_ptr(),
            text.len(),
            out.as_mut_ptr(),
            out.len(),
        )
    };
    assert_eq!(refused, 0, "bench_ghash refused its lengths");
}

/// Seals `text` to the front of `out`: ciphertext and tag.
///
/// # Panics
///
/// If the key has not 16, 24 or 32 bytes, or `out` is shorter than `text` and tag.
pub fn gcm_seal(key: &[u8], nonce: &[u8; 12], text: &[u8], out: &mut [u8]) {
    // SAFETY: as in `aes_ctr`, with `out` the one that is borrowed mutably.
    let refused = unsafe {
        bench_gcm_seal(
            key.as_ptr(),
            key.len(),
            nonce.as_ptr(),
            nonce.len(),
            text.as_ptr(),
            text.len(),
            out.as_mut_ptr(),
            out.len(),
        )
    };
    assert_eq!(refused, 0, "bench_gcm_seal refused its lengths");
}

/// Opens `sealed` to the front of `out`. Answers false, and writes nothing, where
/// the tag is wrong.
///
/// # Panics
///
/// If the key has not 16, 24 or 32 bytes, `sealed` has no tag, or `out` is shorter
/// than the text.
pub fn gcm_open(key: &[u8], nonce: &[u8; 12], sealed: &[u8], out: &mut [u8]) -> bool {
    // SAFETY: as in `aes_ctr`, with `out` the one that is borrowed mutably.
    let answer = unsafe {
        bench_gcm_open(
            key.as_ptr(),
            key.len(),
            nonce.as_ptr(),
            nonce.len(),
            sealed.as_ptr(),
            sealed.len(),
            out.as_mut_ptr(),
            out.len(),
        )
    };
    match answer {
        0 => true,
        2 => false,
        _ => panic!("bench_gcm_open refused its lengths"),
    }
}

/// Adds the key stream of ChaCha with so many rounds to `data` from a block on, a 32-bit
/// counter that wraps.
pub fn chacha(rounds: usize, key: &[u8; 32], nonce: &[u8; 12], counter: u32, data: &mut [u8]) {
    // SAFETY: as in `aes_ctr`.
    unsafe {
        bench_chacha(
            rounds / 2,
            key.as_ptr(),
            key.len(),
            counter,
            nonce.as_ptr(),
            nonce.len(),
            data.as_mut_ptr(),
            data.len(),
        );
    }
}

/// Poly1305 of `text` under a one-time key, to the front of `out`.
///
/// # Panics
///
/// If `out` is shorter than a tag.
pub fn poly1305(key: &[u8; 32], text: &[u8], out: &mut [u8]) {
    // SAFETY: as in `aes_ctr`, with `out` the one that is borrowed mutably.
    let refused = unsafe {
        bench_poly1305(
            key.as_ptr(),
            key.len(),
            text.as_ptr(),
            text.len(),
            out.as_mut_ptr(),
            out.len(),
        )
    };
    assert_eq!(refused, 0, "bench_poly1305 refused its lengths");
}

/// Seals by ChaCha with so many rounds and Poly1305 the text at the front of `body` where it
/// stands; the last 16 bytes are room for the tag.
///
/// # Panics
///
/// If `body` has no room for a tag.
pub fn chacha_poly_seal(rounds: usize, key: &[u8], nonce: &[u8; 12], body: &mut [u8]) {
    // SAFETY: as in `aes_ctr`, with `body` the one that is borrowed mutably.
    let refused = unsafe {
        bench_chacha_poly_seal(
            rounds / 2,
            key.as_ptr(),
            key.len(),
            nonce.as_ptr(),
            nonce.len(),
            body.as_mut_ptr(),
            body.len(),
        )
    };
    assert_eq!(refused, 0, "bench_chacha_poly_seal refused its lengths");
}

/// Opens `sealed` to the front of `out`. Answers false, and writes nothing, where
/// the tag is wrong.
///
/// # Panics
///
/// If `sealed` has no tag, or `out` is shorter than the text.
pub fn chacha_poly_open(
    rounds: usize,
    key: &[u8],
    nonce: &[u8; 12],
    sealed: &[u8],
    out: &mut [u8],
) -> bool {
    // SAFETY: as in `aes_ctr`, with `out` the one that is borrowed mutably.
    let answer = unsafe {
        bench_chacha_poly_open(
            rounds / 2,
            key.as_ptr(),
            key.len(),
            nonce.as_ptr(),
            nonce.len(),
            sealed.as_ptr(),
            sealed.len(),
            out.as_mut_ptr(),
            out.len(),
        )
    };
    match answer {
        0 => true,
        2 => false,
        _ => panic!("bench_chacha_poly_open refused its lengths"),
    }
}

/// The BLAKE3 hash of `text`, 32 bytes, to the front of `out`.
///
/// # Panics
///
/// If `out` is shorter.
pub fn hash(text: &[u8], out: &mut [u8]) {
    // SAFETY: as in `aes_ctr`, with `out` the one that is borrowed mutably.
    let refused = unsafe { bench_blake3(text.as_ptr(), text.len(), out.as_mut_ptr(), out.len()) };
    assert_eq!(refused, 0, "bench_blake3 refused its room");
}

/// Derives the session subkey, as long as `key`, from `key` and `salt` to the front
/// of `out`.
///
/// # Panics
///
/// If the key or the salt is longer than 32 bytes, or `out` is shorter.
pub fn subkey(key: &[u8], salt: &[u8], out: &mut [u8]) {
    // SAFETY: as in `aes_ctr`, with `out` the one that is borrowed mutably.
    let refused = unsafe {
        bench_subkey(
            key.as_ptr(),
            key.len(),
            salt.as_ptr(),
            salt.len(),
            out.as_mut_ptr(),
            out.len(),
        )
    };
    assert_eq!(refused, 0, "bench_subkey refused its lengths");
}

/// Seals a client's first datagram to the front of `out` and answers its length.
///
/// # Panics
///
/// If it is refused.
// The arguments are the exported function's.
#[allow(clippy::too_many_arguments)]
pub fn datagram_seal(
    method: u64,
    key: &[u8],
    nonce: &[u8],
    id: u64,
    clock: u64,
    address: &[u8],
    payload: &[u8],
    out: &mut [u8],
) -> usize {
    // SAFETY: as in `aes_ctr`, with `out` the one that is borrowed mutably.
    let length = unsafe {
        bench_datagram_seal(
            method,
            key.as_ptr(),
            key.len(),
            nonce.as_ptr(),
            nonce.len(),
            id,
            clock,
            address.as_ptr(),
            address.len(),
            payload.as_ptr(),
            payload.len(),
            out.as_mut_ptr(),
            out.len(),
        )
    };
    assert_ne!(length, 0, "bench_datagram_seal refused");
    length
}

/// Opens a client's datagram on a session table: 0, or the refusal's number.
pub fn datagram_open(
    method: u64,
    key: &[u8],
    clock: u64,
    datagram: &[u8],
    table: &mut [u64],
    out: &mut [u8],
) -> u64 {
    // SAFETY: as in `aes_ctr`, with `table` and `out` those that are borrowed mutably.
    unsafe {
        bench_datagram_open(
            method,
            key.as_ptr(),
            key.len(),
            clock,
            datagram.as_ptr(),
            datagram.len(),
            table.as_mut_ptr(),
            table.len(),
            out.as_mut_ptr(),
            out.len(),
        )
    }
}

/// The words of a stream's subkey, its bytes big-endian.
fn subkey_words(subkey: &[u8]) -> [u64; 4] {
    let mut bytes = [0; 32];
    bytes[..subkey.len()].copy_from_slice(subkey);
    std::array::from_fn(|index| {
        let word = &bytes[8 * index..8 * index + 8];
        u64::from_be_bytes(word.try_into().expect("eight bytes"))
    })
}

/// Seals the first chunk of a stream, a length with its payload, to the front of
/// `out` and answers how many bytes it has.
///
/// # Panics
///
/// If it is refused.
pub fn chunk_seal(method: u64, subkey: &[u8], payload: &[u8], out: &mut [u8]) -> usize {
    let [a, b, c, d] = subkey_words(subkey);
    // SAFETY: as in `aes_ctr`, with `out` the one that is borrowed mutably.
    let length = unsafe {
        bench_chunk_seal(
            method,
            a,
            b,
            c,
            d,
            payload.as_ptr(),
            payload.len(),
            out.as_mut_ptr(),
            out.len(),
        )
    };
    assert_ne!(length, 0, "bench_chunk_seal refused");
    length
}

/// Opens the payload, of `length` bytes, of a stream's first chunk: 0, or the
/// refusal's number.
pub fn chunk_open(method: u64, subkey: &[u8], length: u16, sealed: &[u8], out: &mut [u8]) -> u64 {
    let [a, b, c, d] = subkey_words(subkey);
    // SAFETY: as in `aes_ctr`, with `out` the one that is borrowed mutably.
    unsafe {
        bench_chunk_open(
            method,
            a,
            b,
            c,
            d,
            length,
            sealed.as_ptr(),
            sealed.len(),
            out.as_mut_ptr(),
            out.len(),
        )
    }
}
