//! AES, GHASH, ChaCha, Poly1305 and BLAKE3, each alone.

use super::{ours_and, text, Bare, Contestant, Library, Row, KEY, NONCE, SALT};
use crate::around::SUBKEY_CONTEXT;
use crate::bearssl::{BearSsl, Ghash};
use crate::chachas::{ChaChas, Mac, OneTimeKey, Stream};
use crate::ciphers::{Aead, Block, Ciphers, Counter, Gmac, TAG_LENGTH};
use crate::gcrypt::Gcrypt;
use crate::kinds::Kind;
use crate::mbedtls::MbedTls;
use crate::nettle::Nettle;
use crate::openssl::{AesBlock, OpenSsl};
use crate::ours;
use crate::plain::{blake3, AesPlanes, DeriveKey};

const KEY_LENGTHS: [usize; 3] = [16, 24, 32];

/// A short datagram, one that fits an Ethernet frame, and the whole blocks of the
/// longest one.
const SIZES: [usize; 3] = [64, 1_400, WHOLE_BLOCKS];

pub const WHOLE_BLOCKS: usize = 65_504;

/// The same in whole blocks.
const HASHED: [usize; 3] = [64, 1_392, WHOLE_BLOCKS];

/// The key length with which OpenSSL and nettle are asked for GHASH.
const GMAC_KEY: usize = 16;

/// The counter of GCM's first block of text.
const FIRST_COUNTER: u32 = 2;

/// ChaCha's rounds by method, and its first block of a text.
const ROUNDS: [usize; 3] = [20, 12, 8];
const FIRST_BLOCK: u32 = 1;

/// One chunk of BLAKE3, and the longest payload of a datagram.
const HASHES: [usize; 2] = [1_024, 65_503];

/// Lengths at which blocks, chunks or parts of the tree end, or one byte behind that.
const HASH_EDGES: [usize; 12] = [
    0, 1, 64, 65, 1_025, 2_048, 3_073, 4_096, 4_097, 8_192, 31_744, 102_400,
];

/// The length of a hash.
const DIGEST: usize = 32;

/// The length of a datagram's session ID, which is its subkey's salt.
const SESSION_ID: usize = 8;

/// The room that a subkey is derived into, whatever its length.
const LONGEST_SUBKEY: usize = 32;

pub fn rows() -> Vec<Row> {
    let mut rows = Vec::new();
    for key_length in KEY_LENGTHS {
        for size in SIZES {
            rows.push(aes_ctr(key_length, size, FIRST_COUNTER));
            // Half of the blocks come before the wrap.
            let half = (size / 16 / 2) as u32;
            let wrapping = aes_ctr(key_length, size, half.wrapping_neg());
            rows.push(wrapping.compared_only("counter wraps"));
        }
    }
    rows.extend([16, 32].map(planes));
    rows.extend(HASHED.map(ghash));
    for rounds in ROUNDS {
        for size in SIZES {
            rows.push(stream(rounds, size, FIRST_BLOCK));
            let half = (size / 64 / 2) as u32;
            let wrapping = stream(rounds, size, half.wrapping_neg());
            rows.push(wrapping.compared_only("counter wraps"));
        }
    }
    rows.extend(HASHED.map(poly1305));
    rows.extend(HASHES.map(hash));
    // One block, whole chunks of a subtree, and ends of chunks.
    rows.extend(HASH_EDGES.map(|size| hash(size).compared_only("tree")));
    // A stream's subkey of the longest method, a session's of the shortest.
    rows.push(subkey(32, SALT.len()));
    rows.push(subkey(16, SESSION_ID));
    rows
}

fn aes_ctr(key_length: usize, size: usize, counter: u32) -> Row {
    let key = &KEY[..key_length];
    Row {
        kind: Kind::Counter { key_length },
        size,
        input: Vec::new(),
        buffer: size,
        special: None,
        contestants: ours_and(
            move |_, data| {
                ours::aes_ctr(key, &NONCE, counter, data);
            },
            of_aes!(aes_ctr_with, Bare, (key, counter)),
        ),
    }
}

/// The longest, by ours and by its shape in plain Rust.
fn planes(key_length: usize) -> Row {
    let key = &KEY[..key_length];
    let model = AesPlanes::new();
    Row {
        kind: Kind::Planes { key_length },
        size: WHOLE_BLOCKS,
        input: Vec::new(),
        buffer: WHOLE_BLOCKS,
        special: None,
        contestants: vec![
            Contestant::new(Library::Ours, move |_, data| {
                ours::aes_ctr(key, &NONCE, FIRST_COUNTER, data);
            }),
            Contestant::new(Library::Plain, move |_, data| {
                model.apply(key, &NONCE, FIRST_COUNTER, data);
            }),
        ],
    }
}

fn aes_ctr_with<C: Ciphers>(key: &'static [u8], counter: u32) -> Contestant {
    let context = C::Counter::new(key.len());
    Contestant::new(C::LIBRARY, move |_, data| {
        context.apply(key, &NONCE, counter, data);
    })
}

/// BearSSL alone has a function for GHASH. Nearest is the tag of
/// additional data without a text: the data's GHASH with a block of lengths behind it,
/// added to an AES block, which ours and BearSSL's are given.
fn ghash(size: usize) -> Row {
    let key = &KEY[..GMAC_KEY];
    let (hash_subkey, mask) = tag_blocks(key);
    let data = size - 16;
    let mut input = text(size);
    input[data..].copy_from_slice(&((8 * data as u128) << 64).to_be_bytes());
    let mut contestants = vec![
        Contestant::new(Library::Ours, move |text, out| {
            ours::ghash(&hash_subkey, text, out);
            add(&mask, out);
        }),
        gmac_with::<OpenSsl>(key, data),
        gmac_with::<Nettle>(key, data),
        gmac_with::<Gcrypt>(key, data),
        gmac_with::<MbedTls>(key, data),
    ];
    contestants.extend(ghash_of_bearssl::<false>(hash_subkey, mask));
    contestants.extend(ghash_of_bearssl::<true>(hash_subkey, mask));
    Row {
        kind: Kind::Ghash,
        size,
        input,
        buffer: TAG_LENGTH,
        special: None,
        contestants,
    }
}

fn gmac_with<C: Ciphers>(key: &'static [u8], data: usize) -> Contestant
where
    C::Gcm: Gmac,
{
    let context = C::Gcm::new(key.len());
    Contestant::new(C::LIBRARY, move |text, out| {
        let tag = out.first_chunk_mut().expect("out has room for a tag");
        context.authenticate(key, &NONCE, &text[..data], tag);
    })
}

/// `None` where the processor has not the instructions.
fn ghash_of_bearssl<const INSTRUCTIONS: bool>(
    hash_subkey: [u8; 16],
    mask: [u8; 16],
) -> Option<Contestant> {
    let ghash = Ghash::<INSTRUCTIONS>::new()?;
    let library = BearSsl::<INSTRUCTIONS>::LIBRARY;
    Some(Contestant::new(library, move |text, out| {
        out.copy_from_slice(&ghash.hash(&hash_subkey, text));
        add(&mask, out);
    }))
}

/// GCM's addition, which is exclusive or.
fn add(mask: &[u8; 16], out: &mut [u8]) {
    for (byte, mask) in out.iter_mut().zip(mask) {
        *byte ^= mask;
    }
}

/// GCM's hash subkey, and the block that is added to a tag's hash.
fn tag_blocks(key: &[u8]) -> ([u8; 16], [u8; 16]) {
    let cipher = AesBlock::new(key.len());
    let mut hash_subkey = [0; 16];
    cipher.encrypt(key, &mut hash_subkey);
    let mut mask = [0; 16];
    mask[..12].copy_from_slice(&NONCE);
    mask[15] = 1;
    cipher.encrypt(key, &mut mask);
    (hash_subkey, mask)
}

fn stream(rounds: usize, size: usize, counter: u32) -> Row {
    Row {
        kind: Kind::Stream { rounds },
        size,
        input: Vec::new(),
        buffer: size,
        special: None,
        contestants: ours_and(
            move |_, data| {
                ours::chacha(rounds, &KEY, &NONCE, counter, data);
            },
            of_chacha!(rounds, stream_with, Bare, (counter)),
        ),
    }
}

fn stream_with<C: ChaChas>(counter: u32) -> Contestant {
    let context = C::Stream::new();
    Contestant::new(C::LIBRARY, move |_, data| {
        context.apply(&KEY, &NONCE, counter, data);
    })
}

/// The last block is that of the lengths, as in the AEAD: BearSSL has no function for
/// Poly1305 alone, and nettle makes the second half of the one-time key by AES.
fn poly1305(size: usize) -> Row {
    let (data, key) = (size - 16, one_time_key().bytes);
    let mut input = text(size);
    input[data..].copy_from_slice(&(data as u128).to_le_bytes());
    Row {
        kind: Kind::Poly1305,
        size,
        input,
        buffer: TAG_LENGTH,
        special: None,
        contestants: ours_and(
            move |text, out| ours::poly1305(&key, text, out),
            of_chacha!(20, mac_with, Bare, ()),
        ),
    }
}

fn mac_with<C: ChaChas>() -> Contestant {
    let (context, key) = (C::Mac::new(), one_time_key());
    Contestant::new(C::LIBRARY, move |text, out| {
        let tag = out.first_chunk_mut().expect("out has room for a tag");
        context.authenticate(&key, text, tag);
    })
}

/// The second half is a block under an AES key.
fn one_time_key() -> OneTimeKey {
    let (aes_key, block) = (*b"sixteen bytes ..", [7; 16]);
    let mut half = block;
    AesBlock::new(aes_key.len()).encrypt(&aes_key, &mut half);
    let mut bytes = KEY;
    bytes[16..].copy_from_slice(&half);
    OneTimeKey {
        bytes,
        aes_key,
        block,
    }
}

fn hash(size: usize) -> Row {
    Row {
        kind: Kind::Hash,
        size,
        input: text(size),
        buffer: DIGEST,
        special: None,
        contestants: vec![
            Contestant::new(Library::Ours, ours::hash),
            Contestant::new(Library::Plain, |text, out| {
                out.copy_from_slice(&blake3(text));
            }),
        ],
    }
}

/// The input is the key and the salt, one after the other.
fn subkey(key_length: usize, salt_length: usize) -> Row {
    let material = [&KEY[..key_length], &SALT[..salt_length]].concat();
    let context = DeriveKey::new(SUBKEY_CONTEXT);
    Row {
        kind: Kind::Subkey,
        size: material.len(),
        input: material,
        buffer: LONGEST_SUBKEY,
        special: None,
        contestants: vec![
            Contestant::new(Library::Ours, move |material, out| {
                let (key, salt) = material.split_at(key_length);
                ours::subkey(key, salt, out);
            }),
            Contestant::new(Library::Plain, move |material, out| {
                context.derive(material, &mut out[..key_length]);
            }),
        ],
    }
}
