//! BLAKE3's hash and key derivation as its paper writes them.
//!
//! What is derived from, the context and the material, is a block each at most. So each
//! is a tree of one chunk with one block, and costs one compression.

const BLOCK_LENGTH: usize = 64;
const CHUNK_LENGTH: usize = 1024;
const OUTPUT_LENGTH: usize = 32;

const IV: [u32; 8] = [
    0x6a09_e667,
    0xbb67_ae85,
    0x3c6e_f372,
    0xa54f_f53a,
    0x510e_527f,
    0x9b05_688c,
    0x1f83_d9ab,
    0x5be0_cd19,
];

/// Where each word of the next round's message comes from.
const PERMUTATION: [usize; 16] = [2, 6, 3, 10, 7, 0, 4, 13, 1, 11, 12, 5, 9, 14, 15, 8];

const ROUNDS: usize = 7;

/// The order of the message's words in each round. With these as constants, and the
/// rounds written out, the message is not moved: that is twice as fast.
const ORDERS: [[usize; 16]; ROUNDS] = orders();

const fn orders() -> [[usize; 16]; ROUNDS] {
    let mut orders = [[0; 16]; ROUNDS];
    let mut place = 0;
    while place < 16 {
        let mut from = place;
        let mut round = 0;
        while round < ROUNDS {
            orders[round][place] = from;
            from = PERMUTATION[from];
            round += 1;
        }
        place += 1;
    }
    orders
}

const CHUNK_START: u32 = 1 << 0;
const CHUNK_END: u32 = 1 << 1;
const PARENT: u32 = 1 << 2;
const ROOT: u32 = 1 << 3;
const DERIVE_KEY_CONTEXT: u32 = 1 << 5;
const DERIVE_KEY_MATERIAL: u32 = 1 << 6;

/// Key derivation for one context.
pub struct DeriveKey {
    context_key: [u32; 8],
}

impl DeriveKey {
    /// # Panics
    ///
    /// If the context is longer than a block.
    pub fn new(context: &str) -> Self {
        Self {
            context_key: one_block(&IV, context.as_bytes(), DERIVE_KEY_CONTEXT),
        }
    }

    /// Fills `out` with the front of the key derived from `material`.
    ///
    /// # Panics
    ///
    /// If `material` is longer than a block, or `out` than 32 bytes.
    pub fn derive(&self, material: &[u8], out: &mut [u8]) {
        assert!(out.len() <= OUTPUT_LENGTH, "only 32 bytes are derived");
        let words = one_block(&self.context_key, material, DERIVE_KEY_MATERIAL);
        for (bytes, word) in out.chunks_mut(4).zip(words) {
            bytes.copy_from_slice(&word.to_le_bytes()[..bytes.len()]);
        }
    }
}

/// The hash of `input`, 32 bytes.
pub fn hash(input: &[u8]) -> [u8; OUTPUT_LENGTH] {
    let mut out = [0; OUTPUT_LENGTH];
    for (bytes, word) in out.chunks_exact_mut(4).zip(tree(input, 0, ROOT)) {
        bytes.copy_from_slice(&word.to_le_bytes());
    }
    out
}

/// The chaining value of the tree over `input`, whose first chunk has the number
/// `counter`; or, with the root's flag, the first half of its output.
fn tree(input: &[u8], counter: u64, flag: u32) -> [u32; 8] {
    if input.len() <= CHUNK_LENGTH {
        return chunk(input, counter, flag);
    }
    let left = input.len().div_ceil(CHUNK_LENGTH).next_power_of_two() / 2;
    let (front, rest) = input.split_at(left * CHUNK_LENGTH);
    let mut message = [0; 16];
    message[..8].copy_from_slice(&tree(front, counter, 0));
    message[8..].copy_from_slice(&tree(rest, counter + left as u64, 0));
    compress(&IV, &message, 0, BLOCK_LENGTH as u32, PARENT | flag)
}

fn chunk(input: &[u8], counter: u64, flag: u32) -> [u32; 8] {
    let mut value = IV;
    let mut start = CHUNK_START;
    let mut rest = input;
    while let Some((block, behind)) = rest.split_first_chunk::<BLOCK_LENGTH>() {
        if behind.is_empty() {
            break;
        }
        value = compress(&value, &words(block), counter, BLOCK_LENGTH as u32, start);
        start = 0;
        rest = behind;
    }
    let flags = start | CHUNK_END | flag;
    last_block(&value, rest, counter, flags)
}

/// The first 32 bytes of the hash of one block, which is the whole tree.
fn one_block(key: &[u32; 8], input: &[u8], mode: u32) -> [u32; 8] {
    last_block(key, input, 0, CHUNK_START | CHUNK_END | ROOT | mode)
}

/// Zeros stand behind a block that is not whole.
fn last_block(key: &[u32; 8], input: &[u8], counter: u64, flags: u32) -> [u32; 8] {
    let mut block = [0; BLOCK_LENGTH];
    block[..input.len()].copy_from_slice(input);
    compress(key, &words(&block), counter, input.len() as u32, flags)
}

fn words(block: &[u8; BLOCK_LENGTH]) -> [u32; 16] {
    let mut words = [0; 16];
    for (word, bytes) in words.iter_mut().zip(block.chunks_exact(4)) {
        *word = u32::from_le_bytes([bytes[0], bytes[1], bytes[2], bytes[3]]);
    }
    words
}

/// The first half of the compression's output; the second would be needed for more
/// than 32 bytes only.
fn compress(
    key: &[u32; 8],
    message: &[u32; 16],
    counter: u64,
    length: u32,
    flags: u32,
) -> [u32; 8] {
    let mut state = [0; 16];
    state[..8].copy_from_slice(key);
    state[8..12].copy_from_slice(&IV[..4]);
    state[12] = counter as u32;
    state[13] = (counter >> 32) as u32;
    state[14] = length;
    state[15] = flags;
    round::<0>(&mut state, message);
    round::<1>(&mut state, message);
    round::<2>(&mut state, message);
    round::<3>(&mut state, message);
    round::<4>(&mut state, message);
    round::<5>(&mut state, message);
    round::<6>(&mut state, message);
    std::array::from_fn(|i| state[i] ^ state[i + 8])
}

#[inline(always)]
fn round<const R: usize>(state: &mut [u32; 16], message: &[u32; 16]) {
    let m = ORDERS[R].map(|from| message[from]);
    // The columns.
    mix(state, [0, 4, 8, 12], m[0], m[1]);
    mix(state, [1, 5, 9, 13], m[2], m[3]);
    mix(state, [2, 6, 10, 14], m[4], m[5]);
    mix(state, [3, 7, 11, 15], m[6], m[7]);
    // The diagonals.
    mix(state, [0, 5, 10, 15], m[8], m[9]);
    mix(state, [1, 6, 11, 12], m[10], m[11]);
    mix(state, [2, 7, 8, 13], m[12], m[13]);
    mix(state, [3, 4, 9, 14], m[14], m[15]);
}

/// The paper's function G on four words of the state. As a call of its own, with
/// places that it does not know, it would make the derivation twice as slow.
#[inline(always)]
fn mix(state: &mut [u32; 16], [a, b, c, d]: [usize; 4], x: u32, y: u32) {
    state[a] = state[a].wrapping_add(state[b]).wrapping_add(x);
    state[d] = (state[d] ^ state[a]).rotate_right(16);
    state[c] = state[c].wrapping_add(state[d]);
    state[b] = (state[b] ^ state[c]).rotate_right(12);
    state[a] = state[a].wrapping_add(state[b]).wrapping_add(y);
    state[d] = (state[d] ^ state[a]).rotate_right(8);
    state[c] = state[c].wrapping_add(state[d]);
    state[b] = (state[b] ^ state[c]).rotate_right(7);
}

#[cfg(test)]
mod tests {
    use super::{hash, DeriveKey, OUTPUT_LENGTH};

    /// The context of the official test vectors.
    const CONTEXT: &str = "BLAKE3 2019-12-27 16:29:52 test vectors context";

    fn derived(material: &[u8]) -> String {
        let mut out = [0; OUTPUT_LENGTH];
        DeriveKey::new(CONTEXT).derive(material, &mut out);
        out.iter().map(|byte| format!("{byte:02x}")).collect()
    }

    /// The official test vectors' input.
    fn hashed(length: usize) -> String {
        let input: Vec<u8> = (0..length).map(|i| (i % 251) as u8).collect();
        hash(&input)
            .iter()
            .map(|byte| format!("{byte:02x}"))
            .collect()
    }

    #[test]
    fn official_hashes() {
        let vectors = [
            (
                0,
                "af1349b9f5f9a1a6a0404dea36dcc9499bcb25c9adc112b7cc9a93cae41f3262",
            ),
            (
                1_025,
                "d00278ae47eb27b34faecf67b4fe263f82d5412916c1ffd97c8cb7fb814b8444",
            ),
            (
                3_073,
                "7124b49501012f81cc7f11ca069ec9226cecb8a2c850cfe644e327d22d3e1cd3",
            ),
        ];
        for (length, hash) in vectors {
            assert_eq!(hashed(length), hash, "{length} bytes");
        }
    }

    #[test]
    fn official_vector_of_length_0() {
        assert_eq!(
            derived(&[]),
            "2cc39783c223154fea8dfb7c1b1660f2ac2dcbd1c1de8277b0b0dd39b7e50d7d"
        );
    }

    #[test]
    fn official_vector_of_length_1() {
        assert_eq!(
            derived(&[0]),
            "b3e2e340a117a499c6cf2398a19ee0d29cca2bb7404c73063382693bf66cb06c"
        );
    }

    #[test]
    fn a_shorter_key_is_the_front_of_a_longer() {
        let mut out = [0; 16];
        DeriveKey::new(CONTEXT).derive(&[0], &mut out);
        let hex: String = out.iter().map(|byte| format!("{byte:02x}")).collect();
        assert_eq!(hex, derived(&[0])[..32]);
    }
}
