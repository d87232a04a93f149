//! ChaCha of any number of rounds, its key stream, and the AEAD with Poly1305 in both
//! forms, in plain Rust (RFC 8439; the form with the long nonce is
//! draft-irtf-cfrg-xchacha). There is no additional data.

use super::poly1305::{Poly1305, TAG};

pub const KEY: usize = 32;
pub const NONCE: usize = 12;
pub const LONG_NONCE: usize = 24;

const BLOCK: usize = 64;

/// "expand 32-byte k".
const CONSTANTS: [u32; 4] = [0x6170_7865, 0x3320_646e, 0x7962_2d32, 0x6b20_6574];

type State = [u32; 16];

/// ChaCha with a number of rounds, which is even.
#[derive(Clone, Copy)]
pub struct ChaCha {
    pub rounds: usize,
}

impl ChaCha {
    /// The state behind the rounds.
    fn mixed(self, mut state: State) -> State {
        for _ in 0..self.rounds / 2 {
            for column in 0..4 {
                quarter_round(&mut state, [column, 4 + column, 8 + column, 12 + column]);
            }
            for i in 0..4 {
                let diagonal = [i, 4 + (i + 1) % 4, 8 + (i + 2) % 4, 12 + (i + 3) % 4];
                quarter_round(&mut state, diagonal);
            }
        }
        state
    }

    fn block(self, state: State) -> [u8; BLOCK] {
        let mixed = self.mixed(state);
        let mut block = [0; BLOCK];
        for ((bytes, mixed), first) in block.chunks_exact_mut(4).zip(mixed).zip(state) {
            bytes.copy_from_slice(&mixed.wrapping_add(first).to_le_bytes());
        }
        block
    }

    /// Adds the key stream from a block on to `data`.
    pub fn apply(self, key: &[u8; KEY], nonce: &[u8; NONCE], counter: u32, data: &mut [u8]) {
        let mut state = state(key, counter, nonce);
        for part in data.chunks_mut(BLOCK) {
            let block = self.block(state);
            for (byte, stream) in part.iter_mut().zip(block) {
                *byte ^= stream;
            }
            state[12] = state[12].wrapping_add(1);
        }
    }

    /// The key and the nonce of the shorter form that a long nonce stands for.
    pub fn extend(self, key: &[u8; KEY], nonce: &[u8; LONG_NONCE]) -> ([u8; KEY], [u8; NONCE]) {
        let (front, rest) = nonce.split_at(16);
        let counter = u32::from_le_bytes(front[..4].try_into().expect("four bytes"));
        let front = front[4..].try_into().expect("the rest of 16 bytes");
        let mixed = self.mixed(state(key, counter, front));
        let mut subkey = [0; KEY];
        let words = mixed[..4].iter().chain(&mixed[12..]);
        for (bytes, word) in subkey.chunks_exact_mut(4).zip(words) {
            bytes.copy_from_slice(&word.to_le_bytes());
        }
        let mut inner = [0; NONCE];
        inner[4..].copy_from_slice(rest);
        (subkey, inner)
    }

    /// The tag of a sealed text.
    fn tag(self, key: &[u8; KEY], nonce: &[u8; NONCE], sealed: &[u8]) -> [u8; TAG] {
        let block = self.block(state(key, 0, nonce));
        let mut mac = Poly1305::new(block.first_chunk().expect("a block has 64 bytes"));
        let (blocks, rest) = sealed.split_at(sealed.len() / 16 * 16);
        mac.update(blocks);
        if !rest.is_empty() {
            let mut last = [0; 16];
            last[..rest.len()].copy_from_slice(rest);
            mac.update(&last);
        }
        // No additional data, and so many bytes.
        mac.update(&((sealed.len() as u128) << 64).to_le_bytes());
        mac.tag()
    }

    /// Seals the text at the front of `body` where it stands; the last 16 bytes are room
    /// for the tag.
    pub fn seal_in_place(self, key: &[u8; KEY], nonce: &[u8; NONCE], body: &mut [u8]) {
        let (text, tag) = body.split_last_chunk_mut().expect("body has a tag");
        self.apply(key, nonce, 1, text);
        *tag = self.tag(key, nonce, text);
    }

    /// Opens `sealed` to `out` where the tag is right, and answers whether it is.
    pub fn open(self, key: &[u8; KEY], nonce: &[u8; NONCE], sealed: &[u8], out: &mut [u8]) -> bool {
        let (text, tag) = sealed.split_last_chunk::<TAG>().expect("sealed has a tag");
        let due = self.tag(key, nonce, text);
        let difference = tag.iter().zip(due).fold(0, |sum, (a, b)| sum | (a ^ b));
        if difference != 0 {
            return false;
        }
        out.copy_from_slice(text);
        self.apply(key, nonce, 1, out);
        true
    }
}

fn state(key: &[u8; KEY], counter: u32, nonce: &[u8; NONCE]) -> State {
    let mut state = [0; 16];
    state[..4].copy_from_slice(&CONSTANTS);
    state[12] = counter;
    for (words, bytes) in [(4..12, &key[..]), (13..16, nonce)] {
        for (word, bytes) in state[words].iter_mut().zip(bytes.chunks_exact(4)) {
            *word = u32::from_le_bytes(bytes.try_into().expect("four bytes"));
        }
    }
    state
}

fn quarter_round(state: &mut State, [a, b, c, d]: [usize; 4]) {
    for (first, second) in [(16, 12), (8, 7)] {
        state[a] = state[a].wrapping_add(state[b]);
        state[d] = (state[d] ^ state[a]).rotate_left(first);
        state[c] = state[c].wrapping_add(state[d]);
        state[b] = (state[b] ^ state[c]).rotate_left(second);
    }
}

#[cfg(test)]
mod tests {
    use super::{ChaCha, KEY, NONCE};

    fn hex(bytes: &[u8]) -> String {
        bytes.iter().map(|byte| format!("{byte:02x}")).collect()
    }

    fn count<const N: usize>() -> [u8; N] {
        std::array::from_fn(|i| i as u8)
    }

    /// RFC 8439, section 2.4.2, its first and last bytes.
    #[test]
    fn the_published_example() {
        let mut text = *b"Ladies and Gentlemen of the class of '99: If I could offer you \
only one tip for the future, sunscreen would be it.";
        let nonce = [0, 0, 0, 0, 0, 0, 0, 0x4a, 0, 0, 0, 0];
        ChaCha { rounds: 20 }.apply(&count(), &nonce, 1, &mut text);
        assert_eq!(hex(&text[..16]), "6e2e359a2568f98041ba0728dd0d6981");
        assert_eq!(hex(&text[text.len() - 10..]), "b40b8eedf2785e42874d");
    }

    /// draft-strombergson-chacha-test-vectors, test case 1: all is zero.
    #[test]
    fn fewer_rounds() {
        for (rounds, expected) in [
            (8, "3e00ef2f895f40d67f5bb8e81f09a5a1"),
            (12, "9bf49a6a0755f953811fce125f2683d5"),
            (20, "76b8e0ada0f13d90405d6ae55386bd28"),
        ] {
            let mut zeros = [0; 16];
            ChaCha { rounds }.apply(&[0; KEY], &[0; NONCE], 0, &mut zeros);
            assert_eq!(hex(&zeros), expected, "{rounds} rounds");
        }
    }

    /// draft-irtf-cfrg-xchacha-03, section 2.2.1.
    #[test]
    fn a_long_nonce() {
        let mut nonce = count();
        nonce[..16].copy_from_slice(&0x0000_0009_0000_004a_0000_0000_3141_5927_u128.to_be_bytes());
        let (subkey, inner) = ChaCha { rounds: 20 }.extend(&count(), &nonce);
        assert_eq!(
            hex(&subkey),
            "82413b4227b27bfed30e42508a877d73a0f9e4d58a74a853c12ec41326d3ecdc"
        );
        assert_eq!(inner, [0, 0, 0, 0, 16, 17, 18, 19, 20, 21, 22, 23]);
    }

    #[test]
    fn what_is_sealed_opens() {
        for rounds in [8, 12, 20] {
            let cipher = ChaCha { rounds };
            for length in [0, 1, 15, 16, 17, 63, 64, 65, 300] {
                let (key, nonce) = (count(), count());
                let text: Vec<u8> = (0..length).map(|i| i as u8).collect();
                let mut body = [&text[..], &[0; 16]].concat();
                cipher.seal_in_place(&key, &nonce, &mut body);
                let mut out = vec![0; length];
                assert!(cipher.open(&key, &nonce, &body, &mut out));
                assert_eq!(out, text);
                body[length / 2] ^= 1;
                assert!(!cipher.open(&key, &nonce, &body, &mut out));
            }
        }
    }
}
