//! AES (FIPS 197), encryption only.

use std::sync::OnceLock;

pub struct Aes {
    /// The words of the key schedule.
    words: Vec<[u8; 4]>,
    s_box: &'static [u8; 256],
}

impl Aes {
    pub fn new(key: &[u8]) -> Self {
        static S_BOX: OnceLock<[u8; 256]> = OnceLock::new();
        let s_box = S_BOX.get_or_init(|| std::array::from_fn(|byte| substitute(byte as u8)));
        let nk = key.len() / 4;
        let mut words: Vec<[u8; 4]> = key.chunks(4).map(|w| [w[0], w[1], w[2], w[3]]).collect();
        let mut constant = 1;
        for i in nk..4 * (nk + 7) {
            let mut word = words[i - 1];
            if i % nk == 0 {
                word.rotate_left(1);
                word = word.map(|byte| s_box[usize::from(byte)]);
                word[0] ^= constant;
                constant = product(constant, 2);
            } else if nk > 6 && i % nk == 4 {
                word = word.map(|byte| s_box[usize::from(byte)]);
            }
            let before = words[i - nk];
            words.push(std::array::from_fn(|j| word[j] ^ before[j]));
        }
        Self { words, s_box }
    }

    pub fn encrypt(&self, block: [u8; 16]) -> [u8; 16] {
        let rounds = self.words.len() / 4 - 1;
        let mut state = self.add_round_key(block, 0);
        for round in 1..=rounds {
            let substituted = state.map(|byte| self.s_box[usize::from(byte)]);
            // ShiftRows: byte i is that of row i % 4, column i / 4.
            state = std::array::from_fn(|i| substituted[(i + 4 * (i % 4)) % 16]);
            if round < rounds {
                state = mix_columns(state);
            }
            state = self.add_round_key(state, round);
        }
        state
    }

    fn add_round_key(&self, state: [u8; 16], round: usize) -> [u8; 16] {
        std::array::from_fn(|i| state[i] ^ self.words[4 * round + i / 4][i % 4])
    }
}

fn mix_columns(state: [u8; 16]) -> [u8; 16] {
    std::array::from_fn(|i| {
        let row = |r: usize| state[i / 4 * 4 + (i + r) % 4];
        product(row(0), 2) ^ product(row(1), 3) ^ row(2) ^ row(3)
    })
}

/// The product in GF(2^8).
fn product(mut a: u8, mut b: u8) -> u8 {
    let mut sum = 0;
    while b != 0 {
        if b & 1 == 1 {
            sum ^= a;
        }
        a = a << 1 ^ if a >> 7 == 1 { 0x1b } else { 0 };
        b >>= 1;
    }
    sum
}

/// SubBytes: the inverse, found by trying, and the affine map.
fn substitute(byte: u8) -> u8 {
    let inverse = (0..=255).find(|&b| product(byte, b) == 1).unwrap_or(0);
    let turned = |bits| inverse.rotate_left(bits);
    inverse ^ turned(1) ^ turned(2) ^ turned(3) ^ turned(4) ^ 0x63
}

/// FIPS 197, appendix C.
#[test]
fn published_examples() {
    let text = std::array::from_fn(|i| 0x11 * i as u8);
    let key: Vec<u8> = (0..32).collect();
    let hex = |block: [u8; 16]| format!("{:032x}", u128::from_be_bytes(block));
    let short = Aes::new(&key[..16]).encrypt(text);
    assert_eq!(hex(short), "69c4e0d86a7b0430d8cdb78070b4c55a");
    let middle = Aes::new(&key[..24]).encrypt(text);
    assert_eq!(hex(middle), "dda97ca4864cdfe06eaf70a0ec0d7191");
    let long = Aes::new(&key).encrypt(text);
    assert_eq!(hex(long), "8ea2b7ca516745bfeafc49904b496089");
}
