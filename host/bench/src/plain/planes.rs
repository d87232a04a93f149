//! AES in counter mode on planes of bits, 32 blocks at once: the shape of ours for long
//! texts, with the vectors written out that the compiler is to find in ours. Their ratio
//! shows whether it still does.
//!
//! Digit k of a word is block k's. Bit i of row r and column c of the state stands at
//! 32 r + 4 i + c, of the key's word n at 480 r + 60 i + n.

use std::arch::x86_64::{__m128i, _mm_and_si128, _mm_set1_epi32, _mm_xor_si128};
use std::array;
use std::mem;
use std::ops::{BitAnd, BitXor, Not};

const BATCH: usize = 512;

type Words = [u32; 128];
type Masks = [u32; 1_920];

/// The planes of a byte of each column, the highest bit first.
type Bits = [Lane; 8];

/// The rows of a state.
type State = [Bits; 4];

/// A plane of all four columns.
#[derive(Clone, Copy)]
struct Lane(__m128i);

impl Lane {
    /// The four words from a place on.
    fn of(words: &[u32], at: usize) -> Self {
        let words: [u32; 4] = *words[at..].first_chunk().expect("there are four");
        // SAFETY: both are 128 bits, and all of them are good.
        Self(unsafe { mem::transmute::<[u32; 4], __m128i>(words) })
    }

    fn words(self) -> [u32; 4] {
        // SAFETY: both are 128 bits, and all of them are good.
        unsafe { mem::transmute::<__m128i, [u32; 4]>(self.0) }
    }

    /// Column c is what column c + n was.
    fn turned(self, n: usize) -> Self {
        let words = self.words();
        Self::of(&array::from_fn::<u32, 4, _>(|c| words[(c + n) % 4]), 0)
    }
}

// SAFETY of the three: every x86-64 processor has SSE2.
impl BitXor for Lane {
    type Output = Self;

    fn bitxor(self, other: Self) -> Self {
        #[allow(unused_unsafe, reason = "safe in later versions")]
        Self(unsafe { _mm_xor_si128(self.0, other.0) })
    }
}

impl BitAnd for Lane {
    type Output = Self;

    fn bitand(self, other: Self) -> Self {
        #[allow(unused_unsafe, reason = "safe in later versions")]
        Self(unsafe { _mm_and_si128(self.0, other.0) })
    }
}

impl Not for Lane {
    type Output = Self;

    fn not(self) -> Self {
        #[allow(unused_unsafe, reason = "safe in later versions")]
        let ones = Self(unsafe { _mm_set1_epi32(-1) });
        self ^ ones
    }
}

pub struct AesPlanes {
    sbox: [u8; 256],
}

impl AesPlanes {
    pub fn new() -> Self {
        Self {
            sbox: array::from_fn(|byte| {
                let bits = array::from_fn(|i| Lane::of(&[(byte as u32 >> (7 - i)) & 1; 4], 0));
                let bits = sbox(bits).map(|lane| lane.words()[0] & 1);
                bits.iter().fold(0, |byte, &bit| byte << 1 | bit as u8)
            }),
        }
    }

    /// Encrypts `data` in place from `counter` on, a 32-bit counter that wraps.
    pub fn apply(&self, key: &[u8], nonce: &[u8; 12], counter: u32, data: &mut [u8]) {
        let (words, rounds) = self.expanded(key);
        let mut masks = [0; 1_920];
        for (place, mask) in masks.iter_mut().enumerate() {
            *mask = 0u32.wrapping_sub((words[place % 60] >> (place / 60)) & 1);
        }
        let nonce: [u32; 3] = array::from_fn(|i| {
            let word = nonce[4 * i..]
                .first_chunk()
                .expect("a nonce has three words");
            u32::from_le_bytes(*word)
        });
        for (batch, part) in data.chunks_mut(BATCH).enumerate() {
            let first = counter.wrapping_add(32 * batch as u32);
            let stream = key_stream(&masks, rounds, nonce, first);
            for (byte, mask) in part.iter_mut().zip(stream) {
                *byte ^= mask;
            }
        }
    }

    /// The key expansion of FIPS 197, and the number of rounds.
    fn expanded(&self, key: &[u8]) -> ([u32; 60], usize) {
        let length = key.len() / 4;
        let rounds = length + 6;
        let mut words = [0u32; 60];
        for (word, bytes) in words.iter_mut().zip(key.chunks(4)) {
            *word = u32::from_le_bytes(bytes.try_into().expect("a key has whole words"));
        }
        let substituted = |word: u32| {
            u32::from_le_bytes(word.to_le_bytes().map(|byte| self.sbox[usize::from(byte)]))
        };
        let mut constant = 1u32;
        for i in length..4 * (rounds + 1) {
            let mut word = words[i - 1];
            if i % length == 0 {
                word = substituted(word.rotate_right(8)) ^ constant;
                constant = (constant << 1) ^ ((constant >> 7) * 0x11b);
            } else if length > 6 && i % length == 4 {
                word = substituted(word);
            }
            words[i] = words[i - length] ^ word;
        }
        (words, rounds)
    }
}

fn key_stream(k: &Masks, rounds: usize, nonce: [u32; 3], counter: u32) -> [u8; BATCH] {
    let mut words = [0; 128];
    for (i, block) in (0..).zip(words.chunks_exact_mut(4)) {
        block[..3].copy_from_slice(&nonce);
        block[3] = counter.wrapping_add(i).swap_bytes();
    }
    turn(&mut words);
    let mut s: State = array::from_fn(|r| {
        array::from_fn(|i| Lane::of(&words, 32 * r + 4 * (7 - i)) ^ key_lane(k, 0, r, i))
    });
    for round in 1..=rounds {
        s = step(s, k, 4 * round, round < rounds);
    }
    for (place, word) in words.iter_mut().enumerate() {
        *word = s[place / 32][7 - place / 4 % 8].words()[place % 4];
    }
    turn(&mut words);
    let mut stream = [0; BATCH];
    for (bytes, word) in stream.chunks_exact_mut(4).zip(words) {
        bytes.copy_from_slice(&word.to_le_bytes());
    }
    stream
}

/// Words to planes, and back: four matrices of 32 by 32 bits, turned.
fn turn(words: &mut Words) {
    let stages = [
        (16, 0xffff),
        (8, 0xff_00ff),
        (4, 0xf0f_0f0f),
        (2, 0x3333_3333),
        (1, 0x5555_5555),
    ];
    for (d, mask) in stages {
        for rows in words.chunks_exact_mut(8 * d) {
            let (low, high) = rows.split_at_mut(4 * d);
            for (a, b) in low.iter_mut().zip(high) {
                let moved = ((*a >> d) ^ *b) & mask;
                *b ^= moved;
                *a ^= moved << d;
            }
        }
    }
}

/// Bit i, counted from the highest, of row r of the round key from word `n` on.
fn key_lane(k: &Masks, n: usize, r: usize, i: usize) -> Lane {
    Lane::of(k, 480 * r + 60 * (7 - i) + n)
}

/// A round, whose key stands from word `n` on; the last is not mixed.
fn step(s: State, k: &Masks, n: usize, mixed: bool) -> State {
    let shifted = |r: usize| sbox(s[r]).map(|lane| lane.turned(r));
    let t = [shifted(0), shifted(1), shifted(2), shifted(3)];
    array::from_fn(|r| {
        let new = if mixed { mixed_row(&t, r) } else { t[r] };
        array::from_fn(|i| new[i] ^ key_lane(k, n, r, i))
    })
}

/// MixColumns for one row: twice the sum of two rows, and the sum of the other three.
fn mixed_row(t: &State, r: usize) -> Bits {
    let [a, b, c, e] = array::from_fn(|row| &t[(r + row) % 4]);
    let sum: Bits = array::from_fn(|i| a[i] ^ b[i]);
    array::from_fn(|i| {
        let doubled = match i {
            7 => sum[0],
            3 | 4 | 6 => sum[i + 1] ^ sum[0],
            _ => sum[i + 1],
        };
        doubled ^ b[i] ^ c[i] ^ e[i]
    })
}

/// The S-box as a circuit of 113 gates (J. Boyar and R. Peralta, 2012).
fn sbox(x: Bits) -> Bits {
    let y = top(x);
    let t = inverse(middle(x[7], y));
    bottom(products(x[7], y, t))
}

fn top([x0, x1, x2, x3, x4, x5, x6, x7]: Bits) -> [Lane; 21] {
    let (y14, y13, y9, y8) = (x3 ^ x5, x0 ^ x6, x0 ^ x3, x0 ^ x5);
    let t0 = x1 ^ x2;
    let y1 = t0 ^ x7;
    let (y4, y12, y2, y5) = (y1 ^ x3, y13 ^ y14, y1 ^ x0, y1 ^ x6);
    let y3 = y5 ^ y8;
    let t1 = x4 ^ y12;
    let (y15, y20) = (t1 ^ x5, t1 ^ x1);
    let (y6, y10, y11) = (y15 ^ x7, y15 ^ t0, y20 ^ y9);
    let (y7, y17, y19, y16) = (x7 ^ y11, y10 ^ y11, y10 ^ y8, t0 ^ y11);
    let (y21, y18) = (y13 ^ y16, x0 ^ y16);
    [
        y1, y2, y3, y4, y5, y6, y7, y8, y9, y10, y11, y12, y13, y14, y15, y16, y17, y18, y19, y20,
        y21,
    ]
}

fn middle(x7: Lane, y: [Lane; 21]) -> [Lane; 4] {
    let [y1, y2, y3, y4, y5, y6, y7, y8, y9, y10, y11, y12, y13, y14, y15, y16, y17, rest @ ..] = y;
    let [y18, y19, y20, y21] = rest;
    let t2 = y12 & y15;
    let (t4, t6) = ((y3 & y6) ^ t2, (y4 & x7) ^ t2);
    let t7 = y13 & y16;
    let (t9, t11) = ((y5 & y1) ^ t7, (y2 & y7) ^ t7);
    let t12 = y9 & y11;
    let (t14, t16) = ((y14 & y17) ^ t12, (y8 & y10) ^ t12);
    [
        t4 ^ t14 ^ y20,
        t6 ^ t16 ^ y19,
        t9 ^ t14 ^ y21,
        t11 ^ t16 ^ y18,
    ]
}

fn inverse([t21, t22, t23, t24]: [Lane; 4]) -> [Lane; 9] {
    let (t25, t26) = (t21 ^ t22, t21 & t23);
    let t27 = t24 ^ t26;
    let t29 = (t25 & t27) ^ t22;
    let t33 = ((t22 ^ t26) & (t23 ^ t24)) ^ t24;
    let t36 = t24 & (t27 ^ t33);
    let t37 = t36 ^ t23 ^ t33;
    let t40 = t25 ^ (t29 & (t27 ^ t36));
    let (t41, t42, t43, t44) = (t40 ^ t37, t29 ^ t33, t29 ^ t40, t33 ^ t37);
    [t29, t33, t37, t40, t41, t42, t43, t44, t42 ^ t41]
}

fn products(x7: Lane, y: [Lane; 21], t: [Lane; 9]) -> [Lane; 18] {
    let [y1, y2, y3, y4, y5, y6, y7, y8, y9, y10, y11, y12, y13, y14, y15, y16, y17, ..] = y;
    let [t29, t33, t37, t40, t41, t42, t43, t44, t45] = t;
    [
        t44 & y15,
        t37 & y6,
        t33 & x7,
        t43 & y16,
        t40 & y1,
        t29 & y7,
        t42 & y11,
        t45 & y17,
        t41 & y10,
        t44 & y12,
        t37 & y3,
        t33 & y4,
        t43 & y13,
        t40 & y5,
        t29 & y2,
        t42 & y9,
        t45 & y14,
        t41 & y8,
    ]
}

fn bottom(z: [Lane; 18]) -> Bits {
    let (t46, t47, t48, t49) = (z[15] ^ z[16], z[10] ^ z[11], z[5] ^ z[13], z[9] ^ z[10]);
    let (t50, t51, t52, t53) = (z[2] ^ z[12], z[2] ^ z[5], z[7] ^ z[8], z[0] ^ z[3]);
    let (t54, t55, t56) = (z[6] ^ z[7], z[16] ^ z[17], z[12] ^ t48);
    let (t57, t58, t59) = (t50 ^ t53, z[4] ^ t46, z[3] ^ t54);
    let (t60, t61, t62, t63) = (t46 ^ t57, z[14] ^ t57, t52 ^ t58, t49 ^ t58);
    let (t64, t65, t66) = (z[4] ^ t59, t61 ^ t62, z[1] ^ t63);
    let s3 = t53 ^ t66;
    [
        t59 ^ t63,
        !(t64 ^ s3),
        !(t55 ^ t64 ^ t65),
        s3,
        t51 ^ t66,
        t47 ^ t65,
        !(t56 ^ t62),
        !(t48 ^ t60),
    ]
}

#[cfg(test)]
mod tests {
    use super::AesPlanes;
    use crate::ciphers::Counter;
    use crate::openssl::AesCtr;

    #[test]
    fn the_key_stream_is_that_of_a_library() {
        let (key, nonce) = (*b"thirty-two bytes to serve as key", *b"twelve bytes");
        for length in [16, 24, 32] {
            let (mut ours, mut theirs) = ([0; 1_400], [0; 1_400]);
            AesPlanes::new().apply(&key[..length], &nonce, u32::MAX - 40, &mut ours);
            AesCtr::new(length).apply(&key[..length], &nonce, u32::MAX - 40, &mut theirs);
            assert_eq!(ours, theirs);
        }
    }
}
