//! Poly1305 (RFC 8439, section 2.5) in plain Rust, in limbs of 44, 44 and 42 bits.

use std::array;

pub const TAG: usize = 16;

const LIMB: u32 = 44;
const MASK: u64 = (1 << LIMB) - 1;
const TOP_MASK: u64 = (1 << 42) - 1;

/// A number below 2^130, or a little above, with the lowest limb first.
type Limbs = [u64; 3];

/// The authenticator of a text under a one-time key.
pub struct Poly1305 {
    r: Limbs,
    s: u128,
    sum: Limbs,
}

impl Poly1305 {
    pub fn new(key: &[u8; 32]) -> Self {
        let [r, s] = [0, 16].map(|place| number(&key[place..place + 16]));
        let clamped = r & 0x0fff_fffc_0fff_fffc_0fff_fffc_0fff_ffff;
        Self {
            r: limbs(clamped, 0),
            s,
            sum: [0; 3],
        }
    }

    /// The next bytes of the text: whole blocks, but for its last.
    pub fn update(&mut self, text: &[u8]) {
        let mut blocks = text.chunks_exact(16);
        for block in &mut blocks {
            self.block(number(block), 1);
        }
        let rest = blocks.remainder();
        if !rest.is_empty() {
            let mut block = [0; 16];
            block[..rest.len()].copy_from_slice(rest);
            block[rest.len()] = 1;
            self.block(number(&block), 0);
        }
    }

    /// Adds a block, of which `top` is bit 128, and multiplies by r.
    fn block(&mut self, block: u128, top: u64) {
        let block = limbs(block, top);
        let h: Limbs = array::from_fn(|i| self.sum[i] + block[i]);
        let r = self.r;
        // A limb above the highest comes back as 5 of 2^130, which is 20 of 2^132.
        let [r_1, r_2] = [20 * r[1], 20 * r[2]];
        let mut product = [
            wide(h[0], r[0]) + wide(h[1], r_2) + wide(h[2], r_1),
            wide(h[0], r[1]) + wide(h[1], r[0]) + wide(h[2], r_2),
            wide(h[0], r[2]) + wide(h[1], r[1]) + wide(h[2], r[0]),
        ];
        product[1] += product[0] >> LIMB;
        product[2] += product[1] >> LIMB;
        let low = (product[0] as u64 & MASK) + 5 * (product[2] >> 42) as u64;
        self.sum = [
            low & MASK,
            (product[1] as u64 & MASK) + (low >> LIMB),
            product[2] as u64 & TOP_MASK,
        ];
    }

    pub fn tag(self) -> [u8; TAG] {
        let [low, middle, top] = carried(carried(self.sum));
        let number = u128::from(low) + (u128::from(middle) << LIMB) + (u128::from(top) << 88);
        // The sum is the prime or more where 5 more reach bit 130.
        let carry = (low + 5) >> LIMB;
        let carry = (middle + carry) >> LIMB;
        let reduced = if (top + carry) >> 42 == 0 {
            number
        } else {
            number.wrapping_add(5)
        };
        reduced.wrapping_add(self.s).to_le_bytes()
    }
}

/// The same modulo 2^130 - 5, with each limb carried into the next once.
fn carried([low, middle, top]: Limbs) -> Limbs {
    let middle = middle + (low >> LIMB);
    let top = top + (middle >> LIMB);
    [
        (low & MASK) + 5 * (top >> 42),
        middle & MASK,
        top & TOP_MASK,
    ]
}

fn wide(a: u64, b: u64) -> u128 {
    u128::from(a) * u128::from(b)
}

fn number(block: &[u8]) -> u128 {
    u128::from_le_bytes(block.try_into().expect("a block has 16 bytes"))
}

fn limbs(number: u128, top: u64) -> Limbs {
    [
        number as u64 & MASK,
        (number >> LIMB) as u64 & MASK,
        (number >> (2 * LIMB)) as u64 | top << 40,
    ]
}

#[cfg(test)]
mod tests {
    use super::Poly1305;

    fn tag(key: [u8; 32], text: &[u8]) -> String {
        let mut mac = Poly1305::new(&key);
        mac.update(text);
        let tag = mac.tag();
        tag.iter().map(|byte| format!("{byte:02x}")).collect()
    }

    /// r as its first bytes, s as one byte 16 times.
    fn key(r: &[u8], s: u8) -> [u8; 32] {
        let mut key = [s; 32];
        key[..16].fill(0);
        key[..r.len()].copy_from_slice(r);
        key
    }

    /// RFC 8439, section 2.5.2.
    #[test]
    fn the_published_example() {
        let key = 0x85d6_be78_5755_6d33_7f44_52fe_42d5_06a8_u128.to_be_bytes();
        let s = 0x0103_808a_fb0d_b2fd_4abf_f6af_4149_f51b_u128.to_be_bytes();
        let key = [key, s].concat().try_into().expect("32 bytes");
        assert_eq!(
            tag(key, b"Cryptographic Forum Research Group"),
            "a8061dc1305136c6c22b8baf0c0127a9"
        );
    }

    /// RFC 8439, appendix A.3, numbers 7 to 11: sums around the prime and 2^128.
    #[test]
    fn sums_at_the_edges() {
        let three = "03000000000000000000000000000000";
        let mut two = [0; 16];
        two[0] = 2;
        assert_eq!(tag(key(&[2], 0), &[0xff; 16]), three);
        assert_eq!(tag(key(&[2], 0xff), &two), three);
        let mut text = [0xff; 16];
        text[0] = 0xfd;
        let expected = "faffffffffffffffffffffffffffffff";
        assert_eq!(tag(key(&[2], 0), &text), expected);
        let r = [1, 0, 0, 0, 0, 0, 0, 0, 4];
        let mut text = [0; 64];
        text[..8].copy_from_slice(&0xe335_94d7_505e_43b9_u64.to_be_bytes());
        text[16..24].copy_from_slice(&0x3394_d750_5e43_79cd_u64.to_be_bytes());
        text[24] = 1;
        text[48] = 1;
        let expected = "14000000000000005500000000000000";
        assert_eq!(tag(key(&r, 0), &text), expected);
        let expected = "13000000000000000000000000000000";
        assert_eq!(tag(key(&r, 0), &text[..48]), expected);
    }

    #[test]
    fn a_text_may_come_in_parts() {
        let mut mac = Poly1305::new(&[7; 32]);
        mac.update(&[9; 32]);
        mac.update(&[9; 5]);
        let mut whole = Poly1305::new(&[7; 32]);
        whole.update(&[9; 37]);
        assert_eq!(mac.tag(), whole.tag());
    }
}
