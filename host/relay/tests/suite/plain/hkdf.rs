//! HKDF (RFC 5869) over HMAC (RFC 2104) with SHA-1 (FIPS 180-4).

const BLOCK: usize = 64;

/// So many bytes of output keying material.
pub fn derive(salt: &[u8], key: &[u8], info: &[u8], length: usize) -> Vec<u8> {
    let pseudorandom_key = hmac(salt, key);
    let (mut output, mut last) = (Vec::new(), Vec::new());
    for counter in 1..=length.div_ceil(20) {
        let counter = u8::try_from(counter).expect("255 blocks at most");
        last = hmac(&pseudorandom_key, &[&last[..], info, &[counter]].concat()).to_vec();
        output.extend(&last);
    }
    output.truncate(length);
    output
}

fn hmac(key: &[u8], text: &[u8]) -> [u8; 20] {
    let mut block = [0; BLOCK];
    if key.len() > BLOCK {
        block[..20].copy_from_slice(&sha1(key));
    } else {
        block[..key.len()].copy_from_slice(key);
    }
    let inner = sha1(&[&block.map(|byte| byte ^ 0x36)[..], text].concat());
    sha1(&[&block.map(|byte| byte ^ 0x5c)[..], &inner].concat())
}

fn sha1(text: &[u8]) -> [u8; 20] {
    let mut padded = text.to_vec();
    padded.push(0x80);
    padded.resize(padded.len().next_multiple_of(8), 0);
    while padded.len() % BLOCK != BLOCK - 8 {
        padded.push(0);
    }
    padded.extend((8 * text.len() as u64).to_be_bytes());
    let mut hash = [
        0x6745_2301_u32,
        0xefcd_ab89,
        0x98ba_dcfe,
        0x1032_5476,
        0xc3d2_e1f0,
    ];
    for block in padded.chunks(BLOCK) {
        let state = rounds(hash, block);
        hash = std::array::from_fn(|i| hash[i].wrapping_add(state[i]));
    }
    let mut bytes = [0; 20];
    for (word, place) in hash.iter().zip(bytes.chunks_mut(4)) {
        place.copy_from_slice(&word.to_be_bytes());
    }
    bytes
}

/// The state behind the 80 rounds of a block.
fn rounds(hash: [u32; 5], block: &[u8]) -> [u32; 5] {
    let mut schedule = Vec::with_capacity(80);
    for word in block.chunks(4) {
        schedule.push(u32::from_be_bytes(word.try_into().expect("four bytes")));
    }
    for t in 16..80 {
        let word: u32 = [3, 8, 14, 16].iter().fold(0, |w, k| w ^ schedule[t - k]);
        schedule.push(word.rotate_left(1));
    }
    let [mut a, mut b, mut c, mut d, mut e] = hash;
    for (t, word) in schedule.into_iter().enumerate() {
        let (function, constant) = match t / 20 {
            0 => (b & c ^ !b & d, 0x5a82_7999),
            1 => (b ^ c ^ d, 0x6ed9_eba1),
            2 => (b & c ^ b & d ^ c & d, 0x8f1b_bcdc),
            _ => (b ^ c ^ d, 0xca62_c1d6_u32),
        };
        let terms = [function, e, constant, word];
        let sum = terms
            .iter()
            .fold(a.rotate_left(5), |s, &x| s.wrapping_add(x));
        (e, d, c, b, a) = (d, c, b.rotate_left(30), a, sum);
    }
    [a, b, c, d, e]
}

fn hex(bytes: &[u8]) -> String {
    bytes.iter().map(|byte| format!("{byte:02x}")).collect()
}

/// FIPS 180-2, appendix A: one block, and two.
#[test]
fn published_hashes() {
    assert_eq!(
        hex(&sha1(b"abc")),
        "a9993e364706816aba3e25717850c26c9cd0d89d"
    );
    let two = b"abcdbcdecdefdefgefghfghighijhijkijkljklmklmnlmnomnopnopq";
    assert_eq!(hex(&sha1(two)), "84983e441c3bd26ebaae4aa1f95129e5e54670f1");
}

/// RFC 5869, appendices A.4 and A.5.
#[test]
fn published_keys() {
    let count = |first: u8, last: u8| (first..=last).collect::<Vec<u8>>();
    let short = derive(&count(0, 0x0c), &[0x0b; 11], &count(0xf0, 0xf9), 42);
    assert_eq!(
        hex(&short),
        "085a01ea1b10f36933068b56efa5ad81a4f14b822f5b091568a9cdd4f155fda2c22e422478d305f3f896"
    );
    let (key, salt, info) = (count(0, 0x4f), count(0x60, 0xaf), count(0xb0, 0xff));
    let long = derive(&salt, &key, &info, 82);
    assert_eq!(
        hex(&long),
        "0bd770a74d1160f7c9f12cd5912a06ebff6adcae899d92191fe4305673ba2ffe8fa3f1a4e5ad79f3f334b3b202b2173c\
         486ea37ce3d397ed034c7f9dfeb15c5e927336d0441f4c4300e2cff0d0900b52d3b4"
    );
}
