//! AES-GCM (SP 800-38D) with a 12-byte nonce and no associated data, sealing only.

use super::aes::Aes;

/// The text, encrypted, and its tag.
pub fn seal(key: &[u8], nonce: [u8; 12], text: &[u8]) -> Vec<u8> {
    let aes = Aes::new(key);
    let hash_key = u128::from_be_bytes(aes.encrypt([0; 16]));
    let mut sealed = Vec::with_capacity(text.len() + 16);
    for (index, block) in text.chunks(16).enumerate() {
        let mask = counter_block(&aes, nonce, index as u32 + 2);
        sealed.extend(block.iter().zip(mask).map(|(byte, mask)| byte ^ mask));
    }
    let mut hash = 0;
    for block in sealed.chunks(16) {
        let mut whole = [0; 16];
        whole[..block.len()].copy_from_slice(block);
        hash = product(hash ^ u128::from_be_bytes(whole), hash_key);
    }
    // The length in bits, behind that of no associated data.
    hash = product(hash ^ (8 * text.len()) as u128, hash_key);
    let mask = u128::from_be_bytes(counter_block(&aes, nonce, 1));
    sealed.extend((hash ^ mask).to_be_bytes());
    sealed
}

fn counter_block(aes: &Aes, nonce: [u8; 12], counter: u32) -> [u8; 16] {
    let mut block = [0; 16];
    block[..12].copy_from_slice(&nonce);
    block[12..].copy_from_slice(&counter.to_be_bytes());
    aes.encrypt(block)
}

/// The product in GCM's field; the first bit of a block is the highest.
fn product(a: u128, mut b: u128) -> u128 {
    let mut sum = 0;
    for i in (0..128).rev() {
        if a >> i & 1 == 1 {
            sum ^= b;
        }
        b = b >> 1 ^ if b & 1 == 1 { 0xe1 << 120 } else { 0 };
    }
    sum
}

/// The GCM specification's test cases 1 and 2: no text, and one block of zeros.
#[test]
fn published_examples() {
    let hex = |sealed: &[u8]| -> String { sealed.iter().map(|b| format!("{b:02x}")).collect() };
    let empty = seal(&[0; 16], [0; 12], &[]);
    assert_eq!(hex(&empty), "58e2fccefa7e3061367f1d57a4e7455a");
    let block = seal(&[0; 16], [0; 12], &[0; 16]);
    assert_eq!(
        hex(&block),
        "0388dace60b6a392f328c2b971b2fe78ab6e47d42cec13bdf53a67b21257bddf"
    );
}
