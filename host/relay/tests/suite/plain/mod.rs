//! Datagrams and streams sealed in plain Rust, from the public documents, sharing
//! nothing with the library: for plaintexts that the library does not seal, and to
//! compare with.

mod aes;
// The benchmark's contestants, which are written from the BLAKE3 paper and RFC 8439.
#[path = "../../../../bench/src/plain/blake3.rs"]
mod blake3;
#[allow(dead_code, reason = "the benchmark opens with it, too")]
#[path = "../../../../bench/src/plain/chacha.rs"]
mod chacha;
mod gcm;
mod hkdf;
#[path = "../../../../bench/src/plain/poly1305.rs"]
mod poly1305;

use relay::Method;

use aes::Aes;
use chacha::ChaCha;

/// The cipher of section 4's methods.
fn chacha(method: Method) -> Option<ChaCha> {
    let rounds = match method {
        Method::Aes128Gcm | Method::Aes256Gcm => return None,
        Method::ChaCha20Poly1305 => 20,
        Method::ChaCha12Poly1305 => 12,
        Method::ChaCha8Poly1305 => 8,
    };
    Some(ChaCha { rounds })
}

/// A datagram of any main header and what follows it. The nonce is for the methods that
/// take one.
pub fn datagram(
    method: Method,
    key: &[u8],
    nonce: &[u8; 24],
    session_id: u64,
    packet_id: u64,
    body: &[u8],
) -> Vec<u8> {
    let ids = [session_id.to_be_bytes(), packet_id.to_be_bytes()].concat();
    match chacha(method) {
        None => with_separate_header(key, session_id, ids.try_into().expect("16 bytes"), body),
        Some(cipher) => with_nonce(cipher, key, nonce, &[&ids, body].concat()),
    }
}

/// The separate header and the sealed body (SIP022, section 3.2.2).
fn with_separate_header(key: &[u8], session_id: u64, ids: [u8; 16], body: &[u8]) -> Vec<u8> {
    let nonce = ids[4..].try_into().expect("12 bytes");
    let subkey = subkey(key, &session_id.to_be_bytes());
    let mut datagram = Aes::new(key).encrypt(ids).to_vec();
    datagram.extend(gcm::seal(&subkey, nonce, body));
    datagram
}

/// The nonce and the sealed plaintext, of any bytes (section 4).
fn with_nonce(cipher: ChaCha, key: &[u8], nonce: &[u8; 24], text: &[u8]) -> Vec<u8> {
    let (subkey, inner) = cipher.extend(key.try_into().expect("32 bytes"), nonce);
    let mut datagram = [nonce, text, &[0; 16]].concat();
    cipher.seal_in_place(&subkey, &inner, &mut datagram[nonce.len()..]);
    datagram
}

/// A datagram of any plaintext, which may be too short to hold the IDs.
///
/// # Panics
///
/// If the method has a separate header for them.
pub fn datagram_of_plaintext(method: Method, key: &[u8], nonce: &[u8; 24], text: &[u8]) -> Vec<u8> {
    let cipher = chacha(method).expect("the IDs stand in the plaintext");
    with_nonce(cipher, key, nonce, text)
}

/// A piece of a stream: the text under the stream's subkey and a counter (section
/// 3.1.1).
pub fn piece(method: Method, key: &[u8], salt: &[u8], counter: u64, text: &[u8]) -> Vec<u8> {
    let mut nonce = [0; 12];
    nonce[..8].copy_from_slice(&counter.to_le_bytes());
    let subkey = subkey(key, salt);
    match chacha(method) {
        None => gcm::seal(&subkey, nonce, text),
        Some(cipher) => {
            let mut body = [text, &[0; 16]].concat();
            cipher.seal_in_place(&subkey.try_into().expect("32 bytes"), &nonce, &mut body);
            body
        }
    }
}

/// A request's head of any fixed and variable header (section 3.1.2).
pub fn request_head(
    method: Method,
    key: &[u8],
    salt: &[u8],
    fixed: &[u8],
    variable: &[u8],
) -> Vec<u8> {
    let mut head = salt.to_vec();
    head.extend(piece(method, key, salt, 0, fixed));
    head.extend(piece(method, key, salt, 1, variable));
    head
}

/// The fixed header of a request (section 3.1.3).
pub fn fixed_header(kind: u8, timestamp: u64, length: usize) -> Vec<u8> {
    let length = u16::try_from(length).expect("16 bits");
    [&[kind][..], &timestamp.to_be_bytes(), &length.to_be_bytes()].concat()
}

/// The header of a client's datagram (section 3.2.3).
pub fn client_header(kind: u8, timestamp: u64, padding: u16) -> Vec<u8> {
    [
        &[kind][..],
        &timestamp.to_be_bytes(),
        &padding.to_be_bytes(),
    ]
    .concat()
}

/// The header of a server's datagram.
pub fn server_header(kind: u8, timestamp: u64, client: u64, padding: u16) -> Vec<u8> {
    [
        &[kind][..],
        &timestamp.to_be_bytes(),
        &client.to_be_bytes(),
        &padding.to_be_bytes(),
    ]
    .concat()
}

fn subkey(key: &[u8], salt: &[u8]) -> Vec<u8> {
    let mut subkey = vec![0; key.len()];
    blake3::DeriveKey::new("shadowsocks 2022 session subkey")
        .derive(&[key, salt].concat(), &mut subkey);
    subkey
}

/// A piece of a stream of the 2017 edition: the text under the stream's subkey and a
/// counter (SIP004).
pub fn sip004_piece(key: &[u8], salt: &[u8], counter: u64, text: &[u8]) -> Vec<u8> {
    let mut nonce = [0; 12];
    nonce[..8].copy_from_slice(&counter.to_le_bytes());
    let subkey = hkdf::derive(salt, key, b"ss-subkey", key.len());
    gcm::seal(&subkey, nonce, text)
}

/// A datagram of the 2017 edition.
pub fn sip004_datagram(key: &[u8], salt: &[u8], text: &[u8]) -> Vec<u8> {
    [salt, &sip004_piece(key, salt, 0, text)].concat()
}
