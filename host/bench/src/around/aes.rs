//! The body of methods 1 and 2: a separate header before it, and a subkey for each session.

use super::{Body, Separate, SEPARATE_LENGTH};
use crate::ciphers::{Aead, Block, Ciphers};
use crate::plain::{DeriveKey, Refusal};

/// The context under which Shadowsocks 2022 derives its subkeys.
pub const SUBKEY_CONTEXT: &str = "shadowsocks 2022 session subkey";

pub struct AesBody<C: Ciphers> {
    block: C::Block,
    gcm: C::Gcm,
    subkeys: DeriveKey,
}

impl<C: Ciphers> Body for AesBody<C> {
    const LEAD: usize = SEPARATE_LENGTH;
    const START: usize = 0;

    fn new(key_length: usize) -> Self {
        Self {
            block: C::Block::new(key_length),
            gcm: C::Gcm::new(key_length),
            subkeys: DeriveKey::new(SUBKEY_CONTEXT),
        }
    }

    fn seal_in_place(&self, key: &[u8], separate: Separate, datagram: &mut [u8]) {
        let (front, body) = datagram
            .split_first_chunk_mut()
            .expect("the separate header has room");
        *front = separate.bytes();
        let mut room = [0; 32];
        let subkey = self.subkey(key, separate.session, &mut room);
        self.gcm.seal_in_place(subkey, &nonce(front), body);
        self.block.encrypt(key, front);
    }

    fn open(&self, key: &[u8], datagram: &[u8], plain: &mut [u8]) -> Result<Separate, Refusal> {
        let (front, body) = datagram
            .split_first_chunk()
            .expect("the separate header is there");
        let mut clear = *front;
        self.block.decrypt(key, &mut clear);
        let separate = Separate::of(&clear);
        let mut room = [0; 32];
        let subkey = self.subkey(key, separate.session, &mut room);
        if self.gcm.open(subkey, &nonce(&clear), body, plain) {
            Ok(separate)
        } else {
            Err(Refusal::NotAuthentic)
        }
    }
}

impl<C: Ciphers> AesBody<C> {
    /// The subkey of a session, as long as the key.
    fn subkey<'a>(&self, key: &[u8], session: u64, room: &'a mut [u8; 32]) -> &'a [u8] {
        let mut material = [0; 32 + 8];
        let material = &mut material[..key.len() + 8];
        material[..key.len()].copy_from_slice(key);
        material[key.len()..].copy_from_slice(&session.to_be_bytes());
        let subkey = &mut room[..key.len()];
        self.subkeys.derive(material, subkey);
        subkey
    }
}

/// A body's nonce: the separate header in the clear without its first four bytes.
fn nonce(clear: &[u8; SEPARATE_LENGTH]) -> [u8; 12] {
    *clear.last_chunk().expect("16 bytes have a last 12")
}
