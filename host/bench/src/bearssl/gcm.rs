//! AES-GCM.

use std::os::raw::{c_int, c_void};

use super::{Functions, GhashFunction};
use crate::ciphers::{Aead, TAG_LENGTH};
use crate::room::Room;

extern "C" {
    fn br_gcm_init(ctx: *mut c_void, keys: *mut c_void, ghash: GhashFunction);
    fn br_gcm_reset(ctx: *mut c_void, iv: *const c_void, length: usize);
    fn br_gcm_flip(ctx: *mut c_void);
    fn br_gcm_run(ctx: *mut c_void, encrypt: c_int, data: *mut c_void, length: usize);
    fn br_gcm_get_tag(ctx: *mut c_void, tag: *mut c_void);
    fn br_gcm_check_tag(ctx: *mut c_void, tag: *const c_void) -> u32;
}

/// The bytes of `br_gcm_context` in the header of BearSSL 0.6: three pointers, four
/// arrays of 60 bytes together, two 32-bit and two 64-bit counters, and a gap of four
/// bytes between those.
const CONTEXT: usize = 3 * 8 + 60 + 2 * 4 + 4 + 2 * 8;

/// BearSSL does not tell that size as it does for its block ciphers. Only pointers are
/// passed, so more room is as good, and a later BearSSL may outgrow the header's.
const ROOM: usize = 4 * CONTEXT;

#[derive(Clone, Copy)]
enum Direction {
    Decrypt = 0,
    Encrypt = 1,
}

/// BearSSL works in place only, so what comes from another place is copied first.
pub struct AesGcm<const INSTRUCTIONS: bool> {
    functions: Functions,
    key_length: usize,
    keys: Room,
    room: Room,
}

impl<const INSTRUCTIONS: bool> Aead for AesGcm<INSTRUCTIONS> {
    fn new(key_length: usize) -> Self {
        let functions = Functions::for_key(INSTRUCTIONS, key_length);
        let keys = Room::new(functions.ctr.context_size);
        Self {
            functions,
            key_length,
            keys,
            room: Room::new(ROOM),
        }
    }

    fn seal(&self, key: &[u8], nonce: &[u8; 12], text: &[u8], out: &mut [u8]) {
        let (front, _) = out
            .split_last_chunk_mut::<TAG_LENGTH>()
            .expect("out has a tag");
        front.copy_from_slice(text);
        self.seal_in_place(key, nonce, out);
    }

    fn seal_in_place(&self, key: &[u8], nonce: &[u8; 12], body: &mut [u8]) {
        let (text, tag) = body.split_last_chunk_mut().expect("body has a tag");
        let tag: &mut [u8; TAG_LENGTH] = tag;
        self.message(Direction::Encrypt, key, nonce, text, |context| {
            // SAFETY: the context has the whole message, and the tag its length.
            unsafe { br_gcm_get_tag(context, tag.as_mut_ptr().cast()) }
        });
    }

    fn open(&self, key: &[u8], nonce: &[u8; 12], sealed: &[u8], out: &mut [u8]) -> bool {
        let (ciphertext, tag) = sealed.split_last_chunk().expect("sealed has a tag");
        let tag: &[u8; TAG_LENGTH] = tag;
        out.copy_from_slice(ciphertext);
        self.message(Direction::Decrypt, key, nonce, out, |context| {
            // SAFETY: the context has the whole message, and the tag its length.
            unsafe { br_gcm_check_tag(context, tag.as_ptr().cast()) == 1 }
        })
    }
}

impl<const INSTRUCTIONS: bool> AesGcm<INSTRUCTIONS> {
    /// A message in place, whose tag the work asks for or checks.
    fn message<T>(
        &self,
        direction: Direction,
        key: &[u8],
        nonce: &[u8; 12],
        data: &mut [u8],
        end: impl FnOnce(*mut c_void) -> T,
    ) -> T {
        let key_length = self.key_length;
        assert_eq!(key.len(), key_length, "the context is for another key");
        let Functions { ctr, ghash, .. } = self.functions;
        self.keys.with(|keys| {
            self.room.with(|context| {
                // SAFETY: both rooms are as large as BearSSL says, and stay where they
                // are until the message has its end; key, nonce and data have the
                // lengths that are given.
                unsafe {
                    (ctr.init)(keys, key.as_ptr().cast(), key.len());
                    br_gcm_init(context, keys, ghash);
                    br_gcm_reset(context, nonce.as_ptr().cast(), nonce.len());
                    br_gcm_flip(context);
                    let (encrypt, place) = (direction as c_int, data.as_mut_ptr().cast());
                    br_gcm_run(context, encrypt, place, data.len());
                }
                end(context)
            })
        })
    }
}

#[cfg(test)]
mod tests {
    use std::slice;

    use super::{AesGcm, CONTEXT, ROOM};
    use crate::ciphers::Aead;

    /// Else another BearSSL than the header's is linked, and may need more room.
    #[test]
    fn a_context_is_as_large_as_in_the_header() {
        let gcm = AesGcm::<false>::new(16);
        // SAFETY: the room has that many bytes, and nobody else uses it meanwhile.
        let bytes = |context: *mut _| unsafe { slice::from_raw_parts_mut::<u8>(context, ROOM) };
        gcm.room.with(|context| bytes(context.cast()).fill(0xa5));
        gcm.seal(&[1; 16], &[2; 12], &[3; 100], &mut [0; 116]);
        gcm.room.with(|context| {
            let (inside, behind) = bytes(context.cast()).split_at(CONTEXT);
            assert_ne!(inside[CONTEXT - 8..], [0xa5; 8]);
            assert_eq!(behind, [0xa5; ROOM - CONTEXT]);
        });
    }
}
