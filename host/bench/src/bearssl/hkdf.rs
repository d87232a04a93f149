//! HKDF with SHA-1, which BearSSL has in one implementation.

use std::os::raw::c_void;

use crate::ciphers::Hkdf;
use crate::room::Room;

#[repr(C)]
struct HashClass {
    _opaque: [u8; 0],
}

extern "C" {
    static br_sha1_vtable: HashClass;

    fn br_hkdf_init(ctx: *mut c_void, hash: *const HashClass, salt: *const c_void, length: usize);
    fn br_hkdf_inject(ctx: *mut c_void, key: *const c_void, length: usize);
    fn br_hkdf_flip(ctx: *mut c_void);
    fn br_hkdf_produce(
        ctx: *mut c_void,
        info: *const c_void,
        info_length: usize,
        out: *mut c_void,
        length: usize,
    ) -> usize;
}

/// The bytes of `br_hkdf_context` in the header of BearSSL 0.6, and more room, as for
/// GCM's context.
const ROOM: usize = 4 * 368;

pub struct HkdfSha1 {
    info: &'static [u8],
    room: Room,
}

impl Hkdf for HkdfSha1 {
    fn new(info: &'static [u8]) -> Self {
        let room = Room::new(ROOM);
        Self { info, room }
    }

    fn derive(&self, key: &[u8], salt: &[u8], out: &mut [u8]) {
        let written = self.room.with(|context| {
            // SAFETY: the room is larger than BearSSL's header says, and all slices have
            // the lengths that are given.
            unsafe {
                br_hkdf_init(context, &br_sha1_vtable, salt.as_ptr().cast(), salt.len());
                br_hkdf_inject(context, key.as_ptr().cast(), key.len());
                br_hkdf_flip(context);
                let (info, place) = (self.info.as_ptr().cast(), out.as_mut_ptr().cast());
                br_hkdf_produce(context, info, self.info.len(), place, out.len())
            }
        });
        assert_eq!(written, out.len(), "br_hkdf_produce failed");
    }
}
