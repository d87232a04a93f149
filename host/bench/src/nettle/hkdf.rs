//! HKDF with SHA-1.

use std::os::raw::{c_char, c_uint, c_void};

use super::{check_version, SetKey};
use crate::ciphers::Hkdf;
use crate::room::Room;

/// The length of SHA-1's digests.
const DIGEST: usize = 20;

type Update = unsafe extern "C" fn(ctx: *mut c_void, length: usize, data: *const u8);
type Digest = unsafe extern "C" fn(ctx: *mut c_void, length: usize, digest: *mut u8);

/// nettle's `struct nettle_mac`.
#[repr(C)]
#[allow(dead_code, reason = "the layout is nettle's")]
struct Mac {
    name: *const c_char,
    context_size: c_uint,
    digest_size: c_uint,
    key_size: c_uint,
    /// For keys of that size only.
    set_key: SetKey,
    update: Update,
    digest: Digest,
}

extern "C" {
    static nettle_hmac_sha1: Mac;

    fn nettle_hmac_sha1_set_key(ctx: *mut c_void, length: usize, key: *const u8);
    fn nettle_hkdf_extract(
        ctx: *mut c_void,
        update: Update,
        digest: Digest,
        digest_size: usize,
        secret_size: usize,
        secret: *const u8,
        dst: *mut u8,
    );
    fn nettle_hkdf_expand(
        ctx: *mut c_void,
        update: Update,
        digest: Digest,
        digest_size: usize,
        info_size: usize,
        info: *const u8,
        length: usize,
        dst: *mut u8,
    );
}

pub struct HkdfSha1 {
    mac: &'static Mac,
    info: &'static [u8],
    room: Room,
}

impl Hkdf for HkdfSha1 {
    fn new(info: &'static [u8]) -> Self {
        check_version();
        // SAFETY: a constant of the library, of the version that is declared.
        let mac = unsafe { &nettle_hmac_sha1 };
        assert_eq!(mac.digest_size as usize, DIGEST, "nettle describes another");
        let room = Room::new(mac.context_size as usize);
        Self { mac, info, room }
    }

    fn derive(&self, key: &[u8], salt: &[u8], out: &mut [u8]) {
        let (update, digest) = (self.mac.update, self.mac.digest);
        let mut pseudorandom_key = [0; DIGEST];
        let place = pseudorandom_key.as_mut_ptr();
        self.room.with(|context| {
            // SAFETY: the room was made for this MAC; all slices have the lengths that are
            // given, and the pseudorandom key that of a digest.
            unsafe {
                nettle_hmac_sha1_set_key(context, salt.len(), salt.as_ptr());
                nettle_hkdf_extract(
                    context,
                    update,
                    digest,
                    DIGEST,
                    key.len(),
                    key.as_ptr(),
                    place,
                );
                nettle_hmac_sha1_set_key(context, DIGEST, place);
                nettle_hkdf_expand(
                    context,
                    update,
                    digest,
                    DIGEST,
                    self.info.len(),
                    self.info.as_ptr(),
                    out.len(),
                    out.as_mut_ptr(),
                );
            }
        });
    }
}
