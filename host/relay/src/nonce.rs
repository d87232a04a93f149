//! Nonces of datagrams.

/// The nonce of one datagram, for the methods that take one
/// ([`takes_nonce`](crate::Method::takes_nonce)): 24 random bytes, new for each datagram.
///
/// Two datagrams of one key with the same nonce can be read and forged. So sealing takes
/// the nonce away from its caller, and there is no copying it:
///
/// ```compile_fail,E0382
/// use relay::{Address, Key, Nonce, Refusal, SealSession};
///
/// fn send(session: &mut SealSession, key: &Key, target: &Address, random: [u8; 24]) -> Result<(), Refusal> {
///     let nonce = Nonce::new(random);
///     let mut out = [0; 128];
///     session.seal(key, Some(nonce), 1_000, target, 0, b"one", &mut out)?;
///     session.seal(key, Some(nonce), 1_000, target, 0, b"two", &mut out)?;
///     Ok(())
/// }
/// ```
///
/// A datagram shows its nonce in its first bytes: it is no secret.
#[derive(Debug, PartialEq, Eq)]
pub struct Nonce([u8; Nonce::LENGTH]);

impl Nonce {
    /// How many bytes a nonce has.
    pub const LENGTH: usize = 24;

    /// Makes a nonce of bytes that were drawn at random for it.
    pub fn new(random: [u8; Self::LENGTH]) -> Self {
        Self(random)
    }

    pub(crate) fn as_bytes(&self) -> &[u8] {
        &self.0
    }
}
