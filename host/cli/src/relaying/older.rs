//! Datagrams of the 2017 edition: an address with a payload behind it.

use std::ops::Range;

use relay::sip004::{self, Key};
use relay::{Address, Refusal, MAX_DATAGRAM};

use super::datagrams::Dropped;
use crate::random::Random;

/// Seals and opens under one key.
pub struct Older {
    key: Key,
    random: Random,
    /// Room for an address with its payload.
    text: Box<[u8]>,
    /// The most bytes of a sealed datagram.
    limit: usize,
}

impl Older {
    pub fn new(key: Key, random: Random, limit: usize) -> Self {
        let text = vec![0; MAX_DATAGRAM].into();
        Self {
            key,
            random,
            text,
            limit,
        }
    }

    /// Seals under a salt of its own, to the front of `out`: how many bytes.
    pub fn seal(
        &mut self,
        address: &Address,
        payload: &[u8],
        out: &mut [u8],
    ) -> Result<usize, Dropped> {
        let (address, length) = (address.as_bytes(), address.as_bytes().len() + payload.len());
        let text = self.text.get_mut(..length).ok_or(Dropped::TooLong)?;
        text[..address.len()].copy_from_slice(address);
        text[address.len()..].copy_from_slice(payload);
        let mut salt = [0; 32];
        let salt = &mut salt[..self.key.method().salt_len()];
        self.random.fill(salt)?;
        match sip004::seal_datagram(&self.key, salt, text, out).map_err(Dropped::unsealed)? {
            length if length > self.limit => Err(Dropped::TooLong),
            length => Ok(length),
        }
    }

    /// Opens to `out`: the address, and the place of the payload.
    pub fn open(
        &self,
        datagram: &[u8],
        out: &mut [u8],
    ) -> Result<(Address, Range<usize>), Dropped> {
        let length = sip004::open_datagram(&self.key, datagram, out)?;
        let split = Address::split(&out[..length]).map_err(|_| Refusal::Malformed)?;
        let (address, payload) = split.ok_or(Refusal::Malformed)?;
        Ok((address, length - payload.len()..length))
    }
}
