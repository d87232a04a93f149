//! The cipher of a method, by one library.

use std::marker::PhantomData;

use crate::around::{AesBody, Body, ChaChaBody};
use crate::chachas::ChaChas;
use crate::ciphers::{Aead, Ciphers};
use crate::rows::Library;

pub trait Suite: 'static {
    const LIBRARY: Library;
    type Aead: Aead + 'static;
    type Body: Body + 'static;
}

/// AES-GCM.
pub struct WithAes<C>(PhantomData<C>);

impl<C: Ciphers> Suite for WithAes<C> {
    const LIBRARY: Library = C::LIBRARY;
    type Aead = C::Gcm;
    type Body = AesBody<C>;
}

/// ChaCha with Poly1305.
pub struct WithChaCha<C>(PhantomData<C>);

impl<C: ChaChas> Suite for WithChaCha<C> {
    const LIBRARY: Library = C::LIBRARY;
    type Aead = C::Aead;
    type Body = ChaChaBody<C>;
}
