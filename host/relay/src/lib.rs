//! A verified Shadowsocks 2022 (SIP022) relay core, as safe Rust.
//!
//! The core is proved: each function meets its contract for every input, stays
//! within the buffers that it is lent, and ends (`docs/PROMISES.md`). This crate
//! gives it Rust's types. The core opens no socket, reads no clock and makes no random
//! numbers: the host brings the bytes, the time, the IDs, the salts and the nonces. Around
//! it stands what every host would write: a clock, replies, keys from text, and streams
//! over readers and writers. Whatever is accepted or refused, the core decides.
//!
//! | to | use |
//! |---|---|
//! | read a key from text | [`Key::from_base64`], [`base64`] |
//! | take the time | [`Clock`], the system's, which never goes back |
//! | seal datagrams | [`SealSession`] |
//! | open datagrams, once each | [`Table`], which gives a [`Header`] |
//! | reply to clients' datagrams | [`Replies`] |
//! | read and write a stream over a connection | [`io::Incoming`], [`io::Outgoing`] |
//! | seal or open a stream from client to server | [`RequestStream`], with a [`Pool`] at the server |
//! | seal or open a stream from server to client | [`ResponseStream`] |
//! | plan a long report in datagrams | [`Plan`] |
//! | tell where two recordings differ | [`recording::compare`] |
//! | read a recording | [`recording::entries`] |
//! | mend a damaged recording | [`recording::mend`] |
//! | read and write settings files | [`settings::read`], [`settings::write`] |
//! | seal or open datagrams and streams of the 2017 edition (SIP004) | [`sip004`] |
//! | tell what to do about a refusal | [`Refusal::action`] |
//!
//! # A datagram
//!
//! ```
//! use std::net::SocketAddr;
//! use relay::{Address, Key, Method, Peer, SealSession, Table};
//!
//! // 2022-blake3-aes-128-gcm. A real key is random, and so is a session's ID.
//! let key = Key::new(Method::Aes128Gcm, &[0x4b; 16])?;
//! let now = 1_700_000_000; // seconds since 1970
//!
//! // The client seals.
//! let mut session = SealSession::client(0x1f2e_3d4c_5b6a_7988);
//! let target = Address::name(b"example.com", 53)?;
//! let mut datagram = [0; 1_500];
//! let length = session.seal(&key, None, now, &target, 0, b"question", &mut datagram)?;
//! let datagram = &datagram[..length];
//!
//! // The server opens.
//! let mut table = Table::new(60)?;
//! let caller = Peer::from(SocketAddr::from(([192, 0, 2, 1], 4000)));
//! let mut plaintext = [0; 1_500];
//! let header = table.open_server(&key, now, caller, datagram, &mut plaintext)?;
//! assert_eq!(header.name(&plaintext), Some(&b"example.com"[..]));
//! assert_eq!(header.payload(&plaintext), b"question");
//!
//! // It replies to the client's session, at the address that was last heard of.
//! let client = header.session_id;
//! assert_eq!(table.peer_of(client, now), Some(caller));
//! let mut reply = SealSession::server(0x8877_6655_4433_2211, client, now, &table)?;
//! let source = Address::from(SocketAddr::from(([198, 51, 100, 7], 53)));
//! let mut datagram = [0; 1_500];
//! let length = reply.seal(&key, None, now, &source, 0, b"answer", &mut datagram)?;
//! # let _ = length;
//! # Ok::<(), relay::Refusal>(())
//! ```
//!
//! With the methods of ChaCha each datagram takes 24 random bytes of its own instead of
//! `None`: see [`Nonce`].
//!
//! # A stream
//!
//! ```
//! use relay::{Address, Key, Method, Pool, RequestStream, ResponseStream, Step};
//!
//! let key = Key::new(Method::Aes256Gcm, &[0x4b; 32])?;
//! let now = 1_700_000_000;
//!
//! // The client sends a head with the first payload, then a chunk.
//! let request_salt = [0x51; 32]; // real salts are random
//! let target = Address::name(b"example.com", 80)?;
//! let mut wire = [0; 1_024];
//! let (mut sender, head) =
//!     RequestStream::seal(&key, &request_salt, now, &target, 20, b"GET ", &mut wire)?;
//! let chunk = sender.seal_chunk(b"/", &mut wire[head..])?;
//! let wire = &wire[..head + chunk];
//!
//! // The server opens the head in two calls, and then a length and a payload by turns.
//! let mut pool = Pool::new(Method::Aes256Gcm);
//! let mut out = [0; 1_024];
//! let (mut receiver, front) = RequestStream::open(&key, now, wire, &mut pool)?;
//! let mut rest = &wire[front.used..];
//! let header = receiver.open_variable(rest, &mut out)?;
//! assert_eq!(header.payload(&out), b"GET ");
//! rest = &rest[header.used..];
//! while !rest.is_empty() {
//!     let step = receiver.open_chunk(rest, &mut out)?;
//!     rest = &rest[step.used()..];
//!     if let Step::Payload { length, .. } = step {
//!         assert_eq!(&out[..length], b"/");
//!     }
//! }
//!
//! // Its response names the request's salt.
//! let mut wire = [0; 1_024];
//! let (_, length) =
//!     ResponseStream::seal(&key, &[0x52; 32], &request_salt, now, b"200 OK", &mut wire)?;
//! let (mut receiver, header) =
//!     ResponseStream::open(&key, now, &request_salt, &wire[..length])?;
//! receiver.open_chunk(&wire[header.used..length], &mut out)?;
//! assert_eq!(&out[..header.length], b"200 OK");
//! # Ok::<(), relay::Refusal>(())
//! ```
//!
//! # Refusals
//!
//! What cannot be made at all (a key of a wrong length, an empty name) is [`Invalid`],
//! which says what was wrong. Every call gives its result or a [`Refusal`], and says
//! which ones and in which order. A refusal leaves tables, pools and sending sessions
//! as they were, but a datagram's [`Refusal::Replay`] counts a repeat in its session; a
//! salt that the front of a request stored stays, whatever is refused behind it. One that
//! comes before the payload's tag was found good leaves the output buffer as it
//! was; one that comes later sets the bytes of the plaintext to zero. Bytes behind
//! those due are never written. What a host does about each is its [`Action`].
//!
//! # Stored state
//!
//! Tables, pools, sessions and streams are words (`u64`), which a host may store and
//! bring back: `words` and `from_words`. Any words have a meaning, so faulty ones
//! lead to a refusal or to another answer, never to undefined behaviour or a panic.
//!
//! # Threads
//!
//! There is no global state. The types are `Send` and `Sync`, and what a call
//! changes it borrows mutably.
//!
//! # Linking
//!
//! The build links `librelay.a`: the one in the folder that the environment variable
//! `RELAY_LIB_DIR` names by its absolute path, or else the one that `make library` puts
//! in the repository's `target/staticlib`.
//!
//! # Stack
//!
//! A call takes up to 17,256 bytes of stack in the library; allow 24 KiB.
//!
//! # Timing
//!
//! AES and GHASH look up tables by secret bytes, so the time of a call tells of key and
//! text to whoever shares the processor. With the methods of ChaCha nothing secret decides
//! which way the code goes or which place it reads, up to the verdict on the tag: boxes
//! that share their processor with code that they do not trust should use these. The
//! header of an authentic datagram is read with branches on what it says.

#![deny(unsafe_code)]
#![warn(missing_docs)]

mod action;
mod address;
mod answer;
pub mod base64;
mod clock;
#[allow(unsafe_code)]
mod ffi;
mod header;
mod invalid;
pub mod io;
mod key;
mod method;
mod nonce;
mod peer;
mod plan;
mod pool;
pub mod recording;
mod refusal;
mod replies;
mod seal_session;
mod secret;
mod session;
pub mod settings;
pub mod sip004;
pub mod stream;
mod table;
mod target;

pub use action::Action;
pub use address::Address;
pub use clock::Clock;
pub use header::Header;
pub use invalid::Invalid;
pub use key::Key;
pub use method::{Method, UnknownMethod};
pub use nonce::Nonce;
pub use peer::Peer;
pub use plan::{Piece, Pieces, Plan};
pub use pool::Pool;
pub use refusal::Refusal;
pub use replies::Replies;
pub use seal_session::SealSession;
pub use session::Session;
pub use stream::{RequestFront, RequestHeader, RequestStream};
pub use stream::{ResponseHeader, ResponseStream, Step};
pub use table::Table;
pub use target::Target;

/// README's Rust is tested too, as it stands.
#[cfg(doctest)]
#[doc = include_str!("../../../README.md")]
struct Readme;

/// The longest datagram, in bytes.
pub const MAX_DATAGRAM: usize = 65_507;

/// The longest payload of a chunk, in bytes.
pub const MAX_CHUNK: usize = 65_535;
