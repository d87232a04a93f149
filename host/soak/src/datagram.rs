//! Datagrams on their way, with what is known of how each was made.

use std::net::SocketAddr;
use std::rc::Rc;

use relay::{Address, Method};

use crate::payload::Message;

pub struct Datagram {
    pub bytes: Vec<u8>,
    pub origin: Origin,
}

/// How a datagram was made. The rules are applied to this, never to what the
/// library says of the bytes.
#[derive(Clone)]
pub struct Origin {
    /// The client that sealed it, or to which it replies.
    pub client: usize,
    /// The method that it was sealed with.
    pub method: Method,
    pub session_id: u64,
    /// From a server: the client session that it names.
    pub client_session: Option<u64>,
    pub packet_id: u64,
    pub timestamp: u64,
    pub padding: usize,
    pub target: Rc<Address>,
    pub message: Message,
    /// The bytes are no longer those that were sealed.
    pub is_damaged: bool,
}

/// A datagram that comes in.
pub struct Arrival {
    pub datagram: Rc<Datagram>,
    pub peer: SocketAddr,
    /// The host lends an output buffer that is one byte too short.
    pub is_room_short: bool,
}

impl Arrival {
    /// Of a datagram for which there is room.
    pub fn new(datagram: Rc<Datagram>, peer: SocketAddr) -> Self {
        Self {
            datagram,
            peer,
            is_room_short: false,
        }
    }
}
