//! The functions of `include/relay.h`, and one safe function for each.
//!
//! All `unsafe` code of the crate is here. Every call is safe for the same reason,
//! to which the calls refer as the rule of lending: each pointer is that of a slice
//! or array that is borrowed for the whole call, with its length in elements; what
//! the library writes is borrowed mutably, so it overlaps nothing else; and the
//! library keeps no pointer. It is proved to stay within the lengths given, for all
//! contents.

use crate::answer::{self, Answer};
use crate::pool::Pool;
use crate::seal_session::SealSession;
use crate::stream::STREAM_WORDS;
use crate::table::Table;
use crate::{sip004, Key, Method, Peer, Refusal};

pub(crate) type TableWords = [u64; Table::WORDS];
pub(crate) type PoolWords = [u64; Pool::WORDS];
pub(crate) type SessionWords = [u64; SealSession::WORDS];
pub(crate) type StreamWords = [u64; STREAM_WORDS];

/// An answer for the library to write to.
const NO_ANSWER: Answer = [0; answer::WORDS];

#[link(name = "relay", kind = "static")]
extern "C" {
    fn relay_table_new(retention: u64, table: *mut u64, table_len: usize) -> u64;
    fn relay_session_begin_client(id: u64, session: *mut u64, session_len: usize) -> u64;
    fn relay_session_begin_server(
        id: u64,
        client: u64,
        clock: u64,
        table: *const u64,
        table_len: usize,
        session: *mut u64,
        session_len: usize,
    ) -> u64;
    fn relay_datagram_seal(
        method: u64,
        key: *const u8,
        key_len: usize,
        nonce: *const u8,
        nonce_len: usize,
        session: *mut u64,
        session_len: usize,
        clock: u64,
        address: *const u8,
        address_len: usize,
        padding: usize,
        payload: *const u8,
        payload_len: usize,
        out: *mut u8,
        out_len: usize,
        answer: *mut u64,
        answer_len: usize,
    ) -> u64;
    fn relay_datagram_open_server(
        method: u64,
        key: *const u8,
        key_len: usize,
        clock: u64,
        first: u64,
        second: u64,
        port: u16,
        datagram: *const u8,
        datagram_len: usize,
        table: *mut u64,
        table_len: usize,
        out: *mut u8,
        out_len: usize,
        answer: *mut u64,
        answer_len: usize,
    ) -> u64;
    fn relay_datagram_open_client(
        method: u64,
        key: *const u8,
        key_len: usize,
        clock: u64,
        client: u64,
        first: u64,
        second: u64,
        port: u16,
        datagram: *const u8,
        datagram_len: usize,
        table: *mut u64,
        table_len: usize,
        out: *mut u8,
        out_len: usize,
        answer: *mut u64,
        answer_len: usize,
    ) -> u64;
    fn relay_pool_new(method: u64, pool: *mut u64, pool_len: usize) -> u64;
    fn relay_stream_seal_request(
        method: u64,
        key: *const u8,
        key_len: usize,
        salt: *const u8,
        salt_len: usize,
        clock: u64,
        address: *const u8,
        address_len: usize,
        padding: usize,
        payload: *const u8,
        payload_len: usize,
        out: *mut u8,
        out_len: usize,
        stream: *mut u64,
        stream_len: usize,
        answer: *mut u64,
        answer_len: usize,
    ) -> u64;
    fn relay_stream_open_request(
        method: u64,
        key: *const u8,
        key_len: usize,
        clock: u64,
        bytes: *const u8,
        bytes_len: usize,
        pool: *mut u64,
        pool_len: usize,
        stream: *mut u64,
        stream_len: usize,
        answer: *mut u64,
        answer_len: usize,
    ) -> u64;
    fn relay_stream_open_variable(
        stream: *mut u64,
        stream_len: usize,
        bytes: *const u8,
        bytes_len: usize,
        out: *mut u8,
        out_len: usize,
        answer: *mut u64,
        answer_len: usize,
    ) -> u64;
    fn relay_stream_seal_response(
        method: u64,
        key: *const u8,
        key_len: usize,
        salt: *const u8,
        salt_len: usize,
        request_salt: *const u8,
        request_salt_len: usize,
        clock: u64,
        payload: *const u8,
        payload_len: usize,
        out: *mut u8,
        out_len: usize,
        stream: *mut u64,
        stream_len: usize,
        answer: *mut u64,
        answer_len: usize,
    ) -> u64;
    fn relay_stream_open_response(
        method: u64,
        key: *const u8,
        key_len: usize,
        clock: u64,
        request_salt: *const u8,
        request_salt_len: usize,
        bytes: *const u8,
        bytes_len: usize,
        stream: *mut u64,
        stream_len: usize,
        answer: *mut u64,
        answer_len: usize,
    ) -> u64;
    fn relay_stream_seal_chunk(
        stream: *mut u64,
        stream_len: usize,
        payload: *const u8,
        payload_len: usize,
        out: *mut u8,
        out_len: usize,
        answer: *mut u64,
        answer_len: usize,
    ) -> u64;
    fn relay_stream_open_chunk(
        stream: *mut u64,
        stream_len: usize,
        bytes: *const u8,
        bytes_len: usize,
        out: *mut u8,
        out_len: usize,
        answer: *mut u64,
        answer_len: usize,
    ) -> u64;
    fn relay_plan_make(
        method: u64,
        address: *const u8,
        address_len: usize,
        limit: u64,
        length: u64,
        plan: *mut u64,
        plan_len: usize,
        answer: *mut u64,
        answer_len: usize,
    ) -> u64;
    fn relay_plan_check(
        method: u64,
        address: *const u8,
        address_len: usize,
        limit: u64,
        length: u64,
        plan: *const u64,
        plan_len: usize,
        answer: *mut u64,
        answer_len: usize,
    ) -> u64;
    fn relay_recording_compare(
        first: *const u8,
        first_len: usize,
        second: *const u8,
        second_len: usize,
        out: *mut u8,
        out_len: usize,
        answer: *mut u64,
        answer_len: usize,
    ) -> u64;
    fn relay_recording_mend(
        file: *mut u8,
        file_len: usize,
        report: *mut u64,
        report_len: usize,
        answer: *mut u64,
        answer_len: usize,
    ) -> u64;
    fn relay_settings_read(
        file: *const u8,
        file_len: usize,
        answer: *mut u64,
        answer_len: usize,
    ) -> u64;
    fn relay_settings_write(
        edition: u16,
        settings: *const u64,
        settings_len: usize,
        bodies: *const u8,
        bodies_len: usize,
        out: *mut u8,
        out_len: usize,
        answer: *mut u64,
        answer_len: usize,
    ) -> u64;
    fn relay_sip004_datagram_seal(
        method: u64,
        key: *const u8,
        key_len: usize,
        salt: *const u8,
        salt_len: usize,
        payload: *const u8,
        payload_len: usize,
        out: *mut u8,
        out_len: usize,
        answer: *mut u64,
        answer_len: usize,
    ) -> u64;
    fn relay_sip004_datagram_open(
        method: u64,
        key: *const u8,
        key_len: usize,
        datagram: *const u8,
        datagram_len: usize,
        out: *mut u8,
        out_len: usize,
        answer: *mut u64,
        answer_len: usize,
    ) -> u64;
    fn relay_sip004_stream_begin_seal(
        method: u64,
        key: *const u8,
        key_len: usize,
        salt: *const u8,
        salt_len: usize,
        stream: *mut u64,
        stream_len: usize,
    ) -> u64;
    fn relay_sip004_stream_begin_open(
        method: u64,
        key: *const u8,
        key_len: usize,
        salt: *const u8,
        salt_len: usize,
        stream: *mut u64,
        stream_len: usize,
    ) -> u64;
    fn relay_sip004_stream_seal_chunk(
        stream: *mut u64,
        stream_len: usize,
        payload: *const u8,
        payload_len: usize,
        out: *mut u8,
        out_len: usize,
        answer: *mut u64,
        answer_len: usize,
    ) -> u64;
    fn relay_sip004_stream_open_chunk(
        stream: *mut u64,
        stream_len: usize,
        bytes: *const u8,
        bytes_len: usize,
        out: *mut u8,
        out_len: usize,
        answer: *mut u64,
        answer_len: usize,
    ) -> u64;
}

/// A new table, of all words.
pub(crate) fn table_new(retention: u64, table: &mut TableWords) -> Result<(), Refusal> {
    // SAFETY: the rule of lending.
    let number = unsafe { relay_table_new(retention, table.as_mut_ptr(), table.len()) };
    answer::checked(number, NO_ANSWER).map(|_| ())
}

/// A client's sending session.
pub(crate) fn session_begin_client(id: u64) -> Result<SessionWords, Refusal> {
    let mut session = [0; SealSession::WORDS];
    // SAFETY: the rule of lending.
    let number = unsafe { relay_session_begin_client(id, session.as_mut_ptr(), session.len()) };
    answer::checked(number, NO_ANSWER).map(|_| session)
}

/// A server's sending session, on the table of its clients'.
pub(crate) fn session_begin_server(
    id: u64,
    client: u64,
    clock: u64,
    table: &TableWords,
) -> Result<SessionWords, Refusal> {
    let mut session = [0; SealSession::WORDS];
    // SAFETY: the rule of lending.
    let number = unsafe {
        relay_session_begin_server(
            id,
            client,
            clock,
            table.as_ptr(),
            table.len(),
            session.as_mut_ptr(),
            session.len(),
        )
    };
    answer::checked(number, NO_ANSWER).map(|_| session)
}

/// Seals a datagram. The nonce is empty where there is none.
#[allow(clippy::too_many_arguments)]
pub(crate) fn datagram_seal(
    key: &Key,
    nonce: &[u8],
    session: &mut SessionWords,
    clock: u64,
    address: &[u8],
    padding: usize,
    payload: &[u8],
    out: &mut [u8],
) -> Result<Answer, Refusal> {
    let mut answer = NO_ANSWER;
    // SAFETY: the rule of lending.
    let number = unsafe {
        relay_datagram_seal(
            key.method().number(),
            key.bytes().as_ptr(),
            key.bytes().len(),
            nonce.as_ptr(),
            nonce.len(),
            session.as_mut_ptr(),
            session.len(),
            clock,
            address.as_ptr(),
            address.len(),
            padding,
            payload.as_ptr(),
            payload.len(),
            out.as_mut_ptr(),
            out.len(),
            answer.as_mut_ptr(),
            answer.len(),
        )
    };
    answer::checked(number, answer)
}

/// Opens a client's datagram.
pub(crate) fn datagram_open_server(
    key: &Key,
    clock: u64,
    peer: Peer,
    datagram: &[u8],
    table: &mut TableWords,
    out: &mut [u8],
) -> Result<Answer, Refusal> {
    let mut answer = NO_ANSWER;
    // SAFETY: the rule of lending.
    let number = unsafe {
        relay_datagram_open_server(
            key.method().number(),
            key.bytes().as_ptr(),
            key.bytes().len(),
            clock,
            peer.first,
            peer.second,
            peer.port,
            datagram.as_ptr(),
            datagram.len(),
            table.as_mut_ptr(),
            table.len(),
            out.as_mut_ptr(),
            out.len(),
            answer.as_mut_ptr(),
            answer.len(),
        )
    };
    answer::checked(number, answer)
}

/// Opens a server's datagram.
pub(crate) fn datagram_open_client(
    key: &Key,
    clock: u64,
    client: u64,
    peer: Peer,
    datagram: &[u8],
    table: &mut TableWords,
    out: &mut [u8],
) -> Result<Answer, Refusal> {
    let mut answer = NO_ANSWER;
    // SAFETY: the rule of lending.
    let number = unsafe {
        relay_datagram_open_client(
            key.method().number(),
            key.bytes().as_ptr(),
            key.bytes().len(),
            clock,
            client,
            peer.first,
            peer.second,
            peer.port,
            datagram.as_ptr(),
            datagram.len(),
            table.as_mut_ptr(),
            table.len(),
            out.as_mut_ptr(),
            out.len(),
            answer.as_mut_ptr(),
            answer.len(),
        )
    };
    answer::checked(number, answer)
}

/// A new pool, of all words.
pub(crate) fn pool_new(method: Method, pool: &mut PoolWords) -> Result<(), Refusal> {
    // SAFETY: the rule of lending.
    let number = unsafe { relay_pool_new(method.number(), pool.as_mut_ptr(), pool.len()) };
    answer::checked(number, NO_ANSWER).map(|_| ())
}

/// Seals a request's head and begins its stream.
pub(crate) fn stream_seal_request(
    key: &Key,
    salt: &[u8],
    clock: u64,
    address: &[u8],
    padding: usize,
    payload: &[u8],
    out: &mut [u8],
) -> Result<(StreamWords, Answer), Refusal> {
    let mut stream = [0; STREAM_WORDS];
    let mut answer = NO_ANSWER;
    // SAFETY: the rule of lending.
    let number = unsafe {
        relay_stream_seal_request(
            key.method().number(),
            key.bytes().as_ptr(),
            key.bytes().len(),
            salt.as_ptr(),
            salt.len(),
            clock,
            address.as_ptr(),
            address.len(),
            padding,
            payload.as_ptr(),
            payload.len(),
            out.as_mut_ptr(),
            out.len(),
            stream.as_mut_ptr(),
            stream.len(),
            answer.as_mut_ptr(),
            answer.len(),
        )
    };
    answer::checked(number, answer).map(|answer| (stream, answer))
}

/// Opens the front of a request's head and begins its stream.
pub(crate) fn stream_open_request(
    key: &Key,
    clock: u64,
    bytes: &[u8],
    pool: &mut PoolWords,
) -> Result<(StreamWords, Answer), Refusal> {
    let mut stream = [0; STREAM_WORDS];
    let mut answer = NO_ANSWER;
    // SAFETY: the rule of lending.
    let number = unsafe {
        relay_stream_open_request(
            key.method().number(),
            key.bytes().as_ptr(),
            key.bytes().len(),
            clock,
            bytes.as_ptr(),
            bytes.len(),
            pool.as_mut_ptr(),
            pool.len(),
            stream.as_mut_ptr(),
            stream.len(),
            answer.as_mut_ptr(),
            answer.len(),
        )
    };
    answer::checked(number, answer).map(|answer| (stream, answer))
}

/// Opens the variable header of a request, behind its front.
pub(crate) fn stream_open_variable(
    stream: &mut StreamWords,
    bytes: &[u8],
    out: &mut [u8],
) -> Result<Answer, Refusal> {
    let mut answer = NO_ANSWER;
    // SAFETY: the rule of lending.
    let number = unsafe {
        relay_stream_open_variable(
            stream.as_mut_ptr(),
            stream.len(),
            bytes.as_ptr(),
            bytes.len(),
            out.as_mut_ptr(),
            out.len(),
            answer.as_mut_ptr(),
            answer.len(),
        )
    };
    answer::checked(number, answer)
}

/// Seals a response's head with its first payload and begins its stream.
pub(crate) fn stream_seal_response(
    key: &Key,
    salt: &[u8],
    request_salt: &[u8],
    clock: u64,
    payload: &[u8],
    out: &mut [u8],
) -> Result<(StreamWords, Answer), Refusal> {
    let mut stream = [0; STREAM_WORDS];
    let mut answer = NO_ANSWER;
    // SAFETY: the rule of lending.
    let number = unsafe {
        relay_stream_seal_response(
            key.method().number(),
            key.bytes().as_ptr(),
            key.bytes().len(),
            salt.as_ptr(),
            salt.len(),
            request_salt.as_ptr(),
            request_salt.len(),
            clock,
            payload.as_ptr(),
            payload.len(),
            out.as_mut_ptr(),
            out.len(),
            stream.as_mut_ptr(),
            stream.len(),
            answer.as_mut_ptr(),
            answer.len(),
        )
    };
    answer::checked(number, answer).map(|answer| (stream, answer))
}

/// Opens a response's head and begins its stream.
pub(crate) fn stream_open_response(
    key: &Key,
    clock: u64,
    request_salt: &[u8],
    bytes: &[u8],
) -> Result<(StreamWords, Answer), Refusal> {
    let mut stream = [0; STREAM_WORDS];
    let mut answer = NO_ANSWER;
    // SAFETY: the rule of lending.
    let number = unsafe {
        relay_stream_open_response(
            key.method().number(),
            key.bytes().as_ptr(),
            key.bytes().len(),
            clock,
            request_salt.as_ptr(),
            request_salt.len(),
            bytes.as_ptr(),
            bytes.len(),
            stream.as_mut_ptr(),
            stream.len(),
            answer.as_mut_ptr(),
            answer.len(),
        )
    };
    answer::checked(number, answer).map(|answer| (stream, answer))
}

/// Seals a length with its payload.
pub(crate) fn stream_seal_chunk(
    stream: &mut StreamWords,
    payload: &[u8],
    out: &mut [u8],
) -> Result<Answer, Refusal> {
    let mut answer = NO_ANSWER;
    // SAFETY: the rule of lending.
    let number = unsafe {
        relay_stream_seal_chunk(
            stream.as_mut_ptr(),
            stream.len(),
            payload.as_ptr(),
            payload.len(),
            out.as_mut_ptr(),
            out.len(),
            answer.as_mut_ptr(),
            answer.len(),
        )
    };
    answer::checked(number, answer)
}

/// Opens a length or a payload.
pub(crate) fn stream_open_chunk(
    stream: &mut StreamWords,
    bytes: &[u8],
    out: &mut [u8],
) -> Result<Answer, Refusal> {
    let mut answer = NO_ANSWER;
    // SAFETY: the rule of lending.
    let number = unsafe {
        relay_stream_open_chunk(
            stream.as_mut_ptr(),
            stream.len(),
            bytes.as_ptr(),
            bytes.len(),
            out.as_mut_ptr(),
            out.len(),
            answer.as_mut_ptr(),
            answer.len(),
        )
    };
    answer::checked(number, answer)
}

/// Plans a report.
pub(crate) fn plan_make(
    method: Method,
    address: &[u8],
    limit: u64,
    length: u64,
    plan: &mut [u64],
) -> Result<Answer, Refusal> {
    let mut answer = NO_ANSWER;
    // SAFETY: the rule of lending.
    let number = unsafe {
        relay_plan_make(
            method.number(),
            address.as_ptr(),
            address.len(),
            limit,
            length,
            plan.as_mut_ptr(),
            plan.len(),
            answer.as_mut_ptr(),
            answer.len(),
        )
    };
    answer::checked(number, answer)
}

/// Tells whether words are a good plan.
pub(crate) fn plan_check(
    method: Method,
    address: &[u8],
    limit: u64,
    length: u64,
    plan: &[u64],
) -> Result<Answer, Refusal> {
    let mut answer = NO_ANSWER;
    // SAFETY: the rule of lending.
    let number = unsafe {
        relay_plan_check(
            method.number(),
            address.as_ptr(),
            address.len(),
            limit,
            length,
            plan.as_ptr(),
            plan.len(),
            answer.as_mut_ptr(),
            answer.len(),
        )
    };
    answer::checked(number, answer)
}

/// Writes where two recordings differ.
pub(crate) fn recording_compare(
    first: &[u8],
    second: &[u8],
    out: &mut [u8],
) -> Result<Answer, Refusal> {
    let mut answer = NO_ANSWER;
    // SAFETY: the rule of lending.
    let number = unsafe {
        relay_recording_compare(
            first.as_ptr(),
            first.len(),
            second.as_ptr(),
            second.len(),
            out.as_mut_ptr(),
            out.len(),
            answer.as_mut_ptr(),
            answer.len(),
        )
    };
    answer::checked(number, answer)
}

/// Mends a recording and writes what was changed.
pub(crate) fn recording_mend(file: &mut [u8], report: &mut [u64]) -> Result<Answer, Refusal> {
    let mut answer = NO_ANSWER;
    // SAFETY: the rule of lending.
    let number = unsafe {
        relay_recording_mend(
            file.as_mut_ptr(),
            file.len(),
            report.as_mut_ptr(),
            report.len(),
            answer.as_mut_ptr(),
            answer.len(),
        )
    };
    answer::checked(number, answer)
}

/// Reads a settings file.
pub(crate) fn settings_read(file: &[u8]) -> Result<Answer, Refusal> {
    let mut answer = NO_ANSWER;
    // SAFETY: the rule of lending.
    let number = unsafe {
        relay_settings_read(file.as_ptr(), file.len(), answer.as_mut_ptr(), answer.len())
    };
    answer::checked(number, answer)
}

/// Writes a settings file.
pub(crate) fn settings_write(
    edition: u16,
    settings: &[u64],
    bodies: &[u8],
    out: &mut [u8],
) -> Result<Answer, Refusal> {
    let mut answer = NO_ANSWER;
    // SAFETY: the rule of lending.
    let number = unsafe {
        relay_settings_write(
            edition,
            settings.as_ptr(),
            settings.len(),
            bodies.as_ptr(),
            bodies.len(),
            out.as_mut_ptr(),
            out.len(),
            answer.as_mut_ptr(),
            answer.len(),
        )
    };
    answer::checked(number, answer)
}

/// Seals a datagram of the 2017 edition.
pub(crate) fn sip004_datagram_seal(
    key: &sip004::Key,
    salt: &[u8],
    payload: &[u8],
    out: &mut [u8],
) -> Result<Answer, Refusal> {
    let mut answer = NO_ANSWER;
    // SAFETY: the rule of lending.
    let number = unsafe {
        relay_sip004_datagram_seal(
            key.method().number(),
            key.bytes().as_ptr(),
            key.bytes().len(),
            salt.as_ptr(),
            salt.len(),
            payload.as_ptr(),
            payload.len(),
            out.as_mut_ptr(),
            out.len(),
            answer.as_mut_ptr(),
            answer.len(),
        )
    };
    answer::checked(number, answer)
}

/// Opens a datagram of the 2017 edition.
pub(crate) fn sip004_datagram_open(
    key: &sip004::Key,
    datagram: &[u8],
    out: &mut [u8],
) -> Result<Answer, Refusal> {
    let mut answer = NO_ANSWER;
    // SAFETY: the rule of lending.
    let number = unsafe {
        relay_sip004_datagram_open(
            key.method().number(),
            key.bytes().as_ptr(),
            key.bytes().len(),
            datagram.as_ptr(),
            datagram.len(),
            out.as_mut_ptr(),
            out.len(),
            answer.as_mut_ptr(),
            answer.len(),
        )
    };
    answer::checked(number, answer)
}

/// Begins a stream of the 2017 edition that seals.
pub(crate) fn sip004_stream_begin_seal(
    key: &sip004::Key,
    salt: &[u8],
) -> Result<StreamWords, Refusal> {
    let mut stream = [0; STREAM_WORDS];
    // SAFETY: the rule of lending.
    let number = unsafe {
        relay_sip004_stream_begin_seal(
            key.method().number(),
            key.bytes().as_ptr(),
            key.bytes().len(),
            salt.as_ptr(),
            salt.len(),
            stream.as_mut_ptr(),
            stream.len(),
        )
    };
    answer::checked(number, NO_ANSWER).map(|_| stream)
}

/// Begins a stream of the 2017 edition that opens.
pub(crate) fn sip004_stream_begin_open(
    key: &sip004::Key,
    salt: &[u8],
) -> Result<StreamWords, Refusal> {
    let mut stream = [0; STREAM_WORDS];
    // SAFETY: the rule of lending.
    let number = unsafe {
        relay_sip004_stream_begin_open(
            key.method().number(),
            key.bytes().as_ptr(),
            key.bytes().len(),
            salt.as_ptr(),
            salt.len(),
            stream.as_mut_ptr(),
            stream.len(),
        )
    };
    answer::checked(number, NO_ANSWER).map(|_| stream)
}

/// Seals a length with its payload, in a stream of the 2017 edition.
pub(crate) fn sip004_stream_seal_chunk(
    stream: &mut StreamWords,
    payload: &[u8],
    out: &mut [u8],
) -> Result<Answer, Refusal> {
    let mut answer = NO_ANSWER;
    // SAFETY: the rule of lending.
    let number = unsafe {
        relay_sip004_stream_seal_chunk(
            stream.as_mut_ptr(),
            stream.len(),
            payload.as_ptr(),
            payload.len(),
            out.as_mut_ptr(),
            out.len(),
            answer.as_mut_ptr(),
            answer.len(),
        )
    };
    answer::checked(number, answer)
}

/// Opens a length or a payload, in a stream of the 2017 edition.
pub(crate) fn sip004_stream_open_chunk(
    stream: &mut StreamWords,
    bytes: &[u8],
    out: &mut [u8],
) -> Result<Answer, Refusal> {
    let mut answer = NO_ANSWER;
    // SAFETY: the rule of lending.
    let number = unsafe {
        relay_sip004_stream_open_chunk(
            stream.as_mut_ptr(),
            stream.len(),
            bytes.as_ptr(),
            bytes.len(),
            out.as_mut_ptr(),
            out.len(),
            answer.as_mut_ptr(),
            answer.len(),
        )
    };
    answer::checked(number, answer)
}

#[cfg(test)]
mod tests;
