//! Tests of the library from outside, by subject.

mod addresses;
mod common;
mod datagrams;
mod edges;
mod incoming;
mod outgoing;
mod outputs;
mod plain;
mod plans;
mod pools;
mod recordings;
mod refusals;
mod replies;
mod sessions;
mod settings;
mod sip004;
mod streams;
mod wires;
mod words;
