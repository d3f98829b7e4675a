//! The crate `cablefinch` in the original's own shape: packets are taken off the front of a
//! `BytesMut`, their parts are `Bytes` over its memory, and packets are written into a `BytesMut`.
//! The modules have the original's names, so that a service changes its `use` lines.

#![deny(unsafe_code, missing_docs)]

pub use cablefinch::{crc64, guid, text, wire, yson};

/// The transport, of which this crate has the packets.
pub mod bus {
    pub mod packet;
}
