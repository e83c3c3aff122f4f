//! A stand-in for the crate of this name, written from Part 1 of AMQP 1.0 and from what the connection core calls.
//!
//! Serde carries whole encoded values here: a type writes its AMQP bytes with `serialize_bytes`, and reads them with
//! `deserialize_bytes`, which hands over exactly one value and leaves the rest of the input alone.
//! [`raw`] has the values themselves. None of this is an oracle: the bytes of bodies are judged by the standard alone.

pub mod de;
mod error;
pub mod primitives;
pub mod raw;
pub mod read;
pub mod ser;

pub use error::Error;
