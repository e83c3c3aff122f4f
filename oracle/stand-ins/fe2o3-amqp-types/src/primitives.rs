//! Names of primitive types.

pub use serde_amqp::primitives::{Binary, Boolean, Symbol, Uint};
pub use serde_amqp::raw::Raw;
