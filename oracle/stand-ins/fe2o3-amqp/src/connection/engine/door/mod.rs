//! The door: modules inside the engine's own, which see its private items. They drive the published code and restate as little of it as they can.

mod frames;
pub(crate) mod oracle;
pub(crate) mod said;
mod spy;
mod turn;
mod wire;
