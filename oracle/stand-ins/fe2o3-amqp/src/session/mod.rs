//! Sessions are not part of the connection core: names only.

pub(crate) mod error;
pub(crate) mod frame;

/// A session.
#[derive(Debug)]
pub struct Session;
