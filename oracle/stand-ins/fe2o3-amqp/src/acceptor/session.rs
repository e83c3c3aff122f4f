//! Sessions are not here: names only.

/// Accepts sessions.
#[derive(Debug)]
pub struct SessionAcceptor;

/// A handle of an accepted session.
#[derive(Debug)]
pub struct ListenerSessionHandle;
