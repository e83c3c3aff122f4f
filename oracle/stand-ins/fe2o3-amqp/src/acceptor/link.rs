//! Links are not here: names only.

/// Accepts links.
#[derive(Debug)]
pub struct LinkAcceptor;

/// An accepted link.
#[derive(Debug)]
pub struct LinkEndpoint;
