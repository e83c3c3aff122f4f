//! What the connection core takes from a session's errors.

use std::sync::{Arc, OnceLock};

use crate::connection::ConnectionStopReason;

/// What can be wrong with a new link.
#[derive(Debug)]
pub struct AllocLinkError;

/// The reason that is noted, or a plain close.
pub(crate) fn connection_stop_reason_or_closed(reason: &Arc<OnceLock<ConnectionStopReason>>) -> ConnectionStopReason {
    reason.get().cloned().unwrap_or(ConnectionStopReason::Closed)
}
