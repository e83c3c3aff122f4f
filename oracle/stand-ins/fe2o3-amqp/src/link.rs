//! Links are not part of the connection core: names only.

use fe2o3_amqp_types::performatives::Transfer;

/// A link's relay.
#[derive(Debug)]
pub struct LinkRelay<O>(O);

/// What can be wrong with a link.
#[derive(Debug)]
pub struct LinkStateError;

/// A sending link.
#[derive(Debug)]
pub struct Sender;

/// A receiving link.
#[derive(Debug)]
pub struct Receiver;

/// What settles a receiver's deliveries.
#[derive(Debug)]
pub struct ReceiverDisposer;

pub mod delivery {
    //! Deliveries.

    /// A delivery.
    #[derive(Debug)]
    pub struct Delivery;

    /// What can be sent.
    #[derive(Debug)]
    pub struct Sendable;
}

/// A Transfer that continues a delivery repeats nothing of what names it.
pub(crate) fn clear_continuation_fields(transfer: &mut Transfer) {
    transfer.clear_delivery();
}
