//! Of messaging only the name of a delivery's state is used.

/// A delivery's state, as its bytes.
#[derive(Debug, Clone, PartialEq, Eq)]
pub struct DeliveryState(pub crate::primitives::Raw);
