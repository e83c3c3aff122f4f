//! SASL is outside of what is compared: names only.

use fe2o3_amqp_types::sasl::{SaslInit, SaslOutcome, SaslResponse};
use url::Url;

use crate::frames::sasl;

/// A way to authenticate.
#[derive(Debug, Clone)]
pub enum SaslProfile {
    /// By what the transport knows.
    External,
}

/// What can be wrong with it.
#[derive(Debug)]
pub enum Error {
    /// No profile of this oracle can answer.
    NotImplemented(Option<String>),
}

/// A step of a negotiation.
#[derive(Debug)]
pub enum Negotiation {
    /// The first frame.
    Init(SaslInit),
    /// An answer to a challenge.
    Response(SaslResponse),
    /// The end.
    Outcome(SaslOutcome),
}

impl SaslProfile {
    pub(crate) fn on_frame(&mut self, _: sasl::Frame, _: Option<&str>) -> Result<Negotiation, Error> {
        Err(Error::NotImplemented(None))
    }
}

impl TryFrom<&Url> for SaslProfile {
    type Error = Error;

    fn try_from(_: &Url) -> Result<Self, Error> {
        Err(Error::NotImplemented(None))
    }
}
