//! SASL is outside of what is compared: names only.

use fe2o3_amqp_types::sasl::{SaslChallenge, SaslInit, SaslMechanisms, SaslOutcome, SaslResponse};

/// What a listener sends in a negotiation.
#[derive(Debug)]
pub enum SaslServerFrame {
    /// A challenge.
    Challenge(SaslChallenge),
    /// The end.
    Outcome(SaslOutcome),
}

/// A listener's side of a negotiation.
pub trait SaslAcceptor: Clone {
    /// Answers the first frame.
    fn on_init(&mut self, init: SaslInit) -> SaslServerFrame;
    /// Answers a response.
    fn on_response(&mut self, response: SaslResponse) -> SaslServerFrame;
}

/// What every acceptor has.
pub trait SaslAcceptorExt: SaslAcceptor {
    /// The mechanisms that are offered.
    fn sasl_mechanisms(&self) -> SaslMechanisms {
        SaslMechanisms::default()
    }
}

impl<T: SaslAcceptor> SaslAcceptorExt for T {}

/// The mechanism ANONYMOUS.
#[derive(Debug)]
pub struct SaslAnonymousMechanism;

/// The mechanism PLAIN.
#[derive(Debug)]
pub struct SaslPlainMechanism;
