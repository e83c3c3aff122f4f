//! Numbers, small types and the error of Part 2.

use std::fmt;

use serde_amqp::raw::{Composite, Raw};

/// The protocol's version.
pub const MAJOR: u8 = 1;
/// The protocol's version.
pub const MINOR: u8 = 0;
/// The protocol's version.
pub const REVISION: u8 = 0;
/// The port of AMQP.
pub const PORT: u16 = 5672;
/// The port of AMQP over TLS.
pub const SECURE_PORT: u16 = 5671;
/// A frame of this length must be taken by every peer.
pub const MIN_MAX_FRAME_SIZE: usize = 512;

/// A map that is kept as its bytes.
pub type Fields = Raw;
/// A language tag.
pub type IetfLanguageTag = String;
/// A span of time.
pub type Milliseconds = u32;
/// A delivery's tag.
pub type DeliveryTag = Vec<u8>;
/// A delivery's number.
pub type DeliveryNumber = u32;
/// A number that is counted on, round at 2^32.
pub type SequenceNo = u32;

/// A link's handle.
#[derive(Debug, Clone, Default, PartialEq, Eq)]
pub struct Handle(pub u32);

/// How a sender settles.
#[derive(Debug, Clone, PartialEq, Eq)]
pub enum SenderSettleMode {
    Unsettled,
    Settled,
    Mixed,
}

/// How a receiver settles.
#[derive(Debug, Clone, PartialEq, Eq)]
pub enum ReceiverSettleMode {
    First,
    Second,
}

/// The shared error conditions that the connection core uses.
#[derive(Debug, Clone, PartialEq, Eq)]
pub enum AmqpError {
    IllegalState,
    NotFound,
    NotImplemented,
}

/// The error conditions of connections.
#[derive(Debug, Clone, PartialEq, Eq)]
pub enum ConnectionError {
    ConnectionForced,
    FramingError,
    Redirect,
}

/// An error's condition: its symbol.
#[derive(Debug, Clone, PartialEq, Eq)]
pub struct ErrorCondition(pub String);

impl From<AmqpError> for ErrorCondition {
    fn from(error: AmqpError) -> Self {
        ErrorCondition(
            match error {
                AmqpError::IllegalState => "amqp:illegal-state",
                AmqpError::NotFound => "amqp:not-found",
                AmqpError::NotImplemented => "amqp:not-implemented",
            }
            .to_string(),
        )
    }
}

/// An error: a condition, perhaps a description, perhaps more.
#[derive(Debug, Clone, PartialEq, Eq)]
pub struct Error {
    pub condition: ErrorCondition,
    /// A string, or whatever well-formed value came in its place.
    pub description: Option<Raw>,
    pub info: Option<Fields>,
}

impl Error {
    /// An error with a description in words.
    pub fn new(condition: impl Into<ErrorCondition>, description: impl Into<Option<String>>, info: Option<Fields>) -> Self {
        let description = description.into().map(|text| Raw::of_string(&text));
        Error { condition: condition.into(), description, info }
    }

    pub(crate) fn to_raw(&self) -> Raw {
        let or_null = |value: &Option<Raw>| value.clone().unwrap_or_else(Raw::null);
        let fields = vec![Raw::of_symbol(&self.condition.0), or_null(&self.description), or_null(&self.info)];
        Composite { code: 0x1d, fields }.raw()
    }

    pub(crate) fn from_raw(raw: &Raw) -> Result<Self, serde_amqp::Error> {
        let composite = raw.composite()?;
        if composite.code != 0x1d || composite.fields.len() > 3 {
            return Err(serde_amqp::Error::Malformed("no error".into()));
        }
        let given = |at| Some(composite.field(at)).filter(|value| !value.is_null());
        let condition = ErrorCondition(composite.field(0).symbol()?);
        Ok(Error { condition, description: given(1), info: given(2) })
    }

    /// An error or null.
    pub(crate) fn optional(raw: &Raw) -> Result<Option<Self>, serde_amqp::Error> {
        if raw.is_null() {
            Ok(None)
        } else {
            Error::from_raw(raw).map(Some)
        }
    }
}

impl fmt::Display for Error {
    fn fmt(&self, f: &mut fmt::Formatter<'_>) -> fmt::Result {
        write!(f, "{} {:?}", self.condition.0, self.description)
    }
}
