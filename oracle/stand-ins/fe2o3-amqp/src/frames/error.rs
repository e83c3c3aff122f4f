use std::io;

/// What can be wrong with a frame.
#[derive(Debug)]
pub enum Error {
    /// The reader or the writer failed.
    Io(io::Error),
    /// The body is malformed.
    DecodeError(String),
    /// Another type of frame, or an extended header.
    NotImplemented,
}

impl From<io::Error> for Error {
    fn from(error: io::Error) -> Self {
        Error::Io(error)
    }
}

impl From<serde_amqp::Error> for Error {
    fn from(error: serde_amqp::Error) -> Self {
        match error {
            serde_amqp::Error::Io(error) => Error::Io(error),
            other => Error::DecodeError(other.to_string()),
        }
    }
}
