use std::{fmt, io};

/// What can be wrong with a value that is read or written.
#[derive(Debug)]
pub enum Error {
    /// The reader or the writer failed; a value that is cut short is among these.
    Io(io::Error),
    /// The bytes are no well-formed value, or not the one that is asked for.
    Malformed(String),
}

impl fmt::Display for Error {
    fn fmt(&self, f: &mut fmt::Formatter<'_>) -> fmt::Result {
        match self {
            Error::Io(error) => write!(f, "{error}"),
            Error::Malformed(what) => f.write_str(what),
        }
    }
}

impl std::error::Error for Error {}

impl From<io::Error> for Error {
    fn from(error: io::Error) -> Self {
        Error::Io(error)
    }
}

impl serde::ser::Error for Error {
    fn custom<T: fmt::Display>(what: T) -> Self {
        Error::Malformed(what.to_string())
    }
}

impl serde::de::Error for Error {
    fn custom<T: fmt::Display>(what: T) -> Self {
        Error::Malformed(what.to_string())
    }
}
