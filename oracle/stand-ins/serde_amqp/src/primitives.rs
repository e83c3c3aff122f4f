//! Names of primitive types.

/// A symbol.
#[derive(Debug, Clone, PartialEq, Eq, Hash, Default)]
pub struct Symbol(pub String);

impl From<&str> for Symbol {
    fn from(text: &str) -> Self {
        Symbol(text.to_string())
    }
}

impl From<String> for Symbol {
    fn from(text: String) -> Self {
        Symbol(text)
    }
}

/// Binary data.
#[derive(Debug, Clone, PartialEq, Eq, Default)]
pub struct Binary(pub Vec<u8>);

/// A truth value.
pub type Boolean = bool;

/// An unsigned number of 32 bits.
pub type Uint = u32;
