//! A stand-in for the crate of this name, written from Part 2 of AMQP 1.0 and from the names that the connection core uses.
//!
//! Fields that the connection core reads or writes have their types; every other field is kept as the bytes it came in.

pub mod definitions;
pub mod messaging;
pub mod performatives;
pub mod primitives;
pub mod sasl;
pub mod states;

/// `Serialize` and `Deserialize` of a type with `to_raw` and `from_raw`: serde carries the encoded value whole.
macro_rules! carried_whole {
    ($($type:ident),*) => {
        $(
            impl serde::Serialize for $type {
                fn serialize<S: serde::Serializer>(&self, serializer: S) -> Result<S::Ok, S::Error> {
                    serializer.serialize_bytes(&self.to_raw().0)
                }
            }

            impl<'de> serde::Deserialize<'de> for $type {
                fn deserialize<D: serde::Deserializer<'de>>(deserializer: D) -> Result<Self, D::Error> {
                    let bytes = deserializer.deserialize_bytes(crate::Bytes)?;
                    $type::from_raw(&serde_amqp::raw::Raw(bytes)).map_err(serde::de::Error::custom)
                }
            }
        )*
    };
}
pub(crate) use carried_whole;

pub(crate) struct Bytes;

impl serde::de::Visitor<'_> for Bytes {
    type Value = Vec<u8>;

    fn expecting(&self, f: &mut std::fmt::Formatter) -> std::fmt::Result {
        f.write_str("an encoded value")
    }

    fn visit_bytes<E>(self, bytes: &[u8]) -> Result<Vec<u8>, E> {
        Ok(bytes.to_vec())
    }
}
