//! The deserializer: it hands over one whole encoded value.

use serde::de::{value::U64Deserializer, DeserializeSeed, EnumAccess, IntoDeserializer, VariantAccess, Visitor};
use serde::forward_to_deserialize_any;

use crate::read::{Read, SliceReader};
use crate::{raw, Error};

/// Reads encoded values.
#[derive(Debug)]
pub struct Deserializer<R> {
    reader: R,
}

impl<'de, R: Read<'de>> Deserializer<R> {
    /// Reads from `reader`.
    pub fn new(reader: R) -> Self {
        Deserializer { reader }
    }
}

impl<'de, R: Read<'de>> serde::Deserializer<'de> for &mut Deserializer<R> {
    type Error = Error;

    fn deserialize_any<V: Visitor<'de>>(self, visitor: V) -> Result<V::Value, Error> {
        visitor.visit_bytes(&raw::take(&mut self.reader)?.0)
    }

    fn deserialize_enum<V: Visitor<'de>>(self, _: &'static str, _: &'static [&'static str], visitor: V) -> Result<V::Value, Error> {
        visitor.visit_enum(Described(raw::take(&mut self.reader)?))
    }

    forward_to_deserialize_any! {
        bool i8 i16 i32 i64 u8 u16 u32 u64 f32 f64 char str string bytes byte_buf option unit unit_struct
        newtype_struct seq tuple tuple_struct map struct identifier ignored_any
    }
}

/// A described list as an enum: its descriptor chooses the variant, the whole value is the variant's content.
struct Described(raw::Raw);

impl<'de> EnumAccess<'de> for Described {
    type Error = Error;
    type Variant = Described;

    fn variant_seed<S: DeserializeSeed<'de>>(self, seed: S) -> Result<(S::Value, Described), Error> {
        let code: U64Deserializer<Error> = self.0.composite()?.code.into_deserializer();
        Ok((seed.deserialize(code)?, self))
    }
}

fn only_one_value<T>() -> Result<T, Error> {
    Err(Error::Malformed("a variant holds one value".into()))
}

impl<'de> VariantAccess<'de> for Described {
    type Error = Error;

    fn newtype_variant_seed<S: DeserializeSeed<'de>>(self, seed: S) -> Result<S::Value, Error> {
        let bytes = self.0 .0;
        let mut inner = Deserializer { reader: SliceReader::new(&bytes) };
        seed.deserialize(Whole(&mut inner))
    }

    fn unit_variant(self) -> Result<(), Error> {
        only_one_value()
    }

    fn tuple_variant<V: Visitor<'de>>(self, _: usize, _: V) -> Result<V::Value, Error> {
        only_one_value()
    }

    fn struct_variant<V: Visitor<'de>>(self, _: &'static [&'static str], _: V) -> Result<V::Value, Error> {
        only_one_value()
    }
}

/// A deserializer over bytes that live shorter than `'de`: they are only visited, never lent on.
struct Whole<'a, 's>(&'a mut Deserializer<SliceReader<'s>>);

impl<'de> serde::Deserializer<'de> for Whole<'_, '_> {
    type Error = Error;

    fn deserialize_any<V: Visitor<'de>>(self, visitor: V) -> Result<V::Value, Error> {
        visitor.visit_bytes(&raw::take(&mut self.0.reader)?.0)
    }

    forward_to_deserialize_any! {
        bool i8 i16 i32 i64 u8 u16 u32 u64 f32 f64 char str string bytes byte_buf option unit unit_struct
        newtype_struct seq tuple tuple_struct map struct enum identifier ignored_any
    }
}
