//! Encoded values of Part 1: taken off a reader, judged, split into fields, and a few kinds read and written.

use crate::read::{Read, SliceReader};
use crate::Error;

/// The bytes of one well-formed value, constructor included.
#[derive(Debug, Clone, PartialEq, Eq)]
pub struct Raw(pub Vec<u8>);

fn malformed<T>(what: &str) -> Result<T, Error> {
    Err(Error::Malformed(what.to_string()))
}

fn number(bytes: &[u8]) -> usize {
    bytes.iter().fold(0, |sum, byte| sum << 8 | *byte as usize)
}

/// What follows a constructor's code.
enum Width {
    Fixed(usize),
    /// A size of so many bytes, then the data.
    Variable(usize),
    /// A size and a count of so many bytes each, then the items.
    Compound(usize),
    /// A size and a count of so many bytes each, one constructor, then the elements.
    Array(usize),
}

fn width(code: u8) -> Option<Width> {
    Some(match code {
        0x40..=0x45 => Width::Fixed(0),
        0x50..=0x56 => Width::Fixed(1),
        0x60 | 0x61 => Width::Fixed(2),
        0x70..=0x74 => Width::Fixed(4),
        0x80..=0x84 => Width::Fixed(8),
        0x94 | 0x98 => Width::Fixed(16),
        0xa0 | 0xa1 | 0xa3 => Width::Variable(1),
        0xb0 | 0xb1 | 0xb3 => Width::Variable(4),
        0xc0 | 0xc1 => Width::Compound(1),
        0xd0 | 0xd1 => Width::Compound(4),
        0xe0 => Width::Array(1),
        0xf0 => Width::Array(4),
        _ => return None,
    })
}

fn is_map(code: u8) -> bool {
    code == 0xc1 || code == 0xd1
}

/// Takes one value off the reader and judges it.
pub fn take<'de, R: Read<'de>>(reader: &mut R) -> Result<Raw, Error> {
    let mut bytes = Vec::new();
    take_value(reader, &mut bytes)?;
    Ok(Raw(bytes))
}

fn take_value<'de, R: Read<'de>>(reader: &mut R, into: &mut Vec<u8>) -> Result<(), Error> {
    let code = reader.take(1)?[0];
    into.push(code);
    if code == 0 {
        take_value(reader, into)?;
        return take_value(reader, into);
    }
    let data = take_data(reader, code)?;
    judge_data(code, &data)?;
    into.extend(data);
    Ok(())
}

/// The bytes after a primitive constructor, sizes included.
fn take_data<'de, R: Read<'de>>(reader: &mut R, code: u8) -> Result<Vec<u8>, Error> {
    match width(code) {
        None => malformed("an unknown constructor"),
        Some(Width::Fixed(count)) => reader.take(count),
        Some(Width::Variable(n) | Width::Compound(n) | Width::Array(n)) => {
            let mut data = reader.take(n)?;
            let size = number(&data);
            data.extend(reader.take(size)?);
            Ok(data)
        }
    }
}

fn judge_data(code: u8, data: &[u8]) -> Result<(), Error> {
    match width(code) {
        Some(Width::Compound(n)) => {
            let (count, items) = counted(data, n)?;
            if is_map(code) && count % 2 != 0 {
                return malformed("a map with an odd count");
            }
            let mut reader = SliceReader::new(items);
            for _ in 0..count {
                take(&mut reader)?;
            }
            at_end(&reader)
        }
        Some(Width::Array(n)) => {
            let (count, rest) = counted(data, n)?;
            let mut reader = SliceReader::new(rest);
            let code = element_code(&mut reader)?;
            judge_elements(code, count, &mut reader)?;
            at_end(&reader)
        }
        _ if code == 0x56 && data[0] > 1 => malformed("a boolean that is neither 0 nor 1"),
        _ => Ok(()),
    }
}

fn at_end(reader: &SliceReader) -> Result<(), Error> {
    if reader.rest().is_empty() {
        Ok(())
    } else {
        malformed("a size that is not met")
    }
}

/// The count and the bytes after it, of data that begins with its size.
fn counted(data: &[u8], n: usize) -> Result<(usize, &[u8]), Error> {
    if data.len() < 2 * n {
        return malformed("a size without room for its count");
    }
    Ok((number(&data[n..2 * n]), &data[2 * n..]))
}

/// An array's constructor; a descriptor before it is judged and passed over.
fn element_code(reader: &mut SliceReader) -> Result<u8, Error> {
    loop {
        match reader.take(1)?[0] {
            0 => take(reader)?,
            code => return Ok(code),
        };
    }
}

/// Elements without bytes are judged at once, however many are claimed.
fn judge_elements(code: u8, count: usize, reader: &mut SliceReader) -> Result<(), Error> {
    match width(code) {
        None => malformed("an unknown constructor"),
        Some(Width::Fixed(0)) => Ok(()),
        Some(_) => {
            for _ in 0..count {
                let data = take_data(reader, code)?;
                judge_data(code, &data)?;
            }
            Ok(())
        }
    }
}

/// A performative or another composite: which one, and its fields.
#[derive(Debug, Clone, PartialEq, Eq)]
pub struct Composite {
    /// The numeric descriptor; a symbolic one that is known is turned into it.
    pub code: u64,
    /// The fields that are there, nulls in between included.
    pub fields: Vec<Raw>,
}

/// The symbolic descriptors that are known, with their numbers.
const NAMES: [(&str, u64); 15] = [
    ("amqp:open:list", 0x10),
    ("amqp:begin:list", 0x11),
    ("amqp:attach:list", 0x12),
    ("amqp:flow:list", 0x13),
    ("amqp:transfer:list", 0x14),
    ("amqp:disposition:list", 0x15),
    ("amqp:detach:list", 0x16),
    ("amqp:end:list", 0x17),
    ("amqp:close:list", 0x18),
    ("amqp:error:list", 0x1d),
    ("amqp:sasl-mechanisms:list", 0x40),
    ("amqp:sasl-init:list", 0x41),
    ("amqp:sasl-challenge:list", 0x42),
    ("amqp:sasl-response:list", 0x43),
    ("amqp:sasl-outcome:list", 0x44),
];

impl Raw {
    /// The null value.
    pub fn null() -> Raw {
        Raw(vec![0x40])
    }

    /// Whether this is null.
    pub fn is_null(&self) -> bool {
        self.0 == [0x40]
    }

    /// A described list.
    pub fn composite(&self) -> Result<Composite, Error> {
        if self.0[0] != 0 {
            return malformed("no described value");
        }
        let mut reader = SliceReader::new(&self.0[1..]);
        let descriptor = take(&mut reader)?;
        let list = take(&mut reader)?;
        Ok(Composite { code: descriptor.descriptor()?, fields: list.list()? })
    }

    fn descriptor(&self) -> Result<u64, Error> {
        match (self.0[0], &self.0[1..]) {
            (0x44, _) => Ok(0),
            (0x53, data) | (0x80, data) => Ok(data.iter().fold(0, |sum, byte| sum << 8 | *byte as u64)),
            (0xa3 | 0xb3, _) => {
                let name = self.text(0xa3)?;
                let known = NAMES.iter().find(|(known, _)| *known == name);
                known.map(|(_, code)| *code).ok_or(Error::Malformed("an unknown descriptor".into()))
            }
            _ => malformed("a descriptor that is neither a ulong nor a symbol"),
        }
    }

    fn list(&self) -> Result<Vec<Raw>, Error> {
        let n = match self.0[0] {
            0x45 => return Ok(Vec::new()),
            0xc0 => 1,
            0xd0 => 4,
            _ => return malformed("no list"),
        };
        let (count, items) = counted(&self.0[1..], n)?;
        let mut reader = SliceReader::new(items);
        (0..count).map(|_| take(&mut reader)).collect()
    }

    /// A uint.
    pub fn uint(&self) -> Result<u32, Error> {
        match self.0[0] {
            0x43 | 0x52 | 0x70 => Ok(number(&self.0[1..]) as u32),
            _ => malformed("no uint"),
        }
    }

    /// A ushort.
    pub fn ushort(&self) -> Result<u16, Error> {
        match self.0[0] {
            0x60 => Ok(number(&self.0[1..]) as u16),
            _ => malformed("no ushort"),
        }
    }

    /// A string.
    pub fn string(&self) -> Result<String, Error> {
        self.text(0xa1)
    }

    /// A symbol.
    pub fn symbol(&self) -> Result<String, Error> {
        self.text(0xa3)
    }

    /// Texts keep their bytes one for one, whatever these stand for.
    fn text(&self, short: u8) -> Result<String, Error> {
        let start = match self.0[0] {
            code if code == short => 2,
            code if code == short + 0x10 => 5,
            _ => return malformed("another kind of value than a text"),
        };
        Ok(self.0[start..].iter().map(|byte| *byte as char).collect())
    }

    /// A truth value, if it is one.
    pub fn boolean(&self) -> Option<bool> {
        match self.0[..] {
            [0x41] | [0x56, 1] => Some(true),
            [0x42] | [0x56, 0] => Some(false),
            _ => None,
        }
    }

    /// A uint in its shortest form.
    pub fn of_uint(value: u32) -> Raw {
        match value {
            0 => Raw(vec![0x43]),
            1..=255 => Raw(vec![0x52, value as u8]),
            _ => Raw([&[0x70][..], &value.to_be_bytes()].concat()),
        }
    }

    /// A ushort.
    pub fn of_ushort(value: u16) -> Raw {
        Raw([&[0x60][..], &value.to_be_bytes()].concat())
    }

    /// A truth value.
    pub fn of_boolean(value: bool) -> Raw {
        Raw(vec![if value { 0x41 } else { 0x42 }])
    }

    /// A string.
    pub fn of_string(text: &str) -> Raw {
        Raw::of_text(0xa1, text)
    }

    /// A symbol.
    pub fn of_symbol(text: &str) -> Raw {
        Raw::of_text(0xa3, text)
    }

    fn of_text(short: u8, text: &str) -> Raw {
        let bytes: Vec<u8> = text.chars().map(|letter| letter as u8).collect();
        Raw(match u8::try_from(bytes.len()) {
            Ok(size) => [&[short, size][..], &bytes].concat(),
            Err(_) => [&[short + 0x10][..], &(bytes.len() as u32).to_be_bytes(), &bytes].concat(),
        })
    }
}

impl Composite {
    /// The field at a place, null where the list is shorter.
    pub fn field(&self, at: usize) -> Raw {
        self.fields.get(at).cloned().unwrap_or_else(Raw::null)
    }

    /// The encoded form: a smallulong descriptor and the shortest list, without nulls at its end.
    pub fn raw(&self) -> Raw {
        let mut fields = &self.fields[..];
        while let Some((last, rest)) = fields.split_last() {
            if !last.is_null() {
                break;
            }
            fields = rest;
        }
        let items: Vec<u8> = fields.iter().flat_map(|field| field.0.clone()).collect();
        let mut bytes = vec![0, 0x53, self.code as u8];
        if fields.is_empty() {
            bytes.push(0x45);
        } else if items.len() < 255 && fields.len() <= 255 {
            bytes.extend([0xc0, items.len() as u8 + 1, fields.len() as u8]);
        } else {
            bytes.push(0xd0);
            bytes.extend((items.len() as u32 + 4).to_be_bytes());
            bytes.extend((fields.len() as u32).to_be_bytes());
        }
        bytes.extend(items);
        Raw(bytes)
    }
}
