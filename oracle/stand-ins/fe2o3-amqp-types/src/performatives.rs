//! The nine performatives.

use serde_amqp::raw::{Composite, Raw};
use serde_amqp::Error as BadBody;

use crate::carried_whole;
use crate::definitions::{Error, Fields, Handle, IetfLanguageTag, Milliseconds, SequenceNo};
use crate::primitives::Symbol;

/// A performative's descriptor and the most fields it has.
const OPEN: (u64, usize) = (0x10, 10);
const BEGIN: (u64, usize) = (0x11, 8);
const ATTACH: (u64, usize) = (0x12, 14);
const FLOW: (u64, usize) = (0x13, 11);
const TRANSFER: (u64, usize) = (0x14, 11);
const DISPOSITION: (u64, usize) = (0x15, 6);
const DETACH: (u64, usize) = (0x16, 3);
const END: (u64, usize) = (0x17, 1);
const CLOSE: (u64, usize) = (0x18, 1);

fn fields(raw: &Raw, (code, most): (u64, usize)) -> Result<Composite, BadBody> {
    let composite = raw.composite()?;
    if composite.code != code {
        return Err(BadBody::Malformed("another performative".into()));
    }
    if composite.fields.len() > most {
        return Err(BadBody::Malformed("more fields than the performative has".into()));
    }
    Ok(composite)
}

fn optional<T>(raw: &Raw, read: impl FnOnce(&Raw) -> Result<T, BadBody>) -> Result<Option<T>, BadBody> {
    if raw.is_null() {
        Ok(None)
    } else {
        read(raw).map(Some)
    }
}

fn given(raw: Raw) -> Option<Raw> {
    Some(raw).filter(|value| !value.is_null())
}

fn written<T>(value: &Option<T>, write: impl FnOnce(&T) -> Raw) -> Raw {
    value.as_ref().map(write).unwrap_or_else(Raw::null)
}

/// The largest frame that a peer takes.
#[derive(Debug, Clone, PartialEq, Eq)]
pub struct MaxFrameSize(pub u32);

impl From<u32> for MaxFrameSize {
    fn from(value: u32) -> Self {
        MaxFrameSize(value)
    }
}

/// The highest channel number.
#[derive(Debug, Clone, PartialEq, Eq)]
pub struct ChannelMax(pub u16);

impl From<u16> for ChannelMax {
    fn from(value: u16) -> Self {
        ChannelMax(value)
    }
}

/// A list of texts, or the bytes of what came in its place.
#[derive(Debug, Clone, PartialEq, Eq)]
pub struct Texts(Raw);

fn array_of(short: u8, texts: impl Iterator<Item = String>) -> Texts {
    let mut elements = vec![short + 0x10];
    let mut count = 0u32;
    for text in texts {
        elements.extend((text.len() as u32).to_be_bytes());
        elements.extend(text.bytes());
        count += 1;
    }
    let size = elements.len() as u32 + 4;
    Texts(Raw([&[0xf0][..], &size.to_be_bytes(), &count.to_be_bytes(), &elements].concat()))
}

impl From<Vec<IetfLanguageTag>> for Texts {
    fn from(texts: Vec<IetfLanguageTag>) -> Self {
        array_of(0xa3, texts.into_iter())
    }
}

impl From<Vec<Symbol>> for Texts {
    fn from(symbols: Vec<Symbol>) -> Self {
        array_of(0xa3, symbols.into_iter().map(|symbol| symbol.0))
    }
}

#[derive(Debug, Clone, PartialEq, Eq)]
pub struct Open {
    pub container_id: String,
    pub hostname: Option<String>,
    pub max_frame_size: MaxFrameSize,
    pub channel_max: ChannelMax,
    pub idle_time_out: Option<Milliseconds>,
    pub outgoing_locales: Option<Texts>,
    pub incoming_locales: Option<Texts>,
    pub offered_capabilities: Option<Texts>,
    pub desired_capabilities: Option<Texts>,
    pub properties: Option<Fields>,
}

impl Open {
    fn to_raw(&self) -> Raw {
        let texts = |value: &Option<Texts>| written(value, |texts| texts.0.clone());
        let fields = vec![
            Raw::of_string(&self.container_id),
            written(&self.hostname, |text| Raw::of_string(text)),
            Raw::of_uint(self.max_frame_size.0),
            Raw::of_ushort(self.channel_max.0),
            written(&self.idle_time_out, |value| Raw::of_uint(*value)),
            texts(&self.outgoing_locales),
            texts(&self.incoming_locales),
            texts(&self.offered_capabilities),
            texts(&self.desired_capabilities),
            written(&self.properties, Raw::clone),
        ];
        Composite { code: OPEN.0, fields }.raw()
    }

    fn from_raw(raw: &Raw) -> Result<Self, BadBody> {
        let open = fields(raw, OPEN)?;
        let texts = |at| given(open.field(at)).map(Texts);
        Ok(Open {
            container_id: open.field(0).string()?,
            hostname: optional(&open.field(1), Raw::string)?,
            max_frame_size: MaxFrameSize(optional(&open.field(2), Raw::uint)?.unwrap_or(u32::MAX)),
            channel_max: ChannelMax(optional(&open.field(3), Raw::ushort)?.unwrap_or(u16::MAX)),
            idle_time_out: optional(&open.field(4), Raw::uint)?,
            outgoing_locales: texts(5),
            incoming_locales: texts(6),
            offered_capabilities: texts(7),
            desired_capabilities: texts(8),
            properties: given(open.field(9)),
        })
    }
}

#[derive(Debug, Clone, PartialEq, Eq)]
pub struct Begin {
    pub remote_channel: Option<u16>,
    pub next_outgoing_id: u32,
    pub incoming_window: u32,
    pub outgoing_window: u32,
    pub handle_max: u32,
    /// The fields from the sixth on.
    rest: Vec<Raw>,
}

impl Begin {
    fn to_raw(&self) -> Raw {
        let mut fields = vec![
            written(&self.remote_channel, |value| Raw::of_ushort(*value)),
            Raw::of_uint(self.next_outgoing_id),
            Raw::of_uint(self.incoming_window),
            Raw::of_uint(self.outgoing_window),
            Raw::of_uint(self.handle_max),
        ];
        fields.extend(self.rest.iter().cloned());
        Composite { code: BEGIN.0, fields }.raw()
    }

    fn from_raw(raw: &Raw) -> Result<Self, BadBody> {
        let begin = fields(raw, BEGIN)?;
        Ok(Begin {
            remote_channel: optional(&begin.field(0), Raw::ushort)?,
            next_outgoing_id: begin.field(1).uint()?,
            incoming_window: begin.field(2).uint()?,
            outgoing_window: begin.field(3).uint()?,
            handle_max: optional(&begin.field(4), Raw::uint)?.unwrap_or(u32::MAX),
            rest: begin.fields.into_iter().skip(5).collect(),
        })
    }
}

/// A performative of which the connection core reads no field.
macro_rules! kept {
    ($($name:ident $code:ident),*) => {
        $(
            #[derive(Debug, Clone, PartialEq, Eq)]
            pub struct $name {
                fields: Vec<Raw>,
            }

            impl $name {
                fn to_raw(&self) -> Raw {
                    Composite { code: $code.0, fields: self.fields.clone() }.raw()
                }

                fn from_raw(raw: &Raw) -> Result<Self, BadBody> {
                    Ok($name { fields: fields(raw, $code)?.fields })
                }
            }
        )*
    };
}

kept!(Attach ATTACH, Disposition DISPOSITION);

#[derive(Debug, Clone, PartialEq, Eq)]
pub struct Flow {
    pub handle: Option<Handle>,
    pub delivery_count: Option<SequenceNo>,
    pub link_credit: Option<u32>,
    pub available: Option<u32>,
    pub drain: bool,
    pub echo: bool,
    pub properties: Option<Fields>,
    fields: Vec<Raw>,
}

impl Flow {
    /// As it came: the fields above are for a link, and no link is here.
    fn to_raw(&self) -> Raw {
        Composite { code: FLOW.0, fields: self.fields.clone() }.raw()
    }

    fn from_raw(raw: &Raw) -> Result<Self, BadBody> {
        let flow = fields(raw, FLOW)?;
        let uint = |at| flow.field(at).uint().ok();
        let boolean = |at| flow.field(at).boolean().unwrap_or(false);
        Ok(Flow {
            handle: uint(4).map(Handle),
            delivery_count: uint(5),
            link_credit: uint(6),
            available: uint(7),
            drain: boolean(8),
            echo: boolean(9),
            properties: given(flow.field(10)),
            fields: flow.fields,
        })
    }
}

#[derive(Debug, Clone, PartialEq, Eq)]
pub struct Transfer {
    pub more: bool,
    fields: Vec<Raw>,
}

impl Transfer {
    const MORE: usize = 5;

    /// `more` is written only where it is no longer what came in.
    fn to_raw(&self) -> Raw {
        let mut fields = self.fields.clone();
        let came = fields.get(Self::MORE).and_then(Raw::boolean).unwrap_or(false);
        if came != self.more {
            if fields.len() <= Self::MORE {
                fields.resize(Self::MORE + 1, Raw::null());
            }
            fields[Self::MORE] = Raw::of_boolean(self.more);
        }
        Composite { code: TRANSFER.0, fields }.raw()
    }

    fn from_raw(raw: &Raw) -> Result<Self, BadBody> {
        let transfer = fields(raw, TRANSFER)?;
        let more = transfer.field(Self::MORE).boolean().unwrap_or(false);
        Ok(Transfer { more, fields: transfer.fields })
    }

    /// Without delivery-id, delivery-tag and message-format, which a delivery's later frames need not repeat.
    pub fn clear_delivery(&mut self) {
        for field in self.fields.iter_mut().take(4).skip(1) {
            *field = Raw::null();
        }
    }
}

#[derive(Debug, Clone, PartialEq, Eq)]
pub struct Detach {
    pub error: Option<Error>,
    handle: Raw,
    closed: Raw,
}

impl Detach {
    fn to_raw(&self) -> Raw {
        let fields = vec![self.handle.clone(), self.closed.clone(), written(&self.error, Error::to_raw)];
        Composite { code: DETACH.0, fields }.raw()
    }

    fn from_raw(raw: &Raw) -> Result<Self, BadBody> {
        let detach = fields(raw, DETACH)?;
        let error = Error::optional(&detach.field(2))?;
        Ok(Detach { error, handle: detach.field(0), closed: detach.field(1) })
    }
}

/// A performative that has an error and nothing else.
macro_rules! only_error {
    ($($name:ident $code:ident),*) => {
        $(
            #[derive(Debug, Clone, PartialEq, Eq)]
            pub struct $name {
                pub error: Option<Error>,
            }

            impl $name {
                fn to_raw(&self) -> Raw {
                    Composite { code: $code.0, fields: vec![written(&self.error, Error::to_raw)] }.raw()
                }

                fn from_raw(raw: &Raw) -> Result<Self, BadBody> {
                    Ok($name { error: Error::optional(&fields(raw, $code)?.field(0))? })
                }
            }
        )*
    };
}

only_error!(End END, Close CLOSE);

#[derive(Debug, Clone, PartialEq, Eq)]
pub enum Performative {
    Open(Open),
    Begin(Begin),
    Attach(Attach),
    Flow(Flow),
    Transfer(Transfer),
    Disposition(Disposition),
    Detach(Detach),
    End(End),
    Close(Close),
}

impl Performative {
    fn to_raw(&self) -> Raw {
        match self {
            Performative::Open(body) => body.to_raw(),
            Performative::Begin(body) => body.to_raw(),
            Performative::Attach(body) => body.to_raw(),
            Performative::Flow(body) => body.to_raw(),
            Performative::Transfer(body) => body.to_raw(),
            Performative::Disposition(body) => body.to_raw(),
            Performative::Detach(body) => body.to_raw(),
            Performative::End(body) => body.to_raw(),
            Performative::Close(body) => body.to_raw(),
        }
    }

    fn from_raw(raw: &Raw) -> Result<Self, BadBody> {
        Ok(match raw.composite()?.code {
            0x10 => Performative::Open(Open::from_raw(raw)?),
            0x11 => Performative::Begin(Begin::from_raw(raw)?),
            0x12 => Performative::Attach(Attach::from_raw(raw)?),
            0x13 => Performative::Flow(Flow::from_raw(raw)?),
            0x14 => Performative::Transfer(Transfer::from_raw(raw)?),
            0x15 => Performative::Disposition(Disposition::from_raw(raw)?),
            0x16 => Performative::Detach(Detach::from_raw(raw)?),
            0x17 => Performative::End(End::from_raw(raw)?),
            0x18 => Performative::Close(Close::from_raw(raw)?),
            _ => return Err(BadBody::Malformed("an unknown performative".into())),
        })
    }
}

carried_whole!(Open, Begin, Attach, Flow, Transfer, Disposition, Detach, End, Close, Performative);
