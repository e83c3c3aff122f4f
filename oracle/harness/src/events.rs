//! Events, what is compared of their answers, and frames to make them of.

use std::fmt;

use fe2o3_amqp::auth as rust;
use fe2o3_amqp_types::performatives::Performative;
use serde::{Deserialize, Serialize};
use serde_amqp::de::Deserializer;
use serde_amqp::raw;
use serde_amqp::read::{Read, SliceReader};
use serde_amqp::ser::Serializer;

/// An event that both sides are given.
#[derive(Debug, Clone, PartialEq, Eq)]
pub enum Event {
    SendHeader,
    ReceiveHeader(Vec<u8>),
    SendOpen,
    Incoming { frame: Vec<u8>, spare: u32, waiting: Vec<u8> },
    Close { waiting: Vec<u8> },
    CloseWithError { condition: Vec<u8>, description: Option<Vec<u8>>, waiting: Vec<u8> },
    Allocate(u32),
    Deallocate(u16),
    Outgoing(Vec<u8>),
    Tick,
    EndOfInput,
    NotDelivered { new_session: bool },
}

impl Event {
    /// The same for the oracle.
    pub fn rust(&self) -> rust::Event<'_> {
        match self {
            Event::SendHeader => rust::Event::SendHeader,
            Event::ReceiveHeader(bytes) => rust::Event::ReceiveHeader(bytes),
            Event::SendOpen => rust::Event::SendOpen,
            Event::Incoming { frame, spare, waiting } => rust::Event::Incoming { frame, spare: *spare, waiting },
            Event::Close { waiting } => rust::Event::Close { error: None, waiting },
            Event::CloseWithError { condition, description, waiting } => {
                let error = rust::Error { condition, description: description.as_deref() };
                rust::Event::Close { error: Some(error), waiting }
            }
            Event::Allocate(handle) => rust::Event::Allocate(*handle),
            Event::Deallocate(channel) => rust::Event::Deallocate(*channel),
            Event::Outgoing(frame) => rust::Event::Outgoing(frame),
            Event::Tick => rust::Event::Tick,
            Event::EndOfInput => rust::Event::EndOfInput,
            Event::NotDelivered { new_session } => rust::Event::NotDelivered { new_session: *new_session },
        }
    }
}

/// What the port answers. Kinds, outcomes and refusals by the numbers of its C interface.
#[derive(Debug, Clone, PartialEq, Eq, Default)]
pub struct Reply {
    /// What the function returned: 0 or a refusal.
    pub refused: u8,
    pub stopped: bool,
    pub outcome: u8,
    pub kind: u8,
    pub detail: u8,
    pub channel: u16,
    pub number: u32,
    pub body: (usize, usize),
    pub consumed: usize,
    pub written: Vec<u8>,
}

impl fmt::Display for Event {
    fn fmt(&self, f: &mut fmt::Formatter<'_>) -> fmt::Result {
        match self {
            Event::ReceiveHeader(bytes) => write!(f, "ReceiveHeader {}", hex(bytes)),
            Event::Incoming { frame, spare, waiting } => {
                write!(f, "Incoming {}, spare {spare}, waiting {}", hex(frame), hex(waiting))
            }
            Event::Close { waiting } => write!(f, "Close, waiting {}", hex(waiting)),
            Event::CloseWithError { condition, description, waiting } => {
                let description = description.as_deref().map(hex);
                write!(f, "CloseWithError {} {description:?}, waiting {}", hex(condition), hex(waiting))
            }
            Event::Outgoing(frame) => write!(f, "Outgoing {}", hex(frame)),
            other => write!(f, "{other:?}"),
        }
    }
}

impl fmt::Display for Reply {
    fn fmt(&self, f: &mut fmt::Formatter<'_>) -> fmt::Result {
        if self.refused != 0 {
            return write!(f, "refused {}", self.refused);
        }
        let stopped = self.stopped.then_some(self.outcome);
        let (kind, detail, channel, number) = (self.kind, self.detail, self.channel, self.number);
        write!(f, "kind {kind}, detail {detail}, channel {channel}, number {number}, stopped {stopped:?}, ")?;
        write!(f, "consumed {}, wrote {}", self.consumed, hex(&self.written))
    }
}

/// What the port tells of itself.
#[derive(Debug, Clone, PartialEq, Eq, Hash)]
pub struct Status {
    pub phase: u8,
    pub outcome: u8,
    pub state: u8,
    pub reading_limit: usize,
    pub writing_limit: usize,
    pub agreed: Option<u16>,
    pub taken: usize,
}

/// What the port holds of channels. The lists with handles, and that of outgoing channels, are by channel, ascending.
#[derive(Debug, Clone, PartialEq, Eq)]
pub struct Held {
    pub taken: Vec<(u16, u32)>,
    pub ties: Vec<(u16, u32)>,
    /// Each incoming channel that is tied, with the outgoing channel through which it is.
    pub through: Vec<(u16, u16)>,
    /// The hand-out list; none before a channel-max is agreed.
    pub hand_out: Option<Vec<u16>>,
}

/// An engine of the port, by its C interface or as the definition in plain Rust.
pub trait Port {
    fn event(&mut self, event: &Event) -> Reply;
    fn status(&self) -> Status;
    fn handle_at(&self, channel: u16) -> Option<u32>;
    fn tied_handle(&self, channel: u16) -> Option<u32>;
    /// All that is held of channels, in every phase.
    fn held(&self) -> Held;
    /// The channels that would be given in turn; none where allocating is not allowed at all.
    fn given(&self) -> Option<Vec<u16>>;
    /// Whether after a refusal every byte of the state is compared with what it was.
    fn watch(&mut self, _watched: bool) {}
}

// ---- frames

pub fn frame(channel: u16, body: &[u8]) -> Vec<u8> {
    let mut bytes = (8 + body.len() as u32).to_be_bytes().to_vec();
    bytes.extend([2, 0]);
    bytes.extend(channel.to_be_bytes());
    bytes.extend(body);
    bytes
}

/// A described list of encoded fields.
pub fn body(code: u8, fields: &[&[u8]]) -> Vec<u8> {
    let items = fields.concat();
    let mut bytes = vec![0, 0x53, code];
    if fields.is_empty() {
        bytes.push(0x45);
    } else if items.len() < 255 {
        bytes.extend([0xc0, items.len() as u8 + 1, fields.len() as u8]);
    } else {
        bytes.push(0xd0);
        bytes.extend((items.len() as u32 + 4).to_be_bytes());
        bytes.extend((fields.len() as u32).to_be_bytes());
    }
    bytes.extend(items);
    bytes
}

pub fn uint(value: u32) -> Vec<u8> {
    [&[0x70][..], &value.to_be_bytes()].concat()
}

pub fn ushort(value: u16) -> Vec<u8> {
    [&[0x60][..], &value.to_be_bytes()].concat()
}

pub fn open(max_frame_size: u32, channel_max: u16, idle_time_out: Option<u32>) -> Vec<u8> {
    let idle = idle_time_out.map_or(vec![0x40], uint);
    frame(0, &body(16, &[b"\xa1\x04peer", b"\x40", &uint(max_frame_size), &ushort(channel_max), &idle]))
}

/// The Open that settings make.
pub fn local_open(settings: &rust::Settings) -> Vec<u8> {
    let id = [&[0xa1, settings.container_id.len() as u8][..], &settings.container_id].concat();
    let size = raw::Raw::of_uint(settings.max_frame_size).0;
    let most = ushort(settings.channel_max);
    let idle = settings.idle_time_out.map(|idle| raw::Raw::of_uint(idle).0);
    let fields = [Some(&id[..]), Some(b"\x40"), Some(&size), Some(&most), idle.as_deref()];
    frame(0, &body(16, &fields.into_iter().flatten().collect::<Vec<_>>()))
}

pub fn begin(channel: u16, remote: Option<u16>) -> Vec<u8> {
    let remote = remote.map_or(vec![0x40], ushort);
    frame(channel, &body(17, &[&remote, b"\x43", b"\x52\x10", b"\x52\x10"]))
}

pub fn attach(channel: u16) -> Vec<u8> {
    frame(channel, &body(18, &[b"\xa1\x04link", b"\x43", b"\x42"]))
}

pub fn flow(channel: u16) -> Vec<u8> {
    frame(channel, &body(19, &[b"\x43", b"\x52\x10", b"\x43", b"\x52\x10"]))
}

pub fn transfer(channel: u16, payload: usize) -> Vec<u8> {
    let mut bytes = body(20, &[b"\x43", b"\x43", b"\xa0\x01\x07", b"\x43"]);
    bytes.extend(std::iter::repeat(0x75).take(payload));
    frame(channel, &bytes)
}

pub fn disposition(channel: u16) -> Vec<u8> {
    frame(channel, &body(21, &[b"\x41", b"\x43", b"\x40", b"\x41"]))
}

pub fn detach(channel: u16) -> Vec<u8> {
    frame(channel, &body(22, &[b"\x43", b"\x41"]))
}

pub fn end(channel: u16) -> Vec<u8> {
    frame(channel, &body(23, &[]))
}

pub fn error(condition: &str, description: Option<&str>) -> Vec<u8> {
    error_of(condition.as_bytes(), description.map(str::as_bytes))
}

/// The same of bytes.
pub fn error_of(condition: &[u8], description: Option<&[u8]>) -> Vec<u8> {
    let symbol = [&[0xa3, condition.len() as u8][..], condition].concat();
    let words = description.map(|text| [&[0xa1, text.len() as u8][..], text].concat());
    match words {
        Some(words) => body(29, &[&symbol, &words]),
        None => body(29, &[&symbol]),
    }
}

pub fn close(error: Option<&[u8]>) -> Vec<u8> {
    match error {
        Some(error) => frame(0, &body(24, &[error])),
        None => frame(0, &body(24, &[])),
    }
}

/// The frames in written bytes, each whole; a header is one too.
pub fn split(mut bytes: &[u8]) -> Vec<&[u8]> {
    let mut frames = Vec::new();
    while !bytes.is_empty() {
        let length = match bytes.get(..4) {
            Some(b"AMQP") => 8,
            Some(head) => u32::from_be_bytes(head.try_into().unwrap()) as usize,
            None => bytes.len(),
        };
        let (first, rest) = bytes.split_at(length.clamp(1, bytes.len()));
        frames.push(first);
        bytes = rest;
    }
    frames
}

/// A written frame without a Transfer's payload, its length set right. A header is as it is.
pub fn without_payload(frame: &[u8]) -> Vec<u8> {
    match frame.get(8..).and_then(performative) {
        Some((Performative::Transfer(_), payload)) => crate::events::frame(channel(frame), &frame[8..frame.len() - payload.len()]),
        _ => frame.to_vec(),
    }
}

// ---- what document 01 says of bytes. The definition in plain Rust has its own code for this.

/// The length that a frame begins with.
pub fn size(frame: &[u8]) -> Option<usize> {
    frame.get(..4).map(|head| u32::from_be_bytes(head.try_into().unwrap()) as usize)
}

pub fn channel(frame: &[u8]) -> u16 {
    u16::from_be_bytes([frame[6], frame[7]])
}

/// The performative at the front of a body and the bytes after it, as the Rust reads them, which is by the stand-ins.
pub fn performative(body: &[u8]) -> Option<(Performative, &[u8])> {
    let mut reader = SliceReader::new(body);
    raw::take(&mut reader).ok()?;
    let rest = &body[body.len() - reader.rest().len()..];
    let read = Performative::deserialize(&mut Deserializer::new(SliceReader::new(body))).ok()?;
    Some((read, rest))
}

/// The code of a session's performative in a frame that was judged.
pub fn session_code(frame: &[u8]) -> Option<u8> {
    Some(match performative(frame.get(8..size(frame)?)?)?.0 {
        Performative::Begin(_) => 17,
        Performative::Attach(_) => 18,
        Performative::Flow(_) => 19,
        Performative::Transfer(_) => 20,
        Performative::Disposition(_) => 21,
        Performative::Detach(_) => 22,
        Performative::End(_) => 23,
        Performative::Open(_) | Performative::Close(_) => return None,
    })
}

/// Whether a body that the Rust reads has a symbol for a descriptor: its own, or that of its error.
pub fn is_symbolic(body: &[u8]) -> bool {
    let of = |value: &[u8]| value.first() == Some(&0) && matches!(value.get(1), Some(0xa3 | 0xb3));
    let Ok(whole) = raw::take(&mut SliceReader::new(body)).and_then(|raw| raw.composite()) else { return false };
    let error = match whole.code {
        22 => whole.field(2),
        23 | 24 => whole.field(0),
        _ => raw::Raw::null(),
    };
    of(body) || of(&error.0)
}

/// Whether a body is read by the Rust and malformed here.
pub fn is_read_there_only(body: &[u8]) -> bool {
    performative(body).is_some() && (is_symbolic(body) || depth(body) > 16)
}

/// The refusal of a frame's bytes, if they are refused.
pub fn frame_refusal(bytes: &[u8], limit: usize, highest: u16) -> Option<u8> {
    let Some(size) = size(bytes) else { return Some(1) };
    let malformed = |body: &[u8]| !body.is_empty() && (performative(body).is_none() || is_read_there_only(body));
    match () {
        _ if size < 8 => Some(3),
        _ if size > limit => Some(4),
        _ if size > bytes.len() => Some(1),
        _ if bytes[4..6] != [2, 0] => Some(5),
        _ if channel(bytes) > highest => Some(7),
        _ if malformed(&bytes[8..size]) => Some(6),
        _ => None,
    }
}

/// Whether a body is a session's, with nothing after it.
pub fn is_sessions(body: &[u8]) -> bool {
    match performative(body) {
        None | Some((Performative::Open(_) | Performative::Close(_), _)) => false,
        Some((Performative::Transfer(_), _)) => true,
        Some((_, rest)) => rest.is_empty(),
    }
}

/// The refusal of a session's frame that is to be sent, if it is refused.
pub fn session_refusal(bytes: &[u8], highest: u16) -> Option<u8> {
    let refused = frame_refusal(bytes, usize::MAX, u16::MAX);
    if refused.is_some() {
        return refused;
    }
    let body = &bytes[8..size(bytes)?];
    match performative(body) {
        _ if !is_sessions(body) => Some(6),
        Some((Performative::Begin(begin), _)) => begin.remote_channel.filter(|remote| *remote > highest).map(|_| 7),
        _ => None,
    }
}

/// A frame as it is written: in its shortest form.
pub fn rewritten(bytes: &[u8]) -> Vec<u8> {
    let (read, rest) = performative(&bytes[8..]).expect("a frame that was judged");
    let mut body = Vec::new();
    read.serialize(&mut Serializer::from(&mut body)).expect("a body that was read");
    body.extend(rest);
    frame(channel(bytes), &body)
}

// ---- levels

/// The deepest level in a performative: its fields are level 1. Its own list and descriptor are no level.
pub fn depth(body: &[u8]) -> usize {
    let mut reader = SliceReader::new(body.get(1..).unwrap_or(&[]));
    let described = body.first() == Some(&0) && raw::take(&mut reader).is_ok();
    if described && raw::take(&mut SliceReader::new(reader.rest())).is_ok() {
        level(&mut reader, 0)
    } else {
        0
    }
}

/// The deepest level in the next value, which is at level `at`.
fn level(reader: &mut SliceReader, at: usize) -> usize {
    let first = reader.rest()[0];
    if first == 0 {
        let _ = reader.take(1);
        return level(reader, at + 1).max(level(reader, at + 1));
    }
    let Ok(raw) = raw::take(reader) else { return at };
    let (start, array) = match first {
        0xc0 | 0xc1 => (3, false),
        0xd0 | 0xd1 => (9, false),
        0xe0 => (3, true),
        0xf0 => (9, true),
        _ => return at,
    };
    let mut items = SliceReader::new(&raw.0[start..]);
    let mut deepest = at;
    if array {
        let none = raw.0[start / 2 + 1..start].iter().all(|byte| *byte == 0);
        return deepest.max(elements(&mut items, at + 1, none));
    }
    while !items.rest().is_empty() {
        deepest = deepest.max(level(&mut items, at + 1));
    }
    deepest
}

/// The deepest level in an array's constructor and its elements, which are at level `at`; where there are none, only what describes them is a value.
/// Arrays of compounds are not made by these runs.
fn elements(reader: &mut SliceReader, at: usize, none: bool) -> usize {
    if reader.rest()[0] == 0 {
        let _ = reader.take(1);
        return level(reader, at + 1).max(elements(reader, at + 1, none));
    }
    if none {
        0
    } else {
        at
    }
}

pub fn hex(bytes: &[u8]) -> String {
    bytes.iter().map(|byte| format!("{byte:02x}")).collect()
}
