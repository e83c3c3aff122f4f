//! The definition of the engine (crates/engine_model, crates/connection_model) in plain Rust, so that the oracle can be held against it where the
//! archive is not at hand. Bodies are read and written by the stand-ins, which are no oracle.

use std::collections::{BTreeMap, VecDeque};

use crate::events::{depth, frame, Event, Held, Port, Reply, Status};
use fe2o3_amqp::auth::{Role, Settings};
use fe2o3_amqp_types::performatives::Performative;
use serde::{Deserialize, Serialize};
use serde_amqp::raw::Raw;
use serde_amqp::{de::Deserializer, read::SliceReader, ser::Serializer};

const START: u8 = 0;
const HEADER_RECEIVED: u8 = 1;
const HEADER_SENT: u8 = 2;
const HEADER_EXCHANGE: u8 = 3;
const OPEN_PIPE: u8 = 4;
const OPEN_CLOSE_PIPE: u8 = 5;
const OPEN_RECEIVED: u8 = 6;
const OPEN_SENT: u8 = 7;
const CLOSE_PIPE: u8 = 8;
const OPENED: u8 = 9;
const CLOSE_RECEIVED: u8 = 10;
const CLOSE_SENT: u8 = 11;
const DISCARDING: u8 = 12;
const END: u8 = 13;

const FINE: u8 = 0;
const TRANSPORT: u8 = 1;
const ILLEGAL_STATE: u8 = 2;
const NOT_FOUND: u8 = 3;
const NOT_IMPLEMENTED: u8 = 4;
const REMOTE_CLOSED: u8 = 5;
const REMOTE_CLOSED_WITH_ERROR: u8 = 6;

#[derive(Debug, Clone, Copy, PartialEq, Eq)]
enum Phase {
    Running,
    Awaiting(u8),
    Stopped(u8),
}

#[derive(Debug, Clone)]
pub struct Definition {
    role: Role,
    settings: Settings,
    phase: Phase,
    state: u8,
    reading_limit: usize,
    writing_limit: usize,
    agreed: Option<u16>,
    hand_out: Option<VecDeque<u16>>,
    taken: BTreeMap<u16, u32>,
    /// Incoming channels, each with the outgoing channel through which it is tied, and the handle.
    ties: BTreeMap<u16, (u16, u32)>,
}

/// The inner answer of an event, without what every reply has.
type Inner = Result<Reply, u8>;

fn kind(kind: u8) -> Reply {
    Reply { kind, ..Reply::default() }
}

/// A body: its performative's code, what it is written as, and its fields.
struct Body {
    code: u8,
    read: Performative,
    fields: Vec<Raw>,
    payload: Vec<u8>,
}

fn read_body(bytes: &[u8]) -> Result<Body, u8> {
    let mut reader = SliceReader::new(bytes);
    let raw = serde_amqp::raw::take(&mut reader).map_err(|_| 6)?;
    let payload = reader.rest().to_vec();
    // Symbolic descriptors are not read here.
    if matches!(bytes.get(1), Some(0xa3 | 0xb3)) || depth(&raw.0) > 16 {
        return Err(6);
    }
    let composite = raw.composite().map_err(|_| 6)?;
    let mut deserializer = Deserializer::new(SliceReader::new(bytes));
    let read = Performative::deserialize(&mut deserializer).map_err(|_| 6)?;
    Ok(Body { code: composite.code as u8, read, fields: composite.fields, payload })
}

struct Frame {
    size: usize,
    channel: u16,
    body: Option<Body>,
}

fn read_frame(limit: usize, highest: u16, bytes: &[u8]) -> Result<Frame, u8> {
    let head = bytes.get(..4).ok_or(1)?;
    let size = u32::from_be_bytes(head.try_into().unwrap()) as usize;
    if size < 8 {
        return Err(3);
    }
    if size > limit {
        return Err(4);
    }
    let whole = bytes.get(..size).ok_or(1)?;
    if whole[4] != 2 || whole[5] != 0 {
        return Err(5);
    }
    let channel = u16::from_be_bytes([whole[6], whole[7]]);
    if channel > highest {
        return Err(7);
    }
    let body = if size == 8 { None } else { Some(read_body(&whole[8..])?) };
    Ok(Frame { size, channel, body })
}

fn session_frame(highest: u16, bytes: &[u8]) -> Result<(Frame, Body), u8> {
    let mut frame = read_frame(usize::MAX, u16::MAX, bytes)?;
    let body = frame.body.take().ok_or(6)?;
    if !(17..=23).contains(&body.code) || body.code != 20 && !body.payload.is_empty() {
        return Err(6);
    }
    match &body.read {
        Performative::Begin(begin) if begin.remote_channel.is_some_and(|remote| remote > highest) => Err(7),
        _ => Ok((frame, body)),
    }
}

fn session_frames(highest: u16, mut bytes: &[u8]) -> Result<Vec<&[u8]>, u8> {
    let mut frames = Vec::new();
    while !bytes.is_empty() {
        let (read, _) = session_frame(highest, bytes)?;
        let (first, rest) = bytes.split_at(read.size);
        frames.push(first);
        bytes = rest;
    }
    Ok(frames)
}

fn written_body(body: &Body) -> Vec<u8> {
    let mut bytes = Vec::new();
    let mut serializer = Serializer::from(&mut bytes);
    body.read.serialize(&mut serializer).expect("a body that was read");
    if body.code == 20 {
        bytes.extend(&body.payload);
    }
    bytes
}

/// An error of a Close.
#[derive(Clone)]
struct Fault {
    outcome: u8,
    condition: Vec<u8>,
    description: Option<Vec<u8>>,
}

fn fault(outcome: u8, condition: &str, description: Option<&str>) -> Fault {
    Fault { outcome, condition: condition.into(), description: description.map(Into::into) }
}

fn text(short: u8, bytes: &[u8]) -> Vec<u8> {
    [&[short, bytes.len() as u8][..], bytes].concat()
}

fn close_body(error: Option<(&[u8], Option<&[u8]>)>) -> Vec<u8> {
    let Some((condition, description)) = error else { return vec![0, 0x53, 24, 0x45] };
    let mut fields = vec![text(0xa3, condition)];
    fields.extend(description.map(|words| text(0xa1, words)));
    let fields: Vec<&[u8]> = fields.iter().map(Vec::as_slice).collect();
    crate::events::body(24, &[&crate::events::body(29, &fields)])
}

impl Definition {
    pub fn new(role: Role, settings: &Settings) -> Self {
        Definition {
            role,
            settings: settings.clone(),
            phase: Phase::Running,
            state: START,
            reading_limit: 512,
            writing_limit: 512,
            agreed: None,
            hand_out: None,
            taken: BTreeMap::new(),
            ties: BTreeMap::new(),
        }
    }

    fn highest(&self) -> u16 {
        self.settings.channel_max
    }

    fn limited(&self, bytes: Vec<u8>) -> Result<Vec<u8>, u8> {
        if bytes.len() > self.writing_limit {
            Err(27)
        } else {
            Ok(bytes)
        }
    }

    // ---- the connection's calls

    fn send_header(&mut self) -> Result<Vec<u8>, u8> {
        self.state = match self.state {
            START => HEADER_SENT,
            HEADER_RECEIVED => HEADER_EXCHANGE,
            _ => return Err(20),
        };
        Ok(b"AMQP\x00\x01\x00\x00".to_vec())
    }

    fn receive_header(&mut self, bytes: &[u8]) -> Inner {
        let header = bytes.get(..8).ok_or(1)?;
        if &header[..4] != b"AMQP" || ![0, 2, 3].contains(&header[4]) {
            return Err(2);
        }
        let next = match self.state {
            START => HEADER_RECEIVED,
            HEADER_SENT => HEADER_EXCHANGE,
            _ => return Err(20),
        };
        if header[4..] == [0, 1, 0, 0] {
            self.state = next;
            Ok(kind(4))
        } else {
            self.state = END;
            Ok(kind(5))
        }
    }

    fn send_open(&mut self) -> Result<Vec<u8>, u8> {
        let next = match self.state {
            HEADER_EXCHANGE => OPEN_SENT,
            OPEN_RECEIVED => OPENED,
            HEADER_SENT => OPEN_PIPE,
            _ => return Err(20),
        };
        let settings = &self.settings;
        let size = Raw::of_uint(settings.max_frame_size).0;
        let most = Raw::of_ushort(settings.channel_max).0;
        let id = text(0xa1, &settings.container_id);
        let idle = settings.idle_time_out.map(|idle| Raw::of_uint(idle).0);
        let mut fields: Vec<&[u8]> = vec![&id, b"\x40", &size, &most];
        fields.extend(idle.as_deref());
        let bytes = self.limited(frame(0, &crate::events::body(16, &fields)))?;
        self.state = next;
        Ok(bytes)
    }

    fn send_close(&mut self, error: Option<(&[u8], Option<&[u8]>)>) -> Result<Vec<u8>, u8> {
        let next = match (self.state, error.is_some()) {
            (OPENED, false) => CLOSE_SENT,
            (OPEN_SENT, false) => CLOSE_PIPE,
            (OPEN_PIPE, false) => OPEN_CLOSE_PIPE,
            (OPENED | OPEN_SENT | OPEN_PIPE, true) => DISCARDING,
            (CLOSE_RECEIVED, _) => END,
            _ => return Err(20),
        };
        let bytes = self.limited(frame(0, &close_body(error)))?;
        self.state = next;
        Ok(bytes)
    }

    fn send_session_frame(&mut self, bytes: &[u8]) -> Result<Vec<u8>, u8> {
        let (read, body) = session_frame(self.highest(), bytes)?;
        if ![OPENED, CLOSE_RECEIVED].contains(&self.state) {
            return Err(20);
        }
        let mut tie = None;
        if let (Role::Listener, Performative::Begin(begin)) = (self.role, &body.read) {
            if let Some(remote) = begin.remote_channel {
                tie = Some((remote, (read.channel, *self.taken.get(&read.channel).ok_or(24)?)));
            }
        }
        let written = self.limited(frame(read.channel, &written_body(&body)))?;
        self.ties.extend(tie);
        Ok(written)
    }

    fn allocate(&mut self, handle: u32) -> Result<u16, u8> {
        if [CLOSE_SENT, DISCARDING, END].contains(&self.state) {
            return Err(22);
        }
        let list = self.hand_out.as_mut().ok_or(21)?;
        let channel = list.pop_front().ok_or(23)?;
        self.taken.insert(channel, handle);
        Ok(channel)
    }

    fn deallocate(&mut self, channel: u16) -> Result<u32, u8> {
        let handle = self.taken.remove(&channel).ok_or(26)?;
        self.ties.retain(|_, (outgoing, _)| *outgoing != channel);
        self.hand_out.as_mut().expect("channels are taken after the peer's Open").push_front(channel);
        Ok(handle)
    }

    fn receive(&mut self, bytes: &[u8], spare: u32) -> Inner {
        let read = read_frame(self.reading_limit, self.highest(), bytes)?;
        let Some(body) = &read.body else { return Ok(kind(6)) };
        if body.code == 24 {
            return self.receive_close(!body.fields.first().map_or(true, Raw::is_null));
        }
        if self.state == DISCARDING {
            return Ok(kind(6));
        }
        if let Performative::Open(open) = &body.read {
            return self.receive_open(open.max_frame_size.0, open.channel_max.0, open.idle_time_out.unwrap_or(0));
        }
        if self.state != OPENED {
            return Err(20);
        }
        let place = (8, read.size - 8);
        let forward = |handle| Reply { kind: 9, detail: body.code, number: handle, body: place, ..Reply::default() };
        match &body.read {
            Performative::Begin(begin) => match begin.remote_channel {
                Some(remote) => {
                    let handle = *self.taken.get(&remote).ok_or(24)?;
                    self.ties.insert(read.channel, (remote, handle));
                    Ok(forward(handle))
                }
                None if self.role == Role::Dialler => Err(25),
                None => {
                    let channel = self.allocate(spare).map_err(|_| 25)?;
                    self.ties.insert(read.channel, (channel, spare));
                    Ok(Reply { kind: 10, detail: 17, channel, number: spare, body: place, ..Reply::default() })
                }
            },
            Performative::End(_) => self.ties.remove(&read.channel).map(|(_, handle)| forward(handle)).ok_or(24),
            _ => self.ties.get(&read.channel).map(|(_, handle)| forward(*handle)).ok_or(24),
        }
    }

    fn receive_open(&mut self, size: u32, most: u16, idle: u32) -> Inner {
        self.state = match self.state {
            HEADER_EXCHANGE => OPEN_RECEIVED,
            OPEN_SENT => OPENED,
            CLOSE_PIPE => CLOSE_SENT,
            _ => return Err(20),
        };
        let agreed = most.min(self.highest());
        self.agreed = Some(agreed);
        self.hand_out = Some((0..=agreed).collect());
        self.writing_limit = size.clamp(512, 16384) as usize;
        self.reading_limit = self.settings.max_frame_size as usize;
        Ok(Reply { number: idle, ..kind(7) })
    }

    fn receive_close(&mut self, error: bool) -> Inner {
        self.state = match self.state {
            OPENED | OPEN_PIPE | OPEN_CLOSE_PIPE | OPEN_RECEIVED | OPEN_SENT => CLOSE_RECEIVED,
            CLOSE_SENT | DISCARDING => END,
            _ => return Err(20),
        };
        Ok(Reply { detail: error as u8, ..kind(8) })
    }

    // ---- the engine

    fn settle(&mut self) {
        if self.state == END {
            self.phase = Phase::Stopped(FINE);
        }
    }

    fn read_fault(&self, refusal: u8) -> Option<Fault> {
        match (refusal, self.role) {
            (20, _) => Some(fault(ILLEGAL_STATE, "amqp:illegal-state", None)),
            (24, _) => Some(fault(NOT_FOUND, "amqp:not-found", None)),
            (25, Role::Dialler) => {
                Some(fault(NOT_IMPLEMENTED, "amqp:not-implemented", Some("Remotely initiazted session is not supported yet")))
            }
            (25, Role::Listener) => Some(fault(NOT_IMPLEMENTED, "amqp:not-implemented", None)),
            _ => None,
        }
    }

    fn send_fault(refusal: u8) -> Option<Fault> {
        match refusal {
            20 => Some(fault(ILLEGAL_STATE, "amqp:illegal-state", None)),
            24 => Some(fault(NOT_FOUND, "amqp:not-found", Some("Outgoing channel is not found"))),
            _ => None,
        }
    }

    /// The error path.
    fn fail(&mut self, fault: Option<Fault>) -> Vec<u8> {
        let Some(fault) = fault else {
            self.phase = Phase::Stopped(TRANSPORT);
            return Vec::new();
        };
        match self.send_close(Some((&fault.condition, fault.description.as_deref()))) {
            Ok(bytes) => {
                let over = self.state == END;
                self.phase = if over { Phase::Stopped(fault.outcome) } else { Phase::Awaiting(fault.outcome) };
                bytes
            }
            Err(20) => {
                self.phase = match self.state {
                    CLOSE_PIPE | CLOSE_SENT | DISCARDING => Phase::Awaiting(fault.outcome),
                    END => Phase::Stopped(fault.outcome),
                    _ => Phase::Stopped(ILLEGAL_STATE),
                };
                Vec::new()
            }
            Err(_) => {
                self.phase = Phase::Stopped(TRANSPORT);
                Vec::new()
            }
        }
    }

    /// Session frames and then a Close, up to the first that is refused.
    fn send_all(&mut self, waiting: &[&[u8]], error: Option<(&[u8], Option<&[u8]>)>) -> (Vec<u8>, Result<usize, u8>) {
        let mut written = Vec::new();
        for bytes in waiting {
            match self.send_session_frame(bytes) {
                Ok(bytes) => written.extend(bytes),
                Err(refusal) => return (written, Err(refusal)),
            }
        }
        match self.send_close(error) {
            Ok(bytes) => {
                written.extend(bytes);
                (written, Ok(0))
            }
            Err(refusal) => (written, Err(refusal)),
        }
    }

    fn incoming(&mut self, bytes: &[u8], spare: u32, waiting: &[u8]) -> Result<Reply, u8> {
        if let Phase::Stopped(_) = self.phase {
            return Err(20);
        }
        if read_frame(self.reading_limit, self.highest(), bytes).err() == Some(1) {
            return Err(1);
        }
        let waiting = session_frames(self.highest(), waiting)?;
        let closes =
            read_frame(self.reading_limit, self.highest(), bytes).is_ok_and(|frame| frame.body.is_some_and(|body| body.code == 24));
        let inner = self.receive(bytes, spare);
        let consumed = match inner {
            Err(3 | 4) => 0,
            _ => u32::from_be_bytes(bytes[..4].try_into().unwrap()) as usize,
        };
        let written = match self.phase {
            Phase::Awaiting(kept) => {
                self.awaited(kept, &inner);
                Vec::new()
            }
            _ if closes && self.state == CLOSE_RECEIVED => self.answer_close(&inner, &waiting),
            _ => self.received(&inner),
        };
        let reply = inner.unwrap_or_else(|refusal| Reply { detail: refusal, ..kind(1) });
        Ok(Reply { consumed, written, ..reply })
    }

    fn received(&mut self, inner: &Inner) -> Vec<u8> {
        match inner {
            Err(refusal) => {
                let fault = self.read_fault(*refusal);
                self.fail(fault)
            }
            Ok(reply) if reply.kind == 8 => {
                self.phase = Phase::Stopped(if reply.detail == 1 { REMOTE_CLOSED_WITH_ERROR } else { FINE });
                Vec::new()
            }
            Ok(_) => {
                self.settle();
                Vec::new()
            }
        }
    }

    fn answer_close(&mut self, inner: &Inner, waiting: &[&[u8]]) -> Vec<u8> {
        let (mut written, last) = self.send_all(waiting, None);
        match (last, inner) {
            (Err(refusal), _) => written.extend(self.fail(Self::send_fault(refusal))),
            (Ok(_), Err(refusal)) => {
                let outcome = self.read_fault(*refusal).map_or(TRANSPORT, |fault| fault.outcome);
                self.phase = Phase::Stopped(outcome);
            }
            (Ok(_), Ok(reply)) => {
                let outcome = if reply.detail == 1 { REMOTE_CLOSED_WITH_ERROR } else { REMOTE_CLOSED };
                self.phase = Phase::Stopped(outcome);
            }
        }
        written
    }

    fn awaited(&mut self, kept: u8, inner: &Inner) {
        match inner {
            Err(refusal) => {
                let outcome = self.read_fault(*refusal).map_or(TRANSPORT, |fault| fault.outcome);
                self.phase = Phase::Stopped(outcome);
            }
            Ok(reply) if reply.kind == 8 => {
                let outcome = match (reply.detail, self.state) {
                    (1, _) => REMOTE_CLOSED_WITH_ERROR,
                    (_, CLOSE_RECEIVED) => REMOTE_CLOSED,
                    _ => kept,
                };
                self.phase = Phase::Stopped(outcome);
            }
            Ok(_) => {}
        }
    }

    fn order(&mut self, written: Vec<u8>, last: Result<usize, u8>) -> Reply {
        let mut written = written;
        let reply = match last {
            Ok(_) => {
                self.settle();
                kind(2)
            }
            Err(refusal) => {
                written.extend(self.fail(Self::send_fault(refusal)));
                Reply { detail: refusal, ..kind(1) }
            }
        };
        Reply { written, ..reply }
    }

    fn end_of_input(&mut self) -> Result<Reply, u8> {
        let written = match self.phase {
            Phase::Stopped(_) => return Err(20),
            Phase::Awaiting(_) => {
                self.phase = Phase::Stopped(TRANSPORT);
                Vec::new()
            }
            Phase::Running if [CLOSE_PIPE, DISCARDING, END].contains(&self.state) => {
                self.phase = Phase::Stopped(FINE);
                Vec::new()
            }
            Phase::Running => {
                let written = self.fail(Some(fault(ILLEGAL_STATE, "amqp:illegal-state", None)));
                if let Phase::Awaiting(_) = self.phase {
                    self.phase = Phase::Stopped(TRANSPORT);
                }
                written
            }
        };
        Ok(Reply { written, ..kind(0) })
    }

    fn not_delivered(&mut self, new_session: bool) -> Reply {
        let fault = match (self.role, new_session) {
            (Role::Listener, true) => fault(NOT_IMPLEMENTED, "amqp:not-implemented", None),
            _ => fault(NOT_FOUND, "amqp:not-found", Some("Session is not found")),
        };
        Reply { written: self.fail(Some(fault)), ..kind(0) }
    }

    fn judge(&mut self, event: &Event) -> Result<Reply, u8> {
        match event {
            Event::Incoming { frame, spare, waiting } => return self.incoming(frame, *spare, waiting),
            Event::EndOfInput => return self.end_of_input(),
            _ if self.phase != Phase::Running => return Err(20),
            _ => {}
        }
        match event {
            Event::SendHeader => self.send_header().map(|written| Reply { written, ..kind(2) }),
            Event::ReceiveHeader(bytes) => self.receive_header(bytes).map(|reply| Reply { consumed: 8, ..reply }),
            Event::SendOpen => self.send_open().map(|written| Reply { written, ..kind(2) }),
            Event::Close { waiting } => self.close(None, waiting),
            Event::CloseWithError { condition, description, waiting } => self.close(Some((condition, description.as_deref())), waiting),
            Event::Allocate(handle) => self.allocate(*handle).map(|channel| Reply { channel, ..kind(11) }),
            Event::Deallocate(channel) => {
                let number = self.deallocate(*channel)?;
                self.settle();
                Ok(Reply { number, ..kind(12) })
            }
            Event::Outgoing(frame) => self.outgoing(frame),
            Event::Tick => Ok(self.tick()),
            Event::NotDelivered { new_session } => Ok(self.not_delivered(*new_session)),
            Event::Incoming { .. } | Event::EndOfInput => unreachable!("these were taken above"),
        }
    }

    fn close(&mut self, error: Option<(&[u8], Option<&[u8]>)>, waiting: &[u8]) -> Result<Reply, u8> {
        let waiting = session_frames(self.highest(), waiting)?;
        let (written, last) = self.send_all(&waiting, error);
        Ok(self.order(written, last))
    }

    fn outgoing(&mut self, frame: &[u8]) -> Result<Reply, u8> {
        session_frame(self.highest(), frame)?;
        let (written, last) = match self.send_session_frame(frame) {
            Ok(bytes) => (bytes, Ok(0)),
            Err(refusal) => (Vec::new(), Err(refusal)),
        };
        Ok(self.order(written, last))
    }

    fn tick(&mut self) -> Reply {
        match self.state {
            END => {
                self.settle();
                kind(3)
            }
            START | CLOSE_SENT => kind(2),
            _ => Reply { written: frame(0, &[]), ..kind(2) },
        }
    }
}

impl Port for Definition {
    fn event(&mut self, event: &Event) -> Reply {
        match self.judge(event) {
            Err(refused) => Reply { refused, ..Reply::default() },
            Ok(reply) => match self.phase {
                Phase::Stopped(outcome) => Reply { stopped: true, outcome, ..reply },
                _ => reply,
            },
        }
    }

    fn status(&self) -> Status {
        let (phase, outcome) = match self.phase {
            Phase::Running => (0, 0),
            Phase::Awaiting(outcome) => (1, outcome),
            Phase::Stopped(outcome) => (2, outcome),
        };
        Status {
            phase,
            outcome,
            state: self.state,
            reading_limit: self.reading_limit,
            writing_limit: self.writing_limit,
            agreed: self.agreed,
            taken: self.taken.len(),
        }
    }

    fn handle_at(&self, channel: u16) -> Option<u32> {
        self.taken.get(&channel).copied()
    }

    fn tied_handle(&self, channel: u16) -> Option<u32> {
        self.ties.get(&channel).map(|(_, handle)| *handle)
    }

    fn held(&self) -> Held {
        let taken = self.taken.iter().map(|(channel, handle)| (*channel, *handle)).collect();
        let ties = self.ties.iter().map(|(channel, (_, handle))| (*channel, *handle)).collect();
        let through = self.ties.iter().map(|(channel, (outgoing, _))| (*channel, *outgoing)).collect();
        Held { taken, ties, through, hand_out: self.hand_out.clone().map(Vec::from) }
    }

    fn given(&self) -> Option<Vec<u16>> {
        let allowed = self.phase == Phase::Running && ![CLOSE_SENT, DISCARDING, END].contains(&self.state);
        self.hand_out.clone().filter(|_| allowed).map(Vec::from)
    }
}
