//! The stream that every contender reads, a peer's whole side of a conversation, the same in every run; and what is to be seen in it.

use std::ops::Range;

use crate::events::{body, frame, ushort};

/// So many sessions has the stream that everybody reads.
pub const SESSIONS: usize = 8;
pub const MAX_FRAME_SIZE: u32 = 4096;
pub const HEADER: &[u8] = b"AMQP\x00\x01\x00\x00";

/// The peer's channel of a session. The link on it has the session's number as its handle.
fn channel_of(session: usize) -> u16 {
    session as u16 + 1
}

pub fn session_of(channel: u16) -> usize {
    channel as usize - 1
}

/// What was seen: of each session how many Transfers, and a digest of their lengths and last bytes in order; and how many other frames.
/// Of more than eight sessions several are counted together, with their numbers in the digest.
#[derive(Debug, Default, PartialEq, Eq)]
pub struct Tally {
    transfers: [u64; SESSIONS],
    digests: [u64; SESSIONS],
    pub others: u64,
}

impl Tally {
    pub fn transfer(&mut self, session: usize, length: usize, last: u8) {
        let at = session % SESSIONS;
        self.transfers[at] += 1;
        let seen = (session as u64) << 40 | (length as u64 * 256 + last as u64);
        self.digests[at] = self.digests[at].wrapping_mul(31).wrapping_add(seen);
    }
}

pub struct Transfer {
    pub session: usize,
    pub frame: Range<usize>,
    /// Where the payload starts.
    pub payload: usize,
}

/// A header and frames. The first frames are an Open, and a Begin and an Attach for each session; the others are measured.
pub struct Stream {
    pub bytes: Vec<u8>,
    frames: Vec<Range<usize>>,
    pub transfers: Vec<Transfer>,
    sessions: usize,
}

impl Stream {
    /// So many Transfers on so many sessions, with a payload of about so many bytes: lengths vary by an eighth, that one in another's place is noticed.
    /// After each fifty come a Flow and a Disposition.
    pub fn new(transfers: usize, payload: usize, sessions: usize) -> Self {
        let mut stream = Stream { bytes: HEADER.to_vec(), frames: Vec::new(), transfers: Vec::new(), sessions };
        stream.open();
        let mut dice = 1;
        let mut sent = vec![0; sessions];
        for at in 1..=transfers {
            let session = roll(&mut dice) % sessions;
            let length = payload - payload / 8 + roll(&mut dice) % (payload / 4 + 1);
            stream.transfer(session, sent[session], length, &mut dice);
            sent[session] += 1;
            if at % 50 == 0 {
                stream.between(session, sent[session]);
            }
        }
        stream
    }

    /// The channel-max of both sides.
    pub fn channel_max(&self) -> u16 {
        self.sessions.max(255) as u16
    }

    /// How many frames there are before those that are measured.
    pub fn before(&self) -> usize {
        1 + 2 * self.sessions
    }

    pub fn opening(&self) -> impl Iterator<Item = &[u8]> {
        self.frames[..self.before()].iter().map(|place| &self.bytes[place.clone()])
    }

    /// The frames that are measured, one by one, and all together.
    pub fn frames(&self) -> impl Iterator<Item = &[u8]> {
        self.frames[self.before()..].iter().map(|place| &self.bytes[place.clone()])
    }

    pub fn measured(&self) -> &[u8] {
        &self.bytes[self.frames[self.before()].start..]
    }

    /// What somebody must have seen who tells this length and last byte of each Transfer.
    pub fn tally(&self, told: impl Fn(&Transfer) -> (usize, u8)) -> Tally {
        let mut tally = Tally { others: (self.frames.len() - self.before() - self.transfers.len()) as u64, ..Tally::default() };
        for transfer in &self.transfers {
            let (length, last) = told(transfer);
            tally.transfer(transfer.session, length, last);
        }
        tally
    }

    pub fn bodies(&self) -> Tally {
        self.tally(|transfer| (transfer.frame.len() - 8, self.bytes[transfer.frame.end - 1]))
    }

    pub fn payloads(&self) -> Tally {
        self.tally(|transfer| (transfer.frame.end - transfer.payload, self.bytes[transfer.frame.end - 1]))
    }

    fn lay(&mut self, channel: u16, body: &[u8]) -> Range<usize> {
        let start = self.bytes.len();
        self.bytes.extend(frame(channel, body));
        self.frames.push(start..self.bytes.len());
        start..self.bytes.len()
    }

    fn open(&mut self) {
        self.lay(0, &body(16, &[b"\xa1\x04pads", b"\x40", &uint(MAX_FRAME_SIZE), &ushort(self.channel_max())]));
        for session in 0..self.sessions {
            self.lay(channel_of(session), &body(17, &[b"\x40", b"\x43", &uint(2048), &uint(2048)]));
            let name = format!("press{session}");
            let (name, handle) = ([&[0xa1, name.len() as u8], name.as_bytes()].concat(), uint(session as u32));
            let (source, target) = (body(0x28, &[b"\xa1\x03pad"]), body(0x29, &[b"\xa1\x03hub"]));
            let attach: [&[u8]; 10] = [&name, &handle, b"\x42", b"\x50\x01", b"\x50\x00", &source, &target, b"\x40", b"\x40", b"\x43"];
            self.lay(channel_of(session), &body(18, &attach));
        }
    }

    /// Handle, delivery-id, tag, format and settled; the payload is a data section.
    fn transfer(&mut self, session: usize, id: u32, length: usize, dice: &mut u64) {
        let tag = [b"\xa0\x04", &id.to_be_bytes()[..]].concat();
        let mut bytes = body(20, &[&uint(session as u32), &uint(id), &tag, b"\x43", b"\x41"]);
        let performative = bytes.len();
        bytes.extend(b"\x00\x53\x75\xb0");
        bytes.extend((length as u32 - 8).to_be_bytes());
        while bytes.len() < performative + length {
            bytes.push(roll(dice) as u8);
        }
        let frame = self.lay(channel_of(session), &bytes);
        self.transfers.push(Transfer { session, payload: frame.start + 8 + performative, frame });
    }

    /// A Flow of the sender, and a Disposition that settles what is settled already.
    fn between(&mut self, session: usize, sent: u32) {
        let (handle, count, last, window) = (uint(session as u32), uint(sent), uint(sent - 1), uint(2048));
        self.lay(channel_of(session), &body(19, &[b"\x43", &window, &count, &window, &handle, &count, &uint(1000)]));
        self.lay(channel_of(session), &body(21, &[b"\x42", &last, &last, b"\x41", b"\x00\x53\x24\x45"]));
    }
}

/// A uint by its shortest constructor.
fn uint(value: u32) -> Vec<u8> {
    match value {
        0 => vec![0x43],
        1..=255 => vec![0x52, value as u8],
        _ => [&[0x70][..], &value.to_be_bytes()].concat(),
    }
}

fn roll(dice: &mut u64) -> usize {
    *dice = dice.wrapping_mul(6364136223846793005).wrapping_add(1442695040888963407);
    (*dice >> 33) as usize
}
