//! Copying, as the limit; and the port through its C interface: an engine, and where its archive is there, the codec alone.

use std::hint::black_box;

#[cfg(feature = "frame-reader")]
use crate::stream::session_of;
use crate::stream::{Stream, Tally, HEADER, MAX_FRAME_SIZE};
use crate::Contender;

/// The fixed part of a state, and a channel's place in its tables.
const FIXED: usize = 300;
const PLACE: usize = 28;
const ROOM: usize = 16384;
const OPENED: u8 = 7;
const FORWARD: u8 = 9;
const BEGAN: u8 = 10;
const TRANSFER: u8 = 20;

#[rustfmt::skip]
extern "C" {
    fn hisproat_listener(state: *mut u8, n: usize, id: *const u8, m: usize, max_frame_size: u32, channel_max: u16, has_idle: u8, idle: u32) -> u8;
    fn hisproat_send_header(state: *mut u8, n: usize, output: *mut u8, o: usize, answer: *mut u8, a: usize) -> u8;
    fn hisproat_receive_header(state: *mut u8, n: usize, input: *const u8, i: usize, answer: *mut u8, a: usize) -> u8;
    fn hisproat_send_open(state: *mut u8, n: usize, output: *mut u8, o: usize, answer: *mut u8, a: usize) -> u8;
    fn hisproat_on_incoming(state: *mut u8, n: usize, frame: *const u8, f: usize, spare: u32, waiting: *const u8, w: usize,
                            output: *mut u8, o: usize, answer: *mut u8, a: usize) -> u8;
    #[cfg(feature = "frame-reader")]
    fn hisproat_read_frame(frame: *const u8, f: usize, reading_limit: u32, channel_max: u16, answer: *mut u8, a: usize) -> u8;
}

fn number(bytes: &[u8]) -> usize {
    bytes.iter().fold(0, |sum, byte| sum << 8 | *byte as usize)
}

/// The stream is copied in one go.
#[derive(Default)]
pub struct Copy(Vec<u8>);

impl Contender for Copy {
    /// Every byte is another one, and both places are in the caches, as far as they go there.
    fn set_up(&mut self, stream: &Stream) {
        self.0.clear();
        self.0.extend(stream.measured().iter().map(|byte| !byte));
    }

    fn read(&mut self, stream: &Stream) {
        black_box(&mut self.0[..]).copy_from_slice(black_box(stream.measured()));
    }

    fn check(&mut self, stream: &Stream) {
        assert!(self.0 == stream.measured(), "a copy of the stream");
    }
}

/// Each frame is read by the codec: its length, channel, performative, and where its payload starts.
#[cfg(feature = "frame-reader")]
#[derive(Default)]
pub struct Codec(Tally);

#[cfg(feature = "frame-reader")]
impl Contender for Codec {
    fn set_up(&mut self, _: &Stream) {
        self.0 = Tally::default();
    }

    fn read(&mut self, stream: &Stream) {
        let (mut rest, highest) = (stream.measured(), stream.channel_max());
        let mut answer = [0; 27];
        while !rest.is_empty() {
            // The slices are whole and apart from each other.
            let refused = unsafe { hisproat_read_frame(rest.as_ptr(), rest.len(), MAX_FRAME_SIZE, highest, answer.as_mut_ptr(), 27) };
            assert_eq!(refused, 0, "a good frame");
            // The size has 32 bits: the last four of its bytes.
            let (body, end, size) = (number(&answer[3..11]), number(&answer[11..19]), number(&answer[23..]));
            match answer[0] {
                TRANSFER => self.0.transfer(session_of(number(&answer[1..3]) as u16), size - body - end, rest[size - 1]),
                _ => self.0.others += 1,
            }
            rest = &rest[size..];
        }
    }

    fn check(&mut self, stream: &Stream) {
        assert_eq!(self.0, stream.payloads(), "what the codec saw");
    }
}

/// Each frame is an event of an engine whose state is lent bytes.
pub struct Port {
    state: Vec<u8>,
    output: [u8; ROOM],
    answer: [u8; 42],
    tally: Tally,
}

impl Default for Port {
    fn default() -> Self {
        Port { state: Vec::new(), output: [0; ROOM], answer: [0; 42], tally: Tally::default() }
    }
}

impl Port {
    /// A frame at the front of the bytes came. Answers what became of it.
    fn incoming(&mut self, bytes: &[u8], spare: u32) -> u8 {
        let (s, o, a) = (self.state.as_mut_ptr(), self.output.as_mut_ptr(), self.answer.as_mut_ptr());
        let (n, none) = (self.state.len(), b"");
        // The slices are whole and apart from each other.
        let refused = unsafe { hisproat_on_incoming(s, n, bytes.as_ptr(), bytes.len(), spare, none.as_ptr(), 0, o, ROOM, a, 42) };
        assert_eq!(refused, 0, "a good frame");
        self.answer[2]
    }
}

impl Contender for Port {
    fn set_up(&mut self, stream: &Stream) {
        let highest = stream.channel_max();
        *self = Port { state: vec![0; FIXED + PLACE * (highest as usize + 1)], ..Port::default() };
        let (s, n) = (self.state.as_mut_ptr(), self.state.len());
        let (o, a) = (self.output.as_mut_ptr(), self.answer.as_mut_ptr());
        // The slices are whole and apart from each other.
        let refused = unsafe {
            [
                hisproat_listener(s, n, b"hub".as_ptr(), 3, MAX_FRAME_SIZE, highest, 0, 0),
                hisproat_receive_header(s, n, HEADER.as_ptr(), HEADER.len(), a, 42),
                hisproat_send_header(s, n, o, ROOM, a, 42),
                hisproat_send_open(s, n, o, ROOM, a, 42),
            ]
        };
        assert_eq!(refused, [0; 4], "an opening");
        let mut sessions = 0;
        for frame in stream.opening() {
            match self.incoming(frame, sessions) {
                BEGAN => sessions += 1,
                kind => assert!(kind == OPENED || kind == FORWARD, "an opening"),
            }
        }
    }

    fn read(&mut self, stream: &Stream) {
        let mut rest = stream.measured();
        while !rest.is_empty() {
            assert_eq!(self.incoming(rest, 0), FORWARD, "a session's frame");
            let at = |from: usize, to: usize| number(&self.answer[from..to]);
            let (handle, start, length, consumed) = (at(6, 10), at(10, 18), at(18, 26), at(26, 34));
            match self.answer[3] {
                TRANSFER => self.tally.transfer(handle, length, rest[start + length - 1]),
                _ => self.tally.others += 1,
            }
            rest = &rest[consumed..];
        }
    }

    fn check(&mut self, stream: &Stream) {
        assert_eq!(self.tally, stream.bodies(), "what the port saw");
    }
}
