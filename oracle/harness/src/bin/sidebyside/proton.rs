//! Qpid Proton: its engine up to delivery, and its decoder of values on each Transfer's body.

use std::ffi::{c_char, c_int, CStr};
use std::ptr::null_mut;

use crate::stream::{session_of, Stream, Tally, MAX_FRAME_SIZE, SESSIONS};
use crate::Contender;

/// So many bytes are pushed at a time, as a socket would give them.
const PIECE: usize = 4096;

/// An object of Proton's: it is only pointed to.
#[repr(C)]
pub struct Object([u8; 0]);
type Pointer = *mut Object;

#[rustfmt::skip]
extern "C" {
    fn pn_transport() -> Pointer;
    fn pn_transport_set_server(transport: Pointer);
    fn pn_transport_set_max_frame(transport: Pointer, size: u32);
    fn pn_transport_bind(transport: Pointer, connection: Pointer) -> c_int;
    fn pn_transport_push(transport: Pointer, bytes: *const u8, n: usize) -> isize;
    fn pn_transport_pending(transport: Pointer) -> isize;
    fn pn_transport_pop(transport: Pointer, n: usize);
    fn pn_transport_get_frames_input(transport: Pointer) -> u64;
    fn pn_transport_free(transport: Pointer);
    fn pn_connection() -> Pointer;
    fn pn_connection_open(connection: Pointer);
    fn pn_connection_free(connection: Pointer);
    fn pn_session_open(session: Pointer);
    fn pn_link_head(connection: Pointer, state: c_int) -> Pointer;
    fn pn_link_next(link: Pointer, state: c_int) -> Pointer;
    fn pn_link_session(link: Pointer) -> Pointer;
    fn pn_link_name(link: Pointer) -> *const c_char;
    fn pn_link_open(link: Pointer);
    fn pn_link_flow(link: Pointer, credit: c_int);
    fn pn_link_set_context(link: Pointer, context: usize);
    fn pn_link_get_context(link: Pointer) -> usize;
    fn pn_link_recv(link: Pointer, bytes: *mut u8, n: usize) -> isize;
    fn pn_work_head(connection: Pointer) -> Pointer;
    fn pn_delivery_link(delivery: Pointer) -> Pointer;
    fn pn_delivery_settle(delivery: Pointer);
    fn pn_data(capacity: usize) -> Pointer;
    fn pn_data_clear(data: Pointer);
    fn pn_data_decode(data: Pointer, bytes: *const u8, n: usize) -> isize;
    fn pn_data_rewind(data: Pointer);
    fn pn_data_next(data: Pointer) -> bool;
    fn pn_data_enter(data: Pointer) -> bool;
    fn pn_data_get_ulong(data: Pointer) -> u64;
    fn pn_data_get_uint(data: Pointer) -> u32;
}

/// A hub's transport and connection. Every pointer is Proton's own, and lives until the next set-up.
pub struct Engine {
    transport: Pointer,
    connection: Pointer,
    payload: [u8; PIECE],
    tally: Tally,
}

impl Engine {
    pub fn new() -> Self {
        Engine { transport: null_mut(), connection: null_mut(), payload: [0; PIECE], tally: Tally::default() }
    }

    fn push(&mut self, mut bytes: &[u8]) {
        while !bytes.is_empty() {
            let taken = unsafe { pn_transport_push(self.transport, bytes.as_ptr(), bytes.len()) };
            assert!(taken > 0, "Proton reads on");
            bytes = &bytes[taken as usize..];
        }
    }

    /// What Proton writes is thrown away. Settled deliveries are freed by this.
    fn pop(&mut self) {
        let pending = || unsafe { pn_transport_pending(self.transport) };
        while pending() > 0 {
            unsafe { pn_transport_pop(self.transport, pending() as usize) };
        }
    }

    /// Receives and settles every delivery that is there.
    fn receive(&mut self) {
        unsafe {
            let mut delivery = pn_work_head(self.connection);
            while !delivery.is_null() {
                let link = pn_delivery_link(delivery);
                let length = pn_link_recv(link, self.payload.as_mut_ptr(), self.payload.len()) as usize;
                self.tally.transfer(pn_link_get_context(link), length, self.payload[length - 1]);
                pn_delivery_settle(delivery);
                delivery = pn_work_head(self.connection);
            }
        }
    }

    /// The hub's own Open, Begins, Attaches and credit. A link's name ends with its session's number.
    unsafe fn open(&mut self) {
        pn_connection_open(self.connection);
        let (mut link, mut links) = (pn_link_head(self.connection, 0), 0);
        while !link.is_null() {
            let name = CStr::from_ptr(pn_link_name(link)).to_bytes();
            pn_link_set_context(link, (name[name.len() - 1] - b'0') as usize);
            pn_session_open(pn_link_session(link));
            pn_link_open(link);
            pn_link_flow(link, 1_000_000);
            link = pn_link_next(link, 0);
            links += 1;
        }
        assert_eq!(links, SESSIONS, "a link on each session");
    }
}

impl Contender for Engine {
    fn set_up(&mut self, stream: &Stream) {
        unsafe {
            pn_transport_free(self.transport);
            if !self.connection.is_null() {
                pn_connection_free(self.connection);
            }
            (self.transport, self.connection, self.tally) = (pn_transport(), pn_connection(), Tally::default());
            pn_transport_set_server(self.transport);
            pn_transport_set_max_frame(self.transport, MAX_FRAME_SIZE);
            pn_transport_bind(self.transport, self.connection);
            self.push(&stream.bytes[..stream.bytes.len() - stream.measured().len()]);
            self.open();
        }
        self.pop();
    }

    fn read(&mut self, stream: &Stream) {
        for piece in stream.measured().chunks(PIECE) {
            self.push(piece);
            self.receive();
            self.pop();
        }
    }

    fn check(&mut self, stream: &Stream) {
        let frames = unsafe { pn_transport_get_frames_input(self.transport) };
        self.tally.others = frames - (stream.before() + stream.transfers.len()) as u64;
        assert_eq!(self.tally, stream.payloads(), "what Proton's engine saw");
    }
}

/// The body of each Transfer, and nothing else, is decoded into Proton's tree of values.
pub struct Decoder {
    data: Pointer,
    tally: Tally,
}

impl Decoder {
    pub fn new() -> Self {
        Decoder { data: unsafe { pn_data(16) }, tally: Tally::default() }
    }

    /// Decodes the first value of a body. Answers how long it is.
    fn decode(&mut self, body: &[u8]) -> usize {
        unsafe {
            pn_data_clear(self.data);
            pn_data_decode(self.data, body.as_ptr(), body.len()) as usize
        }
    }

    /// The performative's code and the link's handle, in what was decoded last.
    fn told(&mut self) -> (u64, u32) {
        let data = self.data;
        unsafe {
            pn_data_rewind(data);
            let there = pn_data_next(data) && pn_data_enter(data) && pn_data_next(data);
            let code = pn_data_get_ulong(data);
            assert!(there && pn_data_next(data) && pn_data_enter(data) && pn_data_next(data), "a described list");
            (code, pn_data_get_uint(data))
        }
    }
}

impl Contender for Decoder {
    fn set_up(&mut self, _: &Stream) {
        self.tally = Tally::default();
    }

    fn read(&mut self, stream: &Stream) {
        for transfer in &stream.transfers {
            let frame = &stream.bytes[transfer.frame.clone()];
            let length = self.decode(&frame[8..]);
            let session = session_of(u16::from_be_bytes([frame[6], frame[7]]));
            self.tally.transfer(session, frame.len() - 8 - length, frame[frame.len() - 1]);
        }
    }

    /// Codes and handles are looked at here, where it is not measured.
    fn check(&mut self, stream: &Stream) {
        self.tally.others = stream.payloads().others;
        assert_eq!(self.tally, stream.payloads(), "what Proton's decoder saw");
        for transfer in &stream.transfers {
            self.decode(&stream.bytes[transfer.frame.start + 8..transfer.frame.end]);
            assert_eq!(self.told(), (20, transfer.session as u32), "a Transfer's code and handle");
        }
    }
}
