//! The published Rust through the oracle's driver.

use fe2o3_amqp::auth::{Event, Inner, Mode, Oracle, Role, Settings};

use crate::stream::{Stream, Tally, HEADER, MAX_FRAME_SIZE};
use crate::Contender;

/// Each frame is an event of the oracle.
#[derive(Default)]
pub struct Rust {
    oracle: Option<Oracle>,
    tally: Tally,
}

impl Contender for Rust {
    fn set_up(&mut self, stream: &Stream) {
        let (container_id, max_frame_size) = (b"hub".to_vec(), MAX_FRAME_SIZE);
        let settings = Settings { container_id, max_frame_size, channel_max: stream.channel_max(), idle_time_out: None };
        let mut oracle = Oracle::new(Role::Listener, &settings, Mode::Calls);
        for event in [Event::ReceiveHeader(HEADER), Event::SendHeader, Event::SendOpen] {
            oracle.event(event);
        }
        let mut sessions = 0;
        for frame in stream.opening() {
            match oracle.event(Event::Incoming { frame, spare: sessions, waiting: &[] }).inner {
                Inner::Opened { .. } => oracle.adopt_limits(MAX_FRAME_SIZE, MAX_FRAME_SIZE),
                Inner::Began { .. } => sessions += 1,
                inner => assert!(matches!(inner, Inner::Forward { code: 18, .. }), "{inner:?}"),
            }
        }
        *self = Rust { oracle: Some(oracle), tally: Tally::default() };
    }

    fn read(&mut self, stream: &Stream) {
        let oracle = self.oracle.as_mut().expect("set up");
        for frame in stream.frames() {
            let answer = oracle.event(Event::Incoming { frame, spare: 0, waiting: &[] });
            match answer.inner {
                Inner::Forward { code: 20, handle } => self.tally.transfer(handle as usize, answer.consumed, 0),
                Inner::Forward { .. } => self.tally.others += 1,
                inner => panic!("a session's frame: {inner:?}"),
            }
        }
    }

    /// An answer has a frame's length and no payload.
    fn check(&mut self, stream: &Stream) {
        assert_eq!(self.tally, stream.tally(|transfer| (transfer.frame.len(), 0)), "what the Rust saw");
    }
}
