//! The port through its C interface (include/hisproat.h).

use crate::events::{Event, Held, Port, Reply, Status};
use fe2o3_amqp::auth::{Role, Settings};

/// The fixed part of a state, and a channel's place in the tables after it (crates/engine_bytes/specs/Bytes.antt, crates/channels/specs/Places.antt).
const FIXED: usize = 300;
const PLACE: usize = 28;
/// Fields of a place: of an outgoing channel the first incoming one that is tied through it; of an incoming channel the outgoing one, the next and the previous.
const FIRST: usize = 2;
const OUTGOING: usize = 3;
const NEXT: usize = 5;
const PREVIOUS: usize = 6;
/// The link of a taken channel.
const TAKEN: u32 = 65536;
const ANSWER: usize = 42;
const STATUS: usize = 19;
/// What lent bytes are before, the tables of a new engine too.
const FILL: u8 = 0xa5;
/// So many bytes stand after a state and are not lent.
const PAST: usize = 16;

extern "C" {
    fn hisproat_dialler(
        state: *mut u8,
        n: usize,
        id: *const u8,
        m: usize,
        max_frame_size: u32,
        channel_max: u16,
        has_idle: u8,
        idle: u32,
    ) -> u8;
    fn hisproat_listener(
        state: *mut u8,
        n: usize,
        id: *const u8,
        m: usize,
        max_frame_size: u32,
        channel_max: u16,
        has_idle: u8,
        idle: u32,
    ) -> u8;
    fn hisproat_send_header(state: *mut u8, n: usize, output: *mut u8, o: usize, answer: *mut u8, a: usize) -> u8;
    fn hisproat_receive_header(state: *mut u8, n: usize, input: *const u8, i: usize, answer: *mut u8, a: usize) -> u8;
    fn hisproat_send_open(state: *mut u8, n: usize, output: *mut u8, o: usize, answer: *mut u8, a: usize) -> u8;
    #[rustfmt::skip]
    fn hisproat_on_incoming(
        state: *mut u8,
        n: usize,
        frame: *const u8,
        f: usize,
        spare: u32,
        waiting: *const u8,
        w: usize,
        output: *mut u8,
        o: usize,
        answer: *mut u8,
        a: usize,
    ) -> u8;
    fn hisproat_on_close(
        state: *mut u8,
        n: usize,
        waiting: *const u8,
        w: usize,
        output: *mut u8,
        o: usize,
        answer: *mut u8,
        a: usize,
    ) -> u8;
    #[rustfmt::skip]
    fn hisproat_on_close_with_error(
        state: *mut u8,
        n: usize,
        condition: *const u8,
        c: usize,
        has_description: u8,
        description: *const u8,
        d: usize,
        waiting: *const u8,
        w: usize,
        output: *mut u8,
        o: usize,
        answer: *mut u8,
        a: usize,
    ) -> u8;
    fn hisproat_on_allocate(state: *mut u8, n: usize, handle: u32, answer: *mut u8, a: usize) -> u8;
    fn hisproat_on_deallocate(state: *mut u8, n: usize, channel: u16, answer: *mut u8, a: usize) -> u8;
    fn hisproat_on_outgoing(
        state: *mut u8,
        n: usize,
        frame: *const u8,
        f: usize,
        output: *mut u8,
        o: usize,
        answer: *mut u8,
        a: usize,
    ) -> u8;
    fn hisproat_on_tick(state: *mut u8, n: usize, output: *mut u8, o: usize, answer: *mut u8, a: usize) -> u8;
    fn hisproat_on_end_of_input(state: *mut u8, n: usize, output: *mut u8, o: usize, answer: *mut u8, a: usize) -> u8;
    fn hisproat_on_not_delivered(state: *mut u8, n: usize, new_session: u8, output: *mut u8, o: usize, answer: *mut u8, a: usize) -> u8;
    fn hisproat_status(state: *const u8, n: usize, answer: *mut u8, a: usize) -> u8;
    fn hisproat_handle_at(state: *const u8, n: usize, channel: u16, answer: *mut u8, a: usize) -> u8;
    fn hisproat_tied_handle(state: *const u8, n: usize, channel: u16, answer: *mut u8, a: usize) -> u8;
}

fn number(bytes: &[u8]) -> u64 {
    bytes.iter().fold(0, |sum, byte| sum << 8 | *byte as u64)
}

#[derive(Clone)]
pub struct Archive {
    /// The lent bytes, and those after them.
    state: Vec<u8>,
    /// The same before the last event, where it is watched.
    before: Vec<u8>,
    watched: bool,
}

impl Archive {
    pub fn new(role: Role, settings: &Settings) -> Self {
        let size = FIXED + PLACE * (settings.channel_max as usize + 1);
        let mut state = vec![FILL; size + PAST];
        let make = match role {
            Role::Dialler => hisproat_dialler,
            Role::Listener => hisproat_listener,
        };
        let (id, idle) = (&settings.container_id, settings.idle_time_out);
        // The slices are whole and apart from each other.
        let refused = unsafe {
            make(
                state.as_mut_ptr(),
                size,
                id.as_ptr(),
                id.len(),
                settings.max_frame_size,
                settings.channel_max,
                idle.is_some() as u8,
                idle.unwrap_or(0),
            )
        };
        assert_eq!(refused, 0, "settings within their limits");
        Archive { state, before: Vec::new(), watched: true }
    }

    /// How many bytes are lent: no more than an engine needs.
    fn size(&self) -> usize {
        self.state.len() - PAST
    }

    fn call(&mut self, event: &Event, output: &mut [u8], answer: &mut [u8]) -> u8 {
        let (s, o, a) = (self.state.as_mut_ptr(), output.as_mut_ptr(), answer.as_mut_ptr());
        let (n, on, an) = (self.size(), output.len(), answer.len());
        // The slices are whole and apart from each other.
        unsafe {
            match event {
                Event::SendHeader => hisproat_send_header(s, n, o, on, a, an),
                Event::ReceiveHeader(b) => hisproat_receive_header(s, n, b.as_ptr(), b.len(), a, an),
                Event::SendOpen => hisproat_send_open(s, n, o, on, a, an),
                Event::Incoming { frame: f, spare, waiting: w } => {
                    hisproat_on_incoming(s, n, f.as_ptr(), f.len(), *spare, w.as_ptr(), w.len(), o, on, a, an)
                }
                Event::Close { waiting: w } => hisproat_on_close(s, n, w.as_ptr(), w.len(), o, on, a, an),
                Event::CloseWithError { condition: c, description, waiting: w } => {
                    let d = description.as_deref().unwrap_or(b"");
                    let has = description.is_some() as u8;
                    let (c, cn, d, dn) = (c.as_ptr(), c.len(), d.as_ptr(), d.len());
                    hisproat_on_close_with_error(s, n, c, cn, has, d, dn, w.as_ptr(), w.len(), o, on, a, an)
                }
                Event::Allocate(handle) => hisproat_on_allocate(s, n, *handle, a, an),
                Event::Deallocate(channel) => hisproat_on_deallocate(s, n, *channel, a, an),
                Event::Outgoing(f) => hisproat_on_outgoing(s, n, f.as_ptr(), f.len(), o, on, a, an),
                Event::Tick => hisproat_on_tick(s, n, o, on, a, an),
                Event::EndOfInput => hisproat_on_end_of_input(s, n, o, on, a, an),
                Event::NotDelivered { new_session } => hisproat_on_not_delivered(s, n, *new_session as u8, o, on, a, an),
            }
        }
    }

    fn found(&self, read: unsafe extern "C" fn(*const u8, usize, u16, *mut u8, usize) -> u8, channel: u16) -> Option<u32> {
        let mut answer = [0; 5];
        let refused = unsafe { read(self.state.as_ptr(), self.size(), channel, answer.as_mut_ptr(), 5) };
        assert_eq!(refused, 0, "a sound state");
        (answer[0] != 0).then(|| number(&answer[1..]) as u32)
    }

    /// A number of the fixed part.
    fn at(&self, from: usize, count: usize) -> usize {
        number(&self.state[from..from + count]) as usize
    }

    /// A field of a channel's place.
    fn field(&self, channel: usize, field: usize) -> u32 {
        let from = FIXED + PLACE * channel + 4 * field;
        u32::from_be_bytes(self.state[from..from + 4].try_into().unwrap())
    }

    /// A field that has a channel as one more than its number, and 0 for none.
    fn other(&self, channel: usize, field: usize) -> Option<usize> {
        (self.field(channel, field) as usize).checked_sub(1)
    }

    /// The lists of all outgoing channels, read from the state's bytes: each incoming channel that stands in one, with the outgoing one. Linked both ways.
    fn listed(&self, places: usize) -> Vec<(u16, u16)> {
        let mut all = Vec::new();
        for outgoing in 0..places {
            let (mut next, mut previous) = (self.other(outgoing, FIRST), None);
            while let Some(channel) = next {
                assert!(channel < places && all.len() < places, "a list of ties stays in the tables, and ends");
                assert_eq!(self.other(channel, PREVIOUS), previous, "a list of ties is linked both ways");
                all.push((channel as u16, outgoing as u16));
                (next, previous) = (self.other(channel, NEXT), next);
            }
        }
        all.sort();
        all
    }
}

/// How many bytes of frames wait: they ask for room.
fn waiting_len(event: &Event) -> usize {
    match event {
        Event::Incoming { waiting, .. } | Event::Close { waiting } | Event::CloseWithError { waiting, .. } => waiting.len(),
        _ => 0,
    }
}

impl Port for Archive {
    fn event(&mut self, event: &Event) -> Reply {
        if self.watched {
            self.before.clone_from(&self.state);
        }
        let mut output = vec![FILL; 16384 + 2 * waiting_len(event)];
        let mut answer = [FILL; ANSWER];
        let refused = self.call(event, &mut output, &mut answer);
        if refused != 0 {
            let untouched = (!self.watched || self.state == self.before) && output.iter().chain(&answer).all(|byte| *byte == FILL);
            assert!(untouched, "a refusal alters nothing");
            return Reply { refused, ..Reply::default() };
        }
        let at = |from: usize, count: usize| number(&answer[from..from + count]) as usize;
        let written = at(34, 8);
        assert!(output[written..].iter().all(|byte| *byte == FILL), "output past what was written is untouched");
        assert_eq!(self.state[self.size()..], [FILL; PAST], "bytes past the state are untouched");
        output.truncate(written);
        Reply {
            refused: 0,
            stopped: answer[0] != 0,
            outcome: answer[1],
            kind: answer[2],
            detail: answer[3],
            channel: at(4, 2) as u16,
            number: at(6, 4) as u32,
            body: (at(10, 8), at(18, 8)),
            consumed: at(26, 8),
            written: output,
        }
    }

    fn status(&self) -> Status {
        let mut answer = [0; STATUS];
        let refused = unsafe { hisproat_status(self.state.as_ptr(), self.size(), answer.as_mut_ptr(), STATUS) };
        assert_eq!(refused, 0, "a sound state");
        Status {
            phase: answer[1],
            outcome: answer[2],
            state: answer[3],
            reading_limit: number(&answer[4..8]) as usize,
            writing_limit: number(&answer[8..12]) as usize,
            agreed: (answer[12] != 0).then(|| number(&answer[13..15]) as u16),
            taken: number(&answer[15..]) as usize,
        }
    }

    fn handle_at(&self, channel: u16) -> Option<u32> {
        self.found(hisproat_handle_at, channel)
    }

    fn tied_handle(&self, channel: u16) -> Option<u32> {
        self.found(hisproat_tied_handle, channel)
    }

    /// Read from the state's bytes.
    fn held(&self) -> Held {
        assert_eq!(&self.state[..4], b"HSP2", "a state of this layout");
        let (used, head, freed, most) = (self.at(28, 4), self.at(32, 4), self.at(36, 4), self.at(40, 2));
        let places = (self.size() - FIXED) / PLACE;
        let with = |channel: usize, field: usize| (channel as u16, self.field(channel, field));
        let taken = (0..used).filter(|channel| self.field(*channel, 0) == TAKEN).map(|channel| with(channel, 1));
        let ties = (0..places).filter(|channel| self.field(*channel, OUTGOING) != 0).map(|channel| with(channel, 4));
        let through = (0..places).filter_map(|channel| self.other(channel, OUTGOING).map(|outgoing| (channel as u16, outgoing as u16)));
        let through: Vec<_> = through.collect();
        assert_eq!(self.listed(places), through, "each tie stands once in the list of its outgoing channel, and nothing else does");
        let next = |channel: usize| (channel < used).then_some(channel);
        let freed = std::iter::successors(next(head), |channel| next(self.field(*channel, 0) as usize)).take(freed);
        let hand_out = (self.state[19] != 0).then(|| freed.chain(used..=most).map(|channel| channel as u16).collect());
        Held { taken: taken.collect(), ties: ties.collect(), through, hand_out }
    }

    /// What a copy gives.
    fn given(&self) -> Option<Vec<u16>> {
        let mut copy = self.state.clone();
        let mut answer = [0; ANSWER];
        let mut channels = Vec::new();
        loop {
            let refused = unsafe { hisproat_on_allocate(copy.as_mut_ptr(), self.size(), 0, answer.as_mut_ptr(), ANSWER) };
            match refused {
                0 => channels.push(number(&answer[4..6]) as u16),
                23 => return Some(channels),
                _ => return None,
            }
            assert!(channels.len() <= TAKEN as usize, "no more channels than there are numbers");
        }
    }

    fn watch(&mut self, watched: bool) {
        self.watched = watched;
    }
}
