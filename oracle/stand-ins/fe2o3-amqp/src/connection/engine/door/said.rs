//! What the oracle is told, and what it tells.

/// Which published connection is driven.
#[derive(Debug, Clone, Copy, PartialEq, Eq)]
pub enum Role {
    /// `connection::Connection`.
    Dialler,
    /// `acceptor::connection::ListenerConnection`.
    Listener,
}

/// How the engine is driven.
#[derive(Debug, Clone, Copy, PartialEq, Eq)]
pub enum Mode {
    /// Its `on_` functions are called one by one.
    Calls,
    /// Its own `event_loop` runs, polled once after each event. Ticks and "not delivered" cannot be ordered, and the phase awaiting is not told apart.
    Loop,
}

/// What the local Open says. Texts are bytes.
#[derive(Debug, Clone)]
pub struct Settings {
    /// At most 255 bytes, to be comparable.
    pub container_id: Vec<u8>,
    /// From 512.
    pub max_frame_size: u32,
    /// The highest channel.
    pub channel_max: u16,
    /// In milliseconds.
    pub idle_time_out: Option<u32>,
}

/// An error of a Close.
#[derive(Debug, Clone, Copy)]
pub struct Error<'a> {
    /// A symbol.
    pub condition: &'a [u8],
    /// A string.
    pub description: Option<&'a [u8]>,
}

/// An event. Frames are whole, with their length; bytes after the first one are not looked at, but for `waiting`, which is any number of them.
#[derive(Debug, Clone, Copy)]
#[allow(missing_docs)]
pub enum Event<'a> {
    SendHeader,
    ReceiveHeader(&'a [u8]),
    SendOpen,
    /// A frame came. A listener's new session gets the handle `spare`; `waiting` frames are in the queue of those to be sent.
    Incoming {
        frame: &'a [u8],
        spare: u32,
        waiting: &'a [u8],
    },
    Close {
        error: Option<Error<'a>>,
        waiting: &'a [u8],
    },
    Allocate(u32),
    Deallocate(u16),
    Outgoing(&'a [u8]),
    Tick,
    EndOfInput,
    /// A frame of the last event could not be handed to its session, or a new session could not be taken.
    NotDelivered {
        new_session: bool,
    },
}

/// What an event came to.
#[derive(Debug, Clone)]
pub struct Answer {
    /// What became of the frame, header or order.
    pub inner: Inner,
    /// How the engine ended, when it has.
    pub stopped: Option<Outcome>,
    /// Bytes of the input that were taken.
    pub consumed: usize,
    /// Bytes that were written.
    pub written: Vec<u8>,
}

/// What became of a frame, header or order.
#[derive(Debug, Clone, PartialEq, Eq)]
#[allow(missing_docs)]
pub enum Inner {
    /// Nothing was read or ordered.
    None,
    Wrote,
    /// A tick found the connection at its end.
    Over,
    Header,
    OtherProtocol,
    Nothing,
    Opened {
        idle_time_out: Option<u32>,
    },
    Closed {
        error: bool,
    },
    /// The session with this handle was sent a frame.
    Forward {
        code: u8,
        handle: u32,
    },
    /// A listener's new session.
    Began {
        channel: u16,
        handle: u32,
    },
    Channel(u16),
    Freed,
    Refused(Refusal),
}

/// Why not.
#[derive(Debug, Clone, PartialEq, Eq)]
#[allow(missing_docs)]
pub enum Refusal {
    BytesMissing,
    HeaderMalformed,
    Transport,
    IllegalState,
    NotOpened,
    Stopped,
    NoChannelLeft,
    NotFound,
    NotImplemented,
    /// The published code panicked.
    Panicked(String),
    /// Frames to be sent are values there: these bytes are none of them.
    CannotBeMade,
    /// The engine waits for the peer's Close, or has stopped, or the mode has no such event.
    NotTaken,
}

/// How an engine ended.
#[derive(Debug, Clone, Copy, PartialEq, Eq)]
#[allow(missing_docs)]
pub enum Outcome {
    Fine,
    Transport,
    IllegalState,
    NotFound,
    NotImplemented,
    RemoteClosed,
    RemoteClosedWithError,
}

/// Whether an engine takes events.
#[derive(Debug, Clone, Copy, PartialEq, Eq)]
#[allow(missing_docs)]
pub enum Phase {
    Running,
    Awaiting,
    Stopped,
}

/// What an engine holds.
#[derive(Debug, Clone, PartialEq, Eq)]
pub struct Account {
    /// Whether it takes events.
    pub phase: Phase,
    /// The state, in the order of the published enum: Start is 0, End is 13.
    pub state: u8,
    /// The longest frame that is read.
    pub reading_limit: usize,
    /// The longest frame that is written.
    pub writing_limit: usize,
    /// Whether the peer's Open was taken.
    pub agreed: bool,
    /// The highest channel that is given.
    pub channel_max: u16,
    /// Taken channels with their handles.
    pub taken: Vec<(u16, u32)>,
    /// Incoming channels with the handles that they are tied to.
    pub ties: Vec<(u16, u32)>,
}
