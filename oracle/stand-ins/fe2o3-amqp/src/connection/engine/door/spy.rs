//! A connection of either role that hands every call on to the published code, and after it shows what the connection holds.
//! So the connection can be looked at while an engine waits for the peer's Close and cannot be touched.

use std::collections::HashMap;
use std::sync::{Arc, Mutex, OnceLock};

use fe2o3_amqp_types::definitions;
use fe2o3_amqp_types::performatives::{Begin, Close, End, Open};
use fe2o3_amqp_types::states::ConnectionState;
use futures_util::Sink;
use slab::Slab;
use tokio::sync::mpsc::Sender;

use crate::acceptor::connection::ListenerConnection;
use crate::connection::{AllocSessionError, Connection, ConnectionInnerError, ConnectionStateError, ConnectionStopReason, SessionRelay};
use crate::endpoint::{self, IncomingChannel, OutgoingChannel};
use crate::frames::amqp::Frame;
use crate::session::frame::SessionIncomingItem;
use crate::session::Session;
use crate::SendBound;

/// The published connection of one role.
#[derive(Debug)]
pub(super) enum Either {
    Dialler(Connection),
    Listener(ListenerConnection),
}

impl Either {
    pub fn core(&self) -> &Connection {
        match self {
            Either::Dialler(connection) => connection,
            Either::Listener(listener) => &listener.connection,
        }
    }

    pub fn core_mut(&mut self) -> &mut Connection {
        match self {
            Either::Dialler(connection) => connection,
            Either::Listener(listener) => &mut listener.connection,
        }
    }
}

/// What a connection holds, and what its last reads came to.
#[derive(Debug)]
pub(super) struct Seen {
    pub state: ConnectionState,
    /// Whether channels and ties are shown; else there seem to be none.
    pub shows_channels: bool,
    pub outgoing: Slab<SessionRelay>,
    pub incoming: HashMap<IncomingChannel, SessionRelay>,
    pub agreed_channel_max: u16,
    /// Whether the peer's Open was taken.
    pub remote: bool,
    /// The idle-time-out of an Open that was taken since the last look.
    pub opened: Option<Option<u32>>,
    /// A Close that was read since the last look: whether it had an error, or that the state did not allow it.
    pub closed: Option<Result<bool, ()>>,
}

#[derive(Debug)]
pub(super) struct Spy {
    pub inner: Either,
    seen: Arc<Mutex<Seen>>,
}

macro_rules! both {
    ($inner:expr, $connection:ident => $call:expr) => {
        match $inner {
            Either::Dialler($connection) => $call,
            Either::Listener($connection) => $call,
        }
    };
}

impl Spy {
    pub fn new(inner: Either) -> Self {
        let core = inner.core();
        let seen = Seen {
            state: core.local_state,
            shows_channels: true,
            outgoing: Slab::new(),
            incoming: HashMap::new(),
            agreed_channel_max: core.agreed_channel_max,
            remote: false,
            opened: None,
            closed: None,
        };
        Spy { inner, seen: Arc::new(Mutex::new(seen)) }
    }

    /// Where the connection is shown.
    pub fn window(&self) -> Arc<Mutex<Seen>> {
        self.seen.clone()
    }

    pub fn show(&self) {
        let core = self.inner.core();
        let mut seen = self.seen.lock().unwrap();
        seen.state = core.local_state;
        (seen.outgoing, seen.incoming) = match seen.shows_channels {
            true => (core.session_by_outgoing_channel.clone(), core.session_by_incoming_channel.clone()),
            false => (Slab::new(), HashMap::new()),
        };
        seen.agreed_channel_max = core.agreed_channel_max;
        seen.remote = core.remote_open.is_some();
    }

    fn shown<T>(&self, answer: T) -> T {
        self.show();
        answer
    }
}

impl endpoint::Connection for Spy {
    type AllocError = AllocSessionError;
    type OpenError = ConnectionStateError;
    type CloseError = ConnectionStateError;
    type Error = ConnectionInnerError;
    type State = ConnectionState;
    type Session = Session;

    fn local_state(&self) -> &ConnectionState {
        both!(&self.inner, c => c.local_state())
    }

    fn local_open(&self) -> &Open {
        both!(&self.inner, c => c.local_open())
    }

    fn connection_stop_reason(&self) -> &Arc<OnceLock<ConnectionStopReason>> {
        both!(&self.inner, c => c.connection_stop_reason())
    }

    fn set_connection_stop_reason(&mut self, reason: ConnectionStopReason) {
        both!(&mut self.inner, c => c.set_connection_stop_reason(reason))
    }

    fn allocate_session(&mut self, tx: Sender<SessionIncomingItem>) -> Result<OutgoingChannel, AllocSessionError> {
        let answer = both!(&mut self.inner, c => c.allocate_session(tx));
        self.shown(answer)
    }

    fn deallocate_session(&mut self, channel: OutgoingChannel) {
        both!(&mut self.inner, c => c.deallocate_session(channel));
        self.show()
    }

    fn on_incoming_open(&mut self, channel: IncomingChannel, open: Open) -> Result<(), ConnectionStateError> {
        let idle = open.idle_time_out;
        let answer = both!(&mut self.inner, c => c.on_incoming_open(channel, open));
        if answer.is_ok() {
            self.seen.lock().unwrap().opened = Some(idle);
        }
        self.shown(answer)
    }

    async fn on_incoming_begin(&mut self, channel: IncomingChannel, begin: Begin) -> Result<(), ConnectionInnerError> {
        let answer = both!(&mut self.inner, c => c.on_incoming_begin(channel, begin).await);
        self.shown(answer)
    }

    async fn on_incoming_end(&mut self, channel: IncomingChannel, end: End) -> Result<(), ConnectionInnerError> {
        let answer = both!(&mut self.inner, c => c.on_incoming_end(channel, end).await);
        self.shown(answer)
    }

    fn on_incoming_close(&mut self, channel: IncomingChannel, close: Close) -> Result<(), ConnectionStateError> {
        let error = close.error.is_some();
        let answer = both!(&mut self.inner, c => c.on_incoming_close(channel, close));
        let legal = !matches!(answer, Err(ConnectionStateError::IllegalState));
        self.seen.lock().unwrap().closed = Some(if legal { Ok(error) } else { Err(()) });
        self.shown(answer)
    }

    async fn send_open<W>(&mut self, writer: &mut W) -> Result<(), ConnectionStateError>
    where
        W: Sink<Frame> + SendBound + Unpin,
        ConnectionStateError: From<W::Error>,
    {
        let answer = both!(&mut self.inner, c => c.send_open(writer).await);
        self.shown(answer)
    }

    async fn send_close<W>(&mut self, writer: &mut W, error: Option<definitions::Error>) -> Result<(), ConnectionStateError>
    where
        W: Sink<Frame> + SendBound + Unpin,
        ConnectionStateError: From<W::Error>,
    {
        let answer = both!(&mut self.inner, c => c.send_close(writer, error).await);
        self.shown(answer)
    }

    fn on_outgoing_begin(&mut self, channel: OutgoingChannel, begin: Begin) -> Result<Frame, ConnectionInnerError> {
        let answer = both!(&mut self.inner, c => c.on_outgoing_begin(channel, begin));
        self.shown(answer)
    }

    fn on_outgoing_end(&mut self, channel: OutgoingChannel, end: End) -> Result<Frame, ConnectionInnerError> {
        let answer = both!(&mut self.inner, c => c.on_outgoing_end(channel, end));
        self.shown(answer)
    }

    fn session_tx_by_incoming_channel(&mut self, channel: IncomingChannel) -> Option<&Sender<SessionIncomingItem>> {
        both!(&mut self.inner, c => c.session_tx_by_incoming_channel(channel))
    }
}
