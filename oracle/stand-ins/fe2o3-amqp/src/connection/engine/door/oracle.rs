//! The oracle: a published engine over a wire in memory, one event at a time, and what it holds after each.

use std::cell::RefCell;
use std::collections::HashMap;
use std::future::Future;
use std::panic::AssertUnwindSafe;
use std::pin::Pin;
use std::sync::{Arc, Mutex, OnceLock};
use std::task::{Context, Poll};

use bytes::BytesMut;
use fe2o3_amqp_types::definitions;
use fe2o3_amqp_types::performatives::{ChannelMax, MaxFrameSize, Open};
use fe2o3_amqp_types::states::ConnectionState;
use futures_util::FutureExt;
use tokio::sync::{mpsc, oneshot};
use tokio_util::codec::{Decoder, FramedRead, FramedWrite, LengthDelimitedCodec};

use super::frames::{peek, session_code, session_frame, session_frames, Peeked};
use super::said::{Account, Answer, Error, Event, Inner, Mode, Outcome, Phase, Refusal, Role, Settings};
use super::spy::{Either, Seen, Spy};
use super::turn::{self, ErrorKind, Note, Order, Stopped};
use super::wire::Wire;
use crate::acceptor::connection::ListenerConnection;
use crate::acceptor::IncomingSession;
use crate::connection::engine::ConnectionEngine;
use crate::connection::heartbeat::HeartBeat;
use crate::connection::{self, AllocSessionError, ConnectionInnerError, ConnectionStateError, SessionRelay};
use crate::control::ConnectionControl;
use crate::endpoint::OutgoingChannel;
use crate::session::frame::SessionFrame;
use crate::transport::error::NegotiationError;
use crate::transport::protocol_header::ProtocolHeaderCodec;
use crate::transport::Transport;

type Engine = turn::Engine;

struct Session {
    handle: u32,
    sender: mpsc::Sender<SessionFrame>,
    receiver: mpsc::Receiver<SessionFrame>,
}

/// Among so many sessions one is searched for.
const FEW: usize = 16;

enum Done {
    Turned(Box<Engine>, Result<Stopped, String>),
    Looped,
}

type Doing = Pin<Box<dyn Future<Output = Done>>>;

/// A published engine.
#[allow(missing_debug_implementations)]
pub struct Oracle {
    mode: Mode,
    wire: Wire,
    window: Arc<Mutex<Seen>>,
    engine: Option<Box<Engine>>,
    doing: Option<Doing>,
    ending: Option<oneshot::Receiver<Result<(), connection::Error>>>,
    note: Note,
    stopped: Option<Outcome>,
    control: mpsc::Sender<ConnectionControl>,
    outgoing: mpsc::Sender<SessionFrame>,
    listened: Option<mpsc::Receiver<IncomingSession>>,
    sessions: Vec<Session>,
    /// Handles by a relay's place in memory. The relay is kept, so that the place stays its own.
    handles: RefCell<HashMap<*const mpsc::Sender<SessionFrame>, (SessionRelay, u32)>>,
    codec: LengthDelimitedCodec,
    writing_limit: usize,
    /// A relay to nobody, for trying what a slab gives.
    spare: SessionRelay,
}

/// Timers need a runtime to be made in; nothing runs in it.
fn runtime() -> &'static tokio::runtime::Runtime {
    static RUNTIME: OnceLock<tokio::runtime::Runtime> = OnceLock::new();
    RUNTIME.get_or_init(|| tokio::runtime::Builder::new_current_thread().enable_time().build().expect("a runtime"))
}

/// A text with its bytes one for one, as the stand-in for serde_amqp keeps it.
fn text(bytes: &[u8]) -> String {
    bytes.iter().map(|byte| *byte as char).collect()
}

fn local_open(settings: &Settings) -> Open {
    Open {
        container_id: text(&settings.container_id),
        hostname: None,
        max_frame_size: MaxFrameSize(settings.max_frame_size),
        channel_max: ChannelMax(settings.channel_max),
        idle_time_out: settings.idle_time_out,
        outgoing_locales: None,
        incoming_locales: None,
        offered_capabilities: None,
        desired_capabilities: None,
        properties: None,
    }
}

/// A fresh connection, and where a listener's new sessions come.
fn fresh(role: Role, settings: &Settings) -> (Either, Option<mpsc::Receiver<IncomingSession>>) {
    let connection = connection::Connection::new(ConnectionState::Start, local_open(settings));
    match role {
        Role::Dialler => (Either::Dialler(connection), None),
        Role::Listener => {
            let (session_listener, listened) = mpsc::channel(16);
            (Either::Listener(ListenerConnection { connection, session_listener }), Some(listened))
        }
    }
}

fn ended(result: &Result<(), ConnectionInnerError>) -> Outcome {
    match result.as_ref().map_err(turn::kind) {
        Ok(()) => Outcome::Fine,
        Err(ErrorKind::Transport) => Outcome::Transport,
        Err(ErrorKind::IllegalState) => Outcome::IllegalState,
        Err(ErrorKind::NotFound) => Outcome::NotFound,
        Err(ErrorKind::NotImplemented) => Outcome::NotImplemented,
        Err(ErrorKind::RemoteClosed) => Outcome::RemoteClosed,
        Err(ErrorKind::RemoteClosedWithError) => Outcome::RemoteClosedWithError,
    }
}

fn loop_ended(result: Result<(), connection::Error>) -> Outcome {
    match result {
        Ok(()) => Outcome::Fine,
        Err(connection::Error::TransportError(_)) => Outcome::Transport,
        Err(connection::Error::IllegalState) => Outcome::IllegalState,
        Err(connection::Error::NotFound(_)) => Outcome::NotFound,
        Err(connection::Error::NotImplemented(_)) => Outcome::NotImplemented,
        Err(connection::Error::RemoteClosed) => Outcome::RemoteClosed,
        Err(connection::Error::RemoteClosedWithError(_)) => Outcome::RemoteClosedWithError,
        Err(connection::Error::NotAllowed(_)) | Err(connection::Error::JoinError(_)) => {
            unreachable!("the engine's loop does not end so")
        }
    }
}

fn refusal(kind: ErrorKind) -> Refusal {
    match kind {
        ErrorKind::Transport => Refusal::Transport,
        ErrorKind::NotFound => Refusal::NotFound,
        ErrorKind::NotImplemented => Refusal::NotImplemented,
        ErrorKind::IllegalState | ErrorKind::RemoteClosed | ErrorKind::RemoteClosedWithError => Refusal::IllegalState,
    }
}

fn outcome_refusal(outcome: Outcome) -> Option<Refusal> {
    match outcome {
        Outcome::Transport => Some(Refusal::Transport),
        Outcome::IllegalState => Some(Refusal::IllegalState),
        Outcome::NotFound => Some(Refusal::NotFound),
        Outcome::NotImplemented => Some(Refusal::NotImplemented),
        Outcome::Fine | Outcome::RemoteClosed | Outcome::RemoteClosedWithError => None,
    }
}

fn panic_text(panic: Box<dyn std::any::Any + Send>) -> String {
    match panic.downcast::<String>() {
        Ok(text) => *text,
        Err(other) => other.downcast::<&str>().map(|text| text.to_string()).unwrap_or_default(),
    }
}

fn state_number(state: ConnectionState) -> u8 {
    state as u8
}

impl Oracle {
    /// A fresh engine in Start, with the limits that a transport has before the Opens.
    pub fn new(role: Role, settings: &Settings, mode: Mode) -> Self {
        let wire = Wire::default();
        let transport: Transport<Wire, _> = Transport::bind(wire.clone(), definitions::MIN_MAX_FRAME_SIZE, None);
        let (control, control_rx) = mpsc::channel(16);
        let (outgoing, outgoing_rx) = mpsc::channel(64);
        let (inner, listened) = fresh(role, settings);
        let spy = Spy::new(inner);
        let window = spy.window();
        let codec = Transport::<Wire, ()>::reading_codec(&transport);
        let engine = Box::new(ConnectionEngine {
            transport,
            connection: spy,
            control: control_rx,
            outgoing_session_frames: outgoing_rx,
            heartbeat: HeartBeat::never(),
        });
        let writing_limit = engine.max_frame_size() + 4;
        Oracle {
            mode,
            wire,
            window,
            engine: Some(engine),
            doing: None,
            ending: None,
            note: Note::default(),
            stopped: None,
            control,
            outgoing,
            listened,
            sessions: Vec::new(),
            handles: RefCell::default(),
            codec,
            writing_limit,
            spare: Arc::new(mpsc::channel(1).0),
        }
    }

    /// Does one event.
    pub fn event(&mut self, event: Event) -> Answer {
        if self.stopped.is_some() {
            return self.answer(Inner::Refused(Refusal::NotTaken), 0);
        }
        match event {
            Event::Incoming { frame, spare, waiting } => self.incoming(frame, spare, waiting),
            Event::EndOfInput => self.end_of_input(),
            _ if self.mode == Mode::Calls && self.doing.is_some() => self.answer(Inner::Refused(Refusal::NotTaken), 0),
            Event::SendHeader => self.send_header(),
            Event::ReceiveHeader(bytes) => self.receive_header(bytes),
            Event::SendOpen => self.send_open(),
            Event::Close { error, waiting } => self.close(error, waiting),
            Event::Allocate(handle) => self.allocate(handle),
            Event::Deallocate(channel) => self.deallocate(channel),
            Event::Outgoing(frame) => self.send(frame),
            Event::Tick => self.tick(),
            Event::NotDelivered { new_session } => self.not_delivered(new_session),
        }
    }

    /// Sets both limits as the published opening does, which the running engine does not do on an Open.
    pub fn adopt_limits(&mut self, remote_max_frame_size: u32, local_max_frame_size: u32) {
        if let Some(engine) = &mut self.engine {
            engine
                .transport
                .set_encoder_max_frame_size(remote_max_frame_size as usize)
                .set_decoder_max_frame_size(local_max_frame_size as usize);
        }
        self.look();
    }

    /// Whether channels and ties are shown after each call, which takes long where there are very many. While they are not, there seem to be none.
    pub fn show_channels(&mut self, shown: bool) {
        self.window.lock().unwrap().shows_channels = shown;
        if let Some(engine) = &self.engine {
            engine.connection.show();
        }
    }

    /// What the engine holds.
    pub fn account(&self) -> Account {
        let seen = self.window.lock().unwrap();
        let taken = seen.outgoing.iter().map(|(channel, relay)| (channel as u16, self.handle(relay))).collect();
        let mut ties: Vec<_> = seen.incoming.iter().map(|(channel, relay)| (channel.0, self.handle(relay))).collect();
        ties.sort();
        Account {
            phase: self.phase(),
            state: state_number(seen.state),
            reading_limit: self.codec.max_frame_length(),
            writing_limit: self.writing_limit,
            agreed: seen.remote,
            channel_max: seen.agreed_channel_max,
            taken,
            ties,
        }
    }

    /// The channels that would be given in turn: what a copy of the slab gives, up to the highest channel.
    pub fn hand_out(&self) -> Vec<u16> {
        let seen = self.window.lock().unwrap();
        let mut copy = seen.outgoing.clone();
        let mut channels = Vec::new();
        loop {
            let channel = copy.insert(self.spare.clone());
            if channel > seen.agreed_channel_max as usize {
                return channels;
            }
            channels.push(channel as u16);
        }
    }

    /// The limits, for reading and writing, of a connection that the published opening has opened: headers, then `ConnectionEngine::open`.
    /// None where the peer's Open is not taken.
    pub fn opened_limits(role: Role, settings: &Settings, peer_open: &[u8]) -> Option<(usize, usize)> {
        let wire = Wire::default();
        wire.lay_in(b"AMQP\x00\x01\x00\x00");
        wire.lay_in(peer_open);
        let (reader, writer) = tokio::io::split(wire.clone());
        let framed_write = FramedWrite::new(writer, ProtocolHeaderCodec::new());
        let framed_read = FramedRead::new(reader, ProtocolHeaderCodec::new());
        let fresh = Oracle::new(role, settings, Mode::Calls);
        let mut engine = fresh.engine.expect("a fresh engine is at hand");
        let _guard = runtime().enter();
        let opening = async move {
            let state = &mut engine.connection.inner.core_mut().local_state;
            let transport = Transport::negotiate_amqp_header(framed_write, framed_read, state, None).await.ok()?;
            let Engine { connection, control, outgoing_session_frames, .. } = *engine;
            let engine = ConnectionEngine::open(transport, connection, control, outgoing_session_frames).await.ok()?;
            let reading = Transport::<Wire, ()>::reading_codec(&engine.transport).max_frame_length();
            Some((reading, engine.max_frame_size() + 4))
        };
        opening.now_or_never().flatten()
    }

    fn phase(&self) -> Phase {
        match (&self.stopped, &self.doing) {
            (Some(_), _) => Phase::Stopped,
            (None, Some(_)) if self.mode == Mode::Calls => Phase::Awaiting,
            _ => Phase::Running,
        }
    }

    /// Every session hangs up, and so does whoever listens for new ones: from now on nothing is delivered.
    pub fn hang_up(&mut self) {
        for session in &mut self.sessions {
            session.receiver.close();
        }
        if let Some(listened) = &mut self.listened {
            listened.close();
        }
    }

    /// The relay of a session that was never delivered has no handle: it counts as the highest one.
    fn handle(&self, relay: &SessionRelay) -> u32 {
        let search = || self.sessions.iter().find(|session| session.sender.same_channel(relay)).map(|session| session.handle);
        if self.sessions.len() <= FEW {
            return search().unwrap_or(u32::MAX);
        }
        let mut handles = self.handles.borrow_mut();
        if let Some((_, handle)) = handles.get(&Arc::as_ptr(relay)) {
            return *handle;
        }
        let Some(handle) = search() else { return u32::MAX };
        handles.insert(Arc::as_ptr(relay), (relay.clone(), handle));
        handle
    }

    /// The relay of a channel that is taken.
    fn relay(&self, channel: u16) -> SessionRelay {
        match &self.engine {
            Some(engine) => engine.connection.inner.core().session_by_outgoing_channel[channel as usize].clone(),
            None => self.window.lock().unwrap().outgoing[channel as usize].clone(),
        }
    }

    fn answer(&mut self, inner: Inner, consumed: usize) -> Answer {
        Answer { inner, stopped: self.stopped, consumed, written: self.wire.take_out() }
    }

    /// Notes the limits while the engine is at hand.
    fn look(&mut self) {
        if let Some(engine) = &self.engine {
            self.codec = Transport::<Wire, ()>::reading_codec(&engine.transport);
            self.writing_limit = engine.max_frame_size() + 4;
        }
    }

    // ---- calls that need no loop

    fn send_header(&mut self) -> Answer {
        let Some(engine) = &mut self.engine else { return self.answer(Inner::Refused(Refusal::NotTaken), 0) };
        let result = turn::send_header(engine, &self.wire).now_or_never().expect("the wire never waits");
        let inner = if result.is_ok() { Inner::Wrote } else { Inner::Refused(Refusal::IllegalState) };
        self.answer(inner, 0)
    }

    fn receive_header(&mut self, bytes: &[u8]) -> Answer {
        let Some(engine) = &mut self.engine else { return self.answer(Inner::Refused(Refusal::NotTaken), 0) };
        let front = &bytes[..bytes.len().min(8)];
        let result = turn::receive_header(engine, front).now_or_never().expect("a slice never waits");
        let inner = match result {
            Ok(_) => Inner::Header,
            Err(NegotiationError::NotImplemented(_)) => Inner::OtherProtocol,
            Err(NegotiationError::ProtocolHeaderMismatch(_)) => Inner::Refused(Refusal::HeaderMalformed),
            Err(NegotiationError::Io(_)) => Inner::Refused(Refusal::BytesMissing),
            Err(_) => Inner::Refused(Refusal::IllegalState),
        };
        let consumed = if matches!(inner, Inner::Refused(_)) { 0 } else { 8 };
        self.answer(inner, consumed)
    }

    fn send_open(&mut self) -> Answer {
        let Some(engine) = &mut self.engine else { return self.answer(Inner::Refused(Refusal::NotTaken), 0) };
        let result = turn::send_open(engine).now_or_never().expect("the wire never waits");
        let inner = match result {
            Ok(()) => Inner::Wrote,
            Err(ConnectionStateError::TransportError(_)) => Inner::Refused(Refusal::Transport),
            Err(_) => Inner::Refused(Refusal::IllegalState),
        };
        self.answer(inner, 0)
    }

    // ---- events of the loop

    fn incoming(&mut self, frame: &[u8], spare: u32, waiting: &[u8]) -> Answer {
        let Some(waiting) = session_frames(waiting) else {
            return self.answer(Inner::Refused(Refusal::CannotBeMade), 0);
        };
        let mut rest = BytesMut::from(frame);
        let (consumed, peeked) = match self.codec.clone().decode(&mut rest) {
            Ok(None) => return self.answer(Inner::Refused(Refusal::BytesMissing), 0),
            Err(_) => {
                self.wire.lay_in(frame);
                (0, None)
            }
            Ok(Some(inside)) => {
                let length = frame.len() - rest.len();
                self.wire.lay_in(&frame[..length]);
                (length, peek(inside))
            }
        };
        let closes = matches!(peeked, Some(Peeked { code: 24 }));
        if self.mode == Mode::Calls || closes {
            self.wait(waiting);
        }
        let turn = if self.doing.is_some() { self.poll() } else { self.start(Order::Read) };
        let inner = self.read_inner(turn, peeked, spare);
        self.answer(inner, consumed)
    }

    /// Lays frames into the queue of those to be sent.
    fn wait(&mut self, frames: Vec<SessionFrame>) {
        if self.mode == Mode::Calls {
            // Events follow upon another here, and what an event does not send does not wait for the next: a new queue for each.
            if let Some(engine) = &mut self.engine {
                let (sender, receiver) = mpsc::channel(frames.len().max(1));
                engine.outgoing_session_frames = receiver;
                self.outgoing = sender;
            }
        }
        for frame in frames {
            let _ = self.outgoing.try_send(frame);
        }
    }

    fn read_inner(&mut self, turn: Result<Option<ErrorKind>, String>, peeked: Option<Peeked>, spare: u32) -> Inner {
        let routed = self.routed(spare);
        let (opened, closed) = {
            let mut seen = self.window.lock().unwrap();
            (seen.opened.take(), seen.closed.take())
        };
        let error = match turn {
            Err(panic) => return Inner::Refused(Refusal::Panicked(panic)),
            Ok(error) => error,
        };
        match (closed, opened, routed) {
            (Some(Ok(error)), _, _) => Inner::Closed { error },
            (Some(Err(())), _, _) => Inner::Refused(Refusal::IllegalState),
            (None, Some(idle_time_out), _) => Inner::Opened { idle_time_out },
            (None, None, Some(inner)) => inner,
            (None, None, None) => match error.map(refusal).or_else(|| self.stopped.and_then(outcome_refusal)) {
                Some(refusal) => Inner::Refused(refusal),
                None if peeked.is_some() => Inner::Nothing,
                None => Inner::Refused(Refusal::Transport),
            },
        }
    }

    /// The session that was sent a frame, or the new session.
    fn routed(&mut self, spare: u32) -> Option<Inner> {
        let mut found = None;
        if let Some(session) = self.listened.as_mut().and_then(|listened| listened.try_recv().ok()) {
            let channel = session.outgoing_channel.expect("a new session has a channel").0;
            let sender = (*self.relay(channel)).clone();
            let receiver = session.incoming_rx.expect("a new session has a receiver");
            self.sessions.push(Session { handle: spare, sender, receiver });
            found = Some(Inner::Began { channel, handle: spare });
        }
        for session in &mut self.sessions {
            while let Ok(frame) = session.receiver.try_recv() {
                assert!(found.is_none(), "one frame reaches one session");
                found = Some(Inner::Forward { code: session_code(&frame.body), handle: session.handle });
            }
        }
        found
    }

    fn close(&mut self, error: Option<Error>, waiting: &[u8]) -> Answer {
        let Some(waiting) = session_frames(waiting) else {
            return self.answer(Inner::Refused(Refusal::CannotBeMade), 0);
        };
        let error = error.map(|error| definitions::Error {
            condition: definitions::ErrorCondition(text(error.condition)),
            description: error.description.map(|words| serde_amqp::raw::Raw::of_string(&text(words))),
            info: None,
        });
        self.wait(waiting);
        let turn = self.control(ConnectionControl::Close(error));
        self.ordered(turn, Inner::Wrote)
    }

    fn allocate(&mut self, handle: u32) -> Answer {
        // Sessions with one handle are not told apart: they are one. It is there before its relay is: the connection is looked at as soon as it holds one.
        let known = self.sessions.iter().position(|session| session.handle == handle);
        let at = known.unwrap_or(self.sessions.len());
        if known.is_none() {
            let (sender, receiver) = mpsc::channel(16);
            self.sessions.push(Session { handle, sender, receiver });
        }
        let (control, mut answered) = turn::allocation(self.sessions[at].sender.clone());
        let turn = self.control(control);
        let inner = match answered.try_recv() {
            Ok(Ok(OutgoingChannel(channel))) => Inner::Channel(channel),
            Ok(Err(AllocSessionError::ConnectionNotOpened)) => Inner::Refused(Refusal::NotOpened),
            Ok(Err(AllocSessionError::ConnectionStopped(_))) => Inner::Refused(Refusal::Stopped),
            Ok(Err(AllocSessionError::ChannelMaxReached)) => Inner::Refused(Refusal::NoChannelLeft),
            Err(_) => Inner::Refused(Refusal::NotTaken),
        };
        if known.is_none() && !matches!(inner, Inner::Channel(_)) {
            self.sessions.pop();
        }
        self.ordered(turn, inner)
    }

    fn deallocate(&mut self, channel: u16) -> Answer {
        let turn = self.control(ConnectionControl::DeallocateSession(OutgoingChannel(channel)));
        self.ordered(turn, Inner::Freed)
    }

    fn send(&mut self, frame: &[u8]) -> Answer {
        let Some((frame, _)) = session_frame(frame) else {
            return self.answer(Inner::Refused(Refusal::CannotBeMade), 0);
        };
        if self.mode == Mode::Loop {
            if self.outgoing.try_send(frame).is_err() {
                return self.answer(Inner::Refused(Refusal::NotTaken), 0);
            }
            let turn = self.run_loop();
            return self.ordered(turn, Inner::Wrote);
        }
        let turn = self.start(Order::Send(frame));
        self.ordered(turn, Inner::Wrote)
    }

    fn tick(&mut self) -> Answer {
        if self.mode == Mode::Loop {
            return self.answer(Inner::Refused(Refusal::NotTaken), 0);
        }
        let turn = self.start(Order::Beat);
        let over = self.stopped.is_some();
        self.ordered(turn, if over { Inner::Over } else { Inner::Wrote })
    }

    fn not_delivered(&mut self, new_session: bool) -> Answer {
        if self.mode == Mode::Loop {
            return self.answer(Inner::Refused(Refusal::NotTaken), 0);
        }
        // The published errors of a session, or of a listener, whose receiver is gone.
        let error = match (new_session, &self.listened) {
            (true, Some(_)) => ConnectionInnerError::NotImplemented(None),
            _ => ConnectionInnerError::from(mpsc::error::SendError(())),
        };
        let turn = self.start(Order::Fail(error));
        match turn {
            Err(panic) => self.answer(Inner::Refused(Refusal::Panicked(panic)), 0),
            Ok(_) => self.answer(Inner::None, 0),
        }
    }

    fn end_of_input(&mut self) -> Answer {
        self.wire.end_input();
        if self.doing.is_none() {
            // The loop could take frames of an earlier queue first, or a heartbeat that stands ready.
            self.wait(Vec::new());
            if let Some(engine) = &mut self.engine {
                engine.heartbeat = HeartBeat::never();
            }
            self.begin_loop();
        }
        match self.poll() {
            Err(panic) => self.answer(Inner::Refused(Refusal::Panicked(panic)), 0),
            Ok(_) => self.answer(Inner::None, 0),
        }
    }

    fn ordered(&mut self, turn: Result<Option<ErrorKind>, String>, inner: Inner) -> Answer {
        let inner = match turn {
            Err(panic) => Inner::Refused(Refusal::Panicked(panic)),
            Ok(None) => inner,
            Ok(Some(error)) => Inner::Refused(refusal(error)),
        };
        self.answer(inner, 0)
    }

    // ---- driving

    fn control(&mut self, control: ConnectionControl) -> Result<Option<ErrorKind>, String> {
        if self.mode == Mode::Loop {
            let _ = self.control.try_send(control);
            return self.run_loop();
        }
        self.start(Order::Control(control))
    }

    /// Gives the engine an order and polls until it waits or is done. Answers the order's first error.
    fn start(&mut self, order: Order) -> Result<Option<ErrorKind>, String> {
        if self.mode == Mode::Loop {
            return self.run_loop();
        }
        let mut engine = self.engine.take().expect("an engine that does nothing is at hand");
        let note = self.note.clone();
        self.doing = Some(Box::pin(async move {
            let result = AssertUnwindSafe(turn::turn(&mut engine, order, note)).catch_unwind().await;
            Done::Turned(engine, result.map_err(panic_text))
        }));
        self.poll()
    }

    fn begin_loop(&mut self) {
        if let Some(engine) = self.engine.take() {
            let (sender, receiver) = oneshot::channel();
            self.ending = Some(receiver);
            self.doing = Some(Box::pin(engine.event_loop(sender).map(|()| Done::Looped)));
        }
    }

    fn run_loop(&mut self) -> Result<Option<ErrorKind>, String> {
        self.begin_loop();
        self.poll()
    }

    fn poll(&mut self) -> Result<Option<ErrorKind>, String> {
        let mut doing = self.doing.take().expect("something is being done");
        let polled = match self.ending {
            None => poll_once(&mut doing),
            Some(_) => poll_as_task(&mut doing)?,
        };
        match polled {
            Poll::Pending => self.doing = Some(doing),
            Poll::Ready(Done::Looped) => {
                let result = self.ending.as_mut().and_then(|ending| ending.try_recv().ok());
                self.stopped = result.map(loop_ended);
            }
            Poll::Ready(Done::Turned(engine, result)) => {
                self.engine = Some(engine);
                self.look();
                self.stopped = result?.as_ref().map(ended);
            }
        }
        Ok(self.note.lock().unwrap().take())
    }
}

fn poll_once(doing: &mut Doing) -> Poll<Done> {
    let _guard = runtime().enter();
    let waker = futures_util::task::noop_waker();
    doing.as_mut().poll(&mut Context::from_waker(&waker))
}

/// As a task of a runtime polls it. The published loop never waits once its queue of outgoing frames is closed: only a task's budget interrupts it.
fn poll_as_task(doing: &mut Doing) -> Result<Poll<Done>, String> {
    let once = std::future::poll_fn(|context| Poll::Ready(doing.as_mut().poll(context)));
    std::panic::catch_unwind(AssertUnwindSafe(|| runtime().block_on(once))).map_err(panic_text)
}
