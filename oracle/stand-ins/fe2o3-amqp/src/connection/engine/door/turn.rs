//! One event of an engine: the published `on_` function, and what the published loop does with its result.

use std::sync::{Arc, Mutex};

use futures_util::StreamExt;
use tokio::sync::{mpsc, oneshot};
use tokio_util::codec::{FramedRead, FramedWrite};

use super::spy::Spy;
use super::wire::Wire;
use crate::connection::engine::ConnectionEngine;
use crate::connection::{AllocSessionError, ConnectionInnerError, ConnectionStateError};
use crate::control::ConnectionControl;
use crate::endpoint::{Connection as _, OutgoingChannel};
use crate::session::frame::SessionFrame;
use crate::transport::error::NegotiationError;
use crate::transport::protocol_header::{ProtocolHeader, ProtocolHeaderCodec};
use crate::transport::{send_amqp_proto_header, Transport};
use crate::util::Running;

pub(super) type Engine = ConnectionEngine<Wire, Spy>;

/// What an engine is told to do.
pub(super) enum Order {
    /// Read the frame that was laid in.
    Read,
    Control(ConnectionControl),
    Send(SessionFrame),
    Beat,
    /// An error as if a read had come to it.
    Fail(ConnectionInnerError),
}

/// The kind of the error that an order came to first. It is noted before the engine handles the error, which may have to wait for the peer.
pub(super) type Note = Arc<Mutex<Option<ErrorKind>>>;

/// Whether the loop would stop, and with which outcome.
pub(super) type Stopped = Option<Result<(), ConnectionInnerError>>;

#[derive(Debug, Clone, Copy, PartialEq, Eq)]
pub(super) enum ErrorKind {
    Transport,
    IllegalState,
    NotImplemented,
    NotFound,
    RemoteClosed,
    RemoteClosedWithError,
}

pub(super) fn kind(error: &ConnectionInnerError) -> ErrorKind {
    match error {
        ConnectionInnerError::TransportError(_) => ErrorKind::Transport,
        ConnectionInnerError::IllegalState => ErrorKind::IllegalState,
        ConnectionInnerError::NotImplemented(_) => ErrorKind::NotImplemented,
        ConnectionInnerError::NotFound(_) => ErrorKind::NotFound,
        ConnectionInnerError::RemoteClosed => ErrorKind::RemoteClosed,
        ConnectionInnerError::RemoteClosedWithError(_) => ErrorKind::RemoteClosedWithError,
    }
}

/// The end of input is left to the published loop; everything else is done here.
pub(super) async fn turn(engine: &mut Engine, order: Order, note: Note) -> Stopped {
    let result = match order {
        Order::Read => match engine.transport.next().await {
            Some(Ok(frame)) => engine.on_incoming(frame).await,
            Some(Err(error)) => Err(error.into()),
            None => unreachable!("the end of input is not read here"),
        },
        Order::Control(control) => engine.on_control(control).await,
        Order::Send(frame) => engine.on_outgoing_session_frames(frame).await,
        Order::Beat => engine.on_heartbeat().await,
        Order::Fail(error) => Err(error),
    };
    match result {
        Ok(Running::Continue) => None,
        Ok(Running::Stop) => Some(Ok(())),
        Err(error) => {
            *note.lock().unwrap() = Some(kind(&error));
            match engine.on_error(&error).await {
                Ok(Running::Continue) => None,
                Ok(Running::Stop) => Some(Err(error)),
                Err(other) => Some(Err(other)),
            }
        }
    }
}

pub(super) async fn send_header(engine: &mut Engine, wire: &Wire) -> Result<(), NegotiationError> {
    let mut framed = FramedWrite::new(wire.clone(), ProtocolHeaderCodec::new());
    let state = &mut engine.connection.inner.core_mut().local_state;
    let answer = send_amqp_proto_header(&mut framed, state, ProtocolHeader::amqp()).await;
    engine.connection.show();
    answer
}

pub(super) async fn receive_header(engine: &mut Engine, header: &[u8]) -> Result<ProtocolHeader, NegotiationError> {
    let mut framed = FramedRead::new(header, ProtocolHeaderCodec::new());
    let state = &mut engine.connection.inner.core_mut().local_state;
    let answer = Transport::<Wire, ()>::receive_header(&mut framed, state).await;
    engine.connection.show();
    answer
}

pub(super) async fn send_open(engine: &mut Engine) -> Result<(), ConnectionStateError> {
    engine.connection.send_open(&mut engine.transport).await
}

/// An allocation order, and where its answer comes.
pub(super) fn allocation(
    tx: mpsc::Sender<SessionFrame>,
) -> (ConnectionControl, oneshot::Receiver<Result<OutgoingChannel, AllocSessionError>>) {
    let (responder, answer) = oneshot::channel();
    (ConnectionControl::AllocateSession { tx, responder }, answer)
}
