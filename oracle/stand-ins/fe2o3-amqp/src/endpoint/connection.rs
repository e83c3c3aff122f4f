//! The trait that `Connection` and `ListenerConnection` implement and that the engine drives, as these need it.

use std::future::Future;
use std::sync::{Arc, OnceLock};

use fe2o3_amqp_types::definitions;
use fe2o3_amqp_types::performatives::{Begin, Close, End, Open};
use futures_util::Sink;
use tokio::sync::mpsc::Sender;

use super::{IncomingChannel, OutgoingChannel};
use crate::connection::ConnectionStopReason;
use crate::frames::amqp::Frame;
use crate::session::frame::SessionIncomingItem;
use crate::SendBound;

pub(crate) trait Connection {
    type AllocError: Send;
    type OpenError: Send;
    type CloseError: Send;
    type Error: Send;
    type State: Send;
    type Session: Send;

    fn local_state(&self) -> &Self::State;
    fn local_open(&self) -> &Open;
    fn connection_stop_reason(&self) -> &Arc<OnceLock<ConnectionStopReason>>;
    fn set_connection_stop_reason(&mut self, reason: ConnectionStopReason);

    fn allocate_session(&mut self, tx: Sender<SessionIncomingItem>) -> Result<OutgoingChannel, Self::AllocError>;
    fn deallocate_session(&mut self, outgoing_channel: OutgoingChannel);

    fn on_incoming_open(&mut self, channel: IncomingChannel, open: Open) -> Result<(), Self::OpenError>;
    fn on_incoming_begin(&mut self, channel: IncomingChannel, begin: Begin) -> impl Future<Output = Result<(), Self::Error>> + Send;
    fn on_incoming_end(&mut self, channel: IncomingChannel, end: End) -> impl Future<Output = Result<(), Self::Error>> + Send;
    fn on_incoming_close(&mut self, channel: IncomingChannel, close: Close) -> Result<(), Self::CloseError>;

    fn send_open<W>(&mut self, writer: &mut W) -> impl Future<Output = Result<(), Self::OpenError>> + Send
    where
        W: Sink<Frame> + SendBound + Unpin,
        Self::OpenError: From<W::Error>;
    fn send_close<W>(
        &mut self,
        writer: &mut W,
        error: Option<definitions::Error>,
    ) -> impl Future<Output = Result<(), Self::CloseError>> + Send
    where
        W: Sink<Frame> + SendBound + Unpin,
        Self::CloseError: From<W::Error>;

    fn on_outgoing_begin(&mut self, outgoing_channel: OutgoingChannel, begin: Begin) -> Result<Frame, Self::Error>;
    fn on_outgoing_end(&mut self, outgoing_channel: OutgoingChannel, end: End) -> Result<Frame, Self::Error>;

    fn session_tx_by_incoming_channel(&mut self, incoming_channel: IncomingChannel) -> Option<&Sender<SessionIncomingItem>>;
}
