//! The states of a connection.

/// The fourteen states.
#[derive(Debug, Clone, Copy, PartialEq, Eq, Hash)]
pub enum ConnectionState {
    Start,
    HeaderReceived,
    HeaderSent,
    HeaderExchange,
    OpenPipe,
    OpenClosePipe,
    OpenReceived,
    OpenSent,
    ClosePipe,
    Opened,
    CloseReceived,
    CloseSent,
    Discarding,
    End,
}
