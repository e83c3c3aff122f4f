//! The macros by which the published files choose what is compiled: the acceptor is, TLS, SCRAM, transactions and wasm32 are not.
//!
//! Two of them open a door instead of vanishing. What they are given tells where they stand:
//! - in connection/engine.rs `cfg_wasm32!` becomes a module inside the engine's own, which sees the engine's private items;
//! - in transport/mod.rs `cfg_rustls!` becomes functions beside the private ones of the transport.
//!
//! So no published file is patched.

macro_rules! cfg_acceptor {
    ($($tokens:tt)*) => { $($tokens)* };
}

macro_rules! cfg_not_transaction {
    ($($tokens:tt)*) => { $($tokens)* };
}

macro_rules! cfg_not_wasm32 {
    ($($tokens:tt)*) => { $($tokens)* };
}

macro_rules! cfg_transaction {
    ($($tokens:tt)*) => {};
}

macro_rules! cfg_native_tls {
    ($($tokens:tt)*) => {};
}

macro_rules! cfg_scram {
    ($($tokens:tt)*) => {};
}

macro_rules! cfg_wasm32 {
    (impl<Io, C> ConnectionEngine<Io, C> $($tokens:tt)*) => {
        pub(crate) mod door;
    };
    ($($tokens:tt)*) => {};
}

macro_rules! cfg_rustls {
    ($(#[$doc:meta])* pub async fn connect_tls_with_rustls $($tokens:tt)*) => {
        /// The transport's own reading of a header.
        pub(crate) async fn receive_header<R: AsyncRead + Unpin>(
            framed_read: &mut FramedRead<R, ProtocolHeaderCodec>,
            local_state: &mut ConnectionState,
        ) -> Result<ProtocolHeader, NegotiationError> {
            recv_amqp_proto_header(framed_read, local_state, ProtocolHeader::amqp()).await
        }

        /// A copy of the length codec that a transport reads with.
        pub(crate) fn reading_codec<Ftype>(transport: &Transport<Io, Ftype>) -> LengthDelimitedCodec {
            transport.framed_read.decoder().clone()
        }
    };
    ($($tokens:tt)*) => {};
}
