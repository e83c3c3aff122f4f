//! The acceptor's builder, without its settings.

use std::marker::PhantomData;

use fe2o3_amqp_types::performatives::{ChannelMax, MaxFrameSize, Open};

use super::connection::ConnectionAcceptor;
use crate::connection::{DEFAULT_CHANNEL_MAX, DEFAULT_MAX_FRAME_SIZE, DEFAULT_OUTGOING_BUFFER_SIZE};
use crate::util::{Initialized, Uninitialized};

/// A builder.
#[derive(Debug)]
pub struct Builder<T, M> {
    /// What is built.
    pub inner: T,
    pub(crate) marker: PhantomData<M>,
}

impl Builder<ConnectionAcceptor<(), ()>, Uninitialized> {
    /// A builder with defaults.
    pub fn new() -> Self {
        let local_open = Open {
            container_id: String::new(),
            hostname: None,
            max_frame_size: MaxFrameSize(DEFAULT_MAX_FRAME_SIZE),
            channel_max: ChannelMax(DEFAULT_CHANNEL_MAX),
            idle_time_out: None,
            outgoing_locales: None,
            incoming_locales: None,
            offered_capabilities: None,
            desired_capabilities: None,
            properties: None,
        };
        let inner = ConnectionAcceptor { local_open, tls_acceptor: (), sasl_acceptor: (), buffer_size: DEFAULT_OUTGOING_BUFFER_SIZE };
        Builder { inner, marker: PhantomData }
    }

    /// Sets the container-id.
    pub fn container_id(mut self, id: impl Into<String>) -> Builder<ConnectionAcceptor<(), ()>, Initialized> {
        self.inner.local_open.container_id = id.into();
        Builder { inner: self.inner, marker: PhantomData }
    }
}

impl<T> Builder<T, Initialized> {
    /// What was built.
    pub fn build(self) -> T {
        self.inner
    }
}
