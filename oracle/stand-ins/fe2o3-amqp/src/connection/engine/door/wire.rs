//! A transport in memory: what is to be read is laid in, what was written is taken out.

use std::collections::VecDeque;
use std::io;
use std::pin::Pin;
use std::sync::{Arc, Mutex};
use std::task::{Context, Poll};

use tokio::io::{AsyncRead, AsyncWrite, ReadBuf};

#[derive(Debug, Default)]
struct Inside {
    input: VecDeque<u8>,
    ended: bool,
    output: Vec<u8>,
}

/// Both ends of the wire: clones share it.
#[derive(Debug, Clone, Default)]
pub(super) struct Wire(Arc<Mutex<Inside>>);

impl Wire {
    pub fn lay_in(&self, bytes: &[u8]) {
        self.0.lock().unwrap().input.extend(bytes);
    }

    pub fn end_input(&self) {
        self.0.lock().unwrap().ended = true;
    }

    pub fn take_out(&self) -> Vec<u8> {
        std::mem::take(&mut self.0.lock().unwrap().output)
    }
}

impl AsyncRead for Wire {
    /// Nobody is woken: whoever lays bytes in polls again.
    fn poll_read(self: Pin<&mut Self>, _: &mut Context<'_>, buf: &mut ReadBuf<'_>) -> Poll<io::Result<()>> {
        let mut inside = self.0.lock().unwrap();
        if inside.input.is_empty() && !inside.ended {
            return Poll::Pending;
        }
        let count = inside.input.len().min(buf.remaining());
        let bytes: Vec<u8> = inside.input.drain(..count).collect();
        buf.put_slice(&bytes);
        Poll::Ready(Ok(()))
    }
}

impl AsyncWrite for Wire {
    fn poll_write(self: Pin<&mut Self>, _: &mut Context<'_>, bytes: &[u8]) -> Poll<io::Result<usize>> {
        self.0.lock().unwrap().output.extend(bytes);
        Poll::Ready(Ok(bytes.len()))
    }

    fn poll_flush(self: Pin<&mut Self>, _: &mut Context<'_>) -> Poll<io::Result<()>> {
        Poll::Ready(Ok(()))
    }

    fn poll_shutdown(self: Pin<&mut Self>, _: &mut Context<'_>) -> Poll<io::Result<()>> {
        Poll::Ready(Ok(()))
    }
}
