//! Frames as bytes, read by the published decoder.

use bytes::BytesMut;
use tokio_util::codec::Decoder;

use crate::frames::amqp::{FrameBody, FrameDecoder};
use crate::session::frame::{SessionFrame, SessionFrameBody};

/// A frame's body as the decoder reads it: its code, 0 for an empty one.
pub(super) struct Peeked {
    pub code: u8,
}

fn code(body: &FrameBody) -> u8 {
    match body {
        FrameBody::Open(_) => 16,
        FrameBody::Begin(_) => 17,
        FrameBody::Attach(_) => 18,
        FrameBody::Flow(_) => 19,
        FrameBody::Transfer { .. } => 20,
        FrameBody::Disposition(_) => 21,
        FrameBody::Detach(_) => 22,
        FrameBody::End(_) => 23,
        FrameBody::Close(_) => 24,
        FrameBody::Empty => 0,
    }
}

pub(super) fn session_code(body: &SessionFrameBody) -> u8 {
    match body {
        SessionFrameBody::Begin(_) => 17,
        SessionFrameBody::Attach(_) => 18,
        SessionFrameBody::Flow(_) => 19,
        SessionFrameBody::Transfer { .. } => 20,
        SessionFrameBody::Disposition(_) => 21,
        SessionFrameBody::Detach(_) => 22,
        SessionFrameBody::End(_) => 23,
    }
}

/// The first frame in the bytes as a session's, and the bytes after it.
pub(super) fn session_frame(bytes: &[u8]) -> Option<(SessionFrame, &[u8])> {
    let length = u32::from_be_bytes(bytes.get(..4)?.try_into().ok()?) as usize;
    if length < 8 || length > bytes.len() {
        return None;
    }
    let mut inside = BytesMut::from(&bytes[4..length]);
    let frame = FrameDecoder {}.decode(&mut inside).ok()??;
    let body = match frame.body {
        FrameBody::Begin(begin) => SessionFrameBody::Begin(begin),
        FrameBody::Attach(attach) => SessionFrameBody::Attach(attach),
        FrameBody::Flow(flow) => SessionFrameBody::Flow(flow),
        FrameBody::Transfer { performative, payload } => SessionFrameBody::Transfer { performative, payload },
        FrameBody::Disposition(disposition) => SessionFrameBody::Disposition(disposition),
        FrameBody::Detach(detach) => SessionFrameBody::Detach(detach),
        FrameBody::End(end) => SessionFrameBody::End(end),
        FrameBody::Open(_) | FrameBody::Close(_) | FrameBody::Empty => return None,
    };
    let whole = matches!(body, SessionFrameBody::Transfer { .. }) || inside.is_empty();
    whole.then_some((SessionFrame::new(frame.channel, body), &bytes[length..]))
}

pub(super) fn session_frames(mut bytes: &[u8]) -> Option<Vec<SessionFrame>> {
    let mut frames = Vec::new();
    while !bytes.is_empty() {
        let (frame, rest) = session_frame(bytes)?;
        frames.push(frame);
        bytes = rest;
    }
    Some(frames)
}

pub(super) fn peek(mut inside: BytesMut) -> Option<Peeked> {
    if inside.len() < 4 {
        return None;
    }
    let frame = FrameDecoder {}.decode(&mut inside).ok()??;
    Some(Peeked { code: code(&frame.body) })
}
