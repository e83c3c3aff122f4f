//! A small alphabet of events: two channels, reuse, late Begins, both ways to begin and to close, and bad frames.

use crate::events::*;

fn incoming(frame: Vec<u8>) -> Event {
    Event::Incoming { frame, spare: 9, waiting: Vec::new() }
}

fn with_waiting(frame: Vec<u8>, waiting: Vec<u8>) -> Event {
    Event::Incoming { frame, spare: 9, waiting }
}

/// For settings with max-frame-size 1024 and channel-max 1.
pub fn alphabet() -> Vec<(&'static str, Event)> {
    let wrong = error("amqp:internal-error", Some("x"));
    let mut over = transfer(0, 1100);
    over.truncate(40);
    let mut doff = end(0);
    doff[4] = 3;
    let mut sasl = end(0);
    sasl[5] = 1;
    let mut deep = vec![0x43];
    for _ in 0..16 {
        deep = [&[0xc0, deep.len() as u8 + 1, 1][..], &deep].concat();
    }
    let mut longer = attach(0);
    longer.extend(end(1));
    vec![
        ("send header", Event::SendHeader),
        ("header", Event::ReceiveHeader(b"AMQP\x00\x01\x00\x00".to_vec())),
        ("header of SASL", Event::ReceiveHeader(b"AMQP\x03\x01\x00\x00".to_vec())),
        ("malformed header", Event::ReceiveHeader(b"AMQP\x01\x01\x00\x00".to_vec())),
        ("short header", Event::ReceiveHeader(b"AMQP\x00".to_vec())),
        ("send Open", Event::SendOpen),
        ("Open", incoming(open(2048, 1, Some(5000)))),
        ("Open, one channel", incoming(open(100, 0, None))),
        ("Open, long frames", incoming(open(65536, 65535, None))),
        ("Open, idle 0", incoming(open(600, 1, Some(0)))),
        ("Begin 0 for 0", incoming(begin(0, Some(0)))),
        ("Begin 1 for 0", incoming(begin(1, Some(0)))),
        ("Begin 0 for 1", incoming(begin(0, Some(1)))),
        ("Begin 0", incoming(begin(0, None))),
        ("Begin 1", incoming(begin(1, None))),
        ("Attach 0", incoming(longer)),
        ("Transfer 1", incoming(transfer(1, 3))),
        ("End 0", incoming(end(0))),
        ("End 1", incoming(end(1))),
        ("Close", incoming(close(None))),
        ("Close with error", incoming(close(Some(&wrong)))),
        ("Close, frames wait", with_waiting(close(None), [end(0), begin(1, Some(0))].concat())),
        ("empty frame", incoming(frame(0, &[]))),
        ("bad body", incoming(frame(0, &[0, 0x53, 0x18, 0xc0, 9, 1]))),
        ("symbolic descriptor", incoming(frame(0, b"\x00\xa3\x0famqp:close:list\x45"))),
        ("seventeen levels", incoming(frame(0, &body(18, &[&deep])))),
        ("length 3", incoming(vec![0, 0, 0, 3, 2, 0, 0, 0])),
        ("length 7", incoming(vec![0, 0, 0, 7, 2, 0, 0, 0])),
        ("over the limit", incoming(over)),
        ("doff 3", incoming(doff)),
        ("type 1", incoming(sasl)),
        ("cut short", incoming(end(0)[..9].to_vec())),
        ("channel above", incoming(frame(2, &[]))),
        ("order to close", Event::Close { waiting: Vec::new() }),
        ("order to close, frames wait", Event::Close { waiting: [transfer(1, 2), end(0)].concat() }),
        (
            "order to close with error",
            Event::CloseWithError { condition: b"amqp:internal-error".to_vec(), description: Some(b"pads".to_vec()), waiting: Vec::new() },
        ),
        (
            "order to close with a long error",
            Event::CloseWithError { condition: vec![b'c'; 255], description: Some(vec![b'd'; 255]), waiting: Vec::new() },
        ),
        ("allocate 1", Event::Allocate(1)),
        ("allocate 2", Event::Allocate(2)),
        ("free 0", Event::Deallocate(0)),
        ("free 1", Event::Deallocate(1)),
        ("send Begin on 0", Event::Outgoing(begin(0, None))),
        ("send Begin on 0 for 1", Event::Outgoing(begin(0, Some(1)))),
        ("send Begin on 1 for 0", Event::Outgoing(begin(1, Some(0)))),
        ("send Transfer on 0", Event::Outgoing(transfer(0, 5))),
        ("send a long Transfer on 0", Event::Outgoing(transfer(0, 3000))),
        ("send Begin on 0 for 2", Event::Outgoing(begin(0, Some(2)))),
        ("send End on 1", Event::Outgoing(end(1))),
        ("send a Close as a session's", Event::Outgoing(close(None))),
        ("tick", Event::Tick),
        ("end of input", Event::EndOfInput),
        ("not delivered", Event::NotDelivered { new_session: false }),
        ("new session not delivered", Event::NotDelivered { new_session: true }),
    ]
}
