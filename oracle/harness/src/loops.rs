//! The Rust beside itself: its `on_` functions called one by one, as the comparisons do it, and its own `event_loop`.
//! What the oracle restates of the loop is held against the loop so. Likewise "not delivered", which the oracle makes, against sessions that have hung up.

use crate::events::{hex, open, Event};
use crate::{named, Letters, Tally};
use fe2o3_amqp::auth::{Inner, Mode, Oracle, Outcome, Phase, Refusal, Role};

/// Lists to begin with; after each of them every list up to the length is tried.
const BEGINNINGS: [&[&str]; 7] = [
    &[],
    &["send header"],
    &["send header", "header"],
    &["send header", "send Open"],
    &["send header", "header", "send Open"],
    &["send header", "header", "Open"],
    &["send header", "header", "send Open", "Open"],
];

/// The letters that the loop can be given. An idle-time-out would make it tick at once, and what is not delivered needs a session that is gone.
fn letters() -> Letters {
    let mut letters = crate::alphabet::alphabet();
    letters.retain(|(name, event)| match event {
        Event::Tick | Event::NotDelivered { .. } => false,
        _ => *name != "Open, idle 0",
    });
    let at = named(&letters, "Open");
    letters[at].1 = Event::Incoming { frame: open(2048, 1, None), spare: 9, waiting: Vec::new() };
    letters
}

/// Frames that wait are taken by the loop before or after what comes with them, at random: that is the same in Opened only.
fn has_waiting(event: &Event) -> bool {
    match event {
        Event::Incoming { waiting, .. } | Event::Close { waiting } | Event::CloseWithError { waiting, .. } => !waiting.is_empty(),
        _ => false,
    }
}

fn is_opening(event: &Event) -> bool {
    matches!(event, Event::SendHeader | Event::ReceiveHeader(_) | Event::SendOpen)
}

/// Runs a list on both; what differs first, if anything.
fn differ(role: Role, letters: &Letters, list: &[usize]) -> Option<String> {
    let settings = crate::settings();
    let mut calls = Oracle::new(role, &settings, Mode::Calls);
    let mut looped = Oracle::new(role, &settings, Mode::Loop);
    let mut begun = false;
    for at in list {
        let event = &letters[*at].1;
        let (phase, opened) = (calls.account().phase, calls.account().state == 9);
        let taken = matches!(event, Event::Incoming { .. } | Event::EndOfInput);
        if phase == Phase::Stopped
            || (phase == Phase::Awaiting && !taken)
            || (begun && is_opening(event))
            || (has_waiting(event) && !opened)
        {
            return None;
        }
        begun |= !is_opening(event);
        let one = calls.event(event.rust());
        let other = looped.event(event.rust());
        if matches!(one.inner, Inner::Refused(Refusal::Panicked(_))) {
            return None;
        }
        // The loop's queue of outgoing frames is closed after an order to close: nothing can be sent then.
        if other.inner == Inner::Refused(Refusal::NotTaken) {
            return None;
        }
        let (a, b) = (calls.account(), looped.account());
        let same = one.written == other.written
            && one.stopped == other.stopped
            && (a.state, &a.taken, &a.ties, a.agreed, a.channel_max) == (b.state, &b.taken, &b.ties, b.agreed, b.channel_max)
            && calls.hand_out() == looped.hand_out();
        if !same {
            let show = |answer: &fe2o3_amqp::auth::Answer| format!("{:?} {:?} {}", answer.inner, answer.stopped, hex(&answer.written));
            return Some(format!("{event}\n  calls {}\n  loop  {}\n  {a:?}\n  {b:?}", show(&one), show(&other)));
        }
    }
    None
}

fn all(role: Role, letters: &Letters, list: &mut Vec<usize>, left: usize, tally: &mut Tally) {
    for at in 0..letters.len() {
        list.push(at);
        tally.lists += 1;
        tally.events += list.len() as u64;
        match differ(role, letters, list) {
            None if left > 1 => all(role, letters, list, left - 1, tally),
            None => {}
            Some(what) => {
                let names: Vec<_> = list.iter().map(|at| letters[*at].0).collect();
                tally.found(&format!("{role:?}: {}\n  {what}", names.join("; ")));
            }
        }
        list.pop();
    }
}

pub fn loops(length: usize, tally: &mut Tally) {
    let letters = letters();
    for role in [Role::Dialler, Role::Listener] {
        for beginning in BEGINNINGS {
            let mut list = beginning.iter().map(|name| named(&letters, name)).collect();
            all(role, &letters, &mut list, length, tally);
        }
    }
}

/// What is left when a frame could not be delivered, by the account without phase, and what was written.
type Left = (u8, Vec<u16>, Vec<u16>, Vec<u8>, Option<Outcome>);

fn left(oracle: &Oracle, written: Vec<u8>, stopped: Option<Outcome>) -> Left {
    let account = oracle.account();
    let channels = |list: &[(u16, u32)]| list.iter().map(|(channel, _)| *channel).collect();
    (account.state, channels(&account.taken), channels(&account.ties), written, stopped)
}

/// The last frame of a list reaches a session that has hung up; beside it, the frame is delivered and then said not to be.
fn undelivered(role: Role, letters: &Letters, names: &[&str], tally: &mut Tally) {
    let settings = crate::settings();
    let mut gone = Oracle::new(role, &settings, Mode::Calls);
    let mut told = Oracle::new(role, &settings, Mode::Calls);
    let (last, first) = names.split_last().expect("a list that is not empty");
    for name in first {
        let event = &letters[named(letters, name)].1;
        gone.event(event.rust());
        told.event(event.rust());
    }
    gone.hang_up();
    let event = &letters[named(letters, last)].1;
    let one = gone.event(event.rust());
    let delivered = told.event(event.rust());
    let new_session = matches!(delivered.inner, Inner::Began { .. });
    let forwarded = matches!(delivered.inner, Inner::Forward { .. });
    let other = told.event(Event::NotDelivered { new_session }.rust());
    tally.lists += 1;
    tally.events += names.len() as u64;
    let (a, b) = (left(&gone, one.written, one.stopped), left(&told, other.written, other.stopped));
    if a != b || !(new_session || forwarded) {
        tally.found(&format!("{role:?}: {}\n  hung up {a:?}\n  told    {b:?}", names.join("; ")));
    }
}

/// Every kind of frame that is delivered, to sessions that have hung up.
pub fn all_undelivered(tally: &mut Tally) {
    let letters = letters();
    let opening = ["send header", "header", "send Open", "Open", "allocate 1"];
    let with = |rest: &[&'static str]| [&opening[..], rest].concat();
    for role in [Role::Dialler, Role::Listener] {
        undelivered(role, &letters, &with(&["Begin 0 for 0"]), tally);
        for last in ["Attach 0", "End 0", "Begin 1 for 0"] {
            undelivered(role, &letters, &with(&["Begin 0 for 0", last]), tally);
        }
    }
    undelivered(Role::Listener, &letters, &with(&["Begin 1"]), tally);
    undelivered(Role::Listener, &letters, &with(&["Begin 1", "Transfer 1"]), tally);
}
