//! A sample of lists with what was answered, as text, for replaying without the Rust (tests/c/replay.c).
//!
//! Every list was compared while it was recorded. So an `is` line is what the Rust answered, in the numbers of the C interface, but for the events that have a `rule` line:
//! there the Rust differs as the rule says. Before `end` stands what the Rust holds; `dropped` is a channel that is tied there alone, because its outgoing channel was freed.
//! Which of the numbers 3 to 7 it is, the Rust does not tell either: it knows a transport error only.

use crate::compare::{Pair, Step};
use crate::events::{hex, Event, Port};
use crate::random::{Dice, Setting};
use crate::{named, Letters, Side};
use fe2o3_amqp::auth::{Role, Settings};

fn or_dash(bytes: &[u8]) -> String {
    if bytes.is_empty() {
        "-".into()
    } else {
        hex(bytes)
    }
}

fn done(event: &Event) -> String {
    match event {
        Event::SendHeader => "send-header".into(),
        Event::ReceiveHeader(bytes) => format!("receive-header {}", or_dash(bytes)),
        Event::SendOpen => "send-open".into(),
        Event::Incoming { frame, spare, waiting } => format!("incoming {} {spare} {}", or_dash(frame), or_dash(waiting)),
        Event::Close { waiting } => format!("close {}", or_dash(waiting)),
        Event::CloseWithError { condition, description, waiting } => {
            let words = description.as_deref().unwrap_or(&[]);
            let has = description.is_some() as u8;
            format!("close-with-error {} {has} {} {}", or_dash(condition), or_dash(words), or_dash(waiting))
        }
        Event::Allocate(handle) => format!("allocate {handle}"),
        Event::Deallocate(channel) => format!("deallocate {channel}"),
        Event::Outgoing(frame) => format!("outgoing {}", or_dash(frame)),
        Event::Tick => "tick".into(),
        Event::EndOfInput => "end-of-input".into(),
        Event::NotDelivered { new_session } => format!("not-delivered {}", *new_session as u8),
    }
}

fn tell(pair: &Pair<Side>, event: &Event, step: &Step) {
    println!("do {}", done(event));
    for rule in &step.rules {
        println!("rule {rule}");
    }
    let reply = &pair.last;
    if reply.refused != 0 {
        println!("refused {}", reply.refused);
        return;
    }
    let (start, length) = reply.body;
    let (kind, detail, channel, number) = (reply.kind, reply.detail, reply.channel, reply.number);
    let (stopped, outcome, consumed) = (reply.stopped as u8, reply.outcome, reply.consumed);
    println!("is {stopped} {outcome} {kind} {detail} {channel} {number} {start} {length} {consumed} {}", or_dash(&reply.written));
    let status = pair.port.status();
    let (agreed, most) = status.agreed.map_or((0, 0), |most| (1, most));
    print!("at {} {} {} {} {} ", status.phase, status.outcome, status.state, status.reading_limit, status.writing_limit);
    println!("{agreed} {most} {}", status.taken);
}

/// What the Rust holds at the end of a list.
fn end(pair: &Pair<Side>) {
    let account = pair.rust.account();
    for (channel, handle) in &account.taken {
        println!("taken {channel} {handle}");
    }
    for (channel, handle) in &account.ties {
        match pair.ties.is_made(*channel) {
            true => println!("tied {channel} {handle}"),
            false => println!("dropped {channel}"),
        }
    }
    println!("end");
}

fn begin(role: Role, settings: &Settings) -> Pair<Side> {
    let role_number = (role == Role::Listener) as u8;
    let (size, most, id) = (settings.max_frame_size, settings.channel_max, or_dash(&settings.container_id));
    let idle = settings.idle_time_out.map_or("0 0".into(), |idle| format!("1 {idle}"));
    println!("list {role_number} {id} {size} {most} {idle}");
    Pair::new(role, settings, Side::new(role, settings))
}

/// Whether the list goes on. Where the two sides have gone apart, what the Rust holds says nothing of the port.
fn step(pair: &mut Pair<Side>, event: &Event) -> bool {
    let step = pair.step(event).expect("a list without a finding");
    tell(pair, event, &step);
    if !step.ends && pair.port.status().phase == 2 {
        end(pair);
    }
    !step.ends && pair.port.status().phase != 2
}

/// A list of letters.
fn spelled(role: Role, letters: &Letters, names: &[&str]) {
    let mut pair = begin(role, &crate::settings());
    for name in names {
        if !step(&mut pair, &letters[named(letters, name)].1) {
            return;
        }
    }
    end(&pair);
}

/// Channels that are freed while they are tied: a late frame, a late End, one for a channel that was given anew, and a channel that is tied again. Then the other order.
fn freed(letters: &Letters) {
    let opening = ["send header", "header", "send Open", "Open", "allocate 1"];
    let rest: [&[&str]; 6] = [
        &["Begin 0 for 0", "free 0", "Attach 0"],
        &["Begin 0 for 0", "free 0", "End 0"],
        &["Begin 1 for 0", "free 0", "allocate 2", "Transfer 1"],
        &["Begin 0 for 0", "free 0", "allocate 2", "Begin 0 for 0", "Attach 0", "End 0", "free 0"],
        &["allocate 1", "Begin 0 for 0", "Begin 0 for 1", "free 0", "Attach 0", "free 1", "Attach 0"],
        &["Begin 1 for 0", "Transfer 1", "End 1", "free 0", "allocate 2", "Begin 1 for 0", "Transfer 1"],
    ];
    for role in [Role::Dialler, Role::Listener] {
        rest.iter().for_each(|rest| spelled(role, letters, &[&opening[..], rest].concat()));
    }
    spelled(Role::Listener, letters, &[&opening[..], &["send Begin on 0 for 1", "free 0", "Transfer 1"]].concat());
    spelled(Role::Listener, letters, &[&opening[..], &["Begin 1", "free 1", "Transfer 1"]].concat());
}

/// A walk through the alphabet.
fn walk(seed: u64, letters: &Letters) {
    let mut dice = Dice::new(seed);
    let role = dice.pick(&[Role::Dialler, Role::Listener]);
    let mut pair = begin(role, &crate::settings());
    let opening = ["send header", "header", "send Open", "Open"].map(|name| named(letters, name));
    let opened = dice.below(5) as usize;
    for at in 0..14 {
        let letter = if at < opened { opening[at] } else { dice.below(letters.len() as u64) as usize };
        if !step(&mut pair, &letters[letter].1) {
            return;
        }
    }
    end(&pair);
}

/// A list of the random runs, cut off.
fn long(mut dice: Dice, mut setting: Setting, length: usize) {
    let mut pair = begin(setting.role, &setting.settings);
    for at in 0..length {
        let event = match setting.beginning.get(at) {
            Some(event) => event.clone(),
            None => setting.event(&mut dice, &pair),
        };
        // A recording is to be read: no long frames.
        if done(&event).len() > 2500 {
            break;
        }
        if !step(&mut pair, &event) {
            return;
        }
    }
    end(&pair);
}

pub fn record() {
    println!("# Made by `bin/oracle harness record`. oracle/harness/src/record.rs says what the lines mean.");
    let letters = crate::alphabet::alphabet();
    spelled(Role::Listener, &letters, &["header of SASL", "allocate 1"]);
    freed(&letters);
    (1..=250).for_each(|seed| walk(seed, &letters));
    let random = |seed| {
        let mut dice = Dice::new(seed);
        let setting = Setting::new(&mut dice);
        (dice, setting)
    };
    for (dice, setting) in (1..=80).map(random) {
        long(dice, setting, 60);
    }
    // Sessions that come as a crowd, and leave before the list is cut off.
    for most in [256, 65535] {
        let small = |setting: &Setting| setting.settings.channel_max == most && setting.crowd().is_some_and(|crowd| crowd <= 120);
        let (dice, setting) = (81..).map(random).find(|(_, setting)| small(setting)).expect("a small crowd");
        long(dice, setting, 300);
    }
}
