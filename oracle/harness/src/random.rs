//! Long random lists, with settings at the boundaries. A finding is shrunk, and told with the seed that replays it.

use crate::compare::Pair;
use crate::events::*;
use crate::ties::Ties;
use crate::{Side, Tally, SHOWN};
use fe2o3_amqp::auth::{Account, Phase, Role, Settings};

/// Local channel-maxes. From `MANY` on channels are chosen beside the limits too, and crowds of sessions come.
const CHANNEL_MAXES: [u16; 8] = [0, 1, 2, 7, 255, 256, 4096, 65535];
const MANY: u16 = 255;

/// The state in which sessions' frames are read.
const OPENED: u8 = 9;

/// How many times as long as another list one with a crowd may be.
const LONGER: usize = 4;

/// xorshift64*: small, and the same everywhere.
pub struct Dice {
    state: u64,
    /// Whether a frame to be sent was damaged.
    damaged: bool,
}

impl Dice {
    pub fn new(seed: u64) -> Self {
        let mut dice = Dice { state: seed.wrapping_mul(0x9e37_79b9_7f4a_7c15) | 1, damaged: false };
        dice.roll();
        dice
    }

    fn roll(&mut self) -> u64 {
        self.state ^= self.state >> 12;
        self.state ^= self.state << 25;
        self.state ^= self.state >> 27;
        self.state.wrapping_mul(0x2545_f491_4f6c_dd1d) >> 16
    }

    pub fn below(&mut self, bound: u64) -> u64 {
        self.roll() % bound
    }

    fn one_in(&mut self, bound: u64) -> bool {
        self.below(bound) == 0
    }

    pub fn pick<T: Copy>(&mut self, from: &[T]) -> T {
        from[self.below(from.len() as u64) as usize]
    }
}

fn settings(dice: &mut Dice) -> Settings {
    Settings {
        container_id: vec![b'h'; dice.pick(&[0, 3, 255])],
        max_frame_size: dice.pick(&[512, 513, 4096, 16384]),
        channel_max: dice.pick(&CHANNEL_MAXES),
        idle_time_out: dice.pick(&[None, Some(0), Some(60_000)]),
    }
}

/// What the choice of an event looks at, so that lists stay alive.
struct Place<'a> {
    role: Role,
    settings: &'a Settings,
    /// With the ties that both sides have.
    account: Account,
    ties: &'a Ties,
    /// The ties that the Rust alone has: a frame for one of them ends a list.
    late: Vec<(u16, u32)>,
    room: bool,
}

impl Place<'_> {
    /// Mostly one of the list, now and then any, the highest or one above, where there is one.
    fn channel(&self, dice: &mut Dice, list: &[(u16, u32)]) -> u16 {
        let highest = self.settings.channel_max;
        match dice.below(300) {
            0 => highest.saturating_add(1),
            1 => highest,
            2 => dice.below(highest as u64 + 1) as u16,
            3 => self.edge(dice),
            _ if list.is_empty() => dice.below(highest.min(3) as u64 + 1) as u16,
            _ => dice.pick(list).0,
        }
    }

    /// An incoming channel, now and then one above the highest, where there is one.
    fn incoming_channel(&self, dice: &mut Dice) -> u16 {
        if dice.one_in(300) {
            self.settings.channel_max.saturating_add(1)
        } else {
            self.any_channel(dice)
        }
    }

    /// Any channel. Of many it is often one beside a limit, one of the lowest, or one that is tied, on both sides or in the Rust alone.
    fn any_channel(&self, dice: &mut Dice) -> u16 {
        let highest = self.settings.channel_max;
        match if highest < MANY { 7 } else { dice.below(8) } {
            0 | 1 => self.edge(dice),
            2 if !self.account.ties.is_empty() => dice.pick(&self.account.ties).0,
            3 if !self.late.is_empty() => dice.pick(&self.late).0,
            4 => dice.below(4) as u16,
            _ => dice.below(highest as u64 + 1) as u16,
        }
    }

    /// A channel beside a limit, the agreed one's among them.
    fn edge(&self, dice: &mut Dice) -> u16 {
        let (highest, agreed) = (self.settings.channel_max, self.account.channel_max);
        let edges = [254, 255, 256, 257, agreed, agreed.saturating_add(1), highest.saturating_sub(1), highest];
        dice.pick(&edges).min(highest)
    }

    /// A session leaves: in one order the peer's Ends come first, in the other the channel is freed while it is tied.
    fn leaves(&self, dice: &mut Dice, channel: u16) -> Event {
        match self.ties.one_through(channel) {
            Some(tied) if self.account.state == OPENED && !dice.one_in(3) => {
                Event::Incoming { frame: end(tied), spare: 0, waiting: Vec::new() }
            }
            _ => Event::Deallocate(channel),
        }
    }

    /// A Begin that came.
    fn begin(&self, dice: &mut Dice) -> Vec<u8> {
        let channel = self.incoming_channel(dice);
        let new = self.role == Role::Listener && self.room && dice.one_in(2);
        if new || dice.one_in(200) {
            begin(channel, None)
        } else if self.account.taken.is_empty() && !dice.one_in(100) {
            frame(channel, &[])
        } else {
            begin(channel, Some(self.channel(dice, &self.account.taken)))
        }
    }

    fn between(&self, dice: &mut Dice, channel: u16) -> Vec<u8> {
        match dice.below(12) {
            0 => attach(channel),
            1 => flow(channel),
            2 => disposition(channel),
            3 => detach(channel),
            4 | 5 => end(channel),
            6 if dice.one_in(20) => {
                let limit = self.account.writing_limit;
                // Twenty bytes stand before a payload: a frame at the limit, those beside it, and two that need several frames.
                transfer(channel, dice.pick(&[limit - 22, limit - 21, limit - 20, limit - 19, limit - 18, 2 * limit, 5 * limit]))
            }
            7 if dice.one_in(30) => long(channel, dice.pick(&[17, 18, 20]), self.account.writing_limit, dice.below(5) as usize),
            8 if dice.one_in(10) => deep(channel, dice.pick(&[13, 14, 14, 14, 15])),
            _ => transfer(channel, dice.below(40) as usize),
        }
    }

    /// A session's frame to be sent, now and then one that cannot be.
    fn to_send(&self, dice: &mut Dice) -> Vec<u8> {
        let frame = self.outgoing(dice);
        if dice.one_in(40) {
            dice.damaged = true;
            damaged(dice, frame)
        } else {
            frame
        }
    }

    fn outgoing(&self, dice: &mut Dice) -> Vec<u8> {
        let channel = self.channel(dice, &self.account.taken);
        if dice.one_in(3) {
            let remote = (!self.account.taken.is_empty() && dice.one_in(2)).then(|| self.incoming_channel(dice));
            return begin(channel, remote);
        }
        self.between(dice, channel)
    }

    /// Frames that wait, one in six of them beside the limit or over it.
    fn waiting(&self, dice: &mut Dice) -> Vec<u8> {
        let mut frames = Vec::new();
        while dice.one_in(2) {
            let channel = self.channel(dice, &self.account.taken);
            frames.extend(match dice.one_in(6) {
                true => long(channel, dice.pick(&[17, 18, 20]), self.account.writing_limit, dice.below(5) as usize),
                false => self.to_send(dice),
            });
        }
        frames
    }
}

/// A map with one entry.
fn properties(value: &[u8]) -> Vec<u8> {
    [&[0xd1][..], &(value.len() as u32 + 7).to_be_bytes(), &[0, 0, 0, 2], b"\xa3\x01p", value].concat()
}

/// An Attach with lists in lists in its properties: the innermost value is so many levels below level 2.
fn deep(channel: u16, levels: usize) -> Vec<u8> {
    let nested = (0..levels).fold(vec![0x43], |inside, _| [&[0xc0, inside.len() as u8 + 1, 1][..], &inside].concat());
    let properties = properties(&nested);
    let mut fields: Vec<&[u8]> = vec![b"\xa1\x01n", b"\x43", b"\x42"];
    fields.resize(13, b"\x40");
    fields.push(&properties);
    frame(channel, &body(18, &fields))
}

/// A Begin, an Attach or a Transfer without payload that is long by its properties, name or tag: at the limit, beside it, or twice as long.
fn long(channel: u16, code: u8, limit: usize, choice: usize) -> Vec<u8> {
    let of = |length: usize| {
        let kind = if code == 18 { 0xb1 } else { 0xb0 };
        let text = [&[kind][..], &(length as u32).to_be_bytes(), &vec![b'n'; length]].concat();
        let most = b"\x70\x00\x00\x01\x00";
        frame(
            channel,
            &match code {
                17 => body(17, &[b"\x60\x00\x00", b"\x43", b"\x43", b"\x43", most, b"\x40", b"\x40", &properties(&text)]),
                18 => body(18, &[&text, b"\x43", b"\x42"]),
                _ => body(20, &[b"\x43", b"\x43", &text]),
            },
        )
    };
    let rest = of(300).len() - 300;
    of([limit - rest - 1, limit - rest, limit - rest + 1, limit - rest + 2, 2 * limit][choice])
}

/// The same frame with the name of its performative for a descriptor, or with that of its error.
fn symbolic(frame: &[u8]) -> Vec<u8> {
    const NAMES: [&str; 9] = ["open", "begin", "attach", "flow", "transfer", "disposition", "detach", "end", "close"];
    let at = frame.get(10).map_or(0, |code| code.wrapping_sub(16) as usize).min(8);
    let name = format!("amqp:{}:list", NAMES[at]);
    let error = [&b"\x00\xa3\x0famqp:error:list"[..], b"\xc0\x04\x01\xa3\x01x"].concat();
    match at {
        7 | 8 if frame.len() > 12 => crate::events::frame(0, &body(16 + at as u8, &[&error])),
        _ => {
            let descriptor = [&[0, 0xa3, name.len() as u8][..], name.as_bytes()].concat();
            crate::events::frame(channel(frame), &[&descriptor, frame.get(11..).unwrap_or(b"\x45")].concat())
        }
    }
}

/// A good frame with a byte altered, a piece cut off, bytes after it or at the end of its body, a symbol for a descriptor, or a length of 0 to 8.
fn damaged(dice: &mut Dice, mut frame: Vec<u8>) -> Vec<u8> {
    match dice.below(8) {
        0 | 1 => frame.truncate(dice.below(frame.len() as u64) as usize),
        2 => frame.extend([0, 0, 0]),
        3 => {
            frame.push(0x40);
            let size = frame.len() as u32;
            frame[..4].copy_from_slice(&size.to_be_bytes());
        }
        4 if dice.one_in(3) => frame = symbolic(&frame),
        5 if dice.one_in(3) => {
            frame[..4].copy_from_slice(&(dice.below(9) as u32).to_be_bytes());
            frame.truncate(4 + dice.below(5) as usize);
        }
        _ => {
            // Lengths 4 to 7 and channels far above are rules that end a list: the body is damaged more often.
            let from = if frame.len() > 8 && !dice.one_in(8) { 8 } else { 0 };
            let at = from + dice.below((frame.len() - from) as u64) as usize;
            frame[at] = dice.pick(&[0x00, 0x01, 0x40, 0x43, 0x45, 0x53, 0x56, 0x60, 0x70, 0x80, 0xa1, 0xa3, 0xc0, 0xd0, 0xff]);
        }
    }
    frame
}

fn any_open(dice: &mut Dice) -> Vec<u8> {
    let size = dice.pick(&[0, 511, 512, 513, 4096, 16384, 16385, 65536, u32::MAX]);
    open(size, dice.pick(&[0, 1, 7, 255, 256, 4095, 65534, 65535]), dice.pick(&[None, None, None, Some(0), Some(9)]))
}

fn incoming(dice: &mut Dice, place: &Place) -> Vec<u8> {
    let frame = match dice.below(1000) {
        0..=1 => close(None),
        2 => close(Some(&error("amqp:internal-error", None))),
        3..=4 => any_open(dice),
        5 => {
            let channel = place.channel(dice, &place.account.ties);
            transfer(channel, place.account.reading_limit - dice.pick(&[18, 19, 20, 21]))
        }
        6..=60 => frame(0, &[]),
        61..=400 => place.begin(dice),
        _ if place.account.ties.is_empty() && !dice.one_in(100) => place.begin(dice),
        _ if !place.late.is_empty() && dice.one_in(100) => {
            let channel = dice.pick(&place.late).0;
            place.between(dice, channel)
        }
        _ => {
            let channel = place.channel(dice, &place.account.ties);
            place.between(dice, channel)
        }
    };
    if dice.one_in(150) {
        damaged(dice, frame)
    } else {
        frame
    }
}

/// A handle: any, or one of a few, so that several channels have it.
fn any_handle(dice: &mut Dice) -> u32 {
    if dice.one_in(3) {
        dice.below(3) as u32
    } else {
        dice.roll() as u32
    }
}

fn event(dice: &mut Dice, place: &Place) -> Event {
    let handle = any_handle(dice);
    let waits = place.account.phase == Phase::Awaiting && !dice.one_in(20);
    match if waits { 0 } else { dice.below(1000) } {
        0..=499 => {
            let frame = incoming(dice, place);
            let closes = frame.get(10) == Some(&24);
            let waiting = if closes || dice.one_in(10) { place.waiting(dice) } else { Vec::new() };
            Event::Incoming { frame, spare: handle, waiting }
        }
        500..=659 => Event::Allocate(handle),
        660..=779 if !place.account.taken.is_empty() || dice.one_in(20) => {
            let channel = place.channel(dice, &place.account.taken);
            place.leaves(dice, channel)
        }
        780..=959 => Event::Outgoing(place.to_send(dice)),
        991 => Event::Close { waiting: place.waiting(dice) },
        992 => Event::CloseWithError {
            // With both, 36 bytes stand beside the texts: 476 make a frame of 512.
            condition: vec![b'c'; dice.pick(&[0, 22, 255])],
            description: dice.one_in(2).then(|| vec![b'd'; dice.pick(&[0, 200, 220, 221, 222, 223, 255])]),
            waiting: place.waiting(dice),
        },
        993 => Event::EndOfInput,
        994 => Event::NotDelivered { new_session: dice.one_in(2) },
        995 => Event::SendOpen,
        996 => Event::ReceiveHeader(any_header(dice)),
        997 => Event::SendHeader,
        _ => Event::Tick,
    }
}

/// A header: that of AMQP, of other protocols, malformed, short, or with bytes after it.
fn any_header(dice: &mut Dice) -> Vec<u8> {
    let headers: [&[u8]; 8] = [
        b"AMQP\x00\x01\x00\x00",
        b"AMQP\x03\x01\x00\x00",
        b"AMQP\x02\x01\x00\x01",
        b"AMQP\x01\x01\x00\x00",
        b"AMQQ\x00\x01\x00\x00",
        b"AMQP\x00\x01\x00",
        b"",
        b"AMQP\x00\x01\x00\x00AMQP",
    ];
    dice.pick(&headers).to_vec()
}

/// A crowd of sessions: they come until there are so many, and then leave, in any order, until few are left.
struct Crowd {
    most: usize,
    leaving: bool,
}

impl Crowd {
    fn new(dice: &mut Dice) -> Self {
        Crowd { most: 100 + dice.below(500) as usize, leaving: false }
    }

    fn event(&mut self, dice: &mut Dice, place: &Place) -> Event {
        let (taken, ties) = (&place.account.taken, &place.account.ties);
        if self.leaving && taken.len() <= self.most / 8 {
            *self = Crowd::new(dice);
        }
        self.leaving |= taken.len() >= self.most || !place.room;
        let handle = any_handle(dice);
        let incoming = |frame| Event::Incoming { frame, spare: handle, waiting: Vec::new() };
        let begins = if self.leaving { 12 } else { 16 };
        match dice.below(20) {
            0..=10 if self.leaving => {
                let channel = dice.pick(taken).0;
                place.leaves(dice, channel)
            }
            0..=11 => Event::Allocate(handle),
            at if at <= begins && place.role == Role::Listener && place.room && dice.one_in(3) => {
                incoming(begin(place.any_channel(dice), None))
            }
            at if at <= begins && !taken.is_empty() => incoming(begin(place.any_channel(dice), Some(dice.pick(taken).0))),
            17 if !taken.is_empty() => Event::Outgoing(begin(dice.pick(taken).0, Some(place.any_channel(dice)))),
            18 if !place.late.is_empty() && dice.one_in(40) => incoming(transfer(dice.pick(&place.late).0, 9)),
            18 if !ties.is_empty() => incoming(transfer(dice.pick(ties).0, 9)),
            _ if !ties.is_empty() => incoming(end(dice.pick(ties).0)),
            _ => Event::Tick,
        }
    }
}

/// A beginning: mostly an opening, in one order or the other; before a crowd always, and with many channels.
fn beginning(dice: &mut Dice, crowd: bool) -> Vec<Event> {
    let header = Event::ReceiveHeader(b"AMQP\x00\x01\x00\x00".to_vec());
    let frame = if crowd { open(4096, dice.pick(&[255, 256, 4095, 65534, 65535]), None) } else { any_open(dice) };
    let open = Event::Incoming { frame, spare: 0, waiting: Vec::new() };
    match if crowd { 14 + dice.below(2) } else { dice.below(24) } {
        0 => Vec::new(),
        1 => vec![Event::SendHeader, Event::SendOpen],
        2 => vec![Event::SendHeader, header, Event::SendOpen],
        3 => vec![Event::SendHeader, header, Event::SendOpen, Event::Close { waiting: Vec::new() }],
        4 => vec![header, Event::SendHeader, open],
        5 => vec![Event::ReceiveHeader(any_header(dice))],
        6..=14 => vec![Event::SendHeader, header, Event::SendOpen, open],
        _ => vec![header, Event::SendHeader, open, Event::SendOpen],
    }
}

/// What a list is made by.
pub struct Setting {
    pub role: Role,
    pub settings: Settings,
    /// Events to begin with.
    pub beginning: Vec<Event>,
    crowd: Option<Crowd>,
}

impl Setting {
    pub fn new(dice: &mut Dice) -> Self {
        let role = dice.pick(&[Role::Dialler, Role::Listener]);
        let settings = settings(dice);
        let crowd = (settings.channel_max >= MANY && dice.one_in(12)).then(|| Crowd::new(dice));
        let beginning = beginning(dice, crowd.is_some());
        Setting { role, settings, beginning, crowd }
    }

    /// How many sessions come, where they come as a crowd.
    pub fn crowd(&self) -> Option<usize> {
        self.crowd.as_ref().map(|crowd| crowd.most)
    }

    pub fn pair(&self) -> Pair<Side> {
        Pair::new(self.role, &self.settings, Side::new(self.role, &self.settings))
    }

    /// An event for where the pair is now.
    pub fn event(&mut self, dice: &mut Dice, pair: &Pair<Side>) -> Event {
        let mut account = pair.rust.account();
        account.ties.retain(|(channel, _)| pair.ties.is_made(*channel));
        let (ties, late) = (&pair.ties, pair.ties.all_kept());
        let room = account.taken.len() <= account.channel_max as usize;
        let place = Place { role: self.role, settings: &self.settings, account, ties, late, room };
        match &mut self.crowd {
            Some(crowd) if place.account.phase == Phase::Running && !dice.one_in(30) => crowd.event(dice, &place),
            _ => event(dice, &place),
        }
    }
}

/// Runs a seed's list, and notes its events. Whether there is a finding.
fn live(seed: u64, length: usize, tally: &mut Tally) -> (Setting, Vec<Event>, bool) {
    let mut dice = Dice::new(seed);
    let mut setting = Setting::new(&mut dice);
    let mut pair = setting.pair();
    let mut events = setting.beginning.clone();
    let length = if setting.crowd().is_some() { LONGER * length } else { length };
    for at in 0..length {
        dice.damaged = false;
        if at == events.len() {
            events.push(setting.event(&mut dice, &pair));
        }
        // A damaged frame that still goes out has fields that no session would write.
        pair.keeps_written = !dice.damaged;
        match pair.step(&events[at]) {
            Err(_) => return (setting, events, true),
            Ok(step) => {
                tally.events += 1;
                tally.count(&step.rules);
                if step.ends || pair.port.status().phase == 2 {
                    return (setting, events, false);
                }
            }
        }
    }
    (setting, events, pair.whole().is_err())
}

/// Replays a list up to where the sides go apart: the finding, if there is one, and how many events lead to it.
fn run(setting: &Setting, events: &[Event]) -> Option<(usize, String)> {
    let mut pair = setting.pair();
    for (at, event) in events.iter().enumerate() {
        match pair.step(event) {
            Err(what) => return Some((at + 1, what)),
            Ok(step) if step.ends || pair.port.status().phase == 2 => return None,
            Ok(_) => {}
        }
    }
    pair.whole().err().map(|what| (events.len(), what))
}

/// Leaves out events while a finding stays: half of them at a time, then fewer, and one by one until none can be left out.
fn shrink(setting: &Setting, mut events: Vec<Event>) -> (Vec<Event>, String) {
    let (count, mut what) = run(setting, &events).expect("a list with a finding");
    events.truncate(count);
    let mut size = events.len() / 2;
    while size > 0 {
        let before = events.len();
        let mut from = 0;
        while from < events.len() {
            let mut fewer = events.clone();
            fewer.drain(from..(from + size).min(events.len()));
            match run(setting, &fewer) {
                Some((count, finding)) => {
                    what = finding;
                    fewer.truncate(count);
                    events = fewer;
                }
                None => from += size,
            }
        }
        if size > 1 || events.len() == before {
            size /= 2;
        }
    }
    (events, what)
}

/// One seed's list; its finding is shrunk, as long as findings are shown.
pub fn seed(seed: u64, length: usize, tally: &mut Tally) {
    tally.lists += 1;
    let (setting, events, found) = live(seed, length, tally);
    if !found {
        return;
    }
    if tally.findings >= SHOWN {
        return tally.found("");
    }
    let (events, what) = shrink(&setting, events);
    let lines: Vec<String> = events.iter().map(|event| format!("    {event}")).collect();
    let (role, settings) = (setting.role, &setting.settings);
    tally.found(&format!("seed {seed} ({length} events), {role:?}, {settings:?}, shrunk to\n{}\n  {what}", lines.join("\n")));
}
