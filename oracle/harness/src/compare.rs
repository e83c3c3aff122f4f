//! Both sides, one event at a time. Where document 01 has them differ, a rule says what each of them must do; whatever differs else is a finding.
//!
//! Whether a rule is due is told from the event and from what was held before it, and not from what the port answers: a port that does as the Rust does where it is
//! to be built otherwise is a finding too. What a rule does not name is compared as always.
//!
//! No rule has a limit of its own: where the local channel-max is 65,535 no channel is above it, so high-channel is never due, and a 7 of the port's is a finding.

use std::collections::HashSet;
use std::fmt;
use std::sync::Mutex;

use crate::events::*;
use crate::ties::Ties;
use fe2o3_amqp::auth::{Account, Answer, Inner, Mode, Oracle, Outcome, Phase, Refusal, Role, Settings};
use fe2o3_amqp_types::performatives::Performative;

/// A known difference.
#[derive(Debug, Clone, Copy, PartialEq, Eq, PartialOrd, Ord)]
pub enum Rule {
    ShortLength,
    VacantFree,
    FreedWhileTied,
    OpenWritten,
    CloseWritten,
    EarlyAllocate,
    HighChannel,
    LimitsOnOpen,
    LimitCapped,
    ZeroIdle,
    Oversized,
    SymbolicDescriptor,
    DeepValue,
    AllocateInEnd,
    BytesToSend,
    PhaseRefusal,
    HeaderFirst,
}

/// Each rule with its name and what it says.
pub const RULES: [(Rule, &str, &str); 17] = [
    (Rule::ShortLength, "short-length", "a frame's length is 4 to 7: the Rust waits or panics, here 3"),
    (Rule::VacantFree, "vacant-free", "a channel is freed that is not taken: the Rust panics, here 26"),
    (Rule::FreedWhileTied, "freed-while-tied", "a tied channel is freed: the Rust keeps its ties and hands late frames on, here 24"),
    (Rule::OpenWritten, "open-written", "a refused Open: the Rust writes it before its state check"),
    (Rule::CloseWritten, "close-written", "a refused Close: the Rust writes it before its state check"),
    (Rule::EarlyAllocate, "early-allocate", "a channel before the peer's Open: the Rust gives it, here 21"),
    (Rule::HighChannel, "high-channel", "a channel above the local channel-max: the Rust takes it, here 7"),
    (Rule::LimitsOnOpen, "limits-on-open", "an Open while the engine runs: the Rust keeps its limits"),
    (Rule::LimitCapped, "limit-capped", "a peer's max-frame-size above 16,384 counts as that here"),
    (Rule::ZeroIdle, "zero-idle", "an Open with idle-time-out 0 while the engine runs: the Rust panics, here none"),
    (Rule::Oversized, "oversized", "a frame over the writing limit: the Rust splits or chops it, or panics, here 27"),
    (Rule::SymbolicDescriptor, "symbolic-descriptor", "a symbolic descriptor: read there, here 6"),
    (Rule::DeepValue, "deep-value", "a value at level 17: read there, here 6"),
    (Rule::AllocateInEnd, "allocate-in-end", "allocate in End: refused by both, and the Rust's loop stops then"),
    (Rule::BytesToSend, "bytes-to-send", "bytes that are no session frame: the Rust has values, here refused by number"),
    (Rule::PhaseRefusal, "phase-refusal", "an event while the Close is awaited, or after the end: none there, here 20"),
    (Rule::HeaderFirst, "header-first", "a header's bytes are judged before the state here, after it in the Rust"),
];

impl fmt::Display for Rule {
    fn fmt(&self, f: &mut fmt::Formatter<'_>) -> fmt::Result {
        f.write_str(RULES.iter().find(|(rule, _, _)| rule == self).expect("every rule has a name").1)
    }
}

/// What a comparison came to, when nothing unnamed was found.
#[derive(Debug, Default)]
pub struct Step {
    pub rules: Vec<Rule>,
    /// The two sides went apart, as named: nothing can be compared after this.
    pub ends: bool,
    /// What the port must hold where the two sides went apart.
    held: Option<Account>,
}

impl Step {
    fn goes_on(rule: Rule) -> Self {
        Step { rules: vec![rule], ..Step::default() }
    }

    fn ends(rule: Rule, held: Account) -> Self {
        Step { rules: vec![rule], ends: true, held: Some(held) }
    }

    /// A frame came for a tie that the Rust alone has.
    fn is_late(&self) -> bool {
        self.ends && self.rules.contains(&Rule::FreedWhileTied)
    }
}

/// The Rust and the port, side by side.
pub struct Pair<P> {
    pub rust: Oracle,
    pub port: P,
    /// The ties that both sides have, and those that the Rust alone has.
    pub ties: Ties,
    role: Role,
    settings: Settings,
    /// The highest channel that is looked at: one above the local channel-max, where there is one.
    top: u16,
    /// An Open came where the Rust's limits cannot be reached: those that are due.
    limits: Option<(usize, usize)>,
    /// The outcome to come, of an engine that awaits the Close.
    kept: u8,
    steps: usize,
    /// How the Rust was brought back, and after which event.
    backs: Vec<(usize, Back)>,
    /// Whether what the port writes is kept, where it is asked for.
    pub keeps_written: bool,
    /// What the port answered last.
    pub last: Reply,
}

/// How the Rust is brought to where the port is, where a rule says that it goes elsewhere.
#[derive(Debug, Clone, Copy)]
enum Back {
    /// Channel 0, which it gave too early, is freed.
    Free,
    Limits {
        remote: u32,
        local: u32,
    },
}

impl Back {
    fn bring(self, rust: &mut Oracle) {
        match self {
            Back::Free => drop(rust.event(Event::Deallocate(0).rust())),
            Back::Limits { remote, local } => rust.adopt_limits(remote, local),
        }
    }
}

/// The two sides of one event.
struct Both<'a> {
    event: &'a Event,
    role: Role,
    settings: &'a Settings,
    before: Account,
    port_before: Status,
    /// The handle that the Rust alone has for the channel of a frame that came.
    late: Option<u32>,
    answer: Answer,
    reply: Reply,
}

/// What the port wrote, each frame once and without a Transfer's payload, where it is asked for.
static WRITTEN: Mutex<Option<HashSet<Vec<u8>>>> = Mutex::new(None);

/// From now on what the port writes is kept.
pub fn keep_written() {
    *WRITTEN.lock().unwrap() = Some(HashSet::new());
}

/// What was kept, in order.
pub fn kept_written() -> Vec<Vec<u8>> {
    let mut frames: Vec<_> = WRITTEN.lock().unwrap().take().into_iter().flatten().collect();
    frames.sort();
    frames
}

pub fn note_written(bytes: &[u8]) {
    if bytes.is_empty() {
        return;
    }
    if let Some(kept) = &mut *WRITTEN.lock().unwrap() {
        for frame in split(bytes).into_iter().map(without_payload) {
            kept.insert(frame);
        }
    }
}

fn outcome_number(outcome: Outcome) -> u8 {
    match outcome {
        Outcome::Fine => 0,
        Outcome::Transport => 1,
        Outcome::IllegalState => 2,
        Outcome::NotFound => 3,
        Outcome::NotImplemented => 4,
        Outcome::RemoteClosed => 5,
        Outcome::RemoteClosedWithError => 6,
    }
}

fn phase_number(phase: Phase) -> u8 {
    match phase {
        Phase::Running => 0,
        Phase::Awaiting => 1,
        Phase::Stopped => 2,
    }
}

fn open_in(event: &Event) -> Option<(u32, Option<u32>)> {
    let Event::Incoming { frame, .. } = event else { return None };
    match performative(frame.get(8..)?)?.0 {
        Performative::Open(open) => Some((open.max_frame_size.0, open.idle_time_out)),
        _ => None,
    }
}

/// Whether a Close that came has an error.
fn close_in(event: &Event) -> Option<bool> {
    let Event::Incoming { frame, .. } = event else { return None };
    match performative(frame.get(8..)?)?.0 {
        Performative::Close(close) => Some(close.error.is_some()),
        _ => None,
    }
}

/// What is shown of an account: of many channels the first ones.
fn in_short(account: &Account) -> Account {
    let mut account = account.clone();
    account.taken.truncate(40);
    account.ties.truncate(40);
    account
}

/// The remote-channel of a frame, where it is a Begin that has one.
fn remote_in(frame: &[u8]) -> Option<u16> {
    match performative(frame.get(8..size(frame)?)?)?.0 {
        Performative::Begin(begin) => begin.remote_channel,
        _ => None,
    }
}

/// The channel that a frame came on.
fn came_on(event: &Event) -> Option<u16> {
    let Event::Incoming { frame, .. } = event else { return None };
    frame.get(..8).map(channel)
}

fn hold(is: bool, what: &str) -> Result<(), String> {
    is.then_some(()).ok_or_else(|| what.to_string())
}

impl<P: Port> Pair<P> {
    pub fn new(role: Role, settings: &Settings, port: P) -> Self {
        Pair {
            rust: Oracle::new(role, settings, Mode::Calls),
            port,
            ties: Ties::default(),
            role,
            settings: settings.clone(),
            top: settings.channel_max.saturating_add(1),
            limits: None,
            kept: 0,
            steps: 0,
            backs: Vec::new(),
            keeps_written: true,
            last: Reply::default(),
        }
    }

    /// The same pair once more, after the events that this one was given: the Rust does them again, the port is copied.
    pub fn again<'a>(&self, events: impl Iterator<Item = &'a Event>) -> Self
    where
        P: Clone,
    {
        let mut rust = Oracle::new(self.role, &self.settings, Mode::Calls);
        for (at, event) in events.enumerate() {
            rust.event(event.rust());
            self.backs.iter().filter(|(place, _)| *place == at).for_each(|(_, back)| back.bring(&mut rust));
        }
        assert!(rust.account() == self.rust.account(), "the Rust does the same again");
        let (port, ties, settings) = (self.port.clone(), self.ties.clone(), self.settings.clone());
        Pair { rust, port, ties, settings, backs: self.backs.clone(), last: self.last.clone(), ..*self }
    }

    /// Does an event on both sides, and compares what they answer and what they hold.
    pub fn step(&mut self, event: &Event) -> Result<Step, String> {
        self.take(event, self.rust.account(), true)
    }

    /// The same without a look at what they hold, for lists that were compared before.
    pub fn pass(&mut self, event: &Event) -> Result<Step, String> {
        self.take(event, self.rust.account(), false)
    }

    /// The same where neither side is watched. The channel that the event names is told with its handle, if it is taken.
    pub fn swift(&mut self, event: &Event, named: &[(u16, u32)]) -> Result<Step, String> {
        let before = Account { taken: named.to_vec(), ..self.rust.account() };
        self.take(event, before, false)
    }

    /// Whether both sides are looked at: the Rust shows its channels, and the port's bytes are compared after a refusal.
    pub fn watch(&mut self, watched: bool) {
        self.rust.show_channels(watched);
        self.port.watch(watched);
    }

    fn take(&mut self, event: &Event, before: Account, look: bool) -> Result<Step, String> {
        let settings = self.settings.clone();
        let port_before = self.port.status();
        let answer = self.rust.event(event.rust());
        let reply = self.port.event(event);
        if self.keeps_written {
            note_written(&reply.written);
        }
        self.last = reply.clone();
        let late = came_on(event).and_then(|channel| self.ties.kept(channel));
        let both = Both { event, role: self.role, settings: &settings, before, port_before, late, answer, reply };
        let mut step = answers(&both, self.limits).map_err(|what| self.finding(&both, &what))?;
        self.follow_ties(&both, &mut step);
        let back = self.follow(&both, &mut step).map_err(|what| self.finding(&both, &what))?;
        self.backs.extend(back.map(|back| (self.steps, back)));
        self.steps += 1;
        if look && !(step.ends && step.held.is_none()) {
            let all = step.ends || self.port.status().phase == 2 || self.steps % self.often() == 0;
            let account = step.held.clone().unwrap_or_else(|| self.rust.account());
            self.accounts(&account, self.outcome(&both), all, step.ends).map_err(|what| self.finding(&both, &what))?;
        }
        Ok(step)
    }

    fn finding(&self, both: &Both, what: &str) -> String {
        let (answer, reply) = (&both.answer, &both.reply);
        let lines = [
            what.to_string(),
            format!("event     {}", both.event),
            format!(
                "the Rust  {:?}, stopped {:?}, consumed {}, wrote {}",
                answer.inner,
                answer.stopped,
                answer.consumed,
                hex(&answer.written)
            ),
            format!("the port  {reply}"),
            format!("before    {:?}", in_short(&both.before)),
            format!("          {:?}", both.port_before),
            format!("now       {:?}", in_short(&self.rust.account())),
            format!("          {:?}", self.port.status()),
        ];
        lines.join("\n  ")
    }

    /// Brings the Rust to where the port is, and notes what the Rust does not tell.
    fn follow(&mut self, both: &Both, step: &mut Step) -> Result<Option<Back>, String> {
        if both.before.phase == Phase::Running {
            let failure = if step.is_late() { Some(Outcome::NotFound) } else { both.failure() };
            self.kept = failure.map_or(0, outcome_number);
        }
        let back = match open_in(both.event) {
            Some((remote, _)) if both.reply.kind == 7 => Back::Limits { remote: remote.min(16384), local: self.settings.max_frame_size },
            _ if step.rules.contains(&Rule::EarlyAllocate) => Back::Free,
            _ => return Ok(None),
        };
        if let (Back::Limits { .. }, Some((remote, _))) = (back, open_in(both.event)) {
            self.opened(both, step, remote)?;
        }
        back.bring(&mut self.rust);
        if step.rules.contains(&Rule::ZeroIdle) {
            // The Open was taken before the panic, and the port's phase stays; an engine that awaited the Close does not any more.
            step.held = Some(Account { phase: both.before.phase, ..self.rust.account() });
        }
        Ok(Some(back))
    }

    /// Notes which ties are made, ended and dropped, by what the Rust answers. Where the sides went apart, only frames that went out before that have made any.
    fn follow_ties(&mut self, both: &Both, step: &mut Step) {
        if step.ends && !step.rules.contains(&Rule::Oversized) {
            return;
        }
        match (both.event, &both.answer.inner) {
            (Event::Incoming { frame, .. }, Inner::Forward { code: 17, .. }) => {
                let remote = remote_in(frame).expect("a Begin that is handed on names a channel");
                self.ties.tie(channel(frame), remote);
            }
            (Event::Incoming { frame, .. }, Inner::Began { channel: taken, .. }) => self.ties.tie(channel(frame), *taken),
            (Event::Incoming { frame, .. }, Inner::Forward { code: 23, .. }) => self.ties.untie(channel(frame)),
            (Event::Deallocate(freed), Inner::Freed) => {
                let handle = both.taken(*freed).expect("a channel that is freed was taken");
                if self.ties.free(*freed, handle) {
                    step.rules.push(Rule::FreedWhileTied);
                }
            }
            _ => both.tied_by_sending().into_iter().for_each(|(remote, sender)| self.ties.tie(remote, sender)),
        }
    }

    /// An Open was taken: the Rust has kept its limits, and others are due.
    fn opened(&mut self, both: &Both, step: &mut Step, remote: u32) -> Result<(), String> {
        let account = self.rust.account();
        let kept = (account.reading_limit, account.writing_limit);
        hold(kept == (both.before.reading_limit, both.before.writing_limit), "the Rust must keep its limits")?;
        let due = (self.settings.max_frame_size as usize, remote.clamp(512, 16384) as usize);
        if kept != due {
            step.rules.push(Rule::LimitsOnOpen);
        }
        if remote > 16384 {
            step.rules.push(Rule::LimitCapped);
        }
        self.limits = (account.phase == Phase::Awaiting).then_some(due);
        Ok(())
    }

    /// After how many events all channels are looked at, and not only those that the Rust has taken or tied and a sample.
    fn often(&self) -> usize {
        match self.top {
            0..=8 => 1,
            9..=256 => 16,
            _ => 128,
        }
    }

    /// A few channels: those where a number gets one more bit or byte, and some that differ from event to event.
    fn sample(&self) -> impl Iterator<Item = u16> + '_ {
        let spread = |at: usize| ((self.steps * 8 + at) as u64).wrapping_mul(0x9e37_79b9_7f4a_7c15) >> 32;
        let some = (0..8).map(move |at| (spread(at) % (self.top as u64 + 1)) as u16);
        let agreed = self.port.status().agreed.unwrap_or(0);
        let edges = [0, 127, 128, 255, 256, 32767, 32768, agreed, agreed.saturating_add(1), self.top - 1, self.top];
        edges.into_iter().filter(|channel| *channel <= self.top).chain(some)
    }

    /// All that both sides hold: at the end of a list that no event has ended, or of a stage.
    pub fn whole(&self) -> Result<(), String> {
        let status = self.port.status();
        let outcome = if status.phase == 0 { 0 } else { self.kept };
        let told =
            |what| format!("{what}\n  after the last event\n  now       {:?}\n            {status:?}", in_short(&self.rust.account()));
        self.accounts(&self.rust.account(), outcome, true, false).map_err(told)
    }

    /// What the port holds is what the Rust holds, or what a rule says instead: of all channels, or of some. Ties of freed channels the Rust alone has.
    fn accounts(&self, account: &Account, outcome: u8, all: bool, ends: bool) -> Result<(), String> {
        let status = self.port.status();
        let channels: Vec<u16> = match all {
            true => (0..=self.top).collect(),
            false => account.taken.iter().chain(&account.ties).map(|(channel, _)| *channel).chain(self.sample()).collect(),
        };
        let mut wrong = Vec::new();
        let mut hold = |equal: bool, what: &str| {
            if !equal && wrong.len() < 12 {
                wrong.push(what.to_string());
            }
        };
        hold(phase_number(account.phase) == status.phase, "phase");
        hold(account.state == status.state, "state");
        hold(status.outcome == outcome, "outcome");
        hold(account.agreed == status.agreed.is_some(), "whether agreed");
        hold(status.agreed.map_or(true, |agreed| account.channel_max == agreed), "agreed channel-max");
        let limits = self.limits.unwrap_or((account.reading_limit, account.writing_limit));
        hold(limits.0 == status.reading_limit, "reading limit");
        hold(limits.1 == status.writing_limit, "writing limit");
        hold(account.taken.len() == status.taken, "number of taken channels");
        let tied = |channel: u16| found(&account.ties, channel).filter(|_| self.ties.is_made(channel));
        for channel in channels {
            hold(found(&account.taken, channel) == self.port.handle_at(channel), "handle at a channel");
            hold(tied(channel) == self.port.tied_handle(channel), "tied handle");
        }
        if all {
            let held = self.port.held();
            let of_the_rust = self.ties.of_the_rust(|channel| found(&account.taken, channel));
            hold(of_the_rust.as_deref() == Some(&account.ties[..]), "the Rust must keep the ties of freed channels, and have no others");
            hold(account.taken == held.taken, "taken channels");
            hold(self.ties.made() == held.through, "outgoing channels of ties");
            hold(account.ties.iter().copied().filter(|(channel, _)| self.ties.is_made(*channel)).eq(held.ties), "ties");
            if !ends {
                let listed = account.agreed.then(|| self.rust.hand_out());
                let allowed = account.phase == Phase::Running && ![11, 12, 13].contains(&account.state);
                hold(listed == held.hand_out, "hand-out list");
                hold(listed.filter(|_| allowed) == self.port.given(), "channels given in turn");
            }
        }
        wrong.is_empty().then_some(()).ok_or_else(|| format!("accounts differ: {}", wrong.join(", ")))
    }

    /// The outcome that a status must show: none while running, the one to come while awaiting, and then the one that was answered.
    fn outcome(&self, both: &Both) -> u8 {
        match self.port.status().phase {
            0 => 0,
            1 => self.kept,
            _ if both.before.phase == Phase::Stopped => both.port_before.outcome,
            _ => both.reply.outcome,
        }
    }
}

/// The handle of a channel in a list that is ascending by channel.
fn found(list: &[(u16, u32)], channel: u16) -> Option<u32> {
    list.binary_search_by_key(&channel, |(at, _)| *at).ok().map(|at| list[at].1)
}

// ---- what both sides are held to

impl Both<'_> {
    /// The port refuses with this number, and that is all.
    fn port_refuses(&self, number: u8) -> Result<(), String> {
        let reply = Reply { refused: number, ..Reply::default() };
        hold(self.reply == reply, &format!("the port must refuse with {number}"))
    }

    /// The port stops with a transport error for a frame that has this refusal, and writes nothing.
    fn port_stops(&self, number: u8, consumed: usize) -> Result<(), String> {
        let reply = Reply { stopped: true, outcome: 1, kind: 1, detail: number, consumed, ..Reply::default() };
        hold(self.reply == reply, &format!("the port must stop with {number}, {consumed} bytes consumed"))
    }

    /// What the Rust answers, and that it consumes and writes nothing and does not stop.
    fn rust_says(&self, inner: Inner) -> Result<(), String> {
        self.rust_refuses(inner, None, 0)
    }

    fn rust_refuses(&self, inner: Inner, stopped: Option<Outcome>, consumed: usize) -> Result<(), String> {
        let answer = &self.answer;
        let is = (&answer.inner, answer.stopped, answer.consumed) == (&inner, stopped, consumed) && answer.written.is_empty();
        hold(is, &format!("the Rust must say {inner:?}, {consumed} bytes consumed"))
    }

    fn rust_panics(&self, with: &str, consumed: usize) -> Result<(), String> {
        let panicked = matches!(&self.answer.inner, Inner::Refused(Refusal::Panicked(text)) if text.contains(with));
        let answer = &self.answer;
        let is = panicked && answer.stopped.is_none() && answer.consumed == consumed && answer.written.is_empty();
        hold(is, &format!("the Rust must panic ({with})"))
    }

    /// What was held before the event, of an engine that has now stopped.
    fn stopped(&self) -> Account {
        Account { phase: Phase::Stopped, ..self.before.clone() }
    }

    /// The error that an event came to, as an outcome.
    fn failure(&self) -> Option<Outcome> {
        match (&self.answer.inner, self.event) {
            (Inner::Refused(Refusal::IllegalState), _) | (_, Event::EndOfInput) => Some(Outcome::IllegalState),
            (Inner::Refused(Refusal::NotFound), _) => Some(Outcome::NotFound),
            (Inner::Refused(Refusal::NotImplemented), _) => Some(Outcome::NotImplemented),
            (_, Event::NotDelivered { new_session: true }) if self.role == Role::Listener => Some(Outcome::NotImplemented),
            (_, Event::NotDelivered { .. }) => Some(Outcome::NotFound),
            _ => None,
        }
    }

    fn taken(&self, channel: u16) -> Option<u32> {
        found(&self.before.taken, channel)
    }

    /// The incoming channels that a listener's frames tie as they go out, each with the channel that its Begin is sent on.
    fn tied_by_sending(&self) -> Vec<(u16, u16)> {
        let sent = match (self.event, &self.answer.inner) {
            (_, Inner::Refused(Refusal::CannotBeMade | Refusal::NotTaken)) => None,
            (Event::Incoming { .. }, inner) if !matches!(inner, Inner::Closed { .. } | Inner::Refused(Refusal::Panicked(_))) => None,
            _ => sends(self),
        };
        let mut ties = Vec::new();
        for frame in sent.map_or(Vec::new(), |(frames, _, _)| frames) {
            let sender = channel(frame);
            match remote_in(frame).filter(|_| self.role == Role::Listener) {
                // Not found, or over the limit: what comes after it is not sent.
                Some(_) if self.taken(sender).is_none() => break,
                _ if rewritten(frame).len() > self.before.writing_limit => break,
                Some(remote) => ties.push((remote, sender)),
                None => {}
            }
        }
        ties
    }
}

fn answers(both: &Both, limits: Option<(usize, usize)>) -> Result<Step, String> {
    let takes_frames = matches!(both.event, Event::Incoming { .. } | Event::EndOfInput);
    if both.before.phase == Phase::Stopped || both.before.phase == Phase::Awaiting && !takes_frames {
        let rust = both.answer.inner == Inner::Refused(Refusal::NotTaken) && both.answer.written.is_empty();
        hold(rust, "the driver must not give the Rust an event in this phase")?;
        both.port_refuses(20)?;
        return Ok(Step::goes_on(Rule::PhaseRefusal));
    }
    match both.event {
        Event::SendHeader if ![0, 1].contains(&both.before.state) => {
            both.rust_says(Inner::Refused(Refusal::IllegalState))?;
            both.port_refuses(20).map(|()| Step::default())
        }
        Event::ReceiveHeader(bytes) => header_read(both, bytes),
        Event::SendOpen if ![2, 3, 6].contains(&both.before.state) => open_refused(both),
        Event::Allocate(_) => allocated(both),
        Event::Deallocate(channel) if both.taken(*channel).is_none() => {
            both.rust_panics("invalid key", 0)?;
            both.port_refuses(26).map(|()| Step::goes_on(Rule::VacantFree))
        }
        Event::Incoming { frame, .. } => came(both, frame, limits),
        _ => match lent_refusal(both) {
            Some((number, rule)) => lent_refused(both, number, rule),
            None => told(both),
        },
    }
}

/// The Rust looks at the state first, and then at the header's bytes.
fn header_read(both: &Both, bytes: &[u8]) -> Result<Step, String> {
    let wrong = match bytes.get(..5) {
        _ if bytes.len() < 8 => Some((1, Refusal::BytesMissing)),
        Some(b"AMQP\x00" | b"AMQP\x02" | b"AMQP\x03") => None,
        _ => Some((2, Refusal::HeaderMalformed)),
    };
    match ([0, 2].contains(&both.before.state), wrong) {
        (true, None) => told(both),
        (true, Some((number, refusal))) => {
            both.rust_says(Inner::Refused(refusal))?;
            both.port_refuses(number).map(|()| Step::default())
        }
        (false, wrong) => {
            both.rust_says(Inner::Refused(Refusal::IllegalState))?;
            both.port_refuses(wrong.as_ref().map_or(20, |(number, _)| *number))?;
            Ok(wrong.map_or_else(Step::default, |_| Step::goes_on(Rule::HeaderFirst)))
        }
    }
}

fn open_refused(both: &Both) -> Result<Step, String> {
    let answer = &both.answer;
    let is = answer.inner == Inner::Refused(Refusal::IllegalState) && answer.stopped.is_none();
    hold(is && answer.written == local_open(both.settings), "the Rust must write its Open, and refuse it")?;
    both.port_refuses(20).map(|()| Step::goes_on(Rule::OpenWritten))
}

fn allocated(both: &Both) -> Result<Step, String> {
    let (state, agreed) = (both.before.state, both.before.agreed);
    if [11, 12, 13].contains(&state) {
        let stops = (state == 13).then_some(Outcome::Fine);
        both.rust_refuses(Inner::Refused(Refusal::Stopped), stops, 0)?;
        both.port_refuses(22)?;
        // The Rust's loop stops; a refusal here alters nothing.
        return Ok(stops.map_or_else(Step::default, |_| Step::ends(Rule::AllocateInEnd, both.before.clone())));
    }
    if !agreed && state <= 3 {
        both.rust_says(Inner::Refused(Refusal::NotOpened))?;
        return both.port_refuses(21).map(|()| Step::default());
    }
    if !agreed {
        both.rust_says(Inner::Channel(0))?;
        return both.port_refuses(21).map(|()| Step::goes_on(Rule::EarlyAllocate));
    }
    if both.answer.inner == Inner::Refused(Refusal::NoChannelLeft) {
        both.rust_says(Inner::Refused(Refusal::NoChannelLeft))?;
        return both.port_refuses(23).map(|()| Step::default());
    }
    told(both)
}

// ---- session frames that an event is lent

fn to_send(event: &Event) -> &[u8] {
    match event {
        Event::Incoming { waiting, .. } | Event::Close { waiting } | Event::CloseWithError { waiting, .. } => waiting,
        Event::Outgoing(frame) => frame,
        _ => &[],
    }
}

fn body_rule(body: &[u8]) -> Rule {
    if is_symbolic(body) {
        Rule::SymbolicDescriptor
    } else {
        Rule::DeepValue
    }
}

/// The first refusal of the frames that an event is lent, and the rule for it: by it the Rust has no such values, or it takes them.
fn lent_refusal(both: &Both) -> Option<(u8, Rule)> {
    let lone = matches!(both.event, Event::Outgoing(_));
    let mut bytes = to_send(both.event);
    let mut first = None;
    while lone || !bytes.is_empty() {
        let end = size(bytes).map_or(0, |size| size.min(bytes.len()));
        let body = bytes.get(8..end).unwrap_or(&[]);
        match session_refusal(bytes, both.settings.channel_max) {
            None => {}
            Some(7) => first = first.or(Some((7, Rule::HighChannel))),
            Some(6) if is_read_there_only(body) && is_sessions(body) => first = first.or(Some((6, body_rule(body)))),
            Some(number) => return Some((first.map_or(number, |(number, _)| number), Rule::BytesToSend)),
        }
        if lone {
            break;
        }
        bytes = &bytes[end..];
    }
    first
}

fn lent_refused(both: &Both, number: u8, rule: Rule) -> Result<Step, String> {
    both.port_refuses(number)?;
    if rule == Rule::BytesToSend {
        both.rust_says(Inner::Refused(Refusal::CannotBeMade))?;
        return Ok(Step::goes_on(rule));
    }
    hold(both.answer.inner != Inner::Refused(Refusal::CannotBeMade), "the Rust must take these frames")?;
    Ok(Step::ends(rule, both.before.clone()))
}

// ---- a frame that came

/// A frame that came: bytes that are missing first, then the waiting frames, then the frame.
fn came(both: &Both, frame: &[u8], limits: Option<(usize, usize)>) -> Result<Step, String> {
    let limit = both.port_before.reading_limit;
    let transport = Inner::Refused(Refusal::Transport);
    let length = size(frame).unwrap_or(0);
    if limits.is_some() && (both.before.reading_limit + 1..=limit).contains(&length) && lent_refusal(both).is_none() {
        // Over the limit that the Rust has kept.
        both.rust_refuses(transport, Some(Outcome::Transport), 0)?;
        hold((both.reply.kind, both.reply.detail) != (1, 4), "the port must read up to its new limit")?;
        return Ok(Step { rules: vec![Rule::LimitsOnOpen], ends: true, held: None });
    }
    match (frame_refusal(frame, limit, both.settings.channel_max), lent_refusal(both)) {
        (Some(1), Some((_, Rule::BytesToSend))) => lent_refused(both, 1, Rule::BytesToSend),
        (Some(1), _) => {
            both.rust_says(Inner::Refused(Refusal::BytesMissing))?;
            both.port_refuses(1).map(|()| Step::default())
        }
        (_, Some((number, rule))) => lent_refused(both, number, rule),
        (Some(number), None) => bad_frame(both, frame, number),
        (None, None) if is_idle_zero(both) => {
            both.rust_panics("period", length)?;
            let reply = Reply { kind: 7, consumed: length, ..Reply::default() };
            hold(both.reply == reply, "the port must take the Open, without an idle-time-out")?;
            Ok(Step { rules: vec![Rule::ZeroIdle], ends: both.before.phase == Phase::Awaiting, held: None })
        }
        (None, None) if both.before.state == 9 && session_code(frame).is_some_and(|code| code != 17) => match both.late {
            Some(handle) => late(both, frame, handle),
            None => told(both),
        },
        (None, None) => told(both),
    }
}

/// A session's frame on a channel whose tie was dropped here, and that the Rust has kept. The Rust hands it to the old handle; the port finds nobody, tells the peer by a Close, and awaits the peer's.
fn late(both: &Both, frame: &[u8], handle: u32) -> Result<Step, String> {
    let (length, code) = (size(frame).unwrap_or(0), session_code(frame).unwrap_or(0));
    both.rust_refuses(Inner::Forward { code, handle }, None, length)?;
    let written = close(Some(&error("amqp:not-found", None)));
    let reply = Reply { kind: 1, detail: 24, consumed: length, written, ..Reply::default() };
    hold(both.reply == reply, "the port must find nobody for a frame of a freed channel's tie")?;
    Ok(Step::ends(Rule::FreedWhileTied, Account { phase: Phase::Awaiting, state: 12, ..both.before.clone() }))
}

/// An Open with an idle-time-out of 0, where an Open is taken.
fn is_idle_zero(both: &Both) -> bool {
    [3, 7, 8].contains(&both.before.state) && matches!(open_in(both.event), Some((_, Some(0))))
}

/// A frame with a refusal that stops the engine. The Rust stops too, unless a rule has it read the frame.
fn bad_frame(both: &Both, frame: &[u8], number: u8) -> Result<Step, String> {
    let length = size(frame).unwrap_or(0);
    let body = frame.get(8..length).unwrap_or(&[]);
    let consumed = if number < 5 { 0 } else { length };
    both.port_stops(number, consumed)?;
    let rule = match number {
        3 if length >= 4 => Rule::ShortLength,
        7 if body.is_empty() || performative(body).is_some() => Rule::HighChannel,
        6 if is_read_there_only(body) => body_rule(body),
        _ => {
            both.rust_refuses(Inner::Refused(Refusal::Transport), Some(Outcome::Transport), consumed)?;
            return Ok(Step::default());
        }
    };
    match rule {
        Rule::ShortLength if frame.len() < length => both.rust_says(Inner::Refused(Refusal::BytesMissing))?,
        Rule::ShortLength => both.rust_panics("", length)?,
        _ => {
            let refused = [Refusal::Transport, Refusal::BytesMissing].map(Inner::Refused).contains(&both.answer.inner);
            hold(!refused && both.answer.consumed == length, "the Rust must read this frame")?;
        }
    }
    Ok(Step::ends(rule, both.stopped()))
}

// ---- what is answered and written

/// An answer of the Rust's, and all that comes with it, by the port's.
fn told(both: &Both) -> Result<Step, String> {
    if let Some(over) = oversized(both) {
        return over_limit(both, over);
    }
    let closes = refused_closes(both);
    if closes.is_empty() {
        return same(both, &both.answer.written).map(|()| Step::default());
    }
    hold(both.answer.written == closes, "the Rust must write the Closes that it refuses, and nothing else")?;
    same(both, &[]).map(|()| Step::goes_on(Rule::CloseWritten))
}

/// The port answers what the Rust's answer asks for, and writes these bytes.
fn same(both: &Both, written: &[u8]) -> Result<(), String> {
    let (answer, reply) = (&both.answer, &both.reply);
    hold(reply.refused == 0, "refused by the port alone")?;
    let numbers = (reply.kind, reply.detail, reply.channel, reply.number);
    hold(asked(both) == Some(numbers), "other answers")?;
    let body = if [9, 10].contains(&reply.kind) { (8, answer.consumed - 8) } else { (0, 0) };
    hold(reply.body == body, "another place of the body")?;
    hold(answer.consumed == reply.consumed, "other counts of bytes consumed")?;
    let ended = (answer.stopped.is_some(), answer.stopped.map_or(0, outcome_number));
    hold(ended == (reply.stopped, reply.outcome), "other outcomes")?;
    hold(written == reply.written, "other bytes written")
}

/// Kind, detail, channel and number that the Rust's answer asks for.
fn asked(both: &Both) -> Option<(u8, u8, u16, u32)> {
    Some(match &both.answer.inner {
        Inner::None => (0, 0, 0, 0),
        Inner::Wrote => (2, 0, 0, 0),
        Inner::Over => (3, 0, 0, 0),
        Inner::Header => (4, 0, 0, 0),
        Inner::OtherProtocol => (5, 0, 0, 0),
        Inner::Nothing => (6, 0, 0, 0),
        Inner::Opened { idle_time_out } => (7, 0, 0, idle_time_out.unwrap_or(0)),
        Inner::Closed { error } => (8, *error as u8, 0, 0),
        Inner::Forward { code, handle } => (9, *code, 0, *handle),
        Inner::Began { channel, handle } => (10, 17, *channel, *handle),
        Inner::Channel(channel) => (11, 0, *channel, 0),
        Inner::Freed => match both.event {
            Event::Deallocate(channel) => (12, 0, 0, both.taken(*channel)?),
            _ => return None,
        },
        Inner::Refused(Refusal::IllegalState) => (1, 20, 0, 0),
        Inner::Refused(Refusal::NotFound) => (1, 24, 0, 0),
        Inner::Refused(Refusal::NotImplemented) => (1, 25, 0, 0),
        Inner::Refused(_) => return None,
    })
}

/// A frame as the Rust's writer chops it, each piece with a length of its own. One within the limit stays whole.
fn chopped(frame: &[u8], limit: usize) -> Vec<u8> {
    let piece = |piece: &[u8]| [&(piece.len() as u32 + 4).to_be_bytes()[..], piece].concat();
    frame[4..].chunks(limit - 4).flat_map(piece).collect()
}

/// The Close of an order.
fn ordered(event: &Event) -> Option<Vec<u8>> {
    match event {
        Event::Close { .. } => Some(close(None)),
        Event::CloseWithError { condition, description, .. } => Some(close(Some(&error_of(condition, description.as_deref())))),
        _ => None,
    }
}

/// The Closes that the Rust writes and then refuses. An order's, unless a waiting frame was refused before it; and in OpenClosePipe and OpenReceived also
/// the one that tells the peer of the error. In OpenPipe, OpenSent, Opened and CloseReceived a Close is legal.
fn refused_closes(both: &Both) -> Vec<u8> {
    let state = both.before.state;
    if both.before.phase != Phase::Running || [4, 7, 9, 10].contains(&state) {
        return Vec::new();
    }
    let order = ordered(both.event).filter(|_| to_send(both.event).is_empty());
    let (condition, words): (&[u8], Option<&[u8]>) = match both.failure() {
        Some(Outcome::NotImplemented) => (b"amqp:not-implemented", None),
        Some(Outcome::NotFound) => (b"amqp:not-found", Some(b"Session is not found")),
        _ => (b"amqp:illegal-state", None),
    };
    let tells = [5, 6].contains(&state) && both.failure().is_some();
    let telling = tells.then(|| close(Some(&error_of(condition, words))));
    order.into_iter().chain(telling).flat_map(|frame| chopped(&frame, both.before.writing_limit)).collect()
}

/// A frame over the writing limit, the first of those that an event sends.
struct Oversized {
    frame: Vec<u8>,
    /// What is written before it, and what is held then.
    earlier: Vec<u8>,
    held: Account,
}

/// The frames that an event sends in turn, where its state lets it begin with them, and the state then.
fn sends<'a>(both: &'a Both) -> Option<(Vec<&'a [u8]>, Option<Vec<u8>>, u8)> {
    let state = both.before.state;
    match both.event {
        _ if both.before.phase != Phase::Running => None,
        Event::Outgoing(frame) if state == 9 => Some((vec![&frame[..size(frame)?]], None, state)),
        Event::Close { waiting } | Event::CloseWithError { waiting, .. } if state == 9 || waiting.is_empty() && [4, 7].contains(&state) => {
            Some((split(waiting), ordered(both.event), state))
        }
        Event::Incoming { waiting, .. } if close_in(both.event).is_some() && [4, 5, 6, 7, 9].contains(&state) => {
            Some((split(waiting), Some(close(None)), 10))
        }
        _ => None,
    }
}

fn oversized(both: &Both) -> Option<Oversized> {
    let limit = both.before.writing_limit;
    let (frames, last, state) = sends(both)?;
    let mut held = Account { state, ..both.stopped() };
    let mut earlier = Vec::new();
    for lent in frames {
        let frame = rewritten(lent);
        let mut tie = None;
        if let (Role::Listener, Some((Performative::Begin(begin), _))) = (both.role, performative(&lent[8..])) {
            if let Some(remote) = begin.remote_channel {
                // Not found: what comes after it is not sent.
                tie = Some((remote, both.taken(channel(lent))?));
            }
        }
        if frame.len() > limit {
            return Some(Oversized { frame, earlier, held });
        }
        if let Some(tie) = tie {
            held.ties.retain(|(at, _)| *at != tie.0);
            held.ties.push(tie);
            held.ties.sort();
        }
        earlier.extend(frame);
    }
    last.filter(|frame| frame.len() > limit).map(|frame| Oversized { frame, earlier, held })
}

/// The Rust writes what comes before the frame, and the frame in pieces; the port writes what comes before, and stops with a transport error.
fn over_limit(both: &Both, over: Oversized) -> Result<Step, String> {
    hold(is_in_pieces(both, &over), "the Rust must write the frame in pieces")?;
    let reply = match close_in(both.event) {
        Some(error) => Reply { kind: 8, detail: error as u8, ..Reply::default() },
        None => Reply { kind: 1, detail: 27, ..Reply::default() },
    };
    let reply = Reply { stopped: true, outcome: 1, consumed: both.answer.consumed, written: over.earlier, ..reply };
    hold(both.reply == reply, "the port must stop at the frame over the limit")?;
    Ok(Step::ends(Rule::Oversized, over.held))
}

/// Whether the Rust splits a Transfer, and chops any other frame. It panics where a Transfer's performative alone is over the limit.
fn is_in_pieces(both: &Both, over: &Oversized) -> bool {
    let (limit, frame) = (both.before.writing_limit, &over.frame);
    let Some(rest) = both.answer.written.strip_prefix(&over.earlier[..]) else { return false };
    let Some((Performative::Transfer(_), payload)) = performative(&frame[8..]) else {
        return rest.starts_with(&chopped(frame, limit));
    };
    if frame.len() - payload.len() > limit {
        return rest.is_empty() && matches!(both.answer.inner, Inner::Refused(Refusal::Panicked(_)));
    }
    // The first of several, full to the limit.
    let pieces = split(rest);
    let first = pieces.first().copied().unwrap_or(&[]);
    let part = first.get(8..).and_then(performative);
    let begins = matches!(part, Some((Performative::Transfer(_), part)) if payload.starts_with(part));
    begins && pieces.len() > 1 && first.len() == limit && channel(first) == channel(frame)
}
