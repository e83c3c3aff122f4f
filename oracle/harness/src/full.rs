//! Every channel taken and every incoming channel tied, and then freed and untied, in both orders, up to the highest channel-max.
//! Answers are compared event by event. What both sides hold is looked at after each stage, and then whole: with tens of thousands of channels that takes long.

use crate::compare::{Pair, Rule};
use crate::events::*;
use crate::random::Dice;
use crate::{Side, Tally};
use fe2o3_amqp::auth::{Role, Settings};

/// The local channel-max and the peer's, for both roles, and one with very many channels for each.
const LIMITS: [(u16, u16); 4] = [(0, 65535), (255, 65535), (256, 255), (4096, 4096)];
const DIALLER: (u16, u16) = (65535, 65534);
const LISTENER: (u16, u16) = (65535, 65535);

/// So many handles are shared by the sessions: to the Rust each handle is a queue, and all of them are looked through after a frame.
const HANDLES: u64 = 61;

/// So many of a listener's sessions are begun by the peer, each with a queue of its own.
const BEGUN: usize = 100;

struct Full<'a> {
    pair: Pair<Side>,
    dice: Dice,
    role: Role,
    settings: Settings,
    /// Taken channels with their handles, in no order, as the events have it.
    taken: Vec<(u16, u32)>,
    tally: &'a mut Tally,
}

fn incoming(frame: Vec<u8>, spare: u32) -> Event {
    Event::Incoming { frame, spare, waiting: Vec::new() }
}

impl Full<'_> {
    /// An event whose answers are compared, with the channel that it names.
    fn swift(&mut self, event: &Event, named: &[(u16, u32)]) -> Result<(), String> {
        self.tally.events += 1;
        let step = self.pair.swift(event, named)?;
        assert!(step.rules.iter().all(|rule| *rule == Rule::FreedWhileTied) && !step.ends, "no other rule is due");
        self.tally.count(&step.rules);
        Ok(())
    }

    /// A stage: events one after the other, and then a look at everything.
    fn stage(&mut self, events: impl FnOnce(&mut Self) -> Result<(), String>) -> Result<(), String> {
        self.pair.watch(false);
        events(self)?;
        self.pair.watch(true);
        self.pair.whole()
    }

    /// An event with a look at both sides.
    fn step(&mut self, event: &Event) -> Result<(), String> {
        self.tally.events += 1;
        let step = self.pair.step(event)?;
        self.tally.count(&step.rules);
        Ok(())
    }

    fn any_taken(&mut self) -> (u16, u32) {
        let at = self.dice.below(self.taken.len() as u64) as usize;
        self.taken[at]
    }

    /// Channels in any order.
    fn shuffled(&mut self, mut channels: Vec<u16>) -> Vec<u16> {
        for at in (1..channels.len()).rev() {
            channels.swap(at, self.dice.below(at as u64 + 1) as usize);
        }
        channels
    }

    fn allocate(&mut self) -> Result<(), String> {
        let handle = self.dice.below(HANDLES) as u32;
        self.swift(&Event::Allocate(handle), &[])?;
        self.taken.push((self.pair.last.channel, handle));
        Ok(())
    }

    /// The peer begins a session on an incoming channel.
    fn begun(&mut self, channel: u16, handle: u32) -> Result<(), String> {
        self.swift(&incoming(begin(channel, None), handle), &[])?;
        self.taken.push((self.pair.last.channel, handle));
        Ok(())
    }

    fn free(&mut self, left: usize) -> Result<(), String> {
        while self.taken.len() > left {
            let at = self.dice.below(self.taken.len() as u64) as usize;
            let (channel, handle) = self.taken.swap_remove(at);
            self.swift(&Event::Deallocate(channel), &[(channel, handle)])?;
        }
        Ok(())
    }

    /// Ties channels to taken ones: by a Begin of the peer's, or by one that a listener sends.
    fn tie(&mut self, channels: &[u16]) -> Result<(), String> {
        for channel in channels {
            let (to, handle) = self.any_taken();
            let event = match self.role == Role::Listener && self.dice.below(2) == 0 {
                true => Event::Outgoing(begin(to, Some(*channel))),
                false => incoming(begin(*channel, Some(to)), 0),
            };
            self.swift(&event, &[(to, handle)])?;
        }
        Ok(())
    }

    /// The peer's Ends of these channels.
    fn end(&mut self, channels: &[u16]) -> Result<(), String> {
        channels.iter().try_for_each(|channel| self.swift(&incoming(end(*channel), 0), &[]))
    }

    /// The incoming channels that are tied on both sides, in any order.
    fn tied(&mut self) -> Vec<u16> {
        let channels = self.pair.ties.made().into_iter().map(|(channel, _)| channel).collect();
        self.shuffled(channels)
    }

    fn all(&mut self, agreed: u16) -> Result<(), String> {
        let most = agreed as usize + 1;
        let begun = if self.role == Role::Listener { BEGUN.min(most) } else { 0 };
        self.stage(|full| (begun..most).try_for_each(|_| full.allocate()))?;
        self.stage(|full| (0..begun).try_for_each(|at| full.begun(agreed - at as u16, 1000 + at as u32)))?;
        self.step(&Event::Allocate(1))?;
        let every = self.shuffled((0..=self.settings.channel_max).collect());
        self.stage(|full| full.tie(&every))?;
        self.step(&incoming(transfer(self.settings.channel_max, 5), 0))?;
        // A third of the ties end, and then channels are freed while they are tied.
        let ended = self.tied();
        self.stage(|full| full.end(&ended[..ended.len() / 3]))?;
        self.stage(|full| full.free(most / 3))?;
        self.stage(|full| (0..(most / 2).max(1)).try_for_each(|_| full.allocate()))?;
        let some = self.shuffled(every.clone());
        self.stage(|full| full.tie(&some[..some.len() / 2]))?;
        self.stage(|full| full.free(1))?;
        // Every incoming channel is tied through one outgoing channel: half of these end, and the others are dropped at once.
        self.stage(|full| full.tie(&every))?;
        let ended = self.tied();
        self.stage(|full| full.end(&ended[..ended.len() / 2]))?;
        self.stage(|full| full.free(0))?;
        // The order that a hub keeps: all ties end before their channels are freed.
        self.stage(|full| (0..most).try_for_each(|_| full.allocate()))?;
        self.stage(|full| full.tie(&every))?;
        let ended = self.tied();
        self.stage(|full| full.end(&ended))?;
        let times = self.tally.times(Rule::FreedWhileTied);
        self.stage(|full| full.free(0))?;
        assert!(self.tally.times(Rule::FreedWhileTied) == times, "nothing was tied");
        self.stage(|full| (0..most).try_for_each(|_| full.allocate()))?;
        self.step(&Event::Allocate(2))?;
        // The peer begins one more session: there is no channel left, or the engine is a dialler.
        self.step(&incoming(begin(0, None), 3))
    }
}

fn run(role: Role, local: u16, remote: u16, tally: &mut Tally) -> Result<(), String> {
    let settings = Settings { channel_max: local, ..crate::settings() };
    let mut pair = Pair::new(role, &settings, Side::new(role, &settings));
    pair.keeps_written = false;
    let mut full = Full { pair, dice: Dice::new(local as u64 + 1), role, settings, taken: Vec::new(), tally };
    let header = Event::ReceiveHeader(b"AMQP\x00\x01\x00\x00".to_vec());
    for event in [Event::SendHeader, header, Event::SendOpen, incoming(open(4096, remote, None), 0)] {
        full.step(&event)?;
    }
    full.all(local.min(remote))
}

pub fn full(tally: &mut Tally) {
    for (role, last) in [(Role::Dialler, DIALLER), (Role::Listener, LISTENER)] {
        for (local, remote) in LIMITS.into_iter().chain([last]) {
            tally.lists += 1;
            if let Err(what) = run(role, local, remote, tally) {
                tally.found(&format!("{role:?}, channel-max {local} and {remote}: {what}"));
            }
        }
    }
}
