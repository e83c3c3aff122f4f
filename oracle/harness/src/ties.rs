//! Which ties there must be: each with the outgoing channel through which it was made, and those that were dropped here with a freed channel and that the Rust has kept.
//! What becomes of them is told from the events and from what the Rust answers, and not from the port.

use std::collections::{BTreeMap, BTreeSet};

#[derive(Debug, Clone, Default)]
pub struct Ties {
    /// Incoming channels with the outgoing channel through which each is tied, on both sides.
    made: BTreeMap<u16, u16>,
    /// The same by outgoing channel.
    through: BTreeMap<u16, BTreeSet<u16>>,
    /// Incoming channels that are tied in the Rust alone, each with its handle there: their outgoing channel was freed.
    kept: BTreeMap<u16, u32>,
}

impl Ties {
    pub fn tie(&mut self, channel: u16, outgoing: u16) {
        self.untie(channel);
        self.made.insert(channel, outgoing);
        self.through.entry(outgoing).or_default().insert(channel);
    }

    pub fn untie(&mut self, channel: u16) {
        self.kept.remove(&channel);
        if let Some(outgoing) = self.made.remove(&channel) {
            let list = self.through.get_mut(&outgoing).expect("a tie stands in a list");
            list.remove(&channel);
            if list.is_empty() {
                self.through.remove(&outgoing);
            }
        }
    }

    /// The outgoing channel of this handle is freed. Whether a tie was made through it.
    pub fn free(&mut self, outgoing: u16, handle: u32) -> bool {
        let dropped = self.through.remove(&outgoing).unwrap_or_default();
        for channel in &dropped {
            self.made.remove(channel);
            self.kept.insert(*channel, handle);
        }
        !dropped.is_empty()
    }

    /// The handle that the Rust alone has for an incoming channel.
    pub fn kept(&self, channel: u16) -> Option<u32> {
        self.kept.get(&channel).copied()
    }

    pub fn is_made(&self, channel: u16) -> bool {
        self.made.contains_key(&channel)
    }

    /// Ties that both sides have, by incoming channel, ascending: with the outgoing channel of each.
    pub fn made(&self) -> Vec<(u16, u16)> {
        self.made.iter().map(|(channel, outgoing)| (*channel, *outgoing)).collect()
    }

    /// One of the incoming channels that are tied through an outgoing one.
    pub fn one_through(&self, outgoing: u16) -> Option<u16> {
        self.through.get(&outgoing).and_then(|list| list.first().copied())
    }

    /// Incoming channels that are tied in the Rust alone, ascending.
    pub fn all_kept(&self) -> Vec<(u16, u32)> {
        self.kept.iter().map(|(channel, handle)| (*channel, *handle)).collect()
    }

    /// What the Rust must hold where these are its taken channels: each tie leads to the handle of its outgoing channel, and those of freed channels are as they were.
    pub fn of_the_rust(&self, taken: impl Fn(u16) -> Option<u32>) -> Option<Vec<(u16, u32)>> {
        let made = self.made.iter().map(|(channel, outgoing)| Some((*channel, taken(*outgoing)?)));
        let mut ties: Vec<_> = made.collect::<Option<_>>()?;
        ties.extend(self.kept.iter().map(|(channel, handle)| (*channel, *handle)));
        ties.sort();
        Some(ties)
    }
}
