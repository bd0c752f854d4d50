//! The open channels of a circuit, by their SIDs.

use std::collections::HashSet;

/// A SID is the index of its place and, above it, how often that was given.
const PLACES: usize = 65_536;

#[derive(Clone, Copy)]
pub struct Channel {
    pub cid: u32,
    pub record: usize,
    pub rights: u32,
}

struct Place {
    generation: u32,
    channel: Option<Channel>,
}

#[derive(Default)]
pub struct Channels {
    places: Vec<Place>,
    free: Vec<usize>,
    cids: HashSet<u32>,
}

impl Channels {
    pub fn has_cid(&self, cid: u32) -> bool {
        self.cids.contains(&cid)
    }

    /// Whether one was ever open.
    pub fn was_opened(&self) -> bool {
        !self.places.is_empty()
    }

    pub fn is_full(&self) -> bool {
        self.free.is_empty() && self.places.len() == PLACES
    }

    pub fn by_sid(&self, sid: u32) -> Option<Channel> {
        let place = self.places.get(sid as usize % PLACES)?;
        place.channel.filter(|_| place.generation as u16 == (sid >> 16) as u16)
    }

    /// Opens a channel, unless they are full, and returns its SID.
    pub fn open(&mut self, channel: Channel) -> u32 {
        let index = self.free.pop().unwrap_or(self.places.len());
        if index == self.places.len() {
            self.places.push(Place { generation: 0, channel: None });
        }
        let place = &mut self.places[index];
        place.generation += 1;
        place.channel = Some(channel);
        self.cids.insert(channel.cid);
        place.generation << 16 | index as u32
    }

    /// Closes the channel of this SID. Its index comes back, unless it was given as often as can be counted.
    pub fn close(&mut self, sid: u32) -> Option<Channel> {
        let channel = self.by_sid(sid)?;
        let index = sid as usize % PLACES;
        self.cids.remove(&channel.cid);
        self.places[index].channel = None;
        if self.places[index].generation < u32::MAX {
            self.free.push(index);
        }
        Some(channel)
    }
}
