//! The saved connection: one record per endpoint, what moves it, and when it is legal: document 01, "What the host
//! is told" (legality), "Commands" (where each goes) and "Link events".

use crate::book::{Book, Entry, OurSeid, HIGHEST_SEID, MOST_ENTRIES};
use crate::elements::{has, is_storable, DELAY};
use crate::packets::Gathering;

/// A SEID that the far end counts; 0 where there is none.
#[derive(Clone, Copy, PartialEq, Eq, Debug)]
pub struct FarSeid(pub u8);

impl FarSeid {
    pub const NONE: FarSeid = FarSeid(0);

    pub fn is_valid(self) -> bool {
        (1..=HIGHEST_SEID).contains(&self.0)
    }
}

#[derive(Clone, Copy, PartialEq, Eq, PartialOrd, Ord, Debug)]
pub enum State {
    Idle,
    Configured,
    Open,
    Streaming,
    Closing,
    Aborting,
}

#[derive(Clone, Copy, PartialEq, Eq, PartialOrd, Ord, Debug)]
pub enum Channel {
    None,
    Awaited,
    Up,
}

#[derive(Clone, PartialEq, Eq, Debug)]
pub struct Record {
    pub seid: OurSeid,
    pub state: State,
    pub channel: Channel,
    pub far: FarSeid,
    /// Tenths of a millisecond, where a delay was reported.
    pub delay: Option<u16>,
    pub config: Vec<u8>,
}

impl Record {
    pub const fn idle(seid: OurSeid) -> Record {
        Record {
            seid,
            state: State::Idle,
            channel: Channel::None,
            far: FarSeid::NONE,
            delay: None,
            config: Vec::new(),
        }
    }

    /// Reaching idle forgets configuration, far SEID and delay.
    pub fn become_idle(&mut self) {
        *self = Record::idle(self.seid);
    }

    pub fn become_configured(&mut self, far: FarSeid, config: Vec<u8>) {
        self.state = State::Configured;
        self.far = far;
        self.config = config;
    }

    pub fn become_open(&mut self) {
        self.state = State::Open;
        self.channel = Channel::Awaited;
    }

    /// Close and Abort: with a channel the endpoint waits for its end, without one it is idle at once.
    pub fn leave(&mut self, towards: State) {
        if self.channel == Channel::Up {
            self.state = towards;
        } else {
            self.become_idle();
        }
    }

    /// Get Configuration and Delay Report are for these three.
    pub fn is_in_service(&self) -> bool {
        matches!(self.state, State::Configured | State::Open | State::Streaming)
    }

    /// Only a source with category 8 configured is told a delay.
    pub fn may_have_delay(&self, entry: &Entry) -> bool {
        entry.is_source() && has(&self.config, DELAY)
    }

    /// Whether this is a legal record for this entry; whether two await a channel is the connection's matter.
    pub fn is_legal(&self, entry: &Entry) -> bool {
        if self.seid != entry.seid {
            return false;
        }
        if self.state == State::Idle {
            return *self == Record::idle(self.seid);
        }
        self.far.is_valid()
            && is_storable(&entry.offered, &self.config)
            && self.channel_fits()
            && (self.delay.is_none() || self.may_have_delay(entry))
    }

    fn channel_fits(&self) -> bool {
        match self.state {
            State::Idle | State::Configured => self.channel == Channel::None,
            State::Open => self.channel != Channel::None,
            State::Streaming | State::Closing | State::Aborting => self.channel == Channel::Up,
        }
    }
}

/// The saved area. A book has the records at its front, one an entry; those behind stay as they are.
#[derive(Clone, PartialEq, Eq, Debug)]
pub struct Connection {
    /// How many records there are, as it was saved; it need not be true.
    pub count: u8,
    pub gathering: Option<Gathering>,
    pub records: [Record; MOST_ENTRIES],
}

impl Connection {
    /// An area of zeros, which no book finds legal: SEID 0 is nobody's.
    pub fn zero() -> Connection {
        let records = [const { Record::idle(OurSeid(0)) }; MOST_ENTRIES];
        Connection { count: 0, gathering: None, records }
    }

    /// A fresh connection for this book.
    pub fn refresh(&mut self, book: &Book) {
        self.count = book.entries.len() as u8;
        self.gathering = None;
        for (record, entry) in self.records.iter_mut().zip(&book.entries) {
            *record = Record::idle(entry.seid);
        }
    }

    /// The records that this book has.
    pub fn records_of(&self, book: &Book) -> &[Record] {
        &self.records[..book.entries.len()]
    }

    pub fn records_of_mut(&mut self, book: &Book) -> &mut [Record] {
        &mut self.records[..book.entries.len()]
    }

    pub fn is_legal(&self, book: &Book) -> bool {
        let records = self.records_of(book);
        usize::from(self.count) == book.entries.len()
            && records.iter().zip(&book.entries).all(|(record, entry)| record.is_legal(entry))
            && records.iter().filter(|record| record.channel == Channel::Awaited).count() <= 1
            && self.gathering.as_ref().is_none_or(Gathering::is_legal)
    }
}
