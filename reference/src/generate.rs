//! A random script that reaches every corner of document 01. The generator runs each line that it writes, so that it
//! knows the endpoints' states and mostly chooses steps that are accepted.

mod books;
mod bursts;
mod calls;
mod cuts;
mod lists;
mod parts;
mod payloads;
mod rare;
mod saved;
mod text;

use std::collections::VecDeque;
use std::io::{self, Write};

use crate::book::{Entry, OurSeid, MOST_ENTRIES};
use crate::bridge::{
    size_is_good, Event, MOST_PACKETS, SMALLEST_BURST_AREA, SMALLEST_REPLY_AREA, SMALLEST_SIZE,
};
use crate::commands::DISCOVER;
use crate::endpoints::{Channel, Record};
use crate::numbers::DONE;
use crate::packets::{Gathering, Message, CONTINUE};
use crate::rng::Rng;
use crate::script::Step;
use crate::session::{Held, Outcome, Session};
use payloads::Command;
use rare::Seen;

const LONG_ROW: u8 = 20;

/// Writes `count` steps; blank lines and comments come on top of these.
pub fn script(seed: u64, count: u64, out: &mut impl Write) -> io::Result<()> {
    let mut rng = Rng::new(seed);
    let plan = opening(&mut rng);
    let mut generator = Generator {
        rng,
        session: Session::new(),
        home: Vec::new(),
        row: VecDeque::new(),
        plan,
        seen: Seen::default(),
        steps: 0,
        next_longest_row: 500,
    };
    for _ in 0..count {
        if generator.rng.chance(8) {
            writeln!(out, "{}", text::blank(&mut generator.rng))?;
        }
        out.write_all(&generator.line())?;
        out.write_all(b"\n")?;
    }
    Ok(())
}

/// The first book, before which three more steps are not understood; a packet that is answered at the size and the area
/// of the start, and not at smaller ones; a burst, for which that area is too small; and a book that reaches past its
/// only record, where the saved area is still zero.
fn opening(rng: &mut Rng) -> VecDeque<Step> {
    let (book, longer) = books::growing(rng);
    VecDeque::from([
        Step::Status(OurSeid(1)),
        Step::Count(1),
        Step::Burst(vec![vec![0x10, DISCOVER]]),
        Step::Book(book),
        Step::Packet([&[0x10, DISCOVER][..], &[0; 500]].concat()),
        Step::Burst(Vec::new()),
        Step::Rebook(longer),
        Step::Count(2),
        Step::Status(OurSeid(2)),
        Step::Status(OurSeid(1)),
    ])
}

/// The front of the book in use as a book of its own, over a fresh connection or over the one that is there. Then the
/// whole book is back, and the count with it: the records behind the front are as they were left.
fn shorter_book(rng: &mut Rng, held: &Held) -> [Step; 6] {
    let entries = held.book.entries.len();
    let front = rng.between(1, entries.max(2) - 1);
    let octets = books::front(&held.book, front);
    let shorter = if rng.chance(600) { Step::Book(octets) } else { Step::Rebook(octets) };
    let behind = &held.connection.records_of(&held.book)[front..];
    let (seid, event) = match behind.iter().find(|record| record.channel == Channel::Up) {
        Some(record) => (record.seid, rng.pick(&[Event::Down(record.seid), Event::Lost])),
        None => (calls::asked(rng, held), rng.pick(&[Event::Up, Event::Lost])),
    };
    let mut back = [Step::Count(entries as u8), Step::Rebook(books::same(&held.book))];
    rng.shuffle(&mut back);
    let [first, second] = back;
    [shorter, Step::Count(front as u8), Step::Event(event), first, second, Step::Status(seid)]
}

/// The packets of a message, with one thing wrong now and then.
fn packets_of(rng: &mut Rng, held: &Held, command: Command, size: usize) -> Vec<Vec<u8>> {
    let message = payloads::message(rng, command, size);
    let mut packets = parts::packets(rng, size, &message);
    if rng.chance(if packets.len() == 1 { 40 } else { 350 }) {
        let (signal, payload) = payloads::command(rng, held);
        let label = rng.octet() & 0x0F;
        let other = Message { label, message_type: 0, signal, payload };
        let other = parts::single(rng, &other);
        parts::disturb(rng, size, &mut packets, other);
    }
    packets
}

#[derive(Clone, Copy)]
enum Choice {
    Message,
    Burst,
    Event,
    States,
    Settings,
    Delay,
    Status,
    Count,
    LegalRecord,
    DamagedRecord,
    LegalGathering,
    DamagedGathering,
    NoGathering,
    RelatedRebook,
    DamagedRebook,
    ValidBook,
    ShorterBook,
    DamagedBook,
    Size,
    Area,
    Cut,
    Noise,
    AtTheSize,
}

/// How often each kind of step is chosen, by weight.
const CHOICES: [(Choice, usize); 23] = [
    (Choice::Message, 500),
    (Choice::Burst, 110),
    (Choice::Event, 80),
    (Choice::States, 60),
    (Choice::Settings, 40),
    (Choice::Delay, 40),
    (Choice::Status, 45),
    (Choice::Count, 14),
    (Choice::LegalRecord, 30),
    (Choice::DamagedRecord, 34),
    (Choice::LegalGathering, 20),
    (Choice::DamagedGathering, 26),
    (Choice::NoGathering, 5),
    (Choice::RelatedRebook, 14),
    (Choice::DamagedRebook, 12),
    (Choice::ValidBook, 6),
    (Choice::ShorterBook, 8),
    (Choice::DamagedBook, 40),
    (Choice::Size, 25),
    (Choice::Area, 12),
    (Choice::Cut, 70),
    (Choice::Noise, 15),
    (Choice::AtTheSize, 10),
];

struct Generator {
    rng: Rng,
    session: Session,
    /// The octets of the book that the saved connection was made for.
    home: Vec<u8>,
    /// Packets that are to come next.
    row: VecDeque<Vec<u8>>,
    /// Other steps that are to come soon.
    plan: VecDeque<Step>,
    /// The answers that commands were chosen for.
    seen: Seen,
    steps: u64,
    /// A row of the most packets takes long, so that it comes seldom, but soon for the first time.
    next_longest_row: u64,
}

impl Generator {
    fn line(&mut self) -> Vec<u8> {
        self.steps += 1;
        let line = if !self.in_long_row() && self.rng.chance(35) {
            let step = self.free_step();
            let saved = self.session.held.iter().flat_map(Held::shown);
            let seids: Vec<u8> = saved.map(|record| record.seid.0).chain([1]).collect();
            let seid = self.rng.pick(&seids);
            text::odd(&mut self.rng, &step, seid)
        } else {
            let step = self.step();
            text::written(&mut self.rng, &step)
        };
        let outcome = self.session.line(&line);
        if let Some(held) = &self.session.held {
            match outcome {
                Outcome::Book(DONE) => {
                    self.home = books::same(&held.book);
                    if held.book.entries.len() == MOST_ENTRIES && self.plan.is_empty() {
                        // All of the area's room is in use.
                        self.plan.extend(shorter_book(&mut self.rng, held));
                    }
                }
                Outcome::Event(Event::Lost, DONE) => {
                    self.plan.push_front(Step::Status(calls::asked(&mut self.rng, held)));
                }
                _ => (),
            }
        }
        line
    }

    /// A long row of packets would hardly ever come to its end if other messages broke in.
    fn in_long_row(&self) -> bool {
        let gathering = self.session.held.as_ref().and_then(|held| held.connection.gathering.as_ref());
        !self.row.is_empty() && gathering.is_some_and(|gathering| gathering.count >= LONG_ROW)
    }

    /// Mends what would refuse every packet, goes on with a row of packets, or does something else.
    fn step(&mut self) -> Step {
        let Some(held) = &self.session.held else {
            return self.free_step();
        };
        let size_fits = size_is_good(self.session.size.into());
        let area_fits = usize::from(self.session.area) >= SMALLEST_REPLY_AREA;
        let burst_fits = usize::from(self.session.area) >= SMALLEST_BURST_AREA;
        let legal = held.connection.is_legal(&held.book);
        // Two or three reasons to refuse a packet or a burst at once show which counts first.
        if !(size_fits && area_fits && legal) && self.rng.chance(140) {
            return if self.rng.chance(500) {
                Step::Size(47)
            } else {
                Step::Area(self.rng.pick(&[63, 63, 1023]))
            };
        }
        if (!self.in_long_row() || !legal) && self.rng.chance(600) {
            if let Some(step) = self.plan.pop_front() {
                return step;
            }
        }
        if !size_fits && self.rng.chance(400) {
            return Step::Size(self.good_size());
        }
        if !area_fits && self.rng.chance(400) {
            return Step::Area(self.rng.pick(&[64, 64, 65, 100, 1023, 1024, 65535]));
        }
        if burst_fits && !self.in_long_row() && self.rng.chance(25) {
            // Packets are answered in small areas too.
            return Step::Area(bursts::small_area(&mut self.rng));
        }
        if !legal && self.rng.chance(80) {
            return calls::any_call(&mut self.rng, held);
        }
        if !legal && self.rng.chance(30) {
            return self.burst();
        }
        // What a plan breaks, it mends.
        if !legal && self.plan.is_empty() && self.rng.chance(300) {
            return self.repair();
        }
        if held.connection.gathering.is_none() && self.rng.chance(180) {
            // The gathering that these packets belonged to has ended; one or two of them have shown it.
            self.row.retain(|packet| packet.first().is_none_or(|head| head >> 2 & 0x03 < CONTINUE));
        }
        let underway = !self.row.is_empty() && held.connection.gathering.is_some();
        let goes_on = if self.in_long_row() { 1000 } else { 930 };
        if underway && !self.in_long_row() && self.rng.chance(10) {
            // The packets that come after this belong to nothing.
            return Step::Event(Event::Lost);
        }
        if underway && !self.in_long_row() && area_fits && self.rng.chance(25) {
            return Step::Area(63);
        }
        if !self.row.is_empty() && self.rng.chance(if burst_fits { 170 } else { 20 }) {
            return self.burst();
        }
        if !self.row.is_empty() && self.rng.chance(goes_on) {
            // A refused packet is sent again: it did not end the gathering.
            let refused = !(size_fits && area_fits && legal);
            let packet = if refused { self.row.front().cloned() } else { self.row.pop_front() };
            return Step::Packet(packet.unwrap_or_default());
        }
        if size_fits && area_fits && legal && self.steps >= self.next_longest_row {
            self.next_longest_row += 9000;
            let packets = parts::longest_row(&mut self.rng, self.session.size.into());
            self.goes_first(packets);
            return Step::Packet(self.row.pop_front().unwrap_or_default());
        }
        self.free_step()
    }

    fn free_step(&mut self) -> Step {
        let size = self.fitting_size();
        let rng = &mut self.rng;
        let Some(held) = &self.session.held else {
            return self.before_any_book();
        };
        let weights = CHOICES.map(|(_, weight)| weight);
        match CHOICES[rng.weighted(&weights)].0 {
            Choice::Message => self.message(),
            Choice::Burst => self.burst_or_its_area(),
            Choice::Event => match calls::event(rng, held) {
                Some(event) => Step::Event(event),
                None => self.message(),
            },
            Choice::States => Step::States,
            Choice::Settings => Step::Settings(calls::asked(rng, held)),
            Choice::Delay => Step::Delay(calls::asked(rng, held)),
            Choice::Status => Step::Status(calls::asked(rng, held)),
            Choice::Count => Step::Count(calls::count(rng, held)),
            Choice::LegalRecord => Step::Record(self.record(saved::legal_record)),
            Choice::DamagedRecord => Step::Record(self.record(saved::damaged_record)),
            Choice::LegalGathering => self.gathering(),
            Choice::DamagedGathering => Step::Gathering(Some(saved::damaged_gathering(rng))),
            Choice::NoGathering => Step::Gathering(None),
            Choice::RelatedRebook => Step::Rebook(books::related(rng, &held.book)),
            Choice::DamagedRebook => Step::Rebook(books::damaged(rng)),
            Choice::ValidBook => Step::Book(books::valid(rng)),
            Choice::ShorterBook => {
                let [first, rest @ ..] = shorter_book(rng, held);
                self.plan.extend(rest);
                first
            }
            Choice::DamagedBook => Step::Book(books::damaged(rng)),
            Choice::Size => Step::Size(self.any_size()),
            Choice::Area => Step::Area(rng.pick(&[0, 1, 63, 63, 63, 64, 65, 1023, 1024, 65535])),
            Choice::Cut => cuts::cut(rng),
            Choice::Noise => Step::Packet(parts::noise(rng, size)),
            Choice::AtTheSize => Step::Packet(parts::at_the_size(rng, size)),
        }
    }

    /// Some steps are not understood until a book was accepted. Size and area stay as they are at the start.
    fn before_any_book(&mut self) -> Step {
        let rng = &mut self.rng;
        match rng.below(12) {
            0..=3 => self.plan.pop_front().unwrap_or(Step::Book(books::valid(rng))),
            4 | 5 => Step::Book(books::damaged(rng)),
            6 => cuts::cut(rng),
            7 | 8 => Step::Rebook(books::valid(rng)),
            9 => Step::Packet(vec![0x10, 0x01]),
            10 => Step::Record(Record::idle(OurSeid(1))),
            _ => {
                let event = rng.pick(&[Event::Up, Event::Down(OurSeid(1)), Event::Lost]);
                let steps = [
                    Step::Burst(vec![vec![0x10, 0x01]]),
                    Step::States,
                    Step::Event(event),
                    Step::Settings(OurSeid(1)),
                    Step::Delay(OurSeid(1)),
                    Step::Gathering(None),
                ];
                steps[rng.below(steps.len())].clone()
            }
        }
    }

    /// Makes an illegal connection legal again, in most cases.
    fn repair(&mut self) -> Step {
        let rng = &mut self.rng;
        let Some(held) = &self.session.held else {
            return Step::Book(books::valid(rng));
        };
        match rng.below(10) {
            0 => return Step::Book(books::valid(rng)),
            1 => return Step::Rebook(self.home.clone()),
            _ => (),
        }
        let connection = &held.connection;
        if connection.gathering.as_ref().is_some_and(|gathering| !gathering.is_legal()) {
            return if rng.chance(500) { Step::Gathering(None) } else { self.gathering() };
        }
        let entries = held.book.entries.len();
        let counted = usize::from(connection.count);
        if counted != entries && (counted != held.shown().len() || rng.chance(500)) {
            return Step::Count(entries as u8);
        }
        let pairs = || connection.records_of(&held.book).iter().zip(&held.book.entries);
        let same_seids = pairs().all(|(record, entry)| record.seid == entry.seid);
        if counted != entries || !same_seids {
            // A record that the book has no entry for can be overwritten all the same.
            let strange = held.shown().iter().find(|record| held.book.place_of(record.seid).is_none());
            return match strange {
                Some(record) if rng.chance(400) => Step::Record(Record::idle(record.seid)),
                _ => Step::Rebook(self.home.clone()),
            };
        }
        let awaits = |record: &Record| record.channel == Channel::Awaited;
        let at_fault = pairs()
            .find(|(record, entry)| !record.is_legal(entry))
            .or_else(|| pairs().find(|(record, _)| awaits(record)));
        match at_fault {
            // A record behind those shown cannot be overwritten.
            Some((_, entry)) if held.shown().iter().all(|record| record.seid != entry.seid) => {
                Step::Rebook(self.home.clone())
            }
            Some((_, entry)) if rng.chance(500) => Step::Record(saved::legal_record(rng, entry)),
            Some((_, entry)) => Step::Record(Record::idle(entry.seid)),
            None => Step::States,
        }
    }

    /// A record of one of the endpoints, made by one of the functions in `saved`. Mostly the endpoint is one that was
    /// saved, which after a `rebook` need not be one of the book's.
    fn record(&mut self, make: fn(&mut Rng, &Entry) -> Record) -> Record {
        let Some(held) = &self.session.held else {
            return Record::idle(OurSeid(1));
        };
        let place = self.rng.below(held.book.entries.len());
        let mut record = make(&mut self.rng, &held.book.entries[place]);
        match held.shown().get(place) {
            Some(saved) if self.rng.chance(900) => record.seid = saved.seid,
            _ => (),
        }
        record
    }

    /// A legal gathering; where it owes few packets, these come next.
    fn gathering(&mut self) -> Step {
        let gathering: Gathering = saved::legal_gathering(&mut self.rng);
        if gathering.count - gathering.parts <= 3 {
            let size = self.fitting_size();
            let owed = parts::owed(&mut self.rng, size, &gathering);
            self.goes_first(owed);
        }
        Step::Gathering(Some(gathering))
    }

    fn goes_first(&mut self, packets: Vec<Vec<u8>>) {
        for packet in packets.into_iter().rev() {
            self.row.push_front(packet);
        }
    }

    /// A message in one packet or many; the first of them comes now.
    fn message(&mut self) -> Step {
        let size = self.fitting_size();
        let rng = &mut self.rng;
        let Some(held) = &self.session.held else {
            return Step::Book(books::valid(rng));
        };
        let command = self.seen.rarest(rng, held);
        let packets = packets_of(rng, held, command, size);
        self.goes_first(packets);
        Step::Packet(self.row.pop_front().unwrap_or_default())
    }

    /// A burst, or mostly first the area that its replies need.
    fn burst_or_its_area(&mut self) -> Step {
        if usize::from(self.session.area) < SMALLEST_BURST_AREA && self.rng.chance(700) {
            return Step::Area(bursts::area(&mut self.rng));
        }
        self.burst()
    }

    /// A burst: it goes on with the row, then come messages for the endpoints as they will stand. What is left over of the
    /// last one comes next.
    fn burst(&mut self) -> Step {
        let size = self.fitting_size();
        let Some(held) = &self.session.held else {
            return Step::Burst(Vec::new());
        };
        let rng = &mut self.rng;
        let mut row = self.row.clone();
        let mut burst = bursts::Burst::new(held, size);
        // Some are about one endpoint, which goes through several states.
        let only = rng.chance(400).then(|| rng.below(held.book.entries.len()));
        let count = bursts::count(rng);
        while burst.packets.len() < count {
            let packet = match row.pop_front() {
                Some(packet) => packet,
                None if rng.chance(30) => Vec::new(),
                None => {
                    let command = match only {
                        Some(place) => payloads::on_its_way(rng, &burst.ahead, place),
                        None => self.seen.rarest(rng, &burst.ahead),
                    };
                    row.extend(packets_of(rng, &burst.ahead, command, size));
                    continue;
                }
            };
            burst.push(rng, packet);
        }
        let area_fits = usize::from(self.session.area) >= SMALLEST_BURST_AREA;
        let legal = held.connection.is_legal(&held.book);
        if size_is_good(self.session.size.into()) && count <= MOST_PACKETS && area_fits && legal {
            // The packets of a refused burst come again: it did not end the gathering.
            self.row = row;
        }
        Step::Burst(burst.packets)
    }

    fn good_size(&mut self) -> u16 {
        match self.rng.below(4) {
            0 => 48,
            1 => self.rng.between(48, 68) as u16,
            2 => 672,
            _ => self.rng.between(48, 672) as u16,
        }
    }

    fn any_size(&mut self) -> u16 {
        match self.rng.below(6) {
            0 => self.rng.pick(&[0, 2, 47, 47, 673, 673, 65535]),
            _ => self.good_size(),
        }
    }

    /// The size in use, or one to cut messages by while that is none.
    fn fitting_size(&self) -> usize {
        match usize::from(self.session.size) {
            size if size_is_good(size) => size,
            _ => SMALLEST_SIZE,
        }
    }
}
