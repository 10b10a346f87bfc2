//! A script as it runs: the book, the saved connection, the sizes, and the answer of each step (DESIGN, "Replay").

use std::io::{self, Write};

use crate::book::{self, Book};
use crate::bridge::{self, Event, Status, Told, NO_STATUS};
use crate::endpoints::{Connection, Record};
use crate::numbers::{Number, DONE};
use crate::packets::packet_count;
use crate::script::{self, channel_name, state_name, Line, Step};

/// What one line gave.
pub enum Outcome {
    /// A blank line or a comment.
    Skipped,
    NotUnderstood,
    /// Understood, and has no answer.
    Quiet,
    Book(Number),
    Rebook(Number),
    Packet(Result<Told, Number>),
    Burst(Result<Vec<Told>, Number>),
    Event(Event, Number),
    Settings(Result<Vec<u8>, Number>),
    Delay(Result<Option<u16>, Number>),
    Status(Result<Status, Number>),
    States(Vec<Record>),
    Cut(Result<Vec<u8>, Number>),
}

/// The book in use and the connection saved for it, or for the book before a `rebook`.
#[derive(Clone)]
pub struct Held {
    pub book: Book,
    pub connection: Connection,
    /// How many entries the book of the last `book` had: so many records are shown and overwritten.
    shown: usize,
}

pub struct Session {
    pub held: Option<Held>,
    pub size: u16,
    pub area: u16,
}

impl Session {
    pub fn new() -> Session {
        Session { held: None, size: 672, area: 64 }
    }

    pub fn line(&mut self, line: &[u8]) -> Outcome {
        match script::read(line) {
            Line::Blank => Outcome::Skipped,
            Line::NotUnderstood => Outcome::NotUnderstood,
            Line::Step(step) => self.step(step),
        }
    }

    /// The steps that need no accepted book.
    fn step(&mut self, step: Step) -> Outcome {
        match step {
            Step::Book(octets) => Outcome::Book(self.book(&octets)),
            Step::Size(size) => {
                self.size = size;
                Outcome::Quiet
            }
            Step::Area(area) => {
                self.area = area;
                Outcome::Quiet
            }
            Step::Cut { size, message, area, number } => {
                Outcome::Cut(bridge::cut(size.into(), &message, number.into(), area.into()))
            }
            Step::Explain => Outcome::Quiet,
            step => match &mut self.held {
                Some(held) => held.step(step, self.size.into(), self.area.into()),
                None => Outcome::NotUnderstood,
            },
        }
    }

    /// An accepted book comes with a fresh connection, in the area of the one before; a refused one changes nothing.
    fn book(&mut self, octets: &[u8]) -> Number {
        match book::read(octets) {
            Ok(book) => {
                let mut connection = self.held.take().map_or(Connection::zero(), |held| held.connection);
                connection.refresh(&book);
                let shown = book.entries.len();
                self.held = Some(Held { book, connection, shown });
                DONE
            }
            Err(number) => number,
        }
    }
}

impl Held {
    fn step(&mut self, step: Step, size: usize, area: usize) -> Outcome {
        let Held { book, connection, .. } = self;
        match step {
            Step::Rebook(octets) => Outcome::Rebook(self.rebook(&octets)),
            Step::Packet(octets) => Outcome::Packet(bridge::packet(book, size, connection, &octets, area)),
            Step::Burst(packets) => Outcome::Burst(bridge::burst(book, size, connection, &packets, area)),
            Step::Event(event) => Outcome::Event(event, bridge::event(book, connection, event)),
            Step::Settings(seid) => {
                Outcome::Settings(bridge::settings(book, connection, seid).map(<[u8]>::to_vec))
            }
            Step::Delay(seid) => Outcome::Delay(bridge::delay(book, connection, seid)),
            Step::Status(seid) => Outcome::Status(bridge::status(book, connection, seid)),
            Step::States => Outcome::States(self.shown().to_vec()),
            Step::Count(count) => {
                connection.count = count;
                Outcome::Quiet
            }
            Step::Record(record) => self.overwrite(record),
            Step::Gathering(gathering) => {
                connection.gathering = gathering;
                Outcome::Quiet
            }
            Step::Book(_) | Step::Size(_) | Step::Area(_) | Step::Cut { .. } | Step::Explain => {
                unreachable!("served without a book")
            }
        }
    }

    /// The records that are shown and overwritten, whatever the count and the book in use say.
    pub fn shown(&self) -> &[Record] {
        &self.connection.records[..self.shown]
    }

    /// The connection stays as it was saved, its count too, legal for the new book or not.
    fn rebook(&mut self, octets: &[u8]) -> Number {
        match book::read(octets) {
            Ok(book) => {
                self.book = book;
                DONE
            }
            Err(number) => number,
        }
    }

    /// The records belong to the SEIDs that were saved, not to those of the book in use.
    fn overwrite(&mut self, record: Record) -> Outcome {
        let mut saved = self.connection.records[..self.shown].iter_mut();
        match saved.find(|saved| saved.seid == record.seid) {
            Some(saved) => {
                *saved = record;
                Outcome::Quiet
            }
            None => Outcome::NotUnderstood,
        }
    }
}

impl Outcome {
    /// Prints the answer. The size is the one that the step ran with.
    pub fn write(&self, out: &mut impl Write, line_number: u64, size: usize) -> io::Result<()> {
        match self {
            Outcome::Skipped | Outcome::Quiet => Ok(()),
            Outcome::NotUnderstood => writeln!(out, "line {line_number} not understood"),
            Outcome::Book(number) | Outcome::Rebook(number) => writeln!(out, "book {number}"),
            Outcome::Packet(Ok(told)) => write_told(out, told, size),
            Outcome::Packet(Err(number)) => writeln!(out, "refused {number}"),
            Outcome::Burst(Ok(packets)) => {
                writeln!(out, "burst 0")?;
                packets.iter().try_for_each(|told| write_told(out, told, size))
            }
            Outcome::Burst(Err(number)) => writeln!(out, "burst {number}"),
            Outcome::Event(_, number) => writeln!(out, "event {number}"),
            Outcome::Settings(Ok(octets)) => writeln!(out, "settings 0{}", apart(octets)),
            Outcome::Settings(Err(number)) => writeln!(out, "settings {number}"),
            Outcome::Delay(Ok(Some(tenths))) => writeln!(out, "delay 0 reported {tenths}"),
            Outcome::Delay(Ok(None)) => writeln!(out, "delay 0 unreported 0"),
            Outcome::Delay(Err(number)) => writeln!(out, "delay {number} unreported 0"),
            Outcome::Status(Ok(status)) => writeln!(out, "status 0 {}", status_words(*status)),
            Outcome::Status(Err(number)) => writeln!(out, "status {number} {}", status_words(NO_STATUS)),
            Outcome::States(records) => {
                records.iter().try_for_each(|record| writeln!(out, "{}", record_words(record)))
            }
            Outcome::Cut(Ok(octets)) => writeln!(out, "cut 0{}", apart(octets)),
            Outcome::Cut(Err(number)) => writeln!(out, "cut {number}"),
        }
    }
}

/// A packet's lines: the packets of its reply, or that there is none.
fn write_told(out: &mut impl Write, told: &Told, size: usize) -> io::Result<()> {
    match told {
        Told::Silent(_) => writeln!(out, "silent"),
        Told::Reply(message) => (0..packet_count(size, message.payload.len())).try_for_each(|number| {
            let packet = crate::packets::packet(size, message, number);
            writeln!(out, ">{}", apart(&packet))
        }),
    }
}

/// A record as `states` shows it and `record` reads it.
pub fn record_words(record: &Record) -> String {
    let delay = match record.delay {
        Some(tenths) => tenths.to_string(),
        None => "-".to_string(),
    };
    let config = match record.config.is_empty() {
        true => "-".to_string(),
        false => record.config.iter().map(|octet| format!("{octet:02X}")).collect(),
    };
    let Record { state, channel, far, .. } = *record;
    format!("{} {} {delay} {config}", record.seid.0, status_words(Status { state, channel, far }))
}

fn status_words(status: Status) -> String {
    format!("{} {} {}", state_name(status.state), channel_name(status.channel), status.far.0)
}

/// Octets as answers show them, a blank before each.
pub fn apart(octets: &[u8]) -> String {
    octets.iter().map(|octet| format!(" {octet:02X}")).collect()
}
