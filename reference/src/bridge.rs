//! The host's calls: document 01, "What the host is told", and Q-1, with the order of the refusals. A refusal changes
//! nothing.

use crate::book::{Book, OurSeid};
use crate::commands::{serve, AbortFlaw, Answer};
use crate::endpoints::{Channel, Connection, FarSeid, Record, State};
use crate::numbers::*;
use crate::packets::{self, take, Flaw, Message, Taken, LONGEST_PAYLOAD};

pub const SMALLEST_SIZE: usize = 48;
pub const LARGEST_SIZE: usize = 672;
pub const SMALLEST_REPLY_AREA: usize = 64;
/// A burst's packets and its reply area, which has 64 octets for each of the most packets: Q-1.
pub const MOST_PACKETS: usize = 16;
pub const SMALLEST_BURST_AREA: usize = 1024;

/// Why a packet has no reply.
#[derive(Clone, Copy, PartialEq, Eq, PartialOrd, Ord, Debug)]
pub enum Silence {
    Part,
    Ended(Flaw),
    NotACommand,
    Abort(AbortFlaw),
}

/// What the host is told about a packet of a call that was not refused.
pub enum Told {
    Silent(Silence),
    Reply(Message),
}

#[derive(Clone, Copy, PartialEq, Eq)]
pub enum Event {
    Up,
    Down(OurSeid),
    Lost,
}

pub fn size_is_good(size: usize) -> bool {
    (SMALLEST_SIZE..=LARGEST_SIZE).contains(&size)
}

/// Order: 8, 9, 12. The book was read before.
pub fn packet(
    book: &Book,
    size: usize,
    connection: &mut Connection,
    packet: &[u8],
    reply_area: usize,
) -> Result<Told, Number> {
    if !size_is_good(size) {
        return Err(SIZE);
    }
    if reply_area < SMALLEST_REPLY_AREA {
        return Err(AREA);
    }
    if !connection.is_legal(book) {
        return Err(NOT_LEGAL);
    }
    Ok(told(book, size, connection, packet))
}

/// Several packets, one behind the other. Order: 8, 13, 9, 12, all before the first packet is read. The connection is
/// judged once: no packet makes it illegal, so that none behind it would be refused.
pub fn burst(
    book: &Book,
    size: usize,
    connection: &mut Connection,
    packets: &[Vec<u8>],
    reply_area: usize,
) -> Result<Vec<Told>, Number> {
    if !size_is_good(size) {
        return Err(SIZE);
    }
    if packets.len() > MOST_PACKETS {
        return Err(BURST);
    }
    if reply_area < SMALLEST_BURST_AREA {
        return Err(AREA);
    }
    if !connection.is_legal(book) {
        return Err(NOT_LEGAL);
    }
    Ok(packets.iter().map(|packet| told(book, size, connection, packet)).collect())
}

/// One packet over a legal connection.
fn told(book: &Book, size: usize, connection: &mut Connection, packet: &[u8]) -> Told {
    let message = match take(&mut connection.gathering, size, packet) {
        Taken::Message(message) => message,
        Taken::Part => return Told::Silent(Silence::Part),
        Taken::Ended(flaw) => return Told::Silent(Silence::Ended(flaw)),
    };
    if message.message_type != packets::COMMAND {
        return Told::Silent(Silence::NotACommand);
    }
    let records = connection.records_of_mut(book);
    let (message_type, payload) = match serve(book, records, message.signal, &message.payload) {
        Answer::Accept(payload) => (packets::ACCEPT, payload),
        Answer::Reject(payload) => (packets::REJECT, payload),
        Answer::GeneralReject => (packets::GENERAL_REJECT, Vec::new()),
        Answer::Silent(flaw) => return Told::Silent(Silence::Abort(flaw)),
    };
    Told::Reply(Message { message_type, payload, ..message })
}

/// Order: 12, 10.
pub fn event(book: &Book, connection: &mut Connection, event: Event) -> Number {
    if !connection.is_legal(book) {
        return NOT_LEGAL;
    }
    let records = connection.records_of_mut(book);
    match event {
        Event::Up => channel_up(records),
        Event::Down(seid) => channel_down(records, seid),
        Event::Lost => {
            records.iter_mut().for_each(Record::become_idle);
            connection.gathering = None;
            DONE
        }
    }
}

fn channel_up(records: &mut [Record]) -> Number {
    match records.iter_mut().find(|record| record.channel == Channel::Awaited) {
        Some(record) => {
            record.channel = Channel::Up;
            DONE
        }
        None => DOES_NOT_APPLY,
    }
}

/// An endpoint that only awaits its channel has none (DESIGN, open point 10).
fn channel_down(records: &mut [Record], seid: OurSeid) -> Number {
    match records.iter_mut().find(|record| record.seid == seid) {
        Some(record) if record.channel == Channel::Up => {
            record.become_idle();
            DONE
        }
        _ => DOES_NOT_APPLY,
    }
}

/// The record and the offered list of a named endpoint. Order: 12, 10.
fn asked_about<'a>(
    book: &'a Book,
    connection: &'a Connection,
    seid: OurSeid,
) -> Result<(&'a Record, &'a [u8]), Number> {
    if !connection.is_legal(book) {
        return Err(NOT_LEGAL);
    }
    let place = book.place_of(seid).ok_or(DOES_NOT_APPLY)?;
    Ok((&connection.records[place], &book.entries[place].offered))
}

/// The configuration if there is one, else the offered list.
pub fn settings<'a>(book: &'a Book, connection: &'a Connection, seid: OurSeid) -> Result<&'a [u8], Number> {
    let (record, offered) = asked_about(book, connection, seid)?;
    Ok(if record.config.is_empty() { offered } else { &record.config })
}

/// The reported delay in tenths of a millisecond, if one was reported.
pub fn delay(book: &Book, connection: &Connection, seid: OurSeid) -> Result<Option<u16>, Number> {
    let (record, _) = asked_about(book, connection, seid)?;
    Ok(record.delay)
}

/// How an endpoint stands.
#[derive(Clone, Copy)]
pub struct Status {
    pub state: State,
    pub channel: Channel,
    pub far: FarSeid,
}

/// What a refused status question shows.
pub const NO_STATUS: Status = Status { state: State::Idle, channel: Channel::None, far: FarSeid::NONE };

pub fn status(book: &Book, connection: &Connection, seid: OurSeid) -> Result<Status, Number> {
    let (record, _) = asked_about(book, connection, seid)?;
    Ok(Status { state: record.state, channel: record.channel, far: record.far })
}

/// One packet of a message. Order: 8, 11, 9.
pub fn cut(size: usize, message: &Message, number: usize, area: usize) -> Result<Vec<u8>, Number> {
    if !size_is_good(size) {
        return Err(SIZE);
    }
    if number >= packets::packet_count(size, message.payload.len())
        || message.payload.len() > LONGEST_PAYLOAD
        || message.label > 15
        || message.message_type > 3
        || message.signal > 63
    {
        return Err(CUT);
    }
    let packet = packets::packet(size, message, number);
    if area < packet.len() {
        return Err(AREA);
    }
    Ok(packet)
}
