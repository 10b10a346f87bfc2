//! The lines of a script: DESIGN, "Replay: the technician's program", with the steps that REQUESTS adds. A line is
//! blank, a step, or not understood.

use crate::book::{OurSeid, LONGEST_LIST};
use crate::bridge::Event;
use crate::endpoints::{Channel, FarSeid, Record, State};
use crate::packets::{Gathering, Message, LONGEST_PAYLOAD};

/// The longest line that is understood, without its newline.
pub const LONGEST_LINE: usize = 8191;
/// The most packets of a burst that are understood: more than a burst may have, so that 13 can be seen.
pub const MOST_WRITTEN: usize = 40;

pub enum Line {
    Blank,
    Step(Step),
    NotUnderstood,
}

#[derive(Clone)]
pub enum Step {
    Book(Vec<u8>),
    Rebook(Vec<u8>),
    Size(u16),
    Area(u16),
    Packet(Vec<u8>),
    Burst(Vec<Vec<u8>>),
    Event(Event),
    Settings(OurSeid),
    Delay(OurSeid),
    Status(OurSeid),
    States,
    Count(u8),
    Record(Record),
    Gathering(Option<Gathering>),
    Cut { size: u16, message: Message, area: u16, number: u16 },
    Explain,
}

/// One line without its newline. A line that is too long is not understood whatever it holds, a comment too.
pub fn read(line: &[u8]) -> Line {
    if line.len() > LONGEST_LINE {
        return Line::NotUnderstood;
    }
    let text = without_ends(without_comment(line));
    if text.is_empty() {
        return Line::Blank;
    }
    // Two blanks in a row give an empty word, which is no word of any step.
    let words: Vec<&[u8]> = text.split(|&octet| octet == b' ').collect();
    match step(&words) {
        Some(step) => Line::Step(step),
        None => Line::NotUnderstood,
    }
}

/// A comment may stand alone or follow a step, with or without blanks before it.
fn without_comment(line: &[u8]) -> &[u8] {
    let end = line.iter().position(|&octet| octet == b'#').unwrap_or(line.len());
    &line[..end]
}

fn without_ends(mut text: &[u8]) -> &[u8] {
    while let [b' ' | b'\t' | b'\r', rest @ ..] = text {
        text = rest;
    }
    while let [rest @ .., b' ' | b'\t' | b'\r'] = text {
        text = rest;
    }
    text
}

fn step(words: &[&[u8]]) -> Option<Step> {
    Some(match words {
        [b"book", hex @ ..] => Step::Book(octets(hex)?),
        [b"rebook", hex @ ..] => Step::Rebook(octets(hex)?),
        [b"size", size] => Step::Size(number(size)?),
        [b"area", area] => Step::Area(number(area)?),
        [b"packet", hex @ ..] => Step::Packet(octets(hex)?),
        [b"burst", words @ ..] => Step::Burst(packets(words)?),
        [b"up"] => Step::Event(Event::Up),
        [b"down", seid] => Step::Event(Event::Down(OurSeid(small(seid)?))),
        [b"lost"] => Step::Event(Event::Lost),
        [b"settings", seid] => Step::Settings(OurSeid(small(seid)?)),
        [b"delay", seid] => Step::Delay(OurSeid(small(seid)?)),
        [b"status", seid] => Step::Status(OurSeid(small(seid)?)),
        [b"states"] => Step::States,
        [b"count", count] => Step::Count(small(count)?),
        [b"record", seid, state, channel, far, delay, config] => Step::Record(Record {
            seid: OurSeid(small(seid)?),
            state: state_named(state)?,
            channel: channel_named(channel)?,
            far: FarSeid(small(far)?),
            delay: tenths(delay)?,
            config: config_octets(config)?,
        }),
        [b"gathering", b"none"] => Step::Gathering(None),
        [b"gathering", label, message_type, signal, count, parts, hex @ ..] => {
            Step::Gathering(Some(Gathering {
                label: small(label)?,
                message_type: small(message_type)?,
                signal: small(signal)?,
                count: small(count)?,
                parts: small(parts)?,
                octets: octets(hex).filter(|octets| octets.len() <= LONGEST_PAYLOAD)?,
            }))
        }
        [b"cut", size, label, message_type, signal, area, packet_number, hex @ ..] => Step::Cut {
            size: number(size)?,
            message: Message {
                label: small(label)?,
                message_type: small(message_type)?,
                signal: small(signal)?,
                payload: octets(hex)?,
            },
            area: number(area)?,
            number: number(packet_number)?,
        },
        [b"explain"] => Step::Explain,
        _ => return None,
    })
}

/// Decimal digits with any number of leading zeros, 0 to 65535.
fn number(word: &[u8]) -> Option<u16> {
    if word.is_empty() {
        return None;
    }
    let mut value: u16 = 0;
    for &digit in word {
        if !digit.is_ascii_digit() {
            return None;
        }
        value = value.checked_mul(10)?.checked_add(u16::from(digit - b'0'))?;
    }
    Some(value)
}

/// A number of 0 to 255.
fn small(word: &[u8]) -> Option<u8> {
    u8::try_from(number(word)?).ok()
}

fn octets(words: &[&[u8]]) -> Option<Vec<u8>> {
    words.iter().map(|word| octet(word)).collect()
}

/// The word `/` begins each packet, the first one too.
fn packets(words: &[&[u8]]) -> Option<Vec<Vec<u8>>> {
    let mut pieces = words.split(|word| *word == b"/");
    pieces.next().filter(|before| before.is_empty())?;
    let packets: Vec<Vec<u8>> = pieces.map(octets).collect::<Option<_>>()?;
    (packets.len() <= MOST_WRITTEN).then_some(packets)
}

fn octet(word: &[u8]) -> Option<u8> {
    match *word {
        [high, low] => Some(hex_digit(high)? << 4 | hex_digit(low)?),
        _ => None,
    }
}

fn hex_digit(digit: u8) -> Option<u8> {
    char::from(digit).to_digit(16).map(|value| value as u8)
}

fn tenths(word: &[u8]) -> Option<Option<u16>> {
    match word {
        b"-" => Some(None),
        _ => Some(Some(number(word)?)),
    }
}

/// `-` for none, or 1 to 64 octets without blanks.
fn config_octets(word: &[u8]) -> Option<Vec<u8>> {
    if word == b"-" {
        return Some(Vec::new());
    }
    if word.is_empty() || word.len() > 2 * LONGEST_LIST {
        return None;
    }
    word.chunks(2).map(octet).collect()
}

fn state_named(word: &[u8]) -> Option<State> {
    Some(match word {
        b"idle" => State::Idle,
        b"configured" => State::Configured,
        b"open" => State::Open,
        b"streaming" => State::Streaming,
        b"closing" => State::Closing,
        b"aborting" => State::Aborting,
        _ => return None,
    })
}

fn channel_named(word: &[u8]) -> Option<Channel> {
    Some(match word {
        b"none" => Channel::None,
        b"awaited" => Channel::Awaited,
        b"up" => Channel::Up,
        _ => return None,
    })
}

pub fn state_name(state: State) -> &'static str {
    match state {
        State::Idle => "idle",
        State::Configured => "configured",
        State::Open => "open",
        State::Streaming => "streaming",
        State::Closing => "closing",
        State::Aborting => "aborting",
    }
}

pub fn channel_name(channel: Channel) -> &'static str {
    match channel {
        Channel::None => "none",
        Channel::Awaited => "awaited",
        Channel::Up => "up",
    }
}
