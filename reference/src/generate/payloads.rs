//! Random commands for the endpoints as they stand: mostly ones that are accepted, with each check of document 01,
//! "Commands", failing now and then.

use super::lists;
use crate::book::OurSeid;
use crate::commands::*;
use crate::endpoints::{Channel, State};
use crate::packets::Message;
use crate::rng::Rng;
use crate::session::Held;

/// A signal and a payload.
pub type Command = (u8, Vec<u8>);

/// A message to be cut: mostly a command, now and then of about as many octets as it may have.
pub fn message(rng: &mut Rng, (signal, mut payload): Command, size: usize) -> Message {
    let signal = if rng.chance(if size < 300 { 20 } else { 110 }) {
        // Around the most octets that a message may have; at a small size that takes many packets.
        let signal = rng.pick(&[signal, SECURITY_CONTROL, 0x0E, 0x3F]);
        let length = match rng.below(3) {
            0 => size - rng.below(4),
            _ => rng.pick(&[511, 512, 512, 513, 513, 513, 514]),
        };
        payload.resize(length, 0);
        signal
    } else {
        signal
    };
    let message_type = if rng.chance(40) { rng.between(1, 3) as u8 } else { 0 };
    Message { label: rng.octet() & 0x0F, message_type, signal, payload }
}

pub fn command(rng: &mut Rng, held: &Held) -> Command {
    let place = further_on(rng, held);
    let signal = match rng.below(10) {
        0..=7 => likely(rng, held, place),
        8 => rng.between(0x00, 0x0E) as u8,
        _ if rng.chance(300) => rng.between(0x0E, 0x3F) as u8,
        _ => rng.between(0x01, 0x0D) as u8,
    };
    (signal, payload(rng, held, place, signal))
}

/// A command for this endpoint that moves it on, mostly.
pub fn on_its_way(rng: &mut Rng, held: &Held, place: usize) -> Command {
    let signal = likely(rng, held, place);
    (signal, payload(rng, held, place, signal))
}

/// An endpoint, rather one that left idle, so that the late states are reached often enough.
fn further_on(rng: &mut Rng, held: &Held) -> usize {
    let place = rng.below(held.book.entries.len());
    let other = rng.below(held.book.entries.len());
    if rng.chance(500) && state(held, other) > state(held, place) {
        other
    } else {
        place
    }
}

/// A command that moves this endpoint on, mostly.
fn likely(rng: &mut Rng, held: &Held, place: usize) -> u8 {
    let commands: &[(u8, usize)] = match (state(held, place), channel(held, place)) {
        (State::Idle, _) => &[
            (SET_CONFIGURATION, 60),
            (DISCOVER, 5),
            (GET_CAPABILITIES, 8),
            (GET_ALL_CAPABILITIES, 8),
            (ABORT, 2),
            (RECONFIGURE, 2),
            (SECURITY_CONTROL, 3),
        ],
        (State::Configured, _) => &[
            (OPEN, 40),
            (DELAY_REPORT, 20),
            (GET_CONFIGURATION, 8),
            (SET_CONFIGURATION, 6),
            (RECONFIGURE, 4),
            (CLOSE, 4),
            (ABORT, 4),
            (DISCOVER, 4),
            (SECURITY_CONTROL, 4),
        ],
        (State::Open, Channel::Awaited) => &[
            (RECONFIGURE, 20),
            (DELAY_REPORT, 10),
            (GET_CONFIGURATION, 6),
            (CLOSE, 5),
            (ABORT, 4),
            (START, 8),
            (OPEN, 5),
        ],
        (State::Open, _) => &[
            (START, 30),
            (RECONFIGURE, 40),
            (CLOSE, 14),
            (DELAY_REPORT, 8),
            (GET_CONFIGURATION, 6),
            (ABORT, 4),
        ],
        (State::Streaming, _) => &[
            (SUSPEND, 35),
            (RECONFIGURE, 9),
            (SET_CONFIGURATION, 4),
            (SECURITY_CONTROL, 4),
            (CLOSE, 12),
            (ABORT, 8),
            (DELAY_REPORT, 10),
            (GET_CONFIGURATION, 6),
            (DISCOVER, 4),
        ],
        _ => &[
            (ABORT, 3),
            (GET_CONFIGURATION, 6),
            (DELAY_REPORT, 6),
            (RECONFIGURE, 4),
            (CLOSE, 4),
            (SET_CONFIGURATION, 3),
            (DISCOVER, 3),
        ],
    };
    let weights: Vec<usize> = commands.iter().map(|(_, weight)| *weight).collect();
    commands[rng.weighted(&weights)].0
}

fn state(held: &Held, place: usize) -> State {
    held.connection.records[place].state
}

fn channel(held: &Held, place: usize) -> Channel {
    held.connection.records[place].channel
}

pub fn payload(rng: &mut Rng, held: &Held, place: usize, signal: u8) -> Vec<u8> {
    let mut payload = match signal {
        DISCOVER if rng.chance(120) => vec![our_octet(rng, held, place)],
        DISCOVER => Vec::new(),
        SET_CONFIGURATION => set_configuration(rng, held, place),
        RECONFIGURE => reconfigure(rng, held, place),
        START => seids(rng, held, place, State::Open),
        SUSPEND => seids(rng, held, place, State::Streaming),
        DELAY_REPORT => {
            let tenths = rng.pick(&[[0, 0], [0x05, 0xDC], [0xFF, 0xFF], [0x01, 0x00], [0x00, 0xFF]]);
            let tenths = if rng.chance(500) { [rng.octet(), rng.octet()] } else { tenths };
            vec![our_octet(rng, held, place), tenths[0], tenths[1]]
        }
        SECURITY_CONTROL => {
            let seid = if rng.chance(350) { unknown(rng, held) << 2 } else { our_octet(rng, held, place) };
            let length = rng.below(6);
            [vec![seid], rng.octets(length)].concat()
        }
        0x00 | 0x0E..=0x3F => {
            let length = rng.below(4);
            rng.octets(length)
        }
        _ => vec![our_octet(rng, held, place)],
    };
    if rng.chance(60) {
        match rng.below(3) {
            0 => payload.truncate(rng.below(4)),
            1 => {
                payload.pop();
            }
            _ => payload.push(rng.octet()),
        }
    }
    payload
}

/// Our SEID in bits 7 to 2, reserved bits set now and then; sometimes one that the book does not have.
fn our_octet(rng: &mut Rng, held: &Held, place: usize) -> u8 {
    let seid = match rng.below(14) {
        0 => unknown(rng, held),
        _ => held.book.entries[place].seid.0,
    };
    seid << 2 | reserved(rng)
}

/// A SEID that the book does not have. A far SEID is among these: it is not ours.
pub fn unknown(rng: &mut Rng, held: &Held) -> u8 {
    let is_unknown = |seid: &u8| held.book.place_of(OurSeid(*seid)).is_none();
    let seids: Vec<u8> = (0..=63).filter(is_unknown).collect();
    let records = held.connection.records_of(&held.book);
    let far = records.iter().map(|record| record.far.0).find(is_unknown);
    let any = rng.pick(&seids);
    let far = far.unwrap_or(any);
    rng.pick(&[0, 63, any, far, far])
}

fn reserved(rng: &mut Rng) -> u8 {
    if rng.chance(250) {
        rng.octet() & 0x03
    } else {
        0
    }
}

pub fn far_seid(rng: &mut Rng) -> u8 {
    match rng.below(4) {
        0 => rng.pick(&[1, 62]),
        _ => rng.between(1, 62) as u8,
    }
}

fn set_configuration(rng: &mut Rng, held: &Held, place: usize) -> Vec<u8> {
    let offered = &held.book.entries[place].offered;
    // With an endpoint in use a wrong far SEID shows which counts first.
    let wrong = if state(held, place) == State::Idle { 90 } else { 400 };
    // Two endpoints may have the same far SEID (DESIGN, open point 8).
    let used = held.connection.records_of(&held.book).iter().map(|record| record.far.0).find(|&far| far != 0);
    let far = match used {
        _ if rng.chance(wrong) => rng.pick(&[0, 63]),
        Some(far) if rng.chance(250) => far,
        _ => far_seid(rng),
    };
    let list = lists::configuration(rng, offered);
    let list = lists::as_sent(rng, list);
    let head = vec![our_octet(rng, held, place), far << 2 | reserved(rng)];
    [head, with_faults(rng, list)].concat()
}

fn reconfigure(rng: &mut Rng, held: &Held, place: usize) -> Vec<u8> {
    if rng.chance(40) {
        // One octet too few for an element.
        return vec![our_octet(rng, held, place), rng.octet()];
    }
    let list = lists::reconfiguration(rng, &held.book.entries[place].offered);
    let list = lists::as_sent(rng, list);
    [vec![our_octet(rng, held, place)], with_faults(rng, list)].concat()
}

/// A command's elements, in half of all cases with one fault or two.
fn with_faults(rng: &mut Rng, mut list: lists::Elements) -> Vec<u8> {
    let faults = rng.pick(&[0, 0, 0, 0, 0, 1, 1, 1, 1, 2]);
    for _ in 0..faults {
        lists::damage(rng, &mut list);
    }
    let mut octets = lists::octets(&list);
    if rng.chance(60) {
        lists::cut_short(rng, &mut octets);
    }
    octets
}

/// Some endpoints of this state, with a repeated, an unfit or an unknown one among them now and then.
fn seids(rng: &mut Rng, held: &Held, place: usize, from: State) -> Vec<u8> {
    let count = held.book.entries.len();
    let mut places: Vec<usize> =
        (0..count).filter(|&at| state(held, at) == from && channel(held, at) == Channel::Up).collect();
    rng.shuffle(&mut places);
    places.truncate(rng.between(1, 5));
    if places.is_empty() {
        places.push(place);
    }
    if rng.chance(150) {
        places.push(places[0]);
    }
    if rng.chance(250) {
        // Before all others or anywhere.
        let at = if rng.chance(500) { 0 } else { rng.below(places.len() + 1) };
        places.insert(at, rng.below(count));
    }
    places.into_iter().map(|place| our_octet(rng, held, place)).collect()
}
