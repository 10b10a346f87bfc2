//! Random saved records and gatherings, legal and not: document 01, "What the host is told", the paragraph on
//! legality.

use super::lists;
use super::payloads::far_seid;
use crate::book::{Entry, LONGEST_LIST};
use crate::elements::{CODEC, TRANSPORT};
use crate::endpoints::{Channel, FarSeid, Record, State};
use crate::packets::Gathering;
use crate::rng::Rng;

/// A record that is legal by itself; two that await a channel are not legal together.
pub fn legal_record(rng: &mut Rng, entry: &Entry) -> Record {
    if rng.chance(100) {
        return Record::idle(entry.seid);
    }
    let (state, channel) = rng.pick(&[
        (State::Configured, Channel::None),
        (State::Configured, Channel::None),
        (State::Open, Channel::Awaited),
        (State::Open, Channel::Up),
        (State::Open, Channel::Up),
        (State::Streaming, Channel::Up),
        (State::Streaming, Channel::Up),
        (State::Closing, Channel::Up),
        (State::Aborting, Channel::Up),
    ]);
    in_use(rng, entry, state, channel)
}

/// A record whose far SEID, configuration and delay are legal for an endpoint that is not idle.
fn in_use(rng: &mut Rng, entry: &Entry, state: State, channel: Channel) -> Record {
    let mut record = Record { state, channel, ..Record::idle(entry.seid) };
    record.far = FarSeid(far_seid(rng));
    record.config = lists::octets(&lists::configuration(rng, &entry.offered));
    if record.may_have_delay(entry) && rng.chance(500) {
        record.delay = Some(tenths(rng));
    }
    record
}

/// A state with a channel that it cannot have, and else nothing wrong.
fn with_wrong_channel(rng: &mut Rng, entry: &Entry) -> Record {
    let (state, channel) = rng.pick(&[
        (State::Configured, Channel::Awaited),
        (State::Configured, Channel::Up),
        (State::Open, Channel::None),
        (State::Open, Channel::None),
        (State::Streaming, Channel::None),
        (State::Streaming, Channel::Awaited),
        (State::Closing, Channel::None),
        (State::Closing, Channel::Awaited),
        (State::Aborting, Channel::None),
        (State::Aborting, Channel::Awaited),
    ]);
    in_use(rng, entry, state, channel)
}

fn tenths(rng: &mut Rng) -> u16 {
    let any = rng.below(65536) as u16;
    rng.pick(&[0, 1, 65535, any, any])
}

/// A record with one fault, mostly.
pub fn damaged_record(rng: &mut Rng, entry: &Entry) -> Record {
    let mut record = legal_record(rng, entry);
    match rng.below(10) {
        0 | 1 => return spoil_idle(rng, entry),
        2 | 3 => return with_wrong_channel(rng, entry),
        // Not legal where another one awaits its channel.
        9 => return in_use(rng, entry, State::Open, Channel::Awaited),
        4 => record.far = FarSeid(rng.pick(&[0, 63, 64, 128, 255])),
        5 => record.delay = Some(tenths(rng)),
        6 => record.state = State::Idle,
        _ => {
            record.config = spoilt_config(rng, entry);
            record.config.truncate(LONGEST_LIST);
        }
    }
    record
}

/// An idle endpoint that kept one thing.
fn spoil_idle(rng: &mut Rng, entry: &Entry) -> Record {
    let mut record = Record::idle(entry.seid);
    match rng.below(4) {
        0 => record.channel = rng.pick(&[Channel::Awaited, Channel::Up]),
        1 => record.far = FarSeid(far_seid(rng)),
        2 => record.delay = Some(tenths(rng)),
        _ => record.config = lists::octets(&lists::configuration(rng, &entry.offered)),
    }
    record
}

/// A configuration that Set Configuration could not have stored, mostly.
fn spoilt_config(rng: &mut Rng, entry: &Entry) -> Vec<u8> {
    let mut list = lists::configuration(rng, &entry.offered);
    match rng.below(6) {
        0 => list.retain(|(category, _)| *category != TRANSPORT),
        1 => list.retain(|(category, _)| *category != CODEC),
        2 => list.reverse(),
        3 => {
            for (_, value) in list.iter_mut().filter(|(category, _)| *category == CODEC) {
                value[0] |= 1 << rng.below(4);
            }
        }
        4 => lists::damage(rng, &mut list),
        _ => {
            let mut octets = lists::octets(&list);
            lists::cut_short(rng, &mut octets);
            return octets;
        }
    }
    lists::octets(&list)
}

/// A legal gathering, of which often one packet is owed, with few octets or nearly as many as are allowed.
pub fn legal_gathering(rng: &mut Rng) -> Gathering {
    let count = match rng.below(3) {
        0 => rng.pick(&[2, 3, 255]),
        _ => rng.between(2, 255) as u8,
    };
    let parts = match rng.below(4) {
        0 => rng.between(1, usize::from(count) - 1) as u8,
        1 => count.saturating_sub(2).max(1),
        _ => count - 1,
    };
    let length = match rng.below(3) {
        0 => rng.pick(&[0, 1, 512, 511, 500]),
        1 => rng.between(470, 512),
        _ => rng.below(20),
    };
    Gathering {
        label: rng.pick(&[0, 15, 7, 9]),
        message_type: rng.pick(&[0, 0, 0, 0, 1, 2, 3]),
        signal: rng.pick(&[0x01, 0x02, 0x07, 0x0B, 0x0E, 0x3F]),
        count,
        parts,
        octets: rng.octets(length),
    }
}

/// A gathering with one fault, mostly.
pub fn damaged_gathering(rng: &mut Rng) -> Gathering {
    let mut gathering = legal_gathering(rng);
    match rng.below(6) {
        0 => gathering.label = rng.pick(&[16, 16, 16, 255]),
        1 => gathering.message_type = rng.pick(&[4, 4, 4, 255]),
        2 => gathering.signal = rng.pick(&[64, 64, 64, 255]),
        3 => {
            gathering.count = rng.pick(&[0, 1, 1]);
            gathering.parts = rng.pick(&[0, 1]);
        }
        4 => gathering.parts = rng.pick(&[0, gathering.count]),
        _ => gathering.parts = gathering.count.saturating_add(1),
    }
    gathering
}
