//! Random calls that no packet is given to: link events and questions (document 01, "Link events"); and the saved count
//! that they are judged by.

use super::payloads::unknown;
use crate::book::OurSeid;
use crate::bridge::Event;
use crate::endpoints::{Channel, Record, State};
use crate::rng::Rng;
use crate::script::Step;
use crate::session::Held;

/// Channels come up where they are awaited and go down where they should, mostly. None where neither is due.
pub fn event(rng: &mut Rng, held: &Held) -> Option<Event> {
    let records = held.connection.records_of(&held.book);
    let of = |fits: fn(&Record) -> bool| -> Vec<OurSeid> {
        records.iter().filter(|record| fits(record)).map(|record| record.seid).collect()
    };
    let leaving = of(|record| matches!(record.state, State::Closing | State::Aborting));
    let with_channel = of(|record| record.channel == Channel::Up);
    let awaiting = of(|record| record.channel == Channel::Awaited);
    Some(match rng.below(20) {
        0 => Event::Up,
        1 => Event::Lost,
        2 => Event::Down(asked(rng, held)),
        3 if !with_channel.is_empty() => Event::Down(rng.pick(&with_channel)),
        4 if !awaiting.is_empty() => Event::Down(rng.pick(&awaiting)),
        5..=10 if !leaving.is_empty() => Event::Down(rng.pick(&leaving)),
        _ if !awaiting.is_empty() => Event::Up,
        _ if !leaving.is_empty() => Event::Down(rng.pick(&leaving)),
        _ => return None,
    })
}

/// A call that no packet is given to. While the connection is not legal each is refused, whatever it asks about.
pub fn any_call(rng: &mut Rng, held: &Held) -> Step {
    let seid = match rng.chance(300) {
        true => OurSeid(unknown(rng, held)),
        false => asked(rng, held),
    };
    match rng.below(7) {
        0 => Step::Event(Event::Up),
        1 => Step::Event(Event::Lost),
        2 | 3 => Step::Event(Event::Down(seid)),
        4 => Step::Settings(seid),
        5 => Step::Status(seid),
        _ => Step::Delay(seid),
    }
}

/// An endpoint of the book, mostly, and rather one that is not idle.
pub fn asked(rng: &mut Rng, held: &Held) -> OurSeid {
    let records = held.connection.records_of(&held.book);
    let in_use = records.iter().filter(|record| record.state != State::Idle);
    let in_use: Vec<OurSeid> = in_use.map(|record| record.seid).collect();
    let known = held.book.entries[rng.below(held.book.entries.len())].seid;
    match rng.below(12) {
        // Six bits of the last two are those of an endpoint.
        0 => OurSeid(rng.pick(&[0, 63, 64, 255, known.0 | 0x40, known.0 | 0x80])),
        1 => OurSeid(unknown(rng, held)),
        2..=7 if !in_use.is_empty() => rng.pick(&in_use),
        _ => known,
    }
}

/// A count of records: rather one too few or one too many than the right one, or with a bit that is too high.
pub fn count(rng: &mut Rng, held: &Held) -> u8 {
    let entries = held.book.entries.len() as u8;
    let any = rng.octet();
    let shown = held.shown().len() as u8;
    match rng.below(3) {
        0 => rng.pick(&[entries - 1, entries + 1]),
        1 => entries ^ rng.pick(&[0x10, 0x20, 0x40, 0x80]),
        _ => rng.pick(&[entries, shown, 0, 16, 17, 255, any]),
    }
}
