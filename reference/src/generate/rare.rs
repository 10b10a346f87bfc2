//! Of some random commands the one whose answer came least often so far: rare answers come early, and again.

use std::collections::BTreeMap;

use super::payloads::{command, Command};
use crate::book::OurSeid;
use crate::codes::UNSUPPORTED_CONFIGURATION;
use crate::commands::{serve, Answer, RECONFIGURE, SET_CONFIGURATION, START, SUSPEND};
use crate::elements::{CODEC, PROTECTION};
use crate::endpoints::{Channel, Record, State};
use crate::rng::Rng;
use crate::session::Held;

const CANDIDATES: usize = 8;

/// A signal, whom the command names first, and the answer in short.
type Reached = (u8, Named, Short);

#[derive(PartialEq, Eq, PartialOrd, Ord)]
enum Named {
    Nobody,
    /// A SEID that only the far end has.
    Far,
    Ours(State, Channel),
}

#[derive(PartialEq, Eq, PartialOrd, Ord)]
enum Short {
    Accept,
    Reject(u8, u8),
    GeneralReject,
    Silent,
}

impl Short {
    /// How many times as often as others this answer may come. Accepts lead on to the late states; that an element is not
    /// offered has many reasons.
    fn may_come(&self) -> u64 {
        match self {
            Short::Accept | Short::Reject(PROTECTION | CODEC, UNSUPPORTED_CONFIGURATION) => 4,
            _ => 1,
        }
    }
}

#[derive(Default)]
pub struct Seen(BTreeMap<Reached, u64>);

impl Seen {
    pub fn rarest(&mut self, rng: &mut Rng, held: &Held) -> Command {
        let mut best: Option<(u64, Reached, Command)> = None;
        for _ in 0..CANDIDATES {
            let command = command(rng, held);
            let reached = reached(held, &command);
            let times = self.0.get(&reached).copied().unwrap_or(0);
            let weight = times / reached.2.may_come();
            if best.as_ref().is_none_or(|(least, _, _)| weight < *least) {
                best = Some((weight, reached, command));
            }
        }
        let (_, reached, command) = best.expect("there are candidates");
        *self.0.entry(reached).or_insert(0) += 1;
        command
    }
}

/// What the command would reach; the endpoints stay as they are.
fn reached(held: &Held, (signal, payload): &Command) -> Reached {
    let mut records = held.connection.records_of(&held.book).to_vec();
    let named = payload.first().map_or(Named::Nobody, |octet| named(held, &records, octet >> 2));
    let short = match serve(&held.book, &mut records, *signal, payload) {
        Answer::Accept(_) => Short::Accept,
        Answer::Reject(reject) => in_short(*signal, payload, &reject),
        Answer::GeneralReject => Short::GeneralReject,
        Answer::Silent(_) => Short::Silent,
    };
    (*signal, named, short)
}

fn named(held: &Held, records: &[Record], seid: u8) -> Named {
    match held.book.place_of(OurSeid(seid)) {
        Some(place) => Named::Ours(records[place].state, records[place].channel),
        None if seid != 0 && records.iter().any(|record| record.far.0 == seid) => Named::Far,
        None => Named::Nobody,
    }
}

/// The code, with the category where the reject has one (those above 8 are alike), or whether one SEID, two or more were
/// to be started or suspended.
fn in_short(signal: u8, payload: &[u8], reject: &[u8]) -> Short {
    match (signal, reject) {
        (SET_CONFIGURATION | RECONFIGURE, &[category, code]) => Short::Reject(category.min(9), code),
        (START | SUSPEND, &[_, code]) => Short::Reject(payload.len().min(3) as u8, code),
        (_, reject) => Short::Reject(0, reject.last().copied().unwrap_or(0)),
    }
}
