//! Random endpoint books: valid ones, ones with a fault for each number 1 to 7, and ones that relate to a book in
//! use. Document 01, "The endpoint book".

use super::lists::{elements, octets, Elements};
use crate::book::{Book, HIGHEST_SEID, LONGEST_LIST, MARK, MOST_ENTRIES, SINK, VERSION};
use crate::elements::{CODEC, DELAY, PROTECTION, REPORTING, TRANSPORT};
use crate::rng::Rng;

/// A book under construction, in which every rule can be broken.
struct Draft {
    mark: [u8; 3],
    version: [u8; 2],
    /// Where the octet does not tell the number of entries.
    count: Option<u8>,
    entries: Vec<DraftEntry>,
    tail: Vec<u8>,
}

struct DraftEntry {
    seid: u8,
    kind: u8,
    /// Where the octet does not tell the length of the list.
    length: Option<u8>,
    list: Elements,
    /// Octets behind the whole elements.
    ragged: Vec<u8>,
}

impl Draft {
    fn of(entries: Vec<DraftEntry>) -> Draft {
        Draft { mark: MARK, version: VERSION, count: None, entries, tail: Vec::new() }
    }

    fn octets(&self) -> Vec<u8> {
        let mut book = [&self.mark[..], &self.version[..]].concat();
        book.push(self.count.unwrap_or(self.entries.len() as u8));
        for entry in &self.entries {
            let list = [octets(&entry.list), entry.ragged.clone()].concat();
            let length = entry.length.unwrap_or(list.len() as u8);
            book.extend([entry.seid, entry.kind, length]);
            book.extend(list);
        }
        book.extend(&self.tail);
        book
    }
}

pub fn valid(rng: &mut Rng) -> Vec<u8> {
    draft(rng).octets()
}

fn draft(rng: &mut Rng) -> Draft {
    let count = match rng.below(10) {
        0..=5 => rng.between(1, 4),
        6..=8 => rng.between(5, 9),
        _ => rng.pick(&[MOST_ENTRIES, MOST_ENTRIES, 15, 12]),
    };
    let mut seids: Vec<u8> = (1..=HIGHEST_SEID).collect();
    rng.shuffle(&mut seids);
    seids.truncate(count);
    if rng.chance(200) && !seids.contains(&HIGHEST_SEID) {
        seids[0] = HIGHEST_SEID;
    }
    seids.sort();
    Draft::of(seids.into_iter().map(|seid| entry(rng, seid)).collect())
}

fn entry(rng: &mut Rng, seid: u8) -> DraftEntry {
    let media_type = if rng.chance(700) { 0 } else { rng.between(1, 2) as u8 };
    let kind = media_type << 4 | if rng.chance(400) { SINK } else { 0 };
    DraftEntry { seid, kind, length: None, list: offered(rng, media_type), ragged: Vec::new() }
}

fn offered(rng: &mut Rng, media_type: u8) -> Elements {
    let mut list = vec![(TRANSPORT, Vec::new())];
    if rng.chance(300) {
        list.push((REPORTING, Vec::new()));
    }
    for _ in 0..rng.pick(&[0, 0, 1, 1, 2, 3]) {
        let value = match list.last() {
            // Two equal protections are legal (DESIGN, open point 8), and so are near ones.
            Some((PROTECTION, last)) if rng.chance(300) => last.clone(),
            _ => {
                let length = rng.between(2, 5);
                rng.octets(length)
            }
        };
        list.push((PROTECTION, value));
    }
    list.push((CODEC, codec(rng, media_type)));
    if rng.chance(550) {
        list.push((DELAY, Vec::new()));
    }
    lengthen(rng, &mut list);
    list
}

fn codec(rng: &mut Rng, media_type: u8) -> Vec<u8> {
    let mut value = vec![media_type << 4, rng.pick(&[0, 0, 1, 2, 4, 255])];
    match rng.below(4) {
        0 => value.extend([0xFF, 0xFF, 0x02, 0x35]),
        1 => value.extend([0x21, 0x15, 0x02, 0x35]),
        2 => {
            let length = rng.below(8);
            value.extend(rng.octets(length));
        }
        _ => {
            let length = rng.between(1, 6);
            value.extend(rng.octets(length).iter().map(|octet| octet | 0xA5));
        }
    }
    value
}

/// Some lists come near the longest, so that replies of 46 to 64 octets occur.
fn lengthen(rng: &mut Rng, list: &mut Elements) {
    if rng.chance(650) {
        return;
    }
    let goal = match rng.below(3) {
        0 => LONGEST_LIST,
        _ => rng.between(44, LONGEST_LIST),
    };
    let now = octets(list).len();
    let longer = if rng.chance(700) { CODEC } else { PROTECTION };
    let place = list.iter().rposition(|(category, _)| *category == longer);
    if let (Some(place), true) = (place, now < goal) {
        list[place].1.extend(rng.octets(goal - now));
    }
}

/// A book with a fault, sometimes two so that the order of the checks shows.
pub fn damaged(rng: &mut Rng) -> Vec<u8> {
    let mut draft = draft(rng);
    let place = rng.below(draft.entries.len());
    let fault = rng.weighted(&[2, 2, 2, 5, 4, 16, 2]);
    spoil(rng, &mut draft, place, fault);
    if rng.chance(350) {
        // A second one that is looked for next, in the same entry or another.
        let place = if rng.chance(700) { place } else { rng.below(draft.entries.len()) };
        let next = if rng.chance(700) { (fault + 1) % 7 } else { rng.below(7) };
        spoil(rng, &mut draft, place, next);
    }
    let mut book = draft.octets();
    if rng.chance(250) {
        let keep = match rng.below(3) {
            0 => rng.below(8),
            1 => book.len() - rng.between(1, 3),
            _ => rng.below(book.len()),
        };
        book.truncate(keep);
    }
    book
}

/// The faults in the order in which they are looked for.
fn spoil(rng: &mut Rng, draft: &mut Draft, place: usize, fault: usize) {
    match fault {
        0 => draft.mark[rng.below(3)] ^= 1 << rng.below(8),
        1 => draft.version[rng.below(2)] ^= 1 << rng.below(8),
        2 => draft.count = Some(rng.pick(&[0, 17, 17, 255])),
        3 => spoil_seid(rng, &mut draft.entries, place),
        4 => {
            let kind = &mut draft.entries[place].kind;
            match rng.below(2) {
                0 => *kind |= rng.pick(&[0x01, 0x02, 0x04]),
                _ => *kind = rng.pick(&[0x30, 0x38, 0x40, 0x80, 0xF0]),
            }
        }
        5 => spoil_list(rng, &mut draft.entries[place]),
        _ => draft.tail = rng.octets(1),
    }
}

fn spoil_seid(rng: &mut Rng, entries: &mut [DraftEntry], place: usize) {
    match rng.below(3) {
        0 => entries[place].seid = rng.pick(&[0, 63, 64, 255]),
        1 if place > 0 => entries[place].seid = entries[place - 1].seid,
        _ if place > 0 => {
            let low = entries[place].seid;
            entries[place].seid = entries[place - 1].seid;
            entries[place - 1].seid = low;
        }
        _ => entries[place].seid = 0,
    }
}

fn spoil_list(rng: &mut Rng, entry: &mut DraftEntry) {
    let list = &mut entry.list;
    if list.is_empty() {
        return;
    }
    match rng.below(14) {
        0 => list.retain(|(category, _)| *category != TRANSPORT),
        1 => list.retain(|(category, _)| *category != CODEC),
        2 | 13 => {
            // A category twice, in a row or out of its order.
            let place = rng.below(list.len());
            let again = list[place].clone();
            list.insert(if rng.chance(500) { place } else { rng.below(list.len() + 1) }, again);
        }
        3 => {
            let place = list.partition_point(|(category, _)| *category < 4);
            list.insert(place, of_length(rng, &[(3, 3), (3, 3), (3, 0)]));
        }
        4 => {
            let place = list.partition_point(|(category, _)| *category < 7);
            list.insert(place, of_length(rng, &[(5, 1), (6, 1), (6, 2)]));
        }
        5 => list.push(of_length(rng, &[(9, 0), (255, 0), (16, 2)])),
        6 => list.insert(0, (0, Vec::new())),
        7 => {
            // A wrong length of each category.
            let place = rng.below(list.len());
            match list[place].0 {
                PROTECTION | CODEC => list[place].1.truncate(rng.pick(&[0, 1])),
                _ => list[place].1.push(0),
            }
        }
        8 => {
            let codec = list.iter_mut().find(|(category, _)| *category == CODEC);
            if let Some(first) = codec.and_then(|(_, value)| value.first_mut()) {
                *first ^= rng.pick(&[0x01, 0x08, 0x10, 0x20]);
            }
        }
        9 => {
            let over = (LONGEST_LIST + 1).saturating_sub(octets(list).len());
            for (_, value) in list.iter_mut().filter(|(category, _)| *category == CODEC) {
                value.extend(rng.octets(over));
            }
        }
        10 => entry.length = Some(rng.pick(&[65, 66, 128, 255])),
        12 => rng.shuffle(list),
        _ => entry.ragged = rng.pick(&[&[8][..], &[4], &[9], &[8, 1], &[4, 3, 0, 0]]).to_vec(),
    }
}

/// One of these categories, with a value of the length beside it.
fn of_length(rng: &mut Rng, kinds: &[(u8, usize)]) -> (u8, Vec<u8>) {
    let (category, length) = rng.pick(kinds);
    (category, rng.octets(length))
}

/// The octets of a book that was read.
pub fn same(book: &Book) -> Vec<u8> {
    draft_of(book).octets()
}

fn draft_of(book: &Book) -> Draft {
    let entries = book.entries.iter().map(|entry| DraftEntry {
        seid: entry.seid.0,
        kind: entry.kind,
        length: None,
        list: elements(&entry.offered),
        ragged: Vec::new(),
    });
    Draft::of(entries.collect())
}

/// A book of one entry, and the same with a second one; the SEIDs are those that come first.
pub fn growing(rng: &mut Rng) -> (Vec<u8>, Vec<u8>) {
    let mut draft = Draft::of(vec![entry(rng, 1)]);
    let short = draft.octets();
    draft.entries.push(entry(rng, 2));
    (short, draft.octets())
}

/// So many of the first entries of a book as a book.
pub fn front(book: &Book, count: usize) -> Vec<u8> {
    let mut draft = draft_of(book);
    draft.entries.truncate(count);
    draft.octets()
}

/// A valid book, mostly, that differs from the one in use so that a connection saved for that is legal or not.
pub fn related(rng: &mut Rng, book: &Book) -> Vec<u8> {
    let mut draft = draft_of(book);
    let entries = &mut draft.entries;
    let place = rng.below(entries.len());
    match rng.below(8) {
        0 => entries[place].kind ^= SINK,
        1 => {
            let list = &mut entries[place].list;
            match list.last() {
                Some((DELAY, _)) => {
                    list.pop();
                }
                _ => list.push((DELAY, Vec::new())),
            }
        }
        2 => {
            for (_, value) in entries[place].list.iter_mut().filter(|(category, _)| *category == CODEC) {
                if let Some(octet) = value.get_mut(2) {
                    *octet ^= rng.octet();
                }
            }
        }
        3 => entries[place].list.retain(|(category, _)| *category != PROTECTION),
        4 => entries[place].list.retain(|(category, _)| *category != REPORTING),
        5 if entries.len() > 1 => {
            // Without the last entry the others still are as the records are.
            let gone = if rng.chance(500) { entries.len() - 1 } else { place };
            entries.remove(gone);
        }
        6 => {
            let lowest = if place == 0 { 1 } else { entries[place - 1].seid + 1 };
            entries[place].seid = rng.between(lowest.into(), entries[place].seid.into()) as u8;
        }
        7 => {
            let seid = entries.last().map_or(1, |last| last.seid + 1);
            entries.push(entry(rng, seid));
        }
        _ => (),
    }
    draft.octets()
}
