//! The endpoint book, read only: document 01, "The endpoint book". Its order of checks stands in "What the host is
//! told".

use crate::elements::{has, items, length_fault, Item, CODEC, DELAY, PROTECTION, REPORTING, TRANSPORT};
use crate::numbers::*;

pub const MARK: [u8; 3] = *b"HLB";
pub const VERSION: [u8; 2] = [0, 1];
pub const MOST_ENTRIES: usize = 16;
pub const HIGHEST_SEID: u8 = 62;
pub const LONGEST_LIST: usize = 64;
pub const SINK: u8 = 0x08;

/// A SEID that this side counts; the far end's are another type (document 01: counted separately).
#[derive(Clone, Copy, PartialEq, Eq, PartialOrd, Ord, Debug)]
pub struct OurSeid(pub u8);

#[derive(Clone)]
pub struct Entry {
    pub seid: OurSeid,
    pub kind: u8,
    pub offered: Vec<u8>,
}

impl Entry {
    pub fn is_source(&self) -> bool {
        self.kind & SINK == 0
    }
}

#[derive(Clone)]
pub struct Book {
    pub entries: Vec<Entry>,
}

impl Book {
    pub fn place_of(&self, seid: OurSeid) -> Option<usize> {
        self.entries.iter().position(|entry| entry.seid == seid)
    }
}

pub fn read(octets: &[u8]) -> Result<Book, Number> {
    if octets.len() < 6 {
        return Err(BOOK_LENGTH);
    }
    if octets[..3] != MARK {
        return Err(BOOK_MARK);
    }
    if octets[3..5] != VERSION {
        return Err(BOOK_VERSION);
    }
    let count = usize::from(octets[5]);
    if !(1..=MOST_ENTRIES).contains(&count) {
        return Err(BOOK_COUNT);
    }
    let mut entries: Vec<Entry> = Vec::new();
    let mut rest = &octets[6..];
    for _ in 0..count {
        let before = entries.last().map(|entry| entry.seid);
        let (entry, behind) = read_entry(rest, before)?;
        entries.push(entry);
        rest = behind;
    }
    if !rest.is_empty() {
        return Err(BOOK_LENGTH);
    }
    Ok(Book { entries })
}

/// One entry and the octets behind it.
fn read_entry(octets: &[u8], before: Option<OurSeid>) -> Result<(Entry, &[u8]), Number> {
    let &[seid, kind, length, ref behind @ ..] = octets else {
        return Err(BOOK_LENGTH);
    };
    if !(1..=HIGHEST_SEID).contains(&seid) {
        return Err(BOOK_SEID);
    }
    if before.is_some_and(|before| OurSeid(seid) <= before) {
        return Err(BOOK_SEID);
    }
    if kind >> 4 > 2 || kind & 0x07 != 0 {
        return Err(BOOK_KIND);
    }
    let length = usize::from(length);
    if length > LONGEST_LIST {
        return Err(BOOK_LIST);
    }
    let Some((offered, behind)) = behind.split_at_checked(length) else {
        return Err(BOOK_LENGTH);
    };
    if !is_bookable(offered, kind >> 4) {
        return Err(BOOK_LIST);
    }
    Ok((Entry { seid: OurSeid(seid), kind, offered: offered.to_vec() }, behind))
}

/// The rules of a list in a book.
fn is_bookable(list: &[u8], media_type: u8) -> bool {
    let mut last = 0;
    for item in items(list) {
        let Item::Whole(element) = item else {
            return false;
        };
        let category = element.category;
        if ![TRANSPORT, REPORTING, PROTECTION, CODEC, DELAY].contains(&category) {
            return false;
        }
        if category < last {
            return false;
        }
        if category == last && category != PROTECTION {
            return false;
        }
        if length_fault(category, element.value.len()).is_some() {
            return false;
        }
        if category == CODEC && element.value[0] != media_type << 4 {
            return false;
        }
        last = category;
    }
    has(list, TRANSPORT) && has(list, CODEC)
}
