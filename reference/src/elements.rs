//! Lists of elements: document 01, "The endpoint book" (what a list is) and "Elements" (the checks of a command's
//! list and what is stored of it).

use crate::codes::*;

pub const TRANSPORT: u8 = 1;
pub const REPORTING: u8 = 2;
pub const RECOVERY: u8 = 3;
pub const PROTECTION: u8 = 4;
pub const COMPRESSION: u8 = 5;
pub const MULTIPLEXING: u8 = 6;
pub const CODEC: u8 = 7;
pub const DELAY: u8 = 8;

#[derive(Clone, Copy)]
pub struct Element<'a> {
    pub category: u8,
    pub value: &'a [u8],
}

/// What stands at the front of a list that is not empty.
pub enum Item<'a> {
    Whole(Element<'a>),
    /// The list ends inside this element; its first octet is kept because a reject names it (DESIGN, open point 1).
    Short(u8),
}

pub struct Items<'a> {
    rest: &'a [u8],
}

pub fn items(list: &[u8]) -> Items<'_> {
    Items { rest: list }
}

impl<'a> Iterator for Items<'a> {
    type Item = Item<'a>;

    fn next(&mut self) -> Option<Item<'a>> {
        let (&category, after) = self.rest.split_first()?;
        if let Some((&length, values)) = after.split_first() {
            if let Some((value, rest)) = values.split_at_checked(usize::from(length)) {
                self.rest = rest;
                return Some(Item::Whole(Element { category, value }));
            }
        }
        self.rest = &[];
        Some(Item::Short(category))
    }
}

/// The whole elements of a list that is known to be well formed (a book's, or a stored configuration).
pub fn whole(list: &[u8]) -> impl Iterator<Item = Element<'_>> {
    items(list).filter_map(|item| match item {
        Item::Whole(element) => Some(element),
        Item::Short(_) => None,
    })
}

pub fn has(list: &[u8], category: u8) -> bool {
    whole(list).any(|element| element.category == category)
}

/// Writes one element at the end of a list.
pub fn append(list: &mut Vec<u8>, category: u8, value: &[u8]) {
    list.push(category);
    list.push(value.len() as u8);
    list.extend_from_slice(value);
}

/// A reject of Set Configuration or Reconfigure: the category that failed and the code.
#[derive(Clone, Copy, PartialEq, Eq, Debug)]
pub struct Failure {
    pub category: u8,
    pub code: u8,
}

/// Document 01, "Elements": the code of a wrong length, if it is wrong.
pub fn length_fault(category: u8, length: usize) -> Option<u8> {
    match category {
        TRANSPORT if length != 0 => Some(BAD_MEDIA_TRANSPORT_FORMAT),
        REPORTING | DELAY if length != 0 => Some(BAD_PAYLOAD_FORMAT),
        RECOVERY if length != 3 => Some(BAD_RECOVERY_FORMAT),
        PROTECTION if length < 2 => Some(BAD_CP_FORMAT),
        COMPRESSION if length != 1 => Some(BAD_ROHC_FORMAT),
        MULTIPLEXING if length == 0 => Some(BAD_MULTIPLEXING_FORMAT),
        CODEC if length < 2 => Some(BAD_PAYLOAD_FORMAT),
        _ => None,
    }
}

/// Document 01, "Elements": whether the entry's list offers this element.
fn is_offered(offered: &[u8], element: Element) -> bool {
    whole(offered).filter(|listed| listed.category == element.category).any(|listed| match element.category {
        PROTECTION => listed.value == element.value,
        CODEC => codec_is_offered(listed.value, element.value),
        _ => true,
    })
}

/// The media type is the high nibble of the first octet; the low nibble is reserved and does not count.
fn codec_is_offered(listed: &[u8], asked: &[u8]) -> bool {
    listed.len() == asked.len()
        && listed[0] >> 4 == asked[0] >> 4
        && listed[1] == asked[1]
        && listed[2..].iter().zip(&asked[2..]).all(|(listed, asked)| asked & !listed == 0)
}

/// Which command's elements are checked; Reconfigure has one check more.
#[derive(Clone, Copy, PartialEq, Eq)]
enum Use {
    SetConfiguration,
    Reconfigure,
}

/// Document 01, "Elements": left to right, the first failure counts.
fn check<'a>(offered: &[u8], list: &'a [u8], used_by: Use) -> Result<Vec<Element<'a>>, Failure> {
    let mut seen: Vec<Element> = Vec::new();
    for item in items(list) {
        let element = match item {
            Item::Whole(element) => element,
            Item::Short(category) => return Err(Failure { category, code: BAD_LENGTH }),
        };
        let category = element.category;
        let fail = |code| Err(Failure { category, code });
        if category == 0 || category > 8 {
            return fail(BAD_SERV_CATEGORY);
        }
        if used_by == Use::Reconfigure && category != PROTECTION && category != CODEC {
            return fail(INVALID_CAPABILITIES);
        }
        if seen.iter().any(|earlier| earlier.category == category) {
            return fail(BAD_PAYLOAD_FORMAT);
        }
        if let Some(code) = length_fault(category, element.value.len()) {
            return fail(code);
        }
        if !is_offered(offered, element) {
            return fail(UNSUPPORTED_CONFIGURATION);
        }
        seen.push(element);
    }
    Ok(seen)
}

/// A configuration is stored with categories ascending and the reserved nibble of the codec's first octet zero.
fn store(mut elements: Vec<Element>) -> Vec<u8> {
    elements.sort_by_key(|element| element.category);
    let mut list = Vec::new();
    for element in elements {
        let at = list.len() + 2;
        append(&mut list, element.category, element.value);
        if element.category == CODEC {
            list[at] &= 0xF0;
        }
    }
    list
}

/// What Set Configuration stores of its elements, or why it rejects them.
pub fn configuration(offered: &[u8], list: &[u8]) -> Result<Vec<u8>, Failure> {
    let elements = check(offered, list, Use::SetConfiguration)?;
    for category in [TRANSPORT, CODEC] {
        if !elements.iter().any(|element| element.category == category) {
            return Err(Failure { category, code: UNSUPPORTED_CONFIGURATION });
        }
    }
    Ok(store(elements))
}

/// What Reconfigure stores: each element takes the place of the old one of its category, or is added.
pub fn reconfiguration(offered: &[u8], old: &[u8], list: &[u8]) -> Result<Vec<u8>, Failure> {
    let mut elements = check(offered, list, Use::Reconfigure)?;
    let kept: Vec<Element> =
        whole(old).filter(|old| elements.iter().all(|new| new.category != old.category)).collect();
    elements.extend(kept);
    Ok(store(elements))
}

/// Document 01, legality: "a configuration that Set Configuration could have stored". Storing such a list again
/// gives the same octets, and a list that stores as itself can be sent, so the two say the same.
pub fn is_storable(offered: &[u8], list: &[u8]) -> bool {
    configuration(offered, list).is_ok_and(|stored| stored == list)
}
