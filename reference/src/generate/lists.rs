//! Random element lists for commands and records: right ones, and ones with the faults of document 01, "Elements".

use crate::elements::{
    append, whole, CODEC, COMPRESSION, DELAY, MULTIPLEXING, PROTECTION, RECOVERY, REPORTING, TRANSPORT,
};
use crate::rng::Rng;

/// A list under construction: categories and values.
pub type Elements = Vec<(u8, Vec<u8>)>;

pub fn octets(list: &Elements) -> Vec<u8> {
    let mut octets = Vec::new();
    for (category, value) in list {
        append(&mut octets, *category, value);
    }
    octets
}

pub fn elements(list: &[u8]) -> Elements {
    whole(list).map(|element| (element.category, element.value.to_vec())).collect()
}

/// Elements that Set Configuration accepts, categories ascending, the codec's reserved nibble zero.
pub fn configuration(rng: &mut Rng, offered: &[u8]) -> Elements {
    let mut list = Elements::new();
    for (category, value) in elements(offered) {
        let again = list.last().is_some_and(|(last, _)| *last == category);
        match category {
            TRANSPORT => list.push((category, value)),
            CODEC => list.push((category, codec(rng, &value))),
            // One of several listed protections, or none.
            PROTECTION if again && rng.chance(500) => *list.last_mut().unwrap() = (category, value),
            PROTECTION if again => (),
            DELAY if rng.chance(750) => list.push((category, value)),
            _ if rng.chance(500) => list.push((category, value)),
            _ => (),
        }
    }
    list
}

/// A codec with some of the offered bits.
fn codec(rng: &mut Rng, offered: &[u8]) -> Vec<u8> {
    let mut value = offered.to_vec();
    let all = rng.chance(300);
    for octet in value.iter_mut().skip(2).filter(|_| !all) {
        *octet &= rng.octet();
    }
    value
}

/// The same elements as a command may bring them: in any order, reserved bits set.
pub fn as_sent(rng: &mut Rng, mut list: Elements) -> Elements {
    if rng.chance(500) {
        rng.shuffle(&mut list);
    }
    for (category, value) in &mut list {
        if *category == CODEC && rng.chance(300) {
            value[0] |= rng.octet() & 0x0F;
        }
    }
    list
}

/// Elements that Reconfigure accepts.
pub fn reconfiguration(rng: &mut Rng, offered: &[u8]) -> Elements {
    let mut list: Elements = configuration(rng, offered)
        .into_iter()
        .filter(|(category, _)| *category == PROTECTION || *category == CODEC)
        .collect();
    if list.len() > 1 && rng.chance(500) {
        list.remove(rng.below(list.len()));
    }
    list
}

/// Puts one fault, mostly, into a command's elements.
pub fn damage(rng: &mut Rng, list: &mut Elements) {
    let place = rng.below(list.len() + 1);
    match rng.below(9) {
        0 => list.retain(|(category, _)| *category != TRANSPORT),
        1 => list.retain(|(category, _)| *category != CODEC),
        2 => repeat(rng, list),
        3 => {
            let category = rng.pick(&[0, 0, 9, 9, 10, 128, 255]);
            let length = rng.below(3);
            list.insert(place, (category, rng.octets(length)));
        }
        4 => list.insert(place, unserved(rng)),
        5 => list.insert(place, of_wrong_length(rng)),
        6 => {
            let (category, length) = rng.pick(&[(REPORTING, 0), (DELAY, 0), (PROTECTION, 2)]);
            list.insert(place, (category, rng.octets(length)));
        }
        7 => spoil(rng, list, CODEC),
        _ => spoil(rng, list, PROTECTION),
    }
}

/// Lists an element a second time, whole or too short, so that the order of the two checks shows.
fn repeat(rng: &mut Rng, list: &mut Elements) {
    if list.is_empty() {
        return;
    }
    let (category, mut value) = list[rng.below(list.len())].clone();
    match rng.below(4) {
        0 => value.truncate(1),
        1 => value.push(rng.octet()),
        _ => (),
    }
    list.insert(rng.below(list.len() + 1), (category, value));
}

/// Categories that no book has, of right length.
fn unserved(rng: &mut Rng) -> (u8, Vec<u8>) {
    let (category, length) =
        rng.pick(&[(RECOVERY, 3), (COMPRESSION, 1), (MULTIPLEXING, 1), (MULTIPLEXING, 3)]);
    (category, rng.octets(length))
}

fn of_wrong_length(rng: &mut Rng) -> (u8, Vec<u8>) {
    let (category, length) = rng.pick(&[
        (TRANSPORT, 1),
        (TRANSPORT, 2),
        (REPORTING, 1),
        (REPORTING, 1),
        (RECOVERY, 2),
        (RECOVERY, 4),
        (RECOVERY, 4),
        (PROTECTION, 0),
        (PROTECTION, 1),
        (COMPRESSION, 0),
        (COMPRESSION, 2),
        (MULTIPLEXING, 0),
        (CODEC, 0),
        (CODEC, 1),
        (DELAY, 1),
        (DELAY, 1),
    ]);
    (category, rng.octets(length))
}

/// Makes a codec or a protection one that is not offered, mostly.
fn spoil(rng: &mut Rng, list: &mut Elements, category: u8) {
    let Some((_, value)) = list.iter_mut().find(|(found, _)| *found == category) else {
        list.push((category, rng.octets(2)));
        return;
    };
    if value.len() < 2 {
        value.push(0);
        return;
    }
    match rng.below(8) {
        0 => value.push(0),
        1 if value.len() > 2 => value.truncate(value.len() - 1),
        4 | 5 if value.len() > 2 => value[2] |= 1 << rng.below(8),
        2 => value[0] ^= rng.pick(&[0x10, 0x20, 0x40, 0x80]),
        3 => value[1] ^= 1 << rng.below(8),
        _ => {
            let at = rng.below(value.len());
            value[at] ^= 1 << rng.below(8);
        }
    }
}

/// Cuts the octets of a list short, or lets a lone or an overlong element end it.
pub fn cut_short(rng: &mut Rng, octets: &mut Vec<u8>) {
    let category = if rng.chance(800) { rng.below(10) as u8 } else { rng.octet() };
    match rng.below(3) {
        0 if !octets.is_empty() => {
            let keep = octets.len() - rng.between(1, octets.len().min(8));
            octets.truncate(keep);
        }
        1 => octets.push(category),
        _ => {
            let length = rng.between(1, 5);
            let some = rng.below(length);
            octets.extend([category, length as u8]);
            octets.extend(rng.octets(some));
        }
    }
}
