//! Random packets: messages cut at any places, and what goes wrong on the way. Document 01, "Packets and messages".

use crate::commands::{DISCOVER, SECURITY_CONTROL};
use crate::packets::{Gathering, Message, COMMAND, CONTINUE, END, LONGEST_PAYLOAD, SINGLE, START};
use crate::rng::Rng;

/// The first octet of a packet.
pub fn head(label: u8, packet_type: u8, message_type: u8) -> u8 {
    label << 4 | packet_type << 2 | message_type
}

/// The packets of a message: one single where it fits, or parts of any lengths, zero included.
pub fn packets(rng: &mut Rng, size: usize, message: &Message) -> Vec<Vec<u8>> {
    let in_one = if message.payload.len() < 400 { 800 } else { 400 };
    if message.payload.len() + 2 <= size && rng.chance(in_one) {
        return vec![single(rng, message)];
    }
    let parts = cut_anywhere(rng, size, &message.payload);
    in_parts(rng, message, &parts)
}

/// A command of as many packets as can be announced, of which all but one bring nothing. It is one that is answered.
pub fn longest_row(rng: &mut Rng, size: usize) -> Vec<Vec<u8>> {
    let signal = rng.pick(&[DISCOVER, SECURITY_CONTROL, 0x0E]);
    let length = rng.below(size - 2);
    let payload = rng.octets(length);
    let mut parts = vec![Vec::new(); 255];
    parts[rng.below(255)] = payload.clone();
    let command = Message { label: rng.octet() & 0x0F, message_type: COMMAND, signal, payload };
    in_parts(rng, &command, &parts)
}

/// The packets that a legal gathering still owes. Together with it their octets come near the most that a message
/// may have, on either side, where the size lets one packet bring them.
pub fn owed(rng: &mut Rng, size: usize, gathering: &Gathering) -> Vec<Vec<u8>> {
    let owed = gathering.count - gathering.parts;
    let missing = LONGEST_PAYLOAD - gathering.octets.len();
    let last = match rng.below(3) {
        0 => rng.below(3),
        _ => (missing + rng.below(3)).saturating_sub(1).min(size - 1),
    };
    let mut packets = Vec::new();
    if rng.chance(250) {
        // One that brings too much comes before the right ones.
        let packet_type = if owed == 1 { END } else { CONTINUE };
        let mut packet = vec![head(gathering.label, packet_type, gathering.message_type)];
        packet.extend(rng.octets((missing + 1).min(size - 1)));
        packets.push(packet);
    }
    for left in (1..=owed).rev() {
        let packet_type = if left == 1 { END } else { CONTINUE };
        let mut packet = vec![head(gathering.label, packet_type, gathering.message_type)];
        if left == 1 {
            packet.extend(rng.octets(last));
        }
        packets.push(packet);
    }
    packets
}

pub fn single(rng: &mut Rng, message: &Message) -> Vec<u8> {
    let mut packet = vec![head(message.label, SINGLE, message.message_type), signal(rng, message)];
    packet.extend(&message.payload);
    packet
}

/// Reserved bits of the signal octet are ignored, so they are set now and then.
fn signal(rng: &mut Rng, message: &Message) -> u8 {
    message.signal | if rng.chance(150) { rng.octet() & 0xC0 } else { 0 }
}

fn cut_anywhere(rng: &mut Rng, size: usize, payload: &[u8]) -> Vec<Vec<u8>> {
    let mut parts: Vec<Vec<u8>> = Vec::new();
    let mut rest = payload;
    let fewest = rng.pick(&[2, 2, 3, 4]);
    while !rest.is_empty() || parts.len() < fewest {
        let room = if parts.is_empty() { size - 3 } else { size - 1 };
        let most = room.min(rest.len());
        let length = match rng.below(4) {
            0 => rng.below(most + 1),
            1 if rest.len() < 40 => rng.below(most.min(3) + 1),
            _ => most,
        };
        parts.push(rest[..length].to_vec());
        rest = &rest[length..];
    }
    parts.truncate(255);
    parts
}

fn in_parts(rng: &mut Rng, message: &Message, parts: &[Vec<u8>]) -> Vec<Vec<u8>> {
    let mut packets = Vec::new();
    for (number, part) in parts.iter().enumerate() {
        let packet_type = match number {
            0 => START,
            _ if number + 1 == parts.len() => END,
            _ => CONTINUE,
        };
        let mut packet = vec![head(message.label, packet_type, message.message_type)];
        if number == 0 {
            packet.extend([parts.len() as u8, signal(rng, message)]);
        }
        packet.extend(part);
        packets.push(packet);
    }
    packets
}

/// One thing goes wrong in a row of packets. `other` is a single that may come in between.
pub fn disturb(rng: &mut Rng, size: usize, packets: &mut Vec<Vec<u8>>, other: Vec<u8>) {
    let place = rng.below(packets.len());
    if rng.chance(300) {
        // The far end gives up soon after.
        packets.truncate(place + 3);
    }
    match rng.below(3) {
        0 => spoil(rng, size, &mut packets[place]),
        1 => {
            let strange = strange(rng, size, &packets[place], other);
            packets.insert(place, strange);
        }
        _ => match rng.below(5) {
            0 => {
                packets.remove(place);
            }
            1 => packets.insert(place, packets[place].clone()),
            2 => packets.swap(place, 0),
            3 => {
                // An end that comes before its time.
                if let [.., early, _] = &mut packets[..] {
                    early[0] |= head(0, END, 0);
                }
            }
            _ => {
                // A count that is not the number of packets.
                if let Some(count) = packets[0].get_mut(1) {
                    *count = rng.pick(&[0, 1, 1, 2, 255, count.wrapping_add(1), count.wrapping_sub(1)]);
                }
            }
        },
    }
}

/// Another label, message type or packet type, or too many octets.
fn spoil(rng: &mut Rng, size: usize, packet: &mut Vec<u8>) {
    match rng.below(5) {
        0 => packet[0] ^= 0x10 << rng.below(4),
        1 => packet[0] ^= 0x01 << rng.below(2),
        2 => packet[0] ^= 0x08,
        3 => packet[0] ^= 0x04,
        _ => {
            let longer = size + 1 - packet.len().min(size);
            packet.extend(rng.octets(longer));
        }
    }
}

/// A packet that does not belong in a row, before the one that does.
fn strange(rng: &mut Rng, size: usize, right: &[u8], other: Vec<u8>) -> Vec<u8> {
    let label = rng.octet() & 0x0F;
    match rng.below(10) {
        0 | 1 => other,
        2 => Vec::new(),
        3 => vec![head(label, SINGLE, COMMAND)],
        4 => vec![head(label, START, COMMAND)],
        5 => vec![head(label, START, COMMAND), 2],
        6 => vec![head(label, START, COMMAND), rng.pick(&[0, 1]), DISCOVER],
        _ => {
            let mut wrong = right.to_vec();
            spoil(rng, size, &mut wrong);
            wrong
        }
    }
}

/// Octets without any plan, of every length up to a little over the size.
pub fn noise(rng: &mut Rng, size: usize) -> Vec<u8> {
    let length = match rng.below(4) {
        0 => rng.below(4),
        1 => rng.between(size.saturating_sub(2), size + 2),
        _ => rng.below(20),
    };
    let mut packet = rng.octets(length);
    if let (Some(first), true) = (packet.first_mut(), rng.chance(700)) {
        *first &= 0xFC;
    }
    packet
}

/// A packet of just the size, or one octet more, that is good but for its length.
pub fn at_the_size(rng: &mut Rng, size: usize) -> Vec<u8> {
    let length = size + rng.below(2);
    let signal = rng.pick(&[0x0E, 0x01, 0x3F, 0x02]);
    let mut packet = vec![head(rng.octet() & 0x0F, SINGLE, 0), signal];
    packet.extend(rng.octets(length - 2));
    packet
}
