//! Random `cut` steps around every limit of document 01's "Cutting" and of its refusals 8, 11 and 9.

use crate::bridge::size_is_good;
use crate::packets::{packet_count, Message};
use crate::rng::Rng;
use crate::script::Step;

pub fn cut(rng: &mut Rng) -> Step {
    let size = match rng.below(10) {
        0 => rng.pick(&[0, 1, 2, 47, 47, 673, 673, 65535]),
        1..=5 => rng.between(48, 56),
        6 => 672,
        _ => rng.between(48, 672),
    };
    let length = payload_length(rng, size);
    // With a wrong size a wrong label shows which counts first.
    let wrong = if size_is_good(size) { 60 } else { 200 };
    let message = Message {
        label: if rng.chance(wrong) { rng.pick(&[16, 16, 255]) } else { rng.between(0, 15) as u8 },
        message_type: if rng.chance(wrong) { rng.pick(&[4, 4, 255]) } else { rng.between(0, 3) as u8 },
        signal: if rng.chance(wrong) { rng.pick(&[64, 64, 255]) } else { rng.between(0, 63) as u8 },
        payload: rng.octets(length),
    };
    let count = if size_is_good(size) { packet_count(size, length) } else { 1 };
    let number = match rng.below(12) {
        0 => count,
        1 => count - 1,
        2 => rng.pick(&[0, 65535, 256]),
        _ => rng.below(count),
    };
    let area = match rng.below(5) {
        0 => rng.pick(&[0, 1, 65535]),
        1 | 2 if size_is_good(size) && number < count => {
            crate::packets::packet(size, &message, number).len() - rng.below(2)
        }
        _ => size,
    };
    Step::Cut { size: size as u16, message, area: area as u16, number: number as u16 }
}

/// Around the ends of packets, around 512, or anything.
fn payload_length(rng: &mut Rng, size: usize) -> usize {
    match rng.below(8) {
        0..=3 if size_is_good(size) => {
            let packets = rng.below(5);
            let full = if packets == 0 { size - 2 } else { size - 3 + packets * (size - 1) };
            match full + rng.pick(&[0, 0, 1, 2]) - rng.below(2) {
                length if length <= 512 => length,
                _ => rng.below(513),
            }
        }
        4 => rng.pick(&[512, 512, 513, 514, 600]),
        5 => rng.below(4),
        _ => rng.below(513),
    }
}
