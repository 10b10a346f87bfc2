//! Random bursts: how many packets, in how large an area, and what each packet leaves to the next.

use super::parts;
use crate::bridge::{self, SMALLEST_REPLY_AREA};
use crate::commands::DISCOVER;
use crate::packets::SINGLE;
use crate::rng::Rng;
use crate::session::Held;

/// So many octets of packets leave a line room for its other words.
const ROOM: usize = 2600;

/// Rather the most packets that a burst may have, or one more, than any other number; now and then as many as are
/// understood, or one more.
pub fn count(rng: &mut Rng) -> usize {
    match rng.below(24) {
        0 => 0,
        1 | 2 => 1,
        3..=11 => rng.between(2, 6),
        12..=15 => rng.between(7, 15),
        16..=19 => 16,
        20 | 21 => 17,
        22 => rng.between(18, 39),
        _ => rng.pick(&[40, 41]),
    }
}

/// An area with room for a burst's replies, rather just enough.
pub fn area(rng: &mut Rng) -> u16 {
    rng.pick(&[1024, 1024, 1024, 1025, 2000, 65535])
}

/// An area with no room for a burst's replies; most have room for a packet's.
pub fn small_area(rng: &mut Rng) -> u16 {
    rng.pick(&[63, 64, 64, 64, 65, 1023, 1023])
}

/// The burst that is being made.
pub struct Burst {
    pub packets: Vec<Vec<u8>>,
    /// What the packets so far leave behind.
    pub ahead: Held,
    size: usize,
    room: usize,
}

impl Burst {
    pub fn new(held: &Held, size: usize) -> Burst {
        Burst { packets: Vec::new(), ahead: held.clone(), size, room: ROOM }
    }

    /// One more packet. Where the line has no room left for it, a short one comes in its place.
    pub fn push(&mut self, rng: &mut Rng, mut packet: Vec<u8>) {
        if packet.len() > self.room {
            packet = vec![parts::head(rng.octet() & 0x0F, SINGLE, 0), DISCOVER];
        }
        self.room = self.room.saturating_sub(packet.len());
        let Held { book, connection, .. } = &mut self.ahead;
        // Over a connection that is not legal nothing moves, as in the burst itself.
        let _ = bridge::packet(book, self.size, connection, &packet, SMALLEST_REPLY_AREA);
        self.packets.push(packet);
    }
}
