//! What the bursts of a script reach: how many packets, in which areas, what is refused for more than one reason,
//! and what one packet of a burst leaves to the next. A burst is its packets one by one; so they are counted.

use super::{reason, standing, Coverage, Row, Standing};
use crate::bridge::{
    self, size_is_good, Silence, Told, MOST_PACKETS, SMALLEST_BURST_AREA, SMALLEST_REPLY_AREA,
};
use crate::numbers::{Number, AREA, BURST, NOT_LEGAL, SIZE};
use crate::packets::{ACCEPT, END};
use crate::script::{self, Line, Step, MOST_WRITTEN};
use crate::session::{Held, Outcome, Session};

/// Where the start of the gathering came.
#[derive(Clone, Copy, PartialEq, Eq)]
enum Begun {
    /// `gathering` wrote it.
    Saved,
    ByPacket,
    /// In a burst, by its number.
    InBurst(u64),
}

pub struct Bursts {
    begun: Begun,
    /// How many bursts were read so far.
    read: u64,
}

impl Bursts {
    pub fn new() -> Bursts {
        Bursts { begun: Begun::Saved, read: 0 }
    }

    /// One line, what was held before it, the session behind it and what it gave.
    pub fn line(
        &mut self,
        coverage: &mut Coverage,
        line: &[u8],
        held: Option<Held>,
        session: &Session,
        outcome: &Outcome,
    ) {
        match (script::read(line), held) {
            (Line::Step(Step::Packet(packet)), Some(mut held))
                if matches!(outcome, Outcome::Packet(Ok(_))) =>
            {
                self.packet(coverage, &mut held, session.size.into(), &packet, Begun::ByPacket);
            }
            (Line::Step(Step::Burst(packets)), Some(held)) => match outcome {
                Outcome::Burst(Err(number)) => refused(coverage, session, *number, &packets),
                _ => self.burst(coverage, held, session, &packets),
            },
            (Line::Step(Step::Burst(_)), None) => coverage.count(NOT_UNDERSTOOD, BEFORE_A_BOOK),
            (Line::Step(Step::Gathering(_)), _) => self.begun = Begun::Saved,
            (Line::NotUnderstood, Some(_)) => {
                if let Some(flaw) = flaw(line) {
                    coverage.count(NOT_UNDERSTOOD, flaw);
                }
            }
            _ => (),
        }
    }

    /// A packet that is not refused, alone or in a burst. Tells how it was answered.
    fn packet(
        &mut self,
        coverage: &mut Coverage,
        held: &mut Held,
        size: usize,
        packet: &[u8],
        place: Begun,
    ) -> Option<Told> {
        let Held { book, connection, .. } = held;
        let told = bridge::packet(book, size, connection, packet, SMALLEST_REPLY_AREA).ok()?;
        let ended = !matches!(told, Told::Silent(Silence::Part | Silence::Ended(_)));
        match &connection.gathering {
            Some(gathering) if gathering.parts == 1 => self.begun = place,
            None if ended && packet[0] >> 2 & 0x03 == END => {
                if let Some(name) = gathered(self.begun, place) {
                    coverage.count(TAKEN, name);
                }
            }
            _ => (),
        }
        Some(told)
    }

    /// A burst that is not refused.
    fn burst(&mut self, coverage: &mut Coverage, mut held: Held, session: &Session, packets: &[Vec<u8>]) {
        self.read += 1;
        coverage.count(TAKEN, counted(packets.len()));
        coverage.count(
            TAKEN,
            if usize::from(session.area) == SMALLEST_BURST_AREA { JUST_ENOUGH } else { MORE_THAN_ENOUGH },
        );
        if packets.is_empty() && held.connection.gathering.is_some() {
            coverage.count(TAKEN, NONE_IN_GATHERING);
        }
        let size = session.size.into();
        let mut moves: Vec<u8> = Vec::new();
        let mut behind: Option<&str> = None;
        for (number, packet) in packets.iter().enumerate() {
            let before = standing(&held);
            let Some(told) = self.packet(coverage, &mut held, size, packet, Begun::InBurst(self.read)) else {
                continue;
            };
            let after = standing(&held);
            coverage.moves(&before, &after);
            let moved = moved(&before, &after);
            if moved.iter().any(|seid| moves.contains(seid)) {
                coverage.count(TAKEN, MOVED_AGAIN);
            }
            moves.extend(moved);
            behind = match &told {
                Told::Silent(silence) => {
                    coverage.count("silence", reason(*silence));
                    Some(if packet.is_empty() { BEHIND_EMPTY } else { BEHIND_SILENT })
                }
                Told::Reply(reply) => {
                    if let Some(name) = behind {
                        coverage.count(TAKEN, name);
                    }
                    coverage.reply(reply, before != after);
                    if reply.payload.len() > size - 2 {
                        coverage.count(TAKEN, SEVERAL_PACKETS);
                    }
                    if number + 1 == MOST_PACKETS {
                        coverage.count(TAKEN, if before == after { LAST_ANSWERED } else { LAST_MOVES });
                    }
                    match reply.message_type == ACCEPT {
                        true => None,
                        false if before != after => Some(BEHIND_FAILED_START),
                        false => Some(BEHIND_REJECT),
                    }
                }
            };
        }
    }
}

const TAKEN: &str = "bursts";
const REFUSED: &str = "bursts refused";
const NOT_UNDERSTOOD: &str = "bursts not understood";

const NONE_IN_GATHERING: &str = "of no packets, in a gathering";
const JUST_ENOUGH: &str = "area of 1,024";
const MORE_THAN_ENOUGH: &str = "larger area";
const MOVED_AGAIN: &str = "moves an endpoint again";
const BEHIND_EMPTY: &str = "reply behind an empty packet";
const BEHIND_SILENT: &str = "reply behind another silent packet";
const BEHIND_REJECT: &str = "reply behind a reject";
const BEHIND_FAILED_START: &str = "reply behind a reject that moved some";
const SEVERAL_PACKETS: &str = "reply in several packets";
const LAST_ANSWERED: &str = "reply to the sixteenth, which moves nothing";
const LAST_MOVES: &str = "reply to the sixteenth, which moves some";
const BEFORE_A_BOOK: &str = "before a book was accepted";
const BEFORE_THE_FIRST: &str = "octets before the first /";
const NOT_ALONE: &str = "a / that is no word of its own";
const HALF_AN_OCTET: &str = "half an octet";
const TWO_BLANKS: &str = "two blanks in a row";
const TOO_MANY: &str = "41 packets";
const FAR_TOO_MANY: &str = "more than 41 packets";

fn counted(packets: usize) -> &'static str {
    match packets {
        0 => "of no packets",
        1 => "of 1 packet",
        2..=15 => "of 2 to 15 packets",
        16 => "of 16 packets",
        17 => "of 17 packets",
        18..=39 => "of 18 to 39 packets",
        _ => "of 40 packets",
    }
}

/// How a message came whose last packet came here.
fn gathered(begun: Begun, ended: Begun) -> Option<&'static str> {
    match (begun, ended) {
        (Begun::InBurst(first), Begun::InBurst(last)) if first == last => Some("message gathered inside"),
        (Begun::InBurst(_), Begun::InBurst(_)) => Some("message begun in an earlier burst"),
        (Begun::InBurst(_), _) => Some("message ended by a packet"),
        (Begun::ByPacket, Begun::InBurst(_)) => Some("message begun by a packet"),
        (Begun::Saved, Begun::InBurst(_)) => Some("message begun by a saved gathering"),
        _ => None,
    }
}

/// The endpoints that a packet moved.
fn moved(before: &Standing, after: &Standing) -> Vec<u8> {
    after.iter().filter(|endpoint| !before.contains(endpoint)).map(|(seid, _, _)| *seid).collect()
}

fn refused(coverage: &mut Coverage, session: &Session, number: Number, packets: &[Vec<u8>]) {
    let Some(held) = &session.held else {
        return;
    };
    let mut count = |name: &str| coverage.count(REFUSED, format!("{number} {name}"));
    if number == BURST || number == NOT_LEGAL {
        count(counted(packets.len()));
    }
    if number == AREA {
        match session.area {
            0..=63 => count("area below 64"),
            64 => count("area of 64"),
            1023 => count("area of 1,023"),
            _ => (),
        }
        if packets.is_empty() {
            count("of no packets");
        }
    }
    // What counts later.
    if number == SIZE && packets.len() > MOST_PACKETS {
        count("and 13");
    }
    if [SIZE, BURST].contains(&number) && usize::from(session.area) < SMALLEST_BURST_AREA {
        count("and 9");
    }
    if number != NOT_LEGAL && !held.connection.is_legal(&held.book) {
        count("and 12");
    }
    if held.connection.gathering.is_some() {
        count("in a gathering");
    }
    if would_move(held, session.size.into(), packets) {
        count("though it would move some");
    }
}

/// Whether the packets would move an endpoint if none of them were refused.
fn would_move(held: &Held, size: usize, packets: &[Vec<u8>]) -> bool {
    let mut held = held.clone();
    let before = standing(&held);
    let size = if size_is_good(size) { size } else { bridge::LARGEST_SIZE };
    for packet in packets {
        let Held { book, connection, .. } = &mut held;
        let _ = bridge::packet(book, size, connection, packet, SMALLEST_REPLY_AREA);
    }
    before != standing(&held)
}

/// What is wrong with a `burst` that is not understood.
fn flaw(line: &[u8]) -> Option<&'static str> {
    let text = String::from_utf8_lossy(line);
    let text = text.split('#').next()?.trim();
    let mut words = text.split(' ');
    if words.next() != Some("burst") {
        return None;
    }
    let words: Vec<&str> = words.collect();
    let is_hex = |word: &&str| word.bytes().all(|digit| digit.is_ascii_hexdigit());
    let packets = words.iter().filter(|word| **word == "/").count();
    Some(match words[..] {
        _ if words.contains(&"") => TWO_BLANKS,
        _ if words.iter().any(|word| word.len() > 1 && word.contains('/')) => NOT_ALONE,
        _ if words.iter().any(|word| *word != "/" && word.len() == 1 && is_hex(word)) => HALF_AN_OCTET,
        [first, ..] if first.len() == 2 && is_hex(&first) => BEFORE_THE_FIRST,
        _ if packets == MOST_WRITTEN + 1 => TOO_MANY,
        _ if packets > MOST_WRITTEN => FAR_TOO_MANY,
        _ => return None,
    })
}

/// Everything that Q-1 lets a script reach.
pub fn reachable(rows: &mut Vec<Row>) {
    for name in [0, 1, 2, 16].map(counted).into_iter().chain([
        NONE_IN_GATHERING,
        JUST_ENOUGH,
        MORE_THAN_ENOUGH,
        MOVED_AGAIN,
        BEHIND_EMPTY,
        BEHIND_SILENT,
        BEHIND_REJECT,
        BEHIND_FAILED_START,
        SEVERAL_PACKETS,
        LAST_ANSWERED,
        LAST_MOVES,
    ]) {
        rows.push((TAKEN, name.to_string()));
    }
    let (here, earlier) = (Begun::InBurst(2), Begun::InBurst(1));
    for (begun, ended) in [
        (here, here),
        (earlier, here),
        (here, Begun::ByPacket),
        (Begun::ByPacket, here),
        (Begun::Saved, here),
    ] {
        rows.extend(gathered(begun, ended).map(|name| (TAKEN, name.to_string())));
    }
    for (number, names) in [
        (SIZE, &["and 13", "and 9", "and 12", "in a gathering", "though it would move some"][..]),
        (BURST, &["and 9", "and 12", "in a gathering", "though it would move some"]),
        (AREA, &["area below 64", "area of 64", "area of 1,023", "of no packets", "and 12"]),
        (AREA, &["in a gathering", "though it would move some"]),
        (NOT_LEGAL, &["in a gathering"]),
    ] {
        rows.extend(names.iter().map(|name| (REFUSED, format!("{number} {name}"))));
    }
    for (number, packets) in [(BURST, [17, 18, 40]), (NOT_LEGAL, [0, 1, 16])] {
        rows.extend(packets.map(|packets| (REFUSED, format!("{number} {}", counted(packets)))));
    }
    for name in
        [BEFORE_A_BOOK, BEFORE_THE_FIRST, NOT_ALONE, HALF_AN_OCTET, TWO_BLANKS, TOO_MANY, FAR_TOO_MANY]
    {
        rows.push((NOT_UNDERSTOOD, name.to_string()));
    }
}
