//! Packets and messages: document 01, "Packets and messages" (AVDTP 1.3, 8.4). Gathering packets to messages and
//! cutting messages to packets.

pub const LONGEST_PAYLOAD: usize = 512;

pub const COMMAND: u8 = 0;
pub const GENERAL_REJECT: u8 = 1;
pub const ACCEPT: u8 = 2;
pub const REJECT: u8 = 3;

pub const SINGLE: u8 = 0;
pub const START: u8 = 1;
pub const CONTINUE: u8 = 2;
pub const END: u8 = 3;

#[derive(Clone, PartialEq, Eq, Debug)]
pub struct Message {
    pub label: u8,
    pub message_type: u8,
    pub signal: u8,
    pub payload: Vec<u8>,
}

/// A message of which packets are still owed.
#[derive(Clone, PartialEq, Eq, Debug)]
pub struct Gathering {
    pub label: u8,
    pub message_type: u8,
    pub signal: u8,
    pub count: u8,
    pub parts: u8,
    pub octets: Vec<u8>,
}

impl Gathering {
    /// Document 01, "What the host is told", the paragraph on legality.
    pub fn is_legal(&self) -> bool {
        self.octets.len() <= LONGEST_PAYLOAD
            && self.count >= 2
            && self.parts >= 1
            && self.parts < self.count
            && self.label < 16
            && self.message_type < 4
            && self.signal < 64
    }
}

/// Why a packet was neither a good single or start nor the next right one.
#[derive(Clone, Copy, PartialEq, Eq, PartialOrd, Ord, Debug)]
pub enum Flaw {
    Empty,
    LongerThanSize,
    ShortSingle,
    ShortStart,
    StartCount,
    AboveLongestPayload,
    NotNext,
}

pub enum Taken {
    Message(Message),
    /// A start or continue was taken; more is owed.
    Part,
    /// Nothing was taken, and no gathering is left.
    Ended(Flaw),
}

/// One packet. Every packet ends the gathering but the next right one, and a good start makes a new one.
pub fn take(gathering: &mut Option<Gathering>, size: usize, packet: &[u8]) -> Taken {
    let held = gathering.take();
    let Some((&head, behind)) = packet.split_first() else {
        return Taken::Ended(Flaw::Empty);
    };
    if packet.len() > size {
        return Taken::Ended(Flaw::LongerThanSize);
    }
    let label = head >> 4;
    let message_type = head & 0x03;
    match head >> 2 & 0x03 {
        SINGLE => single(label, message_type, behind),
        START => match start(label, message_type, behind) {
            Ok(begun) => {
                *gathering = Some(begun);
                Taken::Part
            }
            Err(flaw) => Taken::Ended(flaw),
        },
        packet_type => match next(held, label, message_type, packet_type, behind) {
            Ok(grown) if grown.parts == grown.count => {
                Taken::Message(Message { label, message_type, signal: grown.signal, payload: grown.octets })
            }
            Ok(grown) => {
                *gathering = Some(grown);
                Taken::Part
            }
            Err(flaw) => Taken::Ended(flaw),
        },
    }
}

fn single(label: u8, message_type: u8, behind: &[u8]) -> Taken {
    let Some((signal, payload)) = behind.split_first() else {
        return Taken::Ended(Flaw::ShortSingle);
    };
    if payload.len() > LONGEST_PAYLOAD {
        return Taken::Ended(Flaw::AboveLongestPayload);
    }
    Taken::Message(Message { label, message_type, signal: signal & 0x3F, payload: payload.to_vec() })
}

fn start(label: u8, message_type: u8, behind: &[u8]) -> Result<Gathering, Flaw> {
    let &[count, signal, ref part @ ..] = behind else {
        return Err(Flaw::ShortStart);
    };
    if count < 2 {
        return Err(Flaw::StartCount);
    }
    if part.len() > LONGEST_PAYLOAD {
        return Err(Flaw::AboveLongestPayload);
    }
    Ok(Gathering { label, message_type, signal: signal & 0x3F, count, parts: 1, octets: part.to_vec() })
}

/// The gathering grown by the next right packet.
fn next(
    held: Option<Gathering>,
    label: u8,
    message_type: u8,
    packet_type: u8,
    part: &[u8],
) -> Result<Gathering, Flaw> {
    let mut grown = held.ok_or(Flaw::NotNext)?;
    let owed = grown.count - grown.parts;
    let due = if owed == 1 { END } else { CONTINUE };
    if grown.label != label || grown.message_type != message_type || packet_type != due {
        return Err(Flaw::NotNext);
    }
    if grown.octets.len() + part.len() > LONGEST_PAYLOAD {
        return Err(Flaw::AboveLongestPayload);
    }
    grown.parts += 1;
    grown.octets.extend_from_slice(part);
    Ok(grown)
}

/// How many packets a payload of this length takes.
pub fn packet_count(size: usize, length: usize) -> usize {
    if length <= size - 2 {
        1
    } else {
        1 + (length - (size - 3)).div_ceil(size - 1)
    }
}

/// One packet of a cut message. The number is below the packet count.
pub fn packet(size: usize, message: &Message, number: usize) -> Vec<u8> {
    let length = message.payload.len();
    let count = packet_count(size, length);
    let head = |packet_type: u8| message.label << 4 | packet_type << 2 | message.message_type;
    if count == 1 {
        return [&[head(SINGLE), message.signal], &message.payload[..]].concat();
    }
    if number == 0 {
        return [&[head(START), count as u8, message.signal], &message.payload[..size - 3]].concat();
    }
    let from = (size - 3) + (number - 1) * (size - 1);
    let to = length.min(from + (size - 1));
    let packet_type = if number + 1 == count { END } else { CONTINUE };
    [&[head(packet_type)], &message.payload[from..to]].concat()
}
