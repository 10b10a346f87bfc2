//! The lines of a random script: steps in the ways that DESIGN, "Replay", lets them be written, and lines that are
//! not understood.

use crate::bridge::Event;
use crate::rng::Rng;
use crate::script::{Step, LONGEST_LINE, MOST_WRITTEN};
use crate::session::{apart, record_words};

/// The step as it is written plainly.
pub fn plain(step: &Step) -> String {
    match step {
        Step::Book(octets) => format!("book{}", apart(octets)),
        Step::Rebook(octets) => format!("rebook{}", apart(octets)),
        Step::Size(size) => format!("size {size}"),
        Step::Area(area) => format!("area {area}"),
        Step::Packet(octets) => format!("packet{}", apart(octets)),
        Step::Burst(packets) => {
            packets.iter().fold("burst".to_string(), |text, packet| text + " /" + &apart(packet))
        }
        Step::Event(Event::Up) => "up".to_string(),
        Step::Event(Event::Down(seid)) => format!("down {}", seid.0),
        Step::Event(Event::Lost) => "lost".to_string(),
        Step::Settings(seid) => format!("settings {}", seid.0),
        Step::Delay(seid) => format!("delay {}", seid.0),
        Step::Status(seid) => format!("status {}", seid.0),
        Step::States => "states".to_string(),
        Step::Count(count) => format!("count {count}"),
        Step::Record(record) => format!("record {}", record_words(record)),
        Step::Gathering(None) => "gathering none".to_string(),
        Step::Gathering(Some(held)) => format!(
            "gathering {} {} {} {} {}{}",
            held.label,
            held.message_type,
            held.signal,
            held.count,
            held.parts,
            apart(&held.octets)
        ),
        Step::Cut { size, message, area, number } => format!(
            "cut {size} {} {} {} {area} {number}{}",
            message.label,
            message.message_type,
            message.signal,
            apart(&message.payload)
        ),
        Step::Explain => "explain".to_string(),
    }
}

/// The step in one of the ways that mean the same.
pub fn written(rng: &mut Rng, step: &Step) -> Vec<u8> {
    let text = plain(step);
    let line = match rng.below(60) {
        0 => small_hex(&text),
        1 => format!("{}{text}{}", ends(rng), ends(rng)),
        2 => format!("{text}{}", rng.pick(&["# said", " # said", "#", "\t#\r", " # packet 10 01"])),
        3 => with_zeros(rng, step, &text),
        4 if rng.chance(100) => {
            let room = LONGEST_LINE.saturating_sub(text.len());
            let filling = rng.pick(&[" ", "\t", "#"]).repeat(room);
            format!("{text}{filling}")
        }
        _ => text,
    };
    line.into_bytes()
}

fn ends(rng: &mut Rng) -> &'static str {
    rng.pick(&["", " ", "\t", "\r", "   ", " \t ", "\r\r", " \r"])
}

/// Hex digits of either case; the words of steps are small already.
fn small_hex(text: &str) -> String {
    text.to_ascii_lowercase()
}

/// Leading zeros before the last number of a step that ends in one.
fn with_zeros(rng: &mut Rng, step: &Step, text: &str) -> String {
    let ends_in_number = matches!(
        step,
        Step::Size(_)
            | Step::Area(_)
            | Step::Event(Event::Down(_))
            | Step::Settings(_)
            | Step::Delay(_)
            | Step::Status(_)
            | Step::Count(_)
    );
    match text.rsplit_once(' ') {
        Some((front, number)) if ends_in_number => {
            let zeros = "0".repeat(rng.pick(&[1, 2, 5, 40]));
            format!("{front} {zeros}{number}")
        }
        _ => text.to_string(),
    }
}

/// A line that is not understood, mostly. `step` is one that could stand here, `seid` one that has a record.
pub fn odd(rng: &mut Rng, step: &Step, seid: u8) -> Vec<u8> {
    let text = plain(step);
    let mut words: Vec<String> = text.split(' ').map(str::to_string).collect();
    let place = rng.below(words.len());
    match rng.below(18) {
        0 | 16 => return unknown_words(rng).as_bytes().to_vec(),
        1 => {
            words.remove(place);
        }
        2 => words.insert(place, rng.pick(&["00", "none", "-", "1", "x"]).to_string()),
        3 => words.insert(place, String::new()),
        4 => words.push(rng.pick(&["0", "0F", "G0", "up", "-", "256"]).to_string()),
        5 => words[place].push(rng.pick(&['0', 'A', 'g', ',', '\t', '-'])),
        6 => {
            words[place].pop();
        }
        7 => words[place] = words[place].to_uppercase(),
        8 => words[place] = rng.pick(&["256", "65536", "70000", "99999999999999999999", "-1"]).to_string(),
        9 => words[place] = rng.pick(&["+1", "0x10", "1.0", "é", "00000000256", "1e1"]).to_string(),
        10 => return joined_by(rng, &words),
        11 => {
            let mut line = text.into_bytes();
            let at = rng.below(line.len() + 1);
            line.insert(at, rng.pick(&[0x00, 0x0B, 0x0C, 0x7F, 0x80, 0xFF]));
            return line;
        }
        12 | 17 => return edge_of_format(rng, seid).into_bytes(),
        13 => {
            words[0] =
                rng.pick(&["packet", "burst", "cut", "record", "gathering", "size", "explain"]).to_string();
        }
        14 => {
            let over = if rng.chance(600) { LONGEST_LINE + 1 - text.len().min(LONGEST_LINE) } else { 0 };
            let filling = rng.pick(&[" ", "\r", "#", "#", "0"]).repeat(over);
            words.last_mut().unwrap().push_str(&filling);
        }
        _ => words.swap(place, 0),
    }
    if words[..] == ["explain"] {
        // A script that is compared with a program that explains must not turn that on.
        words.push("all".to_string());
    }
    words.join(" ").into_bytes()
}

fn unknown_words(rng: &mut Rng) -> &'static str {
    rng.pick(&[
        "Book 48 4C 42",
        "packets 10 01",
        "status",
        "status 1 1",
        "status 256",
        "count",
        "count 1 1",
        "count 256",
        "UP",
        "event up",
        "reset",
        "> 12 01",
        "-",
        "0",
        "settings",
        "gathering",
        "gathering some",
        "gathering none 0",
        "record",
        "explain all",
        "cut",
        "cut 48 1 2 3 64",
        "size 48 48",
        "up 1",
        "lost 1",
        "states 1",
        "down",
        "packet 1",
        "packet 1001",
        "packet / 10 01",
        "burst 10 01",
        "burst 10 / 10 01",
        "burst / 10 01 /20 01",
        "burst / 10 01/ 20 01",
        "burst // 10 01",
        "burst / 10 01 / 2",
        "burst / 1001",
        "burst /  / 10 01",
        "burst / 10  01",
        "bursts / 10 01",
    ])
}

/// The words joined as they must not be.
fn joined_by(rng: &mut Rng, words: &[String]) -> Vec<u8> {
    words.join(rng.pick(&["  ", "\t", " \t", ",", "\r"])).into_bytes()
}

/// Lines at the limits of what `record`, `gathering`, `count`, `packet` and `burst` take, on either side.
fn edge_of_format(rng: &mut Rng, seid: u8) -> String {
    let octets = |count: usize| apart(&vec![0xA5; count]);
    let digits = |count: usize| "5A".repeat(count);
    match rng.below(12) {
        0 => format!("record {seid} idle none 0 - {}", digits(65)),
        1 => format!("record {seid} idle none 0 - {}", digits(64)),
        2 => format!("record {seid} idle none 0 - {}", rng.pick(&["5", "5A5", "5G"])),
        3 => format!("record {seid} gone none 0 - -"),
        4 => format!("record {seid} idle down 0 - -"),
        5 => format!("record {} idle none 0 - -", rng.pick(&[0, 63, 255])),
        6 => format!("gathering 0 0 1 2 1{}", octets(513)),
        7 => {
            rng.pick(&["gathering 0 0 1 256 1", "gathering 256 0 1 2 1", "gathering 0 0 1 2 256"]).to_string()
        }
        8 => format!("count {}", rng.pick(&[255, 256])),
        9 => format!("burst{}", " /".repeat(rng.pick(&[MOST_WRITTEN, MOST_WRITTEN + 1, 1000]))),
        10 => format!("burst /{}", octets((LONGEST_LINE - "burst /".len()) / 3)),
        _ => format!("packet{}", octets(LONGEST_LINE / 3)),
    }
}

/// Lines that are no steps: blank ones and comments.
pub fn blank(rng: &mut Rng) -> &'static str {
    rng.pick(&["", " ", "\t", "\r", "# a comment", "#", "   # packet 10 01", "\t\r "])
}
