//! What a script reaches, counted: each command's accepts and rejects, each call's refusals, the reasons of silence,
//! and the states that endpoints entered. What could be reached and was not is shown as 0 and listed at the end.

mod bursts;

use std::cmp::Ordering;
use std::collections::BTreeMap;
use std::io::{self, BufRead, Write};

use crate::bridge::{Event, Silence, Told};
use crate::commands::AbortFlaw;
use crate::endpoints::{Channel, State};
use crate::input::each_line;
use crate::numbers::{Number, DONE, NOT_LEGAL};
use crate::packets::{Flaw, Message, ACCEPT, GENERAL_REJECT};
use crate::script::{channel_name, state_name};
use crate::session::{Held, Outcome, Session};
use bursts::Bursts;

/// Each row's name in its group, in the order in which the table shows them.
type Row = (&'static str, String);

struct Coverage {
    counts: BTreeMap<Row, u64>,
    order: Vec<Row>,
}

pub fn table(input: impl BufRead, out: &mut impl Write) -> io::Result<()> {
    let mut coverage = Coverage { counts: BTreeMap::new(), order: Vec::new() };
    for row in reachable() {
        coverage.add(row, 0);
    }
    let mut session = Session::new();
    let mut bursts = Bursts::new();
    let mut lost = false;
    each_line(input, |line| {
        let held = session.held.clone();
        let before = held.as_ref().map_or(Vec::new(), standing);
        let outcome = session.line(line);
        let after = session.held.as_ref().map_or(Vec::new(), standing);
        coverage.outcome(&outcome);
        bursts.line(&mut coverage, line, held, &session, &outcome);
        if !matches!(outcome, Outcome::Burst(_)) {
            // A burst's were counted packet by packet.
            coverage.moves(&before, &after);
        }
        if let Some(held) = &session.held {
            coverage.area(held, &outcome);
        }
        if let (Outcome::Status(Ok(_)), true) = (&outcome, lost) {
            coverage.count("questions", "status right after a loss");
        }
        lost = matches!(outcome, Outcome::Event(Event::Lost, DONE));
        if let Outcome::Packet(Ok(Told::Reply(reply))) = &outcome {
            coverage.reply(reply, before != after);
        }
        Ok(())
    })?;
    coverage.write(out)
}

type Standing = Vec<(u8, State, Channel)>;

fn standing(held: &Held) -> Standing {
    held.shown().iter().map(|record| (record.seid.0, record.state, record.channel)).collect()
}

impl Coverage {
    fn add(&mut self, row: Row, count: u64) {
        if !self.counts.contains_key(&row) {
            // Behind its group, so that the table shows each group once.
            let place = self.order.iter().rposition(|earlier| earlier.0 == row.0);
            self.order.insert(place.map_or(self.order.len(), |place| place + 1), row.clone());
        }
        *self.counts.entry(row).or_insert(0) += count;
    }

    fn count(&mut self, group: &'static str, name: impl Into<String>) {
        self.add((group, name.into()), 1);
    }

    fn outcome(&mut self, outcome: &Outcome) {
        match outcome {
            Outcome::Skipped => self.count("lines", "blank or comment"),
            Outcome::NotUnderstood => self.count("lines", "not understood"),
            _ => self.count("lines", "understood"),
        }
        match outcome {
            Outcome::Book(number) => self.call("book", *number),
            Outcome::Rebook(number) => self.call("rebook", *number),
            Outcome::Packet(Err(number)) => self.call("packet", *number),
            Outcome::Packet(Ok(Told::Silent(silence))) => self.count("silence", reason(*silence)),
            Outcome::Packet(Ok(Told::Reply(_))) => self.call("packet", 0),
            Outcome::Burst(answer) => self.call("burst", answer.as_ref().err().copied().unwrap_or(0)),
            Outcome::Event(Event::Up, number) => self.call("up", *number),
            Outcome::Event(Event::Down(_), number) => self.call("down", *number),
            Outcome::Event(Event::Lost, number) => self.call("lost", *number),
            Outcome::Settings(answer) => self.call("settings", answer.as_ref().err().copied().unwrap_or(0)),
            Outcome::Delay(answer) => {
                self.call("delay", answer.err().unwrap_or(0));
                match answer {
                    Ok(Some(_)) => self.count("questions", "delay reported"),
                    Ok(None) => self.count("questions", "delay unreported"),
                    Err(_) => (),
                }
            }
            Outcome::Status(answer) => {
                self.call("status", answer.err().unwrap_or(0));
                if let Ok(status) = answer {
                    let name = format!("{} {}", state_name(status.state), channel_name(status.channel));
                    self.count("status", name);
                }
            }
            Outcome::Cut(answer) => self.call("cut", answer.as_ref().err().copied().unwrap_or(0)),
            Outcome::States(_) => self.count("questions", "states"),
            Outcome::Skipped | Outcome::NotUnderstood | Outcome::Quiet => (),
        }
    }

    fn call(&mut self, call: &str, number: Number) {
        self.count("calls", format!("{call} {number}"));
    }

    /// How the saved count, the book and the records that are shown agree in a call that is given all three.
    fn area(&mut self, held: &Held, outcome: &Outcome) {
        let number = match outcome {
            Outcome::Event(_, number) => *number,
            Outcome::Packet(answer) => answer.as_ref().err().copied().unwrap_or(DONE),
            Outcome::Burst(answer) => answer.as_ref().err().copied().unwrap_or(DONE),
            Outcome::Settings(answer) => answer.as_ref().err().copied().unwrap_or(DONE),
            Outcome::Delay(answer) => answer.err().unwrap_or(DONE),
            Outcome::Status(answer) => answer.err().unwrap_or(DONE),
            _ => return,
        };
        let entries = held.book.entries.len();
        let agrees = match (number, usize::from(held.connection.count).cmp(&entries)) {
            (NOT_LEGAL, Ordering::Less) => FEWER_COUNTED,
            (NOT_LEGAL, Ordering::Greater) => MORE_COUNTED,
            (DONE, _) if entries > held.shown().len() => LEGAL_BEHIND,
            (DONE, _) if entries < held.shown().len() => LEGAL_FEWER,
            _ => return,
        };
        self.count("area", agrees);
    }

    fn moves(&mut self, before: &Standing, after: &Standing) {
        for endpoint in after.iter().filter(|endpoint| !before.contains(endpoint)) {
            let (_, state, channel) = *endpoint;
            let name = format!("{} {}", state_name(state), channel_name(channel));
            let legal = self.counts.contains_key(&("entered", name.clone()));
            self.count(if legal { "entered" } else { "entered by record, not legal" }, name);
        }
    }

    /// A reply tells its command and, in its last octet, the code of a reject.
    fn reply(&mut self, reply: &Message, moved: bool) {
        let command = command_name(reply.signal);
        match (reply.message_type, &reply.payload[..]) {
            (ACCEPT, _) => self.count("commands", format!("{command} accept")),
            (GENERAL_REJECT, _) => self.count("commands", "others general reject"),
            (_, [category, code]) if [0x03, 0x05].contains(&reply.signal) => {
                let category = if *category > 8 { "9..".to_string() } else { category.to_string() };
                self.count("commands", format!("{command} reject {code:02X} category {category}"));
            }
            (_, [.., code]) => {
                let after = if moved { " after some moved" } else { "" };
                self.count("commands", format!("{command} reject {code:02X}{after}"));
            }
            (_, []) => (),
        }
        if reply.payload.len() > 46 {
            self.count("questions", "replies of 47 to 64 octets");
        }
    }

    fn write(&self, out: &mut impl Write) -> io::Result<()> {
        let mut group = "";
        for row in &self.order {
            if row.0 != group {
                group = row.0;
                writeln!(out, "{group}")?;
            }
            writeln!(out, "  {:<44} {:>9}", row.1, self.counts[row])?;
        }
        let missing: Vec<&Row> = self.order.iter().filter(|row| self.counts[row] == 0).collect();
        writeln!(out, "not reached: {}", missing.len())?;
        for (group, name) in missing {
            writeln!(out, "  {group}: {name}")?;
        }
        Ok(())
    }
}

const FEWER_COUNTED: &str = "12, and the count is below the book's";
const MORE_COUNTED: &str = "12, and the count is above the book's";
const LEGAL_BEHIND: &str = "legal, with records behind those shown";
const LEGAL_FEWER: &str = "legal, with fewer records than those shown";

fn command_name(signal: u8) -> &'static str {
    const NAMES: [&str; 14] = [
        "00",
        "01 Discover",
        "02 Get Capabilities",
        "03 Set Configuration",
        "04 Get Configuration",
        "05 Reconfigure",
        "06 Open",
        "07 Start",
        "08 Close",
        "09 Suspend",
        "0A Abort",
        "0B Security Control",
        "0C Get All Capabilities",
        "0D Delay Report",
    ];
    NAMES.get(usize::from(signal)).copied().unwrap_or("others")
}

fn reason(silence: Silence) -> &'static str {
    match silence {
        Silence::Part => "part taken, more owed",
        Silence::NotACommand => "message that is no command",
        Silence::Abort(AbortFlaw::Length) => "abort of wrong length",
        Silence::Abort(AbortFlaw::UnknownSeid) => "abort of unknown SEID",
        Silence::Ended(Flaw::Empty) => "empty packet",
        Silence::Ended(Flaw::LongerThanSize) => "packet longer than the size",
        Silence::Ended(Flaw::ShortSingle) => "single below 2 octets",
        Silence::Ended(Flaw::ShortStart) => "start below 3 octets",
        Silence::Ended(Flaw::StartCount) => "start with a count of 0 or 1",
        Silence::Ended(Flaw::AboveLongestPayload) => "payload above 512",
        Silence::Ended(Flaw::NotNext) => "continue or end that is not next",
    }
}

/// Everything that document 01 and Q-1 let a script reach.
fn reachable() -> Vec<Row> {
    let mut rows: Vec<Row> = Vec::new();
    for name in ["understood", "not understood", "blank or comment"] {
        rows.push(("lines", name.to_string()));
    }
    reachable_commands(&mut rows);
    for (call, numbers) in [
        ("book", &[0, 1, 2, 3, 4, 5, 6, 7][..]),
        ("rebook", &[0, 1, 2, 3, 4, 5, 6, 7]),
        ("packet", &[0, 8, 9, 12]),
        ("burst", &[0, 8, 9, 12, 13]),
        ("up", &[0, 10, 12]),
        ("down", &[0, 10, 12]),
        ("lost", &[0, 12]),
        ("settings", &[0, 10, 12]),
        ("delay", &[0, 10, 12]),
        ("status", &[0, 10, 12]),
        ("cut", &[0, 8, 9, 11]),
    ] {
        rows.extend(numbers.iter().map(|number| ("calls", format!("{call} {number}"))));
    }
    let flaws = [
        Flaw::Empty,
        Flaw::LongerThanSize,
        Flaw::ShortSingle,
        Flaw::ShortStart,
        Flaw::StartCount,
        Flaw::AboveLongestPayload,
        Flaw::NotNext,
    ];
    let silences = [
        Silence::Part,
        Silence::NotACommand,
        Silence::Abort(AbortFlaw::Length),
        Silence::Abort(AbortFlaw::UnknownSeid),
    ];
    for silence in silences.into_iter().chain(flaws.map(Silence::Ended)) {
        rows.push(("silence", reason(silence).to_string()));
    }
    for group in ["entered", "status"] {
        for name in [
            "idle none",
            "configured none",
            "open awaited",
            "open up",
            "streaming up",
            "closing up",
            "aborting up",
        ] {
            rows.push((group, name.to_string()));
        }
    }
    for name in [FEWER_COUNTED, MORE_COUNTED, LEGAL_BEHIND, LEGAL_FEWER] {
        rows.push(("area", name.to_string()));
    }
    for name in [
        "states",
        "delay reported",
        "delay unreported",
        "status right after a loss",
        "replies of 47 to 64 octets",
    ] {
        rows.push(("questions", name.to_string()));
    }
    bursts::reachable(&mut rows);
    rows
}

fn reachable_commands(rows: &mut Vec<Row>) {
    let all = ["0", "1", "2", "3", "4", "5", "6", "7", "8", "9.."];
    for signal in 0x01..=0x0D {
        let command = command_name(signal);
        let mut row = |name: String| rows.push(("commands", format!("{command} {name}")));
        if signal != 0x0B {
            row("accept".to_string());
        }
        let mut by_category = |code: u8, categories: &[&str]| {
            for category in categories {
                row(format!("reject {code:02X} category {category}"));
            }
        };
        match signal {
            0x03 => {
                by_category(0x11, &all);
                by_category(0x12, &["0"]);
                by_category(0x13, &["0"]);
                by_category(0x17, &["0", "9.."]);
                by_category(0x18, &["0", "1", "2", "4", "7", "8"]);
                by_category(0x23, &["1"]);
                by_category(0x25, &["3"]);
                by_category(0x26, &["5"]);
                by_category(0x27, &["4"]);
                by_category(0x28, &["6"]);
                by_category(0x29, &["1", "2", "3", "4", "5", "6", "7", "8"]);
                continue;
            }
            0x05 => {
                by_category(0x11, &all);
                by_category(0x12, &["0"]);
                by_category(0x14, &["0"]);
                by_category(0x31, &["0"]);
                by_category(0x17, &["0", "9.."]);
                by_category(0x1A, &["1", "2", "3", "5", "6", "8"]);
                by_category(0x18, &["4", "7"]);
                by_category(0x27, &["4"]);
                by_category(0x29, &["4", "7"]);
                continue;
            }
            _ => (),
        }
        let codes: &[u8] = match signal {
            0x01 => &[0x11],
            0x02 | 0x0C => &[0x11, 0x12],
            0x0B => &[0x11, 0x12, 0x19],
            0x0D => &[0x11, 0x12, 0x31, 0x19],
            0x0A => &[],
            _ => &[0x11, 0x12, 0x31],
        };
        for code in codes {
            row(format!("reject {code:02X}"));
        }
        if signal == 0x07 || signal == 0x09 {
            row("reject 12 after some moved".to_string());
            row("reject 31 after some moved".to_string());
        }
    }
    rows.push(("commands", "others general reject".to_string()));
}
