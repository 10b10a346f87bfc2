//! What `bin/bench` compares the library with: the reference with the same duties, the book judged at every call.
//!
//! `bench --trace` writes the steps of a script, from standard input, as a trace (its form: bench/bench.c). Lines that
//! overwrite or show the saved connection, and lines that are not understood, are left out; `explain`, which no call hangs
//! on, stands for "measure from here on".
//! `bench --count TRACE` counts the calls of a trace.
//! `bench TRACE TURNS` makes the calls of a trace TURNS times over.
#![allow(dead_code)]

#[path = "../book.rs"]
mod book;
#[path = "../bridge.rs"]
mod bridge;
#[path = "../codes.rs"]
mod codes;
#[path = "../commands.rs"]
mod commands;
#[path = "../elements.rs"]
mod elements;
#[path = "../endpoints.rs"]
mod endpoints;
#[path = "../input.rs"]
mod input;
#[path = "../numbers.rs"]
mod numbers;
#[path = "../packets.rs"]
mod packets;
#[path = "../script.rs"]
mod script;

use std::env;
use std::fs;
use std::hint::black_box;
use std::io::{self, BufWriter, Write};

use book::OurSeid;
use bridge::{Event, Status, Told};
use endpoints::Connection;
use numbers::Number;
use packets::Message;
use script::{Line, Step};

fn main() -> io::Result<()> {
    let words: Vec<String> = env::args().skip(1).collect();
    let words: Vec<&str> = words.iter().map(String::as_str).collect();
    match words[..] {
        ["--trace"] => write_trace(),
        ["--count", trace] => {
            let octets = fs::read(trace)?;
            println!("{}", read_trace(&octets).iter().filter(|call| call.is_call()).count());
            Ok(())
        }
        [trace, turns] => {
            let octets = fs::read(trace)?;
            println!("{}", run(&read_trace(&octets), turns.parse().map_err(io::Error::other)?));
            Ok(())
        }
        _ => Err(io::Error::other("usage: bench --trace | bench --count TRACE | bench TRACE TURNS")),
    }
}

// ---- Traces

fn write_trace() -> io::Result<()> {
    let mut out = BufWriter::new(io::stdout().lock());
    input::each_line(io::stdin().lock(), |line| match script::read(line) {
        Line::Step(step) => write_step(&mut out, step),
        _ => Ok(()),
    })?;
    out.flush()
}

fn write_step(out: &mut impl Write, step: Step) -> io::Result<()> {
    let (kind, numbers, octets): (u8, [u16; 6], Vec<u8>) = match step {
        Step::Book(octets) => (0, [0; 6], octets),
        Step::Rebook(octets) => (1, [0; 6], octets),
        Step::Size(size) => (2, [size, 0, 0, 0, 0, 0], Vec::new()),
        Step::Area(area) => (3, [area, 0, 0, 0, 0, 0], Vec::new()),
        Step::Packet(octets) => (4, [0; 6], octets),
        Step::Event(Event::Up) => (5, [0; 6], Vec::new()),
        Step::Event(Event::Down(seid)) => (6, [seid.0.into(), 0, 0, 0, 0, 0], Vec::new()),
        Step::Event(Event::Lost) => (7, [0; 6], Vec::new()),
        Step::Settings(seid) => (8, [seid.0.into(), 0, 0, 0, 0, 0], Vec::new()),
        Step::Delay(seid) => (9, [seid.0.into(), 0, 0, 0, 0, 0], Vec::new()),
        Step::Cut { size, message: m, area, number } => {
            (10, [size, m.label.into(), m.message_type.into(), m.signal.into(), area, number], m.payload)
        }
        Step::Explain => (11, [0; 6], Vec::new()),
        Step::Status(seid) => (12, [seid.0.into(), 0, 0, 0, 0, 0], Vec::new()),
        Step::Burst(packets) => (13, [packets.len() as u16, 0, 0, 0, 0, 0], lengths_and_octets(&packets)),
        Step::States | Step::Count(_) | Step::Record(_) | Step::Gathering(_) => return Ok(()),
    };
    out.write_all(&[kind])?;
    for number in numbers {
        out.write_all(&number.to_le_bytes())?;
    }
    out.write_all(&(octets.len() as u16).to_le_bytes())?;
    out.write_all(&octets)
}

/// The length of each packet, two octets, the low one first; behind them the packets, one behind the other.
fn lengths_and_octets(packets: &[Vec<u8>]) -> Vec<u8> {
    let lengths = packets.iter().flat_map(|packet| (packet.len() as u16).to_le_bytes());
    lengths.chain(packets.concat()).collect()
}

enum Call<'a> {
    Book(&'a [u8]),
    Rebook(&'a [u8]),
    Size(usize),
    Area(usize),
    Packet(&'a [u8]),
    Burst(Vec<Vec<u8>>),
    Event(Event),
    Settings(OurSeid),
    Delay(OurSeid),
    Status(OurSeid),
    Cut { size: usize, message: Message, area: usize, number: usize },
    Measure,
}

impl Call<'_> {
    fn is_call(&self) -> bool {
        !matches!(self, Call::Size(_) | Call::Area(_) | Call::Measure)
    }
}

fn read_trace(mut octets: &[u8]) -> Vec<Call<'_>> {
    let mut calls = Vec::new();
    while let [kind, rest @ ..] = octets {
        let pair = |i: usize| u16::from_le_bytes([rest[2 * i], rest[2 * i + 1]]);
        let length = usize::from(pair(6));
        let (own, behind) = rest[14..].split_at(length);
        let seid = OurSeid(pair(0) as u8);
        calls.push(match kind {
            0 => Call::Book(own),
            1 => Call::Rebook(own),
            2 => Call::Size(pair(0).into()),
            3 => Call::Area(pair(0).into()),
            4 => Call::Packet(own),
            5 => Call::Event(Event::Up),
            6 => Call::Event(Event::Down(seid)),
            7 => Call::Event(Event::Lost),
            8 => Call::Settings(seid),
            9 => Call::Delay(seid),
            11 => Call::Measure,
            12 => Call::Status(seid),
            13 => Call::Burst(packets_of(own, pair(0).into())),
            _ => Call::Cut {
                size: pair(0).into(),
                message: Message {
                    label: pair(1) as u8,
                    message_type: pair(2) as u8,
                    signal: pair(3) as u8,
                    payload: own.to_vec(),
                },
                area: pair(4).into(),
                number: pair(5).into(),
            },
        });
        octets = behind;
    }
    calls
}

/// The packets of a burst: the lengths stand first.
fn packets_of(octets: &[u8], count: usize) -> Vec<Vec<u8>> {
    let (lengths, mut rest) = octets.split_at(2 * count);
    let mut packets = Vec::new();
    for length in lengths.chunks(2) {
        let (packet, behind) = rest.split_at(usize::from(u16::from_le_bytes([length[0], length[1]])));
        packets.push(packet.to_vec());
        rest = behind;
    }
    packets
}

// ---- The calls

struct Host<'a> {
    book: &'a [u8],
    connection: Connection,
    size: usize,
    area: usize,
}

fn run(calls: &[Call], turns: u64) -> u64 {
    let mut host = Host { book: &[], connection: Connection::zero(), size: 672, area: 64 };
    let mut sum = 0;
    for _ in 0..turns {
        let mut measuring = false;
        for call in calls {
            match call {
                Call::Measure => measuring = true,
                call if measuring => sum += measured(&mut host, call),
                call => sum += host.call(call),
            }
        }
    }
    sum
}

/// The function in which the instructions are counted.
#[no_mangle]
#[inline(never)]
fn measured<'a>(host: &mut Host<'a>, call: &Call<'a>) -> u64 {
    host.call(call)
}

impl<'a> Host<'a> {
    fn call(&mut self, call: &Call<'a>) -> u64 {
        match call {
            Call::Book(octets) => {
                if let Ok(book) = book::read(octets) {
                    self.connection.refresh(&book);
                    self.book = octets;
                }
                0
            }
            Call::Rebook(octets) => {
                if book::read(octets).is_ok() {
                    self.book = octets;
                }
                0
            }
            Call::Size(size) => {
                self.size = *size;
                0
            }
            Call::Area(area) => {
                self.area = *area;
                0
            }
            Call::Packet(packet) => told(self.packet(packet)),
            Call::Burst(packets) => told(self.burst(packets)),
            Call::Event(event) => match book::read(self.book) {
                Ok(book) => bridge::event(&book, &mut self.connection, *event).into(),
                Err(number) => number.into(),
            },
            Call::Settings(seid) => told(self.settings(*seid)),
            Call::Delay(seid) => match self.delay(*seid) {
                Ok(tenths) => tenths.unwrap_or(0).into(),
                Err(_) => 0,
            },
            Call::Status(seid) => match self.status(*seid) {
                Ok(status) => status.state as u64 + status.channel as u64 + u64::from(status.far.0),
                Err(number) => number.into(),
            },
            Call::Cut { size, message, area, number } => match bridge::cut(*size, message, *number, *area) {
                Ok(packet) => black_box(packet).len() as u64,
                Err(number) => number.into(),
            },
            Call::Measure => 0,
        }
    }

    fn packet(&mut self, packet: &[u8]) -> Result<usize, Number> {
        let book = book::read(self.book)?;
        bridge::packet(&book, self.size, &mut self.connection, packet, self.area).map(length)
    }

    fn burst(&mut self, packets: &[Vec<u8>]) -> Result<usize, Number> {
        let book = book::read(self.book)?;
        let burst = bridge::burst(&book, self.size, &mut self.connection, packets, self.area)?;
        Ok(burst.into_iter().map(length).sum())
    }

    fn settings(&self, seid: OurSeid) -> Result<usize, Number> {
        let book = book::read(self.book)?;
        bridge::settings(&book, &self.connection, seid).map(<[u8]>::len)
    }

    fn delay(&self, seid: OurSeid) -> Result<Option<u16>, Number> {
        let book = book::read(self.book)?;
        bridge::delay(&book, &self.connection, seid)
    }

    fn status(&self, seid: OurSeid) -> Result<Status, Number> {
        let book = book::read(self.book)?;
        bridge::status(&book, &self.connection, seid)
    }
}

/// The length of a reply's payload.
fn length(told: Told) -> usize {
    match told {
        Told::Silent(_) => 0,
        Told::Reply(message) => black_box(message).payload.len(),
    }
}

fn told(answer: Result<usize, Number>) -> u64 {
    match answer {
        Ok(length) => length as u64,
        Err(number) => number.into(),
    }
}
