//! The commands: document 01, "Commands, each with its checks in order".

use crate::book::{Book, OurSeid};
use crate::codes::*;
use crate::elements::{append, configuration, reconfiguration, whole, Failure, DELAY};
use crate::endpoints::{Channel, FarSeid, Record, State};

pub const DISCOVER: u8 = 0x01;
pub const GET_CAPABILITIES: u8 = 0x02;
pub const SET_CONFIGURATION: u8 = 0x03;
pub const GET_CONFIGURATION: u8 = 0x04;
pub const RECONFIGURE: u8 = 0x05;
pub const OPEN: u8 = 0x06;
pub const START: u8 = 0x07;
pub const CLOSE: u8 = 0x08;
pub const SUSPEND: u8 = 0x09;
pub const ABORT: u8 = 0x0A;
pub const SECURITY_CONTROL: u8 = 0x0B;
pub const GET_ALL_CAPABILITIES: u8 = 0x0C;
pub const DELAY_REPORT: u8 = 0x0D;

pub enum Answer {
    Accept(Vec<u8>),
    Reject(Vec<u8>),
    GeneralReject,
    Silent(AbortFlaw),
}

/// Why an Abort was not answered (document 01: silent; AVDTP 1.3, 8.16.2).
#[derive(Clone, Copy, PartialEq, Eq, PartialOrd, Ord, Debug)]
pub enum AbortFlaw {
    Length,
    UnknownSeid,
}

/// What most commands' checks give: the accept's payload or the code.
type Outcome = Result<Vec<u8>, u8>;

/// What the checks of Start and Suspend give when they fail.
struct SeidFailure {
    seid: OurSeid,
    code: u8,
}

/// Serves a command over a legal connection: the records stand in the book's order.
pub fn serve(book: &Book, records: &mut [Record], signal: u8, payload: &[u8]) -> Answer {
    match signal {
        DISCOVER => with_code(discover(book, records, payload)),
        GET_CAPABILITIES => with_code(capabilities(book, payload, false)),
        GET_ALL_CAPABILITIES => with_code(capabilities(book, payload, true)),
        SET_CONFIGURATION => with_category(set_configuration(book, records, payload)),
        GET_CONFIGURATION => with_code(get_configuration(book, records, payload)),
        RECONFIGURE => with_category(reconfigure(book, records, payload)),
        OPEN => with_code(open(book, records, payload)),
        START => with_seid(start(book, records, payload)),
        CLOSE => with_code(close(book, records, payload)),
        SUSPEND => with_seid(suspend(book, records, payload)),
        ABORT => abort(book, records, payload),
        SECURITY_CONTROL => with_code(security_control(book, payload)),
        DELAY_REPORT => with_code(delay_report(book, records, payload)),
        _ => Answer::GeneralReject,
    }
}

fn with_code(outcome: Outcome) -> Answer {
    match outcome {
        Ok(payload) => Answer::Accept(payload),
        Err(code) => Answer::Reject(vec![code]),
    }
}

fn with_category(outcome: Result<(), Failure>) -> Answer {
    match outcome {
        Ok(()) => Answer::Accept(Vec::new()),
        Err(failure) => Answer::Reject(vec![failure.category, failure.code]),
    }
}

fn with_seid(outcome: Result<(), SeidFailure>) -> Answer {
    match outcome {
        Ok(()) => Answer::Accept(Vec::new()),
        Err(failure) => Answer::Reject(vec![failure.seid.0 << 2, failure.code]),
    }
}

/// Our SEID stands in bits 7 to 2; the others are reserved.
fn our_seid(octet: u8) -> OurSeid {
    OurSeid(octet >> 2)
}

/// The place in the book, and so in the records, of the endpoint that this octet names.
fn known(book: &Book, octet: u8) -> Result<usize, u8> {
    book.place_of(our_seid(octet)).ok_or(BAD_ACP_SEID)
}

/// The checks of a command whose payload is one SEID.
fn the_one(book: &Book, payload: &[u8]) -> Result<usize, u8> {
    match *payload {
        [octet] => known(book, octet),
        _ => Err(BAD_LENGTH),
    }
}

fn discover(book: &Book, records: &[Record], payload: &[u8]) -> Outcome {
    if !payload.is_empty() {
        return Err(BAD_LENGTH);
    }
    let mut list = Vec::new();
    for (entry, record) in book.entries.iter().zip(records) {
        let in_use = if record.state == State::Idle { 0 } else { 2 };
        list.push(entry.seid.0 << 2 | in_use);
        list.push(entry.kind);
    }
    Ok(list)
}

/// 02 gives categories 1 to 7, 0C gives all.
fn capabilities(book: &Book, payload: &[u8], all: bool) -> Outcome {
    let place = the_one(book, payload)?;
    let mut list = Vec::new();
    for element in whole(&book.entries[place].offered) {
        if all || element.category < DELAY {
            append(&mut list, element.category, element.value);
        }
    }
    Ok(list)
}

fn set_configuration(book: &Book, records: &mut [Record], payload: &[u8]) -> Result<(), Failure> {
    let fail = |code| Failure { category: 0, code };
    let &[ours, far, ref elements @ ..] = payload else {
        return Err(fail(BAD_LENGTH));
    };
    let place = known(book, ours).map_err(fail)?;
    if records[place].state != State::Idle {
        return Err(fail(SEP_IN_USE));
    }
    let far = FarSeid(far >> 2);
    if !far.is_valid() {
        return Err(fail(BAD_PAYLOAD_FORMAT));
    }
    let config = configuration(&book.entries[place].offered, elements)?;
    records[place].become_configured(far, config);
    Ok(())
}

fn get_configuration(book: &Book, records: &[Record], payload: &[u8]) -> Outcome {
    let place = the_one(book, payload)?;
    if !records[place].is_in_service() {
        return Err(BAD_STATE);
    }
    Ok(records[place].config.clone())
}

fn reconfigure(book: &Book, records: &mut [Record], payload: &[u8]) -> Result<(), Failure> {
    let fail = |code| Failure { category: 0, code };
    if payload.len() < 3 {
        return Err(fail(BAD_LENGTH));
    }
    let place = known(book, payload[0]).map_err(fail)?;
    let record = &mut records[place];
    match record.state {
        State::Idle => return Err(fail(SEP_NOT_IN_USE)),
        State::Open => (),
        _ => return Err(fail(BAD_STATE)),
    }
    record.config = reconfiguration(&book.entries[place].offered, &record.config, &payload[1..])?;
    Ok(())
}

fn open(book: &Book, records: &mut [Record], payload: &[u8]) -> Outcome {
    let place = the_one(book, payload)?;
    let taken = records.iter().any(|record| record.channel == Channel::Awaited);
    if records[place].state != State::Configured || taken {
        return Err(BAD_STATE);
    }
    records[place].become_open();
    Ok(Vec::new())
}

/// Open endpoints become streaming; one that still awaits its channel does not.
fn start(book: &Book, records: &mut [Record], payload: &[u8]) -> Result<(), SeidFailure> {
    turn(book, records, payload, State::Open, State::Streaming)
}

fn suspend(book: &Book, records: &mut [Record], payload: &[u8]) -> Result<(), SeidFailure> {
    turn(book, records, payload, State::Streaming, State::Open)
}

/// Each SEID in turn; stops at the first failure, and the earlier ones stay moved.
fn turn(
    book: &Book,
    records: &mut [Record],
    payload: &[u8],
    from: State,
    to: State,
) -> Result<(), SeidFailure> {
    if payload.is_empty() {
        return Err(SeidFailure { seid: OurSeid(0), code: BAD_LENGTH });
    }
    for &octet in payload {
        let fail = |code| SeidFailure { seid: our_seid(octet), code };
        let place = known(book, octet).map_err(fail)?;
        let record = &mut records[place];
        if record.state != from || record.channel != Channel::Up {
            return Err(fail(BAD_STATE));
        }
        record.state = to;
    }
    Ok(())
}

fn close(book: &Book, records: &mut [Record], payload: &[u8]) -> Outcome {
    let place = the_one(book, payload)?;
    if !matches!(records[place].state, State::Open | State::Streaming) {
        return Err(BAD_STATE);
    }
    records[place].leave(State::Closing);
    Ok(Vec::new())
}

/// The only command that is silent where others reject.
fn abort(book: &Book, records: &mut [Record], payload: &[u8]) -> Answer {
    match the_one(book, payload) {
        Err(BAD_LENGTH) => Answer::Silent(AbortFlaw::Length),
        Err(_) => Answer::Silent(AbortFlaw::UnknownSeid),
        Ok(place) => {
            records[place].leave(State::Aborting);
            Answer::Accept(Vec::new())
        }
    }
}

fn security_control(book: &Book, payload: &[u8]) -> Outcome {
    let octet = *payload.first().ok_or(BAD_LENGTH)?;
    known(book, octet)?;
    Err(NOT_SUPPORTED_COMMAND)
}

fn delay_report(book: &Book, records: &mut [Record], payload: &[u8]) -> Outcome {
    let &[octet, high, low] = payload else {
        return Err(BAD_LENGTH);
    };
    let place = known(book, octet)?;
    let record = &mut records[place];
    if !record.is_in_service() {
        return Err(BAD_STATE);
    }
    if !record.may_have_delay(&book.entries[place]) {
        return Err(NOT_SUPPORTED_COMMAND);
    }
    record.delay = Some(u16::from_be_bytes([high, low]));
    Ok(Vec::new())
}
