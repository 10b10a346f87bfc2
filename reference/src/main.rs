//! A reference for document 01 and Q-1 of document 02: the acceptor, run by scripts (DESIGN, "Replay: the technician's
//! program").
//!
//! `reference [FILE..]` answers each script, or standard input; each FILE is a script of its own.
//! `reference --generate SEED COUNT` writes a random script.
//! `reference --coverage FILE` counts what a script reaches.

mod book;
mod bridge;
mod codes;
mod commands;
mod coverage;
mod elements;
mod endpoints;
mod generate;
mod input;
mod numbers;
mod packets;
mod rng;
mod script;
mod session;

use std::env;
use std::fs::File;
use std::io::{self, BufRead, BufReader, BufWriter, Write};
use std::process::ExitCode;

fn main() -> ExitCode {
    let words: Vec<String> = env::args().skip(1).collect();
    match run(&words) {
        Ok(()) => ExitCode::SUCCESS,
        // Whoever reads the answers may have read enough.
        Err(error) if error.kind() == io::ErrorKind::BrokenPipe => ExitCode::SUCCESS,
        Err(error) => {
            eprintln!("reference: {error}");
            ExitCode::FAILURE
        }
    }
}

fn run(words: &[String]) -> io::Result<()> {
    let mut out = BufWriter::with_capacity(1 << 16, io::stdout().lock());
    let words: Vec<&str> = words.iter().map(String::as_str).collect();
    match words[..] {
        ["--generate", seed, count] => generate::script(whole_number(seed)?, whole_number(count)?, &mut out)?,
        ["--coverage", file] => coverage::table(opened(file)?, &mut out)?,
        [] => answers(io::stdin().lock(), &mut out)?,
        _ => {
            for file in words {
                answers(opened(file)?, &mut out)?;
            }
        }
    }
    out.flush()
}

fn answers(input: impl BufRead, out: &mut impl Write) -> io::Result<()> {
    let mut session = session::Session::new();
    let mut line_number = 0;
    input::each_line(input, |line| {
        line_number += 1;
        session.line(line).write(out, line_number, session.size.into())
    })
}

fn opened(file: &str) -> io::Result<BufReader<File>> {
    let opened = File::open(file);
    opened.map(BufReader::new).map_err(|error| io::Error::new(error.kind(), format!("{file}: {error}")))
}

fn whole_number(word: &str) -> io::Result<u64> {
    word.parse().map_err(|_| io::Error::other(format!("{word} is no number")))
}
