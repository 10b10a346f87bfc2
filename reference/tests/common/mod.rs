//! Runs the reference.

use std::io::Write;
use std::process::{Command, Output, Stdio};
use std::thread;

pub fn reference(words: &[&str], input: &[u8]) -> Output {
    let mut child = Command::new(env!("CARGO_BIN_EXE_reference"))
        .args(words)
        .stdin(Stdio::piped())
        .stdout(Stdio::piped())
        .spawn()
        .expect("the reference starts");
    let mut stdin = child.stdin.take().expect("it has an input");
    // Written beside the reading, so that neither pipe fills up.
    thread::scope(|scope| {
        scope.spawn(move || stdin.write_all(input).expect("it reads"));
        child.wait_with_output().expect("it ends")
    })
}
