//! Input of any length and any octets, line by line.

use std::io::{self, BufRead};

use crate::script::LONGEST_LINE;

/// Gives each line without its newline. Of a line that is too long only enough is kept to tell that it is, so that
/// no input needs more memory than one line. A last line without newline counts; an end right behind a newline, or
/// no input at all, begins no line.
pub fn each_line(mut input: impl BufRead, mut take: impl FnMut(&[u8]) -> io::Result<()>) -> io::Result<()> {
    let mut line: Vec<u8> = Vec::new();
    let mut begun = false;
    loop {
        let read = match input.fill_buf() {
            Err(error) if error.kind() == io::ErrorKind::Interrupted => continue,
            read => read?,
        };
        if read.is_empty() {
            break;
        }
        let newline = read.iter().position(|&octet| octet == b'\n');
        let piece = &read[..newline.unwrap_or(read.len())];
        let room = LONGEST_LINE + 1 - line.len();
        line.extend_from_slice(&piece[..piece.len().min(room)]);
        begun = newline.is_none();
        let used = piece.len() + usize::from(newline.is_some());
        input.consume(used);
        if newline.is_some() {
            take(&line)?;
            line.clear();
        }
    }
    if begun {
        take(&line)?;
    }
    Ok(())
}
