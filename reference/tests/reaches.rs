//! A random script reaches everything that document 01 and Q-1 let a script reach.

mod common;

use common::reference;
use std::env;
use std::fs;
use std::process;

#[test]
fn nothing_is_left_out() {
    let file = env::temp_dir().join(format!("reaches-{}.script", process::id()));
    fs::write(&file, reference(&["--generate", "1", "100000"], b"").stdout).expect("there is room");
    let table = reference(&["--coverage", file.to_str().expect("a plain name")], b"").stdout;
    fs::remove_file(&file).expect("it was written");
    let table = String::from_utf8_lossy(&table);
    assert!(table.contains("not reached: 0\n"), "{table}");
}
