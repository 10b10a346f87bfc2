//! The scripts in examples/ have the answers beside them, worked out by hand from document 01 and DESIGN.

mod common;

use common::reference;
use std::fs;

fn compare(name: &str) {
    let file = format!("examples/{name}.script");
    let expected = fs::read(format!("examples/{name}.expected")).expect("the answers are there");
    let by_name = reference(&[&file], b"");
    assert_eq!(String::from_utf8_lossy(&by_name.stdout), String::from_utf8_lossy(&expected));
    let script = fs::read(&file).expect("the script is there");
    assert_eq!(reference(&[], &script).stdout, expected);
}

#[test]
fn table_and_cutting_cases() {
    compare("table");
}

#[test]
fn how_lines_are_read() {
    compare("format");
}

#[test]
fn no_input_has_no_answer() {
    let output = reference(&[], b"");
    assert!(output.status.success() && output.stdout.is_empty());
}

#[test]
fn the_same_seed_gives_the_same_script() {
    let first = reference(&["--generate", "7", "3000"], b"").stdout;
    let second = reference(&["--generate", "7", "3000"], b"").stdout;
    assert!(!first.is_empty() && first == second);
    assert_ne!(first, reference(&["--generate", "8", "3000"], b"").stdout);
}
