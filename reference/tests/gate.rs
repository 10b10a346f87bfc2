//! The steps in gate/ have the answers beside them, worked out by hand from document 01. The gate's script begins with
//! them, and its answers are the reference's.

mod common;

use common::reference;
use std::fs;

#[test]
fn steps_by_hand() {
    let mut sections = 0;
    for file in fs::read_dir("gate").expect("the directory is there") {
        let file = file.expect("it can be read").path();
        if file.extension().is_some_and(|extension| extension == "script") {
            let script = fs::read(&file).expect("the script is there");
            let expected = fs::read(file.with_extension("expected")).expect("the answers are there");
            let answers = reference(&[], &script).stdout;
            assert_eq!(String::from_utf8_lossy(&answers), String::from_utf8_lossy(&expected), "{file:?}");
            sections += 1;
        }
    }
    assert!(sections > 0);
}

#[test]
fn the_answers_of_the_gate() {
    let script = fs::read("../crates/replay/stdin").expect("the gate's script is there");
    let expected = fs::read("../crates/replay/stdout").expect("its answers are there");
    assert_eq!(reference(&[], &script).stdout, expected);
}
