//! A connection that only the calls changed is legal: without `record`, `gathering`, `count` and `rebook` no call gives
//! 12.

mod common;

use common::reference;

#[test]
fn no_call_makes_a_connection_illegal() {
    for seed in ["1", "2", "3"] {
        let script = reference(&["--generate", seed, "30000"], b"").stdout;
        let mut kept = Vec::new();
        for line in script.split(|&octet| octet == b'\n') {
            let step = line.trim_ascii_start();
            let tampers = [&b"record"[..], b"gathering", b"count", b"rebook"];
            if !tampers.iter().any(|word| step.starts_with(word)) {
                kept.extend_from_slice(line);
                kept.push(b'\n');
            }
        }
        let answers = reference(&[], &kept).stdout;
        let answers = String::from_utf8(answers).expect("answers are letters and digits");
        assert!(answers.lines().filter(|line| line.starts_with('>')).count() > 3000);
        for line in answers.lines() {
            let mut words = line.split(' ');
            let call = words.next().expect("an answer has a word");
            let refused = ["refused", "burst", "event", "settings", "delay", "status"].contains(&call);
            assert!(!(refused && words.next() == Some("12")), "seed {seed}: {line}");
        }
    }
}
