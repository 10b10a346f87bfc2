//! A burst that is not refused is its packets one by one: the packets of a random script are answered alike alone and
//! in bursts, and the other steps show that both leave the same connection.

mod common;

use common::reference;
use std::collections::HashSet;

/// Steps that are understood, without bursts. Every burst would have room for its replies.
fn steps(seed: &str) -> Vec<String> {
    let script = reference(&["--generate", seed, "30000"], b"").stdout;
    let script = String::from_utf8_lossy(&script);
    let answers = answers(&script);
    let answers: HashSet<&str> = answers.lines().collect();
    let not_understood = |number: usize| answers.contains(&format!("line {number} not understood")[..]);
    let mut steps = vec!["area 1024".to_string()];
    for (place, line) in script.lines().enumerate() {
        let line = line.split('#').next().unwrap_or("").trim();
        if !(line.starts_with("area") || line.starts_with("burst") || not_understood(place + 1)) {
            steps.push(line.to_string());
        }
    }
    steps
}

fn answers(script: &str) -> String {
    String::from_utf8(reference(&[], script.as_bytes()).stdout).expect("answers are letters and digits")
}

/// The script with each row of packets as bursts, and how many packets each has. A line holds 8,191 octets.
fn in_bursts(steps: &[String]) -> (String, Vec<usize>) {
    let mut lines: Vec<String> = Vec::new();
    let mut counts: Vec<usize> = Vec::new();
    let mut goes_on = false;
    for step in steps {
        let Some(octets) = step.strip_prefix("packet") else {
            lines.push(step.clone());
            goes_on = false;
            continue;
        };
        match (lines.last_mut(), counts.last_mut()) {
            (Some(burst), Some(count)) if goes_on && *count < 16 && burst.len() + octets.len() < 8190 => {
                *burst += &format!(" /{octets}");
                *count += 1;
            }
            _ => {
                lines.push(format!("burst /{octets}"));
                counts.push(1);
                goes_on = true;
            }
        }
    }
    (lines.join("\n"), counts)
}

/// The answers as they are without bursts: each packet of a refused burst is refused by the same number.
fn one_by_one(answers: &str, counts: &[usize]) -> String {
    let mut counts = counts.iter();
    let mut alone = String::new();
    for answer in answers.lines() {
        match answer.strip_prefix("burst ") {
            None => alone += &format!("{answer}\n"),
            Some(number) => {
                let count = *counts.next().expect("each burst has one answer");
                let refused = if number == "0" { 0 } else { count };
                alone += &format!("refused {number}\n").repeat(refused);
            }
        }
    }
    alone
}

#[test]
fn a_burst_is_its_packets_one_by_one() {
    for seed in ["1", "2", "3"] {
        let steps = steps(seed);
        let (bursts, counts) = in_bursts(&steps);
        assert!(counts.iter().filter(|count| **count > 1).count() > 2000 && counts.contains(&16));
        assert!(one_by_one(&answers(&bursts), &counts) == answers(&steps.join("\n")), "seed {seed}");
    }
}
