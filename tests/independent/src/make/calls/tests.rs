use super::*;
use crate::script::call::Call;
use crate::script::carriers::Carriers;
use crate::script::play;
use crate::script::possible::{outcome, possible};
use std::collections::BTreeSet;

/// For each line of the stream: the comment above it, the line, and what it prints.
fn played() -> Vec<(String, String, String)> {
    let carriers = &mut Carriers::fresh();
    let mut comment = String::new();
    let mut played = Vec::new();
    for line in stream().lines() {
        if let Some(text) = line.strip_prefix('#') {
            comment = text.trim_start().to_string();
        } else {
            let call = Call::parse(line.as_bytes());
            let answer = call.map_or("unknown".to_string(), |call| play::line(carriers, &call));
            played.push((comment.clone(), line.to_string(), answer));
        }
    }
    played
}

/// The number at the front of a comment: the refusal that the calls below give.
fn announced(comment: &str) -> Option<&str> {
    let end = comment.find(|letter: char| !letter.is_ascii_digit())?;
    Some(&comment[..end]).filter(|digits| !digits.is_empty())
}

#[test]
fn every_call_meets_all_of_its_outcomes() {
    let mut met = BTreeSet::new();
    for (_, line, answer) in played() {
        if let Some(call) = Call::parse(line.as_bytes()) {
            met.insert(outcome(&call, &answer));
        }
    }
    assert_eq!(met, possible().into_iter().collect());
}

/// Below a number only that refusal is given; lines that fill a carrier are done.
#[test]
fn every_comment_says_which_refusal_is_given() {
    for (comment, line, answer) in played() {
        match announced(&comment) {
            Some(number) => {
                let refused = answer.ends_with(&format!(" refused {number}"));
                assert!(refused || answer.ends_with(" done"), "{comment} {line}: {answer}");
            }
            None => assert!(!answer.contains(" refused "), "{comment} {line}: {answer}"),
        }
    }
}

#[test]
fn a_comment_with_a_number_stands_above_such_a_refusal() {
    let played = played();
    for line in stream().lines().filter_map(|line| line.strip_prefix("# ")) {
        if let Some(number) = announced(line) {
            let refusal = format!(" refused {number}");
            let below = played.iter().filter(|(comment, _, _)| comment == line);
            assert!(below.into_iter().any(|(_, _, answer)| answer.ends_with(&refusal)), "{line}");
        }
    }
}

#[test]
fn exactly_the_lines_that_are_no_calls_are_unknown() {
    let unknown: Vec<String> = played()
        .into_iter()
        .filter(|(_, _, answer)| answer == "unknown")
        .map(|(_, line, _)| line)
        .collect();
    assert_eq!(unknown, NO_CALLS);
}

/// The tables before and after refusals.
#[test]
fn refusals_leave_the_table() {
    let sums: Vec<(String, String)> = played()
        .into_iter()
        .filter(|(_, line, _)| line == "table-sum")
        .map(|(comment, _, answer)| (comment, answer))
        .collect();
    let unchanged =
        |comment: &str| comment.starts_with("No refusal") || comment.ends_with("it was.");
    for pair in sums.windows(2) {
        assert_eq!(pair[0].1 == pair[1].1, unchanged(&pair[1].0), "{pair:?}");
    }
}
