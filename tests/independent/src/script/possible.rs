//! What each call can end in, for the tests of the makers.

use super::call::Call;

/// A call's name with the number of its refusal, or 0 for its answer.
pub type Outcome = (String, u8);

const CALLS: [(&str, &[u8]); 19] = [
    ("fresh", &[]),
    ("bytes", &[]),
    ("lists", &[]),
    ("losses", &[]),
    ("editors", &[]),
    ("times", &[]),
    ("cells", &[]),
    ("changes", &[]),
    ("bytes-check", &[1, 2, 3, 4, 5, 6]),
    ("bytes-read", &[7, 1, 2, 3, 4, 5, 6]),
    ("lists-judge", &[3, 10, 4, 5]),
    ("lists-length", &[3, 10, 4, 5]),
    ("lists-write", &[3, 10, 4, 5, 7]),
    ("table-open", &[3]),
    ("table-round", &[19, 11, 10, 4]),
    ("table-edit", &[19, 3, 12, 5]),
    ("table-record", &[19, 7]),
    ("table-alter", &[]),
    ("table-sum", &[]),
];

const CARRIERS: [(&str, &[u8]); 3] =
    [("bytes", &[1, 2, 3, 4, 5, 6]), ("lists", &[3, 10, 4, 5]), ("table", &[19])];

const QUESTIONS: [(&str, &[u8]); 6] = [
    ("seen", &[8]),
    ("agreed", &[8, 9]),
    ("standing", &[8]),
    ("view", &[8, 7]),
    ("core", &[8, 7, 9]),
    ("marks", &[8, 7, 9]),
];

/// Every outcome that document 01 allows: each call's answer and each of its refusals.
pub fn possible() -> Vec<Outcome> {
    let mut outcomes = Vec::new();
    for (name, numbers) in CALLS {
        add(&mut outcomes, name, numbers);
    }
    for (carrier, own) in CARRIERS {
        for (question, numbers) in QUESTIONS {
            add(&mut outcomes, &format!("{carrier}-{question}"), &[own, numbers].concat());
        }
    }
    outcomes
}

fn add(outcomes: &mut Vec<Outcome>, name: &str, numbers: &[u8]) {
    outcomes.push((name.to_string(), 0));
    outcomes.extend(numbers.iter().map(|&number| (name.to_string(), number)));
}

/// The outcome of a call from the line that it printed.
pub fn outcome(call: &Call, line: &str) -> Outcome {
    let refusal = line.split_once(" refused ");
    (call.name(), refusal.map_or(0, |(_, number)| number.parse().unwrap()))
}
