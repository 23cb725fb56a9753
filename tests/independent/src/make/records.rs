//! Records for comparison: about half good, about half damaged.

use super::draft::Draft;
use super::{bytes, faults, good, Made};
use crate::random::Random;
use crate::record::Record;

/// No made record is longer than this; the lister judges less.
const LONGEST_MADE: usize = 5_200;

const LONGEST_GOOD: usize = 4_990;

pub fn record(random: &mut Random) -> Made {
    let mut made = match random.below(100) {
        0..=49 => good(random),
        50..=79 => spoilt(random),
        80..=95 => damaged(random),
        96..=98 => Made::new("noise", bytes::noise(random)),
        _ => Made::new("empty", Vec::new()),
    };
    made.bytes.truncate(LONGEST_MADE);
    made
}

fn good(random: &mut Random) -> Made {
    let record = good::record(random);
    let bytes = record.bytes();
    let word = if bytes.len() == LONGEST_GOOD { "longest" } else { "good" };
    Made::new(format!("{word}, {}", size(&record)), bytes)
}

/// One fault or several, so that the order of the refusals is tried as well.
fn spoilt(random: &mut Random) -> Made {
    let mut draft = Draft::of(&good::small_record(random));
    let count = random.pick(&[0, 1, 1, 1, 1, 2, 2]);
    let mut faults: Vec<&str> = (0..count).map(|_| faults::spoil(random, &mut draft)).collect();
    if count == 0 || random.chance(100) {
        faults::end_at_number(random, &mut draft);
        faults.push("cut at a number");
    }
    Made::new(format!("spoilt, {}", faults.join(", ")), draft.bytes())
}

fn damaged(random: &mut Random) -> Made {
    let record = if random.chance(10) { good::longest(random) } else { good::record(random) };
    let mut made = record.bytes();
    let count = random.pick(&[1, 1, 1, 2]);
    let damages: Vec<&str> = (0..count).map(|_| bytes::damage(random, &mut made)).collect();
    Made::new(format!("damaged, {}, {}", size(&record), damages.join(", ")), made)
}

/// How large a good record is and whether its losers are within the bound.
fn size(record: &Record) -> String {
    let Record { seats, bound, rounds, .. } = record;
    let edits = record.edits.len();
    let losers = record.losers().len();
    let within = if losers <= record.bound { "within" } else { "over" };
    format!("n {seats} t {bound} R {rounds} E {edits}, losers {losers}, {within} the bound")
}

#[cfg(test)]
mod tests {
    use super::*;
    use crate::page::{page, TAKEN};
    use crate::record::read::tests::outcome;

    #[test]
    fn twenty_thousand_records_are_spread_over_all_outcomes() {
        let mut random = Random::new(1);
        let mut outcomes = [0; 7];
        let mut over_lines = 0;
        for _ in 0..20_000 {
            let made = record(&mut random).bytes;
            let taken = &made[..made.len().min(TAKEN)];
            let outcome = outcome(taken);
            outcomes[usize::from(outcome)] += 1;
            if outcome == 0 && made.len() < 40 {
                over_lines += page(&made).matches(" over\n").count();
            }
        }
        assert!(outcomes[0] >= 5_000, "good records: {}", outcomes[0]);
        assert!(outcomes[1..].iter().all(|&count| count >= 200), "{outcomes:?}");
        assert!(over_lines >= 1_000, "over lines: {over_lines}");
    }
}
