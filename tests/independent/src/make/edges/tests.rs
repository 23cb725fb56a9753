use super::*;
use crate::page::{page, TAKEN};
use crate::record::read::read;
use crate::record::read::tests::outcome;

#[test]
fn every_outcome_is_among_the_edges() {
    let mut outcomes = [0; 7];
    for Made { bytes: record, .. } in records() {
        let taken = &record[..record.len().min(TAKEN)];
        outcomes[usize::from(outcome(taken))] += 1;
    }
    assert!(outcomes.iter().all(|&count| count >= 5), "{outcomes:?}");
}

#[test]
fn limits_are_good_and_one_past_them_is_refused() {
    let pages: Vec<String> =
        rounds_and_edits_at_their_limits().iter().map(|made| page(&made.bytes)).collect();
    let refused: Vec<bool> = pages.iter().map(|page| page == "refused 3\n").collect();
    let bare = [true, true];
    let rounds = [false, false, false, false, true, true];
    let edits = [false, false, true];
    assert_eq!(refused, [&bare[..], &rounds, &edits].concat());
}

#[test]
fn seats_and_bounds_are_good_exactly_in_their_ranges() {
    for Made { bytes: record, .. } in seats_and_bounds() {
        let good = (2..=7).contains(&record[0]) && record[1] < record[0];
        assert_eq!(read(&record).is_ok(), good);
    }
}

#[test]
fn the_longest_records_and_what_they_give() {
    let outcomes: Vec<u8> = longest_records().iter().map(|made| outcome(&made.bytes)).collect();
    assert_eq!(outcomes, [0, 6, 6, 1]);
}

#[test]
fn edits_out_of_order_and_what_they_give() {
    let outcomes: Vec<u8> =
        faulty::faults_in_order_of_edits().iter().map(|made| outcome(&made.bytes)).collect();
    assert_eq!(outcomes, [0, 5, 5, 5, 5, 5, 1, 1, 2, 3, 3, 3, 5, 6]);
}
