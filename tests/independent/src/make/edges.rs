//! Fixed records: the examples and edges of document 01, and everything at its
//! limit and one past it.

mod faulty;

use super::draft::Draft;
use super::{good, Made};
use crate::change;
use crate::examples;
use crate::random::Random;
use crate::record::{Edit, Record};

pub fn records() -> Vec<Made> {
    [
        proved_examples(),
        seats_and_bounds(),
        rounds_and_edits_at_their_limits(),
        longest_records(),
        cells_and_changes(),
        loss_sets(),
        faulty::faults_in_each_number(),
        faulty::two_faults(),
        faulty::faults_in_order_of_edits(),
        faulty::bytes_left(),
    ]
    .concat()
}

/// P1 to P11, and the empty record.
fn proved_examples() -> Vec<Made> {
    vec![
        Made::new("P1 to P3, no loss", examples::no_loss().bytes()),
        Made::new("P4 to P6, one loss", examples::one_loss().bytes()),
        Made::new("P7 and P8, two losers", examples::two_losers().bytes()),
        Made::new("P9, over the bound", examples::over_the_bound().bytes()),
        Made::new("P10, bound 0", examples::bound_zero().bytes()),
        Made::new("P11, the printed record", examples::PRINTED.to_vec()),
        Made::new("the empty record", Vec::new()),
    ]
}

/// Every n from 0 to 9 with every bound up to n + 1.
fn seats_and_bounds() -> Vec<Made> {
    let header = |seats: u8, bound: u8| {
        Made::new(format!("{seats} seats, bound {bound}"), vec![seats, bound, 0, 0])
    };
    let bounds = |seats: u8| (0..=seats + 1).map(move |bound| header(seats, bound));
    (0..=9).flat_map(bounds).collect()
}

/// R 127 and 128, E 512 and 513, each in full; and as bare headers.
fn rounds_and_edits_at_their_limits() -> Vec<Made> {
    let mut records = vec![
        Made::new("128 rounds, bare header", vec![2, 0, 0x80, 0x01, 0]),
        Made::new("513 edits, bare header", vec![2, 0, 0, 0x81, 0x04]),
    ];
    for rounds in [126, 127, 128] {
        for seats in [2, 7] {
            let bytes = blank(seats, rounds, 0).bytes();
            records.push(Made::new(format!("{seats} seats, {rounds} rounds"), bytes));
        }
    }
    for edits in [511, 512, 513] {
        records.push(Made::new(format!("{edits} edits"), blank(2, 0, edits).bytes()));
    }
    records
}

/// The longest good record, one byte more, two more, one byte less.
fn longest_records() -> Vec<Made> {
    let longest = good::longest(&mut Random::new(1)).bytes();
    let more = [&longest[..], &[0]].concat();
    let still_more = [&more[..], &[0]].concat();
    let less = longest[..longest.len() - 1].to_vec();
    vec![
        Made::new("longest", longest),
        Made::new("longest and a byte", more),
        Made::new("longest and two bytes", still_more),
        Made::new("longest less a byte", less),
    ]
}

/// P12's numbers and their neighbours as cells and as mapped changes.
fn cells_and_changes() -> Vec<Made> {
    let numbers = [0, 1, 2, 126, 127, 128, 129, 16_383, 16_384, 65_534, 65_535, 65_536];
    let mut records = Vec::new();
    for number in numbers {
        records.push(one_edit(format!("cell {number}"), 2, number));
        records.push(one_edit(format!("mapped change {number}"), 3, number));
    }
    for change in [-1, 1, -32_768, 32_767] {
        records.push(one_edit(format!("change {change}"), 3, change::mapped(change)));
    }
    records
}

/// A record of one edit, a field of which has this number.
fn one_edit(shape: String, field: usize, number: u32) -> Made {
    let mut draft = Draft::of(&blank(2, 0, 1));
    draft.set(draft.edit(0, field), number);
    Made::new(shape, draft.bytes())
}

/// Every set of one bit, and the fullest good set, at each sender of each n.
fn loss_sets() -> Vec<Made> {
    let mut records = Vec::new();
    for seats in 2..=7 {
        for sender in 0..seats {
            let fullest = ((1 << seats) - 1) & !(1 << sender);
            for set in (0..21).map(|bit| 1 << bit).chain([fullest]) {
                let mut draft = Draft::of(&blank(seats, 2, 0));
                draft.set(draft.loss(seats + sender), set);
                let shape = format!("{seats} seats, sender {sender}, loss set {set} in round 2");
                records.push(Made::new(shape, draft.bytes()));
            }
        }
    }
    records
}

/// A record without loss and with edits that are strictly ordered; its numbers
/// may be past their limits.
fn blank(seats: usize, rounds: i32, edits: u32) -> Record {
    let edit = |cell| Edit { seat: 0, time: 0, cell, change: 0 };
    Record {
        seats,
        bound: 0,
        rounds,
        losses: vec![0; seats * rounds as usize],
        edits: (0..edits).map(edit).collect(),
    }
}

#[cfg(test)]
mod tests;
