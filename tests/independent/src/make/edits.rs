//! Edits in strictly rising order, with cells and changes of all ranges.

use crate::place::{Seat, Time};
use crate::random::Random;
use crate::record::{Edit, Record};
use std::collections::BTreeSet;

/// Both ends of the range, and both sides of where a number gets a byte longer.
const CELLS: [u32; 8] = [0, 1, 127, 128, 16_383, 16_384, 65_534, 65_535];

/// The same for changes, whose mapped numbers get longer at 128 and at 16,384.
const CHANGES: [i32; 13] =
    [0, 1, -1, 63, 64, -64, -65, 8_191, 8_192, -8_192, -8_193, 32_767, -32_768];

pub fn edits(random: &mut Random, record: &Record, count: usize) -> Vec<Edit> {
    let mut keys: BTreeSet<(Time, Seat, u32)> = BTreeSet::new();
    while keys.len() < count {
        let time = random.between(0, record.rounds as u64) as Time;
        keys.insert((time, random.index(record.seats), any_cell(random)));
    }
    let with_change = |(time, seat, cell)| Edit { seat, time, cell, change: any_change(random) };
    keys.into_iter().map(with_change).collect()
}

pub fn any_cell(random: &mut Random) -> u32 {
    if random.chance(400) {
        random.pick(&CELLS)
    } else {
        random.below(65_536) as u32
    }
}

pub fn any_change(random: &mut Random) -> i32 {
    if random.chance(400) {
        random.pick(&CHANGES)
    } else {
        random.below(65_536) as i32 - 32_768
    }
}
