//! A record as separate numbers, each in its bytes, so that one of them can be
//! spoilt without regard to the rest.

use crate::number;
use crate::record::{
    Record, HIGHEST_CELL, HIGHEST_MAPPED_CHANGE, MOST_EDITS, MOST_ROUNDS, MOST_SEATS,
};

pub const HEADER: usize = 4;
pub const EDIT_FIELDS: usize = 4;

#[derive(Clone)]
pub struct Draft {
    pub numbers: Vec<Vec<u8>>,
    pub seats: u32,
    pub rounds: u32,
    pub edits: usize,
}

impl Draft {
    pub fn of(record: &Record) -> Draft {
        Draft {
            numbers: record.numbers().into_iter().map(number::write).collect(),
            seats: record.seats as u32,
            rounds: record.rounds as u32,
            edits: record.edits.len(),
        }
    }

    pub fn bytes(&self) -> Vec<u8> {
        self.numbers.concat()
    }

    pub fn set(&mut self, position: usize, value: u32) {
        self.numbers[position] = number::write(value);
    }

    /// The highest value that is in range at a position. One more is 3, or 4
    /// for a loss set, as its bit n is then set.
    pub fn limit(&self, position: usize) -> u32 {
        if position < HEADER {
            [MOST_SEATS, self.seats - 1, MOST_ROUNDS, MOST_EDITS][position]
        } else if position < self.edit(0, 0) {
            (1 << self.seats) - 1
        } else {
            let field = (position - self.edit(0, 0)) % EDIT_FIELDS;
            [self.seats - 1, self.rounds, HIGHEST_CELL, HIGHEST_MAPPED_CHANGE][field]
        }
    }

    /// What stands at a position, in plain words.
    pub fn name(&self, position: usize) -> String {
        if position < HEADER {
            ["n", "t", "R", "E"][position].to_string()
        } else if position < self.edit(0, 0) {
            format!("loss set {}", position - HEADER)
        } else {
            let index = position - self.edit(0, 0);
            let field = ["seat", "time", "cell", "change"][index % EDIT_FIELDS];
            format!("{field} of edit {}", index / EDIT_FIELDS)
        }
    }

    pub fn loss_count(&self) -> usize {
        (self.seats * self.rounds) as usize
    }

    /// Where a loss set stands among the numbers.
    pub fn loss(&self, index: usize) -> usize {
        HEADER + index
    }

    /// Where a field of an edit stands: 0 seat, 1 time, 2 cell, 3 change.
    pub fn edit(&self, index: usize, field: usize) -> usize {
        HEADER + self.loss_count() + index * EDIT_FIELDS + field
    }
}
