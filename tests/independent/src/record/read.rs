//! Reading a record. The first faulty number in byte order decides.

use super::{is_good_loss_set, Edit, Record};
use super::{
    FEWEST_SEATS, HIGHEST_CELL, HIGHEST_MAPPED_CHANGE, MOST_EDITS, MOST_ROUNDS, MOST_SEATS,
};
use crate::change;
use crate::number;
use crate::place::{Seat, Time};
use crate::refusal::Refusal;

struct Reader<'a> {
    rest: &'a [u8],
}

pub fn read(bytes: &[u8]) -> Result<Record, Refusal> {
    let mut reader = Reader { rest: bytes };
    let seats = reader.ranged(FEWEST_SEATS, MOST_SEATS)?;
    let bound = reader.ranged(0, seats - 1)?;
    let rounds = reader.ranged(0, MOST_ROUNDS)?;
    let edit_count = reader.ranged(0, MOST_EDITS)?;
    let record = Record {
        seats: seats as usize,
        bound: bound as usize,
        rounds: rounds as Time,
        losses: reader.losses(seats as usize, rounds)?,
        edits: reader.edits(edit_count, seats, rounds)?,
    };
    if reader.rest.is_empty() {
        Ok(record)
    } else {
        Err(Refusal::BytesLeft)
    }
}

impl Reader<'_> {
    fn number(&mut self) -> Result<u32, Refusal> {
        let (value, rest) = number::read(self.rest)?;
        self.rest = rest;
        Ok(value)
    }

    /// For one number, 1 or 2 comes before 3.
    fn ranged(&mut self, lowest: u32, highest: u32) -> Result<u32, Refusal> {
        let value = self.number()?;
        if (lowest..=highest).contains(&value) {
            Ok(value)
        } else {
            Err(Refusal::Range)
        }
    }

    /// For one number, 1 or 2 comes before 4.
    fn loss_set(&mut self, sender: Seat, seats: usize) -> Result<u32, Refusal> {
        let set = self.number()?;
        if is_good_loss_set(set, sender, seats) {
            Ok(set)
        } else {
            Err(Refusal::LossSet)
        }
    }

    fn losses(&mut self, seats: usize, rounds: u32) -> Result<Vec<u32>, Refusal> {
        let mut losses = Vec::new();
        for _round in 0..rounds {
            for sender in 0..seats {
                losses.push(self.loss_set(sender, seats)?);
            }
        }
        Ok(losses)
    }

    fn edit(&mut self, seats: u32, rounds: u32) -> Result<Edit, Refusal> {
        Ok(Edit {
            seat: self.ranged(0, seats - 1)? as Seat,
            time: self.ranged(0, rounds)? as Time,
            cell: self.ranged(0, HIGHEST_CELL)?,
            change: change::unmapped(self.ranged(0, HIGHEST_MAPPED_CHANGE)?),
        })
    }

    /// 5 is tested when an edit is complete.
    fn edits(&mut self, count: u32, seats: u32, rounds: u32) -> Result<Vec<Edit>, Refusal> {
        let mut edits: Vec<Edit> = Vec::new();
        for _edit in 0..count {
            let edit = self.edit(seats, rounds)?;
            if edits.last().map_or(false, |before| !edit.is_after(before)) {
                return Err(Refusal::Order);
            }
            edits.push(edit);
        }
        Ok(edits)
    }
}

#[cfg(test)]
pub mod tests;
