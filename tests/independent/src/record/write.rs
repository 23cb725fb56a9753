//! Writing a record from parallel lists. The refusals come in the order 3 for
//! n, t, R, E; 10; 4; each edit 3 and then 5; 7 last.

use super::{is_good_loss_set, Edit, Record};
use super::{
    FEWEST_SEATS, HIGHEST_CELL, HIGHEST_CHANGE, LOWEST_CHANGE, MOST_EDITS, MOST_ROUNDS, MOST_SEATS,
};
use crate::number;
use crate::place::{Seat, Time};
use crate::refusal::Refusal;

/// What a host hands in to be written. E is the length of the seat list.
#[derive(Clone, Debug, Default, PartialEq, Eq)]
pub struct Lists {
    pub seats: u32,
    pub bound: u32,
    pub rounds: u32,
    pub losses: Vec<u32>,
    pub edit_seats: Vec<u32>,
    pub edit_times: Vec<u32>,
    pub edit_cells: Vec<u32>,
    pub edit_changes: Vec<i32>,
}

impl Lists {
    pub fn of(record: &Record) -> Lists {
        Lists {
            seats: record.seats as u32,
            bound: record.bound as u32,
            rounds: record.rounds as u32,
            losses: record.losses.clone(),
            edit_seats: record.edits.iter().map(|edit| edit.seat as u32).collect(),
            edit_times: record.edits.iter().map(|edit| edit.time as u32).collect(),
            edit_cells: record.edits.iter().map(|edit| edit.cell).collect(),
            edit_changes: record.edits.iter().map(|edit| edit.change).collect(),
        }
    }

    /// Writes the record to the front of the room and hands back its length.
    pub fn write(&self, room: &mut [u8]) -> Result<usize, Refusal> {
        let bytes = self.judge()?.bytes();
        let space = room.get_mut(..bytes.len()).ok_or(Refusal::Room)?;
        space.copy_from_slice(&bytes);
        Ok(bytes.len())
    }

    /// The record that the lists hold, if they hold a good one.
    pub fn judge(&self) -> Result<Record, Refusal> {
        self.judge_header()?;
        self.judge_lengths()?;
        self.judge_losses()?;
        Ok(Record {
            seats: self.seats as usize,
            bound: self.bound as usize,
            rounds: self.rounds as Time,
            losses: self.losses.clone(),
            edits: self.judge_edits()?,
        })
    }

    fn judge_header(&self) -> Result<(), Refusal> {
        let seats_good = (FEWEST_SEATS..=MOST_SEATS).contains(&self.seats);
        let bound_good = self.bound < self.seats;
        let rounds_good = self.rounds <= MOST_ROUNDS;
        let edits_good = self.edit_seats.len() <= MOST_EDITS as usize;
        if seats_good && bound_good && rounds_good && edits_good {
            Ok(())
        } else {
            Err(Refusal::Range)
        }
    }

    fn judge_lengths(&self) -> Result<(), Refusal> {
        let edits = self.edit_seats.len();
        let losses_fit = self.losses.len() == (self.seats * self.rounds) as usize;
        let times_fit = self.edit_times.len() == edits;
        let cells_fit = self.edit_cells.len() == edits;
        let changes_fit = self.edit_changes.len() == edits;
        if losses_fit && times_fit && cells_fit && changes_fit {
            Ok(())
        } else {
            Err(Refusal::Lengths)
        }
    }

    fn judge_losses(&self) -> Result<(), Refusal> {
        let seats = self.seats as usize;
        for (index, &set) in self.losses.iter().enumerate() {
            if !is_good_loss_set(set, index % seats, seats) {
                return Err(Refusal::LossSet);
            }
        }
        Ok(())
    }

    fn judge_edits(&self) -> Result<Vec<Edit>, Refusal> {
        let mut edits: Vec<Edit> = Vec::new();
        for index in 0..self.edit_seats.len() {
            let edit = self.judge_edit(index)?;
            if edits.last().map_or(false, |before| !edit.is_after(before)) {
                return Err(Refusal::Order);
            }
            edits.push(edit);
        }
        Ok(edits)
    }

    fn judge_edit(&self, index: usize) -> Result<Edit, Refusal> {
        let seat = self.edit_seats[index];
        let time = self.edit_times[index];
        let cell = self.edit_cells[index];
        let change = self.edit_changes[index];
        let change_good = (LOWEST_CHANGE..=HIGHEST_CHANGE).contains(&change);
        if seat < self.seats && time <= self.rounds && cell <= HIGHEST_CELL && change_good {
            Ok(Edit { seat: seat as Seat, time: time as Time, cell, change })
        } else {
            Err(Refusal::Range)
        }
    }
}

impl Record {
    pub fn bytes(&self) -> Vec<u8> {
        self.numbers().into_iter().flat_map(number::write).collect()
    }
}

#[cfg(test)]
mod tests;
